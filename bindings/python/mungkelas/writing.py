"""to_bed: a NumPy array, written as .bed, .fam and .bim files."""
import errno
import mmap as mapping
import os

import numpy as np

from . import core, names, parts
from .reading import flat


def _write_all(paths_and_fills):
    """Fills PATH.part for each path, and then renames all of them; at an exception none is left."""
    paths = [path for path, _ in paths_and_fills]
    if len({os.path.abspath(path) for path in paths}) < len(paths):
        raise ValueError("{} are not {} files".format(", ".join(paths), len(paths)))
    for path in paths:
        if os.path.exists(path) and not os.path.isfile(path):  # else it is met after another file has got its name
            raise OSError(errno.EEXIST, "this is no plain file, and is not written over", path)
    try:
        for path, fill in paths_and_fills:
            with open(path + ".part", "w+b") as file:
                fill(file)
                file.flush()
                os.fsync(file.fileno())
        for path in paths:
            os.replace(path + ".part", path)
    finally:
        for path in paths:
            if os.path.exists(path + ".part"):
                os.unlink(path + ".part")


def _lent(val):
    """The order in which val can be lent as it is; None if it has to be converted in parts."""
    if val.dtype not in (np.dtype(np.int8), np.dtype(np.float64)) or not val.flags.aligned:
        return None
    return "F" if val.flags.f_contiguous else "C" if val.flags.c_contiguous else None


def _pack(val, width, flag, threads, mapped):
    """Writes the .bed into a mapped file of its length."""
    iid_count, sid_count = val.shape
    order = _lent(val)
    call = core.write_i8 if order and val.dtype == np.int8 else core.write_f64
    missing = -127 if val.dtype.kind in "iu" else np.nan
    if order == "C" or (order == "F" and threads == 1):
        call(flat(val, order), iid_count, sid_count, order == "C", flag, missing, mapped)
        return

    def work(part):
        start, end = part
        some = val[:, start:end]
        if not order:
            some = np.array(some, np.float64, order="F")
        packed = memoryview(bytearray(3 + width * (end - start)))
        try:
            call(flat(some, "F"), iid_count, end - start, False, flag, missing, packed)
        except core.BedError as e:
            raise core.refusal(e.number, e.first, e.second + start) from None
        header = 0 if start == 0 else 3  # each part is a file of its own
        mapped[header + width * start:3 + width * end] = packed[header:]

    cuts = parts.cut(sid_count, parts.lines_of_part(sid_count, iid_count, False, threads, False))
    parts.run(work, cuts or [(0, 0)], threads, lambda part: None)


def to_bed(filepath, val, properties={}, count_A1=True, fam_filepath=None, bim_filepath=None, *, num_threads=None):
    """Writes val, a matrix of animals times markers, as a .bed of mode 1, with a .fam and a .bim beside it.

    val: values 0, 1, 2 and missing: NaN among floats, -127 among ints. int8 and float64 that are contiguous are lent as
        they are, others converted in parts. Another value is refused (7), with its animal and marker.
    properties: names for the .fam and .bim; by default iid1, iid2 and so on, sid1, sid2 and so on, A1, A2, and 0.
    count_A1: whether values count the first allele, else the second.
    Every file is written as PATH.part, and all are renamed when the last one is done.
    """
    val = np.asarray(val)
    if val.ndim != 2:
        raise ValueError("val has {} axes, not 2".format(val.ndim))
    if not (val.dtype.kind in "iu" or (val.dtype.kind == "f" and val.dtype.itemsize <= 8)):
        raise TypeError("val has values of {}".format(val.dtype))
    names.check_known(properties)
    filepath = os.fsdecode(filepath)
    fam = names.filled(names.given(properties, names.FAM), names.FAM, val.shape[0])
    bim = names.filled(names.given(properties, names.BIM), names.BIM, val.shape[1])
    threads = parts.thread_count(num_threads)

    def bed(file):
        try:
            width = core.try_div_4(*val.shape)
            length = 3 + width * val.shape[1]
            os.posix_fallocate(file.fileno(), 0, length)  # a full disk is met here
            with mapping.mmap(file.fileno(), length) as mapped:
                _pack(val, width, bool(count_A1), threads, mapped)
        except core.BedError as e:
            raise core.refusal(e.number, e.first, e.second, filepath) from None

    _write_all([(names.path_of(filepath, fam_filepath, ".fam"), lambda file: names.write(file, fam, " ")),
                (names.path_of(filepath, bim_filepath, ".bim"), lambda file: names.write(file, bim, "\t")),
                (filepath, bed)])

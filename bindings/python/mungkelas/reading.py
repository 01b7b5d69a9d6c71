"""open_bed: a .bed file, read into NumPy arrays."""
import mmap as mapping
import os
import threading
from contextlib import contextmanager

import numpy as np

from . import core, names, parts
from .lists import to_lists

_NO_ENTRIES = np.zeros(0, np.int64)
_NO_VALUES = np.zeros(0, np.int8)
_MISSING = {np.dtype(np.int8): -127, np.dtype(np.float32): np.nan, np.dtype(np.float64): np.nan}


@contextmanager
def met(where):
    """A refusal says where it was met."""
    try:
        yield
    except core.BedError as e:
        raise core.refusal(e.number, e.first, e.second, where) from None


def _room(out, dtype, order, shape):
    """The matrix to be filled, out or a new one, and its order."""
    if out is None:
        dtype, order = np.dtype("float32" if dtype is None else dtype), "F" if order is None else order
        if dtype not in _MISSING:
            raise ValueError("dtype is {}, none of int8, float32, float64".format(dtype))
        if order not in ("F", "C"):
            raise ValueError("order is {!r}, neither 'F' nor 'C'".format(order))
        return np.zeros(shape, dtype, order), order
    if not isinstance(out, np.ndarray):
        raise TypeError("out is no NumPy array")
    if order is None:
        order = "F" if out.flags.f_contiguous else "C"
    if out.dtype not in _MISSING or (dtype is not None and out.dtype != np.dtype(dtype)):
        raise ValueError("out has values of {}".format(out.dtype))
    if out.shape != shape:
        raise ValueError("out has shape {}, not {}".format(out.shape, shape))
    if order not in ("F", "C") or not out.flags["F_CONTIGUOUS" if order == "F" else "C_CONTIGUOUS"]:
        raise ValueError("out is not contiguous in order {!r}".format(order))
    if not (out.flags.writeable and out.flags.aligned):
        raise ValueError("out cannot be written")
    return out, order


def flat(val, order):
    """The values of a matrix contiguous in this order, as they stand in memory."""
    val = np.asarray(val)
    return (val.T if order == "F" else val).reshape(-1)


class open_bed:
    """A .bed file, open for reading; `with` closes it.

    filepath: the .bed; the .fam and .bim stand beside it, or at fam_filepath and bim_filepath.
    iid_count, sid_count: the animals and markers; by default the lines of the .fam and of the .bim.
    properties: names that stand for those of the .fam and .bim; None for one that is not wanted.
    count_A1: whether values count the first allele, else the second.
    num_threads: for every reading that names no number itself; by default MUNGKELAS_NUM_THREADS or NUM_THREADS of the
        environment, or all processors; 0 is all processors.
    skip_format_check: the header is not looked at before the first reading.
    mmap: the file is mapped; False: it is read whole now, for a file that may change meanwhile.
    """

    def __init__(self, filepath, iid_count=None, sid_count=None, properties={}, count_A1=True, num_threads=None,
                 skip_format_check=False, fam_filepath=None, bim_filepath=None, *, mmap=True):
        self.filepath = os.fsdecode(filepath)
        self.count_A1 = bool(count_A1)
        self._num_threads = num_threads
        names.check_known(properties)
        self._fam = names.Names(names.path_of(self.filepath, fam_filepath, ".fam"), names.FAM, iid_count, properties)
        self._bim = names.Names(names.path_of(self.filepath, bim_filepath, ".bim"), names.BIM, sid_count, properties)
        with open(self.filepath, "rb") as file:
            if not mmap:
                self._file = file.read()
            elif os.fstat(file.fileno()).st_size:
                self._file = mapping.mmap(file.fileno(), 0, access=mapping.ACCESS_READ)
            else:
                self._file = b""
        if not skip_format_check:
            with met(self.filepath):
                core.open_and_check(self._file)

    def close(self):
        """Unmaps the file. What was read stays."""
        if isinstance(self._file, mapping.mmap):
            self._file.close()
        self._file = None

    def __enter__(self):
        return self

    def __exit__(self, *_):
        self.close()

    def __repr__(self):
        return "open_bed({!r})".format(self.filepath)

    # ---- counts and names

    @property
    def iid_count(self):
        """The number of animals."""
        return self._fam.count()

    @property
    def sid_count(self):
        """The number of markers."""
        return self._bim.count()

    @property
    def shape(self):
        """The numbers of animals and markers."""
        return self.iid_count, self.sid_count

    def property_item(self, name):
        """The values of a field of the .fam or the .bim, by its name; None if it is not wanted."""
        names.check_known([name])
        return (self._fam if name in names.FAM else self._bim).field(name)

    @property
    def properties(self):
        """All fields of the .fam and the .bim, by name."""
        return {name: self.property_item(name) for name in [*names.FAM, *names.BIM]}

    # ---- reading

    def _asked(self):
        """The first arguments of every call of the core that reads."""
        if self._file is None:
            raise ValueError("{} is closed".format(self.filepath))
        return self._file, self.iid_count, self.sid_count, self.count_A1

    def _check(self, animals=_NO_ENTRIES, markers=_NO_ENTRIES):
        """The core's checks of file, counts and lists; one list is empty, so that there is no matrix."""
        with met(self.filepath):
            core.read_i8(*self._asked(), animals, markers, 0, False, _NO_VALUES)

    def _lists(self, index, out):
        """The lists that an index means, checked by the core: from here on no part is refused."""
        self._check()
        with met(self.filepath):
            animals, markers = to_lists(index, self.iid_count, self.sid_count)
        if out is not None:
            animals, markers = (one.copy() if np.may_share_memory(one, out) else one for one in (animals, markers))
        self._check(animals=animals)  # 5 before 6, as one call has them
        self._check(markers=markers)
        return animals, markers

    def _across(self, order):
        """Whether the lines of a matrix in this order go across the file's blocks."""
        return (core.open_and_check(self._file) == 1) == (order == "C")

    def _read_lines(self, animals, markers, order, values, threads, told):
        """Reads into values, a matrix of int8 or float64 as it stands in memory, by whole lines."""
        call = core.read_i8 if values.dtype == np.int8 else core.read_f64
        missing = _MISSING[values.dtype]
        lines, length = (len(markers), len(animals)) if order == "F" else (len(animals), len(markers))

        def work(start, end):
            lists = (animals, markers[start:end]) if order == "F" else (animals[start:end], markers)
            call(*self._asked(), *lists, missing, order == "C", values[start * length:end * length])

        parts.run_lines(work, lines, length, self._across(order), threads, told)

    def _read_tiles(self, animals, markers, order, val, threads, told):
        """Reads into val, a matrix of float32, through a scratch buffer of float64 for each thread."""
        lines, length = (len(markers), len(animals)) if order == "F" else (len(animals), len(markers))
        height = parts.lines_of_part(lines, length, self._across(order), threads, False)
        heights, widths = parts.cut(lines, height), parts.cut(length, max(1, parts.PART // height))
        tiles = [(w, h) if order == "F" else (h, w) for h in heights for w in widths]  # animals, markers
        own = threading.local()

        def work(tile):
            some = [slice(*cut) for cut in tile]
            shape = [cut[1] - cut[0] for cut in tile]
            size = shape[0] * shape[1]
            if getattr(own, "scratch", _NO_VALUES).size < size:
                own.scratch = np.zeros(size)
            values = own.scratch[:size]
            core.read_f64(*self._asked(), animals[some[0]], markers[some[1]], np.nan, order == "C", values)
            val[some[0], some[1]] = values.reshape(shape, order=order)

        def tell(tile):
            told.add((tile[0][1] - tile[0][0]) * (tile[1][1] - tile[1][0]))

        parts.run(work, tiles, threads, tell)

    def read(self, index=None, dtype=None, order=None, *, out=None, num_threads=None, progress=None):
        """The calls of the animals and markers that the index means, as a matrix of animals times markers.

        index: a tuple of two, animals and markers, or one of the markers alone. Each is None (all), an int, a slice,
            bools, or ints, of which a negative one counts from the end.
        dtype: float32 (by default), float64 or int8. A missing call is NaN, in int8 -127.
        order: 'F' (by default: a marker's values beside each other) or 'C' (an animal's).
        out: the array to be filled, with dtype and order its own. At a refusal it is as it was.
        progress: called as progress(done, total), in values, by the thread that calls read.
        """
        animals, markers = self._lists(index, out)
        val, order = _room(out, dtype, order, (len(animals), len(markers)))
        threads = parts.thread_count(num_threads, self._num_threads)
        told = parts.Told(progress, val.size)
        if val.dtype == np.float32:
            self._read_tiles(animals, markers, order, np.asarray(val), threads, told)
        else:
            self._read_lines(animals, markers, order, flat(val, order), threads, told)
        return val

    def count_calls(self, index=None, *, num_threads=None, progress=None):
        """How many of the same calls are 0, 1, 2 and missing, as uint64, a row of four for each marker read.

        The values are those that read gives: copies of the first allele, or without count_A1 of the second. An animal that
        the index names twice counts twice. progress is told calls.
        """
        animals, markers = self._lists(index, None)
        threads = parts.thread_count(num_threads, self._num_threads)
        counts = np.zeros((len(markers), core.COUNTS_PER_MARKER), np.uint64)
        told = parts.Told(progress, len(animals) * len(markers))

        def work(start, end):
            core.count_calls(*self._asked()[:3], animals, markers[start:end], flat(counts[start:end], "C"))

        parts.run_lines(work, len(markers), len(animals), self._across("F"), threads, told)
        if not self.count_A1:
            counts[:, [0, 2]] = counts[:, [2, 0]]
        return counts

    def read_standardised(self, index=None, order=None, *, out=None, num_threads=None, progress=None):
        """The same calls standardised, as float64, and the statistics, a row for each marker read: mean, deviation, and how
        many of the calls are not missing.

        A value is (value - mean) * (1 / deviation), and 0 where the call is missing or the marker's calls are all one
        value. A marker without calls is refused (13); out then holds what bed_read_standardised_f64 leaves. In order 'C'
        the values are gone through twice, and progress counts them twice.
        """
        animals, markers = self._lists(index, out)
        val, order = _room(out, np.float64, order, (len(animals), len(markers)))
        threads = parts.thread_count(num_threads, self._num_threads)
        stats = np.zeros((len(markers), core.STATS_PER_MARKER))
        told = parts.Told(progress, val.size * (1 if order == "F" else 2))
        with met(self.filepath):
            way = self._standardise_by_markers if order == "F" else self._standardise_by_animals
            way(animals, markers, flat(val, order), flat(stats, "C"), threads, told)
        return val, stats

    def _standardise_by_markers(self, animals, markers, values, stats, threads, told):
        """Each part in one joined call; every part is gone through, so that 13 names the lowest marker."""
        length, record = len(animals), core.STATS_PER_MARKER
        refused = []

        def work(start, end):
            try:
                core.read_standardised_f64(*self._asked(), animals, markers[start:end], False,
                                           values[start * length:end * length], stats[start * record:end * record])
            except core.BedError as e:
                refused.append(core.refusal(e.number, e.first + start))

        parts.run_lines(work, len(markers), length, self._across("F"), threads, told)
        if refused:
            raise min(refused, key=lambda e: e.first)

    def _standardise_by_animals(self, animals, markers, values, stats, threads, told):
        """Reads in parts, finds the statistics of the whole matrix in one call, and applies them in parts."""
        self._read_lines(animals, markers, "C", values, threads, told)
        length = len(markers)
        core.impute_and_zero_mean_snps_f64(values, len(animals), length, True, False, False, stats)

        def work(start, end):
            some = values[start * length:end * length]
            core.impute_and_zero_mean_snps_f64(some, end - start, length, True, True, True, stats)

        parts.run_lines(work, len(animals), length, False, threads, told)


def _property(name, ending):
    return property(lambda self: self.property_item(name), doc="{} of the {}.".format(name, ending))


for _name in names.FAM:
    setattr(open_bed, _name, _property(_name, ".fam"))
for _name in names.BIM:
    setattr(open_bed, _name, _property(_name, ".bim"))

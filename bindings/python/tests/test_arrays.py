"""Tests open_bed and to_bed beside an unpacking and a standardising written in NumPy alone: drawn files of both modes with
set pads, every dtype, order and thread count, every form of index, out, progress, refusals, names, and writing."""
import contextlib
import io
import os
import re
import subprocess
import sys
import tempfile
import textwrap
import threading
import time

import numpy as np
from checking import done, raised, same

from mungkelas import BedError, core, open_bed, parts, to_bed

draw = np.random.RandomState(20240229)
DTYPES = ("int8", "float32", "float64")
MISSING = -127
MEMORY = "/dev/shm"  # files in memory, so that no test waits for a disk
directory = tempfile.TemporaryDirectory(dir=MEMORY if os.access(MEMORY, os.W_OK) else None)


def path(name):
    return os.path.join(directory.name, name)


def alike(got, want, what):
    """Same shape, type and bytes, but any NaN for a NaN."""
    same((got.shape, got.dtype), (want.shape, want.dtype), "shape and type of " + what)
    if want.dtype.kind == "f":
        same(np.array_equal(np.isnan(got), np.isnan(want)), True, "the NaNs of " + what)
        got, want = np.where(np.isnan(got), 0, got), np.where(np.isnan(want), 0, want)
    same(np.ascontiguousarray(got).tobytes(), np.ascontiguousarray(want).tobytes(), what)


def bytes_of(file):
    with open(file, "rb") as opened:
        return opened.read()


def saved(name, content):
    with open(path(name), "wb") as file:
        file.write(content)
    return path(name)


# ---- written in NumPy alone

def drawn(mode, iids, sids):
    """A file of drawn bytes, pads too."""
    items, blocks = (iids, sids) if mode else (sids, iids)
    return bytes([0x6C, 0x1B, mode]) + draw.randint(0, 256, blocks * ((items + 3) // 4)).astype(np.uint8).tobytes()


def unpacked(file, iids, sids, flag=True):
    """All calls, as int8, animals times markers."""
    items, blocks = (iids, sids) if file[2] else (sids, iids)
    codes = np.frombuffer(file, np.uint8, offset=3)[:, None] >> np.array([0, 2, 4, 6]) & 3
    codes = codes.reshape(blocks, (items + 3) // 4 * 4)[:, :items]
    return np.array([2, MISSING, 1, 0] if flag else [0, MISSING, 1, 2], np.int8)[codes.T if file[2] else codes]


def typed(calls, dtype):
    """The calls at a type, with its missing value."""
    return calls if dtype == "int8" else np.where(calls == MISSING, np.nan, calls).astype(dtype)


def standardised(calls):
    """Document 01's operations in its order: values, statistics; a marker without calls has NaN statistics."""
    values = typed(calls, "float64")
    count, total, squares = np.zeros((3, calls.shape[1]))
    for row in values:
        seen = ~np.isnan(row)
        count = np.where(seen, count + 1, count)
        total = np.where(seen, total + row, total)
        squares = np.where(seen, squares + row * row, squares)
    with np.errstate(all="ignore"):
        mean = total / count
        variance = squares / count - mean * mean
        deviation = np.sqrt(variance)
        deviation[~(deviation > 0)] = np.inf
        values = np.where(np.isnan(values) | np.isinf(deviation), 0, (values - mean) * (1 / deviation))
    return values, np.array([mean, deviation, np.count_nonzero(calls != MISSING, axis=0)]).T.copy()


def counted(calls):
    """How many calls of each marker are 0, 1, 2 and missing."""
    return np.array([np.count_nonzero(calls == value, axis=0) for value in (0, 1, 2, MISSING)], np.uint64).T.copy()


# ---- parts

class Cut:
    """Within it parts are as small as told, so that small files are cut."""

    def __init__(self, part, across):
        self.sizes = part, 1, across

    def __enter__(self):
        self.before = parts.PART, parts.LEAST, parts.ACROSS
        parts.PART, parts.LEAST, parts.ACROSS = self.sizes

    def __exit__(self, *_):
        parts.PART, parts.LEAST, parts.ACROSS = self.before


class Seen:
    """Within it one argument of every call of one of the core's functions is kept, by default the last."""

    def __init__(self, name, place=-1):
        self.name, self.place, self.calls = name, place, []

    def __enter__(self):
        before = self.before = getattr(core, self.name)

        def kept(*arguments):
            self.calls.append(arguments[self.place])
            return before(*arguments)

        setattr(core, self.name, kept)
        return self

    def __exit__(self, *_):
        setattr(core, self.name, self.before)


SHAPES = [(0, 0), (0, 3), (4, 0), (1, 1), (5, 2), (4, 9), (13, 6), (37, 21)]


def drawn_list(count):
    """Shuffled, repeated and negative entries."""
    return draw.randint(-count, count, draw.randint(0, 2 * count + 1)) if count else np.zeros(0, np.int64)


def test_reading():
    for mode in (0, 1):
        for iids, sids in SHAPES:
            file = drawn(mode, iids, sids)
            name = saved("drawn.bed", file)
            for flag in (True, False):
                calls = unpacked(file, iids, sids, flag)
                with open_bed(name, iids, sids, count_A1=flag, mmap=flag) as bed:
                    same(bed.shape, (iids, sids), "the shape")
                    for dtype in DTYPES:
                        for order in "FC":
                            lists = drawn_list(iids), drawn_list(sids)
                            want = typed(calls, dtype)
                            cut = want[np.ix_(*lists)]
                            for threads in (1, 2, 3):
                                got = bed.read(dtype=dtype, order=order, num_threads=threads)
                                alike(got, want, "all calls")
                                same(got.flags[order + "_CONTIGUOUS"], True, "the order")
                                with Cut(draw.choice([1, 7, 30]), draw.choice([1, 3])):
                                    got = bed.read(lists, dtype, order, num_threads=threads)
                                    alike(got, cut, "listed calls in parts")
                                    same(got.flags[order + "_CONTIGUOUS"], True, "the order")
                                    out = np.full(cut.shape, 9, dtype, order)
                                    same(bed.read(lists, out=out, num_threads=threads) is out, True, "out is answered")
                                    alike(out, cut, "listed calls in out")


def test_counting():
    for mode in (0, 1):
        for iids, sids in SHAPES:
            file = drawn(mode, iids, sids)
            name = saved("drawn.bed", file)
            for flag in (True, False):
                calls = unpacked(file, iids, sids, flag)
                with open_bed(name, iids, sids, count_A1=flag, mmap=flag) as bed:
                    for turn in range(6):
                        lists = drawn_list(iids), drawn_list(sids)
                        for threads in (1, 2, 3):
                            alike(bed.count_calls(num_threads=threads), counted(calls), "all counts")
                            with Cut(draw.choice([1, 7, 30]), draw.choice([1, 3])):
                                got = bed.count_calls(lists, num_threads=threads)
                            alike(got, counted(calls[np.ix_(*lists)]), "listed counts in parts")
                            same(got.flags.c_contiguous, True, "the order of the counts")
                    alike(bed.count_calls(np.s_[::2, ::-1]), counted(calls[::2, ::-1]), "counts by slices")
                    alike(bed.count_calls(slice(1)), counted(calls[:, :1]), "counts of a marker")


def test_defaults():
    file = drawn(1, 9, 5)
    with open_bed(saved("drawn.bed", file), 9, 5) as bed:
        got = bed.read()
        alike(got, typed(unpacked(file, 9, 5), "float32"), "what is read by default")
        same(got.flags.f_contiguous, True, "the order by default")


def test_large():
    """With the sizes of parts as they are."""
    for mode in (0, 1):
        file = drawn(mode, 1501, 1203)
        calls = unpacked(file, 1501, 1203)
        wanted = standardised(calls)
        lists = draw.randint(-1501, 1501, 1400), draw.randint(-1203, 1203, 1100)
        with open_bed(saved("large.bed", file), 1501, 1203) as bed:
            for order in "FC":
                for threads in (1, 2, 3):
                    for dtype in DTYPES:
                        alike(bed.read(None, dtype, order, num_threads=threads), typed(calls, dtype), "a larger file")
                        want = typed(calls, dtype)[np.ix_(*lists)]
                        alike(bed.read(lists, dtype, order, num_threads=threads), want, "a larger file, listed")
                    for got, want in zip(bed.read_standardised(order=order, num_threads=threads), wanted):
                        alike(got, want, "a larger file, standardised")
            for threads in (1, 2, 3):
                alike(bed.count_calls(num_threads=threads), counted(calls), "a larger file, counted")
                got = bed.count_calls(lists, num_threads=threads)
                alike(got, counted(calls[np.ix_(*lists)]), "a larger file, listed and counted")


def test_lent():
    """Matrices are lent, whole or in parts, to the core; at float32 the scratch buffers are bounded."""
    file = drawn(1, 40, 30)
    with open_bed(saved("drawn.bed", file), 40, 30) as bed:
        for dtype, call in (("int8", "read_i8"), ("float64", "read_f64")):
            for order in "FC":
                for threads in (1, 2, 3):
                    out = np.zeros((40, 30), dtype, order)
                    with Cut(100, 4), Seen(call) as seen:
                        bed.read(out=out, num_threads=threads)
                    lent = [one for one in seen.calls if one.size]
                    same(all(np.shares_memory(one, out) for one in lent), True, "out is lent")
                    same(sum(one.size for one in lent), out.size, "every value is lent once")
                    same(len(lent) > 1, threads > 1, "with threads it is cut")
        with Seen("read_standardised_f64") as seen:
            val, stats = bed.read_standardised(num_threads=1)
        same(np.shares_memory(seen.calls[0], stats), True, "statistics are lent")
        for threads in (1, 2, 3):
            with Cut(100, 4), Seen("count_calls") as seen:
                counts = bed.count_calls(num_threads=threads)
            same(all(np.shares_memory(one, counts) for one in seen.calls), True, "counts are lent")
            same(sum(one.size for one in seen.calls), counts.size, "every count is lent once")
            same(len(seen.calls) > 1, threads > 1, "with threads the counting is cut")
    for mode in (0, 1):
        with open_bed(saved("drawn.bed", drawn(mode, 40, 30)), 40, 30) as bed:
            for order in "FC":
                with Cut(100, 10), Seen("read_f64") as values, Seen("read_f64", 5 if order == "F" else 4) as lists:
                    bed.read(dtype="float32", order=order, num_threads=2)
                lines = max(len(one) for one in lists.calls)
                along = 2 if order == "F" else 3  # lines of 40 or 30 values in a part
                same(lines, 10 if (mode == 1) == (order == "C") else along, "the lines of a part")
                same(max(one.size for one in values.calls) <= 100, True, "scratch is bounded")
    for dtype, call in (("int8", "write_i8"), ("float64", "write_f64")):
        for order in "FC":
            val = np.array(typed(unpacked(file, 40, 30), dtype), order=order)
            for threads in (1, 2):
                with Cut(100, 4), Seen(call, 0) as seen:
                    to_bed(path("lent.bed"), val, num_threads=threads)
                same(all(np.shares_memory(one, val) for one in seen.calls), True, "a matrix is lent to the writer")
                same(sum(one.size for one in seen.calls), val.size, "every value is lent to the writer once")
                same(len(seen.calls) > 1, threads > 1 and order == "F", "with threads and by markers it is cut")


def test_index():
    iids, sids = 11, 7
    file = drawn(1, iids, sids)
    calls = unpacked(file, iids, sids)

    def some(count):
        marks = draw.randint(0, 2, count).astype(bool)
        entries = draw.randint(-count, count, 5)
        bounds = [None, *range(-count - 3, count + 4)]
        cut = slice(draw.choice(bounds), draw.choice(bounds), draw.choice([None, 1, 2, 5, 40, -1, -2, -5, -40]))
        return [None, slice(None), int(entries[0]), np.int32(entries[1]), np.array(entries[2]), entries, entries.tolist(),
                (), [], entries[::2], entries.astype(np.int8), np.abs(entries).astype(np.uint64) % count, marks,
                marks.tolist(), marks[::-1], cut, slice(None, None, -1), slice(2, None, 10**30), slice(None, 2, -10**30),
                range(1, 5), range(1, 6, 2), range(5, 1), range(5, 1, -2), range(-2, 2), range(0)]

    def meant(index, count):
        every = np.arange(count)
        if index is None:
            return every
        if isinstance(index, (range, tuple)) or (isinstance(index, list) and not index):
            return every[np.array(index, np.int64)]
        return np.atleast_1d(every[index])

    with open_bed(saved("drawn.bed", file), iids, sids) as bed:
        for _ in range(40):
            of_animals, of_markers = some(iids), some(sids)
            for animals, markers in zip(of_animals, draw.permutation(np.array(of_markers + [0], object))[:-1]):
                want = calls[np.ix_(meant(animals, iids), meant(markers, sids))]
                alike(bed.read((animals, markers), "int8"), want, "index {!r}, {!r}".format(animals, markers))
            for markers in of_markers:
                if not isinstance(markers, tuple):
                    alike(bed.read(markers, "int8"), calls[:, meant(markers, sids)], "index {!r}".format(markers))
        alike(bed.read(np.s_[2:5, ::-3], "int8"), calls[2:5, ::-3], "np.s_")
        for wrong in ("sid1", 1.0, [1.0], True, np.zeros((1, 1), int), (1, 2, 3), (1,), (None, "a"), [1.5, 2**64],
                      np.array([2**63, -1]), np.array([1], object), {1}, ...):
            raised((TypeError,), bed.read, wrong)
        for large in (2**63, 2**64, 10**30, -2**63 - 1):
            for wrong in (large, [large], [0, large], [large, -1], [np.int8(1), large]):
                raised((OverflowError,), bed.read, wrong)
        raised((OverflowError,), bed.read, np.array([2**64 - 1], np.uint64))
        raised((ValueError,), bed.read, slice(None, None, 0))
        for marks in ([True] * 6, [True] * 8):
            e = raised((BedError, IndexError), bed.read, marks)
            same(e.number, 8, "marks of another number")


def test_standardised():
    for mode in (0, 1):
        for iids, sids in SHAPES:
            file = bytearray(drawn(mode, iids, sids))
            if mode and iids and sids > 3:  # two markers without calls, one with one value alone
                width = (iids + 3) // 4
                for marker, byte in ((1, 0x55), (3, 0x55), (2, 0xAA)):
                    file[3 + width * marker:3 + width * (marker + 1)] = bytes([byte]) * width
            file = bytes(file)
            calls = unpacked(file, iids, sids)
            with open_bed(saved("drawn.bed", file), iids, sids) as bed:
                for turn in range(6):
                    if turn:
                        lists = drawn_list(iids), drawn_list(sids)
                    else:
                        lists = np.arange(iids), np.arange(sids)
                    cut = calls[np.ix_(*lists)]
                    empty = np.flatnonzero((cut == MISSING).all(axis=0))
                    if len(empty) and turn > 2:
                        lists = lists[0], np.delete(lists[1], empty)
                        cut, empty = np.delete(cut, empty, axis=1), []
                    values, stats = standardised(cut)
                    for order in "FC":
                        left = np.full(cut.shape, 9, "float64", order)
                        if len(empty):
                            records, core_out = np.zeros(stats.size), np.full(cut.size, 9.0)
                            raised((BedError,), core.read_standardised_f64, file, iids, sids, True, *lists, order == "C",
                                   core_out, records)
                            core_out = core_out.reshape(cut.shape, order=order)
                        for threads in (1, 2, 3):
                            with Cut(draw.choice([1, 7, 30]), draw.choice([1, 3])):
                                if len(empty):
                                    e = raised((BedError, ValueError), bed.read_standardised, lists, order, out=left,
                                               num_threads=threads)
                                    same((e.number, e.first, e.second), (13, empty[0], 0), "a marker without calls")
                                    alike(left, core_out, "what 13 leaves")
                                else:
                                    got = bed.read_standardised(lists, order, num_threads=threads)
                                    alike(got[0], values, "standardised values")
                                    alike(got[1], stats, "statistics")
                                    same(got[0].flags[order + "_CONTIGUOUS"], True, "the order")
                                    got = bed.read_standardised(lists, out=left, num_threads=threads)
                                    same(got[0] is left, True, "out is answered")
                                    alike(left, values, "standardised values in out")


def test_progress():
    here = threading.current_thread
    file = drawn(1, 40, 30)
    with open_bed(saved("drawn.bed", file), 40, 30) as bed:
        for threads in (1, 2, 3):
            for order in "FC":
                for dtype in DTYPES + ("standardised", "counted"):
                    told = []
                    options = {"num_threads": threads, "progress": lambda *numbers: told.append((here(), *numbers))}
                    with Cut(100, 4):
                        if dtype == "standardised":
                            bed.read_standardised(None, order, **options)
                        elif dtype == "counted":
                            bed.count_calls(**options)
                        else:
                            bed.read(None, dtype, order, **options)
                    total = 2400 if dtype == "standardised" and order == "C" else 1200
                    same({(one[0], one[2]) for one in told}, {(here(), total)}, "the thread and the total")
                    numbers = [one[1] for one in told]
                    same(numbers, sorted(set(numbers)), "progress rises")
                    same((numbers[0], numbers[-1], len(numbers) > 5), (0, total, True), "progress from nothing to all")

        def stop(done, total):
            if done:
                raise KeyError("stop")

        class Slow(Seen):
            """From the second call on each takes a while, so that a reading is stopped before they are all made."""

            def __enter__(self):
                super().__enter__()
                kept = core.read_i8
                core.read_i8 = lambda *arguments: (time.sleep(0.2 if self.calls else 0), kept(*arguments))
                return self

        with Cut(40, 1), Slow("read_i8") as seen:
            raised((KeyError,), bed.read, dtype="int8", num_threads=2, progress=stop)
        same(len(seen.calls) < 30, True, "the parts left when a reading is stopped")
        told = []
        bed.read(([], []), progress=lambda *numbers: told.append(numbers))
        bed.count_calls(([], []), progress=lambda *numbers: told.append(numbers))
        same(told, [(0, 0)] * 2, "progress of nothing")


def test_out():
    file = drawn(1, 6, 5)
    calls = unpacked(file, 6, 5)
    with open_bed(saved("drawn.bed", file), 6, 5) as bed:
        out = np.zeros((6, 5), "float64")
        alike(bed.read(None, "float64", "C", out=out), typed(calls, "float64"), "out with its order and type named")
        wide = np.zeros((6, 10), "int8")
        unaligned = np.zeros(6 * 5 * 8 + 1, np.uint8)[1:].view("float64").reshape(6, 5)
        shut = np.zeros((6, 5), "int8")
        shut.flags.writeable = False
        for wrong in (np.zeros((5, 6)), np.zeros(30), np.zeros((6, 5), "int16"), wide[:, ::2], wide[:, :5], unaligned,
                      shut, np.zeros((6, 5), ">f8")):
            raised((ValueError,), bed.read, out=wrong)
        raised((TypeError,), bed.read, out=[[0.0] * 5] * 6)
        raised((ValueError,), bed.read, out=out, dtype="int8")
        raised((ValueError,), bed.read, out=out, order="F")
        raised((ValueError,), bed.read_standardised, out=np.zeros((6, 5), "float32"))
        raised((ValueError,), bed.read, order="K")
        raised((ValueError,), bed.read, dtype="int16")
        raised((ValueError,), bed.read, num_threads=-1)
        # an index in the memory of out
        room = np.arange(5)
        with Seen("read_f64", 5) as seen:
            got = bed.read(([0], room), out=room.view("float64").reshape(1, 5))
        same([np.shares_memory(one, got) for one in seen.calls], [False], "the list lent beside out")
        alike(got, typed(calls, "float64")[:1], "an index in the memory of out")


def test_refusals():
    """Every refusal is the core's own of one call with the same lists, and out is as it was."""
    seen, met = set(), set()
    for turn in range(400):
        mode, iids, sids = draw.randint(2), draw.randint(1, 9), draw.randint(1, 9)
        file = drawn(mode, iids, sids)
        lists = [drawn_list(iids), drawn_list(sids)]
        for which in range(2):
            if draw.randint(2):
                count = (iids, sids)[which]
                bad = [count, -count - 1, 99, -99, 2**63 - 1, -2**63]
                lists[which] = np.insert(lists[which], draw.randint(len(lists[which]) + 1), bad[draw.randint(6)])
        damage = draw.randint(12)
        given = [iids, sids]
        if damage == 0:
            file = file[:draw.randint(3, len(file))]
        elif damage == 1:
            file += b"\x00"
        elif damage == 2:
            file = file[:2] + b"\x07" + file[3:]
        elif damage == 3:
            given[draw.randint(2)] = [2**63, 2**64 - 1, 2**63 - 1][draw.randint(3)]
        for order in "FC":
            values = np.full(len(lists[0]) * len(lists[1]), 9, np.int8)
            try:
                core.read_i8(file, *given, True, *lists, MISSING, order == "C", values)
                want = None
            except BedError as e:
                want = type(e), e.number, e.first, e.second
            with open_bed(saved("drawn.bed", file), *given) as bed:
                for threads in (1, 2, 3):
                    for dtype in DTYPES:
                        out = np.full((len(lists[0]), len(lists[1])), 9, dtype, order)
                        with Cut(7, 1):
                            if want is None:
                                bed.read(tuple(lists), out=out, num_threads=threads)
                                continue
                            e = raised((BedError,), bed.read, tuple(lists), out=out, num_threads=threads)
                        same((type(e), e.number, e.first, e.second), want, "a refusal")
                        e = raised((BedError,), bed.count_calls, tuple(lists), num_threads=threads)
                        same((type(e), e.number, e.first, e.second), want, "a refusal of counting")
                        same(str(e).startswith(path("drawn.bed")), True, "the file in words")
                        same((out == 9).all(), True, "out at a refusal")
                        seen.add(e.number)
                        if e.number in (5, 6):  # in either mode the animal list's, then the marker list's
                            bad = [(number, x) for number, one, n in ((5, lists[0], iids), (6, lists[1], sids))
                                   for x in one.tolist() if not -n <= x < n]
                            same((e.number, e.first), bad[0], "the first bad entry")
                            met.add((mode, *sorted({number for number, _ in bad})))
    same(seen, {2, 3, 4, 5, 6, 18}, "the refusals drawn")
    same(met, {(mode, *bad) for mode in (0, 1) for bad in ((5,), (6,), (5, 6))}, "the bad lists drawn")
    for content, number in ((b"", 1), (b"\x6c\x1b", 1), (b"\x6c\x1c\x01", 2)):
        e = raised((BedError, ValueError), open_bed, saved("bad.bed", content), 0, 0)
        same(e.number, number, "a bad header")
        with open_bed(path("bad.bed"), 0, 0, skip_format_check=True) as bed:
            same(raised((BedError,), bed.read).number, number, "a bad header, met by reading")
    raised((FileNotFoundError,), open_bed, path("absent.bed"))
    bed = open_bed(saved("good.bed", drawn(1, 3, 2)), 3, 2)
    bed.close()
    bed.close()
    raised((ValueError,), bed.read)
    raised((ValueError,), bed.count_calls)
    raised((OverflowError,), open_bed(path("good.bed"), -1, 2).read)


def test_names():
    fam, bim = path("n.fam"), path("n.bim")
    saved("n.bed", drawn(1, 3, 2))
    saved("n.fam", "f1 i1 0 0 1 -9\r\nf1\ti2  i1 0 2 1.5\nf2 \u00ef3 0 i2 0 0".encode())
    saved("n.bim", b"1\ts1\t0\t100\tA\tC\nX s2 1.25 -7 G AT\n")
    with open_bed(path("n.bed")) as bed:
        same((bed.shape, bed.iid_count, bed.sid_count), ((3, 2), 3, 2), "the counts of the files")
        want = {"fid": ["f1", "f1", "f2"], "iid": ["i1", "i2", "\u00ef3"], "father": ["0", "i1", "0"],
                "mother": ["0", "0", "i2"], "sex": [1, 2, 0], "pheno": ["-9", "1.5", "0"], "chromosome": ["1", "X"],
                "sid": ["s1", "s2"], "cm_position": [0, 1.25], "bp_position": [100, -7], "allele_1": ["A", "G"],
                "allele_2": ["C", "AT"]}
        for name, values in want.items():
            same(getattr(bed, name).tolist(), values, name)
        same({name: values.tolist() for name, values in bed.properties.items()}, want, "all names")
        same([bed.sex.dtype, bed.cm_position.dtype, bed.bp_position.dtype], ["int32", "float32", "int32"], "types")
        raised((ValueError,), bed.property_item, "colour")
        same(bed.read().shape, (3, 2), "what is read by the counts of the files")
    with open_bed(path("n.bed"), properties={"iid": ["a", "b", "c"], "sex": None, "sid": ["p", "q"]}) as bed:
        same((bed.iid.tolist(), bed.sex, bed.sid.tolist()), (["a", "b", "c"], None, ["p", "q"]), "names given")
        same(bed.fid.tolist(), ["f1", "f1", "f2"], "the others of the file")
    raised((ValueError,), open_bed, path("n.bed"), properties={"iid": ["a", "b", "c"], "sex": [1]})
    raised((ValueError,), open_bed, path("n.bed"), 2, properties={"iid": ["a", "b", "c"]})
    raised((ValueError,), open_bed, path("n.bed"), properties={"colour": ["a"]})
    with open_bed(path("n.bed"), 4, 2) as bed:
        same(str(raised((ValueError,), lambda: bed.iid)), fam + " has 3 values, not 4", "another count in words")
    os.rename(fam, path("other.fam"))
    os.rename(bim, path("other.bim"))
    with open_bed(path("n.bed")) as bed:
        raised((FileNotFoundError,), lambda: bed.shape)
    with open_bed(path("n.bed"), fam_filepath=path("other.fam"), bim_filepath=path("other.bim")) as bed:
        same((bed.shape, bed.iid[0]), ((3, 2), "i1"), "names elsewhere")
    for line, words in ((b"f i 0 0 1", "5 fields, not 6"), (b"", "0 fields, not 6"), (b"f i 0 0 m 0", "invalid literal"),
                        (b"f \xff 0 0 1 0", "'utf-8'")):
        saved("n.fam", b"f i 0 0 1 0\n" * 2 + line + b"\n")
        e = raised((ValueError,), lambda: open_bed(path("n.bed")).iid)
        same(str(e).startswith("{}, line 3: {}".format(fam, words)), True, "a bad line in words")
    saved("n.fam", b"")
    same(open_bed(path("n.bed")).iid_count, 0, "a .fam without lines")


def test_paths():
    """A path is a str, bytes, or what has one."""
    class Path:
        def __fspath__(self):
            return path("p.bed")

    for kind in (os.fspath, os.fsencode, lambda name: Path()):
        to_bed(kind(path("p.bed")), np.ones((3, 2)))
        with open_bed(kind(path("p.bed"))) as bed:
            got = bed.filepath, bed.shape, bed.read().sum()
            same(got, (path("p.bed"), (3, 2), 6), "what is written and read at a path")
    other = {"fam_filepath": os.fsencode(path("q.fam")), "bim_filepath": os.fsencode(path("q.bim"))}
    to_bed(path("q.bed"), np.ones((4, 5)), **other)
    same(open_bed(path("p.bed"), **other).shape, (4, 5), "names elsewhere, by bytes")


def test_mapped():
    """The file is mapped, or read whole when it is opened."""
    file = drawn(1, 4, 1)
    other = file[:3] + bytes([file[3] ^ 0xFF])
    for mmap in (True, False):
        with open_bed(saved("drawn.bed", file), 4, 1, mmap=mmap) as bed:
            with open(path("drawn.bed"), "r+b") as opened:
                opened.write(other)
            alike(bed.read(dtype="int8"), unpacked(other if mmap else file, 4, 1), "a file that is changed meanwhile")
            if not mmap:
                saved("drawn.bed", b"")
                alike(bed.read(dtype="int8"), unpacked(file, 4, 1), "a file that is cut short meanwhile")


def packed(calls, flag=True):
    """The file of mode 1, in NumPy alone."""
    codes = np.array([3, 2, 0] if flag else [0, 2, 3])[np.where(calls == MISSING, 0, calls)]
    codes = np.where(calls == MISSING, 1, codes)
    codes = np.pad(codes, ((0, -len(codes) % 4), (0, 0))).T.reshape(calls.shape[1], -(-len(calls) // 4), 4)
    return b"\x6c\x1b\x01" + (codes << np.array([0, 2, 4, 6])).sum(axis=2).astype(np.uint8).tobytes()


def test_writing():
    for iids, sids in SHAPES:
        calls = draw.choice([0, 1, 2, MISSING], (iids, sids)).astype(np.int8)
        for flag in (True, False):
            want = packed(calls, flag)
            for dtype in DTYPES + ("int16", "int64", "float16", ">f8"):
                floating = np.dtype(dtype).kind == "f"
                val = np.where(calls == MISSING, np.nan, calls).astype(dtype) if floating else calls.astype(dtype)
                double = np.zeros((2 * iids, 2 * sids), dtype)
                double[::2, ::2] = val
                unaligned = np.zeros(val.nbytes + 1, np.uint8)[1:].view(dtype).reshape(val.shape)
                unaligned[:] = val
                for form in (np.asfortranarray(val), np.ascontiguousarray(val), double[::2, ::2], unaligned):
                    for threads in (1, 2, 3):
                        with Cut(draw.choice([1, 7, 30]), 1):
                            to_bed(path("w.bed"), form, count_A1=flag, num_threads=threads)
                        same(bytes_of(path("w.bed")), want, "a file written of " + dtype)
            with open_bed(path("w.bed"), count_A1=flag) as bed:
                same(bed.shape, (iids, sids), "the shape written")
                alike(bed.read(dtype="int8"), calls, "what was written, read")
    files = sorted(name for name in os.listdir(directory.name) if name.startswith("w."))
    same(files, ["w.bed", "w.bim", "w.fam"], "the files written")
    to_bed(path("w.bed"), [[0, 1, np.nan], [2, 2, 0]])
    same(bytes_of(path("w.fam")), b"0 iid1 0 0 0 0\n0 iid2 0 0 0 0\n", "the .fam by default")
    same(bytes_of(path("w.bim")), b"".join(b"0\tsid%d\t0\t0\tA1\tA2\n" % n for n in (1, 2, 3)), "the .bim by default")
    names = {"fid": ["f", "g"], "iid": ["a", "b"], "father": ["c", "0"], "mother": ["0", "d"], "sex": [1, 2],
             "pheno": ["-9", "x"], "chromosome": [1, 2, "X"], "sid": ["s", "t", "u"], "cm_position": [0.5, 100, 1e-7],
             "bp_position": [1, 2, -3], "allele_1": ["A", "C", "G"], "allele_2": ["T", "G", "AT"]}
    to_bed(path("w.bed"), np.zeros((2, 3)), names, fam_filepath=path("v.fam"), bim_filepath=path("v.bim"))
    with open_bed(path("w.bed"), fam_filepath=path("v.fam"), bim_filepath=path("v.bim")) as bed:
        for name, values in names.items():
            same(getattr(bed, name).tolist(), np.array(values, getattr(bed, name).dtype).tolist(), "written " + name)


def test_cuts():
    """A cut of a cut is one cut by the lists composed: each reads and writes by a type, an order and a count_A1 of its own."""
    def cut(source, shape, lists, to):
        flag = bool(draw.randint(2))
        with open_bed(source, *shape, count_A1=flag) as bed:
            val = bed.read(lists, draw.choice(DTYPES), draw.choice(["F", "C"]), num_threads=draw.randint(1, 4))
        to_bed(path(to), val, count_A1=flag)
        return path(to)

    for mode in (0, 1):
        for iids, sids in SHAPES:
            name = saved("drawn.bed", drawn(mode, iids, sids))
            for _ in range(4):
                first = drawn_list(iids), drawn_list(sids)
                shape = len(first[0]), len(first[1])
                second = drawn_list(shape[0]), drawn_list(shape[1])
                between = cut(name, (iids, sids), first, "first.bed")
                last = bytes_of(cut(between, shape, second, "second.bed"))
                composed = tuple(one[two] for one, two in zip(first, second))
                same(bytes_of(cut(name, (iids, sids), composed, "one.bed")), last, "one cut and a cut of a cut")
                calls = unpacked(bytes_of(name), iids, sids)
                same(last, packed(calls[np.ix_(*first)][np.ix_(*second)], True), "a cut of a cut")


def test_refused_writing():
    to_bed(path("k.bed"), np.zeros((3, 2), "int8"))
    files = [path("k" + ending) for ending in (".bed", ".bim", ".fam")]
    before = [bytes_of(file) for file in files]

    def unchanged():
        same([bytes_of(file) for file in files], before, "the old files")
        same([name for name in os.listdir(directory.name) if name.endswith(".part")], [], "parts left")

    for dtype in DTYPES + ("int64", "float16"):
        for order in "FC":
            for threads in (1, 2, 3):
                val = np.zeros((9, 8), dtype, order)
                val[5, 4] = val[7, 3] = val[4, 6] = 3
                with Cut(9, 1):
                    e = raised((BedError, ValueError), to_bed, path("k.bed"), val, num_threads=threads)
                same((e.number, e.first, e.second), (7, 7, 3), "a bad value")
                same(str(e).startswith(path("k.bed: ")), True, "the file in words")
                unchanged()
    raised((BedError,), to_bed, path("k.bed"), np.full((3, 2), 256))
    raised((BedError,), to_bed, path("k.bed"), np.full((3, 2), MISSING, "float64"))
    for wrong in (np.zeros(3), np.zeros((1, 1, 1))):
        raised((ValueError,), to_bed, path("k.bed"), wrong)
    for wrong in (np.zeros((3, 2), bool), np.zeros((3, 2), complex), [["0"]], np.zeros((3, 2), np.longdouble)):
        raised((TypeError,), to_bed, path("k.bed"), wrong)
    for wrong in ({"iid": ["a"]}, {"colour": ["a"]}, {"iid": ["a b", "c", "d"]}, {"sid": ["", "t"]}, {"sid": [["s", "t"]]},
                  {"sex": ["m"] * 3}, {"bp_position": [0, 2**40]}, {"bp_position": [0, 0.5]}):
        raised((ValueError,), to_bed, path("k.bed"), np.zeros((3, 2)), wrong)
        unchanged()
    raised((FileNotFoundError,), to_bed, path("nowhere/k.bed"), np.zeros((3, 2)))
    for wrong in ({"fam_filepath": path("k.bed")}, {"bim_filepath": path("./k.fam")}):
        raised((ValueError,), to_bed, path("k.bed"), np.zeros((3, 2)), **wrong)
        unchanged()
    raised((ValueError,), to_bed, path("k.fam"), np.zeros((3, 2)))
    unchanged()
    os.mkdir(path("directory"))
    os.mkfifo(path("pipe"))
    for place in range(3):
        for name in ("directory", "pipe"):
            where = [path("k.bed"), path("k.fam"), path("k.bim")]
            where[place] = path(name)
            raised((OSError,), to_bed, where[0], np.zeros((3, 2)), {}, True, *where[1:])
            unchanged()
    # a limit on the size of files stands for a full disk
    code = ("import resource, sys, numpy; from mungkelas import to_bed\n"
            "resource.setrlimit(resource.RLIMIT_FSIZE, (4000, 4000))\n"
            "try: to_bed(sys.argv[1], numpy.zeros((100, 200), 'int8'))\nexcept OSError as e: print(e.errno)")
    ran = subprocess.run([sys.executable, "-c", code, path("k.bed")], stdout=subprocess.PIPE, check=True)
    same(ran.stdout, b"27\n", "a file that is too large for its place")
    unchanged()
    before_reserving = os.posix_fallocate

    def full(file, start, length):
        raise OSError(28, "full")

    os.posix_fallocate = full
    same(raised((OSError,), to_bed, path("k.bed"), np.zeros((3, 2))).errno, 28, "a full disk")
    os.posix_fallocate = before_reserving
    unchanged()


def test_thread_count():
    all_of_them = len(os.sched_getaffinity(0))
    for name in ("MUNGKELAS_NUM_THREADS", "NUM_THREADS"):
        os.environ.pop(name, None)
    same((parts.thread_count(None), parts.thread_count(0)), (all_of_them, all_of_them), "all processors")
    same(parts.thread_count(None, 3, 4), 3, "threads")
    os.environ["NUM_THREADS"] = "5"
    same((parts.thread_count(None), parts.thread_count(2)), (5, 2), "threads of the environment")
    os.environ["MUNGKELAS_NUM_THREADS"] = "6"
    same(parts.thread_count(None), 6, "threads of the environment")


def test_readme():
    """The example of each README prints what stands below it."""
    before = os.getcwd()
    os.chdir(os.path.join(os.path.dirname(os.path.abspath(__file__)), "..", "..", ".."))
    for readme, below in (("README.md", "prints [^\n]*\n\n((?:    [^\n]*\n)+)"),
                          ("bindings/python/README.md", "prints\n\n```\n(.*?)```")):
        with open(readme, encoding="utf-8") as file:
            code, printed = re.search("```python\n(.*?)```\n\n" + below, file.read(), re.S).groups()
        said = io.StringIO()
        with contextlib.redirect_stdout(said):
            exec(code, {})
        same(said.getvalue(), textwrap.dedent(printed), "the example of " + readme)
    os.chdir(before)


test_readme()
test_reading()
test_counting()
test_defaults()
test_large()
test_lent()
test_index()
test_standardised()
test_progress()
test_out()
test_refusals()
test_names()
test_paths()
test_mapped()
test_writing()
test_cuts()
test_refused_writing()
test_thread_count()
directory.cleanup()
done("arrays, Python {}.{}, NumPy {}".format(*sys.version_info[:2], np.__version__))

"""Tests mungkelas.core with no NumPy: that it declares what the header does, every call on the worked examples, drawn
files beside an unpacking in plain Python, every refusal, and what may be lent."""
import ctypes
import math
import mmap
import os
import pickle
import random
import re
import subprocess
import sys
import tempfile
from array import array

from checking import done, raised, same

import mungkelas
from mungkelas import BedError, BedIndexError, BedValueError, core

NAN = float("nan")
F = bytes.fromhex("6C1B01E4002F02")  # 5 animals, 2 markers
F_MODE_0 = bytes.fromhex("6C1B000C0D0A0308")  # the same calls
ROOT = os.path.join(os.path.dirname(os.path.abspath(__file__)), "..", "..", "..")
draw = random.Random(20240229)


def refused(number, first, second, call, *arguments):
    """The call is refused so, by the right kind of exception."""
    kind = IndexError if number in (5, 6, 8) else ValueError
    e = raised((BedError, kind), call, *arguments)
    same((e.number, e.first, e.second), (number, first, second), "a refusal of " + call.__name__)
    return e


def floats(values):
    """Comparable: NaN is a word."""
    return ["NaN" if v != v else v for v in values]


# ---- the header

def test_header():
    with open(os.path.join(ROOT, "include", "mungkelas.h"), encoding="utf-8") as file:
        header = file.read()
    plain = {"size_t": ctypes.c_size_t, "bool": ctypes.c_bool, "int8_t": ctypes.c_int8, "int64_t": ctypes.c_int64,
             "uint64_t": ctypes.c_uint64, "double": ctypes.c_double}
    declared = {}
    for answer, name, parameters in re.findall(r"^(bed_answer|double) (bed_\w+)\(([^)]*)\);", header, re.M):
        words = [one.replace("const ", "").split() for one in parameters.split(",")]
        declared[name] = [ctypes.c_void_p if word[1].startswith("*") else plain[word[0]] for word in words]
        wanted = core.Answer if answer == "bed_answer" else ctypes.c_double
        same(getattr(core.library, name).restype, wanted, "what {} answers".format(name))
        same(getattr(core.library, name).argtypes, declared[name], "the parameters of " + name)
    same(sorted(core.CALLS), sorted(declared), "the calls")
    same(sorted(set(re.findall(r"\bbed_\w+(?=\()", header))), sorted(declared), "the calls found in the header")
    numbers = [int(n) for n in re.findall(r"^ +BED_\w+ = (\d+)", header, re.M)]
    same([0] + sorted(core.WORDS), sorted(numbers), "the refusals")
    record = re.search(r"#define BED_STATS_PER_MARKER (\d+)", header).group(1)
    same(core.STATS_PER_MARKER, int(record), "the numbers of a statistics record")
    record = re.search(r"#define BED_COUNTS_PER_MARKER (\d+)", header).group(1)
    same(core.COUNTS_PER_MARKER, int(record), "the counts of a marker")
    version = dict(re.findall(r"#define MUNGKELAS_VERSION_(MAJOR|MINOR|PATCH) +(\d+)", header))
    same(mungkelas.__version__, "{MAJOR}.{MINOR}.{PATCH}".format(**version) if version else "0.1.0", "the version")


# ---- every call on the worked examples

def test_headers_widths_spans():
    same(core.open_and_check(F), 1, "the mode")
    same(core.open_and_check(F_MODE_0), 0, "the mode")
    same(core.open_and_check(b"\x6c\x1b\x09"), 9, "the mode is not judged")
    refused(1, 0, 0, core.open_and_check, F[:2])
    refused(1, 0, 0, core.open_and_check, b"")
    refused(2, 0, 0, core.open_and_check, b"\x6c\x1c\x01")
    same([core.try_div_4(n, 1) for n in (0, 1, 4, 5, 2**63 - 1)], [0, 1, 1, 2, 2**61], "widths")
    same(core.try_div_4(2**63 - 1, 7), 2**61, "a width")
    refused(4, 0, 0, core.try_div_4, 2**63 - 1, 8)
    refused(18, 0, 0, core.try_div_4, 2**63, 1)
    refused(18, 0, 0, core.try_div_4, 1, 2**64 - 1)
    same(core.byte_span(20, [5, -1, 7]), (1, 4), "a span")
    same(core.byte_span(20, []), (0, 0), "the span of nothing")
    refused(5, -21, 0, core.byte_span, 20, [0, -21, 20])


def test_reading():
    for file in (F, F[:-1] + b"\xf2", F_MODE_0):
        val = array("b", bytes(10))
        core.read_i8(file, 5, 2, True, range(5), [0, 1], -127, False, val)
        same(val.tolist(), [2, -127, 1, 0, 2, 0, 0, 1, 2, 1], "F, first allele, marker order")
        core.read_i8(file, 5, 2, False, range(5), [0, 1], -1, True, val)
        same(val.tolist(), [0, 2, -1, 2, 1, 1, 2, 0, 0, 1], "F, second allele, animal order")
        some = array("d", [9] * 3)
        core.read_f64(file, 5, 2, True, [1, -1, 3], [-2], NAN, False, some)
        same(floats(some), ["NaN", 2, 0], "F at listed places")
        core.canonical(file, 5, 2, out := bytearray(7))
        same(bytes(out), F, "the canonical file")
    read = [F, 5, 2, True, [0], [0], -127, False, array("b", b"\x09")]

    def changed(number, first, **changes):
        at = {"file": 0, "animals": 1, "markers": 2, "iids": 4, "sids": 5, "val": 8}
        arguments = list(read)
        for name, value in changes.items():
            arguments[at[name]] = value
        before = arguments[8].tolist()
        refused(number, first, 0, core.read_i8, *arguments)
        same(arguments[8].tolist(), before, "the values at a refusal")

    changed(1, 0, file=F[:2])
    changed(2, 0, file=b"\x1b\x6c" + F[2:])
    changed(3, 0, file=b"\x6c\x1b\x02" + F[3:])
    changed(4, 0, animals=2**63 - 1, markers=8)
    changed(2, 0, file=F[:-1])
    changed(2, 0, file=F + b"\x00")
    for file in (F, F_MODE_0):  # 2 to 4 and -5 to -3 are animals and no markers
        changed(5, 5, file=file, iids=[5], sids=[2])
        changed(5, -6, file=file, iids=[-6])
        changed(6, 2, file=file, sids=[2])
        changed(6, -3, file=file, iids=[4], sids=[-3])
        changed(5, -6, file=file, iids=[0, -6, 5], sids=[2], val=array("b", b"\x09\x09\x09"))
        changed(6, 3, file=file, sids=[1, 3, -3], val=array("b", b"\x09\x09\x09"))
        changed(5, 5, file=file, iids=[4, 5], sids=[], val=array("b"))
        changed(6, 3, file=file, iids=[], sids=[1, 3], val=array("b"))
        for animals, markers, number, entry in (([5], [2], 5, 5), ([4], [2], 6, 2), ([-6], [1], 5, -6)):
            one = array("d", [9])
            refused(number, entry, 0, core.read_f64, file, 5, 2, True, animals, markers, NAN, False, one)
            same(one.tolist(), [9], "the values at a refusal")
    changed(15, 0, val=array("b", b"\x09\x09"))
    changed(18, 0, animals=2**63)
    changed(18, 0, markers=2**64 - 1)
    refused(16, 0, 0, core.canonical, F, 5, 2, bytearray(8))
    nothing = array("b")
    core.read_i8(F[:3], 0, 9, True, [], range(9), 0, False, nothing)
    refused(2, 0, 0, core.read_i8, F[:4], 0, 9, True, [], [], 0, False, nothing)


def test_counting():
    for file in (F, F[:-1] + b"\xf2", F_MODE_0):
        counts = array("Q", [9] * 8)
        core.count_calls(file, 5, 2, range(5), range(2), counts)
        same(counts.tolist(), [1, 1, 2, 1, 2, 2, 1, 0], "the counts of F")
        core.count_calls(file, 5, 2, [-1, 0, 4, 1, -4], [-1, 1], counts)
        same(counts.tolist(), [3, 2, 0, 0] * 2, "entries that stand twice, in both lists")
        core.count_calls(file, 5, 2, [1, 1, 1], [0, -1], counts)
        same(counts.tolist(), [0, 0, 0, 3, 3, 0, 0, 0], "one animal three times")
        core.count_calls(file, 5, 2, [], [0, 1], counts)
        same(counts.tolist(), [0] * 8, "no animals")
        core.count_calls(file, 5, 2, [0, 4], [], array("Q"))
    good = [F, 5, 2, [0], [0], array("Q", [9] * 4)]

    def changed(number, first, **changes):
        at = {"file": 0, "animals": 1, "markers": 2, "iids": 3, "sids": 4, "counts": 5}
        arguments = list(good)
        for name, value in changes.items():
            arguments[at[name]] = value
        before = arguments[5].tolist()
        refused(number, first, 0, core.count_calls, *arguments)
        same(arguments[5].tolist(), before, "the counts at a refusal")

    short = array("Q", [9] * 3)
    changed(18, 0, animals=2**63, counts=short)
    changed(18, 0, markers=2**64 - 1, file=b"")
    for length in (0, 1, 2, 3, 5, 8):
        changed(15, 0, counts=array("Q", [9] * length), file=b"")
    changed(15, 0, sids=[], iids=[0, 1])
    changed(15, 0, iids=[0, 1], sids=[0, 1])
    changed(1, 0, file=F[:2], iids=[5])
    changed(2, 0, file=b"\x1b\x6c\x02" + F[3:])
    changed(3, 0, file=b"\x6c\x1b\x02" + F[3:], animals=2**63 - 1, markers=8)
    changed(4, 0, animals=2**63 - 1, markers=8, iids=[-2**63])
    changed(2, 0, file=F[:-1], iids=[5])
    changed(2, 0, file=F + b"\x00", sids=[2])
    for file in (F, F_MODE_0):  # 2 to 4 and -5 to -3 are animals and no markers
        changed(5, 5, file=file, iids=[4, 5, -6], sids=[2])
        changed(5, -6, file=file, iids=[-6])
        changed(6, 2, file=file, sids=[2])
        changed(6, -3, file=file, iids=[4], sids=[-3])
        changed(5, 5, file=file, iids=[5], sids=[], counts=array("Q"))
        changed(6, 2, file=file, iids=[], sids=[2])
    core.count_calls(F[:3], 0, 9, [], range(9), counts := array("Q", [9] * 36))
    same(counts.tolist(), [0] * 36, "markers of no animals")
    for wrong in (array("q", [9] * 4), array("d", [9] * 4), array("I", [9] * 8), array("Q", [9] * 4).tobytes()):
        raised(((TypeError, BufferError),), core.count_calls, F, 5, 2, [0], [0], wrong)


def test_packing():
    core.encode1_i8(array("b", [0, -127, 1, 2, 2]), out := bytearray(2), True, -127)
    same(out.hex(), "2700", "a packed marker")
    core.encode1_f64(array("d", [-0.0, NAN, 1, 2, 2]), out, True, NAN)
    same(out.hex(), "2700", "a packed marker")
    core.encode1_f64(array("d", [0, NAN, 1, 2, 2]), out, False, NAN)
    same(out.hex(), "e403", "a packed marker, second allele")
    refused(16, 0, 0, core.encode1_i8, array("b", [0]), bytearray(2), True, 0)
    refused(7, 1, 0, core.encode1_f64, array("d", [0, 1.5]), bytearray(1), True, NAN)
    refused(7, 2, 0, core.encode1_i8, array("b", [0, 2, 3, 9]), bytearray(1), True, -127)
    by_marker, by_animal = [2, -127, 1, 0, 2, 0, 0, 1, 2, 1], [2, 0, -127, 0, 1, 1, 0, 2, 2, 1]
    for order, values in ((False, by_marker), (True, by_animal)):
        core.write_i8(array("b", values), 5, 2, order, True, -127, out := bytearray(7))
        same(bytes(out), F, "a file written of i8")
        core.write_f64(array("d", values), 5, 2, order, True, -127, out := bytearray(7))
        same(bytes(out), F, "a file written of f64")
    core.write_f64(array("d"), 0, 3, False, True, NAN, out := bytearray(3))
    same(bytes(out), F[:3], "a file of no animals")
    values = array("d", [2, NAN, 1, 0, 2, 0, 0, 3, 2, 4])
    refused(7, 2, 1, core.write_f64, values, 5, 2, False, True, NAN, out := bytearray(7))
    same(out, bytes(7), "the file at a refusal")
    refused(15, 0, 0, core.write_f64, values, 5, 3, False, True, NAN, out)
    refused(16, 0, 0, core.write_f64, values, 5, 2, False, True, NAN, bytearray(6))
    refused(18, 0, 0, core.write_i8, array("b"), 2**63, 0, False, True, 0, out)
    refused(4, 0, 0, core.write_i8, array("b"), 2**63 - 1, 8, False, True, 0, out)


def test_standardising():
    val, stats = array("d", [0, 2, NAN, 1, 1, NAN]), array("d", [9] * 6)
    core.impute_and_zero_mean_snps_f64(val, 3, 2, False, True, False, stats)
    same(val.tolist(), [-1, 1, 0, 0, 0, 0], "two standardised columns")
    same(stats.tolist(), [1, 1, 2, 1, math.inf, 2], "their statistics")
    val = array("d", [0, 1, 2, 1, NAN, NAN])
    core.impute_and_zero_mean_snps_f64(val, 3, 2, True, False, False, stats)
    same(floats(val), [0, 1, 2, 1, "NaN", "NaN"], "values that are not to be changed")
    core.impute_and_zero_mean_snps_f64(val, 3, 2, True, True, True, stats)
    same(val.tolist(), [-1, 0, 1, 0, 0, 0], "values by lent statistics")
    standardise, infinite = core.impute_and_zero_mean_snps_f64, array("d", [math.inf, -math.inf])
    refused(13, 1, 0, standardise, array("d", [0, 2, NAN, NAN]), 2, 2, False, True, False, stats)
    refused(14, 0, 0, standardise, infinite, 2, 1, False, True, False, stats[:3])
    refused(15, 0, 0, standardise, val, 3, 3, False, True, False, stats)
    refused(17, 0, 0, standardise, val, 3, 2, False, True, False, stats[1:])
    for order in (False, True):
        val, one = array("d", [9, 9]), array("d", [9] * 3)
        core.read_standardised_f64(F, 5, 2, True, [0, 3], [0], order, val, one)
        same((val.tolist(), one.tolist()), ([1, -1], [1, 1, 2]), "read and standardised")
        refused(13, 0, 0, core.read_standardised_f64, F, 5, 2, True, [1, 1], [0], order, val, one)
        refused(17, 0, 0, core.read_standardised_f64, F, 5, 2, True, [0, 3], [0], order, val, array("d"))
        for file in (F, F_MODE_0):
            refused(5, 9, 0, core.read_standardised_f64, file, 5, 2, True, [0, 9], [0], order, val, one)
            refused(5, 9, 0, core.read_standardised_f64, file, 5, 2, True, [0, 9], [2], order, val, one)
            refused(6, 3, 0, core.read_standardised_f64, file, 5, 2, True, [0, 3], [3], order, val, one)
    same([core.root_f64(v) for v in (2, 9, 0, math.inf)], [math.sqrt(2), 3, 0, math.inf], "roots")
    same(floats([core.root_f64(-1.0), core.root_f64(NAN)]), ["NaN"] * 2, "roots of what has none")


def record(column):
    """Mean, deviation and how many values are not NaN, in plain Python; None if the marker is refused."""
    seen = [v for v in column if v == v]
    if not seen or math.isnan(sum(seen)):
        return None
    mean = sum(seen) / len(seen)
    variance = sum(v * v for v in seen) / len(seen) - mean * mean
    return [mean, math.sqrt(variance) if variance > 0 else math.inf, len(seen)]


def test_records():
    standardise, joined = core.impute_and_zero_mean_snps_f64, core.read_standardised_f64
    values = [0, 1, 2, NAN, NAN, math.inf, -math.inf]
    for _ in range(300):
        iids, sids, order, apply = draw.randrange(6), draw.randrange(5), draw.randrange(2), draw.randrange(2)
        columns = [draw.choices(values[:draw.choice([5, 7])], k=iids) for _ in range(sids)]
        val = array("d", [v for line in (zip(*columns) if order else columns) for v in line])
        records = [record(column) for column in columns]
        stats = array("d", range(100, 100 + 3 * sids))
        want = [kept if one is None else one[k % 3] for k, kept in enumerate(stats) for one in [records[k // 3]]]
        if None in records:
            lowest = records.index(None)
            number = 14 if any(v == v for v in columns[lowest]) else 13
            refused(number, lowest, 0, standardise, val, iids, sids, order, apply, False, stats)
        else:
            standardise(val, iids, sids, order, apply, False, stats)
        same(stats.tolist(), want, "drawn statistics")
    for order in (False, True):
        for third in (3, 0, NAN, math.inf, -1e300):
            val, stats = array("d", [0, 2, NAN]), array("d", [1, 2, third])
            lent = stats.tobytes()
            standardise(val, 3, 1, order, True, True, stats)
            same((val.tolist(), stats.tobytes()), ([-0.5, 0.5, 0], lent), "lent statistics, whatever the third is")
        for length in (0, 3, 4, 5, 7, 9):  # for two markers
            stats = array("d", [9] * length)
            for use_stats in (False, True):
                refused(17, 0, 0, standardise, array("d", [0, 2]), 1, 2, order, True, use_stats, stats)
            refused(17, 0, 0, joined, F, 5, 2, True, [0], [0, 1], order, array("d", [0, 2]), stats)
        refused(17, 0, 0, joined, F, 5, 2, True, [0], [0], order, array("d", [0]), array("d", [9] * 6))
        for markers, length in ((2**64 // 3 + 1, 2), (2**64 // 3 + 2, 5), (2**63 - 1, 0)):
            refused(17, 0, 0, standardise, array("d"), 0, markers, order, True, False, array("d", [9] * length))
        stats = array("d", [9] * 6)
        joined(F, 5, 2, True, [0, 1, 0, -5], [0, 1], order, array("d", [9] * 8), stats)
        same(stats.tolist(), [2, math.inf, 3, 0, math.inf, 4], "an animal that is listed again is observed again")


def test_lists():
    def listed(call, *arguments):
        entries = array("q", [99] * 8)
        length = call(*arguments, entries)
        same(entries[length:].tolist(), [99] * (8 - length), "the places past the list")
        return entries[:length].tolist()

    same(listed(core.index_all, 3), [0, 1, 2], "all")
    same(listed(core.index_one, 3, -7), [-7], "one")
    same(listed(core.index_vec, 3, [2, -9]), [2, -9], "a list")
    same(listed(core.index_bool, 3, b"\x01\x00\x02"), [0, 2], "marks")
    same(listed(core.index_range, 6, 4, None), [4, 5], "a range to the end")
    same(listed(core.index_range, 6, None, 2), [0, 1], "a range from the start")
    same(listed(core.index_range, 2, 1, 4), [1, 2, 3], "a range past the count")
    same(listed(core.index_slice, 6, 1, 6, -2), [5, 3, 1], "a slice downward")
    same(listed(core.index_slice, 6, -5, None, 2), [1, 3, 5], "a slice upward")
    same(core.to_range(5), (0, 5), "a range of nothing given")
    same(core.to_range(5, 2, 9), (2, 9), "a range")
    room = array("q", [0])
    refused(19, 0, 0, core.index_all, 2, room)
    refused(8, 0, 0, core.index_bool, 2, b"\x01", room)
    refused(9, 0, 0, core.index_slice, 2, 0, None, 0, room)
    refused(10, 0, 0, core.index_slice, 2, 3, None, 1, room)
    refused(11, 0, 0, core.index_slice, 2, 0, -3, 1, room)
    refused(12, 0, 0, core.index_range, 2, 2, 1, room)
    refused(12, 0, 0, core.to_range, 2, 2, 1)
    refused(18, 0, 0, core.to_range, 2, 0, 2**63)
    refused(18, 0, 0, core.index_one, 2**63, 0, room)
    refused(18, 0, 0, core.index_vec, 2**63, [], room)


def test_products():
    a = array("d", [1, 2, 3, 4, 5, 6])  # 3 rows, 2 columns
    file = b"xy" + a.tobytes()
    core.file_ata_piece(file, 2, 3, 2, 0, 2, 2, piece := array("d", [9] * 4))
    same(piece.tolist(), [14, 32, 32, 77], "A'A")
    core.file_aat_piece(file, 2, 3, 2, 1, 2, 1, piece := array("d", [9] * 2))
    same(piece.tolist(), [29, 36], "a piece of AA'")
    core.file_aat_piece(file, 2, 3, 2, 0, 3, 2, piece := array("d", [9] * 6))
    same(piece.tolist(), [17, 0, 22, 29, 27, 36], "AA', not mirrored")
    for call in (core.file_ata_piece, core.file_aat_piece):
        refused(20, 0, 0, call, file, 2, 3, 2, 9, 1, 1, piece)
        refused(18, 0, 0, call, file, 2, 2**63, 2, 0, 1, 1, piece)
    refused(15, 0, 0, core.file_ata_piece, file, 2, 3, 2, 0, 2, 2, piece)
    refused(1, 0, 0, core.file_aat_piece, file, 3, 3, 2, 0, 3, 2, piece)


# ---- drawn files beside an unpacking in plain Python

def drawn_file(mode, iids, sids):
    items, blocks = (iids, sids) if mode else (sids, iids)
    return b"\x6c\x1b" + bytes([mode]) + bytes(draw.randrange(256) for _ in range(blocks * ((items + 3) // 4)))


def call_at(file, iids, sids, animal, marker):
    block, item, items = (marker, animal, iids) if file[2] else (animal, marker, sids)
    return file[3 + block * ((items + 3) // 4) + item // 4] >> 2 * (item % 4) & 3


def test_drawn():
    for _ in range(300):
        mode, flag, order = draw.randrange(2), draw.randrange(2), draw.randrange(2)
        iids, sids = draw.randrange(10), draw.randrange(10)
        file = drawn_file(mode, iids, sids)
        animals = [draw.randrange(-iids, iids) for _ in range(draw.randrange(7))] if iids else []
        markers = [draw.randrange(-sids, sids) for _ in range(draw.randrange(7))] if sids else []
        values = [2, -127, 1, 0] if flag else [0, -127, 1, 2]
        places = [(a, m) for a in animals for m in markers] if order else [(a, m) for m in markers for a in animals]
        want = [values[call_at(file, iids, sids, a % iids, m % sids)] for a, m in places]
        val, wide = array("b", bytes(len(want))), array("d", [0] * len(want))
        core.read_i8(file, iids, sids, flag, animals, markers, -127, order, val)
        same(val.tolist(), want, "a drawn file at i8")
        core.read_f64(file, iids, sids, flag, array("q", animals), tuple(markers), NAN, order, wide)
        same(floats(wide), ["NaN" if v == -127 else v for v in want], "a drawn file at f64")
        calls = [[call_at(file, iids, sids, a % iids, m % sids) for a in animals] for m in markers]
        core.count_calls(file, iids, sids, array("q", animals), markers, counts := array("Q", [9] * (4 * len(markers))))
        same(counts.tolist(), [one.count(code) for one in calls for code in (3, 2, 0, 1)], "the counts of a drawn file")
        whole = array("b", bytes(iids * sids))
        core.read_i8(file, iids, sids, flag, range(iids), range(sids), -127, order, whole)
        core.write_i8(whole, iids, sids, order, flag, -127, written := bytearray(3 + (iids + 3) // 4 * sids))
        core.canonical(file, iids, sids, out := bytearray(len(written)))
        same(written, out, "what is read, written, and the canonical file")


# ---- what may be lent, exceptions, loading

def test_lending():
    lists = array("q", [0]), array("q", [0])
    val = bytearray(9)
    for file in (F, bytearray(F), memoryview(F), memoryview(b"x" + F)[1:], array("B", F), (ctypes.c_uint8 * 7)(*F)):
        core.read_i8(file, 5, 2, True, *lists, 0, False, one := array("b", b"\x09"))
        same(one[0], 2, "a file lent as " + type(file).__name__)
    with tempfile.TemporaryFile() as file:
        file.write(F)
        file.flush()
        with mmap.mmap(file.fileno(), 0, access=mmap.ACCESS_READ) as mapped:
            core.read_i8(mapped, 5, 2, True, *lists, 0, False, one)
        same(mapped.closed, True, "a mapped file is given back")
    grown = bytearray(F)
    raised((BedError,), core.read_i8, grown, 5, 2, True, [9], [0], 0, False, one)
    grown.append(0)
    same(len(grown), 8, "a buffer is given back after a refusal too")
    # a buffer's values have the call's type, stand beside each other, and can be written where the call writes
    shut = memoryview(array("b", b"\x09")).toreadonly()
    for wrong in (array("B", b"\x09"), array("h", [9]), b"\x09", (ctypes.c_double * 1)(), shut):
        raised(((TypeError, BufferError),), core.read_i8, F, 5, 2, True, *lists, 0, False, wrong)
    unaligned, apart = memoryview(bytearray(17))[1:9].cast("d"), memoryview(array("d", [0] * 4))[::2]
    for wrong in (array("f", [0]), array("q", [0]), bytes(8), unaligned, apart):
        raised(((TypeError, BufferError),), core.read_f64, F, 5, 2, True, *lists, 0, False, wrong)
    raised((BufferError,), core.index_all, 1, memoryview(array("q", [9])).toreadonly())
    for wrong in (array("i", [0]), array("d", [0]), ["0"], [0.0], 0, b"\x00"):
        raised((TypeError,), core.read_i8, F, 5, 2, True, wrong, [0], 0, False, one)
    # a number that its parameter cannot hold
    for count in (-1, 2**64):
        raised((OverflowError,), core.read_i8, F, count, 2, True, *lists, 0, False, one)
    for entry in (2**63, -2**63 - 1):
        raised((OverflowError,), core.read_i8, F, 5, 2, True, [entry], [0], 0, False, one)
        raised((OverflowError,), core.index_one, 5, entry, array("q", [0]))
    raised((OverflowError,), core.read_i8, F, 5, 2, True, *lists, 128, False, one)
    raised((TypeError,), core.read_i8, F, 5.0, 2, True, *lists, 0, False, one)
    same(val, bytes(9), "a buffer that was not lent")


def test_exceptions():
    for number in core.WORDS:
        e = core.refusal(number, 12345, 67890, "file")
        same(isinstance(e, IndexError), number in (5, 6, 8), "an IndexError")
        same(isinstance(e, ValueError), number not in (5, 6, 8), "a ValueError")
        same(type(e), BedIndexError if number in (5, 6, 8) else BedValueError, "the class")
        same(str(e).startswith("file: refusal {}: ".format(number)), True, "the words of {}".format(number))
        same("12345" in str(e), number in (5, 6, 7, 13, 14), "what the words of {} name".format(number))
        same("67890" in str(e), number == 7, "what the words of {} name".format(number))
        again = pickle.loads(pickle.dumps(e))
        same((type(again), again.args, str(again)), (type(e), e.args, str(e)), "a pickled refusal")
    same(["animal list" in str(core.refusal(n)) for n in (5, 6)], [True, False], "the list in the words of 5")
    same(["marker list" in str(core.refusal(n)) for n in (5, 6)], [False, True], "the list in the words of 6")
    later = core.refusal(99, 1, 2)
    same((type(later), str(later)), (BedError, "refusal 99: carries 1 and 2"), "a number that is not known")


def test_loading():
    def run(code, **variables):
        ran = subprocess.run([sys.executable, "-c", code], env={**os.environ, **variables}, stdout=subprocess.PIPE,
                             stderr=subprocess.STDOUT)
        return ran.stdout.decode().strip().split("\n")[-1]

    no_numpy = "import sys; sys.modules['numpy'] = None; import mungkelas.core; print('open_bed' in dir(mungkelas)); "
    same(run(no_numpy), "True", "the calls without NumPy")
    said = run(no_numpy + "mungkelas.open_bed")
    same(said.startswith(("ImportError", "ModuleNotFoundError")), True, "open_bed without NumPy")
    same(run("import mungkelas; mungkelas.closed_bed").startswith("AttributeError"), True, "a name that is not there")
    with tempfile.TemporaryDirectory() as directory:
        soname = "libmungkelas.so." + mungkelas.__version__.split(".")[0]
        os.symlink(os.path.abspath(core.library._name), os.path.join(directory, soname))
        found = run("import mungkelas.core as c; print(c.library._name)", MUNGKELAS_LIBRARY="", LD_LIBRARY_PATH=directory)
    beside = os.path.join(os.path.dirname(os.path.abspath(core.__file__)), "libmungkelas.so")
    same(found, beside if os.path.exists(beside) else soname, "the library beside the module, or the system's")
    for name in ("/nowhere/libmungkelas.so", "libc.so.6"):
        said = run("import mungkelas.core", MUNGKELAS_LIBRARY=name)
        same(said.startswith("ImportError: no library of Mungkelas as " + name), True, "an absent or another library")


test_header()
test_headers_widths_spans()
test_reading()
test_counting()
test_packing()
test_standardising()
test_records()
test_lists()
test_products()
test_drawn()
test_lending()
test_exceptions()
test_loading()
done("ctypes, Python {}.{}".format(*sys.version_info[:2]))

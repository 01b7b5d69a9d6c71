"""The calls of include/mungkelas.h, a function each, over ctypes. Needs no NumPy.

A buffer is any object that lends its bytes: bytes, bytearray, mmap, array.array, memoryview, a NumPy array. It is lent
and never copied, and its length is the one that the call is told; it is contiguous, its values are of the type that the
call asks, and it can be written where the call writes. A list may also be an iterable of ints, of which an array is made.

The header says what each call reads and writes and which refusals it has. A refusal is raised as BedError.
"""
import ctypes
import operator
import os
from array import array

from ._version import __version__

# The numbers of a statistics record, BED_STATS_PER_MARKER of the header: mean, deviation, how many values were observed.
STATS_PER_MARKER = 3

# The counts of a marker, BED_COUNTS_PER_MARKER of the header: no, one and two copies of the first allele, and missing.
COUNTS_PER_MARKER = 4

# What a refusal says, by its number.
WORDS = {
    1: "fewer bytes than needed",
    2: "no .bed file of these counts: the first two bytes or the length are wrong",
    3: "the mode byte is neither 0 nor 1",
    4: "a file of these counts would be too large",
    5: "entry {first} of the animal list is none of -count to count - 1",
    6: "entry {first} of the marker list is none of -count to count - 1",
    7: "a value is none of 0, 1, 2, missing: animal {first}, marker {second}",
    8: "there are not as many marks as the count",
    9: "the step is 0",
    10: "the start is past the count",
    11: "the end is past the count",
    12: "the start is above the end",
    13: "marker {first} of the matrix has no call",
    14: "marker {first} of the matrix has no mean",
    15: "the value or counts buffer has the wrong length",
    16: "the packed buffer has the wrong length",
    17: "the statistics buffer has the wrong length",
    18: "a count, a start, a height, a width or a bound is above 2^63 - 1",
    19: "the list buffer is shorter than the list",
    20: "no piece of the product",
}


class BedError(Exception):
    """A refusal: its number, what it carries (first, second, else 0), and where it was met, as far as that is known."""

    def __init__(self, number, first=0, second=0, where=""):
        super().__init__(number, first, second, where)
        self.number, self.first, self.second, self.where = number, first, second, where

    def __str__(self):
        words = WORDS.get(self.number, "carries {first} and {second}").format(first=self.first, second=self.second)
        return "{}refusal {}: {}".format(self.where and self.where + ": ", self.number, words)


class BedIndexError(BedError, IndexError):
    """5, 6 and 8: an index that does not fit the count."""


class BedValueError(BedError, ValueError):
    """Every other number of the header."""


def refusal(number, first=0, second=0, where=""):
    """The exception for a number."""
    kind = BedIndexError if number in (5, 6, 8) else BedValueError if number in WORDS else BedError
    return kind(number, first, second, where)


# ---- the library

class Answer(ctypes.Structure):
    """bed_answer."""

    _fields_ = [("number", ctypes.c_uint64), ("first", ctypes.c_int64), ("second", ctypes.c_int64)]


_BUFFER = [ctypes.c_void_p, ctypes.c_size_t]
_SIZE, _BOOL, _I8, _I64, _F64 = ctypes.c_size_t, ctypes.c_bool, ctypes.c_int8, ctypes.c_int64, ctypes.c_double
_READ = _BUFFER + [_SIZE, _SIZE, _BOOL] + _BUFFER + _BUFFER
_WRITE = _BUFFER + [_SIZE, _SIZE, _BOOL, _BOOL]
_PIECE = _BUFFER + [ctypes.c_uint64] + [_SIZE] * 5 + _BUFFER

# The parameters of every call, in the header's order.
CALLS = {
    "bed_open_and_check": _BUFFER,
    "bed_try_div_4": [_SIZE, _SIZE],
    "bed_byte_span": [_SIZE] + _BUFFER,
    "bed_read_i8": _READ + [_I8, _BOOL] + _BUFFER,
    "bed_read_f64": _READ + [_F64, _BOOL] + _BUFFER,
    "bed_count_calls": _BUFFER + [_SIZE, _SIZE] + _BUFFER + _BUFFER + _BUFFER,
    "bed_canonical": _BUFFER + [_SIZE, _SIZE] + _BUFFER,
    "bed_encode1_i8": _BUFFER + _BUFFER + [_BOOL, _I8],
    "bed_encode1_f64": _BUFFER + _BUFFER + [_BOOL, _F64],
    "bed_write_i8": _WRITE + [_I8] + _BUFFER,
    "bed_write_f64": _WRITE + [_F64] + _BUFFER,
    "bed_impute_and_zero_mean_snps_f64": _BUFFER + [_SIZE, _SIZE, _BOOL, _BOOL, _BOOL] + _BUFFER,
    "bed_read_standardised_f64": _READ + [_BOOL] + _BUFFER + _BUFFER,
    "bed_root_f64": [_F64],
    "bed_to_range": [_SIZE, _BOOL, _SIZE, _BOOL, _SIZE],
    "bed_index_all": [_SIZE] + _BUFFER,
    "bed_index_one": [_SIZE, _I64] + _BUFFER,
    "bed_index_vec": [_SIZE] + _BUFFER + _BUFFER,
    "bed_index_bool": [_SIZE] + _BUFFER + _BUFFER,
    "bed_index_range": [_SIZE, _BOOL, _SIZE, _BOOL, _SIZE] + _BUFFER,
    "bed_index_slice": [_SIZE, _I64, _BOOL, _I64, _I64] + _BUFFER,
    "bed_file_ata_piece": _PIECE,
    "bed_file_aat_piece": _PIECE,
}


def _find():
    """The library's name: the environment's, the one beside this file, or the SONAME of this version."""
    named = os.environ.get("MUNGKELAS_LIBRARY")
    if named:
        return named
    beside = os.path.join(os.path.dirname(os.path.abspath(__file__)), "libmungkelas.so")
    return beside if os.path.exists(beside) else "libmungkelas.so." + __version__.split(".")[0]


def _load(name):
    try:
        loaded = ctypes.CDLL(name)
        for call, parameters in CALLS.items():
            function = getattr(loaded, call)
            function.argtypes = parameters
            function.restype = _F64 if call == "bed_root_f64" else Answer
    except (OSError, AttributeError) as e:
        raise ImportError("no library of Mungkelas as {}: {}".format(name, e)) from e
    return loaded


library = _load(_find())


# ---- buffers and numbers

class _View(ctypes.Structure):
    """Py_buffer."""

    _fields_ = [("buf", ctypes.c_void_p), ("obj", ctypes.c_void_p), ("len", ctypes.c_ssize_t),
                ("itemsize", ctypes.c_ssize_t), ("readonly", ctypes.c_int), ("ndim", ctypes.c_int),
                ("format", ctypes.c_char_p), ("shape", ctypes.c_void_p), ("strides", ctypes.c_void_p),
                ("suboffsets", ctypes.c_void_p), ("internal", ctypes.c_void_p)]


_get = ctypes.pythonapi.PyObject_GetBuffer
_get.argtypes, _get.restype = [ctypes.py_object, ctypes.POINTER(_View), ctypes.c_int], ctypes.c_int
_release = ctypes.pythonapi.PyBuffer_Release
_release.argtypes, _release.restype = [ctypes.POINTER(_View)], None
_WRITABLE, _FORMAT_AND_SHAPE = 1, 4 | 8

# The letters that stand for a buffer's values, and their width.
_TYPES = {"u8": (set("Bbc?"), 1), "i8": (set("b"), 1), "i64": (set("ql"), 8), "u64": (set("QL"), 8),
          "f64": (set("d"), 8)}


class _Lent:
    """A buffer that a call is to be lent."""

    def __init__(self, thing, values, written=False):
        self.thing, self.values, self.written = thing, values, written

    def take(self):
        view = _View()
        _get(self.thing, ctypes.byref(view), _FORMAT_AND_SHAPE | (_WRITABLE if self.written else 0))
        letters, size = _TYPES[self.values]
        letter = (view.format or b"B").decode().lstrip("@=<")
        address = view.buf if view.len else None  # null is allowed there, and aligned
        if letter not in letters or view.itemsize != size or (address or 0) % size:
            _release(ctypes.byref(view))
            raise TypeError("a buffer of aligned {} values is needed, not one of {!r}".format(self.values, letter))
        return view, address, view.len // size


def _list(entries):
    """A list to be lent: a buffer as it is, other ints as an array."""
    try:
        memoryview(entries)
    except TypeError:
        entries = array("q", entries)
    return _Lent(entries, "i64")


def _between(low, number, high):
    number = operator.index(number)
    if not low <= number <= high:
        raise OverflowError("{} is none of {} to {}".format(number, low, high))
    return number


def _size(number):
    return _between(0, number, 2**64 - 1)


def _i64(number):
    return _between(-2**63, number, 2**63 - 1)


def _i8(number):
    return _between(-128, number, 127)


def _call(function, *arguments):
    """Calls the library with the buffers lent; the answer's two numbers, or the refusal raised."""
    views, plain = [], []
    try:
        for argument in arguments:
            if isinstance(argument, _Lent):
                view, address, length = argument.take()
                views.append(view)
                plain += [address, length]
            else:
                plain.append(argument)
        answer = function(*plain)
    finally:
        for view in views:
            _release(ctypes.byref(view))
    if answer.number:
        raise refusal(answer.number, answer.first, answer.second)
    return answer.first, answer.second


# ---- headers, widths, spans

def open_and_check(file):
    """Byte 2 of the file."""
    return _call(library.bed_open_and_check, _Lent(file, "u8"))[0]


def try_div_4(in_iid_count, in_sid_count):
    """The width in bytes of a block of in_iid_count items."""
    return _call(library.bed_try_div_4, _size(in_iid_count), _size(in_sid_count))[0]


def byte_span(count, index):
    """The lowest byte of a block that the list touches, and how many from it to the highest. 5 whatever the list is of."""
    return _call(library.bed_byte_span, _size(count), _list(index))


# ---- reading

def read_i8(file, iid_count, sid_count, is_a1_counted, iid_index, sid_index, missing_value, animal_order, val):
    """Writes the calls of the listed animals at the listed markers to val."""
    _call(library.bed_read_i8, _Lent(file, "u8"), _size(iid_count), _size(sid_count), bool(is_a1_counted),
          _list(iid_index), _list(sid_index), _i8(missing_value), bool(animal_order), _Lent(val, "i8", True))


def read_f64(file, iid_count, sid_count, is_a1_counted, iid_index, sid_index, missing_value, animal_order, val):
    """Writes the calls of the listed animals at the listed markers to val."""
    _call(library.bed_read_f64, _Lent(file, "u8"), _size(iid_count), _size(sid_count), bool(is_a1_counted),
          _list(iid_index), _list(sid_index), missing_value, bool(animal_order), _Lent(val, "f64", True))


def count_calls(file, iid_count, sid_count, iid_index, sid_index, counts):
    """Writes how many of the listed animals' calls at each listed marker have no, one and two copies of the first allele,
    and how many are missing, to counts, unsigned ints of 64 bits."""
    _call(library.bed_count_calls, _Lent(file, "u8"), _size(iid_count), _size(sid_count), _list(iid_index),
          _list(sid_index), _Lent(counts, "u64", True))


def canonical(file, iid_count, sid_count, out):
    """Writes the canonical file to out."""
    _call(library.bed_canonical, _Lent(file, "u8"), _size(iid_count), _size(sid_count), _Lent(out, "u8", True))


# ---- packing and writing

def encode1_i8(values, out, is_a1_counted, missing):
    """Packs one marker's values into out."""
    _call(library.bed_encode1_i8, _Lent(values, "i8"), _Lent(out, "u8", True), bool(is_a1_counted), _i8(missing))


def encode1_f64(values, out, is_a1_counted, missing):
    """Packs one marker's values into out."""
    _call(library.bed_encode1_f64, _Lent(values, "f64"), _Lent(out, "u8", True), bool(is_a1_counted), missing)


def write_i8(val, iid_count, sid_count, animal_order, is_a1_counted, missing, out):
    """Writes a whole file to out."""
    _call(library.bed_write_i8, _Lent(val, "i8"), _size(iid_count), _size(sid_count), bool(animal_order),
          bool(is_a1_counted), _i8(missing), _Lent(out, "u8", True))


def write_f64(val, iid_count, sid_count, animal_order, is_a1_counted, missing, out):
    """Writes a whole file to out."""
    _call(library.bed_write_f64, _Lent(val, "f64"), _size(iid_count), _size(sid_count), bool(animal_order),
          bool(is_a1_counted), missing, _Lent(out, "u8", True))


# ---- standardising

def impute_and_zero_mean_snps_f64(val, iid_count, sid_count, animal_order, apply_in_place, use_stats, stats):
    """Finds the statistics or uses them, and standardises val if apply_in_place."""
    _call(library.bed_impute_and_zero_mean_snps_f64, _Lent(val, "f64", True), _size(iid_count), _size(sid_count),
          bool(animal_order), bool(apply_in_place), bool(use_stats), _Lent(stats, "f64", True))


def read_standardised_f64(file, iid_count, sid_count, is_a1_counted, iid_index, sid_index, animal_order, val, stats):
    """Reads to val, writes the statistics to stats and standardises val."""
    _call(library.bed_read_standardised_f64, _Lent(file, "u8"), _size(iid_count), _size(sid_count),
          bool(is_a1_counted), _list(iid_index), _list(sid_index), bool(animal_order), _Lent(val, "f64", True),
          _Lent(stats, "f64", True))


def root_f64(variance):
    """The correctly rounded square root."""
    return library.bed_root_f64(variance)


# ---- lists: each writes to the first places of list, a buffer, and answers the list's length

def _bound(number):
    return (False, 0) if number is None else (True, _size(number))


def to_range(count, start=None, end=None):
    """The start and the end of a range."""
    return _call(library.bed_to_range, _size(count), *_bound(start), *_bound(end))


def index_all(count, list):
    return _call(library.bed_index_all, _size(count), _Lent(list, "i64", True))[0]


def index_one(count, one, list):
    return _call(library.bed_index_one, _size(count), _i64(one), _Lent(list, "i64", True))[0]


def index_vec(count, vec, list):
    return _call(library.bed_index_vec, _size(count), _list(vec), _Lent(list, "i64", True))[0]


def index_bool(count, marks, list):
    return _call(library.bed_index_bool, _size(count), _Lent(marks, "u8"), _Lent(list, "i64", True))[0]


def index_range(count, start, end, list):
    return _call(library.bed_index_range, _size(count), *_bound(start), *_bound(end), _Lent(list, "i64", True))[0]


def index_slice(count, start, end, step, list):
    """The core's slice, not Python's: see the header."""
    ended = (False, 0) if end is None else (True, _i64(end))
    return _call(library.bed_index_slice, _size(count), _i64(start), *ended, _i64(step), _Lent(list, "i64", True))[0]


# ---- products

def _piece(function, bytes, offset, row_count, col_count, start, height, width, piece):
    _call(function, _Lent(bytes, "u8"), _size(offset), _size(row_count), _size(col_count), _size(start), _size(height),
          _size(width), _Lent(piece, "f64", True))


def file_ata_piece(bytes, offset, row_count, col_count, col_start, height, width, piece):
    """Writes a piece of A'A to piece."""
    _piece(library.bed_file_ata_piece, bytes, offset, row_count, col_count, col_start, height, width, piece)


def file_aat_piece(bytes, offset, row_count, col_count, row_start, height, width, piece):
    """Writes a piece of AA' to piece."""
    _piece(library.bed_file_aat_piece, bytes, offset, row_count, col_count, row_start, height, width, piece)

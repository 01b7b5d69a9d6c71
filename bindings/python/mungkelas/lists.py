"""From an index to a list of entries."""
import numbers
import operator

import numpy as np

from . import core

_LARGEST = 2**63 - 1


def _made(length, call, *arguments):
    """The list that a call of the core writes."""
    entries = np.zeros(length, np.int64)
    call(*arguments, entries)
    return entries


def _of_slice(part, count):
    """Python's slice by the core's, whose negative step goes down from end - 1 to start."""
    start, stop, step = part.indices(count)
    length = len(range(start, stop, step))
    if step < 0:
        start, stop = stop + 1, start + 1
    return _made(length, core.index_slice, count, start, stop, max(-_LARGEST, min(step, _LARGEST)))


def _is_int(one):
    return isinstance(one, numbers.Integral) and not isinstance(one, bool)


def to_list(index, count):
    """The list of int64 entries that an index means: None (all), an int, a slice, a range, bools, or ints."""
    if index is None:
        return _made(count, core.index_all, count)
    if isinstance(index, slice):
        return _of_slice(index, count)
    if isinstance(index, range) and index.step == 1 and 0 <= index.start <= index.stop:
        return _made(len(index), core.index_range, count, index.start, index.stop)
    entries = np.asarray(index)
    if entries.ndim == 0 and _is_int(entries[()]):
        return _made(1, core.index_one, count, operator.index(entries[()]))
    if entries.ndim != 1:
        raise TypeError("an index is None, an int, a slice, or one row of ints or bools, not {!r}".format(index))
    if entries.dtype.kind == "b":
        marks = np.ascontiguousarray(entries).view(np.uint8)
        return _made(np.count_nonzero(marks), core.index_bool, count, marks)
    if entries.size == 0:
        return np.zeros(0, np.int64)
    ints = entries.dtype.kind in "iu"
    if not ints and (isinstance(index, np.ndarray) or not all(map(_is_int, index))):
        raise TypeError("an index of {} values".format(entries.dtype))
    if not ints or (entries.dtype.kind == "u" and int(entries.max()) > _LARGEST):  # NumPy has no int for all of them
        raise OverflowError("an index has an entry that is none of -2^63 to 2^63 - 1")
    return np.ascontiguousarray(entries, np.int64)


def to_lists(index, iid_count, sid_count):
    """The lists of animals and markers: of a tuple of two, in this order; anything else is an index of markers."""
    if not isinstance(index, tuple):
        index = (None, index)
    if len(index) != 2:
        raise TypeError("an index of animals and one of markers are needed, not {} of them".format(len(index)))
    return to_list(index[0], iid_count), to_list(index[1], sid_count)

"""Reading, writing and standardising genotypes of PLINK .bed files.

open_bed and to_bed work on NumPy arrays, and NumPy is loaded when one of them is first named; mungkelas.core has the
calls of the library and needs no NumPy.
"""
from ._version import __version__
from .core import BedError, BedIndexError, BedValueError

__all__ = ["BedError", "BedIndexError", "BedValueError", "__version__", "open_bed", "to_bed"]


def __getattr__(name):
    if name == "open_bed":
        from .reading import open_bed as found
    elif name == "to_bed":
        from .writing import to_bed as found
    else:
        raise AttributeError("module {!r} has no attribute {!r}".format(__name__, name))
    globals()[name] = found
    return found


def __dir__():
    return sorted(set(globals()) | set(__all__))

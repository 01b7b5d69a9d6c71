"""The version: the header's. A wheel has this file with the number alone."""
import os
import re


def of_header(path):
    """MUNGKELAS_VERSION_MAJOR, MINOR and PATCH of a header, or 0.1.0 where it has none."""
    with open(path, encoding="utf-8") as file:
        numbers = dict(re.findall(r"#define MUNGKELAS_VERSION_(MAJOR|MINOR|PATCH) +(\d+)", file.read()))
    return "{MAJOR}.{MINOR}.{PATCH}".format(**numbers) if len(numbers) == 3 else "0.1.0"


HEADER = os.path.join(os.path.dirname(os.path.abspath(__file__)), "..", "..", "..", "include", "mungkelas.h")
__version__ = of_header(HEADER)

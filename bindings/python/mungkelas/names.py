"""The .fam and .bim files: a line for each animal or marker, six fields a line."""
import os

import numpy as np

# name, type, and what stands there by default: a value, or a word that is numbered from 1.
FAM = {"fid": (np.str_, "0"), "iid": (np.str_, "iid{}"), "father": (np.str_, "0"), "mother": (np.str_, "0"),
       "sex": (np.int32, 0), "pheno": (np.str_, "0")}
BIM = {"chromosome": (np.str_, "0"), "sid": (np.str_, "sid{}"), "cm_position": (np.float32, 0),
       "bp_position": (np.int32, 0), "allele_1": (np.str_, "A1"), "allele_2": (np.str_, "A2")}


def path_of(bed, given, ending):
    """The path given, or the one of the .bed with another ending."""
    return os.fsdecode(given) if given is not None else os.path.splitext(bed)[0] + ending


def count_lines(path):
    """The lines of a file; the end of the last one may be absent."""
    count, last = 0, b"\n"
    with open(path, "rb") as file:
        for some in iter(lambda: file.read(1 << 20), b""):
            count, last = count + some.count(b"\n"), some[-1:]
    return count + (last != b"\n")


def given(properties, fields):
    """The properties given for these fields, as arrays of one axis; None stays: this field is not wanted."""
    arrays = {name: value for name, value in properties.items() if name in fields}
    for name, value in arrays.items():
        if value is not None:
            value, kind = np.asarray(value), fields[name][0]
            arrays[name] = value.astype(kind)
            if value.ndim != 1:
                raise ValueError("property {} has {} axes, not 1".format(name, value.ndim))
            if kind is np.int32 and value.dtype.kind in "iuf" and (arrays[name] != value).any():
                raise ValueError("property {} has a value that is no int32".format(name))
    return arrays


def check_known(properties):
    for name in properties:
        if name not in FAM and name not in BIM:
            raise ValueError("there is no property {!r}".format(name))


def read(path, fields, wanted):
    """The wanted fields of a file, as a dict of arrays."""
    columns = {name: [] for name in wanted}
    kinds = {np.int32: int, np.float32: float, np.str_: str}
    places = [(list(fields).index(name), column, kinds[fields[name][0]]) for name, column in columns.items()]
    with open(path, "rb") as file:
        for number, line in enumerate(file, 1):
            try:
                words = line.decode().split()
                if len(words) != 6:
                    raise ValueError("{} fields, not 6".format(len(words)))
                for place, column, kind in places:
                    column.append(kind(words[place]))
            except ValueError as e:
                raise ValueError("{}, line {}: {}".format(path, number, e)) from None
    return {name: np.array(column, fields[name][0]) for name, column in columns.items()}


class Names:
    """The fields of one file, .fam or .bim, which is read when something of it is first asked for."""

    def __init__(self, path, fields, count, properties):
        self.path, self.fields, self.counted = path, fields, count
        self.arrays = given(properties, fields)
        for name, array in self.arrays.items():
            if array is not None:
                self._fits(len(array), "property " + name)

    def _fits(self, count, what):
        if self.counted is None:
            self.counted = count
        if self.counted != count:
            raise ValueError("{} has {} values, not {}".format(what, count, self.counted))

    def count(self):
        """The count given, that of a property given, or the file's number of lines."""
        if self.counted is None:
            self.counted = count_lines(self.path)
        return self.counted

    def field(self, name):
        """The values of a field; None of one that is not wanted."""
        if name not in self.arrays:
            found = read(self.path, self.fields, [one for one in self.fields if one not in self.arrays])
            self._fits(len(found[name]), self.path)
            self.arrays.update(found)
        return self.arrays[name]


def filled(arrays, fields, count):
    """All fields, the absent ones by default; each has count values."""
    full = {}
    for name, (kind, default) in fields.items():
        array = arrays.get(name)
        if array is None:
            array = np.array([default.format(i + 1) if kind is np.str_ else default for i in range(count)], kind)
        if len(array) != count:
            raise ValueError("property {} has {} values, not {}".format(name, len(array), count))
        full[name] = array
    return full


def write(file, arrays, between):
    """Writes the fields of every line to a file open for bytes."""
    columns = []
    for name, array in arrays.items():
        if array.dtype.kind == "f":
            words = [np.format_float_positional(value, trim="-") for value in array]
        else:
            words = [str(value) for value in array]
        for word in words:
            if len(word.split()) != 1 or word != word.strip():
                raise ValueError("property {} has {!r}, which is not one word".format(name, word))
        columns.append(words)
    for line in zip(*columns):
        file.write((between.join(line) + "\n").encode())

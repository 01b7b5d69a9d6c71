"""The command on files: every subcommand, option and refusal, compared with an unpacking that is written out here. The last line says how many
checks passed.

    command.py PROGRAM FAULTS      FAULTS is the library made of tests/faults.c
"""
import ast, errno, fcntl, math, os, pty, random, re, resource, shutil, signal, struct, subprocess, sys, tempfile, time

program, faults = os.path.abspath(sys.argv[1]), os.path.abspath(sys.argv[2])
root = os.path.dirname(os.path.dirname(os.path.abspath(__file__)))
header = open(os.path.join(root, "include/mungkelas.h")).read()
VERSION = ".".join(re.search(rf"#define MUNGKELAS_VERSION_{part} (\d+)", header)[1] for part in ("MAJOR", "MINOR", "PATCH"))
try:
    import numpy
except ImportError:
    numpy = None

for number in signal.SIGINT, signal.SIGTERM, signal.SIGHUP, signal.SIGQUIT:
    signal.signal(number, signal.SIG_DFL)  # a shell has what runs beside it ignore some

passed = failed = 0
drawn = random.Random(29)


def same(got, expected, what):
    """One check."""
    global passed, failed
    if got == expected:
        passed += 1
        return
    failed += 1
    print(f"{what}:\n  got      {got!r:.400}\n  expected {expected!r:.400}")


def run(*words, fault=None, limit=None, room=None, stdin=None, ignored=None):
    """Runs the command, with a limit on the size of files or room in memory if given; answers its exit status, standard output and standard error."""
    env = dict(os.environ, LC_ALL="C")
    if fault:
        env.update(LD_PRELOAD=faults, FAULT=fault, ASAN_OPTIONS="verify_asan_link_order=0")

    def before():
        if limit is not None:
            resource.setrlimit(resource.RLIMIT_FSIZE, (limit, limit))
        if room is not None:
            resource.setrlimit(resource.RLIMIT_AS, (room, room))
        if ignored:
            signal.signal(ignored, signal.SIG_IGN)

    done = subprocess.run([program, *map(str, words)], capture_output=True, env=env, input=stdin, preexec_fn=before, timeout=50)
    return done.returncode, done.stdout.decode(), done.stderr.decode()


def done(what, *words, **how):
    """Runs what has to be done without a message; answers standard output."""
    status, out, err = run(*words, **how)
    same((status, err), (0, ""), what)
    return out


def left():
    """The files here that a run made."""
    return sorted(f for f in os.listdir() if f.startswith("out"))


def clear():
    for f in left():
        os.rmdir(f) if os.path.isdir(f) else os.remove(f)


# ---- .bed files, and their unpacking

VALUES = {1: {0: 2, 2: 1, 3: 0}, 2: {0: 0, 2: 1, 3: 2}}  # by the allele that is counted; code 1 is missing


def pack(codes, mode, pad=0):
    """codes[a][m] as the bytes of a .bed file; pad is the code of every pad."""
    animals, markers = len(codes), len(codes[0]) if codes else 0
    blocks = [[codes[a][m] for a in range(animals)] for m in range(markers)] if mode == 1 else codes
    out = bytearray([0x6C, 0x1B, mode])
    for block in blocks:
        for i in range(0, len(block), 4):
            four = (block[i:i + 4] + [pad] * 3)[:4]
            out.append(four[0] | four[1] << 2 | four[2] << 4 | four[3] << 6)
    return bytes(out)


def write(prefix, codes, mode, markers=None, pad=0):
    """A prefix of three files: animals F0 A0, F0 A1, ... F1 A7, ...; markers m0, m1, ..."""
    markers = len(codes[0]) if markers is None else markers
    put(prefix + ".bed", pack(codes, mode, pad))
    put(prefix + ".fam", "".join(f"F{a // 7} A{a} 0 0 0 -9\n" for a in range(len(codes))))
    put(prefix + ".bim", "".join(f"1\tm{m}\t0\t{m}\tA\tC\n" for m in range(markers)))


def put(path, text):
    with open(path, "wb") as f:
        f.write(text if isinstance(text, bytes) else text.encode())


def get(path):
    with open(path, "rb") as f:
        return f.read()


def draw(animals, markers, missing=0.2):
    return [[1 if drawn.random() < missing else drawn.choice((0, 2, 3)) for _ in range(markers)] for _ in range(animals)]


def load(path):
    """A .npy file by hand: its dict and its values."""
    bytes = get(path)
    same(bytes[:8], b"\x93NUMPY\x01\x00", path + ": the mark and the version")
    size = 10 + struct.unpack("<H", bytes[8:10])[0]
    same((size % 64, bytes[size - 1:size]), (0, b"\n"), path + ": the end of the header")
    about = ast.literal_eval(bytes[10:size].decode("ascii"))
    same(sorted(about), ["descr", "fortran_order", "shape"], path + ": the keys of the header")
    rows, columns = about["shape"]
    letter = {"|i1": "b", "<f8": "d"}[about["descr"]]
    same(len(bytes) - size, rows * columns * struct.calcsize(letter), path + ": the length")
    values = struct.unpack(f"<{rows * columns}{letter}", bytes[size:])
    table = [[values[c * rows + r if about["fortran_order"] else r * columns + c] for c in range(columns)] for r in range(rows)]
    if numpy:
        array = numpy.load(path)
        same((array.shape, array.dtype.str), ((rows, columns), about["descr"]), path + ": by NumPy")
        same(as_bits(array.tolist()), as_bits(table), path + ": the values by NumPy")
    return about, table


def bits(x):
    """A value so that equal bits compare equal, and a NaN with a NaN."""
    return x if isinstance(x, int) else "NaN" if math.isnan(x) else struct.pack("<d", x)


def as_bits(table):
    return [[bits(x) for x in row] for row in table]


def unpacked(codes, allele, missing, animals, markers):
    kind = type(missing)
    return [[missing if codes[a][m] == 1 else kind(VALUES[allele][codes[a][m]]) for m in markers] for a in animals]


def standardised(table):
    """Document 01's sentences, and 02's third number: the values and the statistics."""
    columns = [list(c) for c in zip(*table)]
    stats = []
    for c in columns:
        seen = [v for v in c if not math.isnan(v)]
        n, total, squares = 0.0, 0.0, 0.0
        for v in seen:
            n, total, squares = n + 1, total + v, squares + v * v
        mean = total / n
        variance = squares / n - mean * mean
        deviation = math.sqrt(variance) if variance > 0 else math.inf
        stats.append([mean, deviation, float(len(seen))])
        for i, v in enumerate(c):
            c[i] = 0.0 if math.isnan(v) or math.isinf(deviation) else (v - mean) * (1 / deviation)
    return [list(r) for r in zip(*columns)], stats


HEAD = "CHR\tSNP\tA1\tA2\tHOM_A1\tHET\tHOM_A2\tMISSING\tA1_FREQ\n"


def counted(codes, animals, markers, names=lambda m: f"1\tm{m}\tA\tC"):
    """The table that freq writes; names are the first four words of a marker's line."""
    table = HEAD
    for m in markers:
        calls = [codes[a][m] for a in animals]
        two, missing, one, none = map(calls.count, range(4))
        seen = two + one + none
        table += f"{names(m)}\t{two}\t{one}\t{none}\t{missing}\t{'%.6g' % ((2 * two + one) / (2 * seen)) if seen else 'NA'}\n"
    return table


def longest(animals, markers, names=lambda m: f"1\tm{m}\tA\tC"):
    """The bytes that are reserved for that table: every count as long as the greatest one, a frequency of 11."""
    return len(HEAD) + sum(len(names(m)) + 4 * len(f"\t{animals}") + 1 + 11 + 1 for m in markers)


def name(n, one, many):
    return f"{n} {one if n == 1 else many}"


def shape_words(path, animals, markers, dtype, order):
    return f"{path}: {name(animals, 'animal', 'animals')} by {name(markers, 'marker', 'markers')}, {dtype}, order {order}\n"


# ---- the tests

def test_read():
    for animals, markers in (0, 0), (0, 3), (3, 0), (1, 1), (4, 4), (5, 2), (7, 9), (33, 18):
        codes = draw(animals, markers)
        for mode in 0, 1:
            write("herd", codes, mode, markers)
            for dtype, missing in ("i8", -127), ("f64", math.nan):
                for allele in 1, 2:
                    expected = as_bits(unpacked(codes, allele, missing, range(animals), range(markers)))
                    for order in "F", "C":
                        what = f"read {animals} {markers} mode {mode} {dtype} allele {allele} {order}"
                        more = ["--dtype", dtype, "--order", order] + ["--a2"] * (allele == 2)
                        out = done(what, "read", "herd", "-o", "out.npy", "--threads", "1", *more)
                        same(out, shape_words("out.npy", animals, markers, dtype, order), what + ": the words")
                        about, table = load("out.npy")
                        same(about, {"descr": "|i1" if dtype == "i8" else "<f8", "fortran_order": order == "F", "shape": (animals, markers)}, what)
                        same(as_bits(table), expected, what)
                        for threads in 2, 3:
                            same(done(what, "read", "herd", "-o", "out2.npy", "--threads", threads, "--quiet", *more), "", what + " --quiet")
                            same(get("out2.npy") == get("out.npy"), True, f"{what}: {threads} threads as one")
    same(left(), ["out.npy", "out2.npy"], "read: the files left")
    done("read: defaults", "read", "herd", "-o", "out.npy", "--quiet")
    about, table = load("out.npy")
    same((about["descr"], about["fortran_order"]), ("|i1", True), "read: defaults")


def test_across():
    """Enough lines for several parts across the grain."""
    for mode, order, animals, markers in (1, "C", 1301, 70), (0, "F", 70, 1301), (0, "C", 1301, 70), (1, "F", 70, 1301):
        codes = draw(animals, markers, 0.1)
        write("herd", codes, mode)
        what = f"across: mode {mode} {order}"
        for subcommand, more in ("read", ["--dtype", "f64"]), ("standardise", []):
            for threads in 1, 2, 3:
                done(what, subcommand, "herd", "-o", f"out{threads}.npy", "--order", order, "--threads", threads, "--quiet", *more)
            for threads in 2, 3:
                same(get(f"out{threads}.npy") == get("out1.npy"), True, f"{what} {subcommand}: {threads} threads as one")
        for threads in 2, 3:
            same(get(f"out{threads}.stats.npy") == get("out1.stats.npy"), True, f"{what}: {threads} threads, statistics")
        values, stats = standardised(unpacked(codes, 1, math.nan, range(animals), range(markers)))
        same(as_bits(load("out1.npy")[1]), as_bits(values), what + ": the values")
        same(as_bits(load("out1.stats.npy")[1]), as_bits(stats), what + ": the statistics")
        clear()


def test_threads():
    """How many threads are begun beside the first: as many as are asked for, and no more than there are parts. A signal shows whether one is."""
    for mode, order, animals, markers, threads, begun in (
            (1, "F", 20, 600, 1, 0), (1, "F", 20, 600, 2, 1), (1, "F", 20, 600, 3, 2), (0, "C", 600, 20, 3, 2), (1, "F", 20, 2, 3, 1),
            (1, "C", 512, 20, 3, 0), (1, "C", 600, 20, 3, 1), (1, "C", 1100, 20, 2, 1), (1, "C", 1100, 20, 3, 2), (0, "F", 20, 600, 3, 1),
            (0, "F", 20, 1100, 3, 2)):
        write("herd", draw(animals, markers, 0.1), mode)
        for words in [["read", "--order", order]] + [["freq"]] * (order == "F"):
            words += ["herd", "-o", "out", "--threads", threads, "--quiet"]
            what = f"threads: {words[0]}, mode {mode} {order} {animals} {markers} {threads}"
            if begun:
                same(run(*words, fault=f"pthread_create {begun} signal {signal.SIGTERM}")[0], -signal.SIGTERM, what + ": begun")
            same(run(*words, fault=f"pthread_create {begun + 1} signal {signal.SIGTERM}")[0], 0, what + ": no more")
    for processors in 4096, -1:
        done(f"threads: {processors} processors", "read", "herd", "-o", "out", "--quiet", fault=f"sysconf 1 error {processors}")


def test_at_once():
    """Enough work for threads to run at the same time."""
    animals, markers = 3000, 1200
    put("herd.bed", b"\x6c\x1b\1" + drawn.randbytes(animals // 4 * markers))
    for order in "F", "C":
        for subcommand in "read", "standardise":
            for threads in 1, 2, 3:
                done(f"at once: {subcommand} {order}", subcommand, "herd", "-o", f"out{threads}.npy", "--animals", animals, "--markers", markers,
                     "--order", order, "--threads", threads, "--quiet")
            for threads in 2, 3:
                same(get(f"out{threads}.npy") == get("out1.npy"), True, f"at once: {subcommand} {order}: {threads} threads as one")
        for threads in 2, 3:
            same(get(f"out{threads}.stats.npy") == get("out1.stats.npy"), True, f"at once: {order}: {threads} threads, statistics")


def test_memory():
    """Nothing is held twice: a run does with room for the file, for what it writes, and for little more."""
    own = 6 << 20  # of the program itself, less than the file
    write("herd", draw(5, 3), 1)
    if run("check", "herd", room=own)[0]:
        print("this build takes more memory by itself: how much a run takes is not looked at")
        return
    animals, markers = 4000, 8000
    file = animals * markers // 4
    put("herd.bed", b"\x6c\x1b\1" + bytes(file))
    for words, out in ((["check"], 0), (["read", "-o", "out"], 4 * file), (["read", "-o", "out", "--order", "C"], 4 * file), (["freq", "-o", "out"], 0),
                       (["canonical", "-o", "out"], file)):
        done(f"memory: {words}", *words, "herd", "--animals", animals, "--markers", markers, "--threads", 1, "--quiet", room=file + out + own)
    # In animal order each thread that has a part needs room for its values, here 512 markers of a file of mode 0.
    animals, markers = 1000, 1200
    put("herd.bed", b"\x6c\x1b\0" + bytes(animals * markers // 4))
    for order, threads, more in ("F", 1, 0), ("C", 1024, 256 << 20):
        done(f"memory: standardise {order} {threads}", "standardise", "herd", "-o", "out", "--order", order, "--animals", animals, "--markers", markers,
             "--threads", threads, "--quiet", room=animals * markers * 8 + more + own)


def test_standardise():
    codes = draw(23, 14)
    for row in codes:
        row[5] = 3  # a marker that does not vary
    for mode in 0, 1:
        write("herd", codes, mode)
        put("keep", "".join(f"F{a // 7} A{a}\n" for a in range(2, 23, 2)))
        put("exclude", "m3\nm4\n")
        for allele in 1, 2:
            for order in "F", "C":
                for lists in False, True:
                    animals, markers = (range(2, 23, 2), [m for m in range(14) if m not in (3, 4)]) if lists else (range(23), range(14))
                    more = ["--order", order] + ["--a2"] * (allele == 2) + ["--keep", "keep", "--exclude", "exclude"] * lists
                    what = f"standardise mode {mode} {' '.join(more)}"
                    values, stats = standardised(unpacked(codes, allele, math.nan, animals, markers))
                    out = done(what, "standardise", "herd", "-o", "out.npy", *more)
                    words = f"out.stats.npy: the statistics, {len(markers)} markers by 3, f64, order C\n"
                    same(out, shape_words("out.npy", len(animals), len(markers), "f64", order) + words, what + ": the words")
                    about, table = load("out.npy")
                    same(about, {"descr": "<f8", "fortran_order": order == "F", "shape": (len(animals), len(markers))}, what)
                    same(as_bits(table), as_bits(values), what + ": the values")
                    about, table = load("out.stats.npy")
                    same(about, {"descr": "<f8", "fortran_order": False, "shape": (len(markers), 3)}, what)
                    same(as_bits(table), as_bits(stats), what + ": the statistics")
                    for threads in 1, 2, 3:
                        done(what, "standardise", "herd", "-o", f"out{threads}", "--threads", threads, "--dtype", "f64", "--quiet", *more)
                        same((get(f"out{threads}") == get("out.npy"), get(f"out{threads}.stats.npy") == get("out.stats.npy")), (True, True),
                             f"{what}: {threads} threads")
    same(left(), ["out.npy", "out.stats.npy"] + [f for t in (1, 2, 3) for f in (f"out{t}", f"out{t}.stats.npy")], "standardise: the files left")


def test_freq():
    for animals, markers in (0, 0), (0, 3), (3, 0), (1, 1), (4, 4), (5, 2), (7, 9), (33, 18), (1203, 40):
        codes = draw(animals, markers)
        for row in codes if markers > 3 else []:
            row[1], row[2] = 1, 3  # a marker without calls, and one that does not vary
        for mode in 0, 1:
            for pad in 0, 1, 2, 3:
                write("herd", codes, mode, markers, pad)
                what = f"freq {animals} {markers} mode {mode} pads {pad}"
                out = done(what, "freq", "herd", "-o", "out", "--threads", "1")
                same(out, f"out: counts of {name(animals, 'animal', 'animals')} at {name(markers, 'marker', 'markers')}\n", what + ": the words")
                same(get("out").decode(), counted(codes, range(animals), range(markers)), what)
                for threads in 2, 3:
                    same(done(what, "freq", "herd", "-o", "out2", "--threads", threads, "--quiet"), "", what + " --quiet")
                    same(get("out2") == get("out"), True, f"{what}: {threads} threads as one")
    same(left(), ["out", "out2"], "freq: the files left")
    # frequencies of every length
    for two, one, none, word in ((0, 0, 1, "0"), (1, 0, 0, "1"), (0, 1, 0, "0.5"), (1, 0, 2, "0.333333"), (0, 1, 1001, "0.000499002"),
                                 (0, 1, 4050, "0.000123426"), (0, 1, 5999, "8.33333e-05"), (5999, 1, 0, "0.999917"), (0, 0, 0, "NA")):
        write("herd", [[code] for code, n in ((0, two), (2, one), (3, none), (1, 1)) for _ in range(n)], 1)
        done(f"freq: {word}", "freq", "herd", "-o", "out", "--quiet")
        same(get("out").decode(), f"{HEAD}1\tm0\tA\tC\t{two}\t{one}\t{none}\t1\t{word}\n", f"freq: {word}")


def test_freq_names():
    codes = draw(9, 6)
    for mode in 0, 1:
        write("herd", codes, mode)
        put("keep", "F1 A8\nA2\nA2\nF0 A3\nnobody\n")
        put("extract", "m5 m1 m4 nothing")
        put("exclude", "m4\n")
        message = "mungkelas: keep: 1 of 4 names are in no line of herd.fam\nmungkelas: extract: 1 of 4 names are in no line of herd.bim\n"
        words = ["freq", "herd", "-o", "out", "--keep", "keep", "--extract", "extract", "--exclude=exclude"]
        same(run(*words), (0, "out: counts of 3 animals at 2 markers\n", message), f"freq: lists, mode {mode}")
        same(get("out").decode(), counted(codes, (2, 3, 8), (1, 5)), f"freq: lists, mode {mode}")
        put("keep", "")
        done("freq: nobody", "freq", "herd", "-o", "out", "--keep", "keep", "--quiet")
        same(get("out").decode(), counted(codes, (), range(6)), f"freq: nobody, mode {mode}")
        done("freq: counts given", "freq", "herd", "-o", "out", "--animals", "9", "--markers", "6", "--quiet")
        same(get("out").decode(), counted(codes, range(9), range(6), lambda m: f".\t{m}\t.\t."), f"freq: counts given, mode {mode}")
    # fields as they stand, however they are parted; what is absent is a dot, and a name that is absent the marker's number
    bim = "X  rs1 0.5 12 AT,G <DEL> more\r\n \t\n26\t\u00efd\t0\t1\t0\t*\n\n1 a 0 3 C\n1 b 0 3\n7\n chr9\te\t0 5 a\tt"
    lines = ["X\trs1\tAT,G\t<DEL>", "26\t\u00efd\t0\t*", "1\ta\tC\t.", "1\tb\t.\t.", "7\t4\t.\t.", "chr9\te\ta\tt"]
    put("herd.bim", bim)
    done("freq: names", "freq", "herd", "-o", "out", "--quiet")
    same(get("out").decode(), counted(codes, range(9), range(6), lines.__getitem__), "freq: names")
    put("some", "b e")
    done("freq: names of some", "freq", "herd", "-o", "out", "--extract", "some", "--quiet")
    same(get("out").decode(), counted(codes, range(9), (3, 5), lines.__getitem__), "freq: names of some")
    done("freq: names of others", "freq", "herd", "-o", "out", "--exclude", "some", "--quiet")
    same(get("out").decode(), counted(codes, range(9), (0, 1, 2, 4), lines.__getitem__), "freq: names of others")


def test_freq_parts():
    """Enough markers for several parts, also across the grain, and threads that run at the same time."""
    for mode, animals, markers in (1, 70, 1301), (0, 70, 1301):
        codes = draw(animals, markers, 0.1)
        write("herd", codes, mode)
        put("exclude", "".join(f"m{m}\n" for m in range(0, markers, 5)))
        for more, listed in ([], range(markers)), (["--exclude", "exclude"], [m for m in range(markers) if m % 5]):
            for threads in 1, 2, 3:
                what = f"freq in parts: mode {mode} {' '.join(more)} {threads} threads"
                done(what, "freq", "herd", "-o", "out", "--threads", threads, "--quiet", *more)
                same(get("out").decode() == counted(codes, range(animals), listed), True, what)
    for mode, animals, markers in (1, 10000, 1200), (0, 1200, 10000):
        put("herd.bed", b"\x6c\x1b" + bytes([mode]) + drawn.randbytes(3000000))
        for threads in 1, 2, 3:
            done(f"freq at once: mode {mode}", "freq", "herd", "-o", f"out{threads}", "--animals", animals, "--markers", markers,
                 "--threads", threads, "--quiet")
        for threads in 2, 3:
            same(get(f"out{threads}") == get("out1"), True, f"freq at once: mode {mode}: {threads} threads as one")


def test_no_calls():
    codes = draw(9, 40, 0.1)
    empty = [0, 7, 8, 31, 39]
    for row in codes:
        for m in empty:
            row[m] = 1
    for mode in 0, 1:
        write("herd", codes, mode)
        for order in "F", "C":
            for threads in 1, 3:
                words = ["standardise", "herd", "-o", "out.npy", "--order", order, "--threads", threads]
                what = f"13: mode {mode} {order} {threads}"
                message = "mungkelas: refused, 13: herd.bed: 5 of 40 markers have no call in the 9 animals read; standard output names them\n"
                same(run(*words), (1, "".join(f"m{m}\n" for m in empty), message), what)
                same(left(), [], what + ": nothing is written")
        put("exclude", run("standardise", "herd", "-o", "out.npy")[1])
        done("13: left out", "standardise", "herd", "-o", "out.npy", "--exclude", "exclude", "--quiet")
        same(load("out.npy")[0]["shape"], (9, 35), "13: left out")
        clear()
    put("extract", "m31 m2 m7")
    message = "mungkelas: refused, 13: herd.bed: 2 of 3 markers have no call in the 9 animals read; standard output names them\n"
    same(run("standardise", "herd", "-o", "out.npy", "--extract", "extract"), (1, "m7\nm31\n", message), "13: of the markers extracted")
    put("extract", "m8")
    put("keep", "A3\n")
    message = "mungkelas: refused, 13: herd.bed: 1 of 1 markers has no call in the 1 animal read; standard output names it\n"
    same(run("standardise", "herd", "-o", "out.npy", "--extract", "extract", "--keep", "keep"), (1, "m8\n", message), "13: one marker, one animal")
    out = "".join(f"marker {m}, counted from 0\n" for m in empty)
    same(run("standardise", "herd", "-o", "out.npy", "--markers", "40")[:2], (1, out), "13: no names")
    with open("/dev/full", "w") as full:
        got = subprocess.run([program, "standardise", "herd", "-o", "out.npy"], stdout=full, stderr=subprocess.PIPE)
        message = b"mungkelas: standard output: No space left on device"
        same((got.returncode, got.stderr.splitlines()[-1]), (2, message), "13: standard output is full")
    own, other = os.pipe()
    os.close(own)
    got = subprocess.run([program, "standardise", "herd", "-o", "out.npy"], stdout=other, stderr=subprocess.DEVNULL)
    os.close(other)
    same((got.returncode, left()), (-signal.SIGPIPE, []), "13: nobody reads the names")
    put("keep", "nobody\n")
    same(run("standardise", "herd", "-o", "out.npy", "--keep", "keep", "--quiet")[:2], (1, "".join(f"m{m}\n" for m in range(40))), "13: no animals")
    same(left(), [], "13: nothing is written")


def test_names():
    codes = draw(6, 5, 0.1)
    write("herd", codes, 1)
    put("herd.fam", "f a 0 0 0 -9\nf\tb\t0\t0\t0\t-9\r\n  g  a 0 0 0 -9\n\n \t\ng c 0 0 0 -9\nh a 0 0 0 -9\nf a 0 0 0 -9")
    put("herd.bim", "1 x 0 1 A C\r\n1 y 0 2 A C\n\n2\tx\t0\t3\tA\tC\n2 z 0 4 A C\n2 w 0 5 A C\n")

    def reads(what, words, animals, markers, message="", **how):
        status, out, err = run("read", "herd", "-o", "out.npy", "--quiet", *words, **how)
        same((status, out, err), (0, "", ""), what)
        same(load("out.npy")[1], unpacked(codes, 1, -127, animals, markers), what)
        same(run("read", "herd", "-o", "out.npy", *words, **how)[2], message, what + ": the message")

    everyone, all_markers = range(6), range(5)
    reads("blank lines, tabs, CRLF", [], everyone, all_markers)
    put("list", "g c\nf b\n")
    reads("--keep: two columns, in file order", ["--keep", "list"], [1, 3], all_markers)
    put("list", "g a ignored 0\r\n\n")
    reads("--keep: more columns", ["--keep", "list"], [2], all_markers)
    put("list", "a\n")
    reads("--keep: one column, every family", ["--keep", "list"], [0, 2, 4, 5], all_markers)
    put("list", "f a\nf a\nc\nc\ng c")
    reads("--keep: names given twice, and a name on two lines", ["--keep", "list"], [0, 3, 5], all_markers)
    put("list", "f c\na f\nzz\nzz\nh a\n")
    reads("--keep: unknown names", ["--keep", "list"], [4], all_markers, "mungkelas: list: 3 of 4 names are in no line of herd.fam\n")
    put("list", "")
    reads("--keep: nobody", ["--keep", "list"], [], all_markers)
    reads("--keep: a pipe", ["--keep", "/dev/stdin"], [2], all_markers, stdin=b"g a\n")
    put("list", "w\ny\n")
    reads("--extract: in file order", ["--extract", "list"], everyone, [1, 4])
    reads("--exclude", ["--exclude", "list"], everyone, [0, 2, 3])
    put("list", "x\r\n")
    reads("--extract: a name on two lines", ["--extract", "list"], everyone, [0, 2])
    reads("--exclude: a name on two lines", ["--exclude", "list"], everyone, [1, 3, 4])
    put("list", " z\ty  y q \n\nr")
    reads("--extract: several words a line", ["--extract", "list"], everyone, [1, 3], "mungkelas: list: 2 of 4 names are in no line of herd.bim\n")
    put("other", "y w")
    reads("--extract and --exclude", ["--extract", "list", "--exclude", "other"], everyone, [3],
          "mungkelas: list: 2 of 4 names are in no line of herd.bim\n")
    put("keep", "b\nc\n")
    reads("all three", ["--keep=keep", "--extract=list", "--exclude=other", "--order=C"], [1, 3], [3],
          "mungkelas: list: 2 of 4 names are in no line of herd.bim\n")
    put("herd.fam", "a\nb\nc\nd\ne\nf\n")
    put("list", "a\n0 a")
    reads("--keep: a .fam without a second column has no names", ["--keep", "list"], [], all_markers,
          "mungkelas: list: 2 of 2 names are in no line of herd.fam\n")


def test_counts():
    codes = draw(5, 3)
    write("herd", codes, 1)
    os.remove("herd.fam")
    os.remove("herd.bim")
    done("--animals --markers", "read", "herd", "-o", "out.npy", "--animals", "5", "--markers", "3", "--quiet")
    same(load("out.npy")[1], unpacked(codes, 1, -127, range(5), range(3)), "--animals --markers")
    same(run("read", "herd", "-o", "out.npy", "--animals", "5"), (2, "", "mungkelas: herd.bim: No such file or directory\n"), "no .bim")
    same(run("read", "herd", "-o", "out.npy", "--markers", "5"), (2, "", "mungkelas: herd.fam: No such file or directory\n"), "no .fam")
    same(run("check", "nobody"), (2, "", "mungkelas: nobody.bed: No such file or directory\n"), "no .bed")


def test_refusals():
    good = pack(draw(5, 3), 1)
    write("herd", draw(5, 3), 1)
    five_three = "5 animals (herd.fam) and 3 markers (herd.bim)"
    for bed, more, number, message in (
            (b"", [], 1, "herd.bed has 0 bytes; a .bed file has at least 3"),
            (b"\x6c", [], 1, "herd.bed has 1 byte; a .bed file has at least 3"),
            (b"ab", [], 1, "herd.bed has 2 bytes; a .bed file has at least 3"),
            (b"\x6d" + good[1:], [], 2, "herd.bed begins with 6D 1B; a .bed file begins with 6C 1B"),
            (b"\x6c\x00" + good[2:], [], 2, "herd.bed begins with 6C 00; a .bed file begins with 6C 1B"),
            (good + b"\0", [], 2, f"herd.bed has 10 bytes; a file of mode 1 with {five_three} has 9"),
            (good[:-1], [], 2, f"herd.bed has 8 bytes; a file of mode 1 with {five_three} has 9"),
            (b"\x6c\x1b\0" + good[3:], [], 2, f"herd.bed has 9 bytes; a file of mode 0 with {five_three} has 8"),
            (good, ["--animals", "9"], 2, "herd.bed has 9 bytes; a file of mode 1 with 9 animals (--animals) and 3 markers (herd.bim) has 12"),
            (good, ["--markers", "1"], 2, "herd.bed has 9 bytes; a file of mode 1 with 5 animals (herd.fam) and 1 marker (--markers) has 5"),
            (b"\x6c\x1b\2" + good[3:], [], 3, "herd.bed has 02 as its third byte, the mode; 00 or 01 is expected"),
            (good, ["--animals", 2**63 - 1, "--markers", 8], 4,
             f"herd.bed has 9 bytes; a file with {2**63 - 1} animals (--animals) and 8 markers (--markers) would have more than 2^64 - 1"),
            (good, ["--animals", 2**63], 18,
             f"herd.bed: {2**63} animals (--animals) and 3 markers (herd.bim): a count is at most 2^63 - 1"),
            (good, ["--markers", 2**64 - 1], 18,
             f"herd.bed: 5 animals (herd.fam) and {2**64 - 1} markers (--markers): a count is at most 2^63 - 1")):
        put("herd.bed", bed)
        for out in "out.bed", "out.freq", "out.npy":
            put(out, "as it was")
        for words in (["check", "herd"], ["read", "herd", "-o", "out.npy"], ["standardise", "herd", "-o", "out.npy"],
                      ["freq", "herd", "-o", "out.freq"], ["canonical", "herd", "-o", "out"]):
            same(run(*words, *more), (1, "", f"mungkelas: refused, {number}: {message}\n"), f"{words[0]}: {message}")
        same({out: get(out) for out in left()}, dict.fromkeys(("out.bed", "out.freq", "out.npy"), b"as it was"), message)


def test_check():
    for mode, animals, markers, pad, words in (
            (1, 5, 3, 0, "no pad is set"),
            (1, 8, 3, 3, "no pad is set"),
            (1, 5, 3, 3, "pads are set in 3 of 3 blocks: the file seems to be of 8 animals, and herd.fam has 5 lines"),
            (0, 5, 3, 0, "no pad is set"),
            (0, 5, 3, 2, "pads are set in 5 of 5 blocks: the file seems to be of 4 markers, and herd.bim has 3 lines"),
            (1, 1, 1, 1, "pads are set in 1 of 1 block: the file seems to be of 4 animals, and herd.fam has 1 line")):
        write("herd", draw(animals, markers), mode, pad=pad)
        length = len(pack(draw(animals, markers), mode))
        block = "a marker" if mode else "an animal"
        said = f"herd.bed: accepted: mode {mode} (a block is {block}), {length} bytes\n"
        said += f"{name(animals, 'animal', 'animals')} (herd.fam), {name(markers, 'marker', 'markers')} (herd.bim)\n"
        same(run("check", "herd"), (0, said + words + "\n", ""), f"check {mode} {animals} {markers} {pad}")
        words = "" if words == "no pad is set" else words + "\n"
        same(run("check", "herd", "--quiet"), (0, words, ""), f"check --quiet {mode} {animals} {markers} {pad}")
    # A .fam file that has lost lines: only the blocks with a call above 0 there show it.
    codes = [[3, 3, 3], [3, 3, 3], [3, 3, 3], [3, 3, 3], [0, 0, 0], [0, 2, 0], [1, 0, 0]]
    write("herd", codes, 1)
    out = run("check", "herd", "--animals", "5")[1]
    same(out.splitlines()[1:], ["5 animals (--animals), 3 markers (herd.bim)",
                                "pads are set in 2 of 3 blocks: the file seems to be of 7 to 8 animals, and 5 are given"], "check: two animals too few")
    put("herd.fam", "f a\n" * 6)
    out = run("check", "herd")[1]
    same(out.splitlines()[2:], ["pads are set in 1 of 3 blocks: the file seems to be of 7 to 8 animals, and herd.fam has 6 lines"], "check: one too few")
    many = draw(5000, 1)
    write("herd", many, 0, pad=0)  # more blocks than are looked at at once; the last alone has a pad
    put("herd.bed", get("herd.bed")[:-1] + bytes([get("herd.bed")[-1] | 0x10]))
    words = "pads are set in 1 of 5000 blocks: the file seems to be of 3 to 4 markers, and herd.bim has 1 line\n"
    same(run("check", "herd", "--quiet")[1], words, "check: the last block")
    put("herd.bed", b"\x6c\x1b\1")
    same(run("check", "herd", "--animals", 2**63 - 1, "--markers", 0)[0], 0, "check: no blocks")


def test_canonical():
    for animals, markers in (0, 3), (3, 0), (1, 1), (4, 4), (5, 7), (33, 18):
        codes = draw(animals, markers)
        for mode in 0, 1:
            for pad in 0, 3:
                write("herd", codes, mode, markers, pad)
                expected = pack(codes, 1) if animals else b"\x6c\x1b\1"
                for threads in 1, 2, 3:
                    what = f"canonical {animals} {markers} mode {mode} pads {pad}"
                    out = done(what, "canonical", "herd", "-o", "out", "--threads", threads)
                    shape = f"{name(animals, 'animal', 'animals')} by {name(markers, 'marker', 'markers')}"
                    same(out, f"out.bed: {shape}, mode 1, {len(expected)} bytes\n", what)
                    same(get("out.bed"), expected, what)
    done("canonical: in place", "canonical", "herd", "-o", "herd.bed", "--quiet")
    same(get("herd.bed"), expected, "canonical: in place")
    same(left(), ["out.bed"], "canonical: the files left")


def test_usage():
    write("herd", draw(5, 3), 1)
    read, freq = ["read", "herd", "-o", "out.npy"], ["freq", "herd", "-o", "out"]
    for words, message in (
            ([], "no subcommand is given"),
            (["--quiet"], "no subcommand is given"),
            (["look", "herd"], "look is no subcommand"),
            (["check"], "check: no PREFIX is given"),
            (["check", "herd", "flock"], "flock is one word too many"),
            (["read", "herd"], "read: no -o OUT is given"),
            (["standardise", "herd"], "standardise: no -o OUT is given"),
            (["read", "herd", "-o", ""], "read: no -o OUT is given"),
            (["freq", "herd"], "freq: no -o OUT is given"),
            (["canonical", "herd"], "canonical: no -o OUT is given"),
            (read + ["--colour"], "--colour is no option"),
            (read + ["--quiet=1"], "--quiet=1 is no option"),
            (read + ["--quie"], "--quie is no option"),
            (read + ["--order"], "--order has no value"),
            (read + ["--order", "c"], "--order: c is neither F nor C"),
            (read + ["--dtype", "f32"], "--dtype: f32 is neither i8 nor f64"),
            (read + ["--a2", "--a2"], "--a2 is given twice"),
            (read + ["--animals", "-1"], "--animals: -1 is no number from 0 to 2^64 - 1"),
            (read + ["--animals="], "--animals:  is no number from 0 to 2^64 - 1"),
            (read + ["--animals", "5x"], "--animals: 5x is no number from 0 to 2^64 - 1"),
            (read + ["--markers", str(2**64)], f"--markers: {2**64} is no number from 0 to 2^64 - 1"),
            (read + ["--threads", "0"], "--threads: 0 is not from 1 to 1024"),
            (read + ["--threads", "1025"], "--threads: 1025 is not from 1 to 1024"),
            (read + ["--animals", "5", "--keep", "x"], "--keep takes names from the .fam file, which is not read with --animals"),
            (read + ["--markers", "3", "--extract", "x"], "--extract takes names from the .bim file, which is not read with --markers"),
            (read + ["--markers", "3", "--exclude", "x"], "--exclude takes names from the .bim file, which is not read with --markers"),
            (freq + ["--animals", "5", "--keep", "x"], "--keep takes names from the .fam file, which is not read with --animals"),
            (freq + ["--dtype", "f64"], "freq takes no --dtype"),
            (freq + ["--order=F"], "freq takes no --order"),
            (freq + ["--a2"], "freq takes no --a2"),
            (["standardise", "herd", "-o", "out.npy", "--dtype", "i8"], "standardise: the values are f64")):
        same(run(*words), (2, "", f"mungkelas: {message}; mungkelas --help says more\n"), f"usage: {' '.join(words)}")
    for option in ["-o", "x"], ["--dtype", "i8"], ["--order", "C"], ["--a2"], ["--keep", "x"], ["--extract", "x"], ["--exclude", "x"]:
        same(run("check", "herd", *option), (2, "", f"mungkelas: check takes no {option[0]}; mungkelas --help says more\n"), f"check {option[0]}")
        if option[0] != "-o":
            message = f"mungkelas: canonical takes no {option[0]}; mungkelas --help says more\n"
            same(run("canonical", "herd", "-o", "out", *option), (2, "", message), f"canonical {option[0]}")
    for list in "--keep", "--extract", "--exclude":
        same(run(*read, list, "nowhere"), (2, "", "mungkelas: nowhere: No such file or directory\n"), f"{list} nowhere")
    same(left(), [], "usage: nothing is written")
    same(run("--version"), (0, f"mungkelas {VERSION}\n", ""), "--version")
    for words in ["--help"], ["-h"], ["read", "--help"]:
        status, out, err = run(*words)
        same((status, out[:30], err), (0, "usage: mungkelas check PREFIX ", ""), "--help")
    page = get(os.path.join(root, "cli/mungkelas.1")).decode().replace("\\-", "-")
    for option in sorted(set(re.findall(r"--[a-z0-9]+", run("--help")[1]))):
        same(option in page, True, f"{option} in the manual page")
    shutil.copy("herd.bed", "-herd.bed")
    done("-- ends the options", "check", "--quiet", "--animals", "5", "--markers=3", "--", "-herd")
    os.remove("-herd.bed")
    with open("/dev/full", "w") as full:
        got = subprocess.run([program, "check", "herd"], stdout=full, stderr=subprocess.PIPE)
        same((got.returncode, got.stderr), (2, b"mungkelas: standard output: No space left on device\n"), "standard output is full")


def test_places():
    """Where the output goes."""
    codes = draw(5, 3)
    write("herd", codes, 1)
    words = ["read", "herd", "--quiet", "-o"]
    put("out.npy", "x" * 1000)
    put("out.npy.part", "x" * 1000)
    done("files that are there", *words, "out.npy")
    same(load("out.npy")[1], unpacked(codes, 1, -127, range(5), range(3)), "files that are there")
    with open("out.npy.part", "w") as part:
        fcntl.flock(part, fcntl.LOCK_EX)
        same(run(*words, "out.npy"), (2, "", "mungkelas: out.npy.part: another run is writing it\n"), "two runs")
        same(os.path.exists("out.npy.part"), True, "two runs: the other's file is left")
    os.remove("out.npy.part")
    os.mkdir("out.d")
    same(run(*words, "out.d"), (2, "", "mungkelas: out.d: this is no plain file, and is not written over\n"), "a directory")
    os.mkfifo("out.pipe")  # and no device, which a command that is wrong would replace for everyone
    same(run(*words, "out.pipe"), (2, "", "mungkelas: out.pipe: this is no plain file, and is not written over\n"), "a pipe")
    same(run(*words, "nowhere/out")[::2], (2, "mungkelas: nowhere/out.part: No such file or directory\n"), "no directory")
    for own in "herd.bed", "herd.fam", "./herd.bim":
        before = get(own)
        same(run(*words, own), (2, "", f"mungkelas: {own}: this is read, and is not written over\n"), f"-o {own}")
        same(get(own), before, f"-o {own}")
    clear()
    put("list", "A1 A2 m1 m2")
    for subcommand, list, out, written in (
            ("read", "--keep", "list", "list"), ("read", "--extract", "./list", "./list"), ("freq", "--exclude", "list", "list"),
            ("standardise", "--exclude", "list", "list"), ("standardise", "--keep", "list.npy", "list.stats.npy"),
            ("read", "--exclude", "list", "list.part"), ("standardise", "--extract", "list", "list.stats.npy.part")):
        os.rename("list", os.path.basename(written))
        what = f"{subcommand} {list} {written} -o {out}"
        message = f"mungkelas: {written}: this is read, and is not written over\n"
        same(run(subcommand, "herd", list, os.path.basename(written), "-o", out, "--quiet"), (2, "", message), what)
        os.rename(os.path.basename(written), "list")
        same((get("list"), left()), (b"A1 A2 m1 m2", []), what)
    put("herd.stats.npy", "")
    os.symlink("herd.bed", "out.link")
    same(run(*words, "out.link"), (2, "", "mungkelas: out.link: this is read, and is not written over\n"), "a link to the .bed file")
    os.remove("herd.stats.npy")
    for other, message in ("herd.bed", "this is read, and is not written over"), ("list", "Too many levels of symbolic links"):
        os.symlink(other, "out.part")
        same(run(*words, "out"), (2, "", f"mungkelas: out.part: {message}\n"), f"a link to {other} as .part")
        os.remove("out.part")
    same((get("herd.bed"), get("list")), (pack(codes, 1), b"A1 A2 m1 m2"), "a link as .part")
    for own in "herd.bed", "herd.fam", "herd.bim":
        same(run("freq", "herd", "-o", own), (2, "", f"mungkelas: {own}: this is read, and is not written over\n"), f"freq -o {own}")
    put("out.freq", "x" * 1000)
    done("freq: a longer file that is there", "freq", "herd", "-o", "out.freq", "--quiet")
    same(get("out.freq").decode(), counted(codes, range(5), range(3)), "freq: a longer file that is there")


def test_faults():
    """What the system refuses, and interruptions: nothing is left, and what was there is as it was."""
    codes = draw(50, 40, 0.1)
    write("herd", codes, 1)
    for subcommand, out in ("read", "out.npy"), ("standardise", "out.npy"), ("freq", "out.freq"), ("canonical", "out.bed"):
        words = [subcommand, "herd", "-o", out]
        outputs = 2 if subcommand == "standardise" else 1
        names = [out, "out.stats.npy"]
        size = {"read": 128 + 2000, "standardise": 128 + 16000, "freq": longest(50, range(40)), "canonical": 3 + 13 * 40}[subcommand]
        sizes = [size, 128 + 40 * 8 * 3]
        for before in None, "as it was":
            def after(what):
                here = {f: get(f).decode() for f in left()}
                same(here, {f: before for f in names[:outputs]} if before else {}, f"{subcommand}: {what}")

            clear()
            if before:
                for f in names[:outputs]:
                    put(f, before)
            message = f"mungkelas: {out}.part: {size} bytes cannot be reserved: File too large\n"
            same(run(*words, limit=512), (2, "", message), f"{subcommand}: a limit on the size of files")
            after("a limit on the size of files")
            for n in range(1, outputs + 1):
                f = names[n - 1]
                message = f"mungkelas: {f}.part: {sizes[n - 1]} bytes cannot be reserved: No space left on device\n"
                same(run(*words, fault=f"posix_fallocate {n} error {errno.ENOSPC}"), (2, "", message), f"{subcommand}: a full disk")
                after("a full disk")
                for call in "fsync", "ftruncate", "munmap":
                    message = f"mungkelas: {f}.part: Input/output error\n"
                    same(run(*words, fault=f"{call} {n} error {errno.EIO}"), (2, "", message), f"{subcommand}: {call}")
                    after(call)
                message = f"mungkelas: {f}.part: No locks available\n"
                same(run(*words, fault=f"flock {n} error {errno.ENOLCK}"), (2, "", message), f"{subcommand}: flock")
                same(f + ".part" in left(), True, f"{subcommand}: flock: the file may be another run's, so that it is left")
                os.remove(f + ".part")
                after("flock")
                message = f"mungkelas: {f}.part: Cannot allocate memory\n"
                same(run(*words, fault=f"mmap {n + 3} error {errno.ENOMEM}"), (2, "", message), f"{subcommand}: mmap")
                after("mmap")
                for number in signal.SIGINT, signal.SIGTERM, signal.SIGHUP, signal.SIGQUIT:
                    for call in "posix_fallocate", "fsync":
                        same(run(*words, fault=f"{call} {n} signal {number}"), (-number, "", ""), f"{subcommand}: signal {number} at {call}")
                        after(f"signal {number} at {call}")
            message = "mungkelas: herd.bed: Cannot allocate memory\n"
            same(run(*words, fault=f"mmap 1 error {errno.ENOMEM}"), (2, "", message), f"{subcommand}: mmap")
            shutil.copy("herd.bed", "herd.saved")
            message = "mungkelas: a mapped file was cut short by someone else, or its disk failed\n"
            same(run(*words, fault="posix_fallocate 1 cut herd.bed"), (2, "", message), f"{subcommand}: a file that is cut short")
            after("a file that is cut short")
            os.rename("herd.saved", "herd.bed")
            if subcommand == "freq":  # its table is cut to its length at the end, and the .bim is gone through again for it
                same(run(*words, fault=f"ftruncate 2 error {errno.EIO}"), (2, "", f"mungkelas: {out}.part: Input/output error\n"), "freq: ftruncate")
                after("ftruncate")
                for change, message in ("cut", message), ("fill", "mungkelas: the .bim file was changed by someone else\n"):
                    shutil.copy("herd.bim", "herd.saved")
                    same(run(*words, fault=f"posix_fallocate 1 {change} herd.bim"), (2, "", message), f"freq: {change} herd.bim")
                    after(change + " herd.bim")
                    os.rename("herd.saved", "herd.bim")
        # The values get their name last: where that fails the statistics have none either.
        clear()
        f = names[0]
        status, said, err = run(*words, fault=f"rename {outputs} error {errno.EACCES}")
        same((status, said, err), (2, "", f"mungkelas: {f}.part: cannot be renamed {f}: Permission denied\n"), f"{subcommand}: rename")
        same(left(), [], f"{subcommand}: rename")
        # A signal waits until all outputs have their names.
        same(run(*words, fault=f"rename 1 signal {signal.SIGTERM}"), (-signal.SIGTERM, "", ""), f"{subcommand}: a signal at the end")
        same(left(), sorted(names[:outputs]), f"{subcommand}: a signal at the end")
        same(run(*words, "--quiet", fault=f"posix_fallocate 1 signal {signal.SIGINT}", ignored=signal.SIGINT), (0, "", ""),
             f"{subcommand}: a signal that is ignored")
    done("threads that cannot be had", "standardise", "herd", "-o", "out1.npy", "--threads", "3", "--quiet",
         fault=f"pthread_create 1 error {errno.EAGAIN}")
    done("threads", "standardise", "herd", "-o", "out2.npy", "--threads", "3", "--quiet")
    same(get("out1.npy") == get("out2.npy"), True, "threads that cannot be had")


def test_small_disk():
    """A file system of 64 KiB, where one may be mounted."""
    os.mkdir("disk")
    write("herd", draw(400, 300, 0.1), 1)
    herd = os.path.abspath("herd")
    script = 'mount -t tmpfs -o size=64k tmpfs disk 2>/dev/null || exit 99; "$@"; status=$?; ls -A disk; df --output=used disk | tail -n 1; exit $status'
    for words, size in (["read"], 120128), (["freq", "--animals", "40", "--markers", "3000"], longest(40, range(3000), lambda m: f".\t{m}\t.\t.")):
        for inside in ["unshare", "-m"], ["unshare", "-rm"]:
            got = subprocess.run([*inside, "sh", "-c", script, "sh", program, *words, herd, "-o", "disk/out"], capture_output=True)
            if got.returncode == 2:
                break
        if got.returncode == 99 or b"unshare" in got.stderr:
            print("no file system may be mounted here: a limit on the size of files and a failing call stand for the full disk")
            break
        message = f"mungkelas: disk/out.part: {size} bytes cannot be reserved: No space left on device\n"
        same((got.returncode, got.stdout.split(), got.stderr.decode()), (2, [b"0"], message), f"{words[0]}: a file system of 64 KiB")
    os.rmdir("disk")


def test_interrupted():
    """A run that is interrupted in the middle of its work, by a signal from outside."""
    animals, markers = 20000, 8000
    for mode in 0, 1:
        with open(f"herd{mode}.bed", "wb") as f:
            f.write(b"\x6c\x1b" + bytes([mode]))
            f.truncate(3 + animals // 4 * markers)
    read = ["read", "herd1", "--order", "C", "--animals", animals, "--markers", markers]
    freq = ["freq", "herd0", "--animals", markers, "--markers", animals]

    def size(path):
        try:
            return os.stat(path).st_size
        except FileNotFoundError:
            return 0

    for words, number in (read, signal.SIGINT), (read, signal.SIGTERM), (freq, signal.SIGINT), (freq, signal.SIGTERM):
        for _ in range(20):  # a run may end before the signal is sent
            going = subprocess.Popen([program, *map(str, words), "-o", "out", "--threads", "2"], stdout=subprocess.PIPE, stderr=subprocess.PIPE)
            end = time.monotonic() + 20
            while not size("out.part") and going.poll() is None and time.monotonic() < end:
                time.sleep(0.0005)
            going.send_signal(number)
            out, err = going.communicate(timeout=30)
            if going.returncode:
                break
            clear()
        same((going.returncode, out, err), (-number, b"", b""), f"{words[0]}: interrupted by {number}")
        same(left(), [], f"{words[0]}: interrupted by {number}")


def test_progress():
    write("herd", draw(50, 40, 0.1), 1)

    def on_terminal(*words):
        own, other = pty.openpty()
        got = subprocess.run([program, *words], stdout=subprocess.PIPE, stderr=other)
        os.close(other)
        said = b""
        try:
            while more := os.read(own, 4096):
                said += more
        except OSError:
            pass  # the other end is closed
        os.close(own)
        return got.returncode, said.decode()

    for words, doing in ((["read"], ["reading"]), (["read", "--order", "C"], ["reading"]), (["standardise"], ["standardising"]),
                         (["standardise", "--order", "C"], ["statistics", "standardising"]), (["freq"], ["counting"])):
        words += ["herd", "-o", "out.npy", "--threads", "2"]
        status, said = on_terminal(*words)
        seen = [d for d in ("reading", "statistics", "standardising", "counting") if f"\r{d}: 100%" in said]
        same((status, seen), (0, doing), f"{words}: progress")
        same(re.sub(r"\r[a-z]+: \d+%|\r *\r", "", said), "", f"{words}: nothing but progress")
        same(on_terminal(*words, "--quiet"), (0, ""), f"{words} --quiet: no progress")


def test_example():
    """What README.md shows."""
    os.symlink(os.path.join(root, "examples"), "examples")
    text = open(os.path.join(root, "README.md")).read()
    same(run("standardise", "examples/small", "-o", "small.npy")[1] in re.sub(r"^    ", "", text, flags=re.M), True, "README: standardise")
    same(run("check", "examples/small")[1] in re.sub(r"^    ", "", text, flags=re.M), True, "README: check")
    same(run("freq", "examples/small", "-o", "small.freq")[1] in re.sub(r"^    ", "", text, flags=re.M), True, "README: freq")
    same(get("small.freq").decode() in re.sub(r"^    ", "", text, flags=re.M), True, "README: the table")
    shown = [line.split() for line in open("examples/small.out")]
    values = [[f"{x:.6f}" for x in row] for row in load("small.npy")[1]]
    stats = [[f"{mean:.6f},", f"{deviation:.6f},", f"{observed:.0f}"] for mean, deviation, observed in load("small.stats.npy")[1]]
    same(values, [[f"{float(x):.6f}" for x in line[2:]] for line in shown if line[0] == "animal"], "examples/small: the values")
    same(stats, [[line[3], line[5], line[6]] for line in shown if line[0] == "marker"], "examples/small: the statistics")


for test in [value for key, value in sorted(globals().items()) if key.startswith("test_")]:
    with tempfile.TemporaryDirectory() as place:
        os.chdir(place)
        test()
        os.chdir(root)
if not numpy:
    print("NumPy is not here: .npy files are read by hand alone")
print(f"the command: {passed} checks passed" + (f", {failed} FAILED" if failed else ""))
sys.exit(1 if failed else 0)

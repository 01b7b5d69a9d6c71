"""The command beside PLINK: canonical files, the animals and markers that lists of names choose, and the counts of calls, on drawn prefixes of
both modes whose pads are any bits; or the times of whole programs. Exit 1 if anything differs.

    compare.py MUNGKELAS [times] [files=300] [seed=1] [plink1=plink1.9] [plink2=plink2] [animals=10000] [markers=50000] [repetitions=5] [only=]
"""
import os, random, shutil, subprocess, sys, tempfile, time

ours = os.path.abspath(sys.argv[1])
words = dict(files="300", seed="1", plink1="plink1.9", plink2="plink2", animals="10000", markers="50000", repetitions="5", only="")
timed = "times" in sys.argv[2:]
words.update(word.split("=", 1) for word in sys.argv[2:] if word != "times")
programs = [(version, shutil.which(words[version])) for version in ("plink1", "plink2")]
drawn = random.Random(int(words["seed"]))


def put(path, data):
    with open(path, "wb") as f:
        f.write(data if isinstance(data, bytes) else data.encode())


def get(path):
    with open(path, "rb") as f:
        return f.read()


def pack(codes, mode):
    """codes[m][a] as a .bed file, with any bits as pads."""
    blocks = codes if mode else [list(column) for column in zip(*codes)]
    out = bytearray([0x6C, 0x1B, mode])
    for block in blocks:
        for i in range(0, len(block), 4):
            four = (block[i:i + 4] + [drawn.randrange(4) for _ in range(3)])[:4]
            out.append(four[0] | four[1] << 2 | four[2] << 4 | four[3] << 6)
    return bytes(out)


def unpack(bed, animals, markers):
    """The codes of a .bed file of mode 1, by marker."""
    width = (animals + 3) // 4
    assert bed[:3] == b"\x6C\x1B\x01" and len(bed) == 3 + width * markers
    return [[bed[3 + m * width + a // 4] >> 2 * (a % 4) & 3 for a in range(animals)] for m in range(markers)]


def values(npy, animals, markers):
    """What a .npy of i8 in order F has, as codes by marker."""
    body = npy[-animals * markers:] if animals * markers else b""
    back = {2: 0, 129: 1, 1: 2, 0: 3}
    return [[back[body[m * animals + a]] for a in range(animals)] for m in range(markers)]


def run(*command):
    done = subprocess.run(command, stdout=subprocess.PIPE, stderr=subprocess.STDOUT)
    return done.returncode, done.stdout.decode(errors="replace")


def make_bed(program, version, prefix, *more):
    """PLINK's --make-bed, with the alleles as they are; the .bed, .fam and .bim, or what it said."""
    alleles = ["--keep-allele-order", "--allow-no-sex"] if version == "plink1" else ["--threads", "1"]
    status, said = run(program, "--bfile", prefix, "--make-bed", "--out", "theirs", *alleles, *more)
    return (None, said) if status else ([get("theirs" + end) for end in (".bed", ".fam", ".bim")], said)


def theirs_counted(program, version, *more):
    """PLINK's counts, as the first eight columns of `freq`; None if it is refused. PLINK 2 counts set pads, so it has the canonical file."""
    if version == "plink1":
        command = ["--bfile", "drawn", "--freqx", "--nonfounders", "--keep-allele-order", "--allow-no-sex"]
        end, places = ".frqx", (0, 1, 2, 3, 4, 5, 6, 9)
    else:
        command = ["--bfile", "ours", "--geno-counts", "--threads", "1"]
        end, places = ".gcount", (0, 1, 3, 2, 6, 5, 4, 9)
    status, said = run(program, "--out", "theirs", *command, *more)
    return None if status else [[words[i] for i in places] for words in rows("theirs" + end)]


def rows(path):
    """The lines of a table but its first."""
    return [line.split("\t") for line in get(path).decode().splitlines()[1:]]


def draw():
    """A prefix `drawn`: its codes by marker, its names. Some animals have parents: PLINK tells founders from others."""
    animals, markers, mode = drawn.choice((1, 2, 3, 4, 5, 7, 8, 9, drawn.randrange(10, 80))), drawn.randrange(1, 40), drawn.randrange(2)
    codes = [[drawn.choice((0, 1, 2, 3)) for _ in range(animals)] for _ in range(markers)]
    iids = [("f{}".format(a // 3), "i{}".format(a % 5 if a < 15 else a)) for a in range(animals)]  # an IID may be in several families
    sids = ["m{}".format(m) for m in range(markers)]
    put("drawn.bed", pack(codes, mode))
    put("drawn.fam", "".join("{} {} {} 0 -9\n".format(*iid, drawn.choice(("0 0", "0 0", "sire dam"))) for iid in iids))
    put("drawn.bim", "".join("1\t{}\t0\t{}\tA\tC\n".format(sid, m + 1) for m, sid in enumerate(sids)))
    return mode, codes, iids, sids


def lists(iids, sids):
    """Lists of names for both, written; some name nothing, some stand twice."""
    keep = drawn.sample(iids, drawn.randrange(1, len(iids) + 1)) + [("no", "body")]
    extract = drawn.sample(sids, drawn.randrange(1, len(sids) + 1)) + ["nothing"]
    exclude = drawn.sample(sids, drawn.randrange(0, len(sids)))
    put("keep", "".join("{} {}\n".format(*iid) for iid in keep + keep[:1]))
    put("extract", "\n".join(extract) + "\n" if drawn.randrange(2) else " ".join(extract) + "\n")
    put("exclude", "\n".join(exclude) + "\n")
    return ["--keep", "keep", "--extract", "extract", "--exclude", "exclude"]


def compare():
    counts = dict(files=0, mode_0=0, calls=0, differ=0)
    refused = {version: 0 for version, _ in programs}
    compared = {version: [0, 0, 0] for version, _ in programs}

    def differ(what, said=""):
        counts["differ"] += 1
        print("DIFFERENT:", what, said[-400:])

    for n in range(int(words["files"])):
        mode, codes, iids, sids = draw()
        counts["files"], counts["mode_0"], counts["calls"] = n + 1, counts["mode_0"] + (not mode), counts["calls"] + len(iids) * len(sids)
        status, said = run(ours, "canonical", "drawn", "-o", "ours.bed", "--quiet")
        if status:
            differ("file {}: canonical".format(n), said)
        for version, program in programs:
            if not program:
                continue
            theirs, said = make_bed(program, version, "drawn")
            if theirs is None:
                refused[version] += 1
                if mode:
                    differ("file {}: {}".format(n, version), said)
                continue
            compared[version][0] += 1
            if theirs[0] != get("ours.bed"):
                differ("file {}: {} and canonical".format(n, version))
        chosen = lists(iids, sids)
        status, said = run(ours, "read", "drawn", "-o", "ours.npy", "--quiet", "--dtype", "i8", *chosen)
        for version, program in programs:
            theirs, theirs_said = make_bed(program, version, "drawn", *chosen) if program else (None, "")
            if theirs is None:  # mode 0, or nothing is left, which PLINK refuses
                continue
            animals, markers = theirs[1].count(b"\n"), theirs[2].count(b"\n")
            compared[version][1] += 1
            if status or unpack(theirs[0], animals, markers) != values(get("ours.npy"), animals, markers):
                differ("file {}: {} and read with lists".format(n, version), said)
        for end in ".fam", ".bim":
            shutil.copy("drawn" + end, "ours" + end)
        for more in [], chosen:
            status, said = run(ours, "freq", "drawn", "-o", "ours.freq", "--quiet", *more)
            for version, program in programs:
                theirs = theirs_counted(program, version, *more) if program else None
                if theirs is None:
                    if program and mode and not more:
                        differ("file {}: {} counted nothing".format(n, version))
                    continue
                compared[version][2] += len(theirs)
                if status or [words[:8] for words in rows("ours.freq")] != theirs:
                    differ("file {}: {} and freq{}".format(n, version, " with lists" if more else ""), said)
    print("{files} files, {mode_0} of mode 0, {calls} calls: {differ} differ".format(**counts))
    for version, program in programs:
        print("{}: {} canonical files, {} choices by lists and the counts of {} markers compared, {} files of mode 0 refused by it".format(
            words[version], *compared[version], refused[version]) if program else "{}: not found".format(words[version]))
    return counts["differ"]


def times():
    animals, markers = int(words["animals"]), int(words["markers"])
    width = (animals + 3) // 4
    drawn_bytes = random.Random(1).randbytes
    last = 0xFF >> 2 * (-animals % 4)
    with open("drawn.bed", "wb") as f:
        f.write(b"\x6C\x1B\x01")
        for _ in range(markers):
            block = bytearray(drawn_bytes(width))
            block[-1] &= last
            f.write(block)
    put("drawn.fam", "".join("0 i{} 0 0 0 -9\n".format(a) for a in range(animals)))
    put("drawn.bim", "".join("1\tm{}\t0\t{}\tA\tC\n".format(m, m + 1) for m in range(markers)))
    for name, command, plink1, plink2 in (
            ("check", ["check"], None, None),
            ("read (recode A, export A: text)", ["read", "-o", "ours.npy"], ["--recode", "A"], ["--export", "A"]),
            ("standardise", ["standardise", "-o", "ours.npy"], None, None),
            ("freq (freqx, geno-counts)", ["freq", "-o", "ours.freq"], ["--freqx"], ["--geno-counts"]),
            ("canonical (make-bed)", ["canonical", "-o", "ours.bed"], ["--make-bed"], ["--make-bed"])):
        if not name.startswith(words["only"]):
            continue
        theirs = {"plink1": plink1 and plink1 + ["--keep-allele-order", "--allow-no-sex"], "plink2": plink2 and plink2 + ["--threads", "1"]}
        lines = [("ours", [ours, *command, "drawn", "--threads", "1", "--quiet"])]
        lines += [(v, [p, "--bfile", "drawn", "--out", "theirs", *theirs[v]]) for v, p in programs if p and theirs[v]]
        best = {}
        for _ in range(int(words["repetitions"])):
            for who, line in lines:
                start = time.monotonic()
                status, said = run(*line)
                assert status == 0, said
                best[who] = min(best.get(who, 1e9), time.monotonic() - start)
        print("{} of {} animals and {} markers, least of {} runs:".format(name, animals, markers, words["repetitions"]))
        for who, seconds in best.items():
            print("  {:10} {:.3f} s, ours / theirs {:.2f}".format(words.get(who, who), seconds, best["ours"] / seconds))
    return 0


room = tempfile.mkdtemp()
try:
    os.chdir(room)
    status = times() if timed else compare()
finally:
    shutil.rmtree(room)
sys.exit(1 if status else 0)

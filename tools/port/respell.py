#!/usr/bin/env python3
"""Spells this repository's own definitions, lemmas, fields and locals as today's Rattle does: snake case, types in camel case, ' for ′.

usage: tools/port/respell.py        at the top, once, right after port.py, before any edit by hand

names.tsv beside this script has each name that does not follow the rule alone: where a definition and a lemma, or a lemma and a field, would fall
together, the lemma's name ends in _law. It turns the antt files, and of .rt files the clauses and `ghost use` items; of must-fail edits the
same. Names of src/, exported C names and strings keep their spelling. In docs/ a name turns inside `..`.
"""
import glob
import os
import re
import sys

HERE = os.path.dirname(os.path.abspath(__file__))
FOREIGN = ("std", "io", "core", "os", "libc")
TOKEN = re.compile(r"[^\s(){}.;,@\"«»\[\]`]+")
NAME = re.compile(r"[A-Za-z_][\w'′₀-₉ᵢⱼ]*(?:-[\w'′]+)*'*")
CAMEL = re.compile(r"[a-z][a-z0-9]*(?:_[a-z0-9]+)*[A-Z]")
USE = re.compile(r"(?m)^[ \t]*(?:ghost )?use ([^\s{;]+?)\.\{([^}]*)\}")


def rows():
    with open(os.path.join(HERE, "names.tsv"), encoding="utf-8") as f:
        return dict(l.rstrip("\n").split("\t") for l in f if l.strip())


def plain(name):
    name = name.replace("′", "'")
    if CAMEL.match(name):
        name = re.sub(r"(?<=[a-z0-9])([A-Z])", lambda m: "_" + m[1].lower(), name)
    return name.replace("-", "_")


def is_own(path):
    m = re.match(r"Rattle\.(\w+)", path)
    return bool(m) and m[1] not in FOREIGN


def foreign(text):
    """The names that a file imports from a library that is not this repository's."""
    out = set()
    for m in USE.finditer(text):
        if not is_own(m[1]):
            for item in m[2].split(","):
                out.update(item.split())
    return out


def own(text):
    out = set()
    for m in USE.finditer(text):
        if is_own(m[1]):
            out.update(x.strip().split(" as ")[0] for x in m[2].split(","))
    return out


class Speller:
    def __init__(self):
        self.table = rows()

    def new(self, name):
        return self.table.get(name) or plain(name)

    def code(self, text, keep, only=None, walk=False):
        """Turns the names of a piece of antt. keep: names that stay. only: if given, the names behind no dot that turn. walk: a proof that walks the code."""

        def turn(m):
            t = m[0]
            before = text[: m.start()]
            dotted = before.endswith(".") and not before.endswith("..") and not re.search(r"\s\.$", before)
            if not NAME.fullmatch(t) or not ("-" in t or "′" in t or CAMEL.match(t) or t in self.table):
                return t
            if dotted:
                head = re.search(r"([^\s(){};,@\"«»\[\]`]+)\.$", before)
                head = head[1] if head else ""
                if head.split(".")[0] in ("tie", "goal", "Tie", "lib", "native", "mathlib", "borrow", "mir"):
                    return t
                if walk and t.startswith("is-done") and re.match(r"\.(ensures|result)", text[m.end():]):
                    return "is_done"
                return self.new(t)
            if t in keep or only is not None and t not in only:
                return t
            return self.new(t)

        return TOKEN.sub(turn, text)

    def antt(self, text, path):
        head, rest = text, ""
        keep = foreign(text)
        walk = bool(re.search(r"/proofs/.+/(Proof|Answers|Invariants)\.antt$", path))
        only = own(text) if walk else None
        if walk:  # its own helpers, but not what answers a goal
            for m in re.finditer(r"(?m)^\s*(?:abbrev |pub |unfoldable )*(\S+) *(?:\{[^}]*\} *)*:(?! *(?:tie|goal)\.)(?=\s)", text):
                only.add(m[1])
            only -= {n for n in only if n.endswith("-spec")}
            only |= set(x for x in TOKEN.findall(text) if CAMEL.match(x)) - keep
        out = []
        for line in text.split("\n"):
            c = re.search(r"(?:^|\s)--(?=\s|$)", line)
            code, note = (line[: c.start()], line[c.start():]) if c else (line, "")
            m = re.match(r"(\s*(?:pub )?use [^\s{]+?\.\{)([^}]*)(\}.*)$", code)
            if m:
                path_of = re.match(r"\s*(?:pub )?use ([^\s{]+?)\.\{", code)[1]
                if is_own(path_of):
                    code = m[1] + ", ".join(self.item(x.strip()) for x in m[2].split(",")) + m[3]
            elif re.match(r"\s*(pub )?(use|mod) ", code):
                pass
            else:
                code = self.code(code, keep, only, walk)
            out.append(code + self.spans(note, keep))
        return "\n".join(out)

    def item(self, it):
        return " as ".join(self.new(x) if NAME.fullmatch(x) and ("-" in x or CAMEL.match(x) or x in self.table) else x for x in it.split(" as "))

    def spans(self, text, keep=()):
        def one(m):
            inner = TOKEN.sub(lambda t: self.new(t[0]) if NAME.fullmatch(t[0]) and t[0] not in keep and t[0] in self.table else t[0], m[1])
            return "`" + inner + "`"

        return re.sub(r"`([^`\n]+)`", one, text)

    def rt(self, text):
        keep = foreign(text)
        out = []
        at = 0
        for m in re.finditer(r"(?m)(^ghost use [^;]*;)|((?:\brequires|\bensures|\bghost)\*?(?: \w+)?(?::)? *\{)", text):
            if m.start() < at:
                continue
            out.append(text[at: m.start()])
            if m[1]:
                u = re.match(r"(ghost use [^\s{;]+?\.\{)([^}]*)(\}.*)$", m[1], re.S)
                if u and is_own(re.match(r"ghost use ([^\s{;]+)", m[1])[1]):
                    out.append(u[1] + ", ".join(self.item(x.strip()) for x in u[2].split(",") if x.strip()) + u[3])
                else:
                    out.append(m[1])
                at = m.end()
                continue
            i, deep = m.end(), 1
            while deep and i < len(text):
                deep += {"{": 1, "}": -1}.get(text[i], 0)
                i += 1
            out.append(m[0] + self.code(text[m.end(): i], keep))
            at = i
        out.append(text[at:])
        return "".join(out)

    def edit(self, text, crate):
        out, file = [], ""
        for line in text.split("\n"):
            m = re.match(r"(file|old|new):( *)(.*)$", line)
            if m and m[1] == "file":
                file = m[3].strip()
            elif m and m[3]:
                if file.endswith(".antt"):
                    body = m[3]
                    if "use " in body:
                        line = m[1] + ":" + m[2] + self.antt(body, file)
                    else:
                        line = m[1] + ":" + m[2] + self.code(body, ())
                elif re.match(r"\s*(requires|ensures|ghost)\b", m[3]):
                    line = m[1] + ":" + m[2] + self.rt(m[3])
            elif line.startswith("wrong: "):
                w = line.split(" ")
                if len(w) == 5 and re.match(r"[A-Z]", w[3]):
                    w[4] = self.new(w[4]) if w[4] in self.table else plain(w[4])
                line = " ".join(w)
            out.append(line)
        return "\n".join(out)


def main():
    if not os.path.isdir("crates"):
        sys.exit("run it at the top of the repository")
    s = Speller()
    done = 0
    for p in sorted(glob.glob("crates/**/*", recursive=True)) + sorted(glob.glob("docs/**/*.md", recursive=True)) + ["README.md", "CONTRIBUTING.md"]:
        if "/out/" in p or not os.path.isfile(p):
            continue
        if p.endswith((".antt", ".rt", ".edit", ".md")):
            with open(p, encoding="utf-8") as f:
                old = f.read()
            if p.endswith(".antt"):
                new = s.antt(old, p)
            elif p.endswith(".rt"):
                new = s.rt(old)
            elif p.endswith(".edit"):
                new = s.edit(old, p.split("/")[1])
            else:
                new = s.spans(old)
            if new != old:
                with open(p, "w", encoding="utf-8") as f:
                    f.write(new)
                done += 1
    print(f"respell: {done} files")


if __name__ == "__main__":
    main()

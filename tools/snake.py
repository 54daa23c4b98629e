#!/usr/bin/env python3
"""Brings this repository's own names in specs/, proofs/, clauses and must-fail edits to snake case: firstBelow-le becomes first_below_le.

usage: python3 tools/snake.py [--list]      at the top of the repository, once, after port.py

Types and modules keep their capital. A name is the repository's own if an .antt file of it declares it; a file that imports the same spelling
from a library keeps that one. Functions, constants and strings of src/ keep their names: of a .rt file only clauses and `ghost use` items are read.
Where a definition and a lemma differ in spelling alone, as lowestFree and lowest-free, the lemma ends in _law. Other names of one file that
would fall together are an error, and nothing is written.
"""
import collections
import os
import re
import sys

ROOT = os.getcwd()
TOKEN = re.compile(r"[^\s(){}.,;«»\[\]|\"`]+")
DECLARED = re.compile(r"^[ \t]*(?:\| )?(?:(?:unfoldable|abbrev|opaque|pub|record|data) )*([^\s(){}.,;:«»]+)(?: \{ℓ\}| \([^)]*\)| \{[^}]*\})*[ \t]*(?::(?=\s)|where\b)", re.M)
HUMP = re.compile(r"(?<=[a-z0-9])(?=[A-Z])|(?<=[A-Z])(?=[A-Z][a-z])")
CRATES = set(os.listdir(os.path.join(ROOT, "crates")))


def snake(name):
    # the library's getD is get_or today
    name = name.replace("getD", "get_or") if "getD-" in name else name
    out = re.sub(r"(?<=[\w'⇔↔?₀-₉])-(?=[\w'⇔↔?₀-₉])", "_", name)
    if not out[0].isupper():
        out = HUMP.sub("_", out).lower() if out.isascii() else "".join("_" + c.lower() if HUMP.match(out, i) else c.lower() if c.isascii() else c for i, c in enumerate(out))
    return out


def files(*endings):
    for folder, dirs, names in os.walk(os.path.join(ROOT, "crates")):
        dirs[:] = sorted(d for d in dirs if d != "out")
        for n in sorted(names):
            if n.endswith(endings):
                yield os.path.join(folder, n)


def text(path):
    with open(path, encoding="utf-8") as f:
        return f.read()


def of_function(path):
    return os.path.basename(path) == "Proof.antt"


def plain(t):
    return re.sub(r"--.*", "", t)


# what the model and a struct of the code both name, which means the same: fields, told apart by their records, and a number beside its field
SAME = {"aFrom", "aBelow", "bFrom", "bBelow", "leftOver"}


def own_names():
    found = collections.defaultdict(set)
    for p in files(".antt"):
        if not of_function(p):
            for m in DECLARED.finditer(plain(text(p))):
                found[snake(m[1])].add(m[1])
    names = {}
    for image, words in found.items():
        first = [w for w in words if HUMP.search(w)] or [w for w in words if w == image]
        for w in words:
            names[w] = image if len(words) == 1 or w in first or w in SAME else image + "_law"
    return {a: b for a, b in names.items() if a != b and not re.fullmatch(r"[-=]+", a)}


USE = re.compile(r"\buse\s+([^\s{;]+?)\.\{([^}]*)\}")


def foreign(t):
    """Names that the text imports from elsewhere than this repository."""
    names = set()
    for m in USE.finditer(t):
        words = m[1].split(".")
        if not (words[0] == "Rattle" and len(words) > 1 and words[1] in CRATES):
            names |= set(TOKEN.findall(m[2]))
    return names


def turned(t, names, kept):
    def turn(m):
        w = m[0]
        # a name in snake case may be a function's too, and then stands in a path
        if w in kept or w not in names or (snake(w) == w and "." in (t[m.start() - 1 : m.start()], t[m.end() : m.end() + 1])):
            return w
        return names[w]

    return TOKEN.sub(turn, t)


def closing(t, i):
    deep = 0
    for k in range(i, len(t)):
        deep += (t[k] == "{") - (t[k] == "}")
        if not deep:
            return k + 1
    return len(t)


CLAUSE = re.compile(r"\b(?:requires|ensures|ghost)\b\*?(?:\s+[\w']+)?\s*:?\s*\{")


def turned_rt(t, names, kept):
    """The text of a .rt file with the names in its clauses and ghost items turned."""
    out, at = [], 0
    for m in re.finditer(r"\bghost use [^;]*;|" + CLAUSE.pattern, t):
        if m.start() < at:
            continue
        end = m.end() if m[0].endswith(";") else closing(t, m.end() - 1)
        out += [t[at : m.start()], turned(t[m.start() : end], names, kept)]
        at = end
    return "".join(out) + t[at:]


OPERATORS = re.compile(r"(?<![\w'])_([^\s\w_.,{}()]{1,2})_(?![\w'])")


def edit(t, names, images):
    """An edit's text in today's spelling: fields written tight, paths with dots, operators by their circles, and the names turned, in .rt files only those with an antt spelling."""
    lines = []
    for l in t.split("\n"):
        if re.match(r"(old|new):", l):
            head, rest = l[:4], l[4:]
            rest = OPERATORS.sub(r"◌\1◌", rest)
            rest = re.sub(r"Rattle·(\w+)·specs\.specs\.", r"Rattle.\1.specs.", rest)
            rest = re.sub(r"Rattle·(\w+)", r"Rattle.\1", rest)
            rest = re.sub(r"(?<=[\w)'?]) \.(?=[a-zA-Z0-9])", ".", rest)
            rest = re.sub(r"\(([A-Za-z_][\w'?]*(?:\.\w+)+)\)", r"\1", rest)
            l = head + TOKEN.sub(lambda m: names.get(m[0]) or (snake(m[0]) if snake(m[0]) in images else m[0]), rest)
        lines.append(l)
    return "\n".join(lines)


def main(argv):
    names = own_names()
    if "--list" in argv:
        for a in sorted(names):
            print(a, names[a])
        return 0
    images = {snake(m[1]) for p in files(".antt") if not of_function(p) for m in DECLARED.finditer(plain(text(p)))}
    new, wrong = {}, []
    for p in files(".antt", ".rt", ".edit"):
        t = text(p)
        kept = foreign(t)
        if p.endswith(".antt"):
            body = "" if of_function(p) else plain(t)
            fallen = collections.defaultdict(set)
            for w in set(TOKEN.findall(body)):
                fallen[w if w in kept else names.get(w, w)].add(w)
            for image, words in fallen.items():
                if len(words - SAME) > 1:
                    wrong.append(f"{os.path.relpath(p, ROOT)}: {' and '.join(sorted(words))} fall together as {image}")
            new[p] = turned(t, names, kept)
        elif p.endswith(".rt"):
            new[p] = turned_rt(t, names, kept)
        else:
            new[p] = edit(t, names, images)
    if wrong:
        print("\n".join(wrong))
        return 1
    n = 0
    for p, t in new.items():
        if t != text(p):
            with open(p, "w", encoding="utf-8") as f:
                f.write(t)
            n += 1
    print(f"{len(names)} names, {n} files")
    return 0


if __name__ == "__main__":
    sys.exit(main(sys.argv[1:]))

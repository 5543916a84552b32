#!/usr/bin/env python3
"""Brings the names of this repository's definitions, lemmas, fields and proof variables to snake case.

usage: python3 tools/respell.py [--dry]     once, at the top of the repository, after the kit's port.py, before any edit by hand

What it renames, in specs/, proofs/, the clauses of src/, must-fail/ and, between backquotes, in README.md and docs/:
every name of our own that has a hump or a dash. Facts and types keep their capitals; a letter that is a coordinate (X, Y, I, Q) or
one of the standard's single capitals becomes small. Names of the library are not touched: a file's imports from it say which they
are. Names of src/, exported names, strings, inputs and outputs are not touched either.
It stops, and writes nothing, where two names would fall together in a file.
"""

import os
import re
import sys

CRATES = sorted(c for c in os.listdir("crates") if os.path.isdir(os.path.join("crates", c)))
NAME = r"[^\s(){}\[\];.,\"|@«»`λ→×]+"
TOKEN = re.compile(r"(?<![^\s(){}\[\];.,\"|@«»`λ→×])" + NAME)
HUMP = re.compile(r"(?<=[a-z0-9])(?=[A-Z])")
DECLARED = re.compile(r"^\s*(?:pub |abbrev |unfoldable |record |data )*(" + NAME + r")(?: \{ℓ\w*\})? *(?::|\()")
USE = re.compile(r"^\s*(?:pub )?use ([\w.\-']+?)\.\{([^}]*)\}", re.M)
# The documents' single capitals and two constructors, in the files that mean them by it: the interleaver's S, a number, is a variable and becomes small.
LETTERS = {
    "X": ("x_of", "places.specs.Puncture"),
    "Y": ("y_of", "places.specs.Puncture"),
    "P1": ("p1", "places.specs.Puncture"),
    "P2": ("p2", "places.specs.Puncture"),
    "K": ("k_of", "points.specs.Points"),
    "S": ("s_of", "soft.specs.Soft"),
    "At": ("goes_to", "places.specs.Selection"),
    "Dropped": ("dropped", "places.specs.Selection"),
}
# Names whose figures are joined.
KEEP = {"p2Kept34": "p2_kept_3_4", "p2Kept916": "p2_kept_9_16", "bit-at": "bit_at_place"}
# A field and the argument that it is made of may have one name.
SHARED = {"on-i", "on-q"}


def texts(*ends):
    for folder, dirs, files in os.walk("crates"):
        dirs[:] = sorted(d for d in dirs if d != "out")
        for f in sorted(files):
            if f.endswith(ends):
                yield os.path.join(folder, f)


def read(path):
    with open(path, encoding="utf-8") as f:
        return f.read()


def walks_code(path):
    """Whether the file is the proof of one function, whose names Rattle makes."""
    parts = path.split(os.sep)
    return parts[2] == "proofs" and len(parts) > 4


def module(path):
    parts = path.split(os.sep)
    return ".".join([parts[1], parts[2], parts[-1].removesuffix(".antt")])


def is_ours(name):
    return any(name == f"Rattle.{c}" or name.startswith(f"Rattle.{c}.") for c in CRATES)


def foreign(text):
    """The names that a file takes from the library, by the names that it then uses."""
    found = set()
    for of, names in USE.findall(text):
        if is_ours(of):
            continue
        for n in names.split(","):
            found |= set(n.replace(" as ", " ").split())
    return found


def snake(name, facts):
    if name in KEEP:
        return KEEP[name]
    parts = []
    for part in name.split("-"):
        if part in facts:
            parts.append(part)
        else:
            parts.append(HUMP.sub("_", part).lower() if part[:1].islower() or len(part) < 3 else part)
    return "_".join(parts)


def is_renamed(name):
    return bool(re.match(r"[^\W\d_]", name)) and ("-" in name.strip("-") or name[0].islower() and bool(HUMP.search(name)))


def code_of(line):
    """A line of antt, and its comment."""
    at = line.find("--")
    return (line, "") if at < 0 else (line[:at], line[at:])


def main():
    files = {p: read(p) for p in texts(".antt", ".rt", ".edit")}
    facts, declared = set(), set()
    for p, t in files.items():
        if p.endswith(".antt") and not walks_code(p):
            for l in t.splitlines():
                m = DECLARED.match(code_of(l)[0])
                if m:
                    declared.add(m.group(1))
                    if re.match(r"^\s*(pub )?(record|data) ", l) or m.group(1)[0].isupper() and len(m.group(1)) > 2:
                        facts.add(m.group(1))
    # all names of our own, and what each becomes
    names = {}
    for p, t in files.items():
        if not p.endswith(".antt"):
            continue
        theirs = foreign(t)
        for l in t.splitlines():
            code = code_of(l)[0]
            if re.match(r"\s*(pub )?use ", code) and not any(f"Rattle.{c}." in code for c in CRATES):
                continue
            for w in TOKEN.findall(code):
                if w in theirs or not is_renamed(w):
                    continue
                if walks_code(p) and w not in declared:
                    continue
                names[w] = snake(w, facts)
    # a lemma that would have a function's name gets `_lem`
    humped = {to for w, to in names.items() if "-" not in w} | {n for n in declared if n not in names}
    for w, to in names.items():
        if "-" in w and to in humped and w not in SHARED:
            names[w] = to + "_lem"
    # where two would fall together
    clashes = []
    for p, t in files.items():
        if not p.endswith(".antt"):
            continue
        here = set()
        for l in t.splitlines():
            here |= set(TOKEN.findall(re.sub(r"use [\w.\-']+( as |\.(?={))", "", code_of(l)[0])))
        theirs = foreign(t)
        back = {}
        for w in here - theirs:
            to = names.get(w)
            if to:
                if to in here:
                    clashes.append((p, w, to))
                if w not in SHARED:
                    back.setdefault(to, set()).add(w)
        clashes += [(p, sorted(ws), to) for to, ws in back.items() if len(ws) > 1]
    for c in clashes:
        print("falls together:", *c)

    def turn(text, theirs, letters):
        def one(m):
            w = m.group(0)
            if w in letters:
                return letters[w]
            return w if w in theirs else names.get(w, w)

        return TOKEN.sub(one, text)

    def head(text, letters):
        """The list of names at the head of a file, with its descriptions below one another again."""
        lines, rows = text.split("\n"), []
        for n, l in enumerate(lines):
            if not l.startswith("--"):
                break
            m = re.match(r"--   (\S.*?)  +(\S.*)$", l) or re.match(r"--   ((?:\S+, )*\S+) (\S.*)$", l)
            more = re.match(r"--    +(\S.*)$", l)
            if m:
                rows.append((n, re.sub(r"[A-Z]\w*", lambda w: letters.get(w.group(0), w.group(0)), m.group(1)), m.group(2)))
            elif more and rows:
                rows.append((n, "", more.group(1)))
        wide = max([len(name) for _, name, _ in rows], default=0)
        for n, name, said in rows:
            lines[n] = "--   " + name.ljust(wide) + "  " + said
        return "\n".join(lines)

    changed = {}
    for p, t in files.items():
        letters = {}
        for w, (to, home) in LETTERS.items():
            if module(p) == home and p.endswith(".antt") or re.search(r"use Rattle\." + re.escape(home) + r"\.\{[^}]*(?<![\w-])" + w + r"(?![\w-])", t):
                letters[w] = to
        out = []
        if p.endswith(".antt"):
            theirs = foreign(t)
            for l in t.splitlines(keepends=True):
                code, comment = code_of(l)
                out.append(turn(code, theirs, letters) + re.sub(r"(?<![\w-])[a-z][\w'-]*(?![\w-])", lambda m: names.get(m.group(0), m.group(0)) if m.group(0) in declared else m.group(0), comment))
        elif p.endswith(".rt"):
            for l in t.splitlines(keepends=True):
                at = l.find("//")
                code, comment = (l, "") if at < 0 else (l[:at], l[at:])
                if '"' in code:
                    out.append(l)
                    continue
                mine = {w for w in TOKEN.findall(code) if w not in declared}
                out.append(turn(code, mine, letters) + comment)
        else:
            for l in t.splitlines(keepends=True):
                if not l.startswith(("old:", "new:")) or '"' in l:
                    out.append(l)
                    continue
                l = re.sub(r"Rattle·(\w+)(?:·\w+)?\.(specs|proofs)\.", r"Rattle.\1.\2.", l)
                mine = {w for w in TOKEN.findall(l) if w not in declared}
                out.append(turn(l, mine, letters))
        s = "".join(out)
        if s != t:
            changed[p] = head(s, letters).replace("At j, or Dropped", "goes_to j, or dropped") if p.endswith(".antt") else s
    for p in ["README.md"] + sorted(os.path.join("docs", f) for f in os.listdir("docs") if f not in ("LANDINGS.md", "PORT.md")):
        t = read(p)
        s = re.sub(r"`[^`\n]+`", lambda m: "`" + turn(m.group(0)[1:-1], {w for w in TOKEN.findall(m.group(0)[1:-1]) if w not in declared}, {}) + "`", t)
        if s != t:
            changed[p] = s
    print(f"{len(names)} names, {len(changed)} files")
    if "--names" in sys.argv:
        for w in sorted(names):
            print(w, names[w], "" if w in declared else "(a variable)")
    if "--dry" in sys.argv or clashes:
        return 1 if clashes else 0
    for p, s in changed.items():
        with open(p, "w", encoding="utf-8") as f:
            f.write(s)
    return 0


if __name__ == "__main__":
    raise SystemExit(main())

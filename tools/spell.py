#!/usr/bin/env python3
"""spell.py [ROOT]: today's spelling of the repository's own definitions and lemmas, by tools/spelling.txt.

Run once, after port.py. In each .antt file, and in the clauses and `ghost use` lines of each .rt file, a name of the first
column becomes that of the second; a name that the file imports from the library keeps its spelling there. In comments, README.md
and docs/ only what stands in backticks is turned. The modules `inner` and `cases` of specs/ get a capital, as modules have.
"""
import glob
import os
import re
import sys

HERE = os.path.dirname(os.path.realpath(__file__))
NAME = re.compile(r"[^\s(){}\[\];,.:@\"«»`|&!?#$%]+")
LIBRARY = re.compile(r"use ((?:mathlib|Prim|native|lib|borrow|Rattle\.std|Rattle\.core)[\w.+◌'-]*)\.\{([^}]*)\}", re.S)
MODULES = re.compile(r"(?<=\bspecs\.)(inner|cases)(?=[.;\s])")


def table():
    """Each name: its new spelling, and the crates in which it is turned (none named: in all)."""
    with open(os.path.join(HERE, "spelling.txt"), encoding="utf-8") as f:
        rows = [line.split() for line in f]
    return {row[0]: (row[1], row[2].split(",") if len(row) > 2 else None) for row in rows}


def spell(text, names):
    text = MODULES.sub(lambda m: m.group(1).capitalize(), text)
    return NAME.sub(lambda m: names.get(m.group(0), m.group(0)), text)


def quoted(text, names):
    return re.sub(r"`[^`]*`", lambda m: spell(m.group(0), names), text)


def antt(text, names):
    lines = []
    for line in text.split("\n"):
        line = re.sub(r"^(\s*(?:pub )?mod )(inner|cases)$", lambda m: m.group(1) + m.group(2).capitalize(), line)
        at = re.search(r"(?:^|\s)--(?:\s|$)", line)
        code, comment = (line[: at.start()], line[at.start() :]) if at else (line, "")
        lines.append(spell(code, names) + quoted(comment, names))
    return "\n".join(lines)


def rt(text, names):
    lines = []
    for line in text.split("\n"):
        at = re.search(r"(?:^|\s)//", line)
        code, comment = (line[: at.start()], line[at.start() :]) if at else (line, "")
        parts = re.split(r'("(?:[^"\\]|\\.)*")', code)
        code = "".join(p if i % 2 else spell(p, names) for i, p in enumerate(parts))
        lines.append(code + quoted(comment, names))
    return "\n".join(lines)


def own(text, names, crate):
    """The table for a file of this crate: without what the file takes from the library."""
    taken = set()
    for m in LIBRARY.finditer(text):
        taken.update(w.strip() for w in m.group(2).split(","))
    return {k: new for k, (new, crates) in names.items() if k not in taken and (crates is None or crate in crates)}


def main():
    root = sys.argv[1] if len(sys.argv) > 1 else os.path.dirname(HERE)
    names = table()
    for folder, dirs, files in os.walk(os.path.join(root, "crates")):
        if folder.count(os.sep) == os.path.join(root, "crates", "NAME").count(os.sep):
            dirs[:] = [d for d in dirs if d != "out"]
        for f in files:
            if not f.endswith((".antt", ".rt")):
                continue
            path = os.path.join(folder, f)
            with open(path, encoding="utf-8") as h:
                old = h.read()
            crate = os.path.relpath(path, os.path.join(root, "crates")).split(os.sep)[0]
            new = (antt if f.endswith(".antt") else rt)(old, own(old, names, crate))
            if new != old:
                with open(path, "w", encoding="utf-8") as h:
                    h.write(new)
    plain = {k: new for k, (new, crates) in names.items() if crates is None}
    for path in glob.glob(os.path.join(root, "README.md")) + glob.glob(os.path.join(root, "docs/**/*.md"), recursive=True):
        with open(path, encoding="utf-8") as h:
            old = h.read()
        new = re.sub(r"\bspecs/(inner|cases)\b", lambda m: "specs/" + m.group(1).capitalize(), quoted(old, plain))
        if new != old:
            with open(path, "w", encoding="utf-8") as h:
                h.write(new)
    for crate in os.listdir(os.path.join(root, "crates")):
        specs = os.path.join(root, "crates", crate, "specs")
        for m in ("inner", "cases"):
            for end in ("", ".antt"):
                old = os.path.join(specs, m + end)
                if os.path.exists(old):
                    os.rename(old, os.path.join(specs, m.capitalize() + end))


if __name__ == "__main__":
    main()

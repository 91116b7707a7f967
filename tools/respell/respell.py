#!/usr/bin/env python3
"""Brings the names of this repository's definitions and lemmas to one spelling: snake case, `'` for a prime.

usage: python3 tools/respell/respell.py [TREE]

It is run once, on a tree whose paths and operators are those of Rattle's kit 13 already. names.tsv has a row for
each name: old, a tab, new. Two names that would fall together part by `_lem` at the lemma. Whole words turn, in
  .antt   code and comments; in a Proof.antt not the name of a step, which stands behind `c.` or `.before.`
  .rt     `ghost use` items and clauses; elsewhere (comments) only names with an inner capital
  .edit   the lines `old:` and `new:`
  .md     code spans
A name that a file imports from a library of the kit stays in that file.
Functions of src/, exported names, strings, inputs and outputs keep their names.
"""

import os
import re
import sys

HERE = os.path.dirname(os.path.abspath(__file__))
WORD = re.compile(r"(?<![\w'’-])[a-z][\w'′’₀-₉-]*")
STEP = re.compile(r"(?:\bc|\.before)\.$")
USE = re.compile(r"\buse ([\w.+◌-]+)\.\{([^}]*)\}")


def rows(path):
    with open(path, encoding="utf-8") as f:
        return dict(line.rstrip("\n").split("\t") for line in f if line.strip())


def without_imports(text, names, crates):
    """The names less those that the text imports from a library that isn't of this repository."""
    kept = set()
    for module, items in USE.findall(text):
        part = module.split(".")
        if part[0] != "Rattle" or part[1] not in crates:
            kept |= {word for item in items.split(",") for word in item.split(" as ")[:1] for word in [word.strip()]}
    return {old: new for old, new in names.items() if old not in kept}


def turned(text, names, keep_steps=False, only_capitals=False):
    def new(m):
        word = m.group()
        if word not in names or (only_capitals and not re.search("[A-Z]", word)):
            return word
        if keep_steps and STEP.search(text, max(0, m.start() - 8), m.start()):
            return word
        return names[word]

    return WORD.sub(new, text)


def turned_rt(text, names):
    out, inside = [], False
    for line in text.split("\n"):
        clause = re.match(r"\s*(requires|ensures|ghost)\b", line)
        inside = bool(inside or clause)
        out.append(turned(line, names, only_capitals=not inside))
        inside = inside and not line.rstrip().endswith((";", "}"))
    return "\n".join(out)


def turned_edit(text, names):
    return "\n".join(turned(l, names) if l.startswith(("old:", "new:")) else l for l in text.split("\n"))


def turned_md(text, names):
    """A name of a plot file stays."""
    return re.sub(r"`[^`\n]+`", lambda m: m.group() if ".plot" in m.group() else turned(m.group(), names), text)


def files(tree):
    for top in ("crates", "docs", "README.md", "examples", "tools"):
        at = os.path.join(tree, top)
        if os.path.isfile(at):
            yield at
        for folder, dirs, names in os.walk(at):
            dirs[:] = sorted(d for d in dirs if d != "out")
            for name in sorted(names):
                yield os.path.join(folder, name)


def main(argv):
    tree = argv[0] if argv else os.path.dirname(os.path.dirname(HERE))
    every, changed = rows(os.path.join(HERE, "names.tsv")), 0
    crates = set(os.listdir(os.path.join(tree, "crates")))
    for path in files(tree):
        kind = os.path.splitext(path)[1]
        if kind not in (".antt", ".rt", ".edit", ".md"):
            continue
        with open(path, encoding="utf-8", newline="") as f:
            old = f.read()
        names = without_imports(old, every, crates)
        if kind == ".antt":
            new = turned(old, names, keep_steps=path.endswith("Proof.antt"))
        else:
            new = {".rt": turned_rt, ".edit": turned_edit, ".md": turned_md}[kind](old, names)
        if new != old:
            changed += 1
            with open(path, "w", encoding="utf-8", newline="") as f:
                f.write(new)
    print(f"{changed} files changed")


if __name__ == "__main__":
    main(sys.argv[1:])

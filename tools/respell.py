#!/usr/bin/env python3
"""Brings this repository's own definitions and lemmas to today's spelling: words in snake case, a dash only between two names.

usage: python3 tools/respell.py [FOLDER]     the tree as port.py left it (the top of the checkout, where no folder is given)

The names stand in respell.txt beside it, a line each, the old one and the new one. They are turned in specs/, proofs/ and the
clauses of src/, not in strings, must-fail edits or the names of functions. It was run once, by the port (docs/PORT.md).
"""

import os
import re
import sys

HERE = os.path.dirname(os.path.realpath(__file__))
WORD = re.compile(r"""("(?:[^"\\]|\\.)*")|([A-Za-z][A-Za-z0-9_'₀-₉-]*)""")


def table():
    with open(os.path.join(HERE, "respell.txt"), encoding="utf-8") as f:
        return dict(line.split() for line in f)


def files(root):
    for folder, dirs, names in os.walk(os.path.join(root, "crates")):
        dirs[:] = [d for d in dirs if d not in ("out", "must-fail")]
        yield from (os.path.join(folder, n) for n in names if n.endswith((".antt", ".rt")))


def main(argv):
    names = table()
    for path in files(argv[0] if argv else os.path.join(HERE, "..")):
        with open(path, encoding="utf-8") as f:
            old = f.read()
        new = WORD.sub(lambda m: m.group(1) or names.get(m.group(2), m.group(2)), old)
        if new != old:
            with open(path, "w", encoding="utf-8") as f:
                f.write(new)


if __name__ == "__main__":
    main(sys.argv[1:])

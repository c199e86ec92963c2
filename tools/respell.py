#!/usr/bin/env python3
"""Brings this repository's own definitions and lemmas to the spelling of today's Rattle: words in snake case, facts in camel case.

usage: tools/respell.py FOLDER        rewrites the .rt and .antt files below FOLDER/crates in place

The names stand in respelled.tsv beside this file, a line each: the name as port.py leaves it, and today's. A name is a whole word of
antt. Names that the prover makes of the source (behind `c.` in a walk by hand) are left alone, and so are the words of a comment:
there a name stands between backquotes, or has a capital within.
"""

import os
import re
import sys

HERE = os.path.dirname(os.path.realpath(__file__))
WORD = re.compile(r"[^\s(){}.;,@\"«»\[\]\\:=`|]+")
STRING = re.compile(r'("(?:[^"\\\n]|\\.)*")')


def table():
    with open(os.path.join(HERE, "respelled.tsv"), encoding="utf-8") as f:
        return dict(line.rstrip("\n").split("\t") for line in f)


def comment_at(line, mark):
    """Where a line's comment begins; a mark stands at the head of a line or between blanks."""
    body = line.lstrip()
    if body.startswith(mark):
        return len(line) - len(body)
    i = line.find(" " + mark + " ")
    return len(line) if i < 0 else i + 1


def respell(text, names, path):
    walk = os.path.basename(path) == "Proof.antt"
    source = path.endswith(".rt")
    modules = set(re.findall(r"^use \S+ as (\S+)$", text, re.M)) - {"tie"}

    def code(part):
        def word(m):
            new = names.get(m[0])
            if new is None:
                return m[0]
            if walk and "-" in m[0] and part[m.start() - 1 : m.start()] == ".":
                head = re.search(r"([^\s(){}.]+)\.$", part[: m.start()])
                if not head or head[1] not in modules:
                    return m[0]
            return new

        # A string of the source is printed, and no name of antt's.
        parts = STRING.split(part) if source else [part]
        return "".join(p if i % 2 else WORD.sub(word, p) for i, p in enumerate(parts))

    def prose(part):
        return WORD.sub(lambda m: m[0] if "-" in m[0] else names.get(m[0], m[0]), part)

    def line(it):
        i = comment_at(it, "//" if source else "--")
        # Words of a comment, and names between backquotes.
        said = re.split(r"(`[^`]*`)", it[i:])
        return code(it[:i]) + "".join((code if k % 2 else prose)(p) for k, p in enumerate(said))

    return "\n".join(line(it) for it in text.split("\n"))


def main(argv):
    if len(argv) != 1:
        print(__doc__)
        return 2
    names = table()
    for folder, dirs, files in os.walk(os.path.join(argv[0], "crates")):
        # What a check wrote is left alone; a function named `out` is not.
        dirs[:] = sorted(d for d in dirs if d != "out" or "src" not in dirs)
        for name in sorted(files):
            if not name.endswith((".rt", ".antt")):
                continue
            path = os.path.join(folder, name)
            with open(path, encoding="utf-8") as f:
                old = f.read()
            new = respell(old, names, path)
            if new != old:
                with open(path, "w", encoding="utf-8") as f:
                    f.write(new)
    return 0


if __name__ == "__main__":
    sys.exit(main(sys.argv[1:]))

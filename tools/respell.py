#!/usr/bin/env python3
"""Spells the repository's own definitions and lemmas as the language's library does: words in snake case, facts in camel case.

usage: tools/respell.py [FOLDER]      FOLDER: the top of a checkout, this one by default

Each name of respelled.txt, beside this file, stands there as it was. A fact, which begins with a capital, becomes one word
(One-ahead: OneAhead); every other name gets underscores (in-line: in_line). Whole names alone turn: in .antt files all but
what a string has, in .rt files what no string and no comment has, in .md files what stands between backquotes.
Names that Rattle makes of the source (loop-i-preserved) are not in the list and stay. A second run changes nothing.
"""

import os
import re
import sys

HERE = os.path.dirname(os.path.realpath(__file__))
WORD = re.compile(r"""[^\s(){}.;,@"«»`\[\]|&<>]+""")
QUOTED = r'"(?:\\.|[^"\\\n])*"'
STAYS = {
    ".antt": re.compile(QUOTED),
    ".rt": re.compile(QUOTED + r"|//[^\n]*"),
}
SPAN = re.compile(r"`[^`\n]+`")


def spelled(name):
    if name[0].isupper():
        return "".join(word[:1].upper() + word[1:] for word in name.split("-"))
    return name.replace("-", "_")


def table():
    with open(os.path.join(HERE, "respelled.txt"), encoding="utf-8") as f:
        return {name: spelled(name) for name in f.read().split()}


def turned(text, names):
    return WORD.sub(lambda m: names.get(m[0], m[0]), text)


def turned_around(text, stays, names):
    out, at = [], 0
    for m in stays.finditer(text):
        out += [turned(text[at : m.start()], names), m[0]]
        at = m.end()
    return "".join(out) + turned(text[at:], names)


def main():
    top = sys.argv[1] if len(sys.argv) > 1 else os.path.dirname(HERE)
    names = table()
    for part in ("crates", "docs", "README.md"):
        path = os.path.join(top, part)
        files = [path] if os.path.isfile(path) else [os.path.join(d, f) for d, _, fs in os.walk(path) for f in fs if "/out" not in d]
        for file in sorted(files):
            end = os.path.splitext(file)[1]
            if end not in STAYS and end != ".md":
                continue
            with open(file, encoding="utf-8") as f:
                old = f.read()
            if end == ".md":
                new = SPAN.sub(lambda m: turned(m[0], names), old)
            else:
                new = turned_around(old, STAYS[end], names)
            if new != old:
                with open(file, "w", encoding="utf-8") as f:
                    f.write(new)


main()

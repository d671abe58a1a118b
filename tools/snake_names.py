#!/usr/bin/env python3
"""Respells the names of definitions and lemmas in crates/ from camel case to snake case, as `runEnd-ge` to `run_end-ge`.

usage: tools/snake_names.py [FOLDER]    (the repository's top; here, if none is given)

Parts of a name that a dash joins are respelled each by itself, and a part that begins with a capital is a type, a fact or a variant and
keeps its spelling. Text in quotes keeps its spelling, and so does the source's own text: there is no camel case but in clauses.
"""

import os
import re
import sys

PART = r"[a-z_][A-Za-z0-9_']*"
QUOTED = r"""(?P<quoted>\"(?:[^\"\\\n]|\\.)*\"|(?<!\w)b?'(?:[^'\\\n]|\\x[0-9A-Fa-f]{2}|\\u\{[0-9A-Fa-f_]*\}|\\.)')"""
NAME = re.compile(QUOTED + r"|(?<![\w'\u00b7-])[A-Za-z_][\w'-]*")
HUMP = re.compile(r"(?<=[a-z0-9])([A-Z]+)")


def part(text):
    if not re.fullmatch(PART, text):
        return text
    return HUMP.sub(lambda m: "_" + m.group(1).lower(), text)


def respell(match):
    text = match.group()
    if match["quoted"]:
        return text
    return "-".join(part(p) for p in text.split("-"))


def main():
    top = sys.argv[1] if len(sys.argv) > 1 else "."
    for folder, dirs, files in os.walk(os.path.join(top, "crates")):
        dirs[:] = [d for d in dirs if d not in ("out", "data")]
        for name in files:
            if not name.endswith((".rt", ".antt", ".edit")):
                continue
            path = os.path.join(folder, name)
            with open(path, encoding="utf-8") as f:
                old = f.read()
            new = NAME.sub(respell, old)
            if new != old:
                with open(path, "w", encoding="utf-8") as f:
                    f.write(new)


main()

#!/usr/bin/env python3
"""Writes src/examples.rt, the files of the folder examples/ as constants, since the tests of a crate can read no file.

Run it in the crate's folder: python3 tools/examples.py
With --check it writes nothing, and fails where the file is not what it would write.
"""
import os
import sys

HERE = os.path.dirname(os.path.abspath(__file__))
EXAMPLES = os.path.join(HERE, "..", "..", "..", "examples")
WRITTEN = os.path.join(HERE, "..", "src", "examples.rt")
# How a constant of each ending is called behind the file's name.
ENDINGS = {".json": "", ".out": "_REPORT", ".err": "_LINE"}
# Worlds that are no scenarios: they have no clients.
WORLDS = ("room.json",)
# Where `rt fmt` breaks a line.
WIDTH = 100


def literal(text):
    return '"' + text.replace("\\", "\\\\").replace('"', '\\"').replace("\n", "\\n") + '"'


def constant(name):
    stem, ending = os.path.splitext(name)
    with open(os.path.join(EXAMPLES, name), encoding="ascii") as it:
        text = it.read()
    begin, end = f"pub const {stem.upper()}{ENDINGS[ending]}: &str =", f"{literal(text)};"
    return f"{begin} {end}\n" if len(f"{begin} {end}") <= WIDTH else f"{begin}\n    {end}\n"


def module():
    named = [it for it in sorted(os.listdir(EXAMPLES)) if os.path.splitext(it)[1] in ENDINGS and it not in WORLDS]
    head = "//! The files of the folder examples/, written by tools/examples.py: scenarios, the reports of their replays, and the lines of those refused.\n\n"
    return head + "\n".join(map(constant, named))


def main():
    if sys.argv[1:] == ["--check"]:
        with open(WRITTEN, encoding="ascii") as it:
            if it.read() != module():
                sys.exit("crates/test_calls/src/examples.rt is not what tools/examples.py makes of examples/: run it again")
        return
    with open(WRITTEN, "w", encoding="ascii") as it:
        it.write(module())


main()

"""Which crates a line of crates.txt names without need: python3 tools/gate-times/uses.py [--write CRATE ...]

A crate needs those that its files name, and their lines name what stands below. A line that names more says what is not so: that the crate
itself uses them. With --write the lines of the crates that are named after it are shortened; each of them, and all above it, is then proved anew.
"""

import os
import re
import sys


def lines_of(path):
    """The lines of crates.txt, each with its crate and what it uses, or None for a line of words."""
    for line in open(path):
        name, colon, uses = line.partition(":")
        yield line, (name, uses.split()) if colon and not line.startswith("#") else None


def text_of(folder):
    found = []
    for part in ("src", "specs", "proofs"):
        for at, _, names in os.walk(f"{folder}/{part}"):
            found += [open(f"{at}/{name}").read() for name in names if name.endswith((".rt", ".antt"))]
    return "\n".join(found)


def is_named(crate, text):
    return re.search(rf"\b{crate}::|\bRattle\.{crate}\b", text) is not None


def main(words):
    rows = list(lines_of("crates.txt"))
    ours = {row[0] for _, row in rows if row}
    shorter = []
    for line, row in rows:
        if row:
            name, uses = row
            text = text_of(f"crates/{name}")
            left = [it for it in uses if is_named(it, text)]
            if left != uses:
                print(f"{name}: " + " ".join(it for it in uses if it not in left))
            if name in words and words[:1] == ["--write"]:
                line = f"{name}: {' '.join(left)}\n"
        shorter.append(line)
    if words[:1] == ["--write"]:
        unknown = set(words[1:]) - ours
        if unknown:
            sys.exit(f"no crates: {' '.join(sorted(unknown))}")
        open("crates.txt", "w").writelines(shorter)


main(sys.argv[1:])

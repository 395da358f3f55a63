#!/usr/bin/env python3
"""Looks whether the programs outside the gate, those of bench/ and of the campaigns, still name what stands in the crates.

    python3 tests/outside/tests/test_bench.py

Each name that such a program takes from a crate is searched there: a name of Rust in `src/lib.rt`, a definition or a lemma in the file of
`specs` or `proofs` that its path tells, and a declared type in `src`. A call of a function has as many arguments as the function has
parameters. Whether the program is proved, only `bench/build.sh NAME` tells.
"""

import os
import re
import sys

sys.path.insert(0, os.path.dirname(os.path.dirname(os.path.abspath(__file__))))

from tests.counting import ROOT

PROGRAMS = [os.path.join(ROOT, "bench", "programs"), os.path.join(ROOT, "tests", "outside", "campaigns")]
CONTRACTS = re.compile(r"Rattle\.(\w+)\.(specs|proofs)\.([\w.+-]+?)\.\{([^}]*)\}")
RUST = re.compile(r"^\s*use ((?:sv|law)_\w+)::(?:\{([^}]*)\}|(\w+);)", re.MULTILINE)
TYPE = r"\b(?:struct|enum|type|trait)\s+%s\b"


def text_of(path):
    """A file's text, and none where there is no such file."""
    if not os.path.isfile(path):
        return ""
    with open(path, encoding="utf-8") as file:
        return file.read()


def files_below(folder, ending):
    """The paths of the files below a folder whose names have this ending."""
    return sorted(os.path.join(at, name) for at, _, names in os.walk(folder) for name in names if name.endswith(ending))


def words(listed):
    """The names of a list, without those that they get here."""
    return [name.split(" as ")[0].strip() for name in listed.split(",") if name.strip()]


def count_listed(text, at, opening="([{", closing=")]}"):
    """How many things stand between commas in the brackets that open at a place."""
    depth, listed, some = 0, 0, False
    for char in text[at:].replace("->", "  "):
        if char in closing:
            depth -= 1
            if depth == 0:
                return listed + some
        if depth == 1 and char == ",":
            listed, some = listed + some, False
        elif depth >= 1 and not char.isspace():
            some = True
        if char in opening:
            depth += 1
    return None


def calls(text):
    """Each call of a function that a program's file takes from a crate: the crate, the name, and whether it has as many arguments as it should."""
    for crate, listed, single in RUST.findall(text):
        sources = "".join(map(text_of, files_below(os.path.join(ROOT, "crates", crate, "src"), ".rt")))
        for word in words(listed or single):
            declared = re.search(rf"\bpub fn {re.escape(word)}\b(?:<[^(]*>)?\(", sources)
            if declared is None:
                continue
            wanted = count_listed(sources, declared.end() - 1, "([{<", ")]}>")
            for call in re.finditer(rf"(?<![\w.:]){re.escape(word)}\(", text):
                yield crate, f"{word}()", count_listed(text, call.end() - 1) == wanted


def stands(word, text):
    """Whether a text has the word."""
    return re.search(rf"(?<!\w){re.escape(word)}(?!\w)", text) is not None


def cited(text):
    """Each name that a program's file takes from a crate of the repository: the crate, the name, and whether it stands there."""
    for crate, part, path, listed in CONTRACTS.findall(text):
        folder = os.path.join(ROOT, "crates", crate)
        if not os.path.isdir(folder):
            continue
        if path.startswith("declared."):
            sources = "".join(map(text_of, files_below(os.path.join(folder, "src"), ".rt")))
            kinds = [word for word in path.split(".") if word[0].isupper() and not word.startswith("The")]
            yield from ((crate, kind, re.search(TYPE % kind, sources) is not None) for kind in kinds)
        else:
            there = text_of(os.path.join(folder, part, *path.split(".")) + ".antt")
            yield from ((crate, word, stands(word, there)) for word in words(listed))
    for crate, listed, single in RUST.findall(text):
        there = text_of(os.path.join(ROOT, "crates", crate, "src", "lib.rt"))
        yield from ((crate, word, stands(word.split("::")[0], there)) for word in words(listed or single))


def main():
    """The status: 0 where each name stands, and each call fits."""
    passed = failed = 0
    for path in [path for folder in PROGRAMS for path in files_below(folder, ".in")]:
        text = text_of(path)
        for crate, word, fits in [*cited(text), *calls(text)]:
            passed, failed = passed + fits, failed + (not fits)
            if not fits:
                print(f"{os.path.relpath(path, ROOT)}: {crate} has no such {word}")
    print(f"{passed} passed, {failed} failed")
    return 1 if failed or not passed else 0


if __name__ == "__main__":
    sys.exit(main())

#!/usr/bin/env python3
"""Checks one crate before the crates below it are proved: `rattle check`, with the libraries that are built, and the others as source.

    python3 tools/check-early/check.py CRATE [FLAGS..]

FLAGS are those of `rattle check`, as `--only PATH`, `--allow-holes`, `--short-goals`, `--start F`, `--jobs N`, `--test`. A library is taken
as built where `rt ci` keeps just this text of it and of all below it, from any clone of the machine. What stands below a crate that is not
built is passed as source too; then a check takes a minute or two before it begins. What it checked is kept in the crate's out/. The last
line is no verdict of the gate.
"""

import os
import subprocess
import sys

import kept
from kept import KIT

ROOT = os.path.normpath(os.path.join(os.path.dirname(os.path.abspath(__file__)), "..", ".."))


def root_of(crate):
    return f"crates/{crate.name}/src/{'main' if crate.is_program else 'lib'}.rt"


def libraries(crate):
    """The words that pass what stands below a crate, built or as source."""
    words, as_source = [], []
    for dep in crate.below():
        if dep.is_built() and not any(it.name in as_source for it in dep.below()):
            words += ["--extern", f"{dep.name}={dep.rlib}", "-L", f"dependency={os.path.dirname(dep.rlib)}"]
        else:
            as_source.append(dep.name)
            uses = dict.fromkeys(["std", *dep.of_kit, *(it.name for it in dep.deps)])
            words += ["--lib", f"{dep.name}:{','.join(uses)}={root_of(dep)}"]
    if as_source:
        print("as source:", *as_source, flush=True)
    return words


def main(words):
    """The status of the check."""
    os.chdir(ROOT)
    crates = {it.name: it for it in kept.crates_of(ROOT)}
    if not words or words[0] not in crates:
        print("words: CRATE [FLAGS..]", file=sys.stderr)
        return 2
    crate, flags = crates[words[0]], words[1:]
    command = [f"{KIT}/bin/rattle", "check", "--crate-name", crate.name, root_of(crate)]
    for name in sorted({"std", *(it for dep in (crate, *crate.below()) for it in dep.of_kit)} - {"core"}):
        command += ["--extern", f"{name}={KIT}/rlibs/{name}.rlib"]
    room = f"{ROOT}/crates/{crate.name}/out/early{'-test' if '--test' in flags else ''}"
    os.makedirs(room, exist_ok=True)
    command += [*libraries(crate), "-L", f"dependency={KIT}/rlibs"]
    command += ["--antt-project", f"{KIT}/rattle/logic/antt-project.json", "--logic-built", f"{KIT}/logic_built"]
    return subprocess.call([*command, "--incremental", room, "--progress", *flags])


if __name__ == "__main__":
    sys.exit(main(sys.argv[1:]))

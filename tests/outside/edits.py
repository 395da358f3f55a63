#!/usr/bin/env python3
"""The edits that the prover must refuse and that are too dear for the gate: those of tests/outside/edits/NAME, for the crate NAME.

    python3 tests/outside/edits.py [NAME.. | --due]
    python3 tests/outside/edits.py --recorded

Without words it tries those of all crates, with --due those that are due. It puts them in place in a copy of the repository's committed state,
in which no other edit stands, and has `rt must-fail` try them there, over the libraries that `rt ci` keeps of the same text. What is not
kept is proved first. All of them take some hours of one processor. Where all of a crate's edits were refused, it records for it, in
edits/refused.txt, the sum of its edits and of its code and definitions and those of all crates below it. With --recorded it tries nothing, and
only says which edits are due: those whose sum is another one now.
"""

import hashlib
import os
import shutil
import subprocess
import sys
import tempfile

ROOT = os.path.normpath(os.path.join(os.path.dirname(os.path.abspath(__file__)), "..", ".."))
EDITS = os.path.join(ROOT, "tests", "outside", "edits")
RECORD = os.path.join(EDITS, "refused.txt")


def files_below(folder):
    """The paths of all files below a folder, in order."""
    return sorted(os.path.join(at, name) for at, _, names in os.walk(folder) for name in names)


def with_all_below(root, crate):
    """The crate and all that it stands on, in order."""
    with open(os.path.join(root, "crates.txt"), encoding="ascii") as file:
        lines = [line.split(":") for line in file if ":" in line and not line.startswith("#")]
    uses, found = {name: used.split() for name, used in lines}, set()

    def visit(name):
        if name in uses and name not in found:
            found.add(name)
            for one in uses[name]:
                visit(one)

    visit(crate)
    return sorted(found)


def sum_of(root, crate):
    """The sum of a crate's edits, and of its code and definitions and those of all crates below it."""
    total = hashlib.sha256()
    folders = [f"crates/{name}/{part}" for name in with_all_below(root, crate) for part in ("src", "specs")]
    for folder in (*folders, f"tests/outside/edits/{crate}"):
        for path in files_below(os.path.join(root, folder)):
            with open(path, "rb") as file:
                data = file.read()
            total.update(f"{os.path.relpath(path, root)} {len(data)}\n".encode() + data)
    return total.hexdigest()


def recorded():
    """The sum of each crate at which its edits were refused."""
    if not os.path.exists(RECORD):
        return {}
    with open(RECORD, encoding="ascii") as file:
        return dict(line.split() for line in file)


def write_record(sums):
    with open(RECORD, "w", encoding="ascii") as file:
        file.writelines(f"{crate} {sums[crate]}\n" for crate in sorted(sums))


def place(copy, crates):
    """Leaves in the copy just the edits of these crates."""
    for name in os.listdir(os.path.join(copy, "crates")):
        shutil.rmtree(os.path.join(copy, "crates", name, "must-fail"), ignore_errors=True)
    for name in crates:
        shutil.copytree(os.path.join(EDITS, name), os.path.join(copy, "crates", name, "must-fail"))


def try_all(crates):
    """Tries the edits of these crates over a copy. Those of a crate that are all refused are recorded. The status: 0 where all are."""
    # The toolchain's command, which this loads, is wanted here alone.
    sys.path.insert(0, os.path.join(ROOT, "tools", "check-early"))
    import kept  # noqa: PLC0415
    with tempfile.TemporaryDirectory() as room:
        copy = os.path.join(room, "dimboetu")
        subprocess.run(["git", "clone", "-q", ROOT, copy], check=True)
        sums = {crate: sum_of(copy, crate) for crate in crates}
        place(copy, crates)
        status = 0
        for crate in crates:
            kept.crates_of(copy)
            failed = subprocess.run(["rt", "must-fail", crate], cwd=copy, check=False).returncode
            status = status or failed
            if not failed:
                write_record({**recorded(), crate: sums[crate]})
    return status


def main(words):
    """The status: 0 where all that was tried is refused, or nothing was to be tried."""
    known = sorted(name for name in os.listdir(EDITS) if os.path.isdir(os.path.join(EDITS, name)))
    if words in (["--recorded"], ["--due"]):
        sums = recorded()
        due = [name for name in known if sums.get(name) != sum_of(ROOT, name)]
        if due and words == ["--due"]:
            return try_all(due)
        if due:
            print(f"due, since these crates or some below them changed: the edits of {' '.join(due)} (python3 tests/outside/edits.py --due)")
        print(f"{len(known) - len(due)} passed, 0 failed")
        return 0
    unknown = [name for name in words if name not in known]
    if unknown:
        print(f"no edits of {', '.join(unknown)}; there are those of {', '.join(known)}", file=sys.stderr)
        return 2
    return try_all(words or known)


if __name__ == "__main__":
    sys.exit(main(sys.argv[1:]))

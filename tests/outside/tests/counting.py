"""What the tests share: paths, what passed and what failed, and the program that is tested."""

import os
import sys

ROOT = os.path.normpath(os.path.join(os.path.dirname(os.path.abspath(__file__)), "..", "..", ".."))
OUTSIDE = os.path.join(ROOT, "tests", "outside")
EXAMPLES = os.path.join(ROOT, "examples")
CLIENTS = os.path.join(ROOT, "clients", "python")
STAND_IN = os.path.join(OUTSIDE, "doubles", "stand_in.py")
BUILT = os.path.join(ROOT, "crates", "sv_main", "out", "sv_main")


class Count:
    """What passed and what failed."""

    def __init__(self):
        self.passed = 0
        self.failed = 0

    def expect(self, holds, name):
        """One thing tried."""
        if holds:
            self.passed += 1
        else:
            self.failed += 1
            print(f"failed: {name}", flush=True)

    def same(self, given, wanted, name):
        """Two things that must be equal."""
        self.expect(given == wanted, f"{name}:\n  got    {given!r}\n  wanted {wanted!r}")

    def close(self):
        """Prints the last line, and gives the status."""
        print(f"{self.passed} passed, {self.failed} failed")
        return 0 if self.failed == 0 else 1


class Room(Count):
    """A program under test and a folder for files that its words name; what passed and what failed."""

    def __init__(self, program, room):
        super().__init__()
        self.program, self.room = program, room

    def file(self, name, data):
        """A file with these bytes."""
        path = os.path.join(self.room, name)
        with open(path, "wb") as file:
            file.write(data)
        return path


def program_in(words):
    """The program that the words name, else the repository's own; or the status with which all ends, where there is none."""
    program = words[0] if words else BUILT
    if len(words) > 1 or (words and not os.access(program, os.X_OK)):
        print(f"words: [PROGRAM]; {program} is no program", file=sys.stderr)
        return None, 2
    if not os.access(program, os.X_OK):
        print(f"{os.path.relpath(program, ROOT)} is not built: nothing is tested")
        return None, 0
    return program, 0

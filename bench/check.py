"""Times `check` of the reports that `replay` prints of the generated load of some sizes, and `why` of its last position, beside that replay.

    python3 bench/check.py PROGRAM [ROUNDS]

The three run in turn, ROUNDS times each (9 if left out), from start to end. What is printed is thrown away, but for the report, which is made
once, and the answers of one call each, which are looked at. Beside the time that passed stands the processor's time, which other work on the
machine lengthens less.
"""

import os
import statistics
import subprocess
import sys
import tempfile
import time
from typing import NamedTuple

from loads import SIZES, write_load


class Call(NamedTuple):
    """What a call took: milliseconds, milliseconds of a processor, and MB of memory at most."""

    passed: float
    worked: float
    memory: float


def measured(words):
    """A call that ends well."""
    start = time.perf_counter()
    child = os.posix_spawn(words[0], words, os.environ, file_actions=[(os.POSIX_SPAWN_OPEN, 1, os.devnull, os.O_WRONLY, 0)])
    _, status, used = os.wait4(child, 0)
    if status != 0:
        sys.exit(f"{' '.join(words)}: status {status}")
    return Call((time.perf_counter() - start) * 1e3, (used.ru_utime + used.ru_stime) * 1e3, used.ru_maxrss / 1024)


def answer(words):
    """What a call prints."""
    return subprocess.run(words, check=True, capture_output=True).stdout


def row(n, actions, text, calls):
    """A line of the table."""
    checks, replays, whys = calls
    size, lines = len(text) / 1e6, text.count(b"\n")
    passed, worked = min(one.passed for one in checks), min(one.worked for one in checks)
    replayed = min(one.worked for one in replays)
    return (
        f"| {n} | {actions} | {size:.2f} | {lines} | {passed:.1f} | {statistics.median(one.passed for one in checks):.1f} | {worked:.1f} | {size * 1e3 / worked:.1f} "
        f"| {worked * 1e3 / lines:.2f} | {checks[0].memory:.0f} | {replayed:.1f} | {worked / replayed:.2f} | {min(one.worked for one in whys):.1f} |"
    )


def main(program, rounds):
    with tempfile.TemporaryDirectory() as folder:
        print("| Size | Actions | Report, MB | Lines | `check`: ms, best | median | ms of a processor, best | MB/s of that | µs a line | MB of memory | `replay`: ms of a processor, best | `check` / `replay` | `why`: ms of a processor, best |")
        print("|---|---|---|---|---|---|---|---|---|---|---|---|---|")
        for n in SIZES:
            path, _, actions = write_load(folder, n)
            report = f"{folder}/{n}.out"
            text = answer([program, "replay", path])
            with open(report, "wb") as it:
                it.write(text)
            words = ([program, "check", path, report], [program, "replay", path], [program, "why", path, report, "0", str(actions)])
            if answer(words[0]) != b"yes\n" or b"value 0=" not in answer(words[2]):
                sys.exit(f"size {n}: another answer")
            rounded = [[measured(each) for each in words] for _ in range(rounds)]
            print(row(n, actions, text, list(zip(*rounded))), flush=True)


main(sys.argv[1], int(sys.argv[2]) if len(sys.argv) > 2 else 9)

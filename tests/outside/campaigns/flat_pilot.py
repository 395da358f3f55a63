#!/usr/bin/env python3
"""Lets a pilot make a million actions, and looks at its memory.

    python3 tests/outside/campaigns/flat_pilot.py PROGRAM [TIMES]

PROGRAM is what `tools/unproved.sh pilot_alone` prints. The pilot plays against ends that answer by themselves, and after each thousand actions goes
on over another end. Each 50,000 actions the program prints how many it made and the number that the player sees, which is the same, since each adds
1. Then the resident memory is read; it may not be above the first one by more than 5 percent. The status is 1 where that is not so.
"""

import subprocess
import sys


def resident(pid):
    """The resident memory of a process, in kB."""
    with open(f"/proc/{pid}/status", encoding="ascii") as file:
        return int(next(line for line in file if line.startswith("VmRSS")).split()[1])


def main(words):
    """The status."""
    if len(words) not in (1, 2):
        print(__doc__, file=sys.stderr)
        return 2
    times = int(words[1]) if len(words) == 2 else 1_000_000
    seen, wrong = [], []
    with subprocess.Popen([words[0], str(times)], stdout=subprocess.PIPE, text=True) as program:
        for line in program.stdout:
            if line.startswith("told "):
                wrong += [line] if int(line.split()[1]) != times else []
                continue
            made, number = map(int, line.split())
            seen.append(resident(program.pid))
            print(f"{made} actions, {seen[-1]} kB", flush=True)
            if made != number:
                wrong.append(line)
    if program.returncode or len(seen) != times // 50_000:
        wrong.append(f"status {program.returncode} after {len(seen)} lines\n")
    if seen and max(seen) > seen[0] * 1.05:
        wrong.append(f"memory rose from {seen[0]} to {max(seen)} kB\n")
    print("".join(wrong), end="")
    print("FAILED" if wrong else "flat")
    return 1 if wrong else 0


if __name__ == "__main__":
    sys.exit(main(sys.argv[1:]))

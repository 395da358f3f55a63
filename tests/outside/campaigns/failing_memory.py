#!/usr/bin/env python3
"""Every single allocation of the program failing in turn, and every pair of two for the smallest examples.

    python3 tests/outside/campaigns/failing_memory.py PROGRAM

Builds failing_memory.c with the system's C compiler; that file says which allocations it reaches. Singles: `replay` and
`play` of the examples `conflict` and `bound`, `check` and `why` of their reports, and `witness` of `conflict`. Pairs: `replay` and `play` of
`empty_script`, `replay` of `first` and `bound`, and `check` of `first`; the second of two is counted after the first has failed.

A run may end with status 8, nothing printed and `memory` told; `play` also with 7 or 6, nothing printed and `start` or
`link` told; where the allocation that should fail was not reached, with status 0 and the text of the whole run; and nothing
else. What `play` of clients in conflict prints depends on which thread came first, so a whole text of it is judged by the
checker of reports (check_report.py). Prints each other run, and the figures of each call as it is done; at the end how many
runs were wrong. The status is 1 where any was.
"""

import collections
import os
import subprocess
import sys
import tempfile
import time

OUTSIDE = os.path.dirname(os.path.dirname(os.path.abspath(__file__)))
EXAMPLES = os.path.join(OUTSIDE, "..", "..", "examples")
sys.path.insert(0, OUTSIDE)

from rules.check_report import check
from rules.first_wrong import Lines, take_journal
from rules.reasons import why_lines, world_lines
from rules.report import Fault
from rules.scenario import read_scenario
from rules.witness import text_of as witness_text, witnessed

MEMORY = (8, b"", b"memory\n")
# What a run of threads may be told instead, with nothing printed: the system starts no thread where its own memory is refused, and who runs
# out of memory closes its connection, which is a fault at the other end where something was not read yet.
THREADS = {(7, b"", b"start\n"): "start", (6, b"", b"link\n"): "link"}
# More calls than any run of these examples makes.
BEHIND = {"replay": 0, "play": 60, "check": 0, "why": 0, "world": 0, "witness": 0}


def library_in(room):
    """The shim, built in a folder."""
    library = os.path.join(room, "failing_memory.so")
    subprocess.run(["cc", "-O2", "-shared", "-fPIC", "-o", library, os.path.join(OUTSIDE, "doubles", "failing_memory.c")], check=True)
    return library


def figures(least, ends, pairs, begun):
    """What is told of the runs of one call: how many allocations the plain one makes, and how the others ended."""
    told = ", ".join(f"{kind} {number}" for kind, number in sorted(ends.items()))
    return f"{least} allocations, {sum(ends.values())} {'pairs' if pairs else 'singles'}: {told}; {time.monotonic() - begun:.0f} s"


class Shim:
    """The program with these words under the shim, from which one run after the other is asked."""

    def __init__(self, library, program, words):
        self.slowest = 0
        self.work = subprocess.Popen([program, *words], stdin=subprocess.PIPE, stdout=subprocess.PIPE,
                                     env={**os.environ, "LD_PRELOAD": library})

    def run(self, *numbers):
        """One run in which these calls fail: its status and its two outputs, and how many calls it made."""
        begun = time.monotonic()
        self.work.stdin.write(" ".join(map(str, numbers)).encode() + b"\n")
        self.work.stdin.flush()
        status, calls, of_out, of_err = map(int, self.work.stdout.readline().split())
        self.slowest = max(self.slowest, time.monotonic() - begun)
        return (status, self.work.stdout.read(of_out), self.work.stdout.read(of_err)), calls

    def close(self):
        """No more runs."""
        self.work.stdin.close()
        self.work.wait()


def is_whole(path, text, known):
    """Whether a text is that of a whole run; what was judged before is known."""
    if text not in known:
        try:
            check(read_scenario(path), text, False)
            known[text] = True
        except Fault:
            known[text] = False
    return known[text]


def text_of(word, path, report):
    """What a call prints where nothing fails: of `replay` the report, which `play` too may print; of `why` what is so of object 0 at position 1;
    of `world` the world at the end; of `witness` the lines of the run in which client 0 lies."""
    if word == "witness":
        return witness_text(witnessed(read_scenario(path), 0).server).encode()
    with open(report, "rb") as file:
        text = file.read()
    if word == "check":
        return b"yes\n"
    if word in ("why", "world"):
        scenario = read_scenario(path)
        accepted = take_journal(scenario, Lines(text))[1].accepted
        lines = why_lines(scenario, accepted, 0, 1) if word == "why" else world_lines(scenario, accepted)
        return "".join(f"{line}\n" for line in lines).encode()
    return text


class Campaign:
    """The figures of all runs so far."""

    def __init__(self, library, program):
        self.library, self.program = library, program
        self.wrong = 0

    def judge(self, name, path, known, numbers, ended, calls):
        """What became of a run in which these calls fail."""
        reached = numbers[0] <= calls
        if ended == MEMORY and reached:
            return "memory"
        if ended in THREADS and reached and name.startswith("play"):
            return THREADS[ended]
        if ended[0] == 0 and ended[2] == b"" and is_whole(path, ended[1], known):
            return "whole, though one failed" if reached else "whole, nothing failed"
        self.wrong += 1
        print(f"WRONG: {name}: calls {numbers} of {calls} fail: {ended}"[:600], flush=True)
        return "WRONG"

    def go(self, word, example, pairs):
        """All singles, or all pairs, of one call of the program. A pair whose second call is not reached is a single."""
        path, report, name = os.path.join(EXAMPLES, example + ".json"), os.path.join(EXAMPLES, example + ".out"), f"{word} {example}"
        known = {text_of(word, path, report): True}
        words = [word, path, *{"check": [report], "why": [report, "0", "1"], "world": [report], "witness": ["0"]}.get(word, [])]
        shim, begun, ends = Shim(self.library, self.program, words), time.monotonic(), collections.Counter()
        plain, least = shim.run()
        if plain[0] != 0:
            raise SystemExit(f"{name} ends with status {plain[0]} where nothing fails")
        for one in range(1, least + BEHIND[word] + 1):
            ended, calls = shim.run(one)
            if not pairs:
                ends[self.judge(name, path, known, [one], ended, calls)] += 1
                continue
            for other in range(one + 1, 2 * least):
                ended, calls = shim.run(one, other)
                if calls < one or calls + BEHIND[word] < other:
                    break
                if other <= calls:
                    ends[self.judge(name, path, known, [one, other], ended, calls)] += 1
        shim.close()
        print(f"{name}: {figures(least, ends, pairs, begun)}, the longest run {shim.slowest:.1f} s", flush=True)


def main(words):
    """The status of the whole campaign."""
    if len(words) != 1:
        print("words: PROGRAM", file=sys.stderr)
        return 2
    with tempfile.TemporaryDirectory() as room:
        campaign = Campaign(library_in(room), os.path.abspath(words[0]))
        for example in ("conflict", "bound"):
            for word in ("replay", "play", "check", "why", "world"):
                campaign.go(word, example, False)
        campaign.go("witness", "conflict", False)
        for word, example in (("replay", "empty_script"), ("play", "empty_script"), ("replay", "first"), ("replay", "bound"), ("check", "first")):
            campaign.go(word, example, True)
    print(f"{campaign.wrong} wrong")
    return 1 if campaign.wrong else 0


if __name__ == "__main__":
    sys.exit(main(sys.argv[1:]))

"""Counts instructions by valgrind's callgrind, here and of the plain Rust peer, and prints a table. README.md says what is counted.

    python3 bench/counts.py HERE PEER [FOLDER [WORD..]]

HERE is a folder with bench_libraries, bench_lasting, bench_read and sv_main; PEER is one with the peer, and with bench/take.rs and
bench/lasting.rs built as take and lasting. Rows of programs that are not there are left out. FOLDER keeps callgrind's files, and with WORDs
only the rows whose names begin with one of them are counted.
"""

import glob
import json
import os
import subprocess
import sys
import tempfile
import time
from concurrent.futures import ThreadPoolExecutor
from typing import Callable, NamedTuple

from corpora import STEP_MIXES, write_corpora
from host import free_port
from loads import SIZES, load, write_load
from read import MOST, scenario

AT_ONCE = 2
TEXTS, EVALS, WIRES, STEPS, CALLS, SAMPLE = 5_252, 2_000, 20, 12_384, 64, 25_600
MESSAGES = 24 * WIRES
# How many actions each of the clients of a server makes, in two runs, and the seconds until it listens.
DRIVEN, CLIENTS, STARTS = (10, 30), 32, 5
TOOL = ["valgrind", "--tool=callgrind"]
QUIET = {"stdout": subprocess.DEVNULL, "stderr": subprocess.DEVNULL}


def instructions(file):
    with open(file, encoding="utf-8", errors="replace") as lines:
        return next(int(line.split()[1]) for line in lines if line.startswith("summary:"))


class Runs:
    """Runs programs under callgrind in a folder, each with a name for its files."""

    def __init__(self, work, kept):
        self.work, self.kept = work, kept

    def parts(self, name, words):
        """The instructions before the program first looks at the clock, and those after each look."""
        out = f"{self.kept}/{name}"
        for old in glob.glob(f"{out}.*"):
            os.remove(old)
        subprocess.run([*TOOL, "--dump-before=clock_gettime*", f"--callgrind-out-file={out}", *words], cwd=self.work, check=True, **QUIET)
        files = sorted(glob.glob(f"{out}.*"), key=lambda file: int(file.rsplit(".", 1)[1]))
        return [instructions(file) for file in [*files, out]]

    def whole(self, name, words):
        subprocess.run([*TOOL, f"--callgrind-out-file={self.kept}/{name}", *words], cwd=self.work, check=True, **QUIET)
        return instructions(f"{self.kept}/{name}")

    def served(self, name, peer, words):
        """The instructions of a server while so many actions more are made."""
        found = []
        for turns in DRIVEN:
            out = f"{self.kept}/{name}-{turns}"
            port = str(free_port())
            of_run = [word.replace("PORT", port).replace("TURNS", str(turns)) for word in words]
            server = subprocess.Popen([*TOOL, f"--callgrind-out-file={out}", *of_run], cwd=self.work, stdin=subprocess.PIPE, **QUIET)
            time.sleep(STARTS)
            try:
                subprocess.run([peer, "drive", port, str(CLIENTS), str(turns)], check=True, timeout=1000, **QUIET)
            finally:
                server.terminate()
                server.wait()
            found.append(instructions(out))
        return found[1] - found[0]


class Way(NamedTuple):
    """How a side is counted."""

    program: str
    count: Callable[[Runs, str], float]


def timed(pieces, *words, part=1):
    """Those of one piece of work between two looks at the clock, counted from the first."""
    words = [*map(str, words)]
    return Way(words[0], lambda runs, name: runs.parts(name, words)[part] / pieces)


def whole(pieces, *words):
    """Those of the program from start to end, for one piece of its work."""
    words = [*map(str, words)]
    return Way(words[0], lambda runs, name: runs.whole(name, words) / pieces)


def served(peer, *words):
    """Those of a server for an action."""
    words = [*map(str, words)]
    return Way(words[0], lambda runs, name: runs.served(name, peer, words) / (CLIENTS * (DRIVEN[1] - DRIVEN[0])))


def library_rows(libraries, peer, take):
    yield "text", "action", timed(TEXTS, libraries, "text", "texts", 1), timed(TEXTS, peer, "bench", "text", 1)
    yield "evaluation", "action", timed(EVALS, libraries, "eval", "actions", "values", EVALS // 1000), timed(EVALS, peer, "bench", "eval", EVALS)
    for name, part in (("encoding", 1), ("decoding", 3)):
        yield name, "message", timed(MESSAGES, libraries, "wire", "messages", WIRES, part=part), timed(MESSAGES, peer, "bench", "wire", WIRES, part=part)
    for mix, part in zip(STEP_MIXES, (1, 3)):
        yield mix, "step", timed(STEPS, libraries, "step", mix, 1), timed(STEPS, peer, "bench", "step", STEPS, part=part)
        yield f"{mix}, the journal alone", "entry", timed(STEPS, libraries, "journal", mix, 1), None
    for others in (0, 32):
        here, there = (libraries, "sent", 10_000, others, 1), (peer, "bench", "closure", 10_000, others, CALLS)
        yield f"closure and notes of {others + 1}", "call", timed(CALLS, *here), timed(CALLS, *there)
    for items, turns in ((1, 400), (33, 20)):
        yield f"take of {items}", "turn", timed(turns, libraries, "take", items, turns), timed(turns, take, items, turns)


def program_rows(program, peer, work):
    for n in SIZES[1:]:
        _, actions = load(n)
        yield f"replay {n}", "action", whole(actions, program, "replay", f"{n}.json"), whole(actions, peer, "replay-load", n, "--journal")
        yield f"load {n} over TCP", "action", whole(actions, program, "load", n), whole(actions, peer, "load", n, "--tcp")
        yield f"check {n}", "byte", whole(os.path.getsize(f"{work}/{n}.out"), program, "check", f"{n}.json", f"{n}.out"), None
    words = ("host", "world.json", "folder-TURNS", "--stdin", "--at", "127.0.0.1:PORT", "--sync", "none", "--idle", 3600)
    yield "host, no sync", "action", served(peer, program, *words), served(peer, peer, "host", "PORT", "world.json")


def rows(here, there, work):
    """Each row's name, what it counts for, and how, here and of the peer."""
    peer = f"{there}/peer"
    yield from library_rows(f"{here}/bench_libraries", peer, f"{there}/take")
    yield "a long life", "request", *(timed(SAMPLE, program, 2 * SAMPLE, SAMPLE, part=3) for program in (f"{here}/bench_lasting", f"{there}/lasting"))
    yield "reading a scenario", "byte", timed(MOST, f"{here}/bench_read", "scenario.json", 1), None
    yield from program_rows(f"{here}/sv_main", peer, work)


def prepare(program, peer, work):
    """Writes what the programs are given."""
    write_corpora(peer, work)
    with open(f"{work}/scenario.json", "w", encoding="ascii") as file:
        file.write(scenario())
    with open(f"{work}/world.json", "w", encoding="ascii") as file:
        json.dump({"attrs": 1, "objects": [[1000]] * 4000, "bound": 32}, file)
    for n in SIZES:
        path, _, _ = write_load(work, n)
        with open(f"{work}/{n}.out", "wb") as report:
            if os.access(program, os.X_OK):
                subprocess.run([program, "replay", path], check=True, stdout=report)


def cell(figure):
    return "" if figure is None else f"{figure:,.0f}" if figure >= 1000 else f"{figure:.1f}"


def main(here, there, kept, wanted):
    here, there = os.path.abspath(here), os.path.abspath(there)
    with tempfile.TemporaryDirectory() as work, ThreadPoolExecutor(AT_ONCE) as pool:
        prepare(f"{here}/sv_main", f"{there}/peer", work)
        runs = Runs(work, os.path.abspath(kept or work))
        os.makedirs(runs.kept, exist_ok=True)

        def started(side, name, way):
            if way and os.access(way.program, os.X_OK):
                return pool.submit(way.count, runs, f"{side}-{name}".replace(" ", "-"))
            return None

        found = [(name, unit, started("here", name, ours), started("peer", name, theirs)) for name, unit, ours, theirs in rows(here, there, work)
                 if not wanted or name.startswith(tuple(wanted))]
        print("| Work | Instructions for a | Here | Peer | Peer / here |\n|---|---|---|---|---|")
        for name, unit, *sides in found:
            ours, theirs = (side and side.result() for side in sides)
            ratio = f"{theirs / ours:.2f}" if ours and theirs else ""
            print(f"| {name} | {unit} | {cell(ours)} | {cell(theirs)} | {ratio} |", flush=True)


if __name__ == "__main__":
    main(sys.argv[1], sys.argv[2], sys.argv[3] if len(sys.argv) > 3 else None, sys.argv[4:])

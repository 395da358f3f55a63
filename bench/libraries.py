"""Runs bench_libraries and the peer in turn on the same corpora, and prints a table of the best and the median figures.

python3 bench/libraries.py REPOSITORY PEER [ROUNDS]
"""
import os
import statistics
import sys
import tempfile

from corpora import STEP_MIXES, TEXT_MEGABYTES, output, write_corpora
from peers import built_peer

REPOSITORY, PEER = (os.path.abspath(path) for path in sys.argv[1:3])
ROUNDS = int(sys.argv[3]) if len(sys.argv) > 3 else 25
# A run takes some milliseconds, so that on a loaded machine the best of many runs was not interrupted.
EVAL_TURNS = 20
WIRE_TURNS = 500
QUEUES = [(10, 0), (10, 7), (100, 0), (100, 7), (100, 32), (1000, 0), (1000, 7), (1000, 32), (10_000, 0), (10_000, 7), (10_000, 32)]
CLOSURE_TURNS = 100
# How often the requests of a mix are stepped through.
STEP_TURNS = 4
SESSIONS = 64


def built_bench():
    return output(os.path.join(REPOSITORY, "bench", "build.sh"), "bench_libraries").strip()


class Figures:
    """All figures of a name and a side, one for each round."""

    def __init__(self):
        self.all = {}

    def add(self, name, unit, side, figure):
        self.all.setdefault((name, unit), {}).setdefault(side, []).append(figure)

    def table(self):
        print("| Work | Unit | Peer: best | median | Here: best | median | Here / peer: best | median |")
        print("|---|---|---|---|---|---|---|---|")
        for (name, unit), sides in self.all.items():
            ways = (min if unit.startswith("ns") else max, statistics.median)
            cells = []
            for side in ("peer", "here"):
                cells += [f"{way(sides[side]):,.1f}" if side in sides else "" for way in ways]
            cells += [f"{way(sides['here']) / way(sides['peer']):.2f}" if "peer" in sides else "" for way in ways]
            print(f"| {name} | {unit} | {' | '.join(cells)} |")


def peer_figures(peer, *words):
    lines = (line.split(" ", 2) for line in output(peer, "bench", *map(str, words)).splitlines())
    return {name: value for name, value, _ in lines}


def here_figures(bench, work, *words):
    """By name: how often the work was done, what it added up to, and its nanoseconds."""
    lines = (line.split() for line in output(bench, *map(str, words), cwd=work).splitlines())
    return {name: tuple(map(int, rest)) for name, *rest in lines}


def measure_text(figures, peer, bench, work, size):
    told = peer_figures(peer, "text", TEXT_MEGABYTES)
    figures.add("text", "MB/s", "peer", float(told["text"]))
    items, _, nanos = here_figures(bench, work, "text", "texts", 1)["text"]
    assert items == round(float(told["text_corpus_actions"]))
    figures.add("text", "MB/s", "here", size * 1e3 / nanos)


def measure_eval(figures, peer, bench, work):
    told = peer_figures(peer, "eval", EVAL_TURNS * 1000)
    figures.add("eval", "actions/s", "peer", float(told["eval"]))
    items, voids, nanos = here_figures(bench, work, "eval", "actions", "values", EVAL_TURNS)["eval"]
    assert items == EVAL_TURNS * 1000 and voids == EVAL_TURNS * round(float(told["eval_void"]))
    figures.add("eval", "actions/s", "here", items * 1e9 / nanos)


def measure_wire(figures, peer, bench, work):
    told = peer_figures(peer, "wire", WIRE_TURNS)
    here = here_figures(bench, work, "wire", "messages", WIRE_TURNS)
    (encoded, size, encode), (decoded, _, decode) = here["wire_encode"], here["wire_decode"]
    assert size == WIRE_TURNS * round(float(told["wire_mix_bytes"])) and encoded == decoded
    for name, nanos in (("wire_encode", encode), ("wire_decode", decode), ("wire_both", encode + decode)):
        figures.add(name, "messages/s", "peer", float(told[name]))
        figures.add(name, "messages/s", "here", encoded * 1e9 / nanos)


def measure_closure(figures, peer, bench, work, queue, influence):
    """The peer's calls note what they send. The calls with notes need a new queue in each turn, so they are fewer."""
    of = f"{influence + 1} items of {queue}"
    told = peer_figures(peer, "closure", queue, influence, CLOSURE_TURNS * SESSIONS)
    turns = {"closure": CLOSURE_TURNS, "sent": max(4, min(50, 10_000 // queue)), "plain": max(1, min(50, 10_000 // queue))}
    for way, name in (("sent", f"closure and notes, {of}"), ("closure", f"closure alone, {of}"), ("plain", f"plain walk, {of}")):
        calls, items, nanos = here_figures(bench, work, way, queue, influence, turns[way])[way]
        assert calls == turns[way] * SESSIONS and items == calls * (influence + 1)
        if way == "sent":
            figures.add(name, "ns/call", "peer", float(told["closure"]))
        figures.add(name, "ns/call", "here", nanos / calls)


def measure_steps(figures, peer, bench, work):
    """The peer keeps no journal, so what entering the same requests into one takes stands beside the steps."""
    told = None
    for mix in STEP_MIXES:
        here = here_figures(bench, work, "step", mix, STEP_TURNS)["step"]
        entered = here_figures(bench, work, "journal", mix, STEP_TURNS)["journal"]
        told = told or peer_figures(peer, "step", here[0])
        assert here[0] == entered[0] == STEP_TURNS * round(float(told[f"{mix}_mix"]))
        assert here[1] == STEP_TURNS * round(float(told[f"{mix}_items"]))
        figures.add(mix, "steps/s", "peer", float(told[mix]))
        figures.add(mix, "steps/s", "here", here[0] * 1e9 / here[2])
        figures.add(mix, "ns/step", "peer", float(told[f"{mix}_time"]))
        figures.add(mix, "ns/step", "here", here[2] / here[0])
        figures.add(f"{mix}, the requests entered into a journal alone", "ns/entry", "here", entered[2] / entered[0])


def main():
    with tempfile.TemporaryDirectory() as work:
        peer, bench = built_peer(work, PEER), built_bench()
        size = write_corpora(peer, work)
        figures = Figures()
        for _ in range(ROUNDS):
            measure_text(figures, peer, bench, work, size)
            measure_eval(figures, peer, bench, work)
            measure_wire(figures, peer, bench, work)
            measure_steps(figures, peer, bench, work)
            for queue, influence in QUEUES:
                measure_closure(figures, peer, bench, work, queue, influence)
        figures.table()
        print(f"\n{ROUNDS} runs each. Load average: {', '.join(f'{load:.1f}' for load in os.getloadavg())}.")


main()

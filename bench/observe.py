"""What an Observe costs the server, beside a Poll and beside a Submit.

python3 bench/observe.py [ROUNDS]

It steps a server of `bench_libraries` through requests that this file makes, and tells nanoseconds a request, by the best and the median of the
rounds: an Observe of four objects that finds nothing, beside a Poll that finds nothing; and an Observe that brings one item, with its
Done, beside a Submit whose relay has one item, with its Done. What both sides have in common is stepped through alone and taken off.
"""
import os
import statistics
import struct
import subprocess
import sys
import tempfile

HERE = os.path.dirname(os.path.abspath(__file__))
sys.path.insert(0, os.path.join(HERE, "..", "clients", "python"))
import dimboetu  # noqa: E402

ROUNDS = int(sys.argv[1]) if len(sys.argv) > 1 else 15
TURNS = 20
SESSIONS = 16
ASKED = 900


def line(session, payload):
    return f"{session} {payload.hex()}\n"


def join(session):
    return line(session, dimboetu.request_bytes("join", session, 1, ()))


def observe(session, objects):
    return line(session, struct.pack(f">BB{len(objects)}HH", 7, len(objects), *objects, 0))


def poll(session):
    return line(session, dimboetu.request_bytes("poll"))


class Acts:
    """Increments of one object in turn, each reported at once by its author."""

    def __init__(self):
        self.pos, self.values, self.made = 0, {}, {}

    def submit(self, session, target):
        self.pos += 1
        self.made[session] = self.made.get(session, 0) + 1
        act = dimboetu.action(dimboetu.obj(target).attr(0).set(dimboetu.obj(target).attr(0) + 1))
        return line(session, dimboetu.request_bytes("submit", self.made[session], act))

    def done(self, session, target, changes=True):
        if changes:
            self.values[target] = self.values.get(target, 100 + target) + 1
        return line(session, dimboetu.request_bytes("done", ((self.pos, ((self.values[target], 0),)),)))


def joins():
    return "".join(map(join, range(2 * SESSIONS)))


def polls():
    return joins() + "".join(poll(session) * ASKED for session in range(SESSIONS))


def idle_observes():
    return joins() + "".join(observe(session, (1, 2, 3, 4)) * ASKED for session in range(SESSIONS))


def acts_with(more):
    """Acts of a session, and after each one what `more` gives of the session beside it, before the act is reported."""
    acts, text = Acts(), joins()
    for session in range(SESSIONS):
        for turn in range(ASKED // 2):
            target = turn % 700
            text += acts.submit(session, target) + more(acts, session + SESSIONS, target)
    return text


def reported(acts, session, target):
    return acts.done(session - SESSIONS, target)


def observed(acts, session, target):
    return observe(session, (target,)) + acts.done(session - SESSIONS, target) + acts.done(session, target, False)


WORKS = {"joins": joins, "polls": polls, "observes": idle_observes,
         "acts": lambda: acts_with(reported), "acts that are observed": lambda: acts_with(observed)}


def main():
    program = subprocess.run([os.path.join(HERE, "build.sh"), "bench_libraries"], stdout=subprocess.PIPE, check=True).stdout.decode().strip()
    times = {name: [] for name in WORKS}
    with tempfile.TemporaryDirectory() as room:
        for name, make in WORKS.items():
            with open(os.path.join(room, name), "w") as file:
                file.write(make())
        for _ in range(ROUNDS):
            for name in WORKS:
                words = [program, "step", os.path.join(room, name), str(TURNS)]
                said = subprocess.run(words, stdout=subprocess.PIPE, check=True).stdout.decode().split()
                times[name].append(int(said[-1]) / TURNS)
    count = SESSIONS * ASKED
    for way in (min, statistics.median):
        time = {name: way(each) for name, each in times.items()}
        idle = (time["polls"] - time["joins"]) / count, (time["observes"] - time["joins"]) / count
        acting = (time["acts"] - time["joins"]) / (count / 2), (time["acts that are observed"] - time["acts"]) / (count / 2)
        print(f"{way.__name__}: a Poll that finds nothing {idle[0]:.0f} ns, an Observe of four objects {idle[1]:.0f} ns: {idle[1] / idle[0]:.2f}")
        print(f"{way.__name__}: a Submit and its Done {acting[0]:.0f} ns, an Observe with one item and its Done {acting[1]:.0f} ns: {acting[1] / acting[0]:.2f}")


if __name__ == "__main__":
    main()

#!/usr/bin/env python3
"""A random scenario that keeps all rules of scenario files.

    python3 tests/outside/tests/random_scenario.py SEED > FILE

The same seed gives the same file. There are few objects, so that clients meet each other: 1 to 8
clients, 1 to 12 objects of 1 to 4 numbers, a bound of 0 to 8, at times a reach and origins; acts of
all forms of the language, void ones among them; polls, observes, syncs, shows, cuts, and a quit at the
end of some scripts. Most files have a schedule of random turns, which counts for `replay` alone. In
some files that schedule lets more actions be unfinished than an observe may show at once.
"""

import json
import os
import random
import sys

sys.path.insert(0, os.path.dirname(os.path.dirname(os.path.abspath(__file__))))

from rules.actions import GREATEST, LEAST
from rules.scenario import scenario_of

LITERALS = (0, 1, 2, 3, 5, 7, 10, 100, -1, -2, -7, GREATEST, LEAST, GREATEST // 2, 2 ** 32)


class Maker:
    """Makes one scenario from one source of chance."""

    def __init__(self, seed):
        self.chance = random.Random(seed)
        chance = self.chance
        self.attributes = chance.choice([1, 1, 2, 3, 4])
        self.objects = chance.choice([1, 2, 3, 3, 4, 5, 6, 8, 10, 12])
        self.bound = chance.choice([0, 1, 2, 3, 4, 6, 8, 8])
        self.reach = chance.choice([None, None, 0, 3, 10, 25])
        self.has_origins = self.reach is not None or chance.random() < 0.2
        self.is_wild = chance.random() < 0.4
        self.nodes = 0

    def spaced(self, words):
        """The words with one space between them, or at times with others."""
        if not self.is_wild:
            return " ".join(words)
        text = words[0]
        for word in words[1:]:
            text += self.chance.choice([" ", " ", "  ", "\n", "\t", "\r\n"]) + word
        return text

    def number(self):
        """A small number mostly, at times one near the ends of 64 bits."""
        if self.is_wild and self.chance.random() < 0.3:
            return self.chance.choice(LITERALS)
        return self.chance.randrange(-3, 10)

    def ref(self, targets):
        """An attribute of one of these objects."""
        return f"@{self.chance.choice(targets)}.{self.chance.randrange(self.attributes)}"

    def expression(self, reads, depth):
        """An expression of at most so many levels; `nodes` counts what is left of the body."""
        self.nodes -= 1
        if depth <= 1 or self.nodes < 4 or self.chance.random() < 0.4:
            return [self.ref(reads) if self.chance.random() < 0.6 else str(self.number())]
        operator = self.chance.choice(["+", "+", "-", "-", "*", "/", "%", "min", "max"])
        left = self.expression(reads, depth - 1)
        right = self.expression(reads, depth - 1)
        return ["("] + left + [operator] + right + [")"]

    def condition(self, reads, depth):
        """A condition of at most so many levels, which are at least two."""
        self.nodes -= 1
        form = self.chance.random()
        if depth <= 3 or self.nodes < 8 or form < 0.6:
            sign = self.chance.choice(["==", "<", "<="])
            left = self.expression(reads, depth - 1)
            right = self.expression(reads, depth - 1)
            return ["["] + left + [sign] + right + ["]"]
        if form < 0.8:
            return ["not"] + self.condition(reads, depth - 1)
        word = self.chance.choice(["and", "or"])
        left = self.condition(reads, depth - 1)
        right = self.condition(reads, depth - 1)
        return ["("] + left + [word] + right + [")"]

    def statement(self, reads, writes, depth):
        """A statement of at most so many levels."""
        self.nodes -= 1
        if depth >= 4 and self.nodes > 12 and self.chance.random() < 0.35:
            words = ["if"] + self.condition(reads, min(depth - 1, 4))
            words += self.block(reads, writes, depth - 1, 2)
            if self.chance.random() < 0.5:
                words += ["else"] + self.block(reads, writes, depth - 1, 2)
            return words
        return ["set", self.ref(writes)] + self.expression(reads, depth - 1) + [";"]

    def block(self, reads, writes, depth, most):
        """A block of some statements, which may be empty."""
        words = ["{"]
        for _ in range(self.chance.randrange(most + 1)):
            if writes and self.nodes > 8:
                words += self.statement(reads, writes, depth)
        return words + ["}"]

    def origin(self):
        """Nothing, or a point: near mostly, at times at the ends of the range."""
        if not self.has_origins or self.chance.random() < 0.2:
            return []
        if self.chance.random() < 0.03:
            return ["at", self.chance.choice(["-1000000", "1000000"]), "0"]
        return ["at", str(self.chance.randrange(-12, 13)), str(self.chance.randrange(-12, 13))]

    def common_action(self, reads, writes):
        """A statement as games have it: a step up, or something that moves between two objects."""
        target = self.chance.choice(writes)
        source = self.chance.choice(reads)
        attribute = self.chance.randrange(self.attributes)
        one = f"@{target}.{attribute}"
        other = f"@{source}.{attribute}"
        return self.chance.choice([
            f"set {one} ({one} + 1);",
            f"set {one} ({one} * 2);",
            f"set {one} ({one} + {other});",
            f"set {one} (({one} - {other}) max 0);",
            f"if [{other} < {one}] {{ set {one} ({one} - 5); }} else {{ set {one} {other}; }}",
            f"set {one} 7; set {one} ({one} / {other});",
        ])

    def act(self):
        """The text of an action that this world takes."""
        most = min(self.objects, 16)
        count = min(most, self.chance.choice([1, 1, 2, 2, 3, 4, 16]))
        reads = sorted(self.chance.sample(range(self.objects), count))
        writes = sorted(self.chance.sample(reads, self.chance.randrange(len(reads) + 1)))
        if self.chance.random() < 0.7 and not writes:
            writes = [self.chance.choice(reads)]
        self.nodes = 60
        words = ["reads"] + [str(one) for one in reads]
        words += ["writes"] + [str(one) for one in writes] + self.origin()
        if writes and self.chance.random() < 0.5:
            return self.spaced(words) + " { " + self.common_action(reads, writes) + " }"
        return self.spaced(words + self.block(reads, writes, 8, 4))

    def steps(self, cuts):
        """A script with at most so many cuts."""
        steps = []
        syncs = self.chance.choice([0, 2, 2, 4])
        weights = [10, self.chance.choice([0, 2, 2, 12]), syncs, 3, self.chance.choice([1, 1, 3]),
                   self.chance.choice([0, 2, 4, 12])]
        for _ in range(self.chance.choice([0, 1, 3, 6, 10, 16, 24, 40])):
            kind = self.chance.choices(["act", "poll", "sync", "show", "cut", "observe"], weights)[0]
            if kind == "act":
                steps.append({"act": self.act()})
            elif kind == "show":
                count = self.chance.randrange(1, min(16, self.objects + 2) + 1)
                steps.append({"show": [self.chance.randrange(self.objects) for _ in range(count)]})
            elif kind == "observe":
                count = self.chance.randrange(1, min(16, self.objects) + 1)
                steps.append({"observe": sorted(self.chance.sample(range(self.objects), count))})
            elif kind != "cut":
                steps.append(kind)
            elif cuts:
                cuts -= 1
                steps.append(kind)
        if self.chance.random() < 0.25:
            steps.append("quit")
        return steps

    def client(self):
        """A client's interest and script."""
        count = self.chance.randrange(self.objects + 1)
        interest = sorted(self.chance.sample(range(self.objects), count))
        return {"interest": interest, "steps": self.steps(self.chance.choice([0, 1, 2, 4]))}

    def schedule(self, clients, sessions):
        """Random turns: at times few, at times many of few clients."""
        turns = []
        for _ in range(self.chance.choice([0, 10, 60, 200, 600])):
            letter = self.chance.choice("ccsst")
            turns.append(letter + str(self.chance.randrange(sessions if letter == "s" else clients)))
        return turns

    def crowd(self):
        """Five writers and some observers. All actions are made and accepted before any is reported."""
        chance, writers = self.chance, range(5)
        clients, turns = [], []
        for one in writers:
            other = chance.choice(writers)
            reads = " ".join(str(target) for target in sorted({one, other}))
            text = f"reads {reads} writes {one} {{ set @{one}.0 ((@{one}.0 + @{other}.0) + 1); }}"
            clients.append({"interest": [], "steps": [{"act": text}] * 8})
        for _ in range(chance.choice([1, 1, 2, 3])):
            seen = sorted(chance.sample(writers, chance.choice([3, 5, 5])))
            clients.append({"interest": [], "steps": [{"observe": seen}] * 2 + ["sync", {"observe": seen}]})
        for turn in ("c", "s", "t"):
            turns += [f"{turn}{one}" for one in range(len(clients))]
        for turn in ("c", "s"):
            more = [f"{turn}{one}" for one in writers] * 8
            chance.shuffle(more)
            turns += more
        turns += [f"{turn}{one}" for one in range(5, len(clients)) for turn in "ccsstt"]
        return {"attrs": 1, "objects": [[self.number()] for _ in writers],
                "bound": chance.choice([8, 32, 32]), "clients": clients, "schedule": turns}

    def scenario(self):
        """The whole file."""
        chance = self.chance
        if chance.random() < 0.05:
            return self.crowd()
        value = {"attrs": self.attributes}
        value["objects"] = [[self.number() * chance.choice([1, 1, 10]) if not self.is_wild
                             else self.number() for _ in range(self.attributes)]
                            for _ in range(self.objects)]
        value["bound"] = self.bound
        if self.reach is not None:
            value["reach"] = self.reach
        value["clients"] = [self.client() for _ in range(chance.choice([1, 2, 2, 3, 4, 6, 8]))]
        if chance.random() < 0.8:
            sessions = sum(1 + one["steps"].count("cut") for one in value["clients"])
            value["schedule"] = self.schedule(len(value["clients"]), sessions)
        return value


def scenario_text(seed):
    """The file of this seed."""
    text = json.dumps(Maker(seed).scenario()) + "\n"
    scenario_of(text.encode("utf-8"))
    return text


def main(words):
    """The status of these words."""
    if len(words) != 1 or not words[0].isdigit():
        print("words: SEED", file=sys.stderr)
        return 2
    sys.stdout.write(scenario_text(int(words[0])))
    return 0


if __name__ == "__main__":
    sys.exit(main(sys.argv[1:]))

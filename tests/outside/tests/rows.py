"""Requests and the replies due to them, also such as no honest client sends.

`ROWS` has worked examples: a name, the opening values, the bound, the reach, and lines as a journal
prints them, with INC(o) for the action that adds 1 to object o. Sessions that no line joins are
joined before. `random_requests` gives requests of careless clients, for comparing two tables of
replies with each other.
"""

import random
import re

from rules.actions import read_action
from rules.report import Request, request_of

NAMES = {
    "BOTH": "reads 0 1 writes 1 { set @1.0 (@1.0 + @0.0); }",
    "LATE": "reads 1 3 writes 3 { set @3.0 (@3.0 + @1.0); }",
    "TAKE": "reads 0 1 writes 0 { set @0.0 (@0.0 + @1.0); }",
    "TENS": "reads 1 writes 1 { set @1.0 (@1.0 + 10); }",
}

ROWS = (
    ("only influences are relayed", (10, 20, 30, 40), 8, None, """
s0 submit 1 BOTH -> relay 1 at 0 [0=(10) 1=(20)] [1:c0.1]
s0 submit 2 INC(2) -> relay 2 at 0 [2=(30)] [2:c0.2]
s0 submit 3 LATE -> relay 3 at 0 [3=(40)] [3:c0.3]
s1 submit 1 INC(3) -> relay 1 at 0 [0=(10) 1=(20) 3=(40)] [1:c0.1 3:c0.3 4:c1.1]
s1 done [1:(30) 3:(70) 4:(71)] -> noted 1
"""),
    ("a late older action", (100, 5), 8, None, """
s0 submit 1 INC(1) -> relay 1 at 0 [1=(5)] [1:c0.1]
s0 submit 2 TAKE -> relay 2 at 0 [0=(100)] [2:c0.2]
s1 submit 1 TENS -> relay 1 at 0 [1=(5)] [1:c0.1 3:c1.1]
s1 submit 2 INC(0) -> relay 2 at 0 [0=(100)] [2:c0.2 4:c1.2]
"""),
    ("results out of order", (0, 0), 8, None, """
s0 submit 1 INC(0) -> relay 1 at 0 [0=(0)] [1:c0.1]
s1 submit 1 INC(1) -> relay 1 at 0 [1=(0)] [2:c1.1]
s1 done [2:(1)] -> noted 0
s0 done [1:(1)] -> noted 2
s0 done [1:(9)] -> noted 2
"""),
    ("a bound of 1", (0,), 1, None, """
s0 submit 1 INC(0) -> relay 1 at 0 [0=(0)] [1:c0.1]
s0 submit 2 INC(0) -> relay 2 at 0 [] [2:c0.2]
s0 submit 3 INC(0) -> dropped 3 chain 2 far 0
s0 done [1:(1)] -> noted 1
s0 done [2:(2)] -> noted 2
s0 submit 4 INC(0) -> relay 4 at 2 [] [3:c0.4]
s0 submit 3 INC(0) -> dropped 3 chain 2 far 0
"""),
    ("a bound of 0", (0,), 0, None, """
s0 submit 1 INC(0) -> relay 1 at 0 [0=(0)] [1:c0.1]
s0 submit 2 INC(0) -> dropped 2 chain 1 far 0
"""),
    ("a relay in flight is lost", (0,), 8, None, """
s0 submit 1 INC(0) -> relay 1 at 0 [0=(0)] [1:c0.1]
s1 join c0 2 [] -> welcome 0 []
s0 poll -> refused 4 0
s1 submit 1 INC(0) -> relay 1 at 0 [0=(0)] [1:c0.1]
s2 join c0 2 [] -> refused 11 2
"""),
    ("a retry after the commit", (0,), 8, None, """
s0 submit 1 INC(0) -> relay 1 at 0 [0=(0)] [1:c0.1]
s1 submit 1 INC(0) -> relay 1 at 0 [0=(0)] [1:c0.1 2:c1.1]
s1 done [1:(1) 2:(2)] -> noted 2
s2 join c0 2 [0] -> welcome 2 [0=(2)]
s2 submit 1 INC(0) -> settled 1 at 1
"""),
    ("an abandoned action", (0,), 8, None, """
s0 submit 1 INC(0) -> relay 1 at 0 [0=(0)] [1:c0.1]
s1 poll -> idle
s0 end -> bye
s1 poll -> relay 0 at 0 [0=(0)] [1:c0.1]
s1 poll -> idle
s1 done [1:(1)] -> noted 1
"""),
    ("refusals", (0,), 8, None, """
s0 poll -> refused 2 0
s0 join c32 1 [] -> refused 10 0
s0 join c0 1 [1] -> refused 8 0
s0 join c0 0 [0] -> refused 11 0
s0 join c0 1 [0] -> welcome 0 [0=(0)]
s0 join c0 2 [0] -> refused 3 0
s0 submit 9 INC(0) -> refused 5 1
s0 submit 1 INC(1) -> refused 6 4
s0 done [1:(1)] -> refused 7 0
s0 done [] -> refused 7 0
s0 bad -> refused 1 0
s0 poll -> refused 4 0
"""),
    ("a reach", (0,), 8, 10, """
s0 submit 1 INC(0) at 0 0 -> relay 1 at 0 [0=(0)] [1:c0.1]
s0 submit 2 INC(0) at 11 3 -> dropped 2 chain 1 far 11
s0 submit 3 INC(0) at 10 -10 -> relay 3 at 0 [] [2:c0.3]
s0 submit 4 INC(0) at 0 0 -> relay 4 at 0 [] [3:c0.4]
s0 submit 5 INC(0) at -1 0 -> dropped 5 chain 3 far 11
"""),
    ("the same submit twice", (0,), 8, None, """
s0 submit 1 INC(0) -> relay 1 at 0 [0=(0)] [1:c0.1]
s0 submit 1 INC(0) -> relay 1 at 0 [] []
s0 done [1:(1) 1:(1)] -> refused 7 0
s0 done [1:(1)(1)] -> refused 7 0
s0 done [1:(1,1)] -> refused 7 0
s0 done [1:] -> refused 7 0
s0 done [2:(1)] -> refused 7 0
s0 done [0:(1)] -> refused 7 0
s1 done [1:(1)] -> refused 7 0
s0 done [1:(1)] -> noted 1
s1 done [1:] -> noted 1
s1 leave -> bye
s1 done [1:] -> refused 4 0
s1 end -> bye
"""),
    ("what is seen", (10, 20), 4, None, """
s0 submit 1 INC(0) -> relay 1 at 0 [0=(10)] [1:c0.1]
s1 observe 0 [0 1] -> seen 1 at 0 [0=(10) 1=(20)] [1:c0.1]
s1 done [1:(11)] -> noted 1
s0 done [1:(11)] -> noted 1
s1 observe 65535 [0 1] -> seen 1 at 1 [] []
s2 observe 0 [1] -> seen 1 at 1 [1=(20)] []
s2 observe 0 [0 1] -> seen 1 at 1 [0=(11)] []
s0 submit 2 INC(1) -> relay 2 at 1 [1=(20)] [2:c0.2]
s1 observe 0 [0] -> seen 2 at 1 [] []
s1 observe 0 [0 1] -> seen 2 at 1 [] [2:c0.2]
s1 observe 0 [1] -> seen 2 at 1 [] []
s2 done [2:(21)] -> refused 7 0
s2 submit 1 INC(1) -> relay 1 at 1 [] [2:c0.2 3:c2.1]
"""),
    ("an observe that is not answered by a cut", (0, 0), 0, None, """
s0 poll -> refused 2 0
s0 observe 0 [0] -> refused 2 0
s1 observe 0 [] -> refused 8 0
s1 observe 0 [0 0] -> refused 8 0
s1 observe 0 [1 0] -> refused 8 0
s1 observe 0 [0 2] -> refused 8 0
s1 observe 0 [0 1 2 3 4 5 6 7 8 9 10 11 12 13 14 15 16] -> refused 8 0
s1 observe 0 [0 1] -> seen 0 at 0 [0=(0) 1=(0)] []
s1 leave -> bye
s1 observe 0 [0] -> refused 4 0
"""),
    ("an observe before a repeated submit", (0,), 8, None, """
s0 submit 1 INC(0) -> relay 1 at 0 [0=(0)] [1:c0.1]
s1 join c0 2 [] -> welcome 0 []
s1 observe 0 [0] -> seen 1 at 0 [0=(0)] [1:c0.1]
s1 submit 1 INC(0) -> relay 1 at 0 [] []
"""),
    ("more than a Done may report", (0, 0, 0, 0), 8, None, "\n".join(
        [f"s0 submit {place} INC({(place - 1) // 9}) -> relay {place} at 0 "
         f"{f'[{place // 9}=(0)]' if place % 9 == 1 else '[]'} [{place}:c0.{place}]" for place in range(1, 37)]
        + ["s1 observe 0 [0 1 2 3] -> seen 33 at 0 [0=(0) 1=(0) 2=(0) 3=(0)] ["
           + " ".join(f"{place}:c0.{place}" for place in range(1, 34)) + "]",
           "s2 observe 0 [0 3] -> seen 36 at 0 [0=(0) 3=(0)] ["
           + " ".join(f"{place}:c0.{place}" for place in [*range(1, 10), *range(28, 37)]) + "]",
           "s1 observe 0 [0 1 2 3] -> seen 36 at 0 [] [34:c0.34 35:c0.35 36:c0.36]"])),
    ("nine outcomes", (0,), 0, None, "\n".join(
        ["s0 submit 1 INC(0) -> relay 1 at 0 [0=(0)] [1:c0.1]"]
        + [f"s0 submit {number} INC(0) -> dropped {number} chain 1 far 0" for number in range(2, 10)]
        + ["s0 submit 1 INC(0) -> refused 5 10", "s0 submit 2 INC(0) -> dropped 2 chain 1 far 0",
           "s0 submit 0 INC(0) -> refused 5 10"])),
    ("a session is spent", (0,), 8, None, "\n".join(
        ["s0 join c0 1 [] -> welcome 0 []"] + ["s0 poll -> idle"] * 1023
        + ["s0 bad -> refused 9 0", "s0 poll -> refused 4 0", "s0 end -> bye"])),
)


def request_of_line(text):
    """The request of a row's line."""
    found = re.fullmatch(r"submit ([0-9]+) (?:INC\(([0-9]+)\)|([A-Z]+))(?: at (-?[0-9]+) (-?[0-9]+))?",
                         text)
    if found is None:
        return request_of(text, 0)
    target = found[2]
    action = NAMES[found[3]] if found[3] else \
        f"reads {target} writes {target} {{ set @{target}.0 (@{target}.0 + 1); }}"
    action = read_action(action)
    if found[4]:
        action = action._replace(origin=(int(found[4]), int(found[5])))
    return Request("submit", number=int(found[1]), action=action)


def lines_of_row(text):
    """Session, request and the text of the reply due, line by line, with the joins before."""
    lines = []
    for line in text.strip().split("\n"):
        session, rest = line[1:].split(" ", 1)
        request, reply = rest.split(" -> ")
        lines.append((int(session), request_of_line(request), reply))
    first = {}
    for session, request, _ in lines:
        first.setdefault(session, request.kind)
    joins = [(session, Request("join", client=session, life=1), "welcome 0 []")
             for session, kind in sorted(first.items()) if kind != "join" and session != 0]
    if first.get(0) not in ("join", "poll"):
        joins.insert(0, (0, Request("join", client=0, life=1), "welcome 0 []"))
    return joins + lines


def random_requests(seed, sessions, objects, attributes):
    """Sessions and requests of careless clients: numbers, positions, lives and values near those
    that may stand, and often not those."""
    chance = random.Random(seed)
    numbers = [1] * 4
    ended = set()
    for _ in range(120):
        session = chance.randrange(sessions)
        kind = chance.choices(["join", "submit", "done", "poll", "observe", "leave", "bad", "end"],
                              [30, 60, 50, 20, 30, 1, 1, 2])[0]
        if session in ended:
            continue
        if kind == "join":
            interest = [chance.randrange(objects + 1) for _ in range(chance.randrange(3))]
            if chance.random() < 0.8:
                interest = sorted(set(interest) - {objects})
            yield session, Request("join", client=chance.choice([0, 0, 1, 1, 2, 3, 32]),
                                   life=chance.randrange(6), interest=tuple(interest))
        elif kind == "submit":
            client = chance.randrange(4)
            number = max(0, numbers[client] + chance.choice([0, 0, 0, -1, -2, -9, 1]))
            numbers[client] = max(numbers[client], number + chance.choice([0, 1]))
            yield session, Request("submit", number=number,
                                   action=random_action(chance, objects, attributes))
        elif kind == "done":
            count = chance.choice([0, 1, 1, 2, 3, 6])
            places = [chance.randrange(0, 14) for _ in range(count)]
            if chance.random() < 0.9:
                places = sorted(set(places) - {0})
            yield session, Request("done", results=tuple(
                (place, tuple((chance.randrange(99),) * attributes
                              for _ in range(chance.choice([0, 1, 1, 1, 2])))) for place in places))
        elif kind == "observe":
            count = chance.choice([0, 1, 1, 2, 3, 17])
            seen = [chance.randrange(objects + (chance.random() < 0.05)) for _ in range(count)]
            if chance.random() < 0.9:
                seen = sorted(set(seen))
            yield session, Request("observe", wait=chance.choice([0, 1, 65535]), objects=tuple(seen))
        else:
            if kind == "end":
                ended.add(session)
            yield session, Request(kind)


def random_action(chance, objects, attributes):
    """An action that steps up what it writes; at times one that the world refuses."""
    reads = sorted(chance.sample(range(objects + (chance.random() < 0.05)),
                                 chance.randrange(1, objects + 1)))
    writes = sorted(chance.sample(reads, chance.choice([0, 1, 1, 1])))
    words = ["reads"] + [str(one) for one in reads] + ["writes"] + [str(one) for one in writes]
    if chance.random() < 0.3:
        words += ["at", str(chance.randrange(-9, 9)), str(chance.randrange(-9, 9))]
    target = chance.choice(writes or reads)
    attribute = chance.randrange(attributes + (chance.random() < 0.05))
    if writes or chance.random() < 0.1:
        words += ["{", f"set @{target}.{attribute} 1;", "}"]
    else:
        words += ["{", "}"]
    return read_action(" ".join(words))

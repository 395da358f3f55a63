"""What the JavaScript client is tried on: the vectors, texts and tables of the Python client's tests, as JSON.

    python3 tests/outside/tests/js_cases.py > FILE

Everything is read from where test_client.py has it: the blocks of docs/wire-vectors.txt and docs/ACTIONS.md, the tables of
crates/test_vectors and crates/test_texts; what test_client.py itself types is taken while its tests run, by clients
and actions that note what is done to them. So a case stands in one place alone. Numbers of 64 bits are texts here.
"""

import contextlib
import io
import json
import os
import random
import re
import sys

sys.path.insert(0, os.path.dirname(os.path.dirname(os.path.abspath(__file__))))

from rules import report, simulate, wire
from rules.actions import TextFault, Void, action_text, carry_out, evaluate, fault_of_action, read_action
from rules.scenario import scenario_of
from tests import test_client
from tests.counting import ROOT
from tests.random_scenario import Maker, scenario_text
from tests.test_client import dimboetu

ACTIONS = 1000


def texts(value):
    """A value with its numbers as texts, or None."""
    return None if value is None else [str(number) for number in value]


def node(part):
    """A node of the Python client as the JavaScript client has it; the number of a literal is a text."""
    if isinstance(part, tuple) and part[:1] == ("number",):
        return ["number", str(part[1])]
    return [node(one) for one in part] if isinstance(part, tuple) else part


def rows_of(path, pattern):
    """What a pattern finds in a file of the repository."""
    with open(os.path.join(ROOT, path), encoding="utf-8") as file:
        return re.findall(pattern, file.read(), re.S | re.M)


# Bytes.

def request_case(request):
    """A request of report.py, as the JavaScript client is asked for it."""
    fields = {"kind": request.kind, "client": request.client, "life": request.life, "number": request.number,
              "interest": request.interest, "objects": request.objects, "wait": request.wait}
    if request.kind == "submit":
        fields["text"] = action_text(request.action)
    if request.kind == "done":
        fields["results"] = [[position, [texts(value) for value in values]] for position, values in request.results]
    return fields


def reply_case(reply, acts):
    """A reply of report.py, with the texts of its items' actions."""
    return {"kind": reply.kind, "number": reply.number, "commit": reply.commit, "last": reply.last,
            "head": [[target, texts(value)] for target, value in reply.head or ()],
            "items": [[*item, action_text(act)] for item, act in zip(reply.items or (), acts)],
            "more": {"chain": reply.chain, "far": reply.far, "position": reply.position, "object": reply.target,
                     "code": reply.code, "detail": reply.detail}}


def messages():
    """The vectors of the wire."""
    for asks, text, acts, data in test_client.message_vectors():
        said = {"request": request_case(report.request_of(text, 0))} if asks else {
            "reply": reply_case(report.reply_of(text, 0), acts)}
        yield {"text": text, "payload": data[4:].hex(), "frame": data.hex(), **said}


def refused_payloads():
    """Replies, and what the tests make of them, with the fault or None; a request's action stands in a Relay."""
    found = []
    seen = test_client.fault_of_payload

    def noted(asks, payload):
        fault = seen(asks, payload)
        found.append((asks, payload, fault))
        return fault

    with quiet_tests(fault_of_payload=noted):
        test_client.test_refused_payloads(test_client.Compared())
    start = b"\x89" + bytes(8) + b"\x00\x00\x01" + bytes(3) + b"\x01" + bytes(5) + b"\x01"
    for asks, payload, fault in found:
        if asks and (payload[:1] != b"\x06" or (fault and fault[0] < 5)):
            continue
        if asks:
            payload, fault = start + payload[5:], fault and (fault[0] + len(start) - 5, fault[1])
        yield {"payload": payload.hex(), "fault": fault and [fault[0], test_client.CAUSE_NUMBERS[fault[1]]]}


def streams():
    """The streams of wire-vectors.txt."""
    for line in filter(None, test_client.block("wire-streams")):
        pieces, wanted = line.split(" -> ")
        yield {"pieces": ["".join(piece.split()) for piece in pieces.split("|")], "found": wanted}


# Texts.

def blocks(name):
    """The lines of the fenced blocks of this name in ACTIONS.md, block by block."""
    return [found.split("\n")[:-1] for found in rows_of("docs/ACTIONS.md", rf"^```{name}\n(.*?)^```")]


def plain(text):
    """A text of a Rattle source as it is."""
    return re.sub(r"\\(.)", lambda found: {"t": "\t", "r": "\r", "n": "\n"}.get(found[1], found[1]), text)


def text_fault(text):
    """The place and the cause for which a text is no action, or None."""
    try:
        read_action(text)
    except TextFault as fault:
        return [fault.place, fault.cause]
    return None


def refused_texts():
    """Texts that are no actions, each with its place and its cause."""
    causes = ["Character", "Number", "Expected", "NotRead", "Order", "TooMany", "TooLarge", "TooDeep"]
    listed = rows_of("crates/test_texts/src/text.rt", r'const REFUSED: &str = "\\\n(.*?)";')[0]
    for line in listed.split("\n"):
        cause, place, text = line.split(" ", 2)
        yield {"text": plain(text), "fault": [int(place), causes.index(cause) + 1]}
    for pairs in blocks("refused"):
        for text, line in zip(pairs[::2], pairs[1::2]):
            kind, *numbers = line.split(": ")[-1].split()
            yield {"text": text, "fault": [int(one) for one in numbers] if kind == "text" else None}
    for slip, cause, piece in rows_of("docs/ACTIONS.md", r"^\| `([^|]*)` \| ([0-9]) at `([^|]*)` \| `[^|`]*`[^|]*\|$"):
        text = slip if slip.startswith("reads ") else f"reads 0 1 writes 0 {{ {slip} }}"
        fault = text_fault(text)
        assert fault[1] == int(cause) and text[fault[0]:].startswith(piece), text
        yield {"text": text, "fault": fault}
    chance = random.Random(47)
    for seed in range(1500):
        text = Maker(seed).act()
        for _ in range(chance.choice([1, 1, 2, 3])):
            place, length = chance.randrange(len(text) + 1), chance.choice([0, 0, 1, 2])
            text = text[:place] + chance.choice(["", "", "0", "-", "9" * 19, "(", ")", "}", ";", "@0.0", "é", " if ", " not "]) \
                + text[place + length:]
        yield {"text": text, "fault": text_fault(text)}


def canonical_texts():
    """Texts, each with its canonical text."""
    listed = rows_of("crates/test_texts/src/text.rt", r'const ACCEPTED: &str = "\\\n(.*?)";')[0]
    pairs = [[plain(text) for text in line.split("|")] for line in listed.split("\n")]
    for block in blocks("canonical"):
        pairs += zip(block[::2], block[1::2])
    for block in blocks("action"):
        pairs.append(("\n".join(block), action_text(read_action("\n".join(block)))))
    return [list(pair) for pair in pairs]


def given():
    """The examples of ACTIONS.md: an action, the values before it, and those after it."""
    for block in blocks("gives"):
        for line in block[1:]:
            before, after = ([texts(map(int, found.split(","))) for found in re.findall(r"=\(([^)]*)\)", side)]
                             for side in line.split("->"))
            act = read_action(block[0])
            yield {"text": block[0], "before": before, "after": after,
                   "written": [act.reads.index(target) for target in act.writes]}


def actions():
    """Random actions: their bytes, the first cause for which a world refuses them, and what they give."""
    for seed in range(ACTIONS):
        maker, chance = Maker(seed), random.Random(seed)
        act = read_action(text := maker.act())
        shape = (chance.choice([maker.objects, 2]), chance.choice([maker.attributes, 1]))
        ends = [0, test_client.GREATEST, test_client.LEAST]
        values = {target: tuple(maker.number() if chance.random() < 0.8 else chance.choice(ends) for _ in range(maker.attributes))
                  for target in act.reads}
        yield {"text": text, "canonical": action_text(act), "bytes": wire.action_bytes(act).hex(), "shape": shape,
               "cause": fault_of_action(act, *shape), "values": [texts(value) for value in values.values()],
               "result": [texts(value) for value in evaluate(act, values)]}


def is_void(text, values):
    """Whether an action is void on these values of its reads."""
    act = read_action(text)
    try:
        carry_out(act.body, {target: [int(number) for number in value] for target, value in zip(act.reads, values)})
    except Void:
        return True
    return False


# What the tests of the Python client do to clients and actions.

@contextlib.contextmanager
def quiet_tests(**others):
    """Others in the places of what test_client.py has, and nothing printed."""
    kept = {name: getattr(test_client, name) for name in others}
    for name, other in others.items():
        setattr(test_client, name, other)
    try:
        with contextlib.redirect_stdout(io.StringIO()):
            yield
    finally:
        for name, other in kept.items():
            setattr(test_client, name, other)


def noted_actions():
    """What is checked and evaluated in the test of the builder."""
    found = []

    class Noted(dimboetu.Action):
        """An action that notes its checks and its results."""

        def case(self, **more):
            """The action, with more."""
            found.append({"reads": self.reads, "mask": self.mask, "origin": self.origin, "body": node(self.body), **more})

        def fault(self, objects, attributes):
            cause = super().fault(objects, attributes)
            self.case(shape=[objects, attributes], cause=cause)
            return cause

        def result(self, values):
            given_back = super().result(values)
            self.case(values=[texts(value) for value in values], result=[texts(value) for value in given_back])
            return given_back

    with quiet_tests(Action=Noted):
        test_client.test_builder(test_client.Compared())
    return found


class Notes:
    """For a client of the tests: each step that it is told to do, and what it says and keeps then."""

    traces = []

    def begin_notes(self):
        """A new trace."""
        self.steps, self.depth, self.told_changes, self.said_bytes = [], 0, [], []
        Notes.traces.append({"shape": self.shape, "number": self.number, "interest": list(self.seen), "steps": self.steps})

    def step(self, call, **words):
        """Does a step, and notes it."""
        if self.depth:
            return call()
        self.depth, fault = 1, None
        try:
            return call()
        except (dimboetu.Fault, OSError) as stopped:
            fault = getattr(stopped, "text", None) or str(stopped)
            raise
        finally:
            self.depth = 0
            if fault != "busy":
                self.steps.append({**words, "fault": fault, **self.state()})
            self.told_changes, self.said_bytes = [], []

    def state(self):
        """What the client said in this step, what it told, and what it keeps now."""
        return {"sent": self.said_bytes, "changes": self.told_changes, "life": self.life, "made": self.made, "told": self.told,
                "asked": self.asked, "waiting": [request[0] for request in self.outstanding],
                "views": [texts(self.view(target)) for target in range(self.shape[0])],
                "pending": [[number, kept and [texts(value) for value in kept]] for number, _, kept in self.pending],
                "held": [[target, [[place, texts(value)] for place, value in sorted(held.items())]]
                         for target, held in sorted(self.versions.items())]}

    def join(self, link):
        return self.step(lambda: super(Notes, self).join(link), do="join")

    def make(self, act):
        return self.step(lambda: super(Notes, self).make(act), do="make", act={
            "reads": act.reads, "mask": act.mask, "origin": act.origin, "body": node(act.body)})

    def poll(self):
        return self.step(super().poll, do="poll")

    def observe(self, objects, wait=0):
        return self.step(lambda: super(Notes, self).observe(objects, wait), do="observe", objects=[*objects], wait=wait)

    def ask(self, *request):
        if not self.depth:
            return self.step(lambda: self.ask(*request), do=request[0])
        super().ask(*request)
        return self.said_bytes.append(dimboetu.request_bytes(*request).hex())

    def give_up(self):
        return self.step(super().give_up, do="give up")

    def say(self, payload, more=b""):
        text = None if payload is None else payload.hex()
        return self.step(lambda: super(Notes, self).say(payload, more), do="say", payload=text)

    def accept(self, reply):
        return self.step(lambda: super(Notes, self).accept(reply), do="say", payload=getattr(reply, "payload", None))

    def tell(self):
        before = dict(self.seen)
        super().tell()
        self.told_changes += [[target, texts(old), texts(self.seen[target])] for target, old in before.items()
                              if old != self.seen[target]]


class NotedLied(Notes, test_client.Lied):
    """A client whose server is a test, with notes."""

    def begin(self):
        if not hasattr(self, "steps"):
            self.begin_notes()
        super().begin()


class NotedClient(Notes, dimboetu.Client):
    """A client with notes."""

    def __init__(self, *words):
        super().__init__(*words)
        self.begin_notes()


class NotedBeside(test_client.Beside):
    """A player of the simulation beside a client with notes, which knows the bytes of its replies."""

    def take(self, number, reply, acts):
        payload = wire.reply_bytes(reply, acts.get)

        class Payload(dimboetu.Payload):
            """A payload whose reply has its bytes."""

            def reply(self):
                read = super().reply()
                read.payload = payload.hex()
                return read

        with quiet_tests(Payload=Payload):
            return super().take(number, reply, acts)


def traces():
    """What clients were told to do in the tests of the Python client, step by step."""
    count = test_client.Compared()
    Notes.traces = []
    with quiet_tests(Lied=NotedLied, Client=NotedClient):
        test_client.test_lies(count)
        test_client.test_late_items(count)
        test_client.test_observe(count)
        for seed in range(1, 13):
            plan = scenario_of(scenario_text(seed).encode("ascii"))
            simulate.play(plan, seed, player=NotedBeside)
    assert count.failed == 0
    return [trace for trace in Notes.traces if trace["steps"]]


def cases():
    """All cases."""
    return {"messages": list(messages()), "refused payloads": list(refused_payloads()), "streams": list(streams()),
            "refused texts": list(refused_texts()), "canonical texts": canonical_texts(), "given": list(given()),
            "actions": list(actions()), "noted actions": noted_actions(), "traces": traces(), "refusals": [
                [int(code), name] for code, name in rows_of("docs/ERRORS.md", r"^\| ([0-9]+) \| ([a-z ]+) \|[^|]*\|[^|]*\|$")
                if name != "none"]}


if __name__ == "__main__":
    json.dump(cases(), sys.stdout)

#!/usr/bin/env python3
"""Tests of the program as a process: each status with its line on standard error and nothing on standard output.

    python3 tests/outside/tests/test_main.py [PROGRAM]

PROGRAM is the built program; without it the repository's own is taken, and where that is not built yet nothing is
tested. Every expected line is typed from docs/ERRORS.md, and what `witness` prints is compared with what a server in
Python gives (witness.py). `serve` and `join` have more in test_serve.py. Closes with `N passed, M failed`.
"""

import json
import os
import resource
import shutil
import signal
import subprocess
import sys
import tempfile

sys.path.insert(0, os.path.dirname(os.path.dirname(os.path.abspath(__file__))))

from doubles.programs import free_port
from rules.scenario import read_scenario
from rules.witness import text_of as witness_text, witnessed
from tests.counting import ROOT, Room, program_in

PLAY = b"words: play FILE [--brief | --watch] | replay FILE | load N\n"
SERVE, JOIN, LOOKS = b"words: serve FILE PORT\n", b"words: join FILE K PORT\n", b"words: looks FILE\n"
WITNESS = b"words: witness FILE [K]\n"
CHECK, WHY = b"words: check SCENARIO REPORT\n", b"words: why SCENARIO REPORT OBJECT POSITION\n"
WORLD = b"words: world SCENARIO REPORT\n"
NO_TEXT = b"\xff\xfe"
OTHER = {"user": 65534, "group": 65534}
FIRST = os.path.join(ROOT, "examples", "first.json")
SEEN = os.path.join(ROOT, "examples", "looks.json")
TRADE = os.path.join(ROOT, "examples", "trade.json")
REPORT = os.path.join(ROOT, "examples", "first.out")
LONGEST_REPORT = 67_108_864
RUNS = (("play", FIRST), ("play", FIRST, "--brief"), ("play", FIRST, "--watch"), ("replay", FIRST), ("load", "1"), ("looks", SEEN), ("witness", TRADE, "0"),
        ("check", FIRST, REPORT), ("why", FIRST, REPORT, "0", "1"), ("world", FIRST, REPORT))


class Test(Room):
    """How the program ends."""

    def __init__(self, program, room):
        super().__init__(program, room)
        self.changes_users = os.geteuid() == 0 and self.runs_as_others()

    def runs_as_others(self):
        """Whether root may start the program as another user here, who can reach it."""
        try:
            return subprocess.run([self.program, "--version"], check=False, stdout=subprocess.DEVNULL, timeout=60, **OTHER).returncode == 0
        except (OSError, subprocess.SubprocessError):
            print("the program can't be started as another user here: what needs one is not tested")
            return False

    def ends(self, words, wanted, name, **kinds):
        """Runs the program with these words; status and outputs are just those wanted. An output that is elsewhere is None."""
        options = {"stdin": subprocess.DEVNULL, "stdout": subprocess.PIPE, "stderr": subprocess.PIPE, "timeout": 60, **kinds}
        try:
            run = subprocess.run([self.program, *words], check=False, **options)
            given = (run.returncode, run.stdout, run.stderr)
        except subprocess.TimeoutExpired:
            given = "no end"
        self.same(given, wanted, f"{name}: {words}")


def test_words(test):
    """Words that the program does not know, and a word that is no text in each place."""
    first = FIRST
    for words in ((), ("",), ("plays", first), ("play",), ("play", first, "--Brief"), ("play", first, "--brief", "--watch"),
                  ("play", "--brief", first), ("replay",), ("replay", first, "--brief"), ("replay", first, first), ("load",),
                  ("load", "0"), ("load", "193"), ("load", "01"), ("load", "+1"), ("load", "1", "1"), ("--version", "--help"), ("--Version",), ("checks", first, first),
                  (NO_TEXT,), (NO_TEXT, first), ("replay", NO_TEXT), ("play", NO_TEXT), ("play", first, NO_TEXT), ("load", NO_TEXT)):
        test.ends(words, (2, b"", PLAY), "words")
    for words, line in ((("serve",), SERVE), (("serve", first, "0"), SERVE), (("join", first, "x", "1"), JOIN), (("join",), JOIN),
                        (("looks",), LOOKS), (("looks", first, "--brief"), LOOKS), (("looks", first, first), LOOKS),
                        (("witness",), WITNESS), (("witness", first, first), WITNESS), (("witness", first, "00"), WITNESS),
                        (("witness", first, "-1"), WITNESS), (("witness", first, "65536"), WITNESS), (("witness", first, "0", "0"), WITNESS),
                        (("witness", "missing", "--brief"), WITNESS),
                        (("check",), CHECK), (("check", first), CHECK), (("check", first, REPORT, "0"), CHECK), (("why",), WHY),
                        (("world",), WORLD), (("world", first), WORLD), (("world", first, REPORT, "0"), WORLD),
                        (("why", first, REPORT, "0"), WHY), (("why", first, REPORT, "0", "01"), WHY), (("why", first, REPORT, "65536", "1"), WHY)):
        test.ends(words, (2, b"", line), "words")
    test.ends(("--version",), (0, b"dimboetu 0.9.0\n", b""), "notices")
    test.ends(("looks", SEEN), (0, b"look c0 2 at 2 [0=(11) 1=(20)]\n", b""), "looks")


def test_files(test):
    """Files that are not there, can't be read or are no scenario."""
    port = str(free_port())
    missing, locked = os.path.join(test.room, "missing"), test.file("locked", b"{}")
    os.chmod(locked, 0)
    faulty = test.file("faulty", b"[]")
    unfinished = test.file("unfinished", b'{"attrs":1,')
    act = test.file("act", json.dumps({"attrs": 1, "objects": [[0]], "bound": 1, "clients": [
        {"interest": [], "steps": [{"act": "reads 0 writes 0 {"}]}]}).encode())
    # A process without a reader's right: root may read any file.
    kinds = OTHER if test.changes_users else {}
    for start in (("play",), ("replay",), ("witness",), ("serve",), ("join",)):
        behind = {"serve": (port,), "join": ("0", port)}.get(start[0], ())
        test.ends((*start, missing, *behind), (4, b"", f"file: {missing}\n".encode()), "no such file")
        test.ends((*start, test.room, *behind), (4, b"", f"file: {test.room}\n".encode()), "a folder")
        test.ends((*start, "", *behind), (4, b"", b"file: \n"), "a name without letters")
        if test.changes_users or os.geteuid() != 0:
            test.ends((*start, locked, *behind), (4, b"", f"file: {locked}\n".encode()), "an unreadable file", **kinds)
        test.ends((*start, faulty, *behind), (3, b"", b"scenario: : kind\n"), "a faulty file")
        test.ends((*start, "/dev/null", *behind), (3, b"", b"scenario: : json\n"), "an empty file")
        test.ends((*start, unfinished, *behind), (3, b"", b"scenario: : json\n"), "an unfinished file")
        test.ends((*start, act, *behind), (3, b"", b"scenario: /clients/0/steps/0/act: text 18 3\n"), "a faulty action")
        test.ends((*start, "/dev/zero", *behind), (3, b"", b"scenario: : size\n"), "a file without end")
    for option in ("--brief", "--watch"):
        test.ends(("play", missing, option), (4, b"", f"file: {missing}\n".encode()), "no such file")
    # A client that there is not is told last.
    test.ends(("witness", missing, "65535"), (4, b"", f"file: {missing}\n".encode()), "no such file, and no such client")
    test.ends(("witness", faulty, "65535"), (3, b"", b"scenario: : kind\n"), "a faulty file, and no such client")
    for word, behind in (("check", ()), ("world", ()), ("why", ("0", "1"))):
        for name in (missing, test.room, ""):
            test.ends((word, name, REPORT, *behind), (4, b"", f"file: {name}\n".encode()), "a scenario that can't be read")
            test.ends((word, faulty, name, *behind), (4, b"", f"file: {name}\n".encode()), "a report that can't be read, beside a faulty file")
        test.ends((word, faulty, REPORT, *behind), (3, b"", b"scenario: : kind\n"), "a faulty file")
        test.ends((word, "/dev/zero", REPORT, *behind), (3, b"", b"scenario: : size\n"), "a file without end")


def test_reports(test):
    """Reports, right and wrong, and places that a run has or has not."""
    test.ends(("check", FIRST, REPORT), (0, b"yes\n", b""), "a right report")
    test.ends(("world", FIRST, REPORT), (0, b"world 1\n0=(6)\n", b""), "the world at its end")
    test.ends(("why", FIRST, REPORT, "0", "1"), (0, b"1 c0.1 reads 0 writes 0 { set @0.0 (@0.0 + 1); }\nvalue 0=(6)\n", b""), "why")
    for place in (("1", "1"), ("0", "2"), ("65535", "4294967295")):
        test.ends(("why", FIRST, REPORT, *place), (10, b"", b"range\n"), "no such place")
    long = test.file("long", b"")
    for word, behind in (("check", ()), ("world", ()), ("why", ("9", "9"))):
        test.ends((word, FIRST, FIRST, *behind), (9, b"", b"wrong line 1\n"), "a scenario in place of a report")
        test.ends((word, FIRST, "/dev/null", *behind), (9, b"", b"wrong line 1\n"), "an empty report")
        test.ends((word, SEEN, REPORT, *behind), (9, b"", b"wrong line 2\n"), "the report of another scenario")
        for size, line in ((LONGEST_REPORT, 1), (LONGEST_REPORT + 1, 0)):
            os.truncate(long, size)
            test.ends((word, FIRST, long, *behind), (9, b"", f"wrong line {line}\n".encode()), "a long report")


def test_witness(test):
    """Worlds with each of their clients as the liar, with none, and with one that they have not; each text is that of a server in Python."""
    for name in ("trade", "conflict", "bound", "first", "looks", "observe", "empty_script", "orphan", "marketplace"):
        path = os.path.join(ROOT, "examples", f"{name}.json")
        scenario = read_scenario(path)
        clients = len(scenario.plans)
        test.ends(("witness", path), (0, witness_text(witnessed(scenario).server).encode(), b""), "nobody lies")
        for liar in range(clients):
            test.ends(("witness", path, str(liar)), (0, witness_text(witnessed(scenario, liar).server).encode(), b""), "a liar")
        for liar in (clients, 65535):
            test.ends(("witness", path, str(liar)), (10, b"", b"range\n"), "no such client")


def test_examples(test):
    """Each file of examples/ is what the program prints of the scenario beside it."""
    folder = os.path.join(ROOT, "examples")
    for name in sorted(os.listdir(folder)):
        stem, ending = os.path.splitext(os.path.join(folder, name))
        scenario = f"{stem}.json"
        if ending == ".out":
            test.ends(("replay", scenario), (0, read(f"{stem}.out"), b""), name)
        elif ending == ".err":
            test.ends(("replay", scenario), (3, b"", read(f"{stem}.err")), name)
        elif ending == ".looks":
            test.ends(("looks", scenario), (0, read(f"{stem}.looks"), b""), name)


def closed(number):
    """What a process does before it begins: it closes this file of its own."""
    return {"preexec_fn": lambda: os.close(number)}


def test_outputs(test):
    """A full disk, a closed pipe and a closed output: told as `out`, and never as success."""
    gone, broken = os.pipe()
    os.close(gone)
    with open("/dev/full", "wb") as full, os.fdopen(broken, "wb") as pipe, open(os.devnull, "rb") as unwritable:
        for words in RUNS:
            for name, output in (("a full disk", full), ("a closed pipe", pipe), ("a file only to be read", unwritable)):
                test.ends(words, (5, None, b"out\n"), name, stdout=output)
            test.ends(words, (5, b"", b"out\n"), "a closed output", **closed(1))
            test.ends(words, (5, None, None), "both outputs on a full disk", stdout=full, stderr=full)
        for words, status in ((("plays",), 2), (("replay", os.path.join(test.room, "missing")), 4), (("replay", "/dev/null"), 3),
                              (("check", FIRST, "/dev/null"), 9), (("why", FIRST, REPORT, "0", "2"), 10), (("witness", FIRST, "9"), 10)):
            test.ends(words, (status, b"", None), "errors on a full disk", stderr=full)
            test.ends(words, (status, b"", None), "errors to a closed pipe", stderr=pipe)
            test.ends(words, (status, b"", b""), "a closed error output", **closed(2))
            test.ends(words, (status, None, {2: PLAY, 3: b"scenario: : json\n", 9: b"wrong line 1\n", 10: b"range\n"}.get(
                status, f"file: {os.path.join(test.room, 'missing')}\n".encode())), "an error beside a full disk", stdout=full)


def limited(kind, amount):
    """What a process does before it begins: it limits itself."""
    return {"preexec_fn": lambda: resource.setrlimit(kind, (amount, amount))}


def test_limits(test):
    """No connection and no thread to be had, and a disk that fills up in the middle."""
    test.ends(("play", FIRST), (6, b"", b"link\n"), "no more files", **limited(resource.RLIMIT_NOFILE, 4))
    if test.changes_users:
        test.ends(("play", "/dev/stdin"), (7, b"", b"start\n"), "no more threads", user=65533, group=65533,
                  stdin=open(FIRST, "rb"), **limited(resource.RLIMIT_NPROC, 1))
    path = os.path.join(test.room, "some")
    with open(path, "wb") as some:
        test.ends(("replay", FIRST), (5, None, b"out\n"), "a file that may have 100 bytes", stdout=some, preexec_fn=small)
    with open(path, "rb") as some, open(FIRST.replace(".json", ".out"), "rb") as whole:
        wanted = whole.read()[:100]
        test.same(some.read(), wanted, "the front of a file that may have 100 bytes")
    test.ends(("replay", FIRST), (0, wanted[:0] + read(FIRST.replace(".json", ".out")), b""), "nothing wrong")


def small():
    """Files of 100 bytes at most; what is more is an error and no signal."""
    signal.signal(signal.SIGXFSZ, signal.SIG_IGN)
    resource.setrlimit(resource.RLIMIT_FSIZE, (100, 100))


def read(path):
    """The bytes of a file."""
    with open(path, "rb") as file:
        return file.read()


def main(words):
    """The status of all tests."""
    program, status = program_in(words)
    if program is None:
        return status
    with tempfile.TemporaryDirectory() as room:
        os.chmod(room, 0o755)
        # A copy, which others than its owner can reach too.
        copy = shutil.copy(program, os.path.join(room, "program"))
        os.chmod(copy, 0o755)
        test = Test(copy, room)
        for one in (test_words, test_examples, test_files, test_reports, test_witness, test_outputs, test_limits):
            one(test)
    return test.close()


if __name__ == "__main__":
    sys.exit(main(sys.argv[1:]))

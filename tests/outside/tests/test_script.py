#!/usr/bin/env python3
"""Tests of the script ./dimboetu around a stand-in for the program, with no program of the product and no toolchain.

    python3 tests/outside/tests/test_script.py

The script runs in a copy of the few files that it reads. Input, output, statuses and the program's line must pass as they are; a second
line says what it means; signals end the program. Each line that the program can print has its entry, which `explain` prints. Closes with
`N passed, M failed`.
"""

import json
import os
import re
import shutil
import signal
import subprocess
import sys
import tempfile
import time

sys.path.insert(0, os.path.dirname(os.path.dirname(os.path.abspath(__file__))))

from tests.counting import ROOT, Count
from tests.test_documents import error_texts, marks_of, text_of

# What the stand-in does: say STATUS LINE; echo; wait FILE; print a report; else as the program says what words it has.
PROGRAM = r"""#!/bin/bash
case "$1" in
  say) printf '%b' "$3" >&2; exit "$2" ;;
  echo) cat; exit 0 ;;
  wait) echo $$ >"$2"; exec sleep 30 ;;
  out) echo text || exit 5; exit 0 ;;
  host)
    [ -n "$3" ] || { echo "words: $2." >&2; exit 2; }
    [ "$2" != busy ] || { echo "busy: $3" >&2; exit 14; }
    [[ "$*" != *:4999 ]] || { echo "busy: 127.0.0.1:4999" >&2; exit 14; }
    [ "$2" != wrong ] || { echo "words: host WORLD DIR [OPTION ..]" >&2; exit 2; }
    [ "$2" != die ] || kill -KILL $$
    echo "listening $2" >&2; cat >/dev/null; echo "stop $*" >&2; exit 0 ;;
  replay | serve | join | witness | why) [ "$#" = 4 ] && [[ "$4" =~ ^[0-9]{1,2}$ ]] && { printf '%s\n' "$3" >&2; exit "$4"; }; echo "words: $1 .." >&2; exit 2 ;;
esac
echo "words: play FILE [--brief | --watch] | replay FILE | load N" >&2
exit 2
"""
RT = "#!/bin/bash\necho rt 0\n"
FILES = ("dimboetu", "crates.txt", "HANDLES", "docs/ERRORS.md", "docs/JAVASCRIPT.md", "crates/sv_main/src/help.rt", "tools/site", "examples/site/index.html",
         "examples/site/style.css", "examples/site/room.js", "examples/site/icon.svg", "clients/js/dimboetu.js")
SECONDS = 20


class Script(Count):
    """The script in a room of its own."""

    def __init__(self, room):
        super().__init__()
        self.room = room
        for name in FILES:
            os.makedirs(os.path.dirname(self.path(name)), exist_ok=True)
            shutil.copy(os.path.join(ROOT, name), self.path(name))
        for name, text in (("crates/sv_main/out/sv_main", PROGRAM), ("bin/rt", RT)):
            os.makedirs(os.path.dirname(self.path(name)), exist_ok=True)
            with open(self.path(name), "w", encoding="utf-8") as file:
                file.write(text)
            os.chmod(self.path(name), 0o755)
        self.words = {"env": {**os.environ, "PATH": self.path("bin") + ":" + os.environ["PATH"]}}
        self.same(self.run("build")[0], 0, "the stand-in counts as built")

    def path(self, name):
        """A file of the room."""
        return os.path.join(self.room, name)

    def run(self, *words, **kinds):
        """The status and the outputs of a call."""
        options = {"stdin": subprocess.DEVNULL, "stdout": subprocess.PIPE, "stderr": subprocess.PIPE, "timeout": SECONDS, **kinds}
        done = subprocess.run([self.path("dimboetu"), *words], check=False, **self.words, **options)
        return done.returncode, done.stdout, done.stderr

    def says(self, line, status, *words):
        """What the script writes behind this line of the program."""
        code, out, err = self.run(*(words or ("say", str(status), line + r"\n")))
        first = (line + "\n").encode()
        self.same((code, out, err[:len(first)]), (status, b"", first), f"the status and the line: {line}")
        return err[len(first):].decode()


def test_passing(script):
    """Input, output and statuses pass as they are, and a run that ends with 0 says no more."""
    data = bytes(range(256)) * 999
    script.same(script.run("echo", input=data, stdin=None), (0, data, b""), "input and output")
    with tempfile.TemporaryFile() as file:
        file.write(b"not this: the rest")
        file.seek(10)
        script.same(script.run("echo", stdin=file), (0, b"the rest", b""), "a file from its place on")
    script.same(script.run("say", "0", "seen\\n"), (0, b"", b"seen\n"), "status 0 has no second line")
    for status in (1, 13, 77):
        script.same(script.run("say", str(status), "odd\\n"), (status, b"", b"odd\n"), f"status {status} is none of the program's")
    script.same(script.run("say", "8", ""), (8, b"", b""), "no line, and no second one")
    long = "file: " + "x" * 100_000
    script.expect(script.says(long, 4).startswith("dimboetu: the file can't be read"), "a long line")
    code, _, err = script.run("say", "4", "file: \\xff\\xfe\\n")
    script.same((code, err[:9]), (4, b"file: \xff\xfe\n"), "a line that is no text")
    for closed in (0, 1, 2):
        code, out, err = script.run("say", "6", "link\\n", preexec_fn=lambda: os.close(closed))
        script.same((code, out, err[:5]), (6, b"", b"" if closed == 2 else b"link\n"), f"file {closed} is closed")
    script.same(script.run("out", preexec_fn=lambda: os.close(1))[0], 5, "a closed output is the program's matter")
    with open("/dev/full", "wb") as full:
        script.same(script.run("out", stdout=full)[0], 5, "a full output is the program's matter")
        script.same(script.run("say", "3", "scenario: : json\\n", stderr=full)[:2], (3, b""), "a full error output")
    


def is_there(number):
    """Whether a process lives."""
    try:
        with open(f"/proc/{number}/stat", encoding="ascii") as file:
            return file.read().split(") ")[-1][0] != "Z"
    except FileNotFoundError:
        return False


def name_of(number):
    """The name of a process, or nothing."""
    try:
        with open(f"/proc/{number}/comm", encoding="ascii") as file:
            return file.read().strip()
    except FileNotFoundError:
        return ""


def test_signals(script):
    """A signal to the script, or to all of its group as by Ctrl-C, ends the program, and then the script."""
    for to_group in (False, True):
        for number in (signal.SIGINT, signal.SIGTERM, signal.SIGHUP):
            path = script.path("waiting")
            run = subprocess.Popen([script.path("dimboetu"), "wait", path], stdout=subprocess.PIPE, stderr=subprocess.PIPE,
                                   start_new_session=True, **script.words)
            until = time.monotonic() + SECONDS
            while not (os.path.exists(path) and os.path.getsize(path)) and time.monotonic() < until:
                time.sleep(0.01)
            with open(path, encoding="ascii") as file:
                child = int(file.read())
            while name_of(child) != "sleep" and time.monotonic() < until:   # A shell may lose a signal that comes just before its exec.
                time.sleep(0.01)
            (os.killpg if to_group else os.kill)(run.pid, number)
            outputs = run.communicate(timeout=SECONDS)
            script.same((run.returncode, *outputs), (-number, b"", b""), f"signal {number}, to all {to_group}")
            script.expect(not is_there(child), f"signal {number}, to all {to_group}: the program is gone")
            os.unlink(path)


def heard(run, text):
    """Whether a line of the run's standard error, that comes while it runs, begins so."""
    return run.stderr.readline().startswith(text)


def test_host(script):
    """The lines of `host` come at once; a signal stops it in order, through its input, or where that is given the input's end; its fault has
    a second line. `demo` serves the page, and leaves nothing behind."""
    pipes = {"stdin": subprocess.DEVNULL, "stdout": subprocess.PIPE, "stderr": subprocess.PIPE, "start_new_session": True}
    for number in (signal.SIGINT, signal.SIGTERM, signal.SIGHUP):
        for to_group in (False, True):
            run = subprocess.Popen([script.path("dimboetu"), "host", "w", "d"], **pipes, **script.words)
            script.expect(heard(run, b"listening w\n"), "host: a line comes at once")
            (os.killpg if to_group else os.kill)(run.pid, number)
            script.same((*run.communicate(timeout=SECONDS), run.returncode), (b"", b"stop host w d --stdin\n", 0), f"host: signal {number}")
    script.same(script.run("host", "w", "d", "--stdin", input=b"", stdin=None), (0, b"", b"listening w\nstop host w d --stdin\n"), "host: its input ends")
    said = b"listening w\ndimboetu: there is no folder 'no': --site has no file to answer with; see docs/HOSTING.md#options\nstop host w d --stdin --site no --at 127.0.0.1:1\n"
    script.same(script.run("host", "w", "d", "--stdin", "--site", "no", "--at", "127.0.0.1:1", input=b"", stdin=None), (0, b"", said), "host: no such folder")
    code, _, err = script.run("host", "busy", "d")
    script.expect((code, err[:8]) == (14, b"busy: d\n") and err.endswith(b"see docs/ERRORS.md#busy\n"), f"host: {err}")
    for words in ((), ("w",)):
        code, _, err = script.run("host", *words)
        script.expect(code == 2 and err.startswith(f"words: {' '.join(words)}.\n".encode()) and b"host WORLD DIR [OPTION ..]" in err, f"host {words}: {err}")
    rooms = script.path("rooms")
    os.makedirs(rooms)
    words = {"env": {**script.words["env"], "TMPDIR": rooms}}
    run = subprocess.Popen([script.path("dimboetu"), "demo", "4321"], **pipes, **words)
    script.expect(heard(run, b"listening "), "demo: it listens")
    script.expect(run.stdout.readline().startswith(b"Open http://127.0.0.1:4321/ "), "demo: what to open")
    room = os.path.join(rooms, os.listdir(rooms)[0])
    script.same(sorted(os.listdir(os.path.join(room, "site"))), ["dimboetu.js", "icon.svg", "index.html", "room.js", "style.css"], "demo: the page")
    os.kill(run.pid, signal.SIGTERM)
    said = run.communicate(timeout=SECONDS)[1].decode()
    script.expect(f" {room}/world --stdin --site {room}/site --at 127.0.0.1:4321\n" in said and run.returncode == 0, f"demo: {said}")
    script.same(os.listdir(rooms), [], "demo: nothing is left")
    for port, other in (("4999", "5000"),):
        code, _, err = script.run("demo", port)
        script.expect(code == 14 and err.endswith(f"\ndimboetu: for another port write ./dimboetu demo {other}\n".encode()), f"demo {port}: {err}")
    code, _, err = script.run("host", "die", "d")
    script.same((code, err), (137, b"dimboetu: the program was killed, by signal 9. Start it again: the world goes on\n"), "host: it is killed")
    for words, text in (((), "write ./dimboetu host WORLD DIR"), (("--port", "4000"), "'host' has no option '--port'"), (("--at", "localhost:4660"), "'--at' takes ADDRESS:PORT"),
                        (("--at", "127.0.0.1:4000", "--sync", "all"), "'--sync' takes 'none' or 'batch', and not 'all'"), (("--idle", "0"), "'--idle' takes seconds, 1 to 1000000, and not '0'"),
                        (("--report-within", "x"), "'--report-within' takes milliseconds"), (("--at", "[::1]:65536"), "'--at' takes"), (("--stdin", "--keys"), "'--keys' takes something behind it"),
                        (("--site", "s", "--no-steward"), "'--no-steward' may not stand where the world has \"authority\""), (("--at", "[::1]:4000"), "write ./dimboetu host WORLD DIR")):
        code, _, err = script.run("host", "wrong", "d", *words)
        said = err.decode().split("\n")
        script.expect(code == 2 and len(said) == 3 and said[1].startswith(f"dimboetu: {text}"), f"host {words}: {err}")
    for words in (("x",), ("0",), ("65536",), ("1", "2")):
        script.same(script.run("demo", *words)[0], 2, f"demo {words}")


def test_lines(script):
    """Each line has an entry that `explain` prints, and, where it tells of an end, a second line, which names a heading of docs/ERRORS.md."""
    statuses = {"busy:": 14, "keys:": 3, "log:": 13, "closed": 12, "file:": 4, "link": 6, "memory": 8, "out": 5, "range": 10, "start": 7, "wrong line": 9}
    lines = [(f"{text} 3" if text == "wrong line" else text, statuses.get(text, 11)) for text in error_texts() if "words" not in text]
    causes = re.findall(r'format!\(in alloc; "([a-z]+)', text_of("crates/sv_scenario/src/line.rt"))
    lines += [(f"scenario: /a: {cause}" + {"text": " 15 4", "action": " 7"}.get(cause, ""), 3) for cause in causes if cause != "scenario"]
    script.expect(len(lines) > 20, f"lines: {lines}")
    marks = marks_of(text_of("docs/ERRORS.md"))
    for line, status in lines:
        if line != "range" and not line.startswith("anybody"):
            found = re.fullmatch(r"dimboetu: ([a-z'\"].{15,250}); see docs/ERRORS\.md#([a-z-]+)\n", script.says(line, status))
            script.expect(found and found[2] in marks and "`" not in found[1], f"the second line of {line}")
        code, out, err = script.run("explain", line)
        script.expect((code, err) == (0, b"") and len(out) > 60, f"explain {line}: {out} {err}")
        script.same(script.run("explain", *line.split()), (code, out, err), f"explain {line}, in words")
    for line, heading in (("link", "link of serve"), ("wrongkind", "reply: wrongkind"), ("json", "scenario: json"), ("text 3 4", "scenario: text"),
                          ("refused 9 0", "Refusals of the server"), ("dropped 1 chain 1 far 0", "An action was dropped"), ("9", "status 9 "), ("stopped: spent", "no request left"),
                          ("stopped: wrongkind", "reply: wrongkind"), ("stopped: wrongkind: refused 11 7, old life", "| 11 | old life |"), ("stopped: missing 3 4", "reply: missing"),
                          ("stopped: [Errno 111] Connection refused", "nobody listens"), ("stopped: action 4", "| 4 | The world has no object"), ("stopped: text 3 1", "| 1 | No piece"),
                          ("stopped: list index out of range", "no client NUMBER"), ("stopped: full", "Nothing was done"),
                          ("spent", "no request left"), ("the build stopped", "was not proved"), ("denied", "has no right"), ("start world, entry 0, commit 0", "it has read the log"),
                          ("listening [::1]:4000, entry 7, commit 2", "players may come"), ("stop w w, entry 7, commit 2", "it stopped in order"), ("dimboetu.Fault: wrongkind", "reply: wrongkind"),
                          ("dimboetu.Fault: text 19 3", "| 3 | Something else"), ("Fault: wrongkind", "reply: wrongkind"), ("ConnectionError: closed", "while a reply was due"),
                          ("dimboetu.Fault: wrongkind: refused 4 0, over", "| 4 | over |"), ("ConnectionRefusedError: [Errno 111] Connection refused", "nobody listens"),
                          ("TypeError: key: bytes belong there, as b\"..\", and no str", "16 to 64 bytes"), ("key: 16 to 64 bytes belong there", "16 to 64 bytes"),
                          ("ValueError: key: 16 to 64 bytes belong there", "16 to 64 bytes"), ("action 13 never happens: no right to write object 2", "An action was denied"),
                          ("action 3 never happens: chain 2, far 0", "An action was dropped"), ("wrongkind: refused 4 0, over", "| 4 | over |"), ("pushed out", "takes the place again"),
                          ("pushed out wrongkind: refused 4 0, over", "takes the place again"), ("lost", "It joins again by itself"), ("status lost closed", "It joins again by itself"),
                          ("refused wrongkind: refused 8 0, bad interest", "| 8 | bad interest |"), ("[Errno 111] Connection refused", "nobody listens"),
                          ("lost closed", "missing, wrong or another's"), ("lost Error: closed 1006", "missing, wrong or another's"), ("lost [Errno 111] Connection refused", "nobody listens"),
                          ("lost Error: connect ECONNREFUSED 127.0.0.1:46113", "nobody listens"), ("refused baditem", "reply: baditem"), ("refused Fault: baditem", "reply: baditem"),
                          ("refused Fault: wrongkind", "reply: wrongkind"), ("TypeError: this.connect is not a function", "missing or misspelt"), ("player 0: lost", "It joins again by itself"),
                          ("player 1: joined", "the player is in the world"), ("player 0: refused", "'fault' says which"), ("Error: closed 1006", "missing, wrong or another's"),
                          ("{ number: 1, kind: 'denied', object: 2 }", "An action was denied"), ("Error: Received network error or non-101 status code.", "missing, wrong or another's"),
                          ("number: a whole number from 0 to 65534 belongs there, and not 70000", "missing or misspelt"), ("ReferenceError: WebSocket is not defined", "experimental-websocket"),
                          ("dimboetu: 'host' has no option '--kyes'; see docs/HOSTING.md#options", "the option that it names"), ("words: host WORLD DIR [OPTION ..]", "docs/HOSTING.md#options"),
                          ("keys: garden/room.keys", "without one the file can't be read"), ("joined None", "the player is in the world"), ("link", "Several commands say"), ("link of host", "The address can't be had"), ("range of why", "no such object"),
                          ("dimboetu: step 2 of 3, compiling 58 crates (21 s)", "makes the unproved build"),
                          ("dimboetu: this run is of an unproved build. './dimboetu build' proves the program and builds it for good.", "no fault"),
                          ("report: line 1 is none of a report: x", "a scenario is no report"), ("dimboetu: the file can't be read. x; see docs/ERRORS.md#file", "A folder is no file")):
        script.expect(heading in script.run("explain", line)[1].decode(), f"explain {line} has {heading}")
    script.expect("behind 'reads'" in script.run("explain", "scenario: /a: text 3 4")[1].decode(), "the row of a cause")
    script.expect("The world has no object" not in script.run("explain", "stopped: objects")[1].decode(), "a row of another fault")
    script.same(script.run("explain", "refused_connections")[0], 2, "a word that begins as another")
    script.same([script.run("explain", f"{line} of host")[1].startswith(f"{line} of".encode()) for line in ("link", "range")], [True, False], "an entry of one command")
    script.same(script.run("explain", "nothing"), (2, b"", b"dimboetu: docs/ERRORS.md has no such line\n"), "explain nothing")
    for words, text in ((("serve", "x", "link", "6"), "the port is in use"), (("replay", "x", "scenario: /a: text 1 4", "3"), "not among the reads"),
                        (("replay", "x", "wrong line 2", "9"), "another scenario"), (("replay", "x", "wrong line 9", "9"), "first wrong line"),
                        (("replay", "x", "log: journal-1.txt:4 reply", "13"), "not the answer that is due"), (("replay", "x", "log: world.json world", "13"), "another world"),
                        (("replay", "x", "log: world", "5"), "can't be written"), (("join", "x", "range", "10"), "has no client K"), (("witness", "x", "range", "10"), "has no client K"),
                        (("why", "x", "range", "10"), "no such object"), (("replay", "x", "scenario: /bound: range", "3"), "HOSTING.md"),
                        (("replay", "x", "scenario: /clients: key", "3"), "'host' takes a world without 'clients'"), (("replay", "x", "log: a/b", "5"), "the folder above is missing"),
                        (("replay", "x", "busy: 127.0.0.1:4000", "14"), "another program has this address"), (("replay", "x", "busy: w2", "14"), "another program has this folder"),
                        (("replay", "x", "scenario: /results: kind", "3"), "or \"authority\""), (("replay", "x", "scenario: /rights/0/clients/1: order", "3"), "is below its first one"),
                        (("replay", "x", "scenario: /rights/0/clients/1: range", "3"), "clients are 0 to 65535"), (("replay", "x", "scenario: /bound: key", "3"), "a key is missing")):
        script.expect(text in script.says(words[2], int(words[3]), *words), f"{words}: {text}")


def test_words(script):
    """The command that a mistyped one is nearest to, and how a command is written."""
    line = b"words: play FILE [--brief | --watch] | replay FILE | load N\n"
    for words, text in (((), "'./dimboetu --help' has all commands"), (("plya", "x"), "no command 'plya', but 'play'"),
                        (("chek",), "but 'check'"), (("xyzzy",), "no command 'xyzzy'."), (("play",), "write ./dimboetu play FILE, or "),
                        (("load", "x"), "N is a number from 1 to 192, and not 'x';"), (("load",), "write ./dimboetu load N;"), (("explain",), "write ./dimboetu explain LINE;"), (("biuld",), "but 'build'")):
        code, out, err = script.run(*words)
        script.same((code, out, err[:len(line)]), (2, b"", line), f"{words}")
        script.expect(text in err[len(line):].decode() and err.endswith(b"; see docs/ERRORS.md#words\n"), f"{words}: {err}")
    for words, text in ((("serve", "x", "99999"), "PORT is a number from 1 to 65535, and not '99999'"), (("join", "x", "07", "4000"), "K is a number from 0 to 65535, and not '07'"),
                        (("witness", "x", "-1"), "K is a number"), (("why", "x", "y", "0", "4294967296"), "POSITION is a number from 0 to 4294967295"), (("serve", "x"), "write ./dimboetu serve FILE PORT")):
        code, _, err = script.run(*words)
        script.expect(code == 2 and err.decode().split("\n")[1].startswith(f"dimboetu: {text}"), f"{words}: {err}")


def test_unbuilt(script):
    """Wrong words are answered before anything is built; another crate's line in crates.txt changes nothing, one of a crate below does."""
    out, aside, crates = script.path("crates/sv_main/out"), script.path("aside"), script.path("crates.txt")
    shutil.move(out, aside)
    line = b"words: play FILE [--brief | --watch] | replay FILE | load N\n"
    script.same(script.run("--version"), (0, b"dimboetu 0.9.0\n", b""), "the version")
    for words, text in (((), "has all commands"), (("hepl",), "there is no command 'hepl'"), (("-h",), "'./dimboetu --help' has all commands"), (("help",), "'./dimboetu --help' has all")):
        code, printed, err = script.run(*words)
        script.expect((code, printed) == (2, b"") and err.startswith(line) and text in err.decode() and err.count(b"\n") == 2, f"unbuilt, {words}: {err}")
        script.expect(not os.path.exists(out), f"unbuilt, {words}: nothing is built")
    shutil.move(aside, out)
    for more, is_kept in (("yours: sv_world thiserror\n", True), ("sv_main: sv_world\n", False)):
        with open(crates, encoding="utf-8") as file:
            before = file.read()
        with open(crates, "a", encoding="utf-8") as file:
            file.write(more)
        script.same(script.run("--help")[0], 0, "the sum is not asked for --help")
        if is_kept:
            script.same(script.run("say", "0", "seen\\n"), (0, b"", b"seen\n"), f"the build counts, with {more}")
        else:
            script.expect(b"sources changed" in script.run("load", "1")[2], f"the build does not count, with {more}")
        with open(crates, "w", encoding="utf-8") as file:
            file.write(before)


def test_places(script):
    """The text of a faulty act with a mark under its place."""
    acts = [("reads 0 writes 1 { }", 15), ('reads 0\twrites "\\ 0', 15), ("reads 0 writes 0 { " + "set @0.0 1; " * 20 + "x", 259)]
    for text, place in acts:
        world = {"objects": [[5], {"act": "no"}], "clients": [{"steps": ["sync", {"show": [1, 2]}]},
                                                               {"interest": [], "steps": [{"act": "{[\"}"}, "cut", {"act": text}]}]}
        for indent in (None, 2):
            path = script.path("world.json")
            with open(path, "w", encoding="utf-8") as file:
                json.dump(world, file, indent=indent)
            told = script.says(f"scenario: /clients/1/steps/2/act: text {place} 4", 3, "replay", path,
                               f"scenario: /clients/1/steps/2/act: text {place} 4", "3").split("\n")
            script.expect(len(told) == 4 and told[2].endswith("^"), f"{text}: {told}")
            if len(told) < 4:
                continue
            shown, column = told[1], len(told[2]) - 1
            script.same(shown[column:], text[place:].replace("\t", " "), f"{text}: the mark")
    for path in (script.path("missing"), script.room, "/dev/null"):
        told = script.says("scenario: /clients/0/steps/0/act: text 1 3", 3, "replay", path, "scenario: /clients/0/steps/0/act: text 1 3", "3")
        script.same(told.count("\n"), 1, f"{path}: no text")


# Texts that are no JSON, with `~` before the fault's place, and what is wrong there.
FAULTS = (
    ("~", "the file is empty"), ("  \n ~", "the file is empty"), ('{"attrs": 1, "objects": [[5]~', "a comma or ] is missing where the file ends"),
    ('{"attrs": 1,\n "objects": [[5],~]}', "no comma may stand before ]"), ('{"bound": 4,\n\n~}\n', "no comma may stand before }"),
    ('{"attrs" ~1}', "a colon belongs here"), ('{"attrs": 1\n  ~"objects": 2}', "a comma or } belongs here"), ("[1 ~2]", "a comma or ] belongs here"),
    ("[~,1]", "a value belongs here"), ("{~attrs: 1}", "a key in double quotes belongs here"), ("[1]\n~]", "nothing may stand behind the last bracket"),
    ("[~'a']", "texts stand in double quotes"), ("[1, ~// one\n2]", "JSON has no comments"), ('["a~\n"]', "the text that began here before has no end on its line"),
    ('["a~\tb"]', "no tab may stand in a text: write \\t"), ('["~\\x"]', "this may not stand behind \\ in a text"), ("[0~1]", "a comma or ] belongs here"),
    ("[~+1]", "a value belongs here"), ("[1~.]", "a comma or ] belongs here"), ("[~NaN]", "a value belongs here"), ("[~tru", "a value belongs here"), ("~\ufeff{}", "a value belongs here"),
    ('{"é": "ü" ~5}', "a comma or } belongs here"), ("[" * 127 + "~[", "more than 127 lists and objects inside one another"),
    ('{"a": [true, false, null, -0.5e+3, "\\u00e4\\n\\/"], "b": {}, "c": [],~}', "no comma may stand before }"), ('{"a": ~}', "a value belongs here"), ("[1~}", "a comma or ] belongs here"))


def test_json(script):
    """The line and the column where a file is no JSON text, with what is wrong, and a mark under the place."""
    for marked, why in FAULTS:
        place, text = marked.index("~"), marked.replace("~", "", 1)
        path = script.path("world.json")
        with open(path, "w", encoding="utf-8") as file:
            file.write(text)
        line, column = text[:place].count("\n") + 1, place - (text.rfind("\n", 0, place) + 1) + 1
        if why == "the file is empty":
            line, column = 1, 1
        told = script.says("scenario: : json", 3, "replay", path, "scenario: : json", "3").split("\n")
        script.same((len(told), told[1:2]), (5, [f"  line {line}, column {column}: {why}"]), f"{marked!r}")
        shown = text.split("\n")[line - 1] if text.strip() else ""
        wanted = [f"  {shown}".replace("\t", " "), "  " + "^".rjust(column)]
        if column <= 60:
            script.same([each.rstrip() for each in told[2:4]], [each.rstrip() for each in wanted], f"{marked!r}: the mark")
    for text in ("{}", '{"a": [1, -0, 1e999]}', '[' * 9 + ']' * 9):
        with open(script.path("world.json"), "w", encoding="utf-8") as file:
            file.write(text)
        told = script.says("scenario: : json", 3, "replay", script.path("world.json"), "scenario: : json", "3")
        script.same(told.count("\n"), 1, f"{text}: no place")
    for path in (script.path("missing"), script.room):
        told = script.says("scenario: : json", 3, "replay", path, "scenario: : json", "3")
        script.same(told.count("\n"), 1, f"{path}: no place")


def main():
    """The status of all tests."""
    with tempfile.TemporaryDirectory() as room:
        script = Script(room)
        for test in (test_passing, test_signals, test_host, test_lines, test_words, test_places, test_json, test_unbuilt):
            test(script)
        return script.close()


if __name__ == "__main__":
    sys.exit(main())

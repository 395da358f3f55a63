#!/usr/bin/env python3
"""Kills a program that appends to a log, and looks whether all is found that it told as synced.

    python3 tests/outside/campaigns/killed_writer.py WRITER [TIMES [SECONDS]]

WRITER is the program log_writer/, which tools/unproved.sh builds. It opens the log of a folder, tells how many lines it
found, each of which has a sum, and appends batches of lines, most of which it syncs. It is killed by SIGKILL at a random
moment, 1,000 times if not said otherwise, or until so many seconds are over: most often while it appends, now and then
while it opens the log. The next one must find every line that was told as synced, and each line right. After some kills
bytes are torn by hand, as the machine's end might: bytes behind what was synced are made zero. Every 50 kills a new
folder is begun.

A kill loses nothing that the system has taken, so this tries the order of the calls and the way back, and no disk.

Prints the figures. The status is 1 where something was lost or wrong.
"""

import os
import random
import re
import signal
import subprocess
import sys
import tempfile
import time

SEGMENT = re.compile(r"journal-[0-9]{20}\.txt")
FOLDER_KILLS = 50


def segment_in(folder):
    names = sorted(name for name in os.listdir(folder) if SEGMENT.fullmatch(name)) if os.path.isdir(folder) else []
    return os.path.join(folder, names[-1]) if names else None


def tear(folder, synced, chance):
    """Makes bytes behind the line of this number zero, each with the same chance. Answers how many."""
    path = segment_in(folder)
    if path is None:
        return 0
    with open(path, "r+b") as file:
        text = file.read()
        if text.count(b"\n") < synced:
            return 0
        start = 0
        for _ in range(synced):
            start = text.index(b"\n", start) + 1
        end = len(text.rstrip(b"\0"))
        torn = bytearray(text[start:end])
        count = 0
        for place in range(len(torn)):
            if torn[place] and chance.random() < 0.01:
                torn[place] = 0
                count += 1
        file.seek(start)
        file.write(torn)
    return count


class Trial:
    """Kills in one folder after another."""

    def __init__(self, writer, room, seed):
        self.writer, self.room, self.chance = writer, room, random.Random(seed)
        self.kills = self.folders = self.while_opening = self.torn = self.rests = self.wrong = 0
        self.lines = self.beyond = 0
        self.begin()

    def begin(self):
        self.folders += 1
        self.folder = os.path.join(self.room, f"log-{self.folders}")
        self.synced = 0

    def tell(self, what):
        self.wrong += 1
        print(f"kill {self.kills}, {self.folder}: {what}", flush=True)

    def kill(self):
        """Starts the program and kills it. Looks at what it told."""
        self.kills += 1
        spare = self.chance.choice(("0", "100", "4096", "100000"))
        told = os.path.join(self.room, "told")
        with open(told, "wb") as out:
            words = [self.writer, "write", self.folder, str(self.kills), spare]
            process = subprocess.Popen(words, stdin=subprocess.DEVNULL, stdout=out, stderr=subprocess.STDOUT)
        soon = self.chance.random() < 0.2
        limit = time.monotonic() + 30
        while not soon and os.path.getsize(told) == 0 and process.poll() is None and time.monotonic() < limit:
            time.sleep(0.001)
        time.sleep(self.chance.random() * (0.02 if soon else 0.1))
        process.send_signal(signal.SIGKILL)
        status = process.wait()
        with open(told, encoding="utf-8", errors="replace") as file:
            lines = file.read().split("\n")[:-1]
        self.look(lines, status)

    def look(self, lines, status):
        found = None
        for line in lines:
            if match := re.fullmatch(r"found ([0-9]+), next ([0-9]+)", line):
                found = int(match[1])
                if int(match[2]) != found + 1:
                    self.tell(line)
                if found < self.synced:
                    self.tell(f"{self.synced} was synced, and {found} lines were found")
                self.beyond += found - self.synced
                self.synced = found
            elif match := re.fullmatch(r"synced ([0-9]+)", line):
                self.lines += int(match[1]) - self.synced
                self.synced = int(match[1])
            else:
                self.tell(line)
        if status != -signal.SIGKILL:
            self.tell(f"status {status}")
        if found is None:
            self.while_opening += 1
        if self.chance.random() < 0.3:
            self.torn += tear(self.folder, self.synced, self.chance)
        if self.kills % FOLDER_KILLS == 0:
            self.rests += sum(name.startswith("rest-") for name in os.listdir(self.folder))
            self.begin()


def main(words):
    if not 1 <= len(words) <= 3:
        print(__doc__)
        return 2
    times = int(words[1]) if len(words) > 1 else 1000
    end = time.monotonic() + (float(words[2]) if len(words) > 2 else float("inf"))
    with tempfile.TemporaryDirectory() as room:
        trial = Trial(os.path.abspath(words[0]), room, 24)
        while trial.kills < times and time.monotonic() < end:
            trial.kill()
    print(f"{trial.kills} kills in {trial.folders} folders, {trial.while_opening} of them before the log was read; {trial.lines} lines "
          f"synced, {trial.beyond} more found; {trial.torn} bytes torn by hand, {trial.rests} files kept beside; wrong: {trial.wrong}")
    return 1 if trial.wrong else 0


if __name__ == "__main__":
    sys.exit(main(sys.argv[1:]))

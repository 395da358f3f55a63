#!/usr/bin/env python3
"""Mutated frames to session loops over links in memory, each reply compared with a slow program's.

    python3 tests/outside/campaigns/hostile_pipes.py PARTS [FRAMES [SEED]]

PARTS is the program parts_alone/. FRAMES (1,000,000 if left out) frames of the generator of hostile_frames.py go
to 64 session loops at once, each on a thread of its own, over links in memory (`PipeNet`); one thread more sends them and
takes the replies. Several processes share the worlds. Every reply, and the journal of each world, are compared with the slow program's, byte by byte.

Prints what differs, and at the end the figures. The status is 1 where something was lost or wrong.
"""

import multiprocessing
import os
import subprocess
import sys
import tempfile
import time

sys.path.insert(0, os.path.dirname(os.path.dirname(os.path.abspath(__file__))))

from campaigns.hostile_frames import Campaign, Journal, World, parts
from doubles.stand_in import StandIn
from rules.report import Request


PROCESSES = 6


class Piped(World):
    """A world whose sessions are loops in one process, over links in memory."""

    def begin(self, path):
        """Nothing is sent yet."""
        self.path, self.lines, self.due = path, [], []

    def burst(self):
        """Some frames to one session, and the replies to them."""
        session, sent, due, goes_on = self.compose()
        self.lines.append(f"{session} {sent.hex()} {len(due)}")
        self.due.append(due.hex())
        if not goes_on:
            self.model.step(session, Request("end"))
            self.open.remove(session)

    def close(self):
        """Runs it all, and compares."""
        for session in self.open:
            self.model.step(session, Request("end"))
        file = os.path.join(self.campaign.room, "lines")
        with open(file, "w", encoding="ascii") as it:
            it.write("".join(line + "\n" for line in self.lines))
        run = subprocess.run([self.campaign.program, "pipe", file, self.path], stdout=subprocess.PIPE, stderr=subprocess.PIPE,
                             check=False, timeout=300)
        lines = run.stdout.decode().split("\n")
        start = next((place for place, line in enumerate(lines) if line.startswith("journal ")), len(lines))
        told = [line for line in lines[:start] if not line.isalpha() or len(line) % 2 == 0 and not line[:1].isupper()]
        if run.returncode != 0 or told != self.due:
            wrong = next((f"{one!r}, and {other!r} is due" for one, other in zip(told, self.due) if one != other), "another number")
            self.campaign.tell(f"{self.name}: status {run.returncode}, {run.stderr!r}: {wrong}")
        given, due = parts("\n".join(lines[start:])), parts(StandIn.journal(Journal(self.model)))
        if given != due:
            wrong = next((f"{one!r}, and {other!r} is due" for one, other in zip(given[0], due[0]) if one != other), "its Ends")
            self.campaign.tell(f"{self.name}: the journal: {wrong}")
        self.campaign.entries += len(self.model.steps)


class PipeCampaign(Campaign):
    """The same campaign over links in memory."""

    worlds_are = Piped

    def add(self, other):
        """What another process came to."""
        self.kinds += other.kinds
        self.replies += other.replies
        for name in ("answered", "malformed", "entries", "wrong", "worlds"):
            setattr(self, name, getattr(self, name) + getattr(other, name))


def share(words):
    """What one of several processes does: its share of the frames."""
    program, frames, seed = words
    with tempfile.TemporaryDirectory() as room:
        campaign = PipeCampaign(program, room)
        while sum(campaign.kinds.values()) < frames:
            campaign.world(seed + campaign.worlds, frames)
    return campaign


def main(words):
    """The status of the whole campaign."""
    if not 1 <= len(words) <= 3 or not all(word.isdigit() for word in words[1:]):
        print("words: PARTS [FRAMES [SEED]]", file=sys.stderr)
        return 2
    frames, seed = (int(word) for word in (words[1:] + ["1000000", "1"][len(words) - 1:]))
    program, begun, whole = os.path.abspath(words[0]), time.monotonic(), PipeCampaign(words[0], "")
    shares = [(program, -(-frames // PROCESSES // 20), seed + place * 100_000) for place in range(PROCESSES * 20)]
    with multiprocessing.Pool(PROCESSES) as pool:
        for done, campaign in enumerate(pool.imap_unordered(share, shares), 1):
            whole.add(campaign)
            if done % 12 == 0:
                print(f"{sum(whole.kinds.values())} frames, {whole.worlds} worlds, {whole.wrong} wrong, "
                      f"{time.monotonic() - begun:.0f} s", flush=True)
    whole.print_figures(time.monotonic() - begun)
    return 1 if whole.wrong else 0


if __name__ == "__main__":
    sys.exit(main(sys.argv[1:]))

#!/usr/bin/env python3
"""A simulation of replays, apart from the product.

    python3 tests/outside/rules/simulate.py SCENARIO.json [--watch | --looks] [--turns SEED]

Prints the report that `replay FILE` is to print, byte for byte, with --watch also the told lines, or with --looks
what `looks FILE` is to print.
With --turns the schedule is passed over, and turns are taken at random until all is done, as the
threads of `play` might take them. Written from the documents alone; its server is server.py and its clients
are players.py, and the checker of reports shares neither.
"""

import os
import random
import sys

sys.path.insert(0, os.path.dirname(os.path.dirname(os.path.abspath(__file__))))

from rules.players import Player, Wrong
from rules.report import Request, reply_text, request_text
from rules.scenario import NoScenario, read_scenario, status_of
from rules.server import Server

ROUNDS = 1000
TURNS = 100_000
LAST_WORDS = {("refused", 1), ("refused", 4), ("refused", 9), ("bye", None)}


class Run:
    """A run on one thread: for each session the requests not yet answered and the replies not yet
    taken."""

    def __init__(self, scenario, server=Server, player=Player):
        self.server = server(scenario)
        self.players = [player(client, scenario) for client in range(len(scenario.plans))]
        self.requests = [[] for _ in range(scenario.sessions)]
        self.replies = [[] for _ in range(scenario.sessions)]
        self.stopped = [False] * scenario.sessions
        self.ended = [False] * scenario.sessions
        self.owner = [player for player in self.players for _ in range(player.plan.sessions)]

    def client_turn(self, client):
        """The client does its next step if it can."""
        player = self.players[client]
        asked = player.turn()
        if asked:
            self.requests[player.session] += asked
        return asked is not None

    def is_closed(self, session):
        """Whether the client closed its end of a session: it went on to another, or it is
        outside, or it is finished."""
        player = self.owner[session]
        if player.where == "closed":
            return True
        if player.session > session:
            return True
        return player.session == session and player.where == "outside"

    def session_turn(self, session):
        """The session does its next request, or its End where that is due."""
        if self.ended[session]:
            return False
        waiting = self.requests[session]
        if waiting and not self.stopped[session]:
            reply = self.server.step(session, waiting.pop(0))
            self.replies[session].append((len(self.server.steps), reply))
            self.stopped[session] = (reply.kind, reply.code) in LAST_WORDS
            return True
        if self.stopped[session] or self.is_closed(session):
            self.server.step(session, Request("end"))
            self.ended[session] = True
            return True
        return False

    def taking_turn(self, client):
        """The client takes the next reply of its current session."""
        player = self.players[client]
        if player.where in ("outside", "closed") or not self.replies[player.session]:
            return False
        number, reply = self.replies[player.session].pop(0)
        actions = {place: queued.action for place, queued in enumerate(self.server.queue, 1)}
        self.requests[player.session] += player.take(number, reply, actions)
        return True

    def is_over(self):
        """Whether every client is finished and every session had its End."""
        return all(self.ended) and all(player.where == "closed" for player in self.players)

    def turn(self, letter, number):
        """One turn of a schedule."""
        return {"c": self.client_turn, "s": self.session_turn, "t": self.taking_turn}[letter](number)

    def round(self):
        """Every client once, every session to its end, every client's replies to their end."""
        for client in range(len(self.players)):
            self.client_turn(client)
        for session in range(len(self.requests)):
            while self.session_turn(session):
                pass
        for client in range(len(self.players)):
            while self.taking_turn(client):
                pass

    def go(self, schedule, rounds=ROUNDS):
        """The turns of a schedule, and then rounds until all is over, if they are enough."""
        for letter, number in schedule:
            self.turn(letter, number)
        for _ in range(rounds):
            if self.is_over():
                break
            self.round()

    def report(self, watched):
        """The printed report."""
        steps = self.server.steps
        lines = [f"journal {len(steps)}"]
        lines += [f"{number} s{session} {request_text(request)} -> {reply_text(reply)}"
                  for number, (session, request, reply) in enumerate(steps, 1)]
        for player in self.players:
            lines += [f"client {player.client}"] + player.lines
        lines.append(f"world {self.server.commit}")
        lines += [f"{target}=({','.join(map(str, value))})"
                  for target, value in enumerate(self.server.committed)]
        if watched:
            lines += [line for player in self.players for line in player.told]
        return "".join(line + "\n" for line in lines)

    def looks(self):
        """The lines of the looks, client by client."""
        return "".join(line + "\n" for player in self.players for line in player.looked)


def replayed(scenario, **kinds):
    """The scenario's replay; `kinds` may name another server or player."""
    run = Run(scenario, **kinds)
    run.go(scenario.schedule)
    if not run.is_over():
        raise Wrong("the rounds were not enough")
    return run


def replay(scenario, watched=False, **kinds):
    """The report of the scenario's replay."""
    return replayed(scenario, **kinds).report(watched)


def play(scenario, seed, watched=False, patient=False, **kinds):
    """The report of a run whose turns come at random. Where clients are patient they take a reply,
    as in `play`, only where their next step can't be done yet; else at any time."""
    chance = random.Random(seed)
    run = Run(scenario, **kinds)
    weights = [chance.choice([1, 1, 2, 5]) for _ in range(len(run.players))]
    for _ in range(TURNS):
        if run.is_over():
            return run.report(watched)
        letter = chance.choice("csst")
        if letter == "s":
            run.session_turn(chance.randrange(len(run.requests)))
            continue
        client = chance.choices(range(len(run.players)), weights)[0]
        if letter == "c":
            run.client_turn(client)
        elif not patient or not run.players[client].can_take_turn():
            run.taking_turn(client)
    raise Wrong("the turns were not enough")


def main(words):
    """The status of these words."""
    watched, looks = "--watch" in words, "--looks" in words
    words = [word for word in words if word not in ("--watch", "--looks")]
    if len(words) not in (1, 3) or (len(words) == 3 and (looks or words[1] != "--turns")):
        print("words: SCENARIO.json [--watch | --looks] [--turns SEED]", file=sys.stderr)
        return 2
    try:
        scenario = read_scenario(words[0])
    except (OSError, NoScenario) as fault:
        return status_of(fault)
    if looks:
        text = replayed(scenario).looks()
    elif len(words) == 1:
        text = replay(scenario, watched)
    else:
        text = play(scenario, words[2], watched, True)
    sys.stdout.write(text)
    return 0


if __name__ == "__main__":
    sys.exit(main(sys.argv[1:]))

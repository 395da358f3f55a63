"""Times `host` beside the peer's two servers, by the peer's `drive`, and prints tables: rates, latencies, and what the log takes."""

import json
import os
import re
import socket
import statistics
import subprocess
import sys
import tempfile
import time
import urllib.request
from collections import defaultdict

from peers import built_peer

CLIENTS = (1, 32, 256, 1000)
OBJECTS = 4000
SERVERS = {"batch": "synced", "none": "not synced", "epoll": "the peer, epoll", "threads": "the peer, threads"}


def free_port():
    """A port that nobody has now."""
    with socket.socket() as trial:
        trial.bind(("127.0.0.1", 0))
        return trial.getsockname()[1]


class Server:
    """A running server: of ours with a fresh folder, or of the peer."""

    def __init__(self, kind, program, peer, world, folder):
        self.kind, self.folder, self.port = kind, folder, free_port()
        words = [program, "host", world, folder, "--stdin", "--at", f"127.0.0.1:{self.port}", "--sync", kind, "--idle", "3600"] if kind in ("batch", "none") \
            else [peer, "host", str(self.port), world, *(["--threads"] if kind == "threads" else [])]
        self.begun = time.perf_counter()
        self.process = subprocess.Popen(words, stdin=subprocess.PIPE, stdout=subprocess.DEVNULL, stderr=subprocess.PIPE, text=True)
        if kind in ("batch", "none"):
            while not (line := self.process.stderr.readline()).startswith("listening"):
                if not line:
                    sys.exit(f"{' '.join(words)} does not listen")
        self.seconds = time.perf_counter() - self.begun

    def status(self):
        with urllib.request.urlopen(f"http://127.0.0.1:{self.port}/status", timeout=20) as answer:
            return json.load(answer)

    def memory(self):
        """The resident memory, in kilobytes."""
        with open(f"/proc/{self.process.pid}/status", encoding="ascii") as file:
            return int(file.read().split("VmRSS:")[1].split()[0])

    def close(self):
        self.process.kill()
        self.process.communicate()


def driven(peer, port, clients, actions):
    """What `drive` measured."""
    words = [peer, "drive", str(port), str(clients), str(max(actions // clients, 10))]
    printed = subprocess.run(words, check=True, stdout=subprocess.PIPE, timeout=500, text=True).stdout
    if "drive_check right" not in printed:
        sys.exit(f"{' '.join(words)}: {printed}")
    return {name: float(number) for name, number in re.findall(r"^(drive\S*) ([0-9.]+)", printed, re.M)}


def cell(figures, form="{:,.0f}", best=max):
    """The best and the median."""
    return f"{form.format(best(figures))} ({form.format(statistics.median(figures))})"


def main(program, sources, disk, rounds, actions):
    rates, logs = defaultdict(list), []
    with tempfile.TemporaryDirectory() as room, tempfile.TemporaryDirectory(dir=disk) as folders:
        peer, world = os.environ.get("PEER_PROGRAM") or built_peer(room, sources), os.path.join(room, "world.json")
        with open(world, "w", encoding="ascii") as file:
            json.dump({"attrs": 1, "objects": [[1000]] * OBJECTS, "bound": 32}, file)
        for place in range(rounds):
            for clients in CLIENTS:
                for kind in SERVERS:
                    server = Server(kind, program, peer, world, os.path.join(folders, f"{kind}-{clients}-{place}"))
                    # With one client each action waits for the disk twice.
                    found = driven(peer, server.port, clients, actions // 20 if (kind, clients) == ("batch", 1) else actions)
                    rates[kind, clients].append(found)
                    if kind in ("batch", "none"):
                        found["status"], found["memory"] = server.status(), server.memory()
                    server.close()
                    if kind == "none" and clients == 32:
                        again = Server(kind, program, peer, world, server.folder)
                        logs.append((found["status"], again.seconds))
                        again.close()
    print("| Actions a second | " + " | ".join(f"{clients:,} clients" for clients in CLIENTS) + " |\n|---|" + "---|" * len(CLIENTS))
    for kind, name in SERVERS.items():
        print(f"| {name} | " + " | ".join(cell([each["drive"] for each in rates[kind, clients]]) for clients in CLIENTS) + " |")
    print("\n| A Submit answered, ms, at the middle and at the 99th of a hundred | " + " | ".join(f"{clients:,} clients" for clients in CLIENTS)
          + " |\n|---|" + "---|" * len(CLIENTS))
    for kind, name in SERVERS.items():
        print(f"| {name} | " + " | ".join(" and ".join(
            f"{min(each[f'drive_submit_{part}'] for each in rates[kind, clients]) / 1000:.2f}" for part in ("p50", "p99")) for clients in CLIENTS) + " |")
    for kind in ("batch", "none"):
        print(f"\n{SERVERS[kind]}: " + "; ".join(
            f"{clients:,} clients: {statistics.median(each['memory'] for each in rates[kind, clients]):,.0f} kB resident, "
            f"{statistics.median(each['drive_accepted'] / each['status']['syncs'] for each in rates[kind, clients]):.1f} actions a sync" for clients in CLIENTS))
    status, seconds = logs[-1]
    print(f"\nthe log: {status['log_bytes'] / status['accepted']:.0f} bytes an action; a start over {status['entries']:,} entries took "
          f"{statistics.median(each[1] for each in logs):.2f} s, {statistics.median(each[0]['entries'] / each[1] for each in logs):,.0f} entries a second")


if __name__ == "__main__":
    main(sys.argv[1], sys.argv[2], sys.argv[3], int(sys.argv[4]), int(sys.argv[5]))

"""Prints the tables of bench/session.sh, from the lines of its runs: the best run, and the median of all in parentheses."""
import statistics
import sys

CLIENTS = (1, 8, 32)
# What the last numbers of a line of ours are, in this order.
TIMES = ("submit_p50", "submit_p99", "done_p50", "done_p99", "turn_p50", "turn_p99")


def cell(figures, best=min, digits=1):
    return f"{best(figures):,.{digits}f} ({statistics.median(figures):,.{digits}f})" if figures else "-"


def ratio(ours, theirs):
    if not ours or not theirs:
        return "-"
    return f"{min(ours) / min(theirs):.2f} ({statistics.median(ours) / statistics.median(theirs):.2f})"


def read(path):
    """The figures of ours by kind, Submits together and clients, and those of the peer by side and name."""
    ours, peer = {}, {}
    for line in open(path):
        side, *words = line.split()
        if side != "ours":
            peer.setdefault((side, words[0]), []).append(float(words[1]))
            continue
        kind, together, clients, requests, nanos, *times = words
        of = ours.setdefault((kind, int(together), int(clients)), {})
        of.setdefault("rate", []).append(int(requests) / int(nanos) * 1e9)
        for name, time in zip(TIMES, times):
            of.setdefault(name, []).append(int(time) / 1000)
    return ours, peer


def print_one_client(ours, peer):
    print("| Link | Submits together | Requests a second | Submit to reply, p50 µs | p99 µs | Done to Noted, p50 µs | p99 µs |")
    print("|---|---|---|---|---|---|---|")
    for (kind, together, clients), of in sorted(ours.items()):
        if clients == 1:
            columns = [cell(of[name]) for name in TIMES[:4]]
            print(f"| {kind} | {together} | {cell(of['rate'], max, 0)} | " + " | ".join(columns) + " |")
    print()
    print("| Beside it | p50 µs | p99 µs |")
    print("|---|---|---|")
    for label, side, name in (
        ("bare ping-pong over TCP, 39 bytes and 56 back", "pingpong", "pingpong"),
        ("peer, Submit to Relay, pipe", "peer-pipe", "latency_submit"),
        ("peer, Submit to Noted, pipe", "peer-pipe", "latency_turn"),
        ("peer, Submit to Relay, TCP", "peer-tcp-1", "latency_submit"),
        ("peer, Submit to Noted, TCP", "peer-tcp-1", "latency_turn"),
    ):
        print(f"| {label} | {cell(peer.get((side, name + '_p50'), []))} | {cell(peer.get((side, name + '_p99'), []))} |")


def print_clients(ours, peer):
    print("| Clients, TCP | Time | p50 µs | peer, p50 µs | ratio | p99 µs | peer, p99 µs | ratio |")
    print("|---|---|---|---|---|---|---|---|")
    for clients in CLIENTS:
        of = ours.get(("tcp", 1, clients), {})
        for label, name in (("Submit to Relay", "submit"), ("Submit to Noted", "turn")):
            columns = []
            for part in ("p50", "p99"):
                mine = of.get(f"{name}_{part}", [])
                theirs = peer.get((f"peer-tcp-{clients}", f"latency_{name}_{part}"), [])
                columns += [cell(mine), cell(theirs), ratio(mine, theirs)]
            print(f"| {clients} | {label} | " + " | ".join(columns) + " |")


def main():
    ours, peer = read(sys.argv[1])
    print_one_client(ours, peer)
    print()
    print_clients(ours, peer)


main()

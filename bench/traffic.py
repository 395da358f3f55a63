"""Counts the bytes of a load's messages, by the report that `play` or `replay` printed of it, beside what a broadcast would send.

    python3 bench/traffic.py PROGRAM [play|replay]

A broadcast sends each accepted action once to each client, as an item without a frame. The report is read by tests/outside/rules/report.py.
"""

import os
import subprocess
import sys
import tempfile

here = os.path.dirname(os.path.abspath(__file__))
sys.path[:0] = [here, os.path.join(os.path.dirname(here), "tests", "outside")]

from rules.report import read_report  # noqa: E402
from loads import SIZES, write_load  # noqa: E402

FRAME = 4


def value_size(value):
    return 1 + 8 * len(value)


def head_size(head):
    return 2 + sum(2 + value_size(value) for _, value in head)


def node_size(node):
    """A statement, an expression or a condition: a byte for its kind, its numbers, and its parts."""
    kind, *parts = node
    if kind == "set":
        return 3 + node_size(parts[2])
    if kind == "if":
        return 1 + node_size(parts[0]) + block_size(parts[1]) + block_size(parts[2])
    if kind == "number":
        return 9
    if kind == "ref":
        return 3
    return 1 + sum(node_size(part) for part in parts if isinstance(part, tuple))


def block_size(statements):
    return 1 + sum(node_size(statement) for statement in statements)


def action_size(action):
    return 1 + 2 * len(action.reads) + 2 + 8 + block_size(action.body)


def item_size(action):
    return 4 + 2 + 4 + action_size(action)


def request_size(request):
    if request.kind == "join":
        return 1 + 2 + 4 + 1 + 2 * len(request.interest)
    if request.kind == "submit":
        return 1 + 4 + action_size(request.action)
    if request.kind == "done":
        return 2 + sum(4 + 1 + sum(map(value_size, values)) for _, values in request.results)
    return 1


def reply_size(reply, accepted):
    if reply.kind == "welcome":
        return 5 + head_size(reply.head)
    if reply.kind == "relay":
        return 9 + head_size(reply.head) + 1 + sum(item_size(accepted[item[0]]) for item in reply.items)
    return {"dropped": 13, "settled": 9, "noted": 5, "idle": 1, "refused": 6, "bye": 1}[reply.kind]


def count(report, clients):
    """Bytes to the server and to the clients, and of a broadcast; how many actions were accepted, and how many items relayed."""
    accepted = {}
    to_server = to_clients = items = 0
    for entry in report.entries:
        if entry.request.kind == "end":
            continue
        if entry.reply.kind == "relay" and entry.request.kind == "submit":
            position = entry.reply.items[-1][0]
            accepted.setdefault(position, entry.request.action)
        if entry.reply.kind == "relay":
            items += len(entry.reply.items)
        to_server += FRAME + request_size(entry.request)
        to_clients += FRAME + reply_size(entry.reply, accepted)
    broadcast = clients * sum(map(item_size, accepted.values()))
    return len(accepted), items, to_server, to_clients, broadcast


def main(program, command):
    print("| Size | Accepted | Items relayed | Bytes to the server | Bytes to the clients | for each action | A broadcast's | for each action | Ratio |")
    print("|---|---|---|---|---|---|---|---|---|")
    with tempfile.TemporaryDirectory() as folder:
        for size in SIZES:
            path, scenario, _ = write_load(folder, size)
            text = subprocess.run([program, command, path], check=True, stdout=subprocess.PIPE).stdout.decode()
            clients = len(scenario["clients"])
            report = read_report(text, clients, len(scenario["objects"]), False)
            accepted, items, up, down, broadcast = count(report, clients)
            print(
                f"| {size} | {accepted:,} | {items:,} | {up:,} | {down:,} | {down / accepted:.1f} "
                f"| {broadcast:,} | {broadcast / accepted:.1f} | {broadcast / down:.2f} |"
            )


main(sys.argv[1], sys.argv[2] if len(sys.argv) > 2 else "play")

"""The generated load as scenario files."""

import json

SIZES = (1, 16, 96, 192)


def act(b, h, j):
    t, u, v = 1 + j % 3, b + j % 4, b + (j + 1 + h) % 4
    objects = " ".join(map(str, sorted({u, v})))
    sets = f"set @{u}.0 (@{u}.0 - {t}); set @{v}.0 (@{v}.0 + {t}); set @{u}.1 (@{u}.1 + 1);"
    return f"reads {objects} writes {objects} {{ {sets} }}"


def load(n):
    """The load of size n as a scenario, and how many actions it makes."""
    pairs, rounds = 1 + (n - 1) % 16, 1 + (n - 1) // 16
    clients = []
    for m in range(pairs):
        for h in (0, 1):
            steps = []
            for r in range(rounds):
                b = 4 * (m * rounds + r)
                steps += [{"act": act(b, h, j)} for j in range(16)] + ["sync"]
            first = 4 * m * rounds
            clients.append({"interest": [first + k for k in range(4)], "steps": steps})
    objects = [[100 + o, 0] for o in range(4 * pairs * rounds)]
    return {"attrs": 2, "objects": objects, "bound": 32, "clients": clients}, 32 * pairs * rounds


def write_load(folder, n):
    """Writes the load of size n into a file, and answers its path, the scenario, and how many actions it makes."""
    scenario, actions = load(n)
    path = f"{folder}/{n}.json"
    with open(path, "w") as file:
        json.dump(scenario, file)
    return path, scenario, actions

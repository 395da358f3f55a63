#!/usr/bin/env python3
"""Says which parts of a crate's proofs took long, by when a check saved each: python3 profile.py crates/NAME/out/incremental [COUNT]

A check with one job saves its modules one after the other, so the time of a module is what passed since the one saved before it. Of a function Lts follows
owned values and borrows, Tie ties the contract to the code, and Proof is what the tactics found; lemmas stand by the names of their files. The times are
those of the clock: on a busy machine compare the figures of one run alone. A check of many functions is made by several processes, and the first module
that a new one saves has the time that it took to begin. Delete crates/NAME/out for a run from nothing, and give `rt check` the words --jobs 1.
"""
import os
import re
import sys


def saved(folder):
    """The modules that a check saved, each with its time, in order."""
    found = []
    for at, _, names in os.walk(folder):
        for name in names:
            if name.endswith(".oantt"):
                found.append((os.stat(f"{at}/{name}").st_mtime, name.removesuffix(".oantt").removesuffix(".decls")))
    return sorted(found)


def summed(pairs):
    sums = {}
    for key, seconds in pairs:
        sums[key] = sums.get(key, 0.0) + seconds
    return sorted(sums.items(), key=lambda pair: -pair[1])


def main(folder, count):
    modules = saved(folder)
    times = [(name, time - before) for (before, _), (time, name) in zip(modules, modules[1:])]
    kinds, functions, parts = [], [], []
    for name, seconds in times:
        found = re.fullmatch(r"Rattle-\w+-proofs\.(.+?)(?:\.((?:Lts|Tie|Proof|Goals|Layout|Answers)\b.*))?", name)
        function, part = (found[1], found[2] or "-") if found else (name, "-")
        kinds.append((re.sub(r"[-.].*", "", part) or "other", seconds))
        functions.append((function, seconds))
        parts.append((name, seconds))
    print(f"{len(modules)} modules in {modules[-1][0] - modules[0][0]:.0f} s: " + ", ".join(f"{kind} {seconds:.0f} s" for kind, seconds in summed(kinds)[:6]))
    for title, pairs in (("functions", functions), ("modules", parts)):
        print(f"\n{title}:")
        for name, seconds in summed(pairs)[:count]:
            print(f"{seconds:8.1f} s  {name}")


if __name__ == "__main__":
    main(sys.argv[1], int(sys.argv[2]) if len(sys.argv) > 2 else 15)

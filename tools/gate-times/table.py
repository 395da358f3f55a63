#!/usr/bin/env python3
"""Makes a table, by crate and kind of check, of the processor minutes of one run of `rt ci`, from what sampler.py wrote.

    python3 table.py SAMPLES.json [--gate FOLDER] [--run PROCESS] [--edits] [--repository FOLDER] [--markdown]

--gate: the folder in which `rt ci` ran (else any folder). --run: the number of its process, where the samples do not tell who started a check, and checks of others
were seen too. --edits lists each must-fail edit with its seconds.
--repository: a checkout, whose edits that were not tried yet are counted too, each at the mean of its crate, or of all where its crate has none.
--markdown: prints the table as one for a document.
"""
import collections
import json
import os
import re
import sys

KINDS = ("proof", "tests", "seed", "edits", "runs")


def options(words):
    given = {"--gate": None, "--run": None, "--repository": None, "--edits": False, "--markdown": False}
    files, at = [], 0
    while at < len(words):
        if words[at] in ("--gate", "--run", "--repository"):
            given[words[at]], at = words[at + 1], at + 1
        elif words[at] in given:
            given[words[at]] = True
        else:
            files.append(words[at])
        at += 1
    return files, given


def runner(sample):
    """The id of the rt that made the temporary folder of a try, which its name tells."""
    found = re.search(r"/rt-edits?-(\d+)-", f"{sample['cwd']} {sample['cmd']}")
    return found and found[1]


def sorted_out(samples, gate, mine):
    """Gives each sample of the run its crate, its kind and, for an edit, its number."""
    if gate:
        samples = [it for it in samples if it.get("rt") in (None, "", gate)]
    runners = collections.Counter(runner(it) for it in samples if runner(it))
    if not mine and runners:
        mine = runners.most_common(1)[0][0]
    for it in samples:
        cmd, cwd = it["cmd"], it["cwd"]
        named = re.search(r"--crate-name (\w+)", cmd)
        of_folder = re.search(r"/crates/(\w+)$", cwd)
        if runner(it):
            if runner(it) != mine or not named:
                continue
            number = re.search(r"/rt-edits-\d+-[^/ ]+/(\w+)", cmd)
            kind = "edits" if not number or number[1] != "seed" else "seed"
            yield named[1], kind, int(number[1]) if number and number[1] != "seed" else -1, it
        elif named and of_folder and (not gate or cwd.startswith(f"{gate}/")):
            if "--incremental" in cmd or "--only" in cmd or "--allow-holes" in cmd:
                # (a check by hand)
                continue
            yield named[1], "tests" if "--test " in cmd else "proof", None, it
        else:
            if gate and it.get("rt") != gate:
                continue
            ran = re.search(r"(?:^|/)((?:sv|test)_\w+?)(?:_tests)?(?:\.by-rattle)?(?: |$)", cmd.split(" -", 1)[0])
            if ran and not named and not cmd.startswith("fmt"):
                yield ran[1], "runs", None, it


def edit_names(repository, crate):
    folder = f"{repository}/crates/{crate}/must-fail"
    return sorted(it for it in os.listdir(folder) if it.endswith(".edit")) if os.path.isdir(folder) else []


def main():
    files, given = options(sys.argv[1:])
    samples = []
    for file in files:
        with open(file, encoding="utf-8") as it:
            samples += json.load(it).values()
    gate = given["--gate"]
    spent = collections.defaultdict(lambda: dict.fromkeys(KINDS, 0.0))
    of_edits = collections.defaultdict(lambda: collections.defaultdict(float))
    begun, ended = [], []
    for crate, kind, number, it in sorted_out(samples, gate, given["--run"]):
        spent[crate][kind] += it["cpu"]
        begun.append(it["t0"])
        ended.append(it["t1"])
        if kind == "edits":
            of_edits[crate][number] += it["cpu"]
    if not spent:
        print("no check of the gate was seen")
        return
    every = [it for numbers in of_edits.values() for it in numbers.values()]
    mean, guessed, total = sum(every) / len(every) if every else 0.0, 0.0, dict.fromkeys(KINDS, 0.0)
    row = "| {} | {} | {} | {} | {} | {} | {} | {} |" if given["--markdown"] else "{:<16}{:>8}{:>8}{:>8}{:>8}{:>12}{:>8}{:>8}"
    print(row.format("crate", "proof", "tests", "seed", "edits", "count, mean", "runs", "all"))
    if given["--markdown"]:
        print("|---|--:|--:|--:|--:|--:|--:|--:|")
    names = sorted(spent, key=lambda it: -sum(spent[it].values()))
    if given["--repository"]:
        listed = sorted(os.listdir(f"{given['--repository']}/crates"))
        names += [it for it in listed if it not in spent and edit_names(given["--repository"], it)]
    for crate in names:
        tried, own = of_edits[crate], spent[crate]
        more = max(0, len(edit_names(given["--repository"], crate)) - len(tried)) if given["--repository"] else 0
        each = sum(tried.values()) / len(tried) if tried else mean
        guessed += more * each
        for kind in KINDS:
            total[kind] += own[kind]
        cells = [f"{own[it] / 60:.1f}" if own[it] else "" for it in KINDS]
        count = f"{len(tried) + more}, {each:.0f} s" if len(tried) + more else ""
        if more:
            cells[3] = f"{(own['edits'] + more * each) / 60:.1f}*"
        print(row.format(crate, *cells[:4], count, cells[4], f"{(sum(own.values()) + more * each) / 60:.1f}"))
    cells = [f"{total[it] / 60:.1f}" for it in KINDS]
    if guessed:
        cells[3] = f"{(total['edits'] + guessed) / 60:.1f}*"
    print(row.format("all", *cells[:4], f"{len(every)} tried, {mean:.0f} s", cells[4], f"{(sum(total.values()) + guessed) / 60:.1f}"))
    print(f"\n{(sum(total.values()) + guessed) / 60:.0f} processor minutes, seen over {(max(ended) - min(begun)) / 60:.0f} minutes.")
    if guessed:
        print("* with edits that were not tried yet, each at the mean of its crate, or of all where its crate has none.")
    if given["--edits"]:
        for crate in names:
            known = edit_names(given["--repository"], crate) if given["--repository"] else []
            for number, cpu in sorted(of_edits[crate].items()):
                name = known[number] if 0 <= number < len(known) else ""
                print(f"{crate} {number} {name} {cpu:.0f} s")


if __name__ == "__main__":
    main()

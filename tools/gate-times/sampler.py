#!/usr/bin/env python3
"""Notes, each second, the processor time of each check of a running `rt ci`: python3 sampler.py SAMPLES.json

It runs beside the gate until it is stopped, and writes the file every 20 seconds: for each process its command (shortened), its folder, the folder
of the `rt` that started it, when it was seen first and last, its processor seconds and its greatest size in megabytes. table.py makes a table of it.
"""
import json
import os
import sys
import time

OWN = (b"/rattle", b"/clang", b"ld.lld")
TICKS = os.sysconf("SC_CLK_TCK")


def is_ours(program):
    name = os.path.basename(program)
    return program.endswith(OWN) or name.startswith((b"sv_", b"test_"))


def shortened(words):
    """The command without the paths of the kit and what names a library's folder."""
    kept = [it.decode(errors="replace") for it in words if it]
    return " ".join(it for it in kept if not it.startswith("/opt") and "=" not in it)[:600]


def starter(process):
    """The folder in which the nearest `rt` above a process runs; empty where there is none."""
    for _ in range(6):
        with open(f"/proc/{process}/stat", encoding="utf-8", errors="replace") as it:
            process = it.read().rsplit(")", 1)[1].split()[1]
        if process in ("0", "1"):
            return ""
        with open(f"/proc/{process}/cmdline", "rb") as it:
            if any(os.path.basename(word) == b"rt" for word in it.read().split(b"\0")[:3]):
                return os.readlink(f"/proc/{process}/cwd")
    return ""


def look(process):
    """The key of a process of the gate, and what there is to note of it; None for any other."""
    with open(f"/proc/{process}/cmdline", "rb") as it:
        words = it.read().split(b"\0")
    if not is_ours(words[0]):
        return None
    with open(f"/proc/{process}/stat", encoding="utf-8", errors="replace") as it:
        fields = it.read().rsplit(")", 1)[1].split()
    found = {
        "cmd": shortened(words),
        "rt": starter(process),
        "cwd": os.readlink(f"/proc/{process}/cwd"),
        "cpu": (int(fields[11]) + int(fields[12])) / TICKS,
        "rss": int(fields[21]) * 4096 >> 20,
    }
    return f"{process}:{fields[19]}", found


def note(seen, key, found, now):
    old = seen.get(key, {"t0": now, "rss": 0, **found})
    seen[key] = {**old, "t1": now, "cpu": found["cpu"], "rss": max(old["rss"], found["rss"])}


def write(seen, file):
    with open(f"{file}.tmp", "w", encoding="utf-8") as it:
        json.dump(seen, it)
    os.replace(f"{file}.tmp", file)


def main(file):
    seen, written = {}, 0.0
    while True:
        now = time.time()
        for process in filter(str.isdigit, os.listdir("/proc")):
            try:
                found = look(process)
            except (OSError, IndexError, ValueError):
                # (it ended meanwhile)
                continue
            if found:
                note(seen, *found, now)
        if now - written > 20:
            written = now
            write(seen, file)
        time.sleep(1)


if __name__ == "__main__":
    main(sys.argv[1])

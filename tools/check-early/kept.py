"""Gives the crates of a clone the libraries that `rt ci` keeps of just the same text, so that on one machine nothing is proved twice."""

import contextlib
import hashlib
import importlib.machinery
import importlib.util
import json
import os
import sys

KIT = "/opt/rattle"


def load_rt():
    """The toolchain's own command as a module: its sums are those of the gate."""
    loader = importlib.machinery.SourceFileLoader("rt_command", f"{KIT}/bin/rt")
    made = importlib.util.module_from_spec(importlib.util.spec_from_loader("rt_command", loader))
    sys.modules["rt_command"] = made
    loader.exec_module(made)
    return made


rt = load_rt()


def place(crate, kept, files):
    """Puts the kept files of a library into the crate's folder `out`. Its stamp, which is written last, says of which text it is."""
    for number, (path, _) in enumerate(files):
        whole = f"{crate.folder}/out/{path}"
        if not os.path.exists(whole):
            os.makedirs(os.path.dirname(whole), exist_ok=True)
            rt.link_or_copy(f"{kept}/{number}", whole)
    with open(f"{crate.folder}/out/rlib/stamp", "w", encoding="utf-8") as file:
        file.write(crate.stamp())


def crates_of(root):
    """All crates of a clone, lowest first, each with its library where one is kept."""
    rt.rtlib.Crate, rt.Crate.cuts_libraries, rt.Crate.allowed = rt.Crate, True, rt.handles_of(root)
    crates = sorted(rt.rtlib.crates_below(root), key=lambda it: len(it.below()))
    gate = rt.Kept([])
    for crate in crates:
        if crate.is_program or any(it.name not in gate.rlibs for it in crate.below()):
            continue
        kept = gate.place(crate, False, gate.key(crate))
        with contextlib.suppress(OSError, ValueError, KeyError):
            with open(f"{kept}/made.json", encoding="utf-8") as file:
                files = json.load(file)["files"]
            gate.rlibs[crate.name] = hashlib.sha256(repr([tuple(each) for each in files]).encode()).hexdigest()
            if not crate.is_built():
                place(crate, kept, files)
    return crates

#!/usr/bin/env python3
"""Lists the public calls of the crates with the clauses of their contracts, for docs/CALLS.md.

    python3 tools/guarantees/calls.py          prints the list
    python3 tools/guarantees/calls.py --write  puts it into docs/CALLS.md
    python3 tools/guarantees/calls.py --check  fails where docs/CALLS.md has another one

A call is public where its crate exports it: a function or a type that lib.rt names by `pub use` (or has itself as `pub fn`),
with the type's `pub fn`s, and the methods of an exported trait. Laws, which are functions without code for proofs, are left out.
"""

import os
import re
import sys
import textwrap

HERE = os.path.dirname(os.path.abspath(__file__))
TOP = os.path.normpath(os.path.join(HERE, "..", ".."))
PAGE = os.path.join(TOP, "docs", "CALLS.md")
WIDTH = 120
# What is said of calls that end, refuse nothing but for want of memory, and change nothing. They are left out.
PLAIN = (("yes", "no refusal", "nothing is changed"), ("yes", "memory alone", "nothing is changed"))
# Doubles in memory, for tests.
DOUBLE = re.compile(r"(Mem[A-Z]|CallPlan|HoldGate|FewCrew)")
BEGIN, END = "<!-- calls: begin -->", "<!-- calls: end -->"
WAITS = re.compile(r"\bR: [^,>{]*\bWait\b|impl Wait")
SYSTEM = {"End", "Net", "Crew", "Door"}
# A type of an impl's head by which its methods may wait; what they hold of it; and a call that only puts it into a new value.
HANDLE = re.compile(r"[<,] ?([A-Z][A-Za-z]*): (?:[^,<>]*\+ )?(?:Wait|End|Net|Door)\b")
HELD = re.compile(r"\bself\.(?:rt|connection)\b")
STORED = re.compile(r"\b[A-Z][A-Za-z]*::(?:new|at)\([^()]*\)")
REFUSES = re.compile(r"^(Result|Option)<|^(io::Result|Begun|Read|Wrote|EndRead|EndWrote|Pair|Settle|Ran|EndMade|Sent|Next|Filled|Incoming|View|Overlay|"
                     r"Views|SessionOut|PlayerOut|Posted|Put|Played)\b")
REFUSED = re.compile(r"\b(OnErr|IfErr|IsErr|Err|None|IsNone|Memory|Failed|Match\w*|IsOk|IsSome|Rose|faults|Is\w*Cause|option_\w+|Refus\w*|"
                     r"refus\w*|fault\w*|\w*Cause\w*)\b")
# Clauses that say more of the refusals, or of what is left, than their words show: of the calls that answer a status, and of these.
OF_STATUSES = ("answers", "pairs")
MORE_REFUSED = {"serve_session": ("served",), "play_client": ("exact",), "takes_room": ("room",)}
MORE_LEFT = {"play_all": ("lines",)}


def names_exported(text):
    """The names that lib.rt exports."""
    found = set()
    for group in re.findall(r"pub use [a-z_:]+::(\{[^}]*\}|[A-Za-z_0-9]+)", text):
        found |= set(re.findall(r"[A-Za-z_0-9]+", group))
    return found


def depth_of(line):
    """How far a line is indented, in levels."""
    return (len(line) - len(line.lstrip(" "))) // 4


def signatures(lines, start):
    """The head of a function, from its first line up to its body, and where that is."""
    head, place = [], start
    while True:
        line = lines[place]
        if not line.strip().startswith("//"):
            head.append(line.strip())
        if line.rstrip().endswith("{") and not re.match(r"\s*(requires|ensures)", line) or line.rstrip().endswith(";") \
                or line.strip() == "{" or re.search(r"\{\}$", line.rstrip()):
            return " ".join(head), place
        place += 1


def body_of(lines, start):
    """The body of a function whose head ends here."""
    depth = depth_of(lines[start])
    end = start
    while lines[end].rstrip() not in (" " * 4 * depth + "}", " " * 4 * depth + "{}") and end + 1 < len(lines):
        end += 1
    return " ".join(line.strip() for line in lines[start + 1:end])


def head_of_block(lines, start):
    """The head of an impl or a trait."""
    end = start
    while "{" not in lines[end]:
        end += 1
    return " ".join(line.strip() for line in lines[start:end + 1])


def waiting_methods(lines, start):
    """The methods of a block that may wait by what its head's types hold: they use it, take one, or let theirs go."""
    handles = HANDLE.findall(head_of_block(lines, start))
    if not handles:
        return set()
    bodies, waiting = {}, set()
    for place in range(start + 1, len(lines)):
        if lines[place].rstrip() == "}":
            break
        if not re.match(r"    (?:pub(?:\([a-z]+\))? )?(?:const )?fn ", lines[place]):
            continue
        head, end = signatures(lines, place)
        name, front, _, _ = parsed(head)
        bodies[name] = STORED.sub("", body_of(lines, end))
        if HELD.search(bodies[name]) or re.search(r"\((?:mut )?self\b", front) or any(re.search(rf": {one}\b", front) for one in handles) \
                or ".into_log()" in bodies[name]:
            waiting.add(name)
    while more := {name for name, body in bodies.items() if name not in waiting
                   and any(re.search(rf"\bself\.{one}\(", body) for one in waiting)}:
        waiting |= more
    return waiting


def parsed(head):
    """Name, arguments, result and clause names of a function's head."""
    name = re.search(r"fn ([A-Za-z_0-9]+)", head)[1]
    contract = re.search(r"\s(ghost|requires|ensures)\*?\s", head)
    front = head[:contract.start()] if contract else head
    result = re.search(r"-> (.*?)(?: where .*)?(?:\s*\{\}?|;)?$", front.strip())
    clauses = []
    for kind, label, clause in re.findall(r"\b(requires|ensures)\*?\s+([a-z_0-9]+ )?\{(.*?)\}(?=\s*(?:requires|ensures|\{|;|$))", head):
        clauses.append((kind, label.strip() or "result", clause))
    return name, front, (result[1].strip().rstrip("{").strip() if result else ""), clauses


def calls_of(crate):
    """The public calls of a crate: owner, name, front, result, clauses, and whether they may wait by the head of their impl."""
    source = os.path.join(TOP, "crates", crate, "src")
    files = {}
    for folder, _, names in os.walk(source):
        for name in names:
            if name.endswith(".rt"):
                with open(os.path.join(folder, name), encoding="utf-8") as file:
                    files[os.path.relpath(os.path.join(folder, name), source)] = file.read()
    exported = names_exported(files.get("lib.rt", ""))
    for name in sorted(files):
        lines = files[name].split("\n")
        owner, is_trait, waiting = None, False, set()
        for place, line in enumerate(lines):
            if line.startswith("#[cfg(test)]"):
                break
            if block := re.match(r"(?:pub )?(?:unsafe )?(impl|trait)\b(?:<.*?>)? ?(.*)", line):
                text = re.sub(r"<[^<>]*>", "", re.sub(r"<[^<>]*>", "", re.sub(r"<[^<>]*>", "", line)))
                found = re.match(r"(?:pub )?(?:unsafe )?(impl|trait) (?:([A-Za-z_0-9]+) for )?([A-Za-z_0-9]+)", text)
                is_trait = bool(found) and found[1] == "trait"
                waiting = set() if is_trait else waiting_methods(lines, place)
                owner = found[3] if found and not found[2] else None
                if found and found[2]:
                    owner = ""
            is_call = re.match(r"(    )?pub (?:const )?fn ", line) or (is_trait and re.match(r"    (?:final )?fn ", line))
            if not is_call:
                continue
            mine = owner if line.startswith("    ") else None
            if mine == "":
                continue
            head, _ = signatures(lines, place)
            function, front, result, clauses = parsed(head)
            if (mine or function) not in exported and not (name == "lib.rt" and mine is None):
                continue
            yield mine, function, front, result, clauses, bool(mine) and function in waiting


def list_of(labels):
    """Labels of clauses, each once."""
    return ", ".join(f"`{one}`" for one in dict.fromkeys(labels))


def columns(owner, function, front, result, clauses, waiting):
    """The three answers: whether it ends, which clauses carry its refusals, and which the state afterwards."""
    ensured = [(label, text) for kind, label, text in clauses if kind == "ensures"]
    waits = waiting or bool(WAITS.search(front)) or owner in SYSTEM or bool(re.search(r"[<,] ?[A-Z]: (?:\S+ \+ )?(End|Net|Crew|Door)\b", front))
    is_status = owner is None and function.startswith("run_") or function == "run" and result == "u8"
    more = MORE_REFUSED.get(function, ()) + (OF_STATUSES if is_status else ())
    named = [label for label, text in ensured if label != "same" and REFUSED.search(text) or label in more
             or label in ("err", "cause", "refused", "certain", "complete")]
    if result.startswith("Option<") and not ensured:
        refusals = "no refusal; no clause says what it answers"
    elif not (REFUSES.search(result) or is_status or named and result == "bool"):
        refusals = "no refusal"
    elif "AllocError" in result and not [label for label in named if label != "err"]:
        refusals = "memory alone" + (f": {list_of(named)}" if named else "")
    else:
        refusals = list_of(named or [label for label, _ in ensured]) or ("no clause" if "io::Result" in result else "memory alone")
    kept = [label for label, text in ensured if re.search(r"[.\s]new\b|\.entry\b", text) or label in MORE_LEFT.get(function, ())]
    if "&mut" not in front:
        state = "nothing is changed"
    else:
        state = list_of(kept) or "no clause"
    return "may wait" if waits else "yes", refusals, state


def line_of(answers, calls):
    """The line of the calls with these answers: what is as a rule so is left out, and a clause that says both stands once. It is
    wrapped, but never inside a name."""
    ends, refusals, state = answers
    said = ["waits"] if ends == "may wait" else []
    unsaid, _, more = refusals.partition("no refusal; ")
    unsaid = unsaid.replace("memory alone: ", "memory, ").replace("memory alone", "memory")
    both = [one for one in unsaid.split(", ") if one.startswith("`") and one in state.split(", ")]
    refused, left = (", ".join(one for one in text.split(", ") if one not in both) for text in (unsaid, state))
    if more or refusals == "no refusal":
        said += [more] if more else []
    elif refused:
        said += [refused if refused.startswith("memory") else f"refuses: {refused}"]
    said += [f"both: {', '.join(both)}"] if both else []
    said += [f"leaves: {left}"] if left and state != "nothing is changed" else []
    line = f"- {', '.join(calls)}" + (f": {'; '.join(said)}" if said else "")
    return "\n".join(textwrap.wrap(line, WIDTH, subsequent_indent="  ", break_long_words=False, break_on_hyphens=False))


def table():
    """The list of all crates: the calls of a crate with the same answers share a line."""
    with open(os.path.join(TOP, "crates.txt"), encoding="utf-8") as file:
        crates = sorted(line.split(":")[0] for line in file if line.startswith(("sv_", "law_")))
    parts = []
    for crate in crates:
        rows = {}
        for owner, function, front, result, clauses, waiting in calls_of(crate):
            if not re.search(r"[&A-Za-z]", re.sub(r".*?\(", "", front, count=1).split(")")[0]) and not result:
                continue
            call, answers = f"{owner}::{function}" if owner else function, columns(owner, function, front, result, clauses, waiting)
            if answers not in PLAIN and not DOUBLE.match(owner or ""):
                rows.setdefault(answers, []).append(f"`{call}`")
        if rows:
            parts.append(f"**`{crate}`**\n\n" + "\n".join(line_of(answers, calls) for answers, calls in rows.items()))
    return "\n" + "\n\n".join(parts) + "\n"


def main(words):
    """Prints the table, writes it, or compares it with the page's."""
    if words not in (["--check"], ["--write"]):
        print(table())
        return 0
    with open(PAGE, encoding="utf-8") as file:
        page = file.read()
    begin, end = page.index(BEGIN) + len(BEGIN), page.index(END)
    fresh = page[:begin] + "\n" + table() + "\n" + page[end:]
    if words == ["--write"]:
        with open(PAGE, "w", encoding="utf-8") as file:
            file.write(fresh)
    elif page != fresh:
        print("docs/CALLS.md is not what tools/guarantees/calls.py writes", file=sys.stderr)
        return 1
    return 0


if __name__ == "__main__":
    sys.exit(main(sys.argv[1:]))

#!/usr/bin/env python3
"""Processor minutes that the gate takes, crate by crate: proofs, tests and must-fail edits.

  gate_cost.py watch FILE     while gates run on this machine, appends one JSON line to FILE for each
                              process of the prover that ended under an `rt ci`, until it is stopped
  gate_cost.py table FILE     prints a Markdown table: lines and processor minutes a crate, of the last
                              run that proved it from nothing

The gate's own log names what it did and not what it cost, so the costs are read from the system's table of
processes. A process that ends between two looks is counted up to the last one.
"""
import collections
import json
import os
import re
import sys
import time

LOOK_EVERY = 0.5
TICKS = os.sysconf("SC_CLK_TCK")
KINDS = ("proof", "tests", "edits")


def read(path):
    try:
        with open(path, "rb") as it:
            return it.read()
    except OSError:
        return b""


def words_of(pid):
    return read(f"/proc/{pid}/cmdline").decode(errors="replace").split("\0")


def stat_of(pid):
    """The parent's number and the processor seconds of a process, its ended children among them."""
    text = read(f"/proc/{pid}/stat").decode(errors="replace")
    if not text:
        return None
    fields = text.rpartition(") ")[2].split()
    return int(fields[1]), sum(map(int, fields[11:15])) / TICKS


def gate_above(pid):
    """The number of the `rt ci` that a process runs under, or None."""
    for _ in range(8):
        stat = stat_of(pid)
        if stat is None or stat[0] <= 1:
            return None
        pid = stat[0]
        if " ".join(words_of(pid)).find("rt ci") >= 0:
            return pid
    return None


def kind_of(words):
    """What a process of the prover is there for: a crate's proof, its tests, or its must-fail edits."""
    line = " ".join(words)
    if "/rt-edits-" in line or "must-fail" in line:
        return "edits"
    return "tests" if "--test" in words else "proof"


def crate_of(words):
    return words[words.index("--crate-name") + 1] if "--crate-name" in words[:-1] else None


def look(seen):
    """Notes each running process of the prover in `seen`, and returns the numbers of those that run."""
    running = set()
    for name in os.listdir("/proc"):
        if not name.isdigit():
            continue
        words = words_of(name)
        if not words or os.path.basename(words[0]) not in ("rattle", "rattle-test", "rattle-link"):
            continue
        crate, stat = crate_of(words), stat_of(name)
        if crate is None or stat is None:
            continue
        if name not in seen:
            gate = gate_above(name)
            if gate is None:
                continue
            seen[name] = {"gate": gate, "crate": crate, "kind": kind_of(words), "began": time.time()}
        seen[name]["seconds"] = stat[1]
        running.add(name)
    return running


def watch(file):
    seen = {}
    while True:
        running = look(seen)
        ended = [name for name in seen if name not in running]
        if ended:
            with open(file, "a", encoding="utf-8") as out:
                for name in ended:
                    out.write(json.dumps(seen.pop(name)) + "\n")
        time.sleep(LOOK_EVERY)


def lines_of(top):
    """The lines of each crate's code, definitions and proofs; tests apart."""
    found = collections.defaultdict(int)
    for folder, folders, files in os.walk(f"{top}/crates"):
        folders[:] = [it for it in folders if it not in ("out", "__pycache__")]
        for name in files:
            if name.endswith((".rt", ".antt")):
                crate = os.path.relpath(folder, f"{top}/crates").split(os.sep)[0]
                found[crate] += read(f"{folder}/{name}").count(b"\n")
    return found


def table(file):
    costs = collections.defaultdict(lambda: collections.defaultdict(lambda: collections.defaultdict(float)))
    with open(file, encoding="utf-8") as it:
        for line in it:
            said = json.loads(line)
            costs[said["crate"]][said["kind"]][said["gate"]] += said.get("seconds", 0)
    lines = lines_of(os.path.dirname(os.path.dirname(os.path.abspath(__file__))))
    print("| Crate | Lines | Proof | Tests | Edits | Together |")
    print("|---|---|---|---|---|---|")
    total = dict.fromkeys(KINDS, 0.0)
    for crate in sorted(lines):
        # a run that found the crate kept has no cost there; of the others the dearest began from nothing
        of = {kind: max(costs[crate][kind].values(), default=0.0) / 60 for kind in KINDS}
        for kind in KINDS:
            total[kind] += of[kind]
        row = " | ".join(f"{of[kind]:.1f}" for kind in KINDS)
        print(f"| `{crate}` | {lines[crate]:,} | {row} | {sum(of.values()):.1f} |")
    row = " | ".join(f"{total[kind]:.0f}" for kind in KINDS)
    print(f"| all | {sum(lines.values()):,} | {row} | {sum(total.values()):.0f} |")


def main(words):
    if len(words) == 2 and words[0] == "watch":
        watch(words[1])
    elif len(words) == 2 and words[0] == "table":
        table(words[1])
    else:
        print(__doc__, file=sys.stderr)
        return 2
    return 0


if __name__ == "__main__":
    try:
        sys.exit(main(sys.argv[1:]))
    except KeyboardInterrupt:
        sys.exit(0)

#!/usr/bin/env python3
"""Processor minutes of the gate for each crate: its proofs, its tests and its must-fail edits.

Runs `rt ci --anew` at the top of the repository, or the command that the words give, looks once a second at the processes
below it, and prints the table of docs/GATE_TIME.md when it has ended. What a process uses behind the last look is not
counted, so each process counts up to a second too little.
"""
import os
import re
import subprocess
import sys
import time

TOP = os.path.dirname(os.path.dirname(os.path.abspath(__file__)))
TICKS = os.sysconf("SC_CLK_TCK")
KINDS = ["proofs", "tests", "edits"]


def process(pid):
    """The parent, the start, the processor seconds, the folder and the words of a process, or None where it is gone."""
    try:
        with open(f"/proc/{pid}/stat") as file:
            fields = file.read().rpartition(")")[2].split()
        with open(f"/proc/{pid}/cmdline") as file:
            words = file.read().split("\0")
        folder = os.readlink(f"/proc/{pid}/cwd")
    except OSError:
        return None
    return int(fields[1]), fields[19], (int(fields[11]) + int(fields[12])) / TICKS, folder, words


def kind_of(folder, words):
    """The crate and the kind of work of a process, or None where it proves nothing."""
    text = " ".join(words)
    named = re.search(r"--crate-name (\w+)", text)
    if not named or "rattle" not in words[0]:
        return None
    if "rt-edit" in folder:
        return named[1], "edits"
    return named[1], "tests" if "--test" in words else "proofs"


def look(root, known, used):
    """Adds what the processes below the root, or below one that is known, have used by now."""
    found = {int(pid): process(pid) for pid in os.listdir("/proc") if pid.isdigit()}
    found = {pid: seen for pid, seen in found.items() if seen}
    known |= {(root, found[root][1])} if root in found else set()
    grown = True
    while grown:
        grown = False
        for pid, (parent, start, *_) in found.items():
            above = found.get(parent)
            if (pid, start) not in known and above and (parent, above[1]) in known:
                known.add((pid, start))
                grown = True
    for pid, (_, start, seconds, folder, words) in found.items():
        kind = kind_of(folder, words) if (pid, start) in known else None
        if kind:
            used[pid, start] = (kind, seconds)


def order():
    """The crates in the order of crates.txt."""
    with open(os.path.join(TOP, "crates.txt")) as file:
        return [line.split(":")[0].split()[0] for line in file if ":" in line and not line.startswith("#")]


def print_table(used, wall):
    sums = {}
    for kind, seconds in used.values():
        sums[kind] = sums.get(kind, 0) + seconds / 60
    names = order() + sorted({name for name, _ in sums} - set(order()))
    print("| crate | " + " | ".join(KINDS) + " | together |\n|---|" + "---|" * 4)
    for name in names + ["all"]:
        row = [sum(minutes for (crate, kind), minutes in sums.items() if kind == column and name in (crate, "all"))
               for column in KINDS]
        if sum(row) > 0:
            print(f"| {name} | " + " | ".join(f"{minutes:.1f}" for minutes in row + [sum(row)]) + " |")
    print(f"\n{wall / 60:.0f} minutes by the clock.")


def main():
    command = sys.argv[1:] or ["rt", "ci", "--anew"]
    began = time.time()
    run = subprocess.Popen(command, cwd=TOP)
    known, used = set(), {}
    while run.poll() is None:
        look(run.pid, known, used)
        time.sleep(1)
    print_table(used, time.time() - began)
    sys.exit(run.returncode)


main()

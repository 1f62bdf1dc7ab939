#!/usr/bin/env python3
"""Prints a table of the processor seconds that each crate takes in the gate: its proof, its tests and its edits.

The gate runs once, as `make test` runs it, in a temporary clone of the commit that is checked out. What a check
takes is read from /proc twice a second while it runs, so that the table costs no more than the gate does. Other work
on the machine makes the seconds larger. The last line has the sums, and the processor time of the whole gate.
"""
import os
import resource
import subprocess
import sys
import tempfile
import time
from collections import defaultdict
from pathlib import Path

sys.dont_write_bytecode = True
from crates import ROOT, need_kit, read_crates

TICK = os.sysconf("SC_CLK_TCK")
KINDS = ("proof", "tests", "edits")


def processes():
    """The parent, the start and the processor seconds of each process, by its number."""
    found = {}
    for folder in Path("/proc").glob("[0-9]*"):
        try:
            fields = (folder / "stat").read_text().rpartition(")")[2].split()
        except OSError:
            # (it has ended)
            continue
        found[int(folder.name)] = int(fields[1]), fields[19], sum(map(int, fields[11:15])) / TICK
    return found


def is_below(number, top, found):
    """Whether a process was started by another, or by one that it started."""
    while number in found and number != top:
        number = found[number][0]
    return number == top


def check_of(number, clone):
    """The crate that a process checks, and for what; nothing of a process that is no check."""
    try:
        words = Path(f"/proc/{number}/cmdline").read_text(errors="replace").split("\0")
        folder = Path(os.readlink(f"/proc/{number}/cwd"))
    except OSError:
        return None
    if "--crate-name" not in words:
        return None
    kind = "tests" if "--test" in words else "proof" if clone in folder.parents else "edits"
    return words[words.index("--crate-name") + 1], kind


def watch(gate, clone):
    """The seconds of each check of the gate, by crate and kind."""
    checks = {}
    while gate.poll() is None:
        found = processes()
        for number, (_, start, seconds) in found.items():
            check = is_below(number, gate.pid, found) and check_of(number, clone)
            if check:
                checks[number, start] = check, seconds
        time.sleep(0.5)
    spent = defaultdict(float)
    for check, seconds in checks.values():
        spent[check] += seconds
    return spent


def main():
    need_kit()
    with tempfile.TemporaryDirectory(prefix="profile-") as room:
        clone = Path(room).resolve() / "clone"
        subprocess.run(["git", "clone", "-q", ROOT, clone], check=True)
        with open(Path(room) / "log", "w+", errors="replace") as log:
            gate = subprocess.Popen(["scripts/gate.sh"], cwd=clone, stdout=log, stderr=subprocess.STDOUT)
            spent = watch(gate, clone)
            log.seek(0)
            last = log.read().rstrip().rpartition("\n")[2]
    print("| Crate | proof | tests | edits |\n|---|---|---|---|")
    for name in read_crates():
        print(f"| {name} | {' | '.join(f'{spent[name, kind]:.0f}' for kind in KINDS)} |")
    sums = {kind: sum(it for (_, of), it in spent.items() if of == kind) for kind in KINDS}
    usage = resource.getrusage(resource.RUSAGE_CHILDREN)
    total = usage.ru_utime + usage.ru_stime
    print(f"| all, {total:.0f} with what is no check | {' | '.join(f'{sums[kind]:.0f}' for kind in KINDS)} |")
    print(last)
    return gate.returncode


if __name__ == "__main__":
    sys.exit(main())

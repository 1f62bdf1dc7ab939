#!/usr/bin/env python3
"""Plays scripts of many `copies` of 1,024 splits: their reports are long, and are written within little memory.

    long_report.py PROGRAM..

In the first script all `copies` order the same. In the others each orders otherwise than the one before: each split
goes to another worker; one split goes from another worker to another one; or most splits go to another worker, and some
from another one. A report keeps of each `copies` no more than how many events came before it. Each report is compared
with what it is to be, byte by byte. The memory is what the program has at its peak. The last line is 'N passed, M
failed'.
"""
import re
import subprocess
import sys
import tempfile
from itertools import chain, repeat
from pathlib import Path

sys.dont_write_bytecode = True
import crates  # (it ends a script quietly where head does)

MEGABYTE = 1_000_000
COMMANDS = 65_536
SPLITS = [f"s{number}" for number in range(1024)]
ROUNDS = COMMANDS // 4

# A child's peak is at least what its parent has when it starts, so a small process starts it: it tells the peak in
# KiB and the status on standard error.
STARTER = """
import os, sys
child = os.fork()
if not child:
    os.execv(sys.argv[1], sys.argv[1:])
_, status, used = os.wait4(child, 0)
print(used.ru_maxrss, os.waitstatus_to_exitcode(status), file=sys.stderr)
"""


def head(racks, workers, holders):
    """A head with these racks, these workers as pairs with their racks, and all splits on these holders."""
    lines = ["script 1", *(f"rack {rack}" for rack in racks), *(f"worker {name} {rack} 1" for name, rack in workers)]
    return [*lines, *(f"split {split} 1 {' '.join(holders)}" for split in SPLITS), "begin"]


def orders(*pairs):
    """The lines of a `copies`, where all splits go from and to the last pair, and the first ones by the others."""
    routes = chain(pairs[:-1], repeat(pairs[-1]))
    lines = (f"copy {split} {source} {to}\n" for split, (source, to) in zip(SPLITS, routes))
    return f"copies {len(SPLITS)}\n{''.join(lines)}".encode()


def accepted(at):
    return f"accepted {at}\n".encode()


def open_splits():
    return "".join([f"stuck {len(SPLITS)}\n", *(f"open {split}\n" for split in SPLITS)]).encode()


def the_same():
    """A script whose `copies` all order the same, and the pieces of its report."""
    lines = [*head("rq", ["ar", "bq", "cq"], "a"), *["copies"] * COMMANDS]
    return lines, repeat(orders("ab"), COMMANDS)


def each_another():
    """Before each `copies` the worker to which all splits would go dies or returns."""
    lines = [*head("rq", ["ar", "bq", "cq"], "a"), *["die b", "copies", "join b", "copies"] * ROUNDS]
    dead, live = orders("ac"), orders("ab")
    return lines, (accepted(2 * at + 1) + dead + accepted(2 * at + 2) + live for at in range(ROUNDS))


def another_of_one_split():
    """Before each `copies` a split is lost by its first holder, or is there again."""
    lines = head("rq", ["ar", "bq", "cq"], "ab")
    for at in range(ROUNDS):
        split = SPLITS[at % len(SPLITS)]
        lines += [f"lose {split} a", "copies", f"add {split} a", "copies"]
    whole = orders("ac")

    def pieces():
        for at in range(ROUNDS):
            split = SPLITS[at % len(SPLITS)]
            lost = whole.replace(f"copy {split} a c\n".encode(), f"copy {split} b a\n".encode())
            yield accepted(2 * at + 1) + lost + accepted(2 * at + 2) + whole

    return lines, pieces()


def another_of_other_holders():
    """Before each `copies` a worker alone in its rack dies, or returns with some of the splits."""
    few = 16
    join = " ".join(["join a", *SPLITS[:few]])
    lines = [*head("xqr", ["ax", "bq", "cq", "dr"], "d"), *["die a", "copies", join, "copies"] * ROUNDS]
    dead, live = orders("db"), orders(*["ab"] * few, "da")
    return lines, (accepted(2 * at + 1) + dead + accepted(2 * at + 2) + live for at in range(ROUNDS))


# How many bytes a program may have at its peak, and each kind of script: its lines, and the pieces of its report up to
# the open splits.
MOST = 20 * MEGABYTE
ALL = {
    "all copies the same": the_same,
    "each copies to another worker": each_another,
    "each copies another of one split": another_of_one_split,
    "each copies another, of other holders": another_of_other_holders,
}


def wrong(program, file, pieces):
    """What is wrong with a report or with the memory that it takes, or None; and the peak."""
    with open(file, "rb") as text:
        starter = [sys.executable, "-I", "-S", "-c", STARTER, program, "play"]
        run = subprocess.Popen(starter, stdin=text, stdout=subprocess.PIPE, stderr=subprocess.PIPE)
    is_so = all(run.stdout.read(len(piece)) == piece for piece in pieces) and not run.stdout.read(1)
    run.stdout.close()
    resident, status = re.search(r"(\d+) (-?\d+)\n$", run.stderr.read().decode()).groups()
    run.wait()
    peak = int(resident) * 1024
    if not is_so or status != "1":
        return f"it ends with {status}" if is_so else "its report is another", peak
    return (f"it takes more than {MOST} bytes" if peak > MOST else None), peak


def main(programs):
    passed = failed = 0
    with tempfile.TemporaryDirectory() as room:
        file = Path(room) / "script"
        for program in programs:
            for name, make in ALL.items():
                lines, pieces = make()
                file.write_text("\n".join([*lines, "end", ""]))
                found, peak = wrong(program, file, chain(pieces, [open_splits()]))
                print(f"{program}: {name}: {peak / MEGABYTE:.1f} MB{f': FAILED: {found}' if found else ''}", flush=True)
                passed, failed = passed + (found is None), failed + (found is not None)
    print(f"{passed} passed, {failed} failed")
    return 1 if failed or not passed else 0


if __name__ == "__main__":
    sys.exit(main(sys.argv[1:]))

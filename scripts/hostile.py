#!/usr/bin/env python3
"""Gives the built programs long texts with a fault that are dear to answer: a line of millions of words, or a fault
behind all that a text may declare. Each has its answer, within so much memory and so many instructions.

    hostile.py PROGRAM..

The memory is what a child has at its peak beside the text, which has 16 MiB if lines of its kind can be so many. The
instructions are those of the first program on a text of 512 KiB, less those on a short one; valgrind counts them, where
it is installed. The bounds are some tenths above what was measured. The last line is 'N passed, M failed'.
"""
import os
import re
import shutil
import subprocess
import sys
import tempfile
from concurrent.futures import ThreadPoolExecutor
from pathlib import Path

sys.dont_write_bytecode = True
import crates  # (it ends a script quietly where head does)

LONGEST = 16_777_216
SHORT = 524_288
MEGABYTE = 1_000_000
MANY = 1_048_576
WORKERS = [f"w{number}" for number in range(256)]
SPLITS = [f"s{number}" for number in range(1024)]


def lines(*said):
    return "".join(f"{line}\n" for line in said)


def head(kind, workers, splits):
    """The head of a text: one rack, these workers and these splits, each on the first worker."""
    declared = [*(f"worker {it} r 1" for it in workers), *(f"split {it} 1 {workers[0]}" for it in splits)]
    return lines(f"{kind} 1", "rack r", *declared)


def repeated(front, unit, back, size):
    """A text of about this size: as many units as there is room for, between front and back."""
    return front + unit * ((size - len(front) - len(back)) // len(unit)) + back


def first_of(front, units, back, size):
    """A text of at most this size: the first of these units, between front and back."""
    room = size - len(front) - len(back)
    taken = []
    for unit in units:
        room -= len(unit)
        if room < 0:
            break
        taken.append(unit)
    return front + "".join(taken) + back


def one_line(front, words):
    """Texts whose last line has these words over and over."""
    return lambda size: repeated(front, f" {' '.join(words)}", "\n", size)


def different(front):
    """Texts whose last line has words of which no two are the same."""
    return lambda size: first_of(front, (f" x{number}" for number in range(size // 3)), "\n", size)


def late(front, units):
    """Texts of the first of these lines, as many as there is room for, and a line that has a fault."""
    return lambda size: first_of(front, units(), "x\n", size)


def barred_pairs():
    return (f"barred {split} {worker}\n" for split in SPLITS for worker in WORKERS)


def documents():
    return (f"doc d{number} s {'x' * 230}\n" for number in range(65_536))


def short_documents():
    return (f"doc {number:X} s\n" for number in range(MANY))


def commands(line, count=65_536):
    return lambda: (f"{line}\n" for _ in range(count))


PLAIN = head("problem", ["a", "b"], [])
WIDE = head("problem", WORKERS, SPLITS)
SCRIPT = head("script", ["a", "b"], ["s", "t"]) + "begin\n"
WIDE_SCRIPT = head("script", WORKERS, SPLITS) + "begin\n"
JOB = head("job", ["a"], ["s"])
NEW_HEAD = ("centre z", "rack r z", "worker a r 1", "split s 1 a")
NEW_PROBLEM, NEW_JOB = (lines(f"{kind} 3", *NEW_HEAD) for kind in ("problem", "job"))
NEW_SCRIPT = lines("script 3", *NEW_HEAD, "begin")
HOLDERS = [f"w{number}" for number in range(4096)]
WIDER = lines("problem 3", "centre c", "rack r c", *(f"worker {it} r 1" for it in HOLDERS))


def late_prices(size):
    """A text of as many workers with the most prices of places as there is room for, and a line that has a
    fault."""
    workers = range(min(size // 530, 32_768))
    front = lines("problem 3", "centre c", "rack r c", *(f"worker w{number} r 1" for number in workers))
    return late(front, lambda: (f"places w{number}{' 0' * 255}\n" for number in workers))(size)


class Hostile:
    """A kind of text: its command and the fault of its last line, how one of at most so many bytes is made, how many
    bytes of memory there may be beside the text, and how many instructions a byte."""

    def __init__(self, name, command, fault, make, memory, instructions):
        self.name, self.command, self.fault, self.make = name, command, fault, make
        self.memory, self.instructions = int(memory * MEGABYTE), instructions


SWEEP = " ".join(["sweep", *["1"] * len(WORKERS)])
JOIN = " ".join(["join w0", *SPLITS])


ALL = [
    Hostile("one long word", "plan", 1, lambda size: "a" * (size - 1) + "\n", 4.5, 9),
    Hostile("no line feed", "plan", 12, lambda size: "a" * size, 4.5, 2),
    Hostile("words where none may be", "plan", 1, one_line(f"{PLAIN}end", ["a"]), 4.5, 2),
    Hostile("one holder over and over", "plan", 6, one_line(f"{PLAIN}split s 1", ["a"]), 4.5, 46),
    Hostile("two holders in turn", "plan", 6, one_line(f"{PLAIN}split s 1", ["a", "b"]), 4.5, 46),
    Hostile("256 holders in turn", "plan", 6, one_line(f"{WIDE}split x 1", WORKERS), 4.5, 23),
    Hostile("4,096 holders in turn", "plan", 6, one_line(f"{WIDER}split x 1", HOLDERS), 4.5, 45),
    Hostile("holders that nobody declared", "plan", 3, different(f"{PLAIN}split s 1"), 4.5, 18),
    Hostile("one split over and over", "play", 8, one_line(f"{SCRIPT}join a", ["s"]), 4.5, 46),
    Hostile("two splits in turn", "play", 8, one_line(f"{SCRIPT}join a", ["s", "t"]), 4.5, 46),
    Hostile("1,024 splits in turn", "play", 8, one_line(f"{WIDE_SCRIPT}join w0", SPLITS), 4.5, 27),
    Hostile("splits that nobody declared", "play", 3, different(f"{SCRIPT}join a"), 4.5, 18),
    Hostile("counts of nobody", "play", 1, one_line(f"{SCRIPT}sweep", ["1"]), 4.5, 2),
    Hostile("a fault behind sweeps", "play", 1, late(WIDE_SCRIPT, commands(SWEEP)), 6, 53),
    Hostile("a fault behind joins", "play", 1, late(WIDE_SCRIPT, commands(JOIN)), 4.5, 27),
    Hostile("a fault behind commands", "play", 1, late(SCRIPT, commands("done 1000000")), 8, 69),
    Hostile("a fault behind barred pairs", "plan", 1, late(WIDE, barred_pairs), 18.5, 93),
    Hostile("one price of a place over and over", "check", 1, one_line(f"{NEW_PROBLEM}places a", ["1"]), 4.5, 2),
    Hostile("a fault behind prices of places", "check", 1, late_prices, 160, 72),
    Hostile("a fault behind documents", "run", 1, late(JOB, documents), 13, 8),
    Hostile("a fault behind a million commands", "play", 1, late(NEW_SCRIPT, commands("done 1000000", MANY)), 60, 69),
    Hostile("a fault behind a million documents", "run", 1, late(NEW_JOB, short_documents), 120, 113),
]


# A child's peak is at least what its parent has when it starts, so a small process starts it: it tells the peak in
# KiB and the status, after what the child writes.
STARTER = """
import os, sys
child = os.fork()
if not child:
    os.execv(sys.argv[1], sys.argv[1:])
_, status, used = os.wait4(child, 0)
print(used.ru_maxrss, os.waitstatus_to_exitcode(status))
"""


def peak(words, file):
    """What a run on a text writes, its status, and its peak of resident bytes."""
    with open(file, "rb") as text:
        starter = [sys.executable, "-I", "-S", "-c", STARTER]
        told = subprocess.run([*starter, *words], stdin=text, stdout=subprocess.PIPE, stderr=subprocess.DEVNULL)
    answer, resident, status = re.fullmatch(r"(?s)(.*?)(\d+) (-?\d+)\n", told.stdout.decode()).groups()
    return answer, int(status), int(resident) * 1024


def instructions(words, file):
    """How many instructions a run on a text takes."""
    with open(file, "rb") as text:
        counter = ["valgrind", "--tool=callgrind", "--callgrind-out-file=/dev/null"]
        told = subprocess.run([*counter, *words], stdin=text, stdout=subprocess.DEVNULL, stderr=subprocess.PIPE)
    return int(re.search(r"Collected : (\d+)", told.stderr.decode())[1])


def made(room, hostile, size):
    """The file of a text of this size, and how many lines it has."""
    text = hostile.make(size)
    file = Path(room) / f"{hostile.name} {size}"
    file.write_text(text)
    return file, text.count("\n") + (not text.endswith("\n"))


def wrong_memory(program, hostile, room):
    """What is wrong with how a long text is answered, or None; and how many bytes the process had beside it."""
    file, last = made(room, hostile, LONGEST)
    answer, status, resident = peak([program, hostile.command], file)
    beside = resident - file.stat().st_size
    file.unlink()
    if (answer, status) != (f"line {last}: fault {hostile.fault}\n", 2):
        return f"it ends with {status} and {answer[:99]!r}, and not by fault {hostile.fault} of line {last}", beside
    return (f"it takes more than {hostile.memory} bytes beside its text" if beside > hostile.memory else None), beside


def wrong_count(program, hostile, room, fixed):
    """What is wrong with how many instructions a byte of a short text takes, or None; and how many it takes."""
    file, _ = made(room, hostile, SHORT)
    count = (instructions([program, hostile.command], file) - fixed) / file.stat().st_size
    too_many = count > hostile.instructions
    return (f"it takes more than {hostile.instructions} instructions a byte" if too_many else None), count


def tried(program, hostile, room, fixed):
    """A line on a kind of text, and whether all is well."""
    wrong, beside = wrong_memory(program, hostile, room)
    told = f"{beside / MEGABYTE:.1f} MB beside it"
    if fixed is not None and wrong is None:
        wrong, count = wrong_count(program, hostile, room, fixed)
        told += f", {count:.1f} instructions a byte"
    return f"{program}: {hostile.name}: {told}{f': FAILED: {wrong}' if wrong else ''}", wrong is None


def main(programs):
    passed = failed = 0
    with tempfile.TemporaryDirectory() as room, ThreadPoolExecutor(2) as pool:
        for program in programs:
            fixed = None
            if program == programs[0] and shutil.which("valgrind"):
                short = Path(room) / "short"
                short.write_text("x\n")
                fixed = instructions([program, "plan"], short)
            for told, is_well in pool.map(lambda it: tried(program, it, room, fixed), ALL):
                print(told, flush=True)
                passed, failed = passed + is_well, failed + (not is_well)
    print(f"{passed} passed, {failed} failed")
    return 1 if failed or not passed else 0


if __name__ == "__main__":
    sys.exit(main(sys.argv[1:]))

#!/usr/bin/env python3
"""Turns the answer of `mrjob plan` into rows that other programs read: a start each, by number of split.

The answer is read from standard input, the problem from its file. A row has the split, the worker, the worker's rack,
the distance to the nearest live replica (0, 2, 4 or 6), and the bytes that move: those of the split, or none on a
holder. Distance times bytes, summed, is the cost of the plan; what its places cost stands in no row. The status is 1
where the answer is no plan of the problem.

    contrib/starts_of_plan.py examples/plan_swap.txt < examples/plan_swap.out

writes `split,worker,rack,distance,bytes_moved`, `s,b,r,2,10` and `t,a,r,0,0`.
"""
import argparse
import csv
import json
import signal
import sys

sys.dont_write_bytecode = True
from certify import Wave
from texts import NUMBER, Fault, read

COLUMNS = ["split", "worker", "rack", "distance", "bytes_moved"]


def starts(problem, answer):
    """The problem's wave with the starts of an answer; a Fault where it is no plan of the problem."""
    text = read(problem, has_plan=False)
    first, *lines = [line.split(" ") for line in answer.splitlines()] or [[]]
    for words in lines:
        kinds = [text.kinds.get(name) for name in words[1:]]
        if words[0] == "start" and kinds == ["split", "worker"] and words[1] not in text.starts:
            text.starts[words[1]] = words[2]
        elif words[0] == "price" and kinds in (["split", None], ["worker", None]) and NUMBER.fullmatch(words[2]):
            text.prices[words[1]] = words[2]
        else:
            raise Fault(f"`{' '.join(words)}` is no start of the problem, and no price")
    wave = Wave(text)
    for s, w in wave.started:
        if not wave.is_open[s] or not wave.may_take(s, w) or wave.load[w] > text.free[w]:
            raise Fault(f"{wave.split_names[s]} may not start on {wave.worker_names[w]}")
    wanted = ["wave", *map(str, wave.figures())]
    if first != wanted:
        raise Fault(f"`{' '.join(first)}` is not `{' '.join(wanted)}`, to which its starts come")
    return wave


def rows(wave):
    """A row for each start."""
    racks = list(wave.text.numbers["rack"])
    for s, w in wave.started:
        distance = min(wave.distance(holder, w) for holder in wave.live_holders[s])
        moved = wave.text.bytes[s] if distance else 0
        yield wave.split_names[s], wave.worker_names[w], racks[wave.text.rack_of[w]], distance, moved


def main():
    parser = argparse.ArgumentParser(description=__doc__, formatter_class=argparse.RawDescriptionHelpFormatter)
    parser.add_argument("problem", help="the file of the problem that was planned")
    parser.add_argument("--format", choices=["csv", "json"], default="csv", help="CSV with a head, or JSON lines")
    given = parser.parse_args()
    try:
        with open(given.problem, "rb") as file:
            wave = starts(file.read(), sys.stdin.buffer.read().decode("latin-1"))
    except (Fault, OSError) as wrong:
        print(f"starts_of_plan.py: {wrong}", file=sys.stderr)
        return 1
    if given.format == "csv":
        csv.writer(sys.stdout, lineterminator="\n").writerows([COLUMNS, *rows(wave)])
    else:
        for row in rows(wave):
            print(json.dumps(dict(zip(COLUMNS, row))))
    return 0


if __name__ == "__main__":
    signal.signal(signal.SIGPIPE, signal.SIG_DFL)  # (a reader that stops reading ends it quietly)
    sys.exit(main())

#!/usr/bin/env python3
"""Times a plan of a problem text from Python: by mrjob_plan on numpy's arrays, and by scipy's linear_sum_assignment.

    plan_calls.py COST [CALLS] < TEXT

It prints the least microseconds of each, scipy's from the same arrays to its assignment: a matrix of a row for each
split that waits and a column for each free slot. Both must cost COST, the byte-distance of a best plan.
"""
import sys
import time
from pathlib import Path

sys.dont_write_bytecode = True
sys.path[:0] = [str(Path(__file__).resolve().parent.parent / it) for it in ("scripts", "python")]
import numpy
import reference_text
from mrjob_plan import arrays
from scipy.optimize import linear_sum_assignment


def arrays_of(text):
    """The arrays of a problem, as the library wants them."""
    given = reference_text.read(text, "plan")
    workers, splits = (list(given.numbers[it]) for it in ("worker", "split"))
    alive = [(name,) not in given.dead for name in workers]
    waits = [(name,) not in given.busy for name in splits]
    counts = [len(it) for it in given.holders]
    firsts = numpy.cumsum([0, *counts])[:-1]
    barred = [(given.numbers["split"][s], given.numbers["worker"][w]) for s, w in given.barred]
    return (
        max(1, len(given.numbers["centre"])),
        numpy.array(given.centre_of, "u2"),
        numpy.array(list(zip(given.rack_of, given.slots, alive)), arrays.WORKER),
        numpy.array(list(zip(given.bytes, firsts, counts, waits)), arrays.SPLIT),
        numpy.array([it for held in given.holders for it in held], "u2"),
        numpy.array(barred, arrays.PAIR),
    )


def by_scipy(centres, centre_of, workers, splits, holders, barred):
    """The cost of a best plan. A start costs its byte-distance less the reward, and no start 0."""
    rack, centre = workers["rack"], centre_of[workers["rack"]]
    steps = 6 - 2 * (centre[:, None] == centre).astype("i8") - 2 * (rack[:, None] == rack)
    numpy.fill_diagonal(steps, 0)
    steps[workers["live"] == 0] = 1 << 20
    # (a split's steps to each worker are the least of its holders', a row of `steps` each)
    far = numpy.full((len(splits), len(workers)), 1 << 20)
    for place in range(splits["holder_count"].max(initial=0)):
        has = splits["holder_count"] > place
        far[has] = numpy.minimum(far[has], steps[holders[splits["first_holder"][has] + place]])
    far[barred["split"], barred["worker"]] = 1 << 20
    reward = 1 + (6 if centres > 1 else 4) * int(splits["bytes"].sum())
    cost = numpy.where(far < 1 << 20, far * splits["bytes"].astype("i8")[:, None] - reward, 0)[splits["pending"] != 0]
    cost = numpy.repeat(cost, workers["free"] * (workers["live"] != 0), axis=1)
    rows, columns = linear_sum_assignment(cost)
    taken = cost[rows, columns]
    return int((taken[taken < 0] + reward).sum())


def least(calls, call):
    spent = []
    for _ in range(calls):
        start = time.perf_counter()
        answer = call()
        spent.append(time.perf_counter() - start)
    return answer, round(min(spent) * 1e6)


def main():
    wanted, calls = int(sys.argv[1]), int(sys.argv[2]) if len(sys.argv) > 2 else 5
    given = arrays_of(sys.stdin.buffer.read())
    planned, ours = least(8 * calls, lambda: arrays.plan(arrays.Wave(*given)).cost)
    found, theirs = least(calls, lambda: by_scipy(*given))
    print(ours, theirs)
    return (planned, found) != (wanted, wanted)


if __name__ == "__main__":
    sys.exit(main())

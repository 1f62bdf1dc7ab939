#!/usr/bin/env python3
"""Writes a problem's wave as a minimum-cost flow in the DIMACS format, which other solvers read.

The problem is read from standard input. The network is the direct one of docs/MODEL.md: an arc from each pending split
to each worker on which it may start, at what that costs, one to where splits wait, at the reward K, and from there and
from each worker to the sink; where places have prices, one for the places of each price. Each pending split sends one
unit. A least flow is a best plan: where it costs F, F // K splits wait, and the others start at a byte-distance, with
the prices of their places, of F % K. Comments tell K and name each node.

    contrib/dimacs_of_problem.py < examples/plan_swap.txt

writes `p min 6 9` and the lines of 6 nodes and 9 arcs, over which a least flow costs 20.
"""
import argparse
import itertools
import signal
import sys

sys.dont_write_bytecode = True
from certify import Wave
from texts import Fault, read


def network(wave):
    """The pending splits, and the arcs by rising start and end: from, to, capacity, cost. Nodes count from 1: the
    splits, the workers, where splits wait, and the sink."""
    splits, workers = len(wave.split_names), len(wave.worker_names)
    waiting, sink = splits + workers + 1, splits + workers + 2
    pending = [s for s in wave.splits if ("busy", wave.split_names[s]) not in wave.text.marks]
    arcs = []
    for s in pending:
        takers = [w for w in wave.workers if wave.is_open[s] and wave.text.free[w] and wave.may_take(s, w)]
        arcs += [(s + 1, splits + w + 1, 1, wave.cost(s, w)) for w in takers]
        arcs.append((s + 1, waiting, 1, wave.reward))
    arcs += [(splits + w + 1, sink, *places) for w in wave.workers for places in places_of(wave, w)]
    arcs.append((waiting, sink, len(pending), 0))
    return pending, arcs


def places_of(wave, w):
    """How many places of a worker have one price after another, and these prices."""
    prices = [wave.place_price(w, place) for place in range(wave.text.free[w])]
    return [(len([*some]), price) for price, some in itertools.groupby(prices)] or [(0, 0)]


def lines(wave):
    """The lines of the DIMACS text."""
    pending, arcs = network(wave)
    names = [f"split {name}" for name in wave.split_names] + [f"worker {name}" for name in wave.worker_names]
    names += ["where splits wait", "the sink"]
    yield f"c K {wave.reward}"
    yield f"p min {len(names)} {len(arcs)}"
    yield from (f"c node {node} {name}" for node, name in enumerate(names, 1))
    yield from (f"n {s + 1} 1" for s in pending)
    yield f"n {len(names)} {-len(pending)}"
    yield from (f"a {start} {end} 0 {capacity} {cost}" for start, end, capacity, cost in arcs)


def main():
    argparse.ArgumentParser(description=__doc__, formatter_class=argparse.RawDescriptionHelpFormatter).parse_args()
    try:
        wave = Wave(read(sys.stdin.buffer.read(), has_plan=False))
    except Fault as fault:
        print(f"dimacs_of_problem.py: {fault}", file=sys.stderr)
        return 1
    sys.stdout.writelines(line + "\n" for line in lines(wave))
    return 0


if __name__ == "__main__":
    signal.signal(signal.SIGPIPE, signal.SIG_DFL)  # (a reader that stops reading ends it quietly)
    sys.exit(main())

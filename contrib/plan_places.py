#!/usr/bin/env python3
"""Plans a wave in which places on workers may have prices, as `mrjob plan` does, and writes the text that `mrjob check`
certifies: an independent reference, in plain Python.

The problem is read from standard input. In version 3 a line `places WORKER P1 .. Pn` tells what the first
split that starts on the worker is charged beside its byte-distance, what the second split is, and so on. A
best plan starts as many splits as can start, at the least charge in all. The script writes the problem with a
best plan and with prices that prove it best. So nobody needs to trust the script.

    contrib/plan_places.py < examples/plan_places.txt | bin/mrjob check

writes `certified 2 6 0`. The script is for problems of some hundreds of splits: 500 splits on 100 workers
take two seconds.
"""
import argparse
import heapq
import signal
import sys

sys.dont_write_bytecode = True
from certify import Wave
from texts import Fault, read


class Planner:
    """A plan of the splits that were shipped so far, with prices that certify it for these splits."""

    def __init__(self, wave):
        self.wave = wave
        takers = lambda s: [w for w in wave.workers if wave.may_start(s, w)]
        self.ways = [[(w, wave.cost(s, w)) for w in takers(s)] for s in wave.splits]
        self.start, self.on = [None for _ in wave.splits], [[] for _ in wave.workers]
        self.price, self.slot_price = [0 for _ in wave.splits], [0 for _ in wave.workers]

    def excess(self, split, worker, cost):
        """By how much the sum of a pair is above the reward: 0 for a split and the worker of its start."""
        return self.price[split] + self.slot_price[worker] + cost - self.wave.reward

    def ship(self, split):
        """Ships a split along a cheapest path. The split comes to a worker, from which a split may go on to
        another worker, until a place is taken or a split is left out."""
        self.price[split] = max([0, *(-self.excess(split, w, cost) for w, cost in self.ways[split])])
        distances, by, length, last, out = self.search(split)
        self.price[split] -= length
        for w, distance in distances.items():
            rise = max(0, length - distance)
            self.slot_price[w] += rise
            for other in self.on[w]:
                self.price[other] -= rise
        if last is not None:
            self.move(by, last, out)

    def move(self, by, last, out):
        """Moves the splits of a path, of which `out` is left out on the last worker, or none."""
        if out is not None:
            self.on[last].remove(out)
            self.start[out] = None
        while last is not None:
            split = by[last]
            before = self.start[split]
            if before is not None:
                self.on[before].remove(split)
            self.on[last].append(split)
            self.start[split], last = last, before

    def search(self, split):
        """Dijkstra's search: the distances of workers, the split that comes to each, and of a cheapest path
        its length, its last worker, and the split that is left out."""
        distances, by, heap, end = {}, {}, [], (self.price[split], None, split)
        distance, leaving = 0, [split]
        while True:
            for other in leaving:
                for w, cost in self.ways[other]:
                    length = distance + self.excess(other, w, cost)
                    if length < end[0] and length < distances.get(w, length + 1):
                        distances[w], by[w] = length, other
                        heapq.heappush(heap, (length, w))
            while heap and heap[0][0] > distances[heap[0][1]]:
                heapq.heappop(heap)
            if not heap or heap[0][0] >= end[0]:
                return (distances, by, *end)
            distance, w = heapq.heappop(heap)
            leaving = self.on[w]
            end = min([end, *self.ends(w, distance)], key=lambda it: it[0])

    def ends(self, worker, distance):
        """How a path may end on a worker: its next place is taken, or one of its splits is left out."""
        load = len(self.on[worker])
        if load < self.wave.text.free[worker]:
            more = self.wave.place_price(worker, load) - self.slot_price[worker]
            yield distance + more, worker, None
        for split in self.on[worker]:
            yield distance + self.price[split], worker, split


def planned(data):
    """The text of a problem with a best plan and its prices."""
    wave = Wave(read(data, has_plan=False))
    planner = Planner(wave)
    for split in wave.splits:
        planner.ship(split)
    starts = [(s, w) for s, w in enumerate(planner.start) if w is not None]
    prices = [*zip(wave.split_names, planner.price), *zip(wave.worker_names, planner.slot_price)]
    lines = [*data.decode("latin-1").splitlines()[:-1], "plan"]
    lines += [f"start {wave.split_names[s]} {wave.worker_names[w]}" for s, w in starts]
    lines += [f"price {name} {price}" for name, price in prices]
    return "".join(f"{line}\n" for line in [*lines, "end"])


def main():
    form = argparse.RawDescriptionHelpFormatter
    argparse.ArgumentParser(description=__doc__, formatter_class=form).parse_args()
    try:
        text = planned(sys.stdin.buffer.read())
    except Fault as fault:
        print(f"plan_places.py: {fault}", file=sys.stderr)
        return 1
    sys.stdout.write(text)
    return 0


if __name__ == "__main__":
    signal.signal(signal.SIGPIPE, signal.SIG_DFL)  # (a reader that stops reading ends it quietly)
    sys.exit(main())

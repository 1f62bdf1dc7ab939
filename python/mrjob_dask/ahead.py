"""Plan ahead: the splits that wait are planned onto queues of places, of which each worker's first ones start.

A plan is best for the problem that it was asked: no assignment of as many of these splits to queues of these lengths
has less of byte-distance and prices of places together. How long the queues are, what a place costs, when they are
planned anew and in what order they start is guessed from how long calls took, and of that nothing is proved. A session
plans onto queues by itself, where all places are free.
"""
from __future__ import annotations

from bisect import bisect
from collections import Counter, defaultdict
from typing import Mapping, Sequence

from .pending import Split
from .planner import Planner, Wave, distance, first_splits, nearest

# Of the mean time of a call: so much later than when all splits could be done may a place still end, where places are
# free and where they have prices, and for so long at least is a running call taken to go on.
SLACK, PRICED_SLACK, LEAST = 0.1, 0.5, 0.1
# What a place costs for each mean time of a call before it starts, in steps of a split of the mean size. It is rounded
# to a quarter of a step, since a planner takes longer where more prices differ.
STEPS = 16
PLACES = 16  # of the queue of a worker with fewer free slots, at most
WEIGHT = 4  # so many calls of the mean time are counted for a worker beside its own


class Pace:
    """How long calls took, in seconds, on all workers and on each."""

    def __init__(self) -> None:
        self.count: Counter[str] = Counter()
        self.seconds: dict[str, float] = defaultdict(float)

    def note(self, worker: str, seconds: float) -> None:
        self.count[worker] += 1
        self.seconds[worker] += seconds

    def mean(self, otherwise: float) -> float:
        """The mean of all, or else this one, before the first is done."""
        return max(1e-3, sum(self.seconds.values()) / sum(self.count.values()) if self.count else otherwise)

    def mean_on(self, worker: str, mean: float) -> float:
        """That of a worker, where the mean of all is given."""
        return (WEIGHT * mean + self.seconds.get(worker, 0)) / (WEIGHT + self.count[worker])

    def lengths(self, wave: Wave, running: Mapping[str, Sequence[float]]) -> dict[str, int]:
        """How many places the queue of each worker has: those that end about as soon as all splits could be done. A
        call that has run longer than the mean goes on for as long as it is late."""
        mean, ends = self.ends(wave, running)
        return self.within(wave, ends, SLACK * mean)

    def priced(self, wave: Wave, running: Mapping[str, Sequence[float]]) -> Wave:
        """The wave with queues for its slots, which are longer, as later places cost more."""
        mean, ends = self.ends(wave, running)
        slots = self.within(wave, ends, PRICED_SLACK * mean)
        sizes = [split.bytes for split in wave.splits.values()]
        size = max(1, sum(sizes) // max(1, len(sizes)))
        prices = {}
        for worker, length in slots.items():
            free, each = wave.slots[worker], self.mean_on(worker, mean)
            begins = [0.0] * free + [max(0.0, it - each) for it in ends[worker][free:length]]
            prices[worker] = [size * round(4 * STEPS * it / mean) // 4 for it in begins]
        return wave._replace(slots=slots, prices=prices)

    def ends(self, wave: Wave, running: Mapping[str, Sequence[float]]) -> tuple[float, dict[str, list[float]]]:
        """The mean time of a call, and when the places of each worker end, one after another."""
        mean = self.mean(max((it for its in running.values() for it in its), default=1.0))
        ends = {}
        for worker, free in wave.slots.items():
            each = self.mean_on(worker, mean)
            begins = [0.0] * free + [max(abs(each - it), LEAST * each) for it in running.get(worker, ())]
            first = sorted(begins)[:PLACES]
            ends[worker] = sorted(it + nth * each for it in first for nth in range(1, PLACES + 1))[:PLACES]
        return mean, ends

    def within(self, wave: Wave, ends: Mapping[str, list[float]], slack: float) -> dict[str, int]:
        """How many places of each worker end as soon as all splits could be done, or so much later."""
        whole = sorted(it for its in ends.values() for it in its)
        last = max(whole[: len(wave.splits)], default=0.0) + slack
        return {worker: max(free, bisect(ends[worker], last)) for worker, free in wave.slots.items()}


class Queues:
    """What is planned ahead for each worker. It is planned anew where a free slot finds its worker's queue empty, where
    a worker died or came, and as calls turn out to take longer or shorter: about four times in the mean time of a call,
    and more seldom where many splits wait, as such a plan takes longer."""

    def __init__(self, planner: Planner, pace: Pace) -> None:
        self.planner, self.pace = planner, pace
        self.queues: dict[str, list[str]] = {}
        self.plans = 0
        self.since = 0  # so many calls have started since the last plan

    def starts(self, wave: Wave, running: Mapping[str, Sequence[float]]) -> dict[str, str]:
        """The workers of the splits that start now, none on more slots than are free. `running` tells of each worker
        that is not paused for how many seconds its calls have been running."""
        slots = sum(wave.slots.values()) + sum(map(len, running.values()))
        if {*self.queues} != {*wave.places} or 4 * self.since >= max(slots, len(wave.splits) // 4):
            self.queues = {worker: [] for worker in wave.places}
        starts = self.heads(wave)
        took = Counter(starts.values())
        left_slots = {worker: free - took[worker] for worker, free in wave.slots.items()}
        if len(starts) < len(wave.splits) and any(free and not self.queues[it] for it, free in left_slots.items()):
            splits = {split: it for split, it in wave.splits.items() if split not in starts}
            left = wave._replace(slots=left_slots, splits=first_splits(splits, left_slots))
            self.plan(left, {worker: [*running.get(worker, ()), *[0.0] * took[worker]] for worker in wave.places})
            starts.update(self.heads(left))
        self.since += len(starts)
        return starts

    def heads(self, wave: Wave) -> dict[str, str]:
        """Takes from each queue as many splits as its worker has free slots."""
        starts = {}
        for worker, free in wave.slots.items():
            queue = self.queues[worker]
            while free and queue:
                split = queue.pop(0)
                if split in wave.splits:
                    starts[split] = worker
                    free -= 1
        return starts

    def plan(self, wave: Wave, running: Mapping[str, Sequence[float]]) -> None:
        """Plans all queues anew. Of a queue the near splits start first, and of those the ones that are hardest to
        start on a holder later: of whose other holders even the one with the fewest splits has many."""
        self.plans += 1
        self.since = 0
        self.queues = {worker: [] for worker in wave.places}
        starts = self.planner.plan(self.pace.priced(wave, running)).starts
        load = Counter(holder for it in wave.splits.values() for holder in it.holders)

        def order(split: str, worker: str, it: Split) -> tuple[int, float]:
            steps = distance(wave.places, nearest(wave.places, worker, it.holders), worker)
            return steps, -min((load[holder] for holder in it.holders if holder != worker), default=len(wave.splits))

        for split in sorted(starts, key=lambda split: order(split, starts[split], wave.splits[split])):
            self.queues[starts[split]].append(split)

"""The splits that wait for a start, kept so that a wave costs what changed since the one before, and its plan."""
from __future__ import annotations

from bisect import bisect_left, insort
from collections import defaultdict
from heapq import merge
from itertools import groupby
from operator import itemgetter
from typing import Iterable, Iterator, Mapping, NamedTuple, Optional, Sequence, Union


class Place(NamedTuple):
    """Where a worker stands; two racks are the same where both words are."""

    rack: str
    centre: str = ""


class Split(NamedTuple):
    """The bytes of a pending split, the workers that hold it, and those on which it may not start."""

    bytes: int
    holders: list[str]
    barred: list[str]


# A worker, a rack, a data centre, or the whole cluster: the nodes of its tree. No worker's address is EVERYWHERE, which
# has the splits that all workers hold.
Node = Union[str, tuple[str, ...]]
EVERYWHERE = ""


class Tree:
    """At each node the splits with a holder below it, by size and number."""

    def __init__(self, places: Mapping[str, Place]) -> None:
        self.places = places
        self.at: dict[Node, list[tuple[int, int]]] = defaultdict(list)

    def nodes(self, holders: Sequence[str]) -> set[Node]:
        """Those with a holder below."""
        if len({*holders}) == len(self.places):
            return {EVERYWHERE}
        racks = {self.places[it] for it in holders}
        return {*holders, *racks, *((it.centre,) for it in racks), ()}

    def fill(self, splits: Iterable[tuple[int, int, Sequence[str]]]) -> None:
        """Enters splits: the size, the number and the holders of each."""
        for size, number, holders in splits:
            for node in self.nodes(holders):
                self.at[node].append((size, number))
        for its in self.at.values():
            its.sort()

    def put(self, size: int, number: int, holders: Sequence[str]) -> None:
        for node in self.nodes(holders):
            insort(self.at[node], (size, number))

    def take(self, size: int, number: int, holders: Sequence[str]) -> None:
        for node in self.nodes(holders):
            its = self.at[node]
            del its[bisect_left(its, (size, number))]

    def cheapest(self, worker: str) -> Iterable[tuple[int, int]]:
        """What all splits cost on a worker, with their numbers, the cheapest first. Some come more than once."""

        def priced(node: Node, steps: int) -> Iterator[tuple[int, int]]:
            return ((steps * size, number) for size, number in self.at.get(node, ()))

        rack = self.places[worker]
        nodes: list[tuple[Node, int]] = [(EVERYWHERE, 0), (worker, 0), (rack, 2), ((rack.centre,), 4), ((), 6)]
        return merge(*(priced(*it) for it in nodes))

    def rarity(self, holders: Sequence[str]) -> int:
        """How many splits even the holder with the fewest of them has, besides those that all workers hold."""
        return min(map(len, map(self.at.__getitem__, holders)))


class Pending(dict[str, Split]):
    """The pending splits that have a holder, by name, changed by `put` and `drop` alone. `number` has the place of each
    split in its job."""

    def __init__(self, places: Mapping[str, Place], number: Mapping[str, int]) -> None:
        super().__init__()
        self.places, self.number, self.names = {**places}, number, [*number]
        self.bare: set[str] = set()  # pending splits that nobody holds
        self.outs: set[str] = set()  # that failed on every worker, and so may start anywhere
        self.changed: dict[str, None] = {}  # whose holders a master has not been told
        self.tree: Optional[Tree] = None  # made where it is asked for

    def put(self, name: str, split: Split) -> None:
        """Enters a split, or what became of it."""
        is_out = 0 < len(self.places) <= len(split.barred)
        split = split._replace(barred=[]) if is_out else split
        if self.get(name) == split and (name in self.outs) == is_out:
            return
        self.drop(name)
        self.changed[name] = None
        if is_out:
            self.outs.add(name)
        if not split.holders:
            self.bare.add(name)
            return
        self[name] = split
        if self.tree:
            self.tree.put(split.bytes, self.number[name], split.holders)

    def drop(self, name: str) -> None:
        """Forgets a split, if it is there."""
        split = self.pop(name, None)
        if split and self.tree:
            self.tree.take(split.bytes, self.number[name], split.holders)
        self.changed.pop(name, None)
        self.bare.discard(name)
        self.outs.discard(name)

    def holders(self, name: str) -> list[str]:
        """The holders of a pending split."""
        return self[name].holders if name in self else []

    def candidates(self, slots: Mapping[str, int], is_rarest_first: bool = False) -> dict[str, Split]:
        """The splits that a plan has to know of: for each worker with a free slot the cheapest ones, as many as there
        are free slots. A best plan of these is a best one of all: where a plan starts another split on a worker, one of
        the worker's candidates does not start, and could in its place, for no more. They come by number, or the rarest
        first, and of those that cost the same the first are taken."""
        free = [worker for worker, number in slots.items() if number]
        most = sum(slots.values())
        if most * len(free) >= len(self) and not is_rarest_first:
            return self
        if self.tree is None:
            self.tree = Tree(self.places)
            self.tree.fill((it.bytes, self.number[name], it.holders) for name, it in self.items())
        found = {number for worker in free for number in self.first(worker, most, is_rarest_first)}
        order = self.rarest_first(found) if is_rarest_first else sorted(found)
        return {self.names[it]: self[self.names[it]] for it in order}

    def first(self, worker: str, most: int, is_rarest_first: bool) -> set[int]:
        """The first splits that may start on a worker, at most so many."""
        assert self.tree
        found: set[int] = set()
        for _, priced in groupby(self.tree.cheapest(worker), itemgetter(0)):
            same = (number for _, number in priced)
            for number in self.rarest_first(same) if is_rarest_first else same:
                if worker not in self[self.names[number]].barred:
                    found.add(number)
                    if len(found) == most:
                        return found
        return found

    def rarest_first(self, numbers: Iterable[int]) -> list[int]:
        """Splits in the order of how hard it is to start them on a holder later."""
        assert self.tree
        rarity = self.tree.rarity
        return sorted(sorted({*numbers}), key=lambda it: -rarity(self[self.names[it]].holders))

"""Blocks in the memory of workers: keys that Dask knows."""
from __future__ import annotations

from collections import Counter
from random import Random
from typing import Any, Callable, Iterable, Mapping, Sequence

from distributed import Client, Future

from .blocks import Blocks
from .calls import Copy, Look, Piece, as_it_is, bring, finish, hold, read_key, sizes
from .pending import Place
from .planner import nearest

AT_ONCE = 64  # so many copies are under way at most


def as_hdfs(places: Mapping[str, Place], rnd: Random, replicas: int = 3) -> list[str]:
    """Where HDFS would put a new block: anywhere, in another rack, beside that second one, and then anywhere."""
    held = [rnd.choice(sorted(places))]
    while len(held) < min(replicas, len(places)):
        left = [it for it in sorted(places) if it not in held]
        if len(held) == 1:
            wanted = [it for it in left if places[it] != places[held[0]]]
        else:
            wanted = [it for it in left if len(held) == 2 and places[it] == places[held[1]]]
        held.append(rnd.choice(wanted or left))
    return held


class Keys(Blocks):
    """Blocks that are keys in the memory of workers: futures that exist, or data that is laid here.

    A split has the key's name. Its replicas are kept while the job lasts, against the cluster's active memory manager;
    with `replicas`, holders that die are made up for, so that each block has so many again.
    """

    def __init__(self, client: Client, futures: Sequence[Future] = (), replicas: int = 0) -> None:
        super().__init__()
        self.client, self.replicas = client, replicas
        self.futures: dict[str, Future] = {}
        self.held: list[Future] = []
        self.laid: list[Future] = []
        self.due: list[Copy] = []
        self.take(futures)

    def take(self, futures: Sequence[Future]) -> None:
        """Enters futures, once they are done."""
        if not futures:
            return
        finish(self.client, futures)
        known = sizes(self.client, [it.key for it in futures])
        for future in futures:
            size = known[future.key][0]
            self.enter(future, size, [(future.key, 0, size)])
        self.hold(futures, max(count for _, count in known.values()))

    def enter(self, future: Future, size: int, pieces: list[Piece]) -> None:
        self.futures[future.key], self.pieces[future.key], self.bytes[future.key] = future, pieces, size

    def hold(self, futures: Sequence[Future], replicas: int) -> None:
        """Keeps so many replicas, or as many as are to be made up for."""
        if futures:
            self.held += hold(self.client, futures, max(self.replicas, replicas))

    def put(self, key: str, data: bytes, pieces: list[Piece], holders: Sequence[str]) -> None:
        """Lays a block: the client sends it to its first holder, and from there it is copied when `lay` is called."""
        future = self.client.scatter({key: data}, workers=holders[:1])[key]
        self.enter(future, len(data), pieces)
        self.laid.append(future)
        self.due += [Copy(key, holders[0], it) for it in holders[1:]]
        if len(self.due) >= AT_ONCE:
            self.lay()

    def lay(self) -> None:
        """Makes the copies that are due."""
        self.hold(self.laid, 1 + max(Counter(it.key for it in self.due).values(), default=0))
        bring(self.client, self.due)
        self.laid, self.due = [], []

    def keys(self, splits: Iterable[str]) -> list[str]:
        return [*splits]

    def holders(self, split: str, look: Look) -> list[str]:
        return look.holders.get(split, [])

    def is_gone(self, split: str) -> bool:
        return self.futures[split].status in ("cancelled", "lost", "error")

    def data(self, split: str, worker: str, source: str) -> tuple[Callable[..., Any], list[Any]]:
        if worker == source:
            return as_it_is, [self.futures[split]]
        return read_key, [source, split]

    def repair(self, look: Look, places: Mapping[str, Place]) -> list[Copy]:
        """A new holder is one that is not paused, in another rack where all stand in one, and of these the one with the
        fewest blocks."""
        held = {split: self.holders(split, look) for split in self.futures} if self.replicas else {}
        load = {it: sum(it in at for at in held.values()) for it in places}
        copies = []
        for split, at in held.items():
            while at and len(at) < self.replicas:
                racks = {places[it] for it in at}
                left = [it for it in places if it not in at and look.workers[it].threads]
                if not left:
                    break
                to = min(left, key=lambda it: (len(racks) == 1 and places[it] in racks, load[it], it))
                copies.append(Copy(split, nearest(places, to, at), to))
                at = [*at, to]
                load[to] += 1
        return [it for first in range(0, len(copies), AT_ONCE) for it in self.made(copies[first : first + AT_ONCE])]

    def made(self, copies: list[Copy]) -> list[Copy]:
        failed = bring(self.client, copies)
        return [it for it in copies if it.key not in failed]

    def close(self) -> None:
        self.held = []

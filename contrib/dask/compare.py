#!/usr/bin/python3
"""What maps of one job carry, and how long they take, by who places them, on the same blocks.

    contrib/dask/compare.py                 the table of README.md
    contrib/dask/compare.py --many          how long 1,000 maps on 64 workers take

On clusters of this machine with 4 racks of 3 and of 4 workers, one thread each, there are six blocks of 0.5 MB for each
worker, with three holders each. A map takes half a second, 15 % more or less by its block, and gives a checksum. A row
is written for each way in which blocks lie: of several runs, each with another seed, the medians of the megabytes times
steps by the senders' logs, of how many blocks moved, after the stroke those within a rack, and of the seconds.

    Dask                a map may run anywhere; of a file it reads the holder nearest to where it runs
    workers=holders     submit(.., workers=holders): it may run on the holders of its block alone
    greedy              the loop of mrjob_dask, in which each free slot takes the block that is cheapest for it
    waves               the loop of mrjob_dask, by a best plan of each wave
    plan ahead          the same loop, by best plans of all blocks that wait onto queues
"""
from __future__ import annotations

import argparse
import os
import sys
import time
import zlib
from collections import Counter
from pathlib import Path
from random import Random
from statistics import median
from typing import NamedTuple

from distributed import Client, get_worker

sys.dont_write_bytecode = True
sys.path.append(str(Path(__file__).resolve().parents[2] / "python"))
from mrjob_dask import Blocks, Files, Job, Keys, Place, Planner, Row, Work, planner_of
from mrjob_dask.calls import as_it_is, look, piece_key, read_files, sent
from mrjob_dask.job import map_task, pick_task, reduce_task
from mrjob_dask.keys import as_hdfs
from mrjob_dask.planner import Plan, Wave, distance, nearest

from cluster import Cluster

RACKS, PER_RACK, EACH, BYTES, SECONDS = 4, (3, 4), 6, 500_000, 0.5
# Where four of five blocks lie, if not as HDFS lays them.
SHAPES = {
    "balanced": None,
    "4 of 5 on the same 3, in 2 racks": ["r0.w0", "r0.w1", "r1.w0"],
    "4 of 5 on the same 3, in 3 racks": ["r0.w0", "r1.w0", "r2.w0"],
}


def place_of(name: str) -> Place:
    return Place(name.partition(".")[0])


def checksum(data, pieces, parts):
    number = zlib.crc32(data)
    time.sleep(SECONDS * (0.85 + 0.3 * (number % 1000) / 1000))
    return [str(number).encode()]


def read_nearest(sources: dict[str, str], pieces) -> bytes:
    """In a task: a block of files, from the holder nearest to wherever it runs."""
    return read_files(sources[get_worker().address], pieces)


class ByDask:
    """The same job, all its maps submitted at once and placed by Dask."""

    is_bound = False  # whether a map may run on holders alone

    def __init__(self, client: Client, blocks: Blocks, work: Work, *_, **__) -> None:
        self.client, self.blocks, self.work = client, blocks, work
        self.seen = look(client, keys=blocks.keys(blocks.pieces))

    def reads(self, split: str) -> list:
        """What a map reads its block with, and from what."""
        if isinstance(self.blocks, Keys):
            return [as_it_is, self.blocks.futures[split]]
        places, holders = {at: place_of(it.name) for at, it in self.seen.workers.items()}, self.holders(split)
        return [read_nearest, {it: nearest(places, it, holders) for it in places}, self.blocks.pieces[split]]

    def holders(self, split: str) -> list[str]:
        return self.blocks.holders(split, self.seen)

    def run(self) -> list:
        maps, tasks = [], {}
        for split, pieces in self.blocks.pieces.items():
            read, *given = self.reads(split)
            task = tasks.setdefault(read, map_task(self.work, read))
            where = self.holders(split) if self.is_bound else None
            maps.append(self.client.submit(task, pieces, *given, pure=False, workers=where))
        outputs = self.client.map(pick_task(), maps, [0] * len(maps), pure=False)
        return [self.client.submit(reduce_task(self.work), outputs, pure=False).result()]


class OnHolders(ByDask):
    is_bound = True


class Greedy(Planner):
    """Each free slot, one after another, takes the block that is cheapest for it."""

    def plan(self, wave: Wave) -> Plan:
        left, starts, cost = dict(wave.splits), {}, 0
        for worker in (worker for worker, free in wave.slots.items() for _ in range(free)):
            prices = {
                name: it.bytes * distance(wave.places, nearest(wave.places, worker, it.holders), worker)
                for name, it in left.items() if worker not in it.barred
            }
            if prices:
                split = min(prices, key=lambda it: prices[it])
                starts[split], cost = worker, cost + prices[split]
                del left[split]
        return Plan(starts, cost, 1)


WAYS = {"Dask": ByDask, "workers=holders": OnHolders, "greedy": Job, "waves": Job, "plan ahead": Job}


class Ran(NamedTuple):
    """What one job carried, in megabytes times steps, how many blocks moved, how many of these in a rack, and how long
    it took."""

    carried: float
    moved: int
    in_rack: int
    seconds: float


class Comparison:
    """Jobs over the same blocks on one cluster."""

    def __init__(self, here: Cluster, planner: Planner) -> None:
        self.here, self.laid = here, 0
        self.planner = planner
        self.address = here.addresses()
        self.places = {address: place_of(name) for name, address in self.address.items()}
        rnd = Random(5)
        self.data = [rnd.randbytes(BYTES) for _ in range(EACH * len(self.address))]
        self.wanted = [str(zlib.crc32(it)).encode() for it in self.data]

    def holders(self, shape: str, seed: int) -> list[list[str]]:
        """The names of each block's holders."""
        rnd, crowd = Random(seed), SHAPES[shape]
        places = {name: place_of(name) for name in self.address}
        return [rnd.sample(crowd, 3) if crowd and rnd.random() < 0.8 else as_hdfs(places, rnd) for _ in self.data]

    def keys(self, held: list[list[str]]) -> Keys:
        self.laid += 1
        blocks = Keys(self.here.client)
        for number, (data, names) in enumerate(zip(self.data, held)):
            key = f"compared-{self.laid}-{number}"
            blocks.put(key, data, [(key, 0, BYTES)], [self.address[it] for it in names])
        blocks.lay()
        return blocks

    def files(self, held: list[list[str]]) -> Files:
        """A file for each block, on its holders' disks."""
        self.laid += 1
        rows = []
        for number, (data, names) in enumerate(zip(self.data, held)):
            rows.append(Row(f"block-{self.laid}-{number:03}", 0, BYTES, names))
            for name in names:
                (self.here.disk(name) / rows[-1].file).write_bytes(data)
        return Files(self.here.client, rows)

    def carried(self, blocks: Blocks) -> list:
        """What workers sent one another of these blocks, by the senders' logs."""
        keys = {piece_key(pieces[0]) for pieces in blocks.pieces.values()} | {*blocks.pieces}
        return [it for it in sent(self.here.client) if it.key in keys]

    def run(self, way: str, sort: str, shape: str, seed: int) -> Ran:
        """One job."""
        kind, planner = WAYS[way], Greedy() if way == "greedy" else self.planner
        blocks = getattr(self, sort)(self.holders(shape, seed))
        before = Counter(self.carried(blocks))
        began = time.perf_counter()
        work, is_ahead = Work(checksum, list, 1), way == "plan ahead"
        results = kind(self.here.client, blocks, work, place_of, planner, ahead=is_ahead).run()
        seconds = time.perf_counter() - began
        if results != [self.wanted]:
            raise AssertionError("a checksum is wrong")
        moved = [*(Counter(self.carried(blocks)) - before).elements()]
        steps = [distance(self.places, it.sender, it.receiver) for it in moved]
        carried = sum(it.bytes * step for it, step in zip(moved, steps)) / 1e6
        blocks.close()
        print(f"{shape}, {sort}, seed {seed}, {way}: {carried:.1f} {seconds:.1f} s", file=sys.stderr, flush=True)
        return Ran(carried, len(moved), steps.count(2), seconds)

    def row(self, sort: str, shape: str, runs: int) -> str:
        """The cells of all ways, which are run in turn."""
        ran = [[self.run(way, sort, shape, seed) for way in WAYS] for seed in range(runs)]
        medians = [[median(its) for its in zip(*of_way)] for of_way in zip(*ran)]
        return " | ".join(
            f"{carried:.1f} ({moved:.0f}/{in_rack:.0f}), {seconds:.1f} s"
            for carried, moved, in_rack, seconds in medians
        )


def table(planner: Planner, runs: int, sorts: list[str]) -> None:
    print(f"| Workers, blocks | {' | '.join(WAYS)} |\n|---|{'---|' * len(WAYS)}")
    for per_rack in PER_RACK:
        with Cluster(RACKS, per_rack) as here:
            compared = Comparison(here, planner)
            for sort in sorts:
                for shape in SHAPES:
                    print(f"| {RACKS}x{per_rack}, {sort}, {shape} | {compared.row(sort, shape, runs)} |", flush=True)


def many(planner: Planner, runs: int) -> None:
    """Jobs by Dask, by waves and ahead, in turn, of 1,000 maps of half a second that read nothing: the seconds on the
    clock, of the client's processor time, and of that with its planner's. Other processes make the client dearer and
    never cheaper, so of these the least of all runs is told, and of the clock the median."""
    racks, per_rack, count = 8, 8, 1000
    with Cluster(racks, per_rack, per_process=16) as here:
        places, rnd = {name: place_of(name) for name in here.addresses()}, Random(1)
        rows = [Row(f"block-{number}", 0, 1, as_hdfs(places, rnd)) for number in range(count)]

        def mapped(data, pieces, parts):
            time.sleep(SECONDS)
            return [b""]

        nothing = lambda *_: b""
        seconds: dict[str, list[tuple[float, ...]]] = {"Dask": [], "waves": [], "plan ahead": []}
        spent = lambda: (time.perf_counter(), time.process_time(), sum(os.times()[:4]))
        for _ in range(runs):
            for way in seconds:
                began = spent()
                blocks = Files(here.client, rows, nothing)
                kind, is_ahead = Unread if way == "Dask" else Job, way == "plan ahead"
                job = kind(here.client, blocks, Work(mapped, len, 1), place_of, planner, ahead=is_ahead)
                if job.run() != [count]:
                    raise AssertionError("a map is missing")
                took = tuple(now - then for now, then in zip(spent(), began))
                seconds[way].append(took)
                said = "{:.1f} s, {:.2f} s of the client, {:.2f} s with its planner".format(*took)
                print(f"{way}: {said}, load {os.getloadavg()[0]:.1f}", flush=True)
        told = {way: [of(its) for of, its in zip((median, min, min), zip(*ran))] for way, ran in seconds.items()}
        for way in ("waves", "plan ahead"):
            parts = [one / other for one, other in zip(told[way], told["Dask"])]
            said = "{:.2f} of Dask's time, {:.2f} of its client's, {:.2f} with the planner".format(*parts)
            print(f"{way}: {said}")


class Unread(ByDask):
    """Maps that read nothing, placed by Dask."""

    def reads(self, split: str) -> list:
        return [self.blocks.read, "", []]


def main() -> None:
    parser = argparse.ArgumentParser(description=__doc__, formatter_class=argparse.RawDescriptionHelpFormatter)
    parser.add_argument("--planner", default="", help="a command, or `library`, which is taken if it is there")
    parser.add_argument("--runs", type=int, default=3)
    parser.add_argument("--blocks", nargs="*", choices=("files", "keys"), default=["files", "keys"])
    parser.add_argument("--many", action="store_true", help="1,000 maps on 64 workers")
    asked = parser.parse_args()
    if asked.many:
        many(planner_of(asked.planner), asked.runs)
    else:
        table(planner_of(asked.planner), asked.runs, asked.blocks)


if __name__ == "__main__":
    try:
        main()
    except BrokenPipeError:  # (its reader has gone, and Python would write the rest as it ends)
        os.dup2(os.open(os.devnull, os.O_WRONLY), sys.stdout.fileno())

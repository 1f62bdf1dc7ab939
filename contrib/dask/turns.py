#!/usr/bin/python3
"""What the loop of mrjob_dask costs its client, by processor time, over a cluster that only seems to be there.

    contrib/dask/turns.py [--tasks 1000 10000 100000] [--rarest-first] [--ahead] [--planner 'bin/mrjob plan']

64 workers in 8 racks have a slot each, and each task has 3 holders. In each of 300 turns two tasks end, and two start.
Nothing is told to a scheduler, so what is left is what the loop and its planner, the C library, do for a turn. The time
of a planner that is a program is not counted.
"""
from __future__ import annotations

import argparse
import sys
import time
from pathlib import Path
from random import Random

sys.dont_write_bytecode = True
sys.path.append(str(Path(__file__).resolve().parents[2] / "python"))
from mrjob_dask import Place, Placing, Planner, RarestFirst, Splits, placing, planner_of
from mrjob_dask.calls import Call, Look, Seen

WORKERS, PER_RACK, TURNS = 64, 8, 300
NAMES = [f"r{number // PER_RACK}.w{number}" for number in range(WORKERS)]


class Made(Splits):
    """Tasks that lie on any three nodes."""

    def __init__(self, tasks: int) -> None:
        super().__init__()
        rnd = Random(1)
        self.nodes = {f"task-{number}": rnd.sample(NAMES, 3) for number in range(tasks)}
        self.bytes = dict.fromkeys(self.nodes, 64_000_000)

    def holders(self, split: str, look: Look) -> list[str]:
        return look.at(self.nodes[split])

    def call(self, split: str, worker: str, source: str) -> Call:
        return Call(worker, len, [])


class Ends:
    """A future that ends when it is told to."""

    def __init__(self, key: str) -> None:
        self.key, self.status = key, "pending"


class Enough(Exception):
    pass


def measured(tasks: int, planner: Planner, is_ahead: bool) -> None:
    """A line of the first wave and of the turns after it."""
    running: list[Ends] = []
    rnd, began, turns = Random(2), time.process_time(), list[float]()
    workers = {f"tcp://10.0.0.{number}:1": Seen(name, 1, 1, 0) for number, name in enumerate(NAMES)}

    def start(_, calls) -> list[Ends]:
        running.extend(map(Ends, calls))
        return running[-len(calls) :]

    def step(loop: Placing) -> None:
        turns.append(time.process_time())
        for _ in range(2):
            running.pop(rnd.randrange(len(running))).status = "finished"
        loop.news.set()
        if len(turns) > TURNS:
            raise Enough

    placing.look, placing.start = lambda *_: Look(workers, [], {}), start
    placing.tell_ends = placing.release = lambda *_: None
    racks = {name: Place(name.partition(".")[0]) for name in NAMES}
    try:
        Placing(None, Made(tasks), racks, planner, step=step, ahead=is_ahead).run()
    except Enough:
        each = (turns[-1] - turns[0]) / TURNS
        print(f"{tasks} tasks: {turns[0] - began:.2f} s up to the first wave, then {1000 * each:.2f} ms a turn")


def main() -> None:
    parser = argparse.ArgumentParser(description=__doc__, formatter_class=argparse.RawDescriptionHelpFormatter)
    parser.add_argument("--tasks", type=int, nargs="+", default=[1000, 10_000, 100_000])
    parser.add_argument("--rarest-first", action="store_true", help="by RarestFirst")
    parser.add_argument("--ahead", action="store_true", help="plan all tasks that wait onto queues")
    parser.add_argument("--planner", default="library", help="a command in place of the C library")
    asked = parser.parse_args()
    planner = planner_of(asked.planner)
    for tasks in asked.tasks:
        measured(tasks, RarestFirst(planner) if asked.rarest_first else planner, asked.ahead)


if __name__ == "__main__":
    main()

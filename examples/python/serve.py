#!/usr/bin/env python3
"""A scheduler that a live master decides for: tasks take a while, some fail, workers die and return.

    serve.py [--program mrjob] [--log FILE] [--kill N]

Time is made up: each attempt lasts 1 to 5 seconds of it. After N calls the master is killed, and a new one goes on from
the log. It tells how many calls there were and how the job ended, which is the same with and without --kill.
"""
import argparse
import heapq
import random
import tempfile
from pathlib import Path

from mrjob_plan import Cluster, Split, Worker, calls
from mrjob_plan.calls import Ignored, head
from mrjob_plan.master import Master, MasterEnded

RACKS, A_RACK, SPLITS, DEATHS = 5, 8, 200, 6


def job(dice):
    """200 splits of a document each, on 40 workers in five racks."""
    workers = {f"w{it}": Worker(f"r{it // A_RACK}", 2) for it in range(RACKS * A_RACK)}
    splits = {f"s{it}": Split(dice.randrange(1 << 26), dice.sample([*workers], 3)) for it in range(SPLITS)}
    documents = [(f"d{it}", f"s{it}", f"word{chr(97 + it % 26)} all") for it in range(SPLITS)]
    return head(Cluster(workers), splits, parts=8, documents=documents)


class Simulator:
    """What is to happen at which time, and the master that is told it."""

    def __init__(self, program, log, kill_after):
        self.program, self.log, self.kill_after = program, log, kill_after
        self.dice, self.count, self.events = random.Random(7), 0, []
        self.master = Master(job(self.dice), program=program, log=log)

    def tell(self, call):
        """Makes a call; where the master has ended, a new one is told the log, of which the call is the last line."""
        self.count += 1
        if self.count == self.kill_after:
            self.master.kill()
        try:
            return self.master.do(call)
        except MasterEnded as ended:
            self.master.close()
            self.master = Master.recover(self.log, program=self.program)
            print(f"{ended}; a new one was told {len(self.master.told)} lines")
            return call.answered(self.master.told[-1][1])

    def happen(self, at, call):
        heapq.heappush(self.events, (at, self.count, len(self.events), call))

    def start(self, now):
        """Starts what can start, splits and then parts."""
        started = [*self.tell(calls.wave()).starts]
        try:
            while True:
                started.append(self.tell(calls.reduce()))
        except Ignored:
            pass
        for it in started:
            is_well = self.dice.random() >= 0.04
            self.happen(now + self.dice.uniform(1, 5), calls.done(it.attempt) if is_well else calls.fail(it.attempt))

    def run(self):
        for number in self.dice.sample(range(RACKS * A_RACK), DEATHS):
            at = self.dice.uniform(1, 12)
            self.happen(at, calls.die(f"w{number}"))
            self.happen(at + 4, calls.join(f"w{number}", []))
        self.start(0.0)
        while self.events:
            now, _, _, call = heapq.heappop(self.events)
            try:
                self.tell(call)
            except Ignored:
                pass  # (its attempt was lost when its worker died)
            self.start(now)
        with self.master:
            return self.tell(calls.end())


def main():
    words = argparse.ArgumentParser()
    words.add_argument("--program", default="mrjob")
    words.add_argument("--log", type=Path)
    words.add_argument("--kill", type=int)
    asked = words.parse_args()
    with tempfile.TemporaryDirectory() as room:
        simulator = Simulator(asked.program, asked.log or Path(room) / "log", asked.kill)
        ended = simulator.run()
    print(f"{simulator.count} calls, {len(ended.index)} words, {len(ended.open)} splits open")


if __name__ == "__main__":
    main()

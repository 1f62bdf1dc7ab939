"""Waves of many splits: what a plan has to know of them, and how many a wave and a session take."""
from __future__ import annotations

from collections import Counter
from random import Random
from typing import Callable, Iterable

from trial import NAMES, Count, Trial, place_of  # (which finds the packages)

from mrjob_dask import Files, Job, Place, Placing, Planner, Row, Work
from mrjob_dask.masters import Session
from mrjob_dask.pending import Pending, Split
from mrjob_dask.place import Task, Tasks
from mrjob_dask.planner import Wave, distance, nearest, wave_of

Judge = Callable[[Planner, Wave], bool]
MOST = 131_072


def some_pending(rnd: Random) -> Wave:
    """Splits that were entered, changed and begun in any order, and a few free slots."""
    places = {f"w{it}": Place(f"r{rnd.randint(0, 3)}", f"c{rnd.randint(0, 1)}") for it in range(rnd.randint(1, 9))}
    workers = [*places]

    def split() -> Split:
        sample = lambda most: rnd.sample(workers, rnd.randint(0, min(most, len(workers))))
        return Split(rnd.choice([0, 1, 5, 5, 7, 9]), [*workers] if rnd.random() < 0.2 else sample(3), sample(2))

    def slots() -> dict[str, int]:
        free = rnd.choices(workers, k=rnd.randint(1, 3))
        return {it: free.count(it) for it in workers}

    pending = Pending(places, {f"s{it}": it for it in range(rnd.randint(0, 40))})
    for name in pending.names:
        pending.put(name, split())
    pending.candidates(slots())
    for name in pending.names:
        if rnd.random() < 0.3:
            pending.drop(name)
        elif rnd.random() < 0.3:
            pending.put(name, split())
    return wave_of(places, slots(), pending)


def candidates(planner: Planner, misplanned: Judge, count: Count) -> None:
    """A plan of the candidates is a best one of all pending splits."""
    waves = [some_pending(Random(seed)) for seed in range(300)]
    few = sum(len(it.splits.candidates(it.slots)) < len(it.splits) for it in waves)
    wrong = [seed for seed, it in enumerate(waves) if misplanned(planner, it)]
    says = f"300 made sets of pending splits, {type(planner).__name__}: each plan is best of all, by the reference"
    count.holds(says, few > 150 and not wrong, few, wrong)


class Asked(Planner):
    """Notes how many splits another planner is asked for."""

    def __init__(self, planner: Planner) -> None:
        self.asked, self.planner = list[int](), planner

    def ask(self, wave: Wave, units: dict[str, int]) -> tuple[dict[str, str], int]:
        self.asked.append(len(wave.splits))
        return self.planner.ask(wave, units)


def pending_of(places: dict[str, Place], splits: Iterable[Split]) -> Pending:
    splits = [*splits]
    pending = Pending(places, {f"s{it}": it for it in range(len(splits))})
    for name, split in zip(pending.names, splits):
        pending.put(name, split)
    return pending


def rarest(count: Count) -> None:
    """The candidates of which the rarest come first, by their definition."""
    wrong = []
    for seed in range(300):
        places, slots, pending, _ = some_pending(Random(seed))
        load = Counter(at for it in pending.values() for at in it.holders)
        order = sorted(pending, key=lambda it: (-min(load[at] for at in pending[it].holders), pending.number[it]))
        found = set()
        for worker in (it for it, free in slots.items() if free):
            steps = lambda it: distance(places, nearest(places, worker, pending[it].holders), worker)
            may = [it for it in order if worker not in pending[it].barred]
            found |= {*sorted(may, key=lambda it: steps(it) * pending[it].bytes)[: sum(slots.values())]}
        wrong += [seed] * ([*pending.candidates(slots, True)] != [it for it in order if it in found])
    says = "300 made sets of pending splits: the candidates are the cheapest, and of equal ones the rarest"
    count.holds(says, not wrong, wrong)


def many(planner: Planner, says: str, count: Count) -> None:
    """80 splits of 1 to 80 bytes on each of 64 workers but one: all slots are filled at the least, by a planner that
    checks its plans."""
    places = {f"w{it}": Place(f"r{it // 8}") for it in range(64)}
    pending = pending_of(places, (Split(1 + it % 80, [f"w{1 + it // 80}"], []) for it in range(80 * 63)))
    asked = Asked(planner)
    plan = asked.plan(wave_of(places, dict.fromkeys(places, 1), pending))
    is_so = (len(plan.starts), plan.cost, asked.asked) == (64, 2, [63 * 64])  # (w0 takes a byte from its rack)
    count.holds(f"{says}: a wave over 5,040 tasks, of which 4,032 are asked, is certified", is_so, plan.cost,
                asked.asked)
    for name in plan.starts:
        pending.drop(name)
    least = min(it.bytes for it in pending.values() if places[it.holders[0]] == places["w0"])
    plan = asked.plan(wave_of(places, {"w0": 1, "w9": 1}, pending))
    is_so = (len(plan.starts), plan.cost, asked.asked[1:]) == (2, 2 * least, [4])
    count.holds(f"{says}: a later one of two slots asks of four tasks", is_so, plan.cost, asked.asked)


def edge(planner: Planner, says: str, count: Count) -> None:
    """The first 131,072 splits are taken, and the next one waits, without an error."""
    places = {it: Place("r") for it in ("w0", "w1", "w2")}
    splits = {f"s{it}": Split(3, ["w0"], ["w2"]) for it in range(MOST)}
    splits["next"] = Split(1, ["w2"], [])
    asked = Asked(planner)
    first = asked.plan(wave_of(places, dict.fromkeys(places, 1), splits))
    is_so = (len(first.starts), first.cost, asked.asked) == (2, 6, [MOST])
    count.holds(f"{says}: of 131,073 tasks the first 131,072 are planned", is_so, first.cost, asked.asked)
    left = {name: split for name, split in splits.items() if name not in first.starts}
    second = asked.plan(wave_of(places, dict.fromkeys(places, 1), left))
    is_so = (len(second.starts), second.cost, second.starts.get("next")) == (3, 6, "w2")
    count.holds(f"{says}: and the next one by the wave after", is_so, len(second.starts), second.cost)


# ---- on a cluster ----


def many_blocks(trial: Trial, count: Count) -> None:
    """A job of more blocks than fit version 1 is one session, and as many tasks are placed by a planner."""
    client, number = trial.here.client, 1100
    rows = [Row(f"block-{it}", 0, 1, [NAMES[it % len(NAMES)]]) for it in range(number)]
    trial.rest()
    job = Job(client, Files(client, rows, lambda source, pieces: b""), Work(lambda *_: [b"1"], len, 1), place_of,
              trial.planner)
    results = job.run()
    script, _ = job.history()
    is_so = results == [number] and isinstance(job.master, Session) and len(job.attempts) == number
    count.holds("a job of 1,100 blocks is decided by one session", is_so and script.count("begin") == 1, results)
    tasks = Tasks(client, [Task(int, [it], []) for it in range(number)], [NAMES[it % 6] for it in range(number)], None)
    placing = Placing(client, tasks, place_of, trial.planner)
    values = client.gather(placing.run())
    is_so = values == [*range(number)] and len(placing.attempts) == number
    is_so = is_so and placing.waves[0].pending == number
    count.holds("1,100 tasks are placed, each once", is_so, len(placing.attempts))

"""Plans ahead, judged plan by plan and by made clocks; and second attempts. Nothing depends on time: where the loop has
to see a call run, the call waits for a file.
"""
from __future__ import annotations

import heapq
import signal
from collections import Counter
from pathlib import Path
from random import Random
from types import SimpleNamespace
from typing import Callable, Iterable, Optional, Union

from trial import Count, Gate, Trial, judged, place_of, wait_first  # (which finds the packages)

from mrjob_dask import Place, Placing, Planner, Splits
from mrjob_dask.ahead import Pace, Queues
from mrjob_dask.calls import Look, Seen
from mrjob_dask.masters import Session, Waves
from mrjob_dask.pending import Pending, Split
from mrjob_dask.place import Task, Tasks
from mrjob_dask.planner import Plan, Wave, distance, nearest, wave_of

from reference_play import misplayed
from words import index_lines, map_words

Judge = Callable[[Planner, Wave], bool]
TWELVE = {f"r{it // 3}.w{it:02}": place_of(f"r{it // 3}") for it in range(12)}  # workers in four racks


def wave(slots: list[int], splits: int) -> Wave:
    """A wave over workers of one rack, each split on the first one."""
    places = {f"w{number}": Place("r") for number in range(len(slots))}
    held = {f"s{number}": Split(1, ["w0"], []) for number in range(splits)}
    return wave_of(places, dict(zip(places, slots)), held)


# The free slots, the splits that wait, for how long each worker's calls have been running (means of a call that takes
# one second), and how long the queues are.
LENGTHS = [
    ([1, 1, 1], 6, {}, [2, 2, 2]),
    ([1, 1, 1], 4, {}, [2, 2, 2]),
    ([2, 1], 6, {}, [4, 2]),
    ([1, 1], 100, {}, [16, 16]),
    ([1, 0], 1, {"w1": [0.95]}, [1, 1]),  # (it ends by a tenth of a mean later, which is waited for)
    ([1, 0], 1, {"w1": [0.5]}, [1, 0]),
    ([1, 0], 4, {"w1": [0.5]}, [2, 2]),
    ([1, 0], 4, {"w1": [9.0]}, [4, 0]),  # (it is late by eight, and may be so again)
    ([3, 0], 1, {}, [3, 0]),
    ([0, 0], 3, {}, [0, 0]),
]


# The same, and what the places cost.
PRICES = [
    ([1, 1], 4, {}, [[0, 192], [0, 192]]),
    ([2, 0], 3, {"w1": [0.75]}, [[0, 0], [48]]),
    ([1, 0], 1, {"w1": [0.49]}, [[0], []]),  # (0.51 of a mean time are 8.25 steps, but the queue is empty)
    ([1, 0], 2, {"w1": [0.8]}, [[0], [39]]),  # (3.25 steps)
]


def lengths(count: Count) -> None:
    """How long queues are, worked by hand."""
    for slots, splits, running, wanted in LENGTHS:
        pace = Pace()
        pace.note("w0", 1.0)
        found = [*pace.lengths(wave(slots, splits), running).values()]
        says = f"queues over slots {slots}, {splits} splits and calls {running} have {wanted} places"
        count.holds(says, found == wanted, found)
    slow = Pace()
    for seconds, worker in ((1.0, "w0"), (4.0, "w1")):
        for _ in range(16):
            slow.note(worker, seconds)
    found = [*slow.lengths(wave([1, 1], 6), {}).values()]
    count.holds("a slow worker has a short queue", found == [5, 1], found)  # (of 1.3 and 3.7 seconds)


def prices(count: Count) -> None:
    """What places cost, worked by hand: by sixteen steps of a mean split for each mean time before they start, to a
    quarter of a step."""
    pace = Pace()
    pace.note("w0", 1.0)
    for slots, splits, running, wanted in PRICES:
        asked = wave(slots, splits)
        sized = {it: split._replace(bytes=12) for it, split in asked.splits.items()}
        found = pace.priced(asked._replace(splits=sized), running)
        says = f"queues over slots {slots}, {splits} splits of 12 bytes and calls {running} have these prices"
        count.holds(says, [*found.prices.values()] == wanted, found.prices)


def anew(planner: Planner, count: Count) -> None:
    """When all is planned anew, and in what order a queue starts."""
    queues, waits, seen = Queues(planner, Pace()), wave([1, 1], 4).splits, []
    # w1 is gone in the fourth turn, when two splits more wait, and back in the fifth
    for slots, more in (([1, 1], []), ([1, 0], []), ([1, 0], []), ([1], ["t0", "t1"]), ([0, 1], []), ([1, 1], [])):
        waits.update((split, Split(1, ["w0"], [])) for split in more)
        for split in queues.starts(wave(slots, 0)._replace(splits=dict(waits)), {}):
            del waits[split]
        seen.append(queues.plans)
    # (all but the last turn start as many as a quarter of the slots)
    wanted = [1, 2, 3, 4, 5, 5]
    count.holds("all is planned anew as calls start, and where a worker is gone or new", seen == wanted, seen)
    queues, waits, seen = Queues(planner, Pace()), wave([8], 20).splits, []
    for free, busy in ((8, 0), (1, 7), (1, 7), (1, 7), (0, 8), (1, 7)):
        for split in queues.starts(wave([free], 0)._replace(splits=dict(waits)), {"w0": [0.5] * busy}):
            del waits[split]
        seen.append(queues.plans)
    wanted = [1, 2, 2, 3, 3, 3]
    count.holds("all is planned anew where a quarter of the slots have started since", seen == wanted, seen)
    places = {"w0": Place("a"), "w1": Place("a"), "w2": Place("b")}
    held = {"far": ["w2"], "near": ["w1"], "easy": ["w0", "w2"], "hard": ["w0", "w1"], "own": ["w0"]}
    held.update({f"more{number}": ["w1"] for number in range(3)})
    splits = {split: Split(1, its, [it for it in places if it != "w0"]) for split, its in held.items()}
    queues = Queues(planner, Pace())
    queues.plan(wave_of(places, {"w0": 1}, splits), {})
    order = [it for it in queues.queues["w0"] if "more" not in it]
    wanted = ["own", "hard", "easy", "near", "far"]
    count.holds("near splits start first, of these the ones that are hard to start later", order == wanted, order)


class Kept(Planner):
    """Keeps what another planner is asked."""

    def __init__(self, planner: Planner) -> None:
        self.planner, self.asked = planner, []

    def plan(self, wave: Wave) -> Plan:
        self.asked.append(wave)
        return self.planner.plan(wave)


def phase(planner: Planner, seed: int, most_splits: int) -> tuple[list[Wave], str]:
    """A map phase by a made clock, in which splits fail and a worker dies; the waves that were asked, and what was
    wrong."""
    rnd = Random(seed)
    places = {f"w{it}": Place(f"r{it % 2}") for it in range(rnd.randint(1, 4))}
    waits = {f"s{it}": Split(rnd.randint(0, 9), rnd.sample([*places], rnd.randint(1, len(places))), [])
             for it in range(rnd.randint(0, most_splits))}
    slots, kept = {it: rnd.randint(1, 2) for it in places}, Kept(planner)
    queues, now, runs, number = Queues(kept, Pace()), 0.0, [], 0
    while waits or runs:
        busy = Counter(it[2] for it in runs)
        free = {it: slots[it] - busy[it] for it in places}
        running = {at: [now - it[4] for it in runs if it[2] == at] for at in places}
        starts = queues.starts(wave_of(places, free, waits), running)
        if any(worker in waits[split].barred for split, worker in starts.items()):
            return kept.asked, "a split starts where it is barred"
        if any(load > free[it] for it, load in Counter(starts.values()).items()):
            return kept.asked, "more starts than free slots"
        for split, worker in starts.items():
            number += 1
            heapq.heappush(runs, (now + rnd.choice([0.2, 1.0, 1.1, 5.0]), number, worker, split, now, waits.pop(split)))
        if not runs:
            return kept.asked, f"nothing starts, and {len(waits)} splits wait"
        ended, _, worker, split, began, it = heapq.heappop(runs)
        now = ended
        if rnd.random() < 0.1 and len(it.barred) + 1 < len(places):
            held = [at for at in it.holders if at in places] or [*places]
            waits[split] = Split(it.bytes, held, [*(at for at in it.barred if at in places), worker])
        else:
            queues.pace.note(worker, now - began)
        if rnd.random() < 0.05 and len(places) > 1:
            places = {at: place for at, place in places.items() if at != worker}
            waits.update({run[3]: run[5] for run in runs if run[2] == worker})
            runs = [run for run in runs if run[2] != worker]
            heapq.heapify(runs)
            waits = {at: split._replace(holders=[it for it in split.holders if it in places] or [*places],
                                        barred=[]) for at, split in waits.items()}
    return kept.asked, ""


def phases(planner: Planner, misplanned: Judge, count: Count) -> None:
    """Made map phases end, and each of their plans is best for what it was asked."""
    wrong, bad, plans = [], [], 0
    for seed in range(40):
        asked, said = phase(planner, seed, 8)
        wrong += [(seed, said)] * (said != "")
        plans += len(asked)
        bad += [seed for it in asked[:3] if misplanned(planner, it)]
    count.holds("40 made phases ahead: all splits start, within slots and bars", not wrong, wrong)
    count.holds("40 made phases ahead: each plan is best for its queues, by the reference", plans > 40 and not bad, bad)


class Laid(Splits):
    """72 splits of a byte, each on three of twelve workers."""

    def __init__(self, rnd: Random) -> None:
        super().__init__()
        self.held = {f"s{it}": rnd.sample([*TWELVE], 3) for it in range(72)}
        self.bytes = dict.fromkeys(self.held, 1)

    def holders(self, split: str, look: Look) -> list[str]:
        return self.held[split]


def session_of(program: str, splits: Splits, workers: Iterable[str], pace: Optional[Pace]) -> Session:
    """A live master over workers with a slot each, whose addresses are their names."""
    places, names = {it: place_of(it) for it in workers}, {it: it for it in workers}
    seen = Look({it: Seen(it, 1, 1, 0) for it in workers}, [], {})
    return Session([program], seen, places, names, splits, 1, [], pace)


def saved(planner: Planner, program: str, count: Count) -> None:
    """Six blocks for each of twelve workers, by a made clock: what is carried ahead, and by waves."""
    masters = {
        "a planner's waves": lambda splits, pace: Waves(planner, None),
        "a planner ahead": lambda splits, pace: Waves(planner, Queues(planner, pace)),
        "a master's waves": lambda splits, pace: session_of(program, splits, TWELVE, None),
        "a master ahead": lambda splits, pace: session_of(program, splits, TWELVE, pace),
    }
    carried = Counter()
    for seed in range(2):
        for says, master_of in masters.items():
            splits, pace = Laid(Random(seed)), Pace()
            master = master_of(splits, pace)
            carried[says] += one_clock(master, splits, pace, seed)
            master.close()
        judged_ahead(master, "72 splits ahead by a made clock", count)
    for says in ("a planner", "a master"):
        is_so = carried[f"{says} ahead"] < carried[f"{says}'s waves"]
        count.holds(f"by a made clock 144 blocks carry less ahead than by waves, by {says}", is_so, carried)


def judged_ahead(master: Session, says: str, count: Count) -> None:
    """Judges a session that ended before its part was started, whose plans are all ahead."""
    script, report = ("".join(f"{line}\n" for line in it).encode() for it in (master.script, master.report))
    wrong = misplayed(script, report, 1)
    is_so = wrong is None and "wave" not in master.script
    count.holds(f"{says}: it is a legal history, each plan best for its queues, by the reference", is_so, wrong)


def one_clock(master: Union[Session, Waves], splits: Splits, pace: Pace, seed: int) -> int:
    """The steps that 72 equal blocks go, whose calls take 15 % more or less than a second."""
    rnd, pending, runs, steps = Random(seed), Pending(TWELVE, {it: at for at, it in enumerate(splits.bytes)}), [], 0
    takes, now = {it: rnd.uniform(0.85, 1.15) for it in splits.bytes}, 0.0
    for it, size in splits.bytes.items():
        pending.put(it, Split(size, splits.held[it], []))
    while pending or runs:
        busy = {it[1]: [now - it[2]] for it in runs}
        for it in master.wave(pending, {at: int(at not in busy) for at in TWELVE}, busy) if pending else ():
            steps += distance(TWELVE, it.worker, nearest(TWELVE, it.worker, pending[it.split].holders))
            pending.drop(it.split)
            heapq.heappush(runs, (now + takes[it.split], it.worker, now, it.attempt))
        now, worker, began, told = heapq.heappop(runs)
        pace.note(worker, now - began)
        master.tell_done([SimpleNamespace(told=told)])
    return steps


def waiting(program: str, count: Count) -> None:
    """By a live master a split waits for its busy holder, about which no plan is asked for twice, and starts elsewhere
    once that is late."""
    splits, pace = Laid(Random(1)), Pace()
    splits.held = {it: ["r.a"] for it in ("s", "t")}
    splits.bytes = dict.fromkeys(splits.held, 1)
    pending = Pending({it: place_of(it) for it in ("r.a", "r.b")}, {"s": 0, "t": 1})
    master, seen = session_of(program, splits, pending.places, pace), []
    for it in splits.held:
        pending.put(it, Split(1, ["r.a"], []))
    pace.note("r.a", 1.0)
    for free, seconds in ((1, 0.0), (0, 0.95), (0, 0.95), (0, 3.0)):
        starts = master.wave(pending, {"r.a": free, "r.b": int(seconds > 0)}, {} if free else {"r.a": [seconds]})
        for it in starts:
            pending.drop(it.split)
        seen.append(([(it.split, it.worker) for it in starts], sum(it.startswith("ahead") for it in master.script)))
    wanted = [([("s", "r.a")], 1), ([], 2), ([], 2), ([("t", "r.b")], 3)]
    count.holds("by a live master a split waits for its holder, until that is late", seen == wanted, seen)
    master.close()
    judged_ahead(master, "a split that waits", count)


# ---- on a cluster ----


def backups(trial: Trial, count: Count, sort: str) -> None:
    """A map goes on for ever: its block is mapped on another worker, and the job ends."""
    blocks = getattr(trial, sort)()
    slow = [*blocks.pieces][4]
    first = blocks.pieces[slow][0]
    with trial.room() as room:

        def mapped(data, pieces, parts):
            if pieces[0] == first:
                wait_first(room)
            return map_words(data, pieces, parts)

        job = trial.job(blocks, Gate(room), set(), lambda job: None)
        job.work, job.backup = job.work._replace(map=mapped), 0.0
        lines = index_lines(job.run())
    says = f"{sort}{trial.how()}, a map without end"
    count.holds(f"{says}: the index is that of the reference", lines == trial.wanted)
    ends = [it.end for it in job.attempts if it.split == slow]
    count.holds(f"{says}: of its two attempts one is done, and one is late", sorted(ends) == ["done", "late"], ends)
    is_second = [it.wave == 0 for it in job.attempts]
    again = Counter(it.split for it in job.attempts).most_common(1)[0][1]
    is_so = is_second == sorted(is_second) and again == 2
    count.holds(f"{says}: no second attempt starts while splits wait, and no third", is_so, is_second)
    # (where no other worker has a free slot, the second attempt runs on the first one's source, and reads elsewhere)
    (worker, source), (other, elsewhere) = where = [(it.worker, it.source) for it in job.attempts if it.split == slow]
    is_else = other != worker and elsewhere not in (worker, source)
    count.holds(f"{says}: it is started and read elsewhere", is_else, where)
    judged(job, count, says)


def stopped(trial: Trial, count: Count) -> None:
    """A worker is stopped for good while its task runs: the task is done on another one."""
    client, names = trial.here.client, []
    trial.rest()
    with trial.room() as room:
        slow = lambda it: (wait_first(room) if it == 3 else None, it)[1]
        tasks = Tasks(client, [Task(slow, [it], []) for it in range(8)], None, None)

        def step(placing: Placing) -> None:
            left = [it for it in placing.attempts if it.end == "running"]
            if not names and len(placing.maps) == 8 and len(left) == 1 and (Path(room) / "first").exists():
                names.append(placing.names[left[0].worker])
                trial.here.processes[names[0]].send_signal(signal.SIGSTOP)
                placing.backup = 0.0

        futures = Placing(client, tasks, place_of, trial.planner, step=step).run()
        done = [it.status for it in futures]
        trial.here.processes[names[0]].send_signal(signal.SIGCONT)
    values = client.gather(futures)
    count.holds("a worker that is stopped: its task is done elsewhere", done == ["finished"] * 8, done)
    count.holds("a worker that is stopped: all values are right", values == [*range(8)], values)

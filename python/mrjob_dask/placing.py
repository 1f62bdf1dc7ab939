"""The client-side loop: calls over splits, each started where a master says, until all are done.

A call may run on its worker alone, so Dask never queues, moves or steals it. Where that worker dies the scheduler sets
the call aside, running or done alike, the master is told of the death, and says what is open again. The loop looks at
the cluster, tells what it sees, and carries out what is answered.
"""
from __future__ import annotations

import threading
import time
import uuid
from collections import Counter, defaultdict
from contextlib import suppress
from typing import Any, Callable, Mapping, NamedTuple, Optional, Sequence, Union

from distributed import Client, Future
from mrjob_plan import calls
from mrjob_plan.calls import Ignored, Start

from .ahead import Pace, Queues
from .blocks import Splits
from .calls import Call, Look, look, release, start, tell_ends
from .masters import Attempt, Session, Waves
from .pending import Pending, Place, Split
from .planner import Planner, distance, nearest, planner_of
from .topology import Racks, Topology

MOST_TRIES = 4  # so often a call may raise
MOST_DEATHS = 3  # and on so many workers it may be running as they die
GATHER = 0.005  # seconds for which the loop waits for further ends: calls that began together end together
GRACE = 30.0  # seconds for which a split may be without a holder, as while a nanny restarts its worker
ENDS = {"failed": calls.fail, "lost": calls.withdraw}  # as the master is told of them


class LostBlock(Exception):
    """A split that is needed has no living holder."""


class DeadlySplit(Exception):
    """The call of a split was running on several workers as they died."""


class Planned(NamedTuple):
    """What a turn saw that began something: how many splits were pending, and the free slots of the workers that had
    some; with the byte-distance and the attempts of what it began."""

    pending: int
    slots: dict[str, int]
    cost: int
    attempts: list[Attempt]


class Placing:
    """Starts the call of each split. `racks` is what a Topology takes; `step` is called after each turn's starts.

    With `ahead` all splits that wait are planned onto queues. With `backup` a call that has run for so many times the
    mean of those done is started on a second worker, once no split waits."""

    def __init__(
        self,
        client: Client,
        splits: Splits,
        racks: Racks = None,
        planner: Optional[Planner] = None,
        grace: float = GRACE,
        step: Callable[[Any], None] = lambda placing: None,
        ahead: bool = False,
        backup: Optional[float] = None,
    ) -> None:
        self.client, self.splits = client, splits
        self.pace, self.backup, planner = Pace(), backup, planner or planner_of()
        self.master: Union[Session, Waves] = Waves(planner, Queues(planner, self.pace) if ahead else None)
        self.topology, self.grace, self.step = Topology(racks), grace, step
        # (Dask learns how long tasks take by the words in front of a key)
        self.mark = f"-{uuid.uuid4().hex[:8]}-"
        self.key = f"mrjob-map{self.mark}"
        self.going: list[Attempt] = []  # attempts that run, or whose outputs count
        self.running: list[Attempt] = []  # attempts that run
        self.maps: dict[str, Attempt] = {}  # of each split one of the attempts that go on
        self.numbers = {split: number for number, split in enumerate(splits.bytes)}
        self.pending = Pending({}, self.numbers)  # splits that no call was begun for, as they were seen last
        self.unseen = [*splits.bytes]  # splits whose holders were not asked for yet
        self.sees_all_at = 0.0  # when the holders of all pending splits are asked for again
        self.waiting: list[Start] = []  # the master's starts that wait for a thread
        self.late: list[Attempt] = []  # attempts that go on although their splits are done
        self.attempts: list[Attempt] = []
        self.waves: list[Planned] = []
        self.slots_seen: dict[str, int] = {}  # the free slots in this turn, before it started anything
        self.copies = 0
        self.doubted: set[int] = set()  # those that did not end well, until another look tells why
        self.processes: dict[str, str] = {}  # the workers' processes, as the attempts' ends were last told of by them
        self.is_shaken = False  # whether an end is doubted
        self.is_sure = False  # whether this turn looked at the attempts that were done too
        self.failed_on: dict[str, list[str]] = defaultdict(list)
        self.died_on: dict[str, list[str]] = defaultdict(list)
        self.bare_since: dict[str, float] = {}
        self.alive: set[str] = set()
        self.names: dict[str, str] = {}
        self.news = threading.Event()
        self.news.set()

    def run(self) -> list[Future]:
        """The futures of all calls, done, in the order of their splits. Raises LostBlock, DeadlySplit, Unfit, or what
        a call raised too often."""
        try:
            while not self.turn():
                pass
        except BaseException:
            self.release()
            raise
        self.let_go(self.late)
        return [self.maps[split].future for split in self.splits.bytes]

    def turn(self) -> bool:
        """One turn: a look, while calls run; a pause, until one is done; then the master is told what ended, or starts
        a wave. Whether all calls are done."""
        seen, places = self.look_at_pending()
        if self.alive != {*places} or self.master.is_worn:
            seen, places = self.look([*self.splits.bytes])
            self.pending = Pending(places, self.numbers)
            self.unseen = [it for it in self.splits.bytes if it not in self.maps]
            if self.enter_workers(seen, places):
                return False  # (copies were made, so the look is old)
            self.enter_splits(self.unseen, seen)
        self.pause()
        if self.take_back(seen):
            self.news.set()
            return False  # (more splits wait, of whose holders the look does not tell)
        self.slots_seen = self.slots(seen)
        self.start_wave(seen, self.slots_seen)
        self.start_seconds(seen, places)
        self.step(self)
        return self.is_done()

    def is_done(self) -> bool:
        return self.is_sure and not self.running and len(self.maps) == len(self.splits.bytes)

    def pause(self) -> None:
        """Waits until a future is done, or for half a second, less where splits wait and none runs."""
        if self.news.wait(0.1 if not self.running and not self.is_done() else 0.5):
            time.sleep(GATHER)
        self.news.clear()

    def watch(self, futures: Sequence[Future]) -> None:
        """Lets a pause end as one of these futures is done."""
        news = self.news
        tell_ends(self.client, futures, lambda _: news.set())

    def call(self, split: str, worker: str, source: str) -> Call:
        """What is called for a split."""
        return self.splits.call(split, worker, source)

    # ---- the cluster ----

    def look(self, splits: Sequence[str]) -> tuple[Look, dict[str, Place]]:
        """The cluster as it is, with the holders of these splits; and the places of workers."""
        seen = look(self.client, self.key, self.splits.keys(splits))
        names = {address: it.name for address, it in seen.workers.items()}
        self.names.update(names)
        return seen, self.topology.places(names)

    def look_at_pending(self) -> tuple[Look, dict[str, Place]]:
        """A look that tells the holders of pending splits: of those that are new or have none, and where no nodes are
        named of all, so seldom that this takes a tenth of the time."""
        began = time.monotonic()
        sees_all = not self.splits.nodes and began >= self.sees_all_at
        asked = [*self.unseen, *self.pending.bare, *(self.pending if sees_all else ())]
        seen, places = self.look(asked)
        if self.alive == {*places}:
            self.enter_splits(asked, seen)
        now = time.monotonic()
        self.sees_all_at = now + 9 * (now - began) if sees_all else self.sees_all_at
        return seen, places

    def enter_workers(self, seen: Look, places: dict[str, Place]) -> bool:
        """Tells who came and who is gone, and lets splits get their holders back. Whether copies were made."""
        for it in self.alive - {*places}:
            self.master.die(it)
        held: dict[str, list[str]] = {it: [] for it in places if it not in self.alive}
        for split in self.splits.bytes if held else ():
            for it in self.splits.holders(split, seen):
                if it in held:
                    held[it].append(split)
        for it, splits in held.items():
            self.master.join(it, splits)
        self.alive = {*places}
        copies = self.splits.repair(seen, places)
        for copy in copies:
            self.master.add(copy.key, copy.worker)
        self.copies += len(copies)
        return bool(copies)

    # ---- what was started ----

    def take_back(self, seen: Look) -> bool:
        """Tells how calls ended, and lets go of those that the master keeps no more. Whether more splits wait."""
        began, done, has_ended = len(self.maps), list[Attempt](), False
        self.is_sure = self.may_be_lost(seen)
        looked_at = self.going if self.is_sure else self.running
        for attempt in looked_at:
            was, end = attempt.end, self.end_of(attempt, seen)
            if end == was:
                continue
            if end != "done" and attempt.worker in seen.workers and attempt.number not in self.doubted:
                self.doubted.add(attempt.number)
                self.is_shaken = True
                self.news.set()  # (a worker may have died since the look: another one tells)
                continue
            attempt.end = end
            has_ended = has_ended or end != "done"
            if end == "done":
                self.pace.note(attempt.worker, time.monotonic() - attempt.began)
                done.append(attempt)
            elif attempt.worker in seen.workers:
                self.tell_end(attempt, was, len(seen.workers))
            elif was == "running":
                self.died_on[attempt.split].append(self.names[attempt.worker])
        self.master.tell_done(done)
        self.refuse_deadly()
        self.keep(has_ended)
        self.running = [it for it in looked_at if it.end == "running"]
        self.let_go([it for it in self.late if it.future.status != "pending" or it.worker not in seen.workers])
        return len(self.maps) < began

    def may_be_lost(self, seen: Look) -> bool:
        """Whether calls that were done may be lost: where a process of a worker is gone, a task was set aside or an end
        is doubted. As all seem to be done they are looked at too."""
        processes = {at: it.process for at, it in seen.workers.items()}
        is_last = not self.pending and all(it.future.status != "pending" for it in self.running)
        is_so = self.is_shaken or bool(seen.aside) or processes != self.processes or is_last
        self.processes, self.is_shaken = processes, False
        return is_so

    def end_of(self, attempt: Attempt, seen: Look) -> str:
        """How an attempt stands. One that fails as its source dies is lost, as one is whose worker dies."""
        status = attempt.future.status
        if attempt.worker not in seen.workers or status in ("cancelled", "lost") or attempt.future.key in seen.aside:
            return "lost"
        if status == "error":
            return "failed" if attempt.source in seen.workers else "lost"
        return "done" if status == "finished" else attempt.end

    def tell_end(self, attempt: Attempt, was: str, workers: int) -> None:
        """Tells the master of an end other than done. A worker that lost what it had done is as one that died and came
        back."""
        if attempt.end == "failed":
            self.note_failure(attempt, workers)
        with suppress(Ignored):
            if was == "running":
                self.master.tell(ENDS[attempt.end](attempt.told))
            else:
                self.master.die(attempt.worker)
                self.master.join(attempt.worker, [])

    def note_failure(self, attempt: Attempt, workers: int) -> None:
        self.failed_on[attempt.split].append(self.names[attempt.worker])
        if len(self.failed_on[attempt.split]) >= min(MOST_TRIES, workers):
            attempt.future.result()  # (which raises it)

    def refuse_deadly(self) -> None:
        """Names all splits whose calls were running as so many workers died: each of these may have killed them."""
        deadly = {split: workers for split, workers in self.died_on.items() if len(workers) >= MOST_DEATHS}
        if deadly:
            told = (f"{split} was running on {', '.join(workers)} as they died" for split, workers in deadly.items())
            raise DeadlySplit("; ".join(told))

    def keep(self, has_ended: bool) -> None:
        """Keeps the attempts that the master keeps, if not all: those are all where each split has one, and none ended
        but as done. One whose split was done by another is late, and has its slot until it ends."""
        is_single = len(self.maps) == len(self.going) and not any(it.split in self.maps for it in self.waiting)
        if is_single and self.master.is_kept and not has_ended:
            return
        kept = self.master.kept(self.going)
        self.waiting = [it for it in self.waiting if it.attempt in kept]
        gone = [it for it in self.going if it.told not in kept]
        self.going = [it for it in self.going if it.told in kept]
        before, self.maps = self.maps, {it.split: it for it in self.going}
        self.unseen += [split for split in before if split not in self.maps]
        done = {it.split for it in self.going if it.end == "done"}
        for it in gone:
            if it.end in ("running", "done"):
                it.end = "late" if it.split in done else "lost"
            if it.end == "late":
                self.late.append(it)
            else:
                self.drop(it)

    def drop(self, attempt: Attempt) -> None:
        """Forgets an attempt that is no more. (Dask's `cancel` would stumble over tasks that nobody wants.)"""
        attempt.future.release()

    def release(self) -> None:
        """Leaves nothing on the cluster."""
        self.let_go([*self.going, *self.late])

    def let_go(self, late: list[Attempt]) -> None:
        """Releases what attempts gave, or may yet give."""
        if late:
            release(self.client, [it.future for it in late])
        self.late = [it for it in self.late if it not in late]

    # ---- what is started ----

    def slots(self, seen: Look) -> dict[str, int]:
        """The free slots: threads less own maps that are open, counted here since the scheduler may not know them yet,
        and less what others run."""
        mine = Counter(it.worker for it in (*self.running, *self.late))
        return {at: max(0, it.threads - mine[at] - it.others) for at, it in seen.workers.items()}

    def enter_splits(self, splits: Sequence[str], seen: Look) -> None:
        """Enters pending splits as a look sees them, with the workers on which they may not start again."""
        for split in splits:
            holders, failed = self.splits.holders(split, seen), self.failed_on.get(split, ())
            barred = [at for at in seen.workers if self.names[at] in failed] if failed else []
            self.pending.put(split, Split(self.splits.bytes[split], holders, barred))
            if holders:
                self.bare_since.pop(split, None)
            else:
                self.note_bare(split)
        self.unseen = []

    def note_bare(self, split: str) -> None:
        """A split is without a holder, which ends the job after the grace time, or at once where it is gone."""
        now = time.monotonic()
        since = self.bare_since.setdefault(split, now)
        if self.splits.is_gone(split) or now - since >= self.grace:
            nodes = " or ".join(self.splits.nodes.get(split, ()))
            raise LostBlock(f"{split} has no living holder" + f": {nodes} is no worker's name or host" * (nodes != ""))

    def start_wave(self, seen: Look, free: Mapping[str, int]) -> None:
        """Starts a wave, and begins what the master started where a thread is free. The rest waits, as for others'
        tasks or for a paused worker."""
        number = len(self.pending)
        if number > sum(it.split in self.pending for it in self.waiting) or self.pending.bare:
            self.waiting += self.master.wave(self.pending, free, self.seconds_run(seen))
        slots, starts = {**free}, []
        for it in [*self.waiting]:
            if slots.get(it.worker) and it.split in self.maps:
                self.master.tell(calls.withdraw(it.attempt))  # (it was begun elsewhere meanwhile)
                self.waiting.remove(it)
            elif slots.get(it.worker) and it.split in self.pending:
                slots[it.worker] -= 1
                self.waiting.remove(it)
                starts.append(it)
        if starts:
            held = {it.split: self.pending[it.split].holders for it in starts}
            attempts = self.begin(self.pending.places, starts, held, len(self.waves) + 1)
            cost = sum(self.splits.bytes[it.split] * it.steps for it in attempts)
            self.waves.append(Planned(number, {at: slots for at, slots in free.items() if slots}, cost, attempts))

    def seconds_run(self, seen: Look) -> dict[str, list[float]]:
        """Of each worker that is not paused for how many seconds its calls have been running."""
        now, seconds = time.monotonic(), defaultdict(list)
        for it in (*self.running, *self.late):
            if seen.workers[it.worker].threads:
                seconds[it.worker].append(now - it.began)
        return seconds

    def start_seconds(self, seen: Look, places: Mapping[str, Place]) -> None:
        """Once no split is pending, starts a second attempt of each slow call, and of each that waits for a thread: on
        a worker with a free slot that is nearest to another holder, but for its own and those on which it failed."""
        waits, slots = {it.split: [it.worker] for it in self.waiting}, self.slots(seen)
        is_pending = len(self.pending) > len(waits) or not {*self.pending, *self.pending.bare} <= waits.keys()
        if is_pending or not any(slots.values()):
            return
        avoid = {split: at for split, at in waits.items() if split not in self.maps}
        if self.backup is not None:
            late_at = time.monotonic() - self.backup * self.pace.mean(float("inf") if self.backup else 0)
            once = [split for split, number in Counter(it.split for it in self.running).items() if number == 1]
            slow = [self.maps[it] for it in once if it not in waits and self.maps[it].began <= late_at]
            avoid.update((it.split, [it.worker, it.source]) for it in slow if it.end == "running")
        now = self.look([*avoid])[0] if avoid else seen
        starts, held = list[Start](), dict[str, list[str]]()
        for split, at in avoid.items():
            holders = [it for it in self.splits.holders(split, now) if it in places]
            held[split] = [it for it in holders if it not in at] or holders
            out = [at[0], *(it for it in slots if self.names[it] in self.failed_on.get(split, ()))]
            free = [it for it, number in slots.items() if number and it not in out and holders]
            near = lambda it: (it in at, distance(places, nearest(places, it, held[split]), it))
            second = self.master.backup(split, min(free, key=near)) if free else None
            if second:
                slots[second.worker] -= 1
                starts.append(second)
        if starts:
            self.begin(places, starts, held, 0)

    def begin(
        self, places: Mapping[str, Place], starts: Sequence[Start], holders: Mapping[str, list[str]], wave: int
    ) -> list[Attempt]:
        """Begins the calls of splits, each on its worker, which reads from the nearest holder."""
        sources = [nearest(places, it.worker, holders[it.split]) for it in starts]
        first = len(self.attempts) + 1
        numbered = [*enumerate(zip(starts, sources), first)]
        keyed = {f"{self.key}{number}": self.call(it.split, it.worker, source) for number, (it, source) in numbered}
        futures = start(self.client, keyed)
        self.watch(futures)
        attempts = [
            Attempt(it.split, number, it.attempt, wave, it.worker, source, distance(places, source, it.worker), future)
            for (number, (it, source)), future in zip(numbered, futures)
        ]
        self.attempts += attempts
        self.going += attempts
        self.running += attempts
        self.maps.update((it.split, it) for it in attempts)
        for it in attempts:
            self.pending.drop(it.split)
        return attempts

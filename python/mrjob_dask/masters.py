"""What decides a job: a session of `mrjob serve`, or where none fits a planner that is asked wave by wave.

Both take the same calls in the words of the cluster: splits, and the addresses of workers. A session is a live master
(docs/MODEL.md) of work that is done elsewhere: it says what starts where, what is open again after a death, which pairs
are barred, when the parts start and where, and which outputs count.
"""
from __future__ import annotations

import re
import time
from contextlib import suppress
from dataclasses import dataclass, field
from typing import Iterable, Mapping, Optional, Sequence, TypeVar, Union

from distributed import Future
from mrjob_plan import Cluster, Worker, calls
from mrjob_plan import Split as Declared
from mrjob_plan.calls import QUERIES, Ahead, Call, Ignored, Reduce, Start, Wave
from mrjob_plan.master import Master, MasterEnded

from .ahead import Pace, Queues
from .blocks import Splits
from .calls import Look
from .pending import Pending, Place
from .planner import HOLDERS, SLOTS, Planner, unit_of, wave_of

T = TypeVar("T")
MOST_LINES = 1_000_000  # a session has room for 1,048,576 events and 1,000,000 attempts


@dataclass
class Attempt:
    """A call of a split that was begun: by which wave, none for a second one, where, and from which holder it reads,
    how far. It ends as done, failed, lost or late, the last where the split's other attempt was done before. `told` is
    the number by which the master knows it."""

    split: str
    number: int
    told: int
    wave: int
    worker: str
    source: str
    steps: int
    future: Future
    end: str = "running"
    began: float = field(default_factory=time.monotonic)


class Waves:
    """Where no session fits: a planner is asked for each wave, or ahead for queues, and Dask places the parts."""

    is_worn, is_kept = False, True

    def __init__(self, planner: Planner, queues: Optional[Queues]) -> None:
        self.planner, self.queues, self.last = planner, queues, 0

    def wave(
        self, pending: Pending, slots: Mapping[str, int], running: Mapping[str, Sequence[float]]
    ) -> list[Start]:
        """What starts now. A split may not start where it failed, unless it failed everywhere."""
        seen = wave_of(pending.places, slots, pending)
        starts = self.queues.starts(seen, running) if self.queues else self.planner.plan(seen).starts
        return [self.backup(split, worker) for split, worker in starts.items()]

    def backup(self, split: str, worker: str) -> Start:
        self.last += 1
        return Start(self.last, split, worker)

    def reduces(self, parts: Sequence[int]) -> list[Reduce]:
        """Starts these parts, which are all that are open."""
        return [Reduce(0, part, "") for part in parts]

    def kept(self, going: Sequence[Attempt]) -> set[int]:
        """The attempts that run, and of each split that is done the first."""
        done = {it.split: it.told for it in reversed(going) if it.end == "done"}
        return {it.told for it in going if it.end in ("running", "done") and done.get(it.split, it.told) == it.told}

    def tell(self, *what: object) -> None:
        """A planner need not know what happened."""

    die = join = add = close = tell_done = tell


def fit(name: str) -> str:
    """A name that fits the format."""
    return re.sub("[^A-Za-z0-9._:/-]", "-", name)[:64]


class Session:
    """A live master of splits, of parts, and of the workers that are there as it begins, which are known again by their
    names. It knows nothing of other workers, nor of what else runs on its own. By a pace it plans ahead."""

    def __init__(
        self, program: Sequence[str], seen: Look, places: Mapping[str, Place], names: Mapping[str, str], splits: Splits,
        parts: int, told: Sequence[Attempt], pace: Optional[Pace],
    ) -> None:
        wave_of({**places}, {}, {})  # (which refuses too many workers, in words)
        self.names, self.pace = names, pace  # names of workers, by their addresses
        order = sorted(places, key=lambda it: names[it])
        self.workers = {names[at]: fit(f"w{number}-{names[at]}") for number, at in enumerate(order)}
        self.splits = {split: fit(f"s{number}-{split}") for number, split in enumerate(splits.bytes)}
        self.addresses = {self.worker(at): at for at in order}
        self.named = {name: split for split, name in self.splits.items()}
        # (what runs or is done is told where no other split has a holder, so that a wave starts just that)
        self.held = {it: [] if told else splits.holders(it, seen)[:HOLDERS] for it in splits.bytes}
        racks = {place: fit(f"r{number}-{place.rack}") for number, place in enumerate(sorted({*places.values()}))}
        centres = {it: fit(f"c{number}-{it}") for number, it in enumerate(sorted({place.centre for place in racks}))}
        workers = {self.worker(at): Worker(racks[places[at]], min(SLOTS, seen.workers[at].slots)) for at in order}
        cluster = Cluster(workers, {rack: centres[place.centre] for place, rack in racks.items()})
        unit = unit_of(splits.bytes.values())
        blocks = {
            self.splits[it]: Declared(max(1, -(-size // unit)), [self.worker(at) for at in self.held[it]])
            for it, size in splits.bytes.items()  # (one of no bytes could be told to run nowhere in particular)
        }
        self.is_worn, self.has_news = False, True
        self.is_kept = False  # whether nothing was told since by which an attempt may be kept no more
        self.outs: Optional[set[str]] = None
        self.script, self.report = [*calls.head(cluster, blocks, parts=parts), "begin"], list[str]()
        self.master = Master(self.script[:-1], program=program, audits=False)
        for it in sorted(told, key=lambda it: it.end == "running"):
            self.retell(it)

    def worker(self, address: str) -> str:
        return self.workers[self.names[address]]

    def start(self, it: Start) -> Start:
        """A start in the words of the cluster."""
        return Start(it.attempt, self.named[it.split], self.addresses[it.worker])

    def knows(self, address: str) -> bool:
        return self.names[address] in self.workers

    def is_fit(self, places: Iterable[str]) -> bool:
        """Whether it goes on with these workers."""
        return not self.is_worn and all(map(self.knows, places))

    def tell(self, call: Call[T]) -> T:
        answer = self.master.tell(call.line)
        if call.line not in QUERIES:
            self.note(call.line, answer)
            self.is_kept = self.is_kept and call.line.startswith(("wave", "ahead", "reduce", "add"))
        return call.answered(answer)

    def tell_done(self, attempts: Sequence[Attempt]) -> None:
        """Tells of attempts that are done, all at once; of two of one split the second is ignored."""
        lines = [calls.done(it.told).line for it in attempts]
        for line, answer in zip(lines, self.master.tell_all(lines)):
            self.note(line, answer)
            self.is_kept = self.is_kept and answer[0].startswith("accepted")

    def note(self, line: str, answer: list[str]) -> None:
        self.script.append(line)
        self.report += answer
        self.has_news = True
        self.is_worn = self.is_worn or len(self.script) > MOST_LINES

    def retell(self, attempt: Attempt) -> None:
        """Starts a split where it runs or is done, which is its only holder."""
        self.add(attempt.split, attempt.worker)
        for it in self.tell(calls.wave()).starts:
            attempt.told = it.attempt
            if attempt.end == "done":
                self.tell(calls.done(it.attempt))

    def wave(
        self, pending: Pending, slots: Mapping[str, int], running: Mapping[str, Sequence[float]]
    ) -> list[Start]:
        """What starts, if there is news, or other places to plan ahead onto and a free slot. A split that failed
        everywhere may start again in a new session."""
        for split in pending.changed:
            self.hold(split, pending.holders(split))
        pending.changed.clear()
        self.outs = {*pending.outs} if self.outs is None else self.outs
        self.is_worn = self.is_worn or not pending.outs <= self.outs
        call = self.planned(pending, slots, running)
        if not self.has_news and (call.line == self.script[-1] or not any(slots.values())):
            return []
        starts = [*map(self.start, self.tell(call).starts)]
        self.has_news = False
        # (the master of a new session is told of failures as it comes to them)
        again = [it for it in starts if it.worker in pending[it.split].barred]
        for it in again:
            self.tell(calls.fail(it.attempt))
        return [it for it in starts if it not in again]

    def planned(
        self, pending: Pending, slots: Mapping[str, int], running: Mapping[str, Sequence[float]]
    ) -> Call[Union[Wave, Ahead]]:
        """A wave, or a plan ahead, which is made anew whenever slots free: what a plan does not start is not kept."""
        if not self.pace:
            return calls.wave()
        places = self.pace.lengths(wave_of(pending.places, slots, pending), running)
        return calls.ahead(places.get(at, 0) for at in self.addresses.values())

    def hold(self, split: str, holders: Sequence[str]) -> None:
        """Lets the master know the holders of a split, as far as they are workers of its own."""
        for at in [it for it in self.held[split] if it not in holders]:
            self.tell(calls.lose(self.splits[split], self.worker(at)))
            self.held[split].remove(at)
        for at in holders:
            self.add(split, at)

    def add(self, split: str, worker: str) -> None:
        if self.knows(worker) and worker not in self.held[split] and len(self.held[split]) < HOLDERS:
            self.tell(calls.add(self.splits[split], self.worker(worker)))
            self.held[split].append(worker)

    def backup(self, split: str, worker: str) -> Optional[Start]:
        with suppress(Ignored):
            return self.start(self.tell(calls.backup(self.splits[split], self.worker(worker))))
        return None

    def reduces(self, parts: Sequence[int]) -> list[Reduce]:
        """What starts of the open parts, if there is news."""
        starts: list[Reduce] = []
        with suppress(Ignored):
            while self.has_news and self.tell(calls.open_work()).parts:
                it = self.tell(calls.reduce())
                starts.append(Reduce(it.attempt, it.part, self.addresses[it.worker]))
        self.has_news = False
        return starts

    def die(self, worker: str) -> None:
        if self.knows(worker):
            self.tell(calls.die(self.worker(worker)))
            self.held = {split: [it for it in at if it != worker] for split, at in self.held.items()}

    def join(self, worker: str, splits: Sequence[str]) -> None:
        if self.knows(worker):
            self.addresses[self.worker(worker)] = worker
            self.tell(calls.join(self.worker(worker), []))
            for split in splits:
                self.add(split, worker)

    def kept(self, going: Sequence[Attempt]) -> set[int]:
        """The attempts that run or wait, and those whose outputs count."""
        self.is_kept = True
        work = self.tell(calls.open_work())
        return {it.attempt for it in (*work.starts, *work.backups, *self.tell(calls.outputs()))}

    def close(self) -> None:
        """Ends the master; script and report are whole then."""
        with self.master, suppress(MasterEnded):
            self.tell(calls.end())

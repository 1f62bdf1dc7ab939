"""A MapReduce job on a Dask cluster, whose maps and reduces start where a session of `mrjob serve` says."""
from __future__ import annotations

import asyncio
from concurrent.futures import CancelledError
from contextlib import suppress
from typing import Any, Callable, NamedTuple, Optional

from distributed import Client, Future
from mrjob_plan import calls
from mrjob_plan.calls import Ignored
from mrjob_plan.master import NoSession

from .blocks import Blocks
from .calls import Call, Look, Piece, release
from .masters import Attempt, Session
from .placing import GRACE, MOST_TRIES, Placing
from .pending import Place
from .planner import Planner, program_of
from .topology import Racks

TimeOut = (TimeoutError, asyncio.TimeoutError)


class Work(NamedTuple):
    """What a job computes.

    `map(data, pieces, parts)` gives the output of a block for each part, as a list of bytes, and nothing else:
    it may be called again for the same block, on another worker. `reduce(outputs)` gives the result of one part,
    from its outputs of all blocks in their order. A script's own functions are sent to the workers whole, those of a
    module by name, unless `cloudpickle.register_pickle_by_value(module)` was called. What they import is not sent.
    """

    map: Callable[[Any, list[Piece], int], list[bytes]]
    reduce: Callable[[list[bytes]], Any]
    parts: int


def map_task(work: Work, read: Callable[..., Any]) -> Callable[..., list[bytes]]:
    """The map of a block as a task, which is sent by value: of pieces, and what the block is read with."""
    map_block, parts = work.map, work.parts

    def mapped(pieces: list[Piece], *given: Any) -> list[bytes]:
        outputs = map_block(read(*given), pieces, parts)
        if len(outputs) != parts:
            raise ValueError(f"a map gave {len(outputs)} parts, and the job has {parts}")
        return outputs

    return mapped


def pick_task() -> Callable[[list[bytes], int], bytes]:
    """What divides the output of a map, as a task."""
    return lambda outputs, part: outputs[part]


def reduce_task(work: Work) -> Callable[[list[bytes]], Any]:
    """The reduce of a part as a task."""
    reduce_part = work.reduce
    return lambda outputs: reduce_part(outputs)


class Job(Placing):
    """A job over blocks, which are read where their maps are put. A session of the program `mrjob` decides all of it;
    a planner is asked in its place where `planner` is none of the program's, and where there is no program or a session
    has no room for the job."""

    def __init__(
        self,
        client: Client,
        blocks: Blocks,
        work: Work,
        racks: Racks = None,
        planner: Optional[Planner] = None,
        grace: float = GRACE,
        step: Callable[[Any], None] = lambda job: None,
        ahead: bool = False,
        backup: Optional[float] = None,
    ) -> None:
        super().__init__(client, blocks, racks, planner, grace, step, ahead, backup)
        self.program, self.is_ahead = program_of(planner), ahead
        self.blocks, self.work = blocks, work
        self.tasks: dict[Callable[..., Any], Callable[..., list[bytes]]] = {}
        self.part_key, self.reduce_key = f"mrjob-part{self.mark}", f"mrjob-reduce{self.mark}"
        self.reduces: dict[int, tuple[int, Future]] = {}  # of parts that run, by which attempt of the master
        self.results: dict[int, Any] = {}
        self.rounds, self.failed_reduces = 0, 0

    def run(self) -> list[Any]:
        """The result of each part. Raises LostBlock, DeadlySplit, Unfit, or what a map or a reduce raised too often."""
        try:
            while len(self.results) < self.work.parts:
                if self.turn():
                    self.start_reduces()
                self.collect()
        finally:
            self.release()
            self.master.close()
        return [self.results[part] for part in range(self.work.parts)]

    def history(self) -> Optional[tuple[list[str], list[str]]]:
        """The script of the session, the last one if there were several, and its report, as `mrjob play` writes it;
        nothing where a planner was asked."""
        return (self.master.script, self.master.report) if isinstance(self.master, Session) else None

    def call(self, split: str, worker: str, source: str) -> Call:
        """The map of a block. (Dask pickles a function once, so each read has one task.)"""
        read, given = self.blocks.data(split, worker, source)
        if read not in self.tasks:
            self.tasks[read] = map_task(self.work, read)
        return Call(worker, self.tasks[read], [self.blocks.pieces[split], *given])

    def enter_workers(self, seen: Look, places: dict[str, Place]) -> bool:
        """As others do; but a session begins with the first workers, and another one where a worker came that it does
        not know, or where it is worn."""
        session = self.master if isinstance(self.master, Session) else None
        if self.program and places and not (session and session.is_fit(places)):
            try:
                self.open_session(seen, places)
            except NoSession:  # (more blocks or parts than there is room for)
                self.program = []
        return super().enter_workers(seen, places)

    def open_session(self, seen: Look, places: dict[str, Place]) -> None:
        """Begins a session, and tells it what is done and what runs."""
        for attempt in self.going:
            attempt.told = 0
        told = [it for it in self.maps.values() if it.worker in places]
        pace = self.pace if self.is_ahead else None
        session = Session(self.program, seen, places, self.names, self.blocks, self.work.parts, told, pace)
        self.master.close()
        self.master, self.waiting, self.alive = session, [], {*places}
        self.reduces = {part: (0, future) for part, (_, future) in self.reduces.items()}

    def drop(self, attempt: Attempt) -> None:
        """Forgets an attempt, and all reduces, which may have lost what they read."""
        super().drop(attempt)
        for part in [*self.reduces]:
            self.forget(part)

    def release(self) -> None:
        super().release()
        for _, future in self.reduces.values():
            future.release()

    def forget(self, part: int) -> None:
        attempt, future = self.reduces.pop(part)
        future.release()
        with suppress(Ignored):  # (where it was lost with a worker)
            self.master.tell(calls.fail(attempt))

    def where(self, worker: str) -> dict[str, Any]:
        """Where Dask is to put a part, or what is picked for it: on this worker if it has a thread free, else off those
        that late maps or others' tasks keep busy, if there are any."""
        free = [at for at, slots in self.slots_seen.items() if slots]
        at = [worker] if worker in free else free if worker or self.late else []
        return {"workers": at, "allow_other_workers": True} if at else {}

    def start_reduces(self) -> None:
        """Starts the parts that the master starts. Maps are divided where they lie, if late maps leave a thread
        there."""
        left = [it for it in range(self.work.parts) if it not in self.results and it not in self.reduces]
        starts = self.master.reduces(left)
        for it in starts:
            if it.part in self.results:
                self.master.tell(calls.done(it.attempt))
            elif it.part in self.reduces:  # (which goes on, though another session began, or a worker died)
                self.reduces[it.part] = it.attempt, self.reduces[it.part][1]
        starts = [it for it in starts if it.part in left]
        if not starts:
            return
        self.rounds += 1
        maps = [self.maps[split] for split in self.blocks.pieces]
        pairs = [(it, start.part) for start in starts for it in maps]
        outputs = self.client.map(
            pick_task(), [it.future for it, _ in pairs], [part for _, part in pairs],
            key=[f"{self.part_key}{part}-{it.number}-{self.rounds}" for it, part in pairs], **self.where(""),
        )
        for at, start in enumerate(starts):
            future = self.client.submit(
                reduce_task(self.work), outputs[at * len(maps) : (at + 1) * len(maps)],
                key=f"{self.reduce_key}{start.part}-{self.rounds}", **self.where(start.worker),
            )
            self.reduces[start.part] = start.attempt, future
        self.watch([self.reduces[it.part][1] for it in starts])
        release(self.client, outputs)

    def collect(self) -> None:
        """Takes the parts that are done, so that they are not made again whoever dies."""
        for part, (attempt, future) in [*self.reduces.items()]:
            if future.status == "finished":
                with suppress(*TimeOut, CancelledError, Ignored):  # its worker may have died in between
                    self.results[part] = future.result(timeout=10)
                    del self.reduces[part]
                    self.master.tell(calls.done(attempt))
            elif future.status == "error":
                self.failed_reduces += 1
                if self.failed_reduces >= MOST_TRIES:
                    future.result()
                self.forget(part)
            elif future.status in ("cancelled", "lost"):
                self.forget(part)

"""What the tests of jobs stand on: texts with their index by a reference, blocks of both sorts, gates, and a count."""
from __future__ import annotations

import itertools
import os
import sys
import tempfile
import time
from pathlib import Path
from random import Random
from typing import Callable, Iterator

import cloudpickle

ROOT = Path(__file__).resolve().parents[2]
sys.path += [str(ROOT / "python"), str(ROOT / "contrib"), str(ROOT / "scripts")]
from mrjob_dask import Files, Job, Keys, Place, Planner, Row, Work
from mrjob_dask.calls import Piece, look
from mrjob_dask.keys import as_hdfs
from mrjob_dask.masters import Attempt
from mrjob_dask.planner import program_of

import reference_run
from reference_play import misplayed
import words
from cluster import Cluster, until
from words import blocks_of, map_words, reduce_words

RACKS, PER_RACK, BLOCK, PARTS = 3, 2, 6000, 4
NAMES = [f"r{rack}.w{worker}" for rack in range(RACKS) for worker in range(PER_RACK)]
SKEWED = ["r0.w0", "r0.w1", "r1.w0"]


for module in (sys.modules[__name__], words):
    cloudpickle.register_pickle_by_value(module)


class Count:
    """How many checks hold."""

    def __init__(self) -> None:
        self.passed = self.failed = 0

    def holds(self, says: str, is_so: object, *shown: object) -> None:
        self.passed, self.failed = self.passed + bool(is_so), self.failed + (not is_so)
        print("ok  " if is_so else "FAIL", says, *(() if is_so else shown), flush=True)


def texts() -> list[tuple[str, bytes]]:
    """Eight documents of words, always the same: 31 blocks in files, and 25 where blocks span documents."""
    rnd = Random(11)
    known = [bytes(rnd.choices(b"abcdefghijklmnopqrstuvwxyz", k=rnd.randint(1, 12))) for _ in range(3000)]
    return [(f"text-{number}.md", b" ".join(rnd.choices(known, k=2500))) for number in range(8)]


def job_text(documents: list[tuple[str, bytes]]) -> bytes:
    """The documents as a job for `mrjob run`."""
    lines = [b"job 1", b"rack r", b"worker w r 2", b"split s 1 w"]
    lines += [b"doc %s s %s" % (name.encode(), text) for name, text in documents]
    return b"\n".join([*lines, b"end", b""])


def index_of(documents: list[tuple[str, bytes]]) -> list[str]:
    """The lines of their index, by the reference."""
    return reference_run.answer(job_text(documents))[0].decode().splitlines()


def place_of(name: str) -> Place:
    return Place(name.partition(".")[0])


class Gate:
    """A file for which tasks wait, each in its worker's process, until it is there, or its folder no more."""

    def __init__(self, room: str) -> None:
        self.room = room

    def open(self) -> None:
        (Path(self.room) / "open").touch()

    def map(self, closed: set[Piece]) -> Callable:
        """A map that waits where its block begins with one of these pieces."""
        room = self.room

        def mapped(data, pieces, parts):
            if pieces[0] in closed:
                wait_at(room)
            return map_words(data, pieces, parts)

        return mapped

    def reduce(self) -> Callable:
        """A reduce that waits, but for the first that is called."""
        room = self.room

        def reduced(outputs):
            try:
                os.close(os.open(f"{room}/first", os.O_CREAT | os.O_EXCL))
            except FileExistsError:
                wait_at(room)
            return reduce_words(outputs)

        return reduced


def wait_at(room: str) -> None:
    while os.path.isdir(room) and not os.path.exists(f"{room}/open"):
        time.sleep(0.02)


def wait_first(room: str) -> None:
    """Waits, but for all that come later."""
    try:
        os.close(os.open(f"{room}/first", os.O_CREAT | os.O_EXCL))
        wait_at(room)
    except FileExistsError:
        pass


class Watched(Job):
    """A job that keeps which parts were done and which were started in each round of reduces."""

    def __init__(self, *arguments, **named) -> None:
        super().__init__(*arguments, **named)
        self.seen_rounds: list[tuple[set[int], set[int]]] = []

    def start_reduces(self) -> None:
        before = {*self.reduces}
        super().start_reduces()
        if {*self.reduces} - before:
            self.seen_rounds.append(({*self.results}, {*self.reduces} - before))

    def told(self) -> list[str]:
        """The commands of its session."""
        script, _ = self.history()
        return [line.partition(" ")[0] for line in script[script.index("begin") + 1 :]]

    def ended(self, end: str) -> list[Attempt]:
        return [it for it in self.attempts if it.end == end]


def judged(job: Watched, count: Count, says: str) -> None:
    """The reference for scripts finds each event legal, and each wave or plan ahead best in its state, where a session
    decides."""
    if job.program:
        script, report = ("".join(f"{line}\n" for line in it).encode() for it in job.history())
        wrong, kinds = misplayed(script, report, 0), {*job.told()} & {"wave", "ahead"}
        count.holds(f"{says}: it is a legal history, each plan best, by the reference", wrong is None, wrong)
        is_so = ("ahead" in kinds) == job.is_ahead  # (a session that goes on starts what runs by waves)
        count.holds(f"{says}: its plans are ahead where that is asked for", is_so, kinds)


class Trial:
    """Jobs over the same documents on a cluster, four of five blocks of each on the same three workers."""

    def __init__(self, here: Cluster, planner: Planner) -> None:
        self.here, self.planner, self.documents = here, planner, texts()
        self.wanted = index_of(self.documents)
        self.cut = [*blocks_of(self.documents, itertools.repeat(BLOCK))]
        self.laid, self.is_ahead = 0, False

    def holders(self) -> Iterator[list[str]]:
        rnd, places = Random(7), {name: place_of(name) for name in NAMES}
        while True:
            yield rnd.sample(SKEWED, 3) if rnd.random() < 0.8 else as_hdfs(places, rnd)

    def keys(self, replicas: int = 3) -> Keys:
        """The documents as blocks in the memory of workers."""
        self.laid += 1
        blocks, address = Keys(self.here.client, replicas=replicas), self.here.addresses()
        for number, ((data, pieces), held) in enumerate(zip(self.cut, self.holders())):
            blocks.put(f"trial-{self.laid}-{number}", data, pieces, [address[it] for it in held[:replicas]])
        blocks.lay()
        return blocks

    def files(self, replicas: int = 3) -> Files:
        """The documents as blocks in files: on a disk that lacks a block, zeros stand in its place, or nothing."""
        rows, holders = [], self.holders()
        for name, text in self.documents:
            for offset in range(0, len(text), BLOCK):
                piece, held = text[offset : offset + BLOCK], next(holders)[:replicas]
                rows.append(Row(name, offset, len(piece), held))
                for node in held:
                    self.write(self.here.disk(node) / name, offset, piece)
        return Files(self.here.client, rows)

    def write(self, path: Path, offset: int, data: bytes) -> None:
        with open(path, "r+b" if path.exists() else "x+b") as file:
            file.seek(offset)
            file.write(data)

    def job(self, blocks, gate: Gate, closed: set[Piece], step: Callable, is_reduce_gated: bool = False) -> Watched:
        client = self.here.client
        self.rest()
        work = Work(gate.map(closed), gate.reduce() if is_reduce_gated else reduce_words, PARTS)
        return Watched(client, blocks, work, place_of, self.planner, grace=0, step=step, ahead=self.is_ahead)

    def how(self) -> str:
        """How jobs are planned, if not wave by wave by a session."""
        return f", ahead{' by a planner' * (not program_of(self.planner))}" * self.is_ahead

    def rest(self) -> None:
        """Waits until no worker has a task."""
        until(lambda: not any(it.others for it in look(self.here.client).workers.values()), "no worker is busy")

    def room(self) -> tempfile.TemporaryDirectory:
        return tempfile.TemporaryDirectory(dir=self.here.room.name)


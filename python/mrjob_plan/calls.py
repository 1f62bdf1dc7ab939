"""The calls of a live master: the line that each is told by, and what its answer means. Nothing here reads or writes a
pipe, so that any loop of events can carry them.

    call = wave()
    call.line                                                           'wave'
    call.answered(["accepted 1", "wave 1 0", "start 1 s a"]).starts     (Start(attempt=1, split='s', worker='a'),)
"""
import itertools
from dataclasses import dataclass
from typing import Callable, Generic, Hashable, Iterable, List, Mapping, Sequence, Tuple, TypeVar

from .clusters import Cluster, Prices, Split, items
from .faults import CONDITIONS

T = TypeVar("T", covariant=True)
NamedPrices = Prices[Mapping[str, int], Mapping[str, int]]

REASONS = {
    1: "no split and no part runs the attempt",
    2: "the worker is dead",
    3: "the worker lives",
    4: "the worker holds the split",
    5: "the worker does not hold the split",
    6: "a split has eight holders, or sixteen in version 3",
    7: "the reduce attempt or the backup may not start now",
    8: "the result is of another text, part or number of parts",
    9: "no place is left for the event, the attempts or the sweep",
    10: "memory is wanting",
    12: "the split does not run, runs two attempts, or runs on the worker",
    13: "the pair is barred",
}


class Unanswered(Exception):
    """The master did not do what it was told, and stays as it was."""

    def __init__(self, line: str, number: int, words: str) -> None:
        super().__init__(line, number, words)
        self.line, self.number = line, number

    def __str__(self) -> str:
        return str(self.args[2])


class Ignored(Unanswered):
    """A call that the master ignores; `number` is the first reason that applies."""

    @classmethod
    def of(cls, line: str, number: int) -> "Ignored":
        return cls(line, number, f"{line}: {REASONS.get(number, f'ignored for reason {number}')}")


class Faulty(Unanswered):
    """A line that is no command; `number` is its fault, which `mrjob explain` has in words."""

    @classmethod
    def of(cls, line: str, number: int) -> "Faulty":
        return cls(line, number, f"{line[:99]}: fault {number}")


class NotCertified(Unanswered):
    """A plan that its prices do not certify in the present state; `number` is the first condition that fails, and
    `place` has the names of the split and the worker at which it fails."""

    place: Tuple[str, ...] = ()

    @classmethod
    def of(cls, line: str, number: int, place: Sequence[str]) -> "NotCertified":
        error = cls(line, number, f"C{number} fails at {' and '.join(place)}: {CONDITIONS[number]}")
        error.place = tuple(place)
        return error


@dataclass(frozen=True)
class Start:
    """An attempt of a split on a worker."""

    attempt: int
    split: str
    worker: str


@dataclass(frozen=True)
class Wave:
    """What a wave starts, and how many bytes times steps it moves."""

    starts: Tuple[Start, ...]
    cost: int


@dataclass(frozen=True)
class Ahead:
    """What starts of a plan ahead, and how many bytes times steps that moves; how many splits the whole plan has, and
    how many bytes times steps all of them would move."""

    starts: Tuple[Start, ...]
    cost: int
    planned: int
    total: int


@dataclass(frozen=True)
class Reduce:
    """An attempt of a part, counted from 0, on a worker."""

    attempt: int
    part: int
    worker: str


@dataclass(frozen=True)
class Copy:
    """An order to copy a split from a holder to a worker."""

    split: str
    holder: str
    worker: str


@dataclass(frozen=True)
class Ended:
    """How a job ended: with the index of its documents, or stuck, with the splits that are not done."""

    index: Mapping[str, Sequence[str]]
    open: Tuple[str, ...]
    is_done: bool


@dataclass(frozen=True)
class Standing:
    """How a worker stands: its slots, how many of them are taken, and how many sweeps in a row brought no new beat. A
    dead worker has 0 of each."""

    worker: str
    live: bool
    slots: int = 0
    taken: int = 0
    silence: int = 0


@dataclass(frozen=True)
class OpenWork:
    """What is not done, by number of split or part: what is pending, and the attempts that run, a split's second one in
    `backups`."""

    splits: Tuple[str, ...]
    starts: Tuple[Start, ...]
    backups: Tuple[Start, ...]
    parts: Tuple[int, ...]
    reduces: Tuple[Reduce, ...]


# Lines that ask and change nothing. No script has one, so a log has none.
QUERIES = ("workers", "open", "outputs", "audit")


@dataclass(frozen=True)
class Call(Generic[T]):
    """A line, and what its answer means."""

    line: str
    read: Callable[[List[List[str]]], T]

    def answered(self, lines: Sequence[str]) -> T:
        """What the lines of an answer mean. Raises Ignored, Faulty or NotCertified where nothing was done."""
        rows = [line.split(" ") for line in lines]
        word = rows[0][0] if rows else ""
        if word == "ignored":
            raise Ignored.of(self.line, int(rows[0][1]))
        if word == "fault":
            raise Faulty.of(self.line, int(rows[0][1]))
        if word == "refused":
            raise NotCertified.of(self.line, int(rows[0][1][1:]), rows[0][2:])
        return self.read(rows[1:] if word == "accepted" else rows)


def nothing(rows: List[List[str]]) -> None:
    return None


def started(rows: List[List[str]]) -> Wave:
    return Wave(tuple(Start(int(it[1]), it[2], it[3]) for it in rows[1:]), int(rows[0][2]))


def wave() -> Call[Wave]:
    return Call("wave", started)


def ahead(places: Iterable[int]) -> Call[Ahead]:
    """The places of each worker's queue, in the order of the head."""

    def read(rows: List[List[str]]) -> Ahead:
        wave = started([rows[0], *rows[2:]])
        return Ahead(wave.starts, wave.cost, int(rows[1][1]), int(rows[1][2]))

    return Call(" ".join(["ahead", *map(str, places)]), read)


def plan(starts: Mapping[str, str], prices: NamedPrices) -> List[Call[None]]:
    """The lines that put a plan together: where splits start, and a price of each split and of each worker."""
    rows = [f"start {split} {worker}" for split, worker in starts.items()]
    rows += [f"price {name} {price}" for of in (prices.splits, prices.workers) for name, price in items(of)]
    return [Call(row, nothing) for row in rows]


def commit() -> Call[Wave]:
    return Call("commit", started)


def drop() -> Call[None]:
    return Call("drop", nothing)


def audit() -> Call[str]:
    """The last wave as a text for `mrjob check`."""
    return Call("audit", lambda rows: "".join(f"{' '.join(it)}\n" for it in rows))


def reduce() -> Call[Reduce]:
    return Call("reduce", lambda rows: Reduce(int(rows[0][1]), int(rows[0][2]), rows[0][3]))


def backup(split: str, worker: str) -> Call[Start]:
    return Call(f"backup {split} {worker}", lambda rows: Start(int(rows[0][1]), rows[0][2], rows[0][3]))


def copies() -> Call[Tuple[Copy, ...]]:
    return Call("copies", lambda rows: tuple(Copy(it[1], it[2], it[3]) for it in rows[1:]))


def sweep(beats: Iterable[int]) -> Call[Tuple[str, ...]]:
    """The beats of each worker, in the order of the head; the answer has those that die by it."""
    return Call(" ".join(["sweep", *map(str, beats)]), lambda rows: tuple(it[1] for it in rows))


def join(worker: str, splits: Iterable[str]) -> Call[None]:
    return Call(" ".join(["join", worker, *splits]), nothing)


def done(attempt: int) -> Call[None]:
    return Call(f"done {attempt}", nothing)


def fail(attempt: int) -> Call[None]:
    return Call(f"fail {attempt}", nothing)


def withdraw(attempt: int) -> Call[None]:
    return Call(f"withdraw {attempt}", nothing)


def die(worker: str) -> Call[None]:
    return Call(f"die {worker}", nothing)


def add(split: str, worker: str) -> Call[None]:
    return Call(f"add {split} {worker}", nothing)


def lose(split: str, worker: str) -> Call[None]:
    return Call(f"lose {split} {worker}", nothing)


def workers() -> Call[Tuple[Standing, ...]]:
    def standing(row: List[str]) -> Standing:
        return Standing(row[1], row[0] == "live", *map(int, row[2:]))

    return Call("workers", lambda rows: tuple(map(standing, rows)))


def open_work() -> Call[OpenWork]:
    def read(rows: List[List[str]]) -> OpenWork:
        of = {word: [it[1:] for it in rows if it[0] == word] for word in ("open", "start", "backup", "part", "reduce")}
        starts, backups = (tuple(Start(int(it[0]), it[1], it[2]) for it in of[word]) for word in ("start", "backup"))
        reduces = tuple(Reduce(int(it[0]), int(it[1]), it[2]) for it in of["reduce"])
        parts = tuple(int(it[0]) for it in of["part"])
        return OpenWork(tuple(it[0] for it in of["open"]), starts, backups, parts, reduces)

    return Call("open", read)


def outputs() -> Call[Tuple[Start, ...]]:
    return Call("outputs", lambda rows: tuple(Start(int(it[2]), it[1], it[3]) for it in rows))


def end() -> Call[Ended]:
    def read(rows: List[List[str]]) -> Ended:
        index = {it[1]: tuple(it[2:]) for it in rows if it[0] == "word"}
        return Ended(index, tuple(it[1] for it in rows if it[0] == "open"), rows[0][0] == "index")

    return Call("end", read)


def head(
    cluster: Cluster[str],
    splits: Mapping[str, Split],
    *,
    parts: int = 1,
    target: int = 3,
    silence: int = 3,
    documents: Iterable[Tuple[str, str, str]] = (),
) -> List[str]:
    """The lines before `begin` of a job on a cluster, whose workers have `free` slots when nothing runs; documents are
    (name, split, text). Names are those of texts: 1 to 64 letters, digits, '-', '_', '.', ':' and '/'."""
    if not all(worker.live for _, worker in items(cluster.workers)):
        raise ValueError("a job opens with all workers alive")
    if not all(it.pending and not it.barred for it in splits.values()):
        raise ValueError("a job opens with all splits pending, and none barred")
    of_workers = dict.fromkeys(worker.rack for _, worker in items(cluster.workers))
    taken = {*of_workers, *splits, *dict(items(cluster.workers)), *(name for name, _, _ in documents)}
    only = next(name for name in (f"centre-{number}" for number in itertools.count()) if name not in taken)
    racks: List[Tuple[Hashable, Hashable]] = [(it, only) for it in of_workers]
    if cluster.racks is not None:
        racks = items(cluster.racks)
    rows: List[Sequence[object]] = [("script", 3)]
    rows += [("centre", it) for it in dict.fromkeys(centre for _, centre in racks)]
    rows += [("rack", name, centre) for name, centre in racks]
    rows += [("worker", name, it.rack, it.free) for name, it in items(cluster.workers)]
    rows += [("parts", parts), ("target", target), ("silence", silence)]
    rows += [("split", name, it.bytes, *it.holders) for name, it in splits.items()]
    rows += [("doc", *it) for it in documents]
    return [" ".join(map(str, it)) for it in rows]

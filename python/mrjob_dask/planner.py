"""One wave, asked of a planner: from what a client knows of its cluster to the starts of a best plan.

`planner_of` gives the C library in this process where that is there, else the program `mrjob`.
"""
from __future__ import annotations

import os
import shlex
import shutil
import subprocess
from array import array
from collections import Counter
from itertools import islice
from pathlib import Path
from typing import Iterable, Mapping, NamedTuple, Optional, Sequence

import mrjob_plan.library
from mrjob_plan import arrays

from .pending import Pending, Place, Split

# What a wave may have at most (docs/MODEL.md).
WORKERS, RACKS, CENTRES, HOLDERS, SLOTS, BYTES = 32_768, 4096, 256, 16, 255, 8_589_934_592
SPLITS, MOST_PRICE = 131_072, 2**36


class Unfit(Exception):
    """The cluster is past what a wave may have, or an answer is no best plan: why, in a sentence."""


class NoPlanner(Unfit):
    """There is no library, or no program of that name."""


class Wave(NamedTuple):
    """What one round of starts can see: of each worker its place and its free slots, and the pending splits. Where
    slots have prices, the split that takes the nth slot of a worker is charged the nth, beside its byte-distance."""

    places: dict[str, Place]
    slots: dict[str, int]
    splits: dict[str, Split]
    prices: Mapping[str, Sequence[int]] = {}


class Plan(NamedTuple):
    """The worker of each split that starts, and the byte-distance of all, in units of `unit` bytes. Prices of slots are
    in bytes times steps, as a cost is."""

    starts: dict[str, str]
    cost: int
    unit: int


def distance(places: Mapping[str, Place], one: str, other: str) -> int:
    """Steps between two workers: 0, 2 in a rack, 4 between racks, 6 between centres."""
    if one == other:
        return 0
    a, b = places[one], places[other]
    return 2 if a == b else 4 if a.centre == b.centre else 6


def nearest(places: Mapping[str, Place], worker: str, holders: list[str]) -> str:
    """The holder from which a worker reads: of several at the same distance, any, but always the same."""
    return min(holders, key=lambda it: (distance(places, it, worker), it))


def wave_of(places: dict[str, Place], slots: Mapping[str, int], splits: dict[str, Split]) -> Wave:
    """A wave within the limits: the first splits that have holders, as many as it may have."""
    racks, centres = {*places.values()}, {place.centre for place in places.values()}
    for kind, number, most in (
        ("workers", len(places), WORKERS), ("racks", len(racks), RACKS), ("data centres", len(centres), CENTRES)
    ):
        if number > most:
            raise Unfit(f"there are {number} {kind}, and a wave has at most {most}")
    free = {worker: min(SLOTS, slots.get(worker, 0)) for worker in places}
    # (`Pending` tells the planner which splits a plan has to know of)
    return Wave(places, free, splits if isinstance(splits, Pending) else first_splits(splits, free))


def first_splits(splits: Mapping[str, Split], free: Mapping[str, int]) -> dict[str, Split]:
    """The first splits that have holders, as many as a wave may have."""
    held = ((name, split) for name, split in splits.items() if split.holders)
    return {name: within_holders(split, free) for name, split in islice(held, SPLITS)}


def wave_of_few(wave: Wave, splits: dict[str, Split]) -> Wave:
    """A wave over these splits, with the workers alone that have free slots or hold one of them."""
    known = {it for split in splits.values() for it in (*split.holders, *split.barred)}
    places = {it: place for it, place in wave.places.items() if wave.slots[it] or it in known}
    return wave._replace(places=places, slots={it: wave.slots[it] for it in places}, splits=splits)


def within_holders(split: Split, free: Mapping[str, int]) -> Split:
    """The split with as many holders as it may have, those that have free slots first."""
    if len(split.holders) <= HOLDERS:
        return split
    return split._replace(holders=sorted(split.holders, key=lambda it: not free[it])[:HOLDERS])


def priced_in(wave: Wave, unit: int) -> Wave:
    """The wave with its prices in units of so many bytes, where a planner takes them."""
    prices = {
        worker: [min(MOST_PRICE, price // unit) for price in row[: wave.slots[worker]]]
        for worker, row in wave.prices.items() if wave.slots[worker]
    }
    return wave._replace(prices={worker: row for worker, row in prices.items() if any(row)})


def unit_of(sizes: Iterable[int]) -> int:
    """How many bytes a planner counts as one, so that none of these sizes is too great for it."""
    return max(1, -(-max(sizes, default=0) // BYTES))


HOW_TO_BUILD = "in a checkout of mrjob `make quick` builds bin/mrjob without its proofs, `make` with them"


class Planner:
    """Answers waves by a planner that a subclass asks; each answer is counted over again."""

    def plan(self, wave: Wave) -> Plan:
        """A best plan of a wave; the empty one, without a question, where nothing can start."""
        if not any(wave.slots.values()):
            return Plan({}, 0, 1)
        if isinstance(wave.splits, Pending):
            wave = wave_of_few(wave, first_splits(wave.splits.candidates(wave.slots), wave.slots))
        if not wave.splits:
            return Plan({}, 0, 1)
        unit = unit_of(split.bytes for split in wave.splits.values())
        units = {name: -(-split.bytes // unit) for name, split in wave.splits.items()}
        starts, cost = self.ask(priced_in(wave, unit), units)
        steps = {
            split: min(distance(wave.places, it, worker) for it in wave.splits[split].holders)
            for split, worker in starts.items()
        }
        if cost != sum(units[split] * steps[split] for split in starts):
            raise Unfit(f"the starts of a plan do not come to its byte-distance, {cost}")
        return Plan(starts, cost, unit)

    def ask(self, wave: Wave, units: dict[str, int]) -> tuple[dict[str, str], int]:
        """The starts and their cost, of splits with so many units each."""
        raise NotImplementedError


class RarestFirst(Planner):
    """Asks another planner, which takes the first of equal splits, with those in front that are hardest to start on a
    holder later: of whose holders even the one with the fewest pending splits has many. Over a job this moves less."""

    def __init__(self, planner: Planner) -> None:
        self.planner = planner

    def plan(self, wave: Wave) -> Plan:
        if isinstance(wave.splits, Pending):
            splits = first_splits(wave.splits.candidates(wave.slots, is_rarest_first=True), wave.slots)
            return self.planner.plan(wave_of_few(wave, splits))
        splits = first_splits(wave.splits, wave.slots)
        load = Counter(holder for split in splits.values() for holder in split.holders)
        order = sorted(splits, key=lambda it: -min(load[holder] for holder in splits[it].holders))
        return self.planner.plan(wave._replace(splits={split: splits[split] for split in order}))


class Command(Planner):
    """Asks a command, in words of a shell line such as `bin/mrjob plan`, and, if wanted, the same program's `check`."""

    def __init__(self, words: str, is_checked: bool = False) -> None:
        self.plan_words = shlex.split(words)
        if not self.plan_words or shutil.which(self.plan_words[0]) is None:
            raise NoPlanner(f"`{words}` is no command that is there; {HOW_TO_BUILD}")
        self.program = self.plan_words[: self.plan_words.index("plan")] if "plan" in self.plan_words else []
        self.check_words: list[str] = []
        if is_checked:
            self.plan_words.append("--prices")
            self.check_words = [*self.program, "check"]

    def ask(self, wave: Wave, units: dict[str, int]) -> tuple[dict[str, str], int]:
        head, splits, workers = head_lines(wave, units), [*wave.splits], [*wave.places]
        first, *rest = run(self.plan_words, [*head, "end"])
        if self.check_words:
            said = run(self.check_words, [*head, "plan", *rest, "end"])
            if said != [first.replace("wave", "certified")]:
                raise Unfit(f"a check of the plan says `{said[0]}`")
        starts = [line.split() for line in rest if line.startswith("start ")]
        return {splits[int(s[1:])]: workers[int(w[1:])] for _, s, w in starts}, int(first.split()[2])


def run(words: list[str], lines: list[str]) -> list[str]:
    """The lines that a command answers to a text."""
    ran = subprocess.run(words, input="\n".join([*lines, ""]), capture_output=True, text=True)
    if ran.returncode not in (0, 1) or not ran.stdout:
        raise Unfit(f"{shlex.join(words)} ended with {ran.returncode}: {ran.stdout[:80]}{ran.stderr[:200]}")
    return ran.stdout.splitlines()


def head_lines(wave: Wave, units: dict[str, int]) -> list[str]:
    """The head of a problem. Names are a letter and a number, since those of a cluster may have any characters."""
    places = sorted({*wave.places.values()})
    centres = sorted({place.centre for place in places})
    lines = ["problem 3", *(f"centre c{number}" for number in range(len(centres)))]
    lines += [f"rack r{number} c{centres.index(place.centre)}" for number, place in enumerate(places)]
    rack, name = {place: f"r{number}" for number, place in enumerate(places)}, {}
    for number, (worker, place) in enumerate(wave.places.items()):
        name[worker] = f"w{number}"
        lines.append(f"worker w{number} {rack[place]} {wave.slots[worker]}")
        if worker in wave.prices:
            lines.append(" ".join([f"places w{number}", *map(str, wave.prices[worker])]))
    for number, (split, (_, holders, barred)) in enumerate(wave.splits.items()):
        lines.append(" ".join([f"split s{number} {units[split]}", *(name[it] for it in holders)]))
        lines += [f"barred s{number} {name[it]}" for it in barred]
    return lines


class Library(Planner):
    """Calls the C library in this process."""

    def __init__(self, is_checked: bool = False) -> None:
        try:
            mrjob_plan.library.load()
        except ImportError as why:
            raise NoPlanner(str(why)) from None
        self.is_checked = is_checked

    def ask(self, wave: Wave, units: dict[str, int]) -> tuple[dict[str, str], int]:
        rows, splits, workers = rows_of(wave, units), [*wave.splits], [*wave.places]
        places = places_of(wave)
        best = arrays.plan(rows, places=places)
        if self.is_checked:
            verdict = arrays.check(rows, best.starts, best.split_prices, best.worker_prices, places)
            if not verdict:
                raise Unfit(f"a check of the plan says that {verdict}")
        started = [(number, it) for number, it in enumerate(best.starts) if it != arrays.NONE]
        return {splits[number]: workers[it] for number, it in started}, best.cost


def rows_of(wave: Wave, units: dict[str, int]) -> arrays.Wave:
    """The wave by numbers."""
    racks = {place: number for number, place in enumerate(dict.fromkeys(wave.places.values()))}
    centres = {centre: number for number, centre in enumerate(dict.fromkeys(place.centre for place in racks))}
    number = {worker: number for number, worker in enumerate(wave.places)}
    workers = [(racks[place], wave.slots[worker], 1) for worker, place in wave.places.items()]
    splits, holders, barred = list[tuple[int, ...]](), array("H"), list[tuple[int, int]]()
    for name, split in wave.splits.items():
        barred += [(len(splits), number[it]) for it in split.barred]
        splits.append((units[name], len(holders), len(split.holders), 1))
        holders.extend([number[it] for it in split.holders])
    return arrays.Wave(len(centres), [centres[it.centre] for it in racks], workers, splits, holders, barred)


def places_of(wave: Wave) -> Optional[arrays.Places]:
    """The prices of the wave's slots by numbers, if any has one."""
    if not wave.prices:
        return None
    rows, prices = list[tuple[int, int]](), array("Q")
    for worker in wave.places:
        row = wave.prices.get(worker, ())
        rows.append((len(prices), len(row)))
        prices.extend(row)
    return arrays.Places(rows, prices)


def program() -> str:
    """The program `mrjob`: where the variable MRJOB says, on the path of commands, or in the checkout. Else nothing."""
    checkout = Path(__file__).resolve().parent.parent.parent
    there = [os.environ.get("MRJOB", ""), shutil.which("mrjob") or "", str(checkout / "bin/mrjob")]
    return next((it for it in there if it and os.access(it, os.X_OK)), "")


def program_of(planner: Optional[Planner]) -> list[str]:
    """The words of the program whose sessions decide a job: that of a planner, or else the one that is there. None for
    other planners, which are asked wave by wave."""
    if planner is None:
        return [program()] if program() else []
    return planner.program if isinstance(planner, Command) else []


def planner_of(words: str = "", is_checked: bool = False) -> Planner:
    """The planner that is named: `library`, or the words of a command such as `bin/mrjob plan`. Without words it is the
    library where that is there, else the program. Raises NoPlanner where there is neither."""
    if words and words != "library":
        return Command(words, is_checked)
    try:
        return Library(is_checked)
    except NoPlanner as why:
        if words or not program():
            raise NoPlanner(f"{why}; {HOW_TO_BUILD}") from None
    return Command(f"{shlex.quote(program())} plan", is_checked)

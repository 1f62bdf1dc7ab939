"""Waves, plans and prices as arrays, in the form of mrjob.h: for callers who have their cluster in arrays already.

An array of numpy, of ctypes or of the module array whose elements are just those that are wanted, in one piece and
writable, is lent to the library as it is. Any other array or sequence is copied, number by number: rows of an array
with named fields go by their names, and other rows by their places. WORKER, SPLIT, PAIR and PLACE are the types for
numpy that are lent, as in `numpy.zeros(1024, SPLIT)`; plain numbers are 'u2' (racks, workers) and 'u8' (prices). Past
65,535 splits, and where places have prices, it is WIDE_PAIR that is lent.
"""
import ctypes
import operator
import re
from array import array
from ctypes import addressof, alignment, byref, c_uint16, c_uint64, sizeof
from dataclasses import dataclass
from enum import IntEnum
from functools import lru_cache
from itertools import combinations
from typing import Any, Dict, List, Mapping, Optional, Sequence, Tuple, Union

from .faults import Status, refusal
from .library import MAX_SPLITS, NONE, WIDE_NONE, PairRow, PlaceRow, PlaceRows, PlacesTotal, PlacesVerdictRow
from .library import SplitRow, VerdictRow, WaveRows, WidePairRow, WideVerdictRow, WorkerRow, load
from .unfit import raise_for

__all__ = ["NONE", "PAIR", "PLACE", "SPLIT", "WIDE_PAIR", "WORKER", "Network", "Places", "Planned", "Verdict", "Wave"]
__all__ += ["check", "plan"]

WORKER = [("rack", "<u2"), ("free", "|u1"), ("live", "|u1")]
SPLIT = [("bytes", "<u8"), ("first_holder", "<u4"), ("holder_count", "<u2"), ("pending", "<u2")]
PAIR = [("split", "<u2"), ("worker", "<u2")]
WIDE_PAIR = [("split", "<u4"), ("worker", "<u4")]
PLACE = [("first_price", "<u4"), ("price_count", "<u4")]

# The fields that say yes or no: any number but 0 says yes.
ANSWERS = ("live", "pending")

# What the module array calls plain numbers.
CODES = {c_uint16: "H", c_uint64: "Q"}


class Network(IntEnum):
    """Over which network a plan is made: either gives a best plan, RACKS in less time; DIRECT takes 1,024 splits and 256
    workers."""

    RACKS = 0
    DIRECT = 1


# ---- elements in memory ----


@lru_cache(maxsize=None)
def shape(layout: str) -> str:
    """The names and types of an element's numbers, by the words in which a buffer tells them on such a machine."""
    return re.sub("[<=@]", "", layout).replace("L", "Q")


@lru_cache(maxsize=None)
def shape_of(kind: Any) -> str:
    return shape(memoryview((kind * 0)()).format)


def lent(kind: Any, given: Any) -> Optional["ctypes.Array[Any]"]:
    """The memory of what is given, or None where it is no array that can be lent."""
    try:
        view = memoryview(given)
    except (TypeError, ValueError, BufferError):
        return None
    is_whole = view.ndim == 1 and view.c_contiguous and not view.readonly
    if not is_whole or view.itemsize != sizeof(kind) or shape(view.format) != shape_of(kind):
        return None
    memory: "ctypes.Array[Any]" = (kind * len(view)).from_buffer(view)
    return memory if len(memory) == 0 or addressof(memory) % alignment(kind) == 0 else None


def fields_of(kind: Any) -> List[str]:
    return [it[0] for it in getattr(kind, "_fields_", ())]


def listed(name: str, kind: Any, given: Any) -> List[Any]:
    """The numbers that are given by this name, or the rows of them with their fields in the kind's order."""
    fields, found = fields_of(kind), []
    values = given.tolist() if not fields and hasattr(given, "tolist") else given
    for number, it in enumerate(values):
        try:
            found.append(row_of(fields, it) if fields else operator.index(it))
        except TypeError as why:
            raise TypeError(f"{name}[{number}] is {it!r}: {why}") from None
    return found


def row_of(fields: List[str], row: Any) -> Tuple[int, ...]:
    """The numbers of a row, by their names where it has names."""
    names = row.dtype.names if hasattr(row, "dtype") else None
    if len(row) != len(fields) or (names and sorted(names) != sorted(fields)):
        raise TypeError(f"it does not have {', '.join(fields)}")
    return tuple(map(operator.index, (row[it] for it in fields) if names else row))


def within(end: int, value: int) -> int:
    """The value, or where it is not below the end of its type the last but one: past all bounds too, and not NONE."""
    return value if 0 <= value < end else end - 2


def fitted(ends: Dict[str, int], row: Tuple[int, ...]) -> Sequence[int]:
    """The numbers of a row, each below the end of its field. Where one is not, all of them are past their bounds: the
    last but one alone would not be, since 254 slots are few enough and 65,534 may be a split."""
    if min(row) >= 0 and all(map(operator.lt, row, ends.values())):
        return row
    numbers = [int(it != 0) if name in ANSWERS else it for name, it in zip(ends, row)]
    fits = min(numbers) >= 0 and all(map(operator.lt, numbers, ends.values()))
    return numbers if fits else [end - 2 for end in ends.values()]


def copied(kind: Any, given: List[Any]) -> "ctypes.Array[Any]":
    ends = {it[0]: 256 ** sizeof(it[1]) for it in getattr(kind, "_fields_", ())}
    if ends:
        elements = [kind(*fitted(ends, row)) for row in given]
    else:
        elements = [within(256 ** sizeof(kind), it) for it in given]
    memory: "ctypes.Array[Any]" = (kind * len(given))(*elements)
    return memory


class Elements:
    """An array as the library takes it: what was given, where that can be lent, or a copy of its numbers."""

    def __init__(self, name: str, kind: Any, given: Any) -> None:
        self.kind, self.given = kind, None
        memory = lent(kind, given)
        if memory is None:
            self.given = listed(name, kind, given)
            memory = copied(kind, self.given)
        # (an array of no elements has an address all the same)
        self.memory, self.length = memory if len(memory) else (kind * 1)(), len(memory)

    def __len__(self) -> int:
        return self.length

    def values(self) -> List[Any]:
        """The numbers or the rows, as they were given."""
        if self.given is not None:
            return self.given
        fields, elements = fields_of(self.kind), self.memory[: self.length]
        return [tuple(getattr(it, field) for field in fields) if fields else it for it in elements]

    @property
    def pair(self) -> Tuple[int, int]:
        """Address and length."""
        return addressof(self.memory), self.length


class Output(Elements):
    """An array that the library writes: the one that is given, or a new one of the module array."""

    def __init__(self, name: str, kind: Any, length: int, given: Any) -> None:
        self.array = array(CODES[kind], bytes(length * sizeof(kind))) if given is None else given
        super().__init__(name, kind, self.array)
        if self.given is not None:
            size = 8 * sizeof(kind)
            raise TypeError(f"{name} is no array that can be lent and written, of unsigned numbers of {size} bits")


def refuse_overlaps(written: Mapping[str, Elements], read: Mapping[str, Elements]) -> None:
    """Raises where an array that is to be written shares memory with another."""
    every = (*written.items(), *read.items())
    spans = [(name, it.pair[0], it.pair[0] + it.length * sizeof(it.kind)) for name, it in every]
    for (name, start, end), (other, start_of_other, end_of_other) in combinations(spans, 2):
        if name in written and max(start, start_of_other) < min(end, end_of_other):
            raise ValueError(f"{name} and {other} share memory, and {name} is to be written")


# ---- what is asked, and answered ----


class Wave:
    """A cluster as one wave sees it, with the fields of `struct mrjob_wave`. Two are equal whose numbers are; what is
    unpickled, or a copy, has arrays of its own."""

    def __init__(self, centres: int, centre_of: Any, workers: Any, splits: Any, holders: Any, barred: Any = ()) -> None:
        self.centres = operator.index(centres)
        self.centre_of = Elements("centre_of", c_uint16, centre_of)
        self.workers = Elements("workers", WorkerRow, workers)
        self.splits = Elements("splits", SplitRow, splits)
        self.holders = Elements("holders", c_uint16, holders)
        self.is_wide = len(self.splits) > MAX_SPLITS
        self.barred = Elements("barred", WidePairRow if self.is_wide else PairRow, barred)
        # of racks, workers and splits, where they have names
        self.names: Dict[str, Sequence[Any]] = {}

    @property
    def arrays(self) -> Dict[str, Elements]:
        names = ("centre_of", "workers", "splits", "holders", "barred")
        return {it: getattr(self, it) for it in names}

    def rows(self, barred: Optional[Elements] = None) -> WaveRows:
        """What leads to the arrays; and where it is given, to this one in place of the barred pairs."""
        every = {**self.arrays, "barred": self.barred if barred is None else barred}
        return WaveRows(within(2**64, self.centres), *(word for it in every.values() for word in it.pair))

    def wide_barred(self) -> Elements:
        """The barred pairs in numbers of 32 bits."""
        return self.barred if self.is_wide else Elements("barred", WidePairRow, self.barred.values())

    def name(self, kind: str, number: int) -> str:
        """What a message calls a rack, a worker or a split."""
        return f"{kind} {self.names[kind][number]!r}" if kind in self.names else f"{kind} {number}"

    def values(self) -> Tuple[Any, ...]:
        return (self.centres, *(it.values() for it in self.arrays.values()))

    def __eq__(self, other: object) -> bool:
        return isinstance(other, Wave) and self.values() == other.values()

    def __reduce__(self) -> Tuple[Any, ...]:
        return Wave, self.values()

    def __repr__(self) -> str:
        lengths = [f"{len(it)} {name}" for name, it in self.arrays.items()]
        return f"<Wave of {self.centres} centres, {', '.join(lengths).replace('centre_of', 'racks')}>"


class Places:
    """Prices of places, with the fields of `struct mrjob_places`: a row for each worker, and the prices. Equality and
    copies are as a wave's."""

    def __init__(self, rows: Any, prices: Any) -> None:
        self.rows = Elements("place_rows", PlaceRow, rows)
        self.prices = Elements("place_prices", c_uint64, prices)

    @property
    def arrays(self) -> Dict[str, Elements]:
        return {"place_rows": self.rows, "place_prices": self.prices}

    def both(self) -> PlaceRows:
        return PlaceRows(*self.rows.pair, *self.prices.pair)

    def values(self) -> Tuple[Any, ...]:
        return self.rows.values(), self.prices.values()

    def __eq__(self, other: object) -> bool:
        return isinstance(other, Places) and self.values() == other.values()

    def __reduce__(self) -> Tuple[Any, ...]:
        return Places, self.values()

    def __repr__(self) -> str:
        return f"<Places of {len(self.rows)} workers, {len(self.prices)} prices>"


@dataclass(frozen=True, eq=False)
class Planned:
    """Starts by split, of which NONE says that a split does not start, prices, the starts' count and cost, and what the
    places cost that they take. Two are equal whose numbers are; what is unpickled, or a copy, has arrays of the module
    array."""

    starts: Any
    split_prices: Any
    worker_prices: Any
    count: int
    cost: int
    places: int = 0

    def values(self) -> Tuple[Any, ...]:
        prices = array("Q", self.split_prices), array("Q", self.worker_prices)
        return array("H", self.starts), *prices, self.count, self.cost, self.places

    def __eq__(self, other: object) -> bool:
        return isinstance(other, Planned) and self.values() == other.values()

    def __reduce__(self) -> Tuple[Any, ...]:
        return Planned, self.values()


@dataclass(frozen=True)
class Verdict:
    """Count, cost and what the places cost where the prices certify the starts, and then it is true; else the condition
    that fails first, and its place."""

    count: int
    cost: int
    condition: Optional[int]
    split: Optional[int]
    worker: Optional[int]
    places: int = 0

    def __bool__(self) -> bool:
        return self.condition is None

    def __str__(self) -> str:
        if self.condition is None:
            places = f" in places that cost {self.places}" if self.places else ""
            return f"certified: {self.count} starts at byte-distance {self.cost}{places}"
        return refusal(self.condition, self.split, self.worker)


def plan(
    wave: Wave,
    network: int = Network.RACKS,
    starts: Any = None,
    split_prices: Any = None,
    worker_prices: Any = None,
    places: Optional[Places] = None,
) -> Planned:
    """A best plan with its prices, in new arrays of the module array, or in those that are given. With prices of places
    it is best by cost and places together, and made over the network with racks alone. Raises Unfit or NoMemory where
    there is none, and TypeError or ValueError where an array cannot be written."""
    outputs = {
        "starts": Output("starts", c_uint16, len(wave.splits), starts),
        "split_prices": Output("split_prices", c_uint64, len(wave.splits), split_prices),
        "worker_prices": Output("worker_prices", c_uint64, len(wave.workers), worker_prices),
    }
    refuse_overlaps(outputs, wave.arrays if places is None else {**wave.arrays, **places.arrays})
    arrays = [word for it in outputs.values() for word in it.pair]
    total = PlacesTotal()
    if places is None:
        call = load().mrjob_plan_wide if wave.is_wide else load().mrjob_plan
        status = call(byref(wave.rows()), within(2**32, network), *arrays, byref(total))
    else:
        status = plan_places(wave, network, places, arrays, total)
    raise_for(status, wave, outputs, network, places)
    written = [it.array for it in outputs.values()]
    return Planned(written[0], written[1], written[2], total.count, total.cost, total.places)


def plan_places(wave: Wave, network: int, places: Places, arrays: Sequence[int], total: PlacesTotal) -> int:
    if network != Network.RACKS:
        return Status.BAD_NETWORK
    barred = wave.wide_barred()
    return int(load().mrjob_plan_places(byref(wave.rows(barred)), byref(places.both()), *arrays, byref(total)))


def check(
    wave: Wave, starts: Any, split_prices: Any, worker_prices: Any, places: Optional[Places] = None
) -> Verdict:
    """What the prices say of the starts, in which None is as NONE, where places have these prices, or are free. Raises
    Unfit or NoMemory where they say nothing."""
    if not hasattr(starts, "tolist") and not isinstance(starts, ctypes.Array):
        starts = [NONE if it is None else it for it in starts]
    given = {
        "starts": Elements("starts", c_uint16, starts),
        "split_prices": Elements("split_prices", c_uint64, split_prices),
        "worker_prices": Elements("worker_prices", c_uint64, worker_prices),
    }
    arrays = [word for it in given.values() for word in it.pair]
    if places is not None:
        return check_places(wave, places, given, arrays)
    row: Union[VerdictRow, WideVerdictRow] = WideVerdictRow() if wave.is_wide else VerdictRow()
    call, none = (load().mrjob_check_wide, WIDE_NONE) if wave.is_wide else (load().mrjob_check, NONE)
    raise_for(call(byref(wave.rows()), *arrays, byref(row)), wave, given)
    place = [None if it == none else it for it in (row.split, row.worker)]
    return Verdict(row.count, row.cost, row.condition or None, place[0], place[1])


def check_places(wave: Wave, places: Places, given: Mapping[str, Elements], arrays: Sequence[int]) -> Verdict:
    row, barred = PlacesVerdictRow(), wave.wide_barred()
    status = load().mrjob_check_places(byref(wave.rows(barred)), byref(places.both()), *arrays, byref(row))
    raise_for(status, wave, given, places=places)
    place = [None if it == WIDE_NONE else it for it in (row.split, row.worker)]
    return Verdict(row.count, row.cost, row.condition or None, place[0], place[1], row.places)

"""Waves, plans and prices by names. Names are any keys; a sequence in place of a mapping goes by number."""
import operator
from dataclasses import dataclass
from typing import TYPE_CHECKING, Any, Dict, Generic, Hashable, Iterable, List, Literal, Mapping, Optional
from typing import Sequence, Tuple, TypeVar, Union, cast, overload

from . import arrays
from .arrays import NONE, Network
from .faults import CONDITIONS, Status, Unfit, refusal

# The names of splits and of workers.
S = TypeVar("S", bound=Hashable)
W = TypeVar("W", bound=Hashable)
N = TypeVar("N", bound=Hashable)
T = TypeVar("T")
Named = Union[Mapping[N, T], Sequence[T]]

# The mappings or sequences of prices.
OfSplits = TypeVar("OfSplits", covariant=True)
OfWorkers = TypeVar("OfWorkers", covariant=True)


def refuse_string(noun: str, given: object) -> None:
    if isinstance(given, (str, bytes)):
        raise TypeError(f"{noun} are names one by one, and not {given!r}")


@dataclass(frozen=True)
class Worker:
    """A worker: its rack, how many of its slots are free, and whether it lives."""

    rack: Hashable
    free: int = 1
    live: bool = True

    def __post_init__(self) -> None:
        object.__setattr__(self, "free", operator.index(self.free))


@dataclass(frozen=True)
class Split:
    """A split: its bytes, the workers that hold it, whether it waits for a start, and where it may not start."""

    bytes: int
    holders: Sequence[Hashable] = ()
    pending: bool = True
    barred: Sequence[Hashable] = ()

    def __post_init__(self) -> None:
        object.__setattr__(self, "bytes", operator.index(self.bytes))
        for noun in ("holders", "barred"):
            refuse_string(noun, getattr(self, noun))
            object.__setattr__(self, noun, tuple(getattr(self, noun)))


@dataclass(frozen=True)
class Cluster(Generic[W]):
    """Workers, and for each rack its data centre. Without racks, those that workers name stand in one data centre;
    without centres, they are those that the racks name."""

    workers: Named[W, Worker]
    racks: Optional[Named[Any, Hashable]] = None
    centres: Optional[Sequence[Hashable]] = None

    def __post_init__(self) -> None:
        refuse_string("racks", self.racks)
        refuse_string("centres", self.centres)

    if TYPE_CHECKING:

        @overload
        def __init__(
            self: "Cluster[int]",
            workers: Sequence[Worker],
            racks: Optional[Named[Any, Hashable]] = None,
            centres: Optional[Sequence[Hashable]] = None,
        ) -> None: ...

        @overload
        def __init__(
            self,
            workers: Mapping[W, Worker],
            racks: Optional[Named[Any, Hashable]] = None,
            centres: Optional[Sequence[Hashable]] = None,
        ) -> None: ...

        def __init__(self, workers: Any, racks: Any = None, centres: Any = None) -> None: ...


@dataclass(frozen=True)
class Prices(Generic[OfSplits, OfWorkers]):
    """What each split is worth and what a slot of each worker costs, in the unit of the cost of a plan: mappings or
    sequences of numbers."""

    splits: OfSplits
    workers: OfWorkers


@dataclass(frozen=True)
class Plan(Generic[S, W]):
    """The worker of each split that starts, how many do, their byte-distance together, prices that certify it, and what
    the places cost that the starts take."""

    starts: Dict[S, W]
    count: int
    cost: int
    prices: Prices[Dict[S, int], Dict[W, int]]
    places: int = 0


@dataclass(frozen=True)
class Certified:
    """The prices certify the starts: so many, at this byte-distance together, in places that cost so much. It is
    true."""

    count: int
    cost: int
    places: int = 0

    def __bool__(self) -> Literal[True]:
        return True


@dataclass(frozen=True)
class Refused(Generic[S, W]):
    """The condition, 1 to 8, that fails first, and the split and worker where it fails, None where it is of none. It is
    false, and as a string it has all that in words."""

    condition: int
    split: Optional[S]
    worker: Optional[W]

    @property
    def words(self) -> str:
        return CONDITIONS[self.condition]

    def __bool__(self) -> Literal[False]:
        return False

    def __str__(self) -> str:
        return refusal(self.condition, self.split, self.worker)


class Numbers(Generic[N]):
    """The names of one kind with their numbers."""

    def __init__(self, kind: str, named: Named[N, Any]) -> None:
        self.kind = kind
        self.names: List[N] = list(named) if isinstance(named, Mapping) else cast(List[N], list(range(len(named))))
        self.numbers: Dict[Hashable, int] = {name: number for number, name in enumerate(self.names)}

    def of(self, names: Iterable[Hashable], status: Status, owner: str, owner_name: Hashable, role: str) -> List[int]:
        """Their numbers. A name that is none is told as what it is to its owner, such as a holder to a split."""
        try:
            return [self.numbers[it] for it in names]
        except KeyError as unknown:
            raise Unfit(status, f"{owner} {owner_name!r}: {role} {unknown.args[0]!r} is no {self.kind}") from None

    def listed(self, given: Named[N, T], missing: T, noun: str, status: Status = Status.BAD_LENGTH) -> List[T]:
        """What is given for each, by number; as it is where it comes as a sequence."""
        if not isinstance(given, Mapping):
            return list(given)
        for name in given:
            if name not in self.numbers:
                raise Unfit(status, f"{noun}: {name!r} is no {self.kind}")
        return [given.get(name, missing) for name in self.names]


def items(named: Named[Any, T]) -> List[Tuple[Any, T]]:
    return list(named.items()) if isinstance(named, Mapping) else list(enumerate(named))


def tree_of(cluster: Cluster[W]) -> Tuple[int, List[int], Numbers[Any]]:
    """How many data centres there are, the centre of each rack, and the racks."""
    racks = cluster.racks
    if racks is None:
        racks = {worker.rack: 0 for _, worker in items(cluster.workers)}
    names = [centre for _, centre in items(racks)] if cluster.centres is None else cluster.centres
    centres = Numbers("data centre", dict.fromkeys(names))
    centre_of = [centres.of([it], Status.BAD_RACKS, "rack", rack, "centre")[0] for rack, it in items(racks)]
    return len(centres.names), centre_of, Numbers("rack", racks)


class NamedWave(Generic[S, W]):
    """A wave of a cluster and splits, with the names of both."""

    def __init__(self, cluster: Cluster[W], splits: Named[S, Split]) -> None:
        centres, centre_of, racks = tree_of(cluster)
        self.workers, self.splits = Numbers("worker", cluster.workers), Numbers("split", splits)
        workers, rows = [], []
        holders: List[int] = []
        barred: List[Tuple[int, int]] = []
        for name, worker in items(cluster.workers):
            rack = racks.of([worker.rack], Status.BAD_WORKERS, "worker", name, "rack")[0]
            workers.append((rack, worker.free, bool(worker.live)))
        for number, (name, split) in enumerate(items(splits)):
            rows.append((split.bytes, len(holders), len(split.holders), bool(split.pending)))
            holders += self.workers.of(split.holders, Status.BAD_HOLDERS, "split", name, "holder")
            for it in self.workers.of(split.barred, Status.BAD_BARRED, "split", name, "barred"):
                barred.append((number, it))
        self.wave = arrays.Wave(centres, centre_of, workers, rows, holders, barred)
        self.wave.names = {it.kind: it.names for it in (racks, self.workers, self.splits)}

    def places_of(self, places: Optional[Named[W, Sequence[int]]]) -> Optional[arrays.Places]:
        """A row for each worker, and the prices of all."""
        if places is None:
            return None
        none: Sequence[int] = ()
        rows: List[Tuple[int, int]] = []
        prices: List[int] = []
        for it in self.workers.listed(places, none, "places", Status.BAD_PLACES):
            rows.append((len(prices), len(it)))
            prices += it
        return arrays.Places(rows, prices)

    def plan(self, network: int, places: Optional[Named[W, Sequence[int]]]) -> Plan[S, W]:
        planned = arrays.plan(self.wave, network, places=self.places_of(places))
        names = self.workers.names
        starts = {split: names[it] for split, it in zip(self.splits.names, planned.starts) if it != NONE}
        prices = Prices(dict(zip(self.splits.names, planned.split_prices)), dict(zip(names, planned.worker_prices)))
        return Plan(starts, planned.count, planned.cost, prices, planned.places)

    def numbers_of(self, starts: Named[S, Optional[W]]) -> List[Optional[int]]:
        """The number of the worker on which each split starts, or None."""
        listed, numbers = self.splits.listed(starts, None, "starts"), self.workers.numbers
        for number, it in enumerate(listed):
            if it is not None and it not in numbers:
                place = self.splits.names[number] if number < len(self.splits.names) else number
                raise Unfit(Status.BAD_STARTS, f"split {place!r}: worker {it!r} is no worker")
        return [None if it is None else numbers[it] for it in listed]

    def check(
        self,
        starts: Named[S, Optional[W]],
        prices: Prices[Named[S, int], Named[W, int]],
        places: Optional[Named[W, Sequence[int]]],
    ) -> Union[Certified, Refused[S, W]]:
        split_prices = self.splits.listed(prices.splits, 0, "prices")
        worker_prices = self.workers.listed(prices.workers, 0, "prices")
        rows = self.places_of(places)
        verdict = arrays.check(self.wave, self.numbers_of(starts), split_prices, worker_prices, rows)
        if verdict.condition is None:
            return Certified(verdict.count, verdict.cost, verdict.places)
        split = None if verdict.split is None else self.splits.names[verdict.split]
        worker = None if verdict.worker is None else self.workers.names[verdict.worker]
        return Refused(verdict.condition, split, worker)


@overload
def plan(
    cluster: Cluster[W],
    splits: Mapping[S, Split],
    network: int = ...,
    *,
    places: Optional[Named[W, Sequence[int]]] = ...,
) -> Plan[S, W]: ...


@overload
def plan(
    cluster: Cluster[W],
    splits: Sequence[Split],
    network: int = ...,
    *,
    places: Optional[Named[W, Sequence[int]]] = ...,
) -> Plan[int, W]: ...


def plan(
    cluster: Cluster[W],
    splits: Any,
    network: int = Network.RACKS,
    *,
    places: Optional[Named[W, Sequence[int]]] = None,
) -> Plan[Any, W]:
    """A best plan of the splits: no other starts more, and none that starts as many costs less. Raises Unfit where the
    cluster and the splits are no wave, and NoMemory.

    `places` has the prices of a worker's places: what its first start is charged beside its byte-distance, what its
    second is, and so on. They do not fall. A place past the last price costs as much as that; a worker without prices
    has free places. The plan is then best by cost and places together. It wants the network over racks."""
    return NamedWave[Any, W](cluster, splits).plan(network, places)


@overload
def check(
    cluster: Cluster[W],
    splits: Mapping[S, Split],
    starts: Named[S, Optional[W]],
    prices: Prices[Named[S, int], Named[W, int]],
    *,
    places: Optional[Named[W, Sequence[int]]] = ...,
) -> Union[Certified, Refused[S, W]]: ...


@overload
def check(
    cluster: Cluster[W],
    splits: Sequence[Split],
    starts: Named[int, Optional[W]],
    prices: Prices[Named[int, int], Named[W, int]],
    *,
    places: Optional[Named[W, Sequence[int]]] = ...,
) -> Union[Certified, Refused[int, W]]: ...


def check(
    cluster: Cluster[W],
    splits: Any,
    starts: Any,
    prices: Any,
    *,
    places: Optional[Named[W, Sequence[int]]] = None,
) -> Union[Certified, Refused[Any, W]]:
    """Certified, which is true, where the prices certify the starts, which are then best; else Refused, which is false,
    with the condition that fails first. A price that a mapping leaves out is 0. `places` is as for `plan`.

    Raises Unfit where the cluster and the splits are no wave, or the starts and the prices are not of it, and NoMemory;
    a condition that fails is no exception."""
    return NamedWave[Any, W](cluster, splits).check(starts, prices, places)

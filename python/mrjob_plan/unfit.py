"""What of a wave or of a plan is not fit, in words, once the library has answered that something is not."""
from typing import TYPE_CHECKING, Callable, Dict, Iterable, Iterator, Mapping, Optional

from .faults import WORDS, NoMemory, Status, Unfit
from .library import MAX_BYTES, MAX_CENTRES, MAX_DIRECT_SPLITS, MAX_DIRECT_WORKERS, MAX_HOLDERS, MAX_RACKS, MAX_SLOTS
from .library import MAX_PLACE_PRICE, MAX_WIDE_SPLITS, MAX_WORKERS, NONE

if TYPE_CHECKING:
    from .arrays import Elements, Places, Wave

Found = Iterator[str]


def past(count: int, most: int, noun: str) -> Found:
    """What there are too many of, or fewer than none."""
    if count > most:
        yield f"{count:,} {noun}, at most {most:,}"
    elif count < 0:
        yield f"{count:,} {noun}, at least 0"


def absent(noun: str, number: int, count: int) -> Found:
    """A number that is none of so many."""
    if not 0 <= number < count:
        yield f"there is no {noun} {number:,} among {count:,}"


def at(place: str, found: Iterable[str]) -> Found:
    return (f"{place}: {it}" for it in found)


def of_racks(wave: "Wave") -> Found:
    yield from past(wave.centres, MAX_CENTRES, "data centres")
    yield from past(len(wave.centre_of), MAX_RACKS, "racks")
    for rack, centre in enumerate(wave.centre_of.values()):
        yield from at(wave.name("rack", rack), absent("data centre", centre, wave.centres))


def of_workers(wave: "Wave") -> Found:
    yield from past(len(wave.workers), MAX_WORKERS, "workers")
    for worker, (rack, free, _) in enumerate(wave.workers.values()):
        yield from at(wave.name("worker", worker), absent("rack", rack, len(wave.centre_of)))
        yield from at(wave.name("worker", worker), past(free, MAX_SLOTS, "free slots"))


def of_splits(wave: "Wave") -> Found:
    yield from past(len(wave.splits), MAX_WIDE_SPLITS, "splits")
    for split, (size, first, count, _) in enumerate(wave.splits.values()):
        place = wave.name("split", split)
        yield from at(place, past(size, MAX_BYTES, "bytes"))
        yield from at(place, past(count, MAX_HOLDERS, "holders"))
        if not 0 <= first <= first + count <= len(wave.holders):
            yield f"{place}: holders from {first:,} up to {first + count:,}, and there are {len(wave.holders):,}"


def of_barred(wave: "Wave") -> Found:
    for number, (split, worker) in enumerate(wave.barred.values()):
        yield from at(f"barred pair {number}", absent("split", split, len(wave.splits)))
        yield from at(f"barred pair {number}", absent("worker", worker, len(wave.workers)))


def of_holders(wave: "Wave") -> Found:
    holders = wave.holders.values()
    for split, (_, first, count, _) in enumerate(wave.splits.values()):
        held = holders[first : first + count]
        for at_place, worker in enumerate(held):
            yield from at(f"{wave.name('split', split)}, holder", absent("worker", worker, len(wave.workers)))
            if worker in held[:at_place]:
                yield f"{wave.name('split', split)}: {wave.name('worker', worker)} holds it twice"


FINDERS: Dict[Status, Callable[["Wave"], Found]] = {
    Status.BAD_RACKS: of_racks,
    Status.BAD_WORKERS: of_workers,
    Status.BAD_SPLITS: of_splits,
    Status.BAD_BARRED: of_barred,
    Status.BAD_HOLDERS: of_holders,
}


def of_lengths(wave: "Wave", plan: Mapping[str, "Elements"]) -> Found:
    """Of the starts and prices, those that are not as many as the splits or the workers."""
    for name, elements in plan.items():
        noun, wanted = ("workers", wave.workers) if name == "worker_prices" else ("splits", wave.splits)
        if len(elements) != len(wanted):
            yield f"{len(elements):,} {name.replace('_', ' ')}, and {len(wanted):,} {noun}"


def of_starts(wave: "Wave", starts: "Elements") -> Found:
    for split, worker in enumerate(starts.values()):
        if worker != NONE:
            yield from at(wave.name("split", split), absent("worker", worker, len(wave.workers)))


def of_network(wave: "Wave", network: int, places: Optional["Places"]) -> Found:
    if places is not None:
        yield f"network {network:,}, and where places have prices it is 0, over racks"
    if network == 1:
        yield from past(len(wave.splits), MAX_DIRECT_SPLITS, "splits for the direct network")
        yield from past(len(wave.workers), MAX_DIRECT_WORKERS, "workers for the direct network")
    yield f"network {network:,} is neither 0, over racks, nor 1, direct"


def of_places(wave: "Wave", places: "Places") -> Found:
    if len(places.rows) != len(wave.workers):
        yield f"{len(places.rows):,} rows of place prices, and {len(wave.workers):,} workers"
    every = places.prices.values()
    for worker, (first, count) in enumerate(places.rows.values()):
        place = wave.name("worker", worker)
        yield from at(place, past(count, MAX_SLOTS, "prices of places"))
        if not 0 <= first <= first + count <= len(every):
            yield f"{place}: prices from {first:,} up to {first + count:,}, and there are {len(every):,}"
        prices = every[first : first + count]
        for price in prices:
            yield from at(place, past(price, MAX_PLACE_PRICE, "for a place"))
        for before, after in zip(prices, prices[1:]):
            if after < before:
                yield f"{place}: a place at {after:,} after one at {before:,}"


def raise_for(
    status: int,
    wave: "Wave",
    plan: Mapping[str, "Elements"],
    network: int = 0,
    places: Optional["Places"] = None,
) -> None:
    """Raises what a status means that is no answer, with the first that is not fit of what the call was given."""
    if status == Status.NO_MEMORY:
        raise NoMemory()
    if status <= Status.REFUSED:
        return
    status = Status(status)
    if status in FINDERS:
        found = FINDERS[status](wave)
    elif status == Status.BAD_PLACES and places is not None:
        found = of_places(wave, places)
    elif status == Status.BAD_NETWORK:
        found = of_network(wave, network, places)
    else:
        found = of_lengths(wave, plan) if status == Status.BAD_LENGTH else of_starts(wave, plan["starts"])
    raise Unfit(status, next(found, WORDS[status]))

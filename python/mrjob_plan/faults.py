"""Why a call gives no answer, and why a check does not certify."""
from enum import IntEnum
from typing import Any


class Status(IntEnum):
    """What the library answers, by the names of mrjob.h."""

    OK = 0
    REFUSED = 1
    BAD_RACKS = 2
    BAD_WORKERS = 3
    BAD_SPLITS = 4
    BAD_BARRED = 5
    BAD_HOLDERS = 6
    BAD_LENGTH = 7
    BAD_STARTS = 8
    BAD_NETWORK = 9
    NO_MEMORY = 10
    BAD_PLACES = 11


WORDS = {
    Status.BAD_RACKS: "there are more than 256 data centres or 4,096 racks, or a rack is in no data centre",
    Status.BAD_WORKERS: "there are more than 32,768 workers, or one is in no rack or has more than 255 slots",
    Status.BAD_SPLITS: "there are more than 131,072 splits, or one has more than 8,589,934,592 bytes or 16 holders, "
    "or a holder past the last",
    Status.BAD_BARRED: "a barred pair is of no split or of no worker",
    Status.BAD_HOLDERS: "a holder is no worker, or stands twice at one split",
    Status.BAD_LENGTH: "there is not one start and price for each split and one price for each worker",
    Status.BAD_STARTS: "a split starts on no worker",
    Status.BAD_NETWORK: "there is no such network, or there are more than 1,024 splits or 256 workers for the direct "
    "one",
    Status.NO_MEMORY: "there is no memory",
    Status.BAD_PLACES: "there is not one row of place prices for each worker, or one has more than 255 prices, prices "
    "past the last, or one that is past 68,719,476,736 or lower than the one before",
}

CONDITIONS = {
    1: "a split starts that does not wait, or that no live worker holds",
    2: "a split starts on a dead worker, or on one that is barred",
    3: "a worker has more starts than free slots",
    4: "a price is past all that the starts can cost together",
    5: "the prices of a pair that may start are too low",
    6: "the prices of a pair that starts are too high",
    7: "a split that does not start has a price",
    8: "a worker with a slot left has a price",
}


class Unfit(ValueError):
    """What was given is no wave, or no plan of it: `status` says what is not fit, the words say where, and nothing was
    written. Two are equal that say the same."""

    def __init__(self, status: Status, words: str = "") -> None:
        super().__init__(status, words or WORDS[status])
        self.status = status

    def __str__(self) -> str:
        return str(self.args[1])

    def __eq__(self, other: object) -> bool:
        return isinstance(other, Unfit) and self.args == other.args

    def __hash__(self) -> int:
        return hash(self.args)


class NoMemory(MemoryError):
    """The library found no memory; all that was given is fit, and nothing was written. Any two are equal."""

    status = Status.NO_MEMORY

    def __init__(self, words: str = WORDS[Status.NO_MEMORY]) -> None:
        super().__init__(words)

    def __eq__(self, other: object) -> bool:
        return isinstance(other, NoMemory)

    def __hash__(self) -> int:
        return hash(NoMemory)


def refusal(condition: int, split: Any, worker: Any) -> str:
    """What a check says that finds this condition to fail at this split and this worker, or None."""
    places = [f"{kind} {it!r}" for kind, it in (("split", split), ("worker", worker)) if it is not None]
    return f"C{condition} fails at {' and '.join(places)}: {CONDITIONS[condition]}"

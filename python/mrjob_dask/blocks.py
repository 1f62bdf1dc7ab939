"""What a job is over: splits of which each has bytes and holders, and blocks of which each has data for a map."""
from __future__ import annotations

from typing import Any, Callable, Iterable, Mapping

from .calls import Call, Copy, Look, Piece
from .pending import Place


class Splits:
    """What is placed: things by name, in their order, each with its bytes."""

    def __init__(self) -> None:
        self.bytes: dict[str, int] = {}
        self.nodes: dict[str, list[str]] = {}  # that hold a split, where these are named

    def keys(self, splits: Iterable[str]) -> list[str]:
        """The keys of which a look has to tell the holders, for these splits."""
        return []

    def holders(self, split: str, look: Look) -> list[str]:
        """The live workers that hold a split."""
        raise NotImplementedError

    def call(self, split: str, worker: str, source: str) -> Call:
        """What is called for a split on a worker, of what lies on a holder; a Job has its maps in place of it."""
        raise NotImplementedError

    def is_gone(self, split: str) -> bool:
        """Whether a split that nobody holds can never have a holder again, whoever returns."""
        return False

    def repair(self, look: Look, places: Mapping[str, Place]) -> list[Copy]:
        """Gives splits back the holders that they lost, where that is the client's part. The copies that were made."""
        return []

    def close(self) -> None:
        """Lets go of what is held on the cluster."""


class Blocks(Splits):
    """Splits with data. The bytes of a block are those of its pieces, one after another."""

    def __init__(self) -> None:
        super().__init__()
        self.pieces: dict[str, list[Piece]] = {}

    def data(self, split: str, worker: str, source: str) -> tuple[Callable[..., Any], list[Any]]:
        """How a map on a worker comes to a block's data from a holder: a function, and what it is called with."""
        raise NotImplementedError

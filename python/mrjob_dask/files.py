"""Blocks in files on the disks of nodes, of which Dask knows nothing."""
from __future__ import annotations

import os
from typing import Any, Callable, Iterable, Mapping, NamedTuple, Optional, Union
from urllib.parse import quote, unquote
from urllib.request import urlopen

from distributed import Client

from .blocks import Blocks
from .calls import Look, Piece, look, named, read_files, read_here
from .planner import Unfit


class Row(NamedTuple):
    """So many bytes of a file from an offset on, and the nodes that hold them: names or hosts of workers."""

    file: str
    offset: int
    bytes: int
    nodes: list[str]


def document_name(path: str) -> str:
    """A path as one word of printable characters."""
    return quote(path, safe="/!#$&'()*+,:;=?@[]~{}|^`\"<>\\")


def read_table(lines: Iterable[str]) -> list[Row]:
    """Rows of lines `FILE OFFSET BYTES NODE..`, in which %20 stands for a space of a file's name."""
    rows = []
    for line in lines:
        words = line.split()
        if len(words) < 3 or not (words[1].isdigit() and words[2].isdigit()):
            raise Unfit(f"`{line.rstrip()}` is not FILE OFFSET BYTES NODE..")
        rows.append(Row(unquote(words[0]), int(words[1]), int(words[2]), words[3:]))
    return rows


def rows_of(client: Client, paths: Mapping[str, Iterable[str]]) -> list[Row]:
    """Rows of whole files, by a table of the paths that each node holds; a worker there tells a file's bytes."""
    nodes: dict[str, list[str]] = {}
    for node, files in paths.items():
        for file in named(files):
            nodes.setdefault(file, []).append(str(node))
    seen = look(client)
    asked: dict[str, list[str]] = {}
    for file, at in nodes.items():
        workers = seen.at(at)
        if not workers:
            raise Unfit(f"no worker is on a node that holds {file}: {', '.join(at)}")
        asked.setdefault(workers[0], []).append(file)

    def measured(asked: dict[str, list[str]], dask_worker: Any) -> dict[str, int]:
        return {file: os.path.getsize(file) for file in asked[dask_worker.address]}

    said = client.run(measured, asked, workers=[*asked]) if asked else {}
    bytes_of = {file: size for its in said.values() for file, size in its.items()}
    return [Row(file, 0, bytes_of[file], at) for file, at in nodes.items()]


Read = Callable[[str, "list[Piece]"], bytes]


def read_mounted(source: str, pieces: list[Piece]) -> bytes:
    """A read of blocks by a file system that is mounted on each worker, and picks the replica itself."""
    return read_here(pieces)


def read_web(address: str) -> Read:
    """A read of blocks by WebHDFS, which serves a reader from the replica nearest to it."""

    def read(source: str, pieces: list[Piece]) -> bytes:
        file, offset, length = pieces[0]
        words = f"{address}/webhdfs/v1{quote(file)}?op=OPEN&offset={offset}&length={length}"
        with urlopen(words) as answer:
            data: bytes = answer.read()
        if len(data) != length:
            raise EOFError(f"{file} is shorter than its block")
        return data

    return read


class Files(Blocks):
    """Blocks in files on the nodes' disks, which whoever put them there keeps and repairs.

    `table` has rows, or whole files by `{node: paths}`. A map reads its block itself, by `read(source, pieces)`: from
    its own disk where its worker is a holder, else from the nearest holder's. A piece's document is the file.
    """

    def __init__(
        self, client: Client, table: Union[Iterable[Row], Mapping[str, Iterable[str]]], read: Read = read_files
    ) -> None:
        super().__init__()
        self.client, self.read = client, read
        self.seen: Optional[Look] = None
        self.held: dict[str, list[str]] = {}  # the holders of splits, as long as the seen workers stay the same
        for row in rows_of(client, table) if isinstance(table, Mapping) else table:
            split = f"{document_name(row.file)}@{row.offset}"
            if split in self.pieces:
                raise Unfit(f"{split} stands twice")
            self.pieces[split], self.nodes[split] = [(row.file, row.offset, row.bytes)], named(row.nodes)
            self.bytes[split] = row.bytes

    def holders(self, split: str, look: Look) -> list[str]:
        if look is not self.seen:
            if self.seen is None or [*look.workers] != [*self.seen.workers]:
                self.held = {}
            self.seen = look
        if split not in self.held:
            self.held[split] = look.at(self.nodes[split])
        return self.held[split]

    def data(self, split: str, worker: str, source: str) -> tuple[Callable[..., Any], list[Any]]:
        return self.read, [source, self.pieces[split]]

"""An inverted index: the map and the reduce of a job, and a folder cut in blocks.

Blocks are cut at any byte, as those of HDFS are, so a word may lie in two of them. A map keeps the letters at the ends
of its pieces apart, as *edges*; the reduce joins those that touch.
"""
from __future__ import annotations

import os
import pickle
import re
from typing import Iterable, Iterator, Tuple

from mrjob_dask.calls import Piece
from mrjob_dask.files import document_name

WORD = re.compile(rb"[A-Za-z]+")


# What travels between client and workers is of plain types, since to these this module is sent by value.
# Letters of a document, from one offset up to another, beside which more may stand in another block.
Edge = Tuple[str, int, int, str]


def part_of(word: str, parts: int) -> int:
    """The part to which a word belongs (docs/MODEL.md)."""
    number = 0
    for byte in word.encode():
        number = (31 * number + byte) % 2**32
    return number % parts


def words_of(document: str, offset: int, text: bytes) -> tuple[set[str], list[Edge]]:
    """The whole words of a piece, and its edges."""
    words, edges = set(), []
    for run in WORD.finditer(text):
        letters = run[0].decode().lower()
        if run.end() == len(text) or run.start() == 0 and offset > 0:
            start = offset + run.start()
            edges.append((document, start, start + len(letters), letters))
        else:
            words.add(letters)
    return words, edges


def map_words(data: bytes, pieces: list[Piece], parts: int) -> list[bytes]:
    """A map: the words of a block with their documents, and its edges, for each part."""
    found: list[tuple[dict[str, list[str]], list[Edge]]] = [({}, []) for _ in range(parts)]
    at = 0
    for document, offset, length in pieces:
        words, edges = words_of(document, offset, data[at : at + length])
        at += length
        for word in words:
            found[part_of(word, parts)][0].setdefault(word, []).append(document)
        found[part_of(document, parts)][1].extend(edges)
    return [pickle.dumps(it) for it in found]


def joined(edges: Iterable[Edge]) -> Iterator[tuple[str, str]]:
    """The words that edges make, with their documents."""
    document, end, letters = "", -1, ""
    for name, start, stop, more in sorted({*edges}):
        if (name, start) != (document, end) and letters:
            yield letters, document
        letters = letters + more if (name, start) == (document, end) else more
        document, end = name, stop
    if letters:
        yield letters, document


def reduce_words(outputs: list[bytes]) -> dict[str, list[str]]:
    """A reduce: the words of one part of all blocks, and those that their edges make, which may belong to any part."""
    index: dict[str, set[str]] = {}
    edges: list[Edge] = []
    for output in outputs:
        words, its_edges = pickle.loads(output)
        edges += its_edges
        for word, documents in words.items():
            index.setdefault(word, set()).update(documents)
    for word, document in joined(edges):
        index.setdefault(word, set()).add(document)
    return {word: sorted(documents) for word, documents in index.items()}


def index_lines(results: Iterable[dict[str, list[str]]]) -> list[str]:
    """The lines of the index of all parts: documents are numbered by their names, words go by their bytes."""
    index: dict[str, set[str]] = {}
    for result in results:
        for word, documents in result.items():
            index.setdefault(word, set()).update(documents)
    return [f"index {len(index)}", *(f"word {word} {' '.join(sorted(index[word]))}" for word in sorted(index))]


def texts_of(folder: str, left_out: list[str]) -> Iterator[tuple[str, bytes]]:
    """The files below a folder, by name; links and files with a byte 0 in front are left out."""
    for place, folders, files in os.walk(folder):
        folders.sort()
        for path in sorted(os.path.join(place, file) for file in files):
            text = b"\0"
            if os.path.isfile(path) and not os.path.islink(path):
                with open(path, "rb") as file:
                    text = file.read()
            if b"\0" in text[:4096]:
                left_out.append(path)
            else:
                yield document_name(os.path.relpath(path, folder)), text


def blocks_of(texts: Iterable[tuple[str, bytes]], sizes: Iterator[int]) -> Iterator[tuple[bytes, list[Piece]]]:
    """The texts, one after another, cut in blocks of these sizes: the bytes and the pieces of each."""
    data, pieces, room = bytearray(), [], next(sizes)
    for document, text in texts:
        at = 0
        while at < len(text):
            length = min(len(text) - at, room - len(data))
            pieces.append((document, at, length))
            data += text[at : at + length]
            at += length
            if len(data) == room:
                yield bytes(data), pieces
                data, pieces, room = bytearray(), [], next(sizes)
    if pieces:
        yield bytes(data), pieces

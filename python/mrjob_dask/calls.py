"""What is asked of a running Dask cluster: each call is one step of its scheduler, or runs on its workers.

Nothing is installed on the cluster and nothing is set there, so nothing is left where a client dies: what a job holds
are keys, and the scheduler lets go of a client's keys with the client.
"""
from __future__ import annotations

import asyncio
import time
import uuid
from functools import cached_property, lru_cache
from threading import Lock
from typing import Any, Callable, Iterable, Mapping, NamedTuple, Sequence, Union

import cloudpickle
from dask import config
from dask.highlevelgraph import HighLevelGraph, MaterializedLayer
from distributed import Client, Future, get_worker, wait
from distributed.client import done_callback
from distributed.core import clean_exception
from distributed.utils import offload, sync
from distributed.worker import get_data_from_worker

from .topology import host_of

# So many bytes of a document or a file from an offset on: its name, the offset, the length.
Piece = tuple[str, int, int]


class Seen(NamedTuple):
    """A live worker: its name, its slots, the threads on which tasks may start, none while it is paused, how many tasks
    it has that are not of the mark for which was looked, and what tells its process from another one at its address."""

    name: str
    slots: int
    threads: int
    others: int
    process: str = ""


class Look:
    """The live workers by address, the marked keys that no worker is left for, and who holds the keys asked for."""

    def __init__(self, workers: dict[str, Seen], aside: list[str], holders: dict[str, list[str]]) -> None:
        self.workers, self.aside, self.holders, self.everyone = workers, {*aside}, holders, [*workers]

    @cached_property
    def on(self) -> dict[str, list[str]]:
        """The workers by their names, hosts and addresses."""
        on: dict[str, list[str]] = {}
        for address, worker in self.workers.items():
            for node in {worker.name, host_of(address), address}:
                on.setdefault(node, []).append(address)
        return on

    def at(self, nodes: Iterable[str]) -> list[str]:
        """The workers of these names, hosts or addresses."""
        return [*dict.fromkeys(address for node in nodes for address in self.on.get(node, ()))]


def named(nodes: Any) -> list[str]:
    """The names, hosts or addresses of nodes, or of a node alone. Dask's own names of workers may be numbers."""
    return [str(nodes)] if isinstance(nodes, (str, int)) else [*map(str, nodes)]


def at_scheduler(client: Client, function: Union[Callable[..., Any], Packed], *given: Any) -> Any:
    """What a function gives that the scheduler calls."""
    if client.asynchronous:
        raise TypeError("the client is asynchronous, and one that is not is wanted")
    return client.run_on_scheduler(function, *given)


class Packed:
    """A function that is pickled once for all calls."""

    def __init__(self, function: Callable[..., Any]) -> None:
        self.words = cloudpickle.dumps(function)

    def __reduce__(self) -> tuple[Callable[..., Any], tuple[bytes]]:
        return cloudpickle.loads, (self.words,)


packed = lru_cache(maxsize=None)(Packed)


def seen_at_scheduler(mark: str, keys: list[str], dask_scheduler: Any) -> Any:
    """What a look is made of."""
    is_own = lambda task: bool(mark) and str(task.key).startswith(mark)
    threads = lambda worker: worker.nthreads if worker.status.name == "running" else 0
    others = lambda worker: sum(not is_own(task) for task in worker.processing)
    workers = dask_scheduler.workers.items()
    tasks = [dask_scheduler.tasks[key] for key in keys if key in dask_scheduler.tasks]
    return (
        {at: (str(it.name), it.nthreads, threads(it), others(it), str(it.server_id)) for at, it in workers},
        [task.key for task in dask_scheduler.unrunnable if is_own(task)],
        {task.key: [it.address for it in task.who_has or ()] for task in tasks},
    )


def look(client: Client, mark: str = "", keys: Sequence[str] = ()) -> Look:
    """One undivided look at the scheduler. A mark is what the keys of one job begin with."""
    workers, aside, holders = at_scheduler(client, packed(seen_at_scheduler), mark, [*keys])
    return Look({address: Seen(*it) for address, it in workers.items()}, aside, holders)


class Call(NamedTuple):
    """A function with its arguments, among which are futures, and the worker on which it is called."""

    worker: str
    function: Callable[..., Any]
    arguments: list[Any]


# Dask keeps the source of whoever sends a graph, for its dashboard, and would parse ours each time.
NO_SOURCE = {"distributed.diagnostics.computations.ignore-modules": [""]}
SENDING = Lock()  # (of two threads that set and restore it the last one could restore what the other set)


def start(client: Client, calls: Mapping[str, Call]) -> list[Future]:
    """Starts calls by their keys, in one message, each on its worker and nowhere else."""
    tasks = {key: (it.function, *it.arguments) for key, it in calls.items()}
    layer = MaterializedLayer(tasks, annotations={"workers": lambda key: [calls[key].worker]})
    with SENDING, config.set(NO_SOURCE):
        futures: list[Future] = client.get(HighLevelGraph({"mrjob": layer}, {"mrjob": set()}), [*calls], sync=False)
    return futures


def in_loop(client: Client, call: Callable[[Future], Any], futures: Sequence[Future]) -> None:
    """Calls something with each of these futures in the client's loop, which is woken once for all of them."""

    def called() -> None:
        for it in futures:
            call(it)

    assert client.loop is not None
    client.loop.add_callback(called)


def tell_ends(client: Client, futures: Sequence[Future], tell: Callable[[Future], None]) -> None:
    """Has this called in the client's loop as each of these futures ends."""
    in_loop(client, lambda it: asyncio.ensure_future(done_callback(it, tell)), futures)


def release(client: Client, futures: Sequence[Future]) -> None:
    in_loop(client, Future.release, futures)


def finish(client: Client, futures: Sequence[Future]) -> None:
    """Waits until futures are done. Raises what one of them raised."""
    if futures:
        with client.as_current():
            wait([*futures])
    for future in futures:
        if future.status != "finished":
            future.result()


def sizes(client: Client, keys: Sequence[str]) -> dict[str, tuple[int, int]]:
    """The bytes of keys in memory, and how many workers hold each."""

    def sized(keys: list[str], dask_scheduler: Any) -> dict[str, tuple[int, int]]:
        tasks = [dask_scheduler.tasks[key] for key in keys if key in dask_scheduler.tasks]
        return {task.key: (max(0, task.nbytes), len(task.who_has or ())) for task in tasks}

    answer: dict[str, tuple[int, int]] = at_scheduler(client, sized, [*keys])
    return answer


def free(client: Client, keys: Sequence[str]) -> None:
    """Lets tasks that were bound to one worker be made again elsewhere, should that worker die."""

    def freed(keys: list[str], dask_scheduler: Any) -> None:
        for task in (dask_scheduler.tasks[key] for key in keys if key in dask_scheduler.tasks):
            task.loose_restrictions = True

    at_scheduler(client, freed, [*keys])


def hold(client: Client, futures: Sequence[Future], replicas: int) -> list[Future]:
    """Keeps so many replicas of keys, whatever the cluster's active memory manager does, for as long as the answer is
    kept: it drops no replica for which a task waits, and these tasks wait for a resource that no worker has."""
    keys = [f"mrjob-hold-{uuid.uuid4().hex[:8]}-{number}" for number in range(replicas)]
    held = [client.submit(lambda *_: None, *futures, key=key, resources={"mrjob-hold": 1}) for key in keys]

    async def known(keys: list[str], dask_scheduler: Any) -> None:
        while not all(key in dask_scheduler.tasks for key in keys):
            await asyncio.sleep(0.01)

    at_scheduler(client, known, keys)
    return held


class Copy(NamedTuple):
    """A key that is brought from a worker to another."""

    key: str
    source: str
    worker: str


def bring(client: Client, copies: list[Copy]) -> set[str]:
    """Brings keys, each from the worker that is named. The keys that did not come, as from a busy or a dead one."""

    async def brought(copies: list[tuple[str, str, str]], dask_scheduler: Any) -> set[str]:
        # (a connection to a dead worker would be tried for half a minute)
        live = [it for it in copies if it[1] in dask_scheduler.workers and it[2] in dask_scheduler.workers]
        calls = (dask_scheduler.gather_on_worker(to, {key: [at]}) for key, at, to in live)
        said = await asyncio.gather(*calls, return_exceptions=True)
        failed = {it[0] for it, missed in zip(live, said) if missed}
        return failed | {it[0] for it in copies} - {it[0] for it in live}

    missed: set[str] = at_scheduler(client, brought, [tuple(it) for it in copies])
    return missed


# ---- in tasks ----


def as_it_is(block: Any) -> Any:
    """A block that Dask gives to its map."""
    return block


def read_key(source: str, key: str) -> Any:
    """What a worker holds as a key, from there and from nowhere else; it is asked again while it is busy."""
    worker = get_worker()

    async def asked() -> Any:
        while True:
            answer = await get_data_from_worker(worker.rpc, [key], source, who=worker.address)
            if answer["status"] == "OK":
                return answer["data"][key]
            await asyncio.sleep(0.05)

    return sync(worker.loop, asked)


def read_here(pieces: list[Piece]) -> bytes:
    """The bytes of pieces of files on this worker's disk, relative ones from where it was started."""
    data = bytearray()
    for file, offset, length in pieces:
        with open(file, "rb") as opened:
            opened.seek(offset)
            data += opened.read(length)
    if len(data) != sum(length for _, _, length in pieces):
        raise EOFError(f"{pieces[0][0]} is shorter than its block")
    return bytes(data)


async def serve_pieces(reader: str, pieces: list[Piece], dask_worker: Any) -> bytes:
    """On the worker whose disk it is: what another one reads, which stands in the log of what this one sent."""
    began = time.time()
    data: bytes = await offload(read_here, pieces)
    ended = time.time()
    entry = dict(start=began, stop=ended, middle=(began + ended) / 2, duration=ended - began, who=reader,
                 keys={piece_key(pieces[0]): len(data)}, total=len(data), compressed=len(data), bandwidth=None)
    dask_worker.transfer_outgoing_log.append(entry)
    return data


def piece_key(piece: Piece) -> str:
    """What the senders' logs call a block of files."""
    return f"{piece[0]}@{piece[1]}"


def read_files(source: str, pieces: list[Piece]) -> bytes:
    """A block's bytes from the disk of a worker, of this one or another."""
    worker = get_worker()
    if worker.address == source:
        return read_here(pieces)
    words = cloudpickle.dumps(serve_pieces), cloudpickle.dumps((worker.address, pieces))

    async def asked() -> Any:
        return await worker.rpc(source).run(function=words[0], args=words[1])

    answer = sync(worker.loop, asked)
    if answer["status"] != "OK":
        raise OSError(f"{source}: {clean_exception(**answer)[1]}")
    return bytes(answer["result"])


# ---- what was sent ----


class Sent(NamedTuple):
    """A key, or a block of files, that a worker sent to another."""

    key: str
    sender: str
    receiver: str
    bytes: int


def sent(client: Client) -> list[Sent]:
    """What live workers sent one another so far, by their own logs."""

    def logged(dask_worker: Any) -> list[tuple[str, dict[str, int]]]:
        return [(it["who"], dict(it["keys"])) for it in dask_worker.transfer_outgoing_log]

    return [
        Sent(key, sender, receiver, size)
        for sender, log in client.run(logged).items()
        for receiver, keys in log
        for key, size in keys.items()
    ]

"""A user's own tasks, each placed by a plan: delayed objects, or one function over many items."""
from __future__ import annotations

from operator import index
from typing import Any, Callable, Iterable, Optional, Sequence, Union

import cloudpickle
from dask.core import quote
from dask.delayed import Delayed, delayed
from dask.local import get_sync
from dask.optimization import cull
from distributed import Client, Future, futures_of
from distributed.utils_comm import unpack_remotedata

from .blocks import Splits
from .calls import Call, Look, finish, free, named, sizes
from .placing import GRACE, Placing
from .planner import Planner, planner_of
from .topology import Racks

# The nodes of each task, or its one node; a worker's name may be a number.
Nodes = Sequence[Union[str, int, Iterable[Union[str, int]]]]


class Task:
    """A call that may run on any worker, with the keys that Dask brings to it."""

    def __init__(self, function: Callable[..., Any], arguments: Sequence[Any], futures: Sequence[Future]) -> None:
        self.function, self.arguments, self.futures = function, [*arguments], [*futures]
        self.keys = [it.key for it in futures]


class Tasks(Splits):
    """Tasks whose inputs lie on nodes that are named, or else where the keys lie that they take."""

    def __init__(
        self, client: Client, tasks: Sequence[Task], holders: Optional[Nodes], carried: Optional[Sequence[int]]
    ) -> None:
        super().__init__()
        for noun, given in (("holders", holders), ("bytes", carried)):
            if given is not None and len(given) != len(tasks):
                raise ValueError(f"{len(tasks)} tasks, and {len(given)} {noun}")
        if holders is None or carried is None:
            finish(client, [future for task in tasks for future in task.futures])
        known = sizes(client, [key for task in tasks for key in task.keys])
        self.sizes = {key: size for key, (size, _) in known.items()}
        self.tasks = {f"task-{number}": task for number, task in enumerate(tasks)}
        self.has_nodes = holders is not None
        self.nodes.update(zip(self.tasks, map(named, holders or ())))
        for number, (split, task) in enumerate(self.tasks.items()):
            # (where nothing tells of bytes, all tasks have as many)
            size = sum(self.sizes.get(it, 0) for it in task.keys) or 1 if carried is None else index(carried[number])
            if size < 0:
                raise ValueError(f"{split} has {size} bytes")
            self.bytes[split] = size

    def keys(self, splits: Iterable[str]) -> list[str]:
        return [] if self.has_nodes else [key for split in splits for key in self.tasks[split].keys]

    def holders(self, split: str, look: Look) -> list[str]:
        """Who has the most bytes of what a task takes; where it takes nothing, any worker will do."""
        if self.is_gone(split):
            return []
        if self.has_nodes:
            return look.at(self.nodes[split])
        held: dict[str, int] = {}
        for key in self.tasks[split].keys:
            for worker in look.holders.get(key, ()):
                held[worker] = held.get(worker, 0) + self.sizes.get(key, 0)
        most = max(held.values(), default=0)
        return [worker for worker, size in held.items() if size == most] or look.everyone

    def is_gone(self, split: str) -> bool:
        """Whether Dask gave up what a task takes."""
        return any(it.status in ("cancelled", "lost") for it in self.tasks[split].futures)

    def call(self, split: str, worker: str, source: str) -> Call:
        return Call(worker, self.tasks[split].function, self.tasks[split].arguments)


def make_task() -> Callable[..., Any]:
    """What makes a delayed object, with all that it stands on but keys of the cluster, as a task."""

    def made(recipe: bytes, *values: Any) -> Any:
        graph, key, names = cloudpickle.loads(recipe)
        # (a value is given by a call, since Dask would take some values for tasks)
        given = {name: (values.__getitem__, number) for number, name in enumerate(names)}
        return get_sync({**graph, **given}, key)

    return made


def task_of(make: Callable[..., Any], task: Delayed) -> Task:
    """A delayed object as one call of what makes it, which takes the futures that are in it."""
    if not isinstance(task, Delayed):
        raise TypeError(f"{task!r} is no delayed object; of a future on the cluster, give delayed(function)(future)")
    whole = dict(task.__dask_graph__())
    if task.key not in whole:  # (newer versions of Dask optimize away what was persisted)
        raise ValueError(f"{task!r} is not in its graph; of what was persisted, give to_delayed(optimize_graph=False)")
    needed = cull(whole, [task.key])[0]
    futures = [*dict.fromkeys(futures_of([*needed.values()]))]
    graph, _ = unpack_remotedata(needed)
    recipe = cloudpickle.dumps((graph, task.key, [it.key for it in futures]))
    return Task(make, [recipe, *futures], futures)


def placed(
    client: Client, tasks: Iterable[Task], holders: Optional[Nodes], carried: Optional[Sequence[int]], racks: Racks,
    planner: Optional[Planner], grace: float, ahead: bool, backup: Optional[float],
) -> list[Future]:
    """The futures of tasks, done, which Dask may make again elsewhere."""
    planner = planner or planner_of()  # (where there is none, nothing is waited for)
    splits = Tasks(client, [*tasks], holders, carried)
    futures = Placing(client, splits, racks, planner, grace, ahead=ahead, backup=backup).run()
    free(client, [it.key for it in futures])
    return futures


def place(
    client: Client,
    tasks: Sequence[Delayed],
    holders: Optional[Nodes] = None,
    bytes: Optional[Sequence[int]] = None,
    racks: Racks = None,
    planner: Optional[Planner] = None,
    grace: float = GRACE,
    ahead: bool = False,
    backup: Optional[float] = None,
) -> list[Future]:
    """Runs delayed objects, each on the worker where a plan puts it, and returns their futures, which are done.

    `holders[i]` names the workers, by names, hosts or addresses, on which the input of `tasks[i]` lies, and `bytes[i]`
    is what is carried where it runs elsewhere. Without them these are the workers that hold the futures in it, and
    their bytes, once all of these are done; then Dask brings a future to whoever lacks it. All that a delayed object
    stands on runs with it.

    `racks` is a table `{name or host: rack}`, or of pairs (rack, data centre), or a function of a worker's name. With
    `ahead` the tasks that wait are planned onto queues, over more than the free slots. With `backup` a task that has
    run for so many times the mean of those done is started on a second worker too, once none waits.

    Raises NoPlanner before anything is started, LostBlock where no holder lives nor returns within `grace` seconds,
    DeadlySplit where workers die at a task, and what a task raises on each of its tries.
    """
    make = make_task()
    return placed(client, (task_of(make, it) for it in tasks), holders, bytes, racks, planner, grace, ahead, backup)


def place_map(
    client: Client,
    function: Callable[[Any], Any],
    items: Sequence[Any],
    holders: Optional[Nodes] = None,
    bytes: Optional[Sequence[int]] = None,
    racks: Racks = None,
    planner: Optional[Planner] = None,
    grace: float = GRACE,
    ahead: bool = False,
    backup: Optional[float] = None,
) -> list[Future]:
    """`client.map(function, items)`, each call on the worker where a plan puts it; the futures are done. Items may be
    futures, or lists and dicts of them. The rest is as `place` has it."""
    make, delayed_function = make_task(), delayed(function, pure=False)

    def task(item: Any) -> Task:
        if isinstance(item, Future):
            return Task(function, [item], [item])
        # (Dask would take some values for tasks, and finds not all futures in them)
        return task_of(make, delayed_function(item)) if futures_of([item]) else Task(function, [quote(item)], [])

    return placed(client, map(task, items), holders, bytes, racks, planner, grace, ahead, backup)

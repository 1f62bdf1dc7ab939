"""A user's own tasks, placed: delayed objects, maps over futures and over nodes; and racks, and planners that lack."""
from __future__ import annotations

import contextlib
import io
import re
import shutil
import subprocess
import sys
import tempfile
import threading
import warnings
from pathlib import Path
from types import SimpleNamespace
from typing import Any

from trial import NAMES, PARTS, ROOT, Count, Gate, Trial, place_of, wait_at  # (which finds the packages)

import cloudpickle
from dask import bag, delayed
from distributed import get_worker
from mrjob_dask import Files, GuessedRacks, Job, Keys, LostBlock, Place, Placing, Unfit, Work, place, place_map
from mrjob_dask.calls import Look, Seen, named
from mrjob_dask.place import Task, Tasks, make_task, task_of
from mrjob_dask.topology import Topology

from words import index_lines, map_words, reduce_words

cloudpickle.register_pickle_by_value(sys.modules[__name__])
INDEX = str(Path(__file__).resolve().with_name("index.py"))


def here(*_: Any) -> str:
    """The name of the worker on which it is called."""
    return str(get_worker().name)


def racks(count: Count) -> None:
    """Where racks come from, and what is said where they are guessed."""
    table = Topology({"w0": "a", "10.0.1.2": ("b", "centre"), "r9.w1": "c"})
    names = {"tcp://10.0.1.1:1": "w0", "tcp://10.0.1.2:1": "tcp://10.0.1.2:1", "tcp://[fe80::1]:1": "r9.w1",
             "tcp://10.0.9.9:1": "r0.w0"}
    with warnings.catch_warnings(record=True) as said:
        warnings.simplefilter("always")
        found = [*table.places(names).values()]
        wanted = [Place("a"), Place("b", "centre"), Place("c"), Place("r0")]
        count.holds("racks are those of a table, by names or hosts, or of names", found == wanted and not said, found)
        bare = {"tcp://10.0.1.1:1": "tcp://10.0.1.1:1", "tcp://10.0.1.7:1": "0", "tcp://10.0.2.1:1": "10.0.2.1",
                "tcp://[fe80::1]:1": "1", "tcp://node7:1": "node7"}
        found = [it.rack for it in Topology().places(bare).values()]
        wanted = ["10.0.1.0/24", "10.0.1.0/24", "10.0.2.0/24", "fe80::/64", "default"]
        count.holds("else they are guessed from the networks of hosts", found == wanted, found)
        told = [it.category is GuessedRacks and "5 workers were guessed" in str(it.message) for it in said]
        count.holds("and it is said so, once", told == [True], [str(it.message) for it in said])
    given = Topology(lambda name: Place(name[:1], "c")).places({"tcp://10.0.1.1:1": "x9"})
    count.holds("a function gives them too", [*given.values()] == [Place("x", "c")], given)
    numbered = {"tcp://10.0.1.1:1": "0", "tcp://10.0.1.1:2": "1"}
    found = [*Topology({0: 7, 1: ["b", "c"]}).places(numbered).values()]
    count.holds("numbers are names and racks too", found == [Place("7"), Place("b", "c")], found)
    at = Look({address: Seen(name, 1, 1, 0) for address, name in numbered.items()}, [], {}).at
    found = [at(named(nodes)) for nodes in (1, [0, "1"], "tcp://10.0.1.1:1", "10.0.1.1", ["2"])]
    first, second = numbered
    wanted = [[second], [first, second], [first], [first, second], []]
    count.holds("nodes are named by numbers, names, addresses and hosts", found == wanted, found)
    try:
        said = str(Topology({"w": ("a", "b", "c")}).places({"tcp://10.0.1.1:1": "w"}))
    except Unfit as why:
        said = str(why)
    count.holds("what is no rack is told", "is neither a rack nor" in said, said)


def planners(count: Count) -> None:
    """A planner that is not there is told before anything is done, even a cluster looked for."""
    for words in ("/nowhere/mrjob plan", "library"):
        asked = [sys.executable, INDEX, "--scheduler", "tcp://127.0.0.1:1", "--planner", words, "/nowhere"]
        ran = subprocess.run(asked, capture_output=True, text=True, env={"MRJOB_LIBRARY": "/nowhere/libmrjob.so"})
        is_so = ran.returncode == 2 and "`make quick` builds bin/mrjob" in ran.stderr and "/nowhere" in ran.stderr
        count.holds(f"without the planner `{words}` nothing begins", is_so, ran.returncode, ran.stderr)
    calls = ("place(None, [])", "place_map(None, int, '12')", "Job(None, Blocks(), Work(int, int, 1))")
    with tempfile.TemporaryDirectory() as room:  # (where no program lies beside the package)
        shutil.copytree(ROOT / "python", f"{room}/python")
        env = {"MRJOB_LIBRARY": "/nowhere/libmrjob.so", "PYTHONPATH": f"{room}/python", "PATH": room}
        for call in calls:
            asked = [sys.executable, "-c", f"from mrjob_dask import *\n{call}"]
            ran = subprocess.run(asked, capture_output=True, text=True, env=env, cwd=room)
            is_so = ran.stderr.splitlines()[-1].startswith("mrjob_dask.planner.NoPlanner: ")
            count.holds(f"without a planner nothing begins: {call}", is_so, ran.stderr)


def delayed_objects(trial: Trial, count: Count) -> None:
    """Delayed objects run where their input is said to lie, or where the futures in them are."""
    client, address = trial.here.client, trial.here.addresses()
    how = {"racks": place_of, "planner": trial.planner}
    trial.rest()
    for says, sizes in (("", [7] * len(NAMES)), (", of no known bytes", None)):
        tasks = [delayed(here)(number) for number in range(len(NAMES))]
        names = client.gather(place(client, tasks, NAMES, sizes, **how))
        count.holds(f"place: each task{says} runs on its holder", names == NAMES, names)
        trial.rest()
    trial.rest()
    inputs = [client.scatter([it], workers=[address[name]])[0] for it, name in enumerate(NAMES)]
    add = delayed(lambda a, b, c: (a + b + c, here()))
    futures = place(client, [add(it, delayed(int)("7"), c=10) for it in inputs], **how)
    values = client.gather(futures)
    count.holds("place: else where its futures are", values == [(17 + at, it) for at, it in enumerate(NAMES)],
                values)
    more = delayed(lambda it: it + 1)
    shared = more(inputs[0])
    values = client.gather(place(client, [more(shared), delayed({"a": shared, "b": [more(shared), 5]})], **how))
    count.holds("place: and with all that it stands on", values == [2, {"a": 1, "b": [2, 5]}], values)
    trial.rest()
    futures = place_map(client, lambda it: (2 * it, here()), inputs, **how)
    values = client.gather(futures)
    count.holds("place_map: so do calls over futures", values == [(2 * at, it) for at, it in enumerate(NAMES)], values)
    items = [*range(40), (len, "what Dask would call"), [(len, "and here")], {"a": NAMES}]
    values = client.gather(place_map(client, lambda it: [it], items, **how))
    count.holds("place_map: calls over values run anywhere", values == [[it] for it in items], values)


def how_to(trial: Trial, count: Count) -> None:
    """The lines with which README begins, over workers and a count of this cluster."""
    (lines,) = re.findall(r"```py\n(.*?)```", (ROOT / "python/mrjob_dask/README.md").read_text(), re.S)
    address = trial.here.client.scheduler.address
    for there, it in zip(("tcp://10.0.0.1:8786", "node1", "node2", "node3"), (address, *NAMES)):
        lines = lines.replace(f'"{there}"', f'"{it}"')
    holders = {"/data/a": NAMES[:2], "/data/b": NAMES[1:3]}
    names, said = {"count_words": lambda path: here() in holders[path]}, io.StringIO()
    trial.rest()
    with contextlib.redirect_stdout(said):
        exec(lines, names)
    names["client"].close()
    count.holds("the lines of README place each task on a holder", said.getvalue() == "2\n", said.getvalue())


def unfinished(trial: Trial, count: Count) -> None:
    """Inputs that are being made: where they lie is known once they are done."""
    client, address = trial.here.client, trial.here.addresses()
    trial.rest()
    with trial.room() as room:

        def made(name: str) -> list[str]:
            wait_at(room)
            return [name]

        inputs = [client.submit(made, name, workers=[address[name]], pure=False) for name in NAMES]
        threading.Timer(0.2, Gate(room).open).start()
        items = [{"in": [it]} for it in inputs]
        futures = place_map(client, lambda it: (*it["in"][0], here()), items, None, None, place_of, trial.planner)
    values = client.gather(futures)
    wanted = [(name, name) for name in NAMES]
    count.holds("place_map: of futures in lists and dicts, and not yet done, too", values == wanted, values)


def parts_of_bags(trial: Trial, count: Count) -> None:
    """Of a bag that is kept on the cluster each part takes itself alone."""
    client = trial.here.client
    parts = client.persist(bag.from_sequence(range(6), npartitions=6).map(str)).to_delayed(optimize_graph=False)
    add = delayed(lambda part, more: part + more)
    tasks = [add(part, ["more"]) for part in parts]
    keys = [task_of(make_task(), it).keys for it in tasks]
    count.holds("place: a part of a bag takes itself alone", keys == [[it.key] for it in parts], keys)
    values = client.gather(place(client, tasks, racks=place_of, planner=trial.planner))
    count.holds("place: parts of bags are placed", values == [[str(it), "more"] for it in range(6)], values)


def after_a_death(trial: Trial, count: Count) -> None:
    """What was placed is made again elsewhere, should its worker die once all are done."""
    client = trial.here.client
    trial.rest()
    futures = place_map(client, lambda it: it + 1, range(6), [[it] for it in NAMES], None, place_of, trial.planner)
    trial.here.kill(NAMES[2])
    values = client.gather(futures)
    count.holds("place: what a dead worker had is made again", values == [*range(1, 7)], values)
    trial.here.revive(NAMES)


def lost_input(trial: Trial, count: Count) -> None:
    """The worker dies that holds what tasks take, which Dask cannot make again."""
    client, killed, said = trial.here.client, [], ""
    trial.rest()
    at = trial.here.addresses()[NAMES[0]]
    inputs = client.scatter([[it] for it in range(12)], workers=[at], hash=False)

    def step(placing: Placing) -> None:
        if not killed:
            killed.append(at)
            trial.here.kill(NAMES[0])

    tasks = Tasks(client, [Task(len, [it], [it]) for it in inputs], None, None)
    try:
        Placing(client, tasks, place_of, trial.planner, 1e9, step).run()
    except LostBlock as why:
        said = str(why)
    count.holds("place: an input that is lost for good ends it at once", "has no living holder" in said, said)
    trial.here.revive(NAMES)


def refusals(trial: Trial, count: Count) -> None:
    """What a call raises is raised, and what does not fit is told."""
    client, said = trial.here.client, []
    future = client.submit(int, 3)
    calls = [
        lambda: place_map(client, lambda it: 1 // it, [1, 0], None, None, place_of, trial.planner),
        lambda: place_map(client, int, ["1", "2"], [["nobody"], NAMES], None, place_of, trial.planner, grace=0),
        lambda: place(client, [delayed(int)("1")], [[], []]),
        lambda: place(client, [delayed(int)("1")], [[]], [-7]),
        lambda: place(client, [delayed(int)(client.submit(int, "of a future"))]),
        lambda: place(client, [future]),
        lambda: place(client, [delayed(int)("1")], [[]], [1.5]),
        lambda: place(SimpleNamespace(asynchronous=True), [delayed(int)("1")]),
    ]
    kinds = (ZeroDivisionError, LostBlock, ValueError, ValueError, ValueError, TypeError, TypeError, TypeError)
    for call, kind in zip(calls, kinds):
        try:
            said.append((kind, call()))
        except kind as why:
            said.append(str(why))
    wanted = ["integer division or modulo by zero", "task-0 has no living holder: nobody is no worker's name or host",
              "1 tasks, and 2 holders", "task-0 has -7 bytes"]
    is_so = said[:4] == wanted and "of a future" in said[4] and "give delayed(function)(future)" in said[5]
    is_so = is_so and "integer" in said[6] and "asynchronous" in said[7]
    count.holds("place: what a task raises, and what does not fit, is raised", is_so, said)


def user_blocks(trial: Trial, count: Count) -> None:
    """Jobs over futures that exist, and over files by a table of the paths on each node."""
    client, work = trial.here.client, Work(map_words, reduce_words, PARTS)
    trial.rest()
    futures = client.scatter([data for data, _ in trial.cut], hash=False)
    given = dict(zip((it.key for it in futures), (pieces for _, pieces in trial.cut)))
    blocks = Keys(client, futures)
    blocks.pieces = given
    lines = index_lines(Job(client, blocks, work, place_of, trial.planner).run())
    count.holds("Keys: the index over futures is that of the reference", lines == trial.wanted)
    paths: dict[str, list[str]] = {}
    for number, (name, text) in enumerate(trial.documents):
        for node in (NAMES[number % 6], NAMES[(number + 1) % 6]):
            (trial.here.disk(node) / f"whole-{name}").write_bytes(text)
            paths.setdefault(node, []).append(f"whole-{name}")
    trial.rest()
    files = Files(client, paths)
    sizes = [files.bytes[f"whole-{name}@0"] == len(text) for name, text in trial.documents]
    job = Job(client, files, work, place_of, trial.planner)
    lines = [it.replace(" whole-", " ") for it in index_lines(job.run())]
    count.holds("Files: by a table of nodes and paths, with the bytes that workers tell", all(sizes), sizes)
    count.holds("Files: the index is that of the reference", lines == trial.wanted)


def placed(trial: Trial, count: Count) -> None:
    """All that need a cluster."""
    delayed_objects(trial, count)
    how_to(trial, count)
    unfinished(trial, count)
    parts_of_bags(trial, count)
    after_a_death(trial, count)
    lost_input(trial, count)
    refusals(trial, count)
    user_blocks(trial, count)

"""What a cluster does to a job, and a job to a cluster: workers that pause, die or return, replicas that are dropped,
jobs side by side, clients that are killed. Nothing depends on time: each test waits for what it speaks of.
"""
from __future__ import annotations

import os
import signal
import subprocess
import sys
import threading
from collections import Counter
from pathlib import Path
from typing import Any

from trial import NAMES, PARTS, ROOT, Count, Gate, Trial, Watched, judged, place_of  # (which finds the packages)

from distributed import Client, Status
from mrjob_dask import DeadlySplit, Job, Keys, Placing, Planner, Work
from mrjob_dask.calls import Copy, bring, look
from mrjob_dask.masters import Attempt
from mrjob_dask.place import Task, Tasks

from cluster import Cluster, until
from words import index_lines, map_words, reduce_words

HELD = str(Path(__file__).resolve().with_name("held_client.py"))


def set_worker(trial: Trial, name: str, status: Status, sends: int) -> str:
    """Sets a worker's status, and how many transfers it thinks it makes; its address, once the scheduler knows."""
    client, address = trial.here.client, trial.here.addresses()[name]

    def set_to(dask_worker: Any) -> None:
        dask_worker.status = status
        dask_worker.transfer_outgoing_count = sends

    client.run(set_to, workers=[address])
    until(lambda: (look(client).workers[address].threads > 0) == (status == Status.running), f"{name} is {status}")
    return address


def begun(trial: Trial, attempt: Attempt) -> None:
    """Waits until the call of an attempt runs, or is done: a paused worker would not begin it."""
    runs = lambda dask_worker: dask_worker.state.executing_count > 0
    has_begun = lambda: attempt.future.done() or trial.here.client.run(runs, workers=[attempt.worker])[attempt.worker]
    until(has_begun, f"{attempt.split} runs")


def paused(trial: Trial, count: Count, sort: str) -> None:
    """A worker is paused while its map runs, and stays so: it is alive, and gets no more."""
    blocks, at = getattr(trial, sort)(), []
    with trial.room() as room:
        gate = Gate(room)

        def step(job: Watched) -> None:
            if not at:
                begun(trial, job.attempts[0])
                at.append(set_worker(trial, job.names[job.attempts[0].worker], Status.paused, 0))
            elif len(job.waves) > 1:
                gate.open()

        job = trial.job(blocks, gate, {pieces[0] for pieces in [*blocks.pieces.values()][:3]}, step)
        job.grace = 1e9
        lines = index_lines(job.run())
    set_worker(trial, job.names[at[0]], Status.running, 0)
    says = f"{sort}{trial.how()}, a paused worker"
    count.holds(f"{says}: the index is that of the reference", lines == trial.wanted)
    kinds = {*job.told()} & {"die", "join", "withdraw", "fail"}
    count.holds(f"{says}: nothing is lost, and each block starts once",
                not kinds and len(job.attempts) == len(blocks.pieces), kinds)
    free = {wave.slots.get(at[0], 0) for wave in job.waves[1:]}
    count.holds(f"{says}: no wave has slots on it", free == {0}, free)
    judged(job, count, says)


def busy(trial: Trial, count: Count) -> None:
    """The one holder of blocks is paused and busy: their maps wait for it elsewhere, and do not fail."""
    blocks, name = trial.keys(replicas=1), NAMES[0]
    at = set_worker(trial, name, Status.paused, 9)

    def step(job: Watched) -> None:
        if any(it.source == at != it.worker for it in job.attempts):
            set_worker(trial, name, Status.paused, 0)

    with trial.room() as room:
        job = trial.job(blocks, Gate(room), set(), step)
        lines = index_lines(job.run())
    set_worker(trial, name, Status.running, 0)
    count.holds("a busy sender: the index is that of the reference", lines == trial.wanted)
    ends = {it.end for it in job.attempts}
    read = sum(it.source == at != it.worker for it in job.attempts)
    count.holds("a busy sender: maps wait for it, and none fails", ends == {"done"} and read > 0, ends, read)


def replicas(trial: Trial, count: Count) -> None:
    """The cluster's active memory manager drops replicas of others, and none of blocks, laid or entered."""
    client, address = trial.here.client, [*trial.here.addresses().values()]
    client.amm.stop()
    others = client.scatter([f"of others {it}" for it in range(5)], workers=address[:1])
    users = client.scatter([f"of a user {it}" for it in range(5)], workers=address[:1])
    for futures in (others, users):
        bring(client, [Copy(it.key, address[0], to) for it in futures for to in address[1:3]])
    laid = Keys(client)
    laid.put(f"laid-{client.id}", b"of a job", [("laid", 0, 8)], address[:3])
    laid.lay()
    kept = [trial.keys(), Keys(client, users), laid]
    client.amm.start()
    held = lambda keys: [len(it) for it in look(client, keys=keys).holders.values()]
    client.amm.run_once()
    until(lambda: held([it.key for it in others]) == [1] * 5, "replicas of others are dropped")
    client.amm.run_once()
    numbers = [held(blocks.keys(blocks.pieces)) for blocks in kept]
    count.holds("replicas are kept, whatever the memory manager does", all(min(it) >= 3 for it in numbers), numbers)
    count.holds("the active memory manager goes on", client.amm.running())
    kept[1].close()
    until(lambda: held([it.key for it in users]) == [1] * 5 or client.amm.run_once(), "replicas are let go")
    count.holds("replicas are let go as a job ends", True)


def two_jobs(trial: Trial, count: Count) -> None:
    """Jobs of two clients at once: the first to end leaves the other its replicas."""
    here, mine, results = trial.here, trial.here.client, []
    with trial.room() as room, Client(scheduler_file=str(here.file), set_as_default=False) as other:
        gate, first_blocks, has_three = Gate(room), trial.keys(), threading.Event()
        here.client = other
        blocks = trial.keys()
        last = {pieces[0] for pieces in [*blocks.pieces.values()][-3:]}
        tell = lambda job: has_three.set() if len(job.ended("done")) == len(blocks.pieces) - 3 else None
        second = trial.job(blocks, gate, last, tell)
        here.client = mine
        first = trial.job(first_blocks, gate, set(), lambda job: None)
        thread = threading.Thread(target=lambda: results.append(index_lines(second.run())), daemon=True)
        thread.start()
        has_three.wait()  # (three maps wait, each on a worker of its own)
        until(lambda: sum(it.others for it in look(mine).workers.values()) == 3, "the scheduler knows of three maps")
        lines = index_lines(first.run())
        first_blocks.close()
        mine.amm.run_once()
        held = look(mine, keys=blocks.keys(blocks.pieces)).holders
        count.holds("two jobs: the one that goes on has its replicas", min(map(len, held.values())) >= 3, held)
        gate.open()
        thread.join()
        work = Work(map_words, reduce_words, PARTS)
        both = [Job(*it, work, place_of, trial.planner) for it in ((mine, first_blocks), (other, blocks))]
        threads = [threading.Thread(target=lambda job=job: results.append(index_lines(job.run()))) for job in both]
        for thread in threads:
            thread.start()
        for thread in threads:
            thread.join()
        count.holds("two jobs: each has the reference's index", [lines, *results] == [trial.wanted] * 4)


def state(client: Client) -> tuple[set, Any]:
    """The keys that a cluster has on its scheduler and on its workers; and what else a job could change."""

    def of_scheduler(dask_scheduler: Any) -> Any:
        amm = dask_scheduler.extensions["amm"]
        return {*dask_scheduler.tasks}, (
            sorted(dask_scheduler.plugins), sorted(dask_scheduler.worker_plugins), sorted(dask_scheduler.clients),
            amm.running, sorted(type(it).__name__ for it in amm.policies),
        )

    def of_worker(dask_worker: Any) -> Any:
        return {*dask_worker.data, *dask_worker.state.tasks}, sorted(dask_worker.plugins), sorted(dask_worker.extensions)

    (keys, of_cluster), workers = client.run_on_scheduler(of_scheduler), client.run(of_worker)
    return keys.union(*(its for its, *_ in workers.values())), (of_cluster, [it[1:] for it in workers.values()])


def killed_client(trial: Trial, count: Count, number: signal.Signals) -> None:
    """A client is killed while its maps run: the cluster is as it was."""
    trial.rest()
    client = trial.here.client
    before = state(client)
    # (who starts this in the background has SIGINT ignored, and a child would inherit that)
    heed = lambda: signal.signal(number, signal.SIG_DFL) if number != signal.SIGKILL else None
    with trial.room() as room:
        ran = subprocess.Popen([sys.executable, HELD, str(trial.here.file), room], stdin=subprocess.DEVNULL, cwd=ROOT,
                               stderr=subprocess.DEVNULL, preexec_fn=heed)
        until(lambda: (Path(room) / "maps-run").exists() or ran.poll() is not None, "its maps run")
        during = state(client)
        ran.send_signal(number)
        ran.wait()
        Gate(room).open()
        # (keys of tests before may go meanwhile)
        is_as_before = lambda now: now[0] <= before[0] and now[1] == before[1]
        until(lambda: is_as_before(state(client)), "the cluster is as it was")
    more = [it for it in during[0] - before[0] if it.startswith("mrjob-")]
    count.holds(f"a client that ends by {number.name} leaves the cluster as it was", more and during[1] != before[1],
                more, during[1], before[1])


def deadly(trial: Trial, count: Count, sort: str) -> None:
    """The map of one block kills its worker: the block is named after three."""
    blocks = getattr(trial, sort)()
    bad = [*blocks.pieces][5]
    first = blocks.pieces[bad][0]

    def mapped(data: Any, pieces: list, parts: int) -> list:
        if pieces[0] == first:
            os._exit(1)
        return map_words(data, pieces, parts)

    job, said = trial.job(blocks, Gate("/"), set(), lambda job: None), ""
    job.work, job.grace = Work(mapped, reduce_words, PARTS), 1e9
    try:
        job.run()
    except DeadlySplit as why:
        said = str(why)
    gone = [*dict.fromkeys(job.names[it.worker] for it in job.attempts if it.split == bad)]
    is_so = said.startswith(f"{bad} was running on {', '.join(gone)} as they died") and len(gone) == 3
    count.holds(f"{sort}, a map that kills its worker is named after three", is_so, said, gone)
    until(lambda: not {*gone} & {*trial.here.addresses()}, "they are gone")
    trial.here.revive(NAMES)


def returning(trial: Trial, count: Count, all_die: bool) -> None:
    """The only holder of files dies, or all workers do, and is started again on its disk: within the grace time the job
    goes on."""
    blocks, killed = trial.files(replicas=3 if all_die else 1), []
    with trial.room() as room:
        gate = Gate(room)

        def step(job: Watched) -> None:
            if not killed:
                holder = next(job.names[it.worker] for it in job.attempts if it.worker == it.source)
                killed.extend(NAMES if all_die else [holder])
                for name in killed:
                    trial.here.kill(name)
            elif job.bare_since and not {*killed} & {*trial.here.addresses()}:
                trial.here.revive(NAMES)
                gate.open()

        job = trial.job(blocks, gate, {pieces[0] for pieces in blocks.pieces.values()}, step)
        job.grace = 1e9
        lines = index_lines(job.run())
    kinds = [it for it in job.told() if it in ("die", "join")]
    says = "all workers return" if all_die else "a holder that returns"
    count.holds(f"{says}: the index is that of the reference", lines == trial.wanted)
    number = len(killed)
    is_so = kinds[:number] == ["die"] * number and kinds.count("join") == kinds.count("die") == number
    count.holds(f"{says}: blocks waited for it", is_so, kinds)


def restarted(trial: Trial, count: Count) -> None:
    """The only holder of files is killed, and its nanny starts it again: within the grace time the job goes on."""
    client, name, killed = trial.here.client, NAMES[0], []
    trial.here.kill(name)
    trial.here.add(name, "--nanny")
    until(lambda: name in trial.here.addresses(), f"{name} is there")
    blocks, first = trial.files(replicas=1), trial.here.addresses()[name]
    with trial.room() as room:
        gate = Gate(room)

        def step(job: Watched) -> None:
            if not killed:
                killed.append(client.run(os.getpid, workers=[first])[first])
                os.kill(killed[0], signal.SIGKILL)
            elif trial.here.addresses().get(name, first) != first:
                gate.open()

        job = trial.job(blocks, gate, {pieces[0] for pieces in blocks.pieces.values()}, step)
        job.grace = 1e9
        lines = index_lines(job.run())
    kinds = [it for it in job.told() if it in ("die", "join")]
    count.holds("a nanny restarts a holder: the index is that of the reference", lines == trial.wanted)
    count.holds("a nanny restarts a holder: blocks waited for it", kinds == ["die", "join"], kinds)
    trial.here.kill(name)
    trial.here.revive(NAMES)


def retired(trial: Trial, count: Count, sort: str) -> None:
    """A worker retires while its map runs."""
    client, blocks, names, threads = trial.here.client, getattr(trial, sort)(), [], []
    with trial.room() as room:
        gate = Gate(room)

        def step(job: Watched) -> None:
            if not names:
                names.append(job.names[job.attempts[0].worker])
                address = trial.here.addresses()[names[0]]
                threads.append(threading.Thread(target=client.retire_workers, args=[[address]], daemon=True))
                threads[0].start()
            elif names[0] not in trial.here.addresses():
                gate.open()

        job = trial.job(blocks, gate, {pieces[0] for pieces in [*blocks.pieces.values()][:3]}, step)
        lines = index_lines(job.run())
    threads[0].join()
    says = f"{sort}, a worker that retires"
    count.holds(f"{says}: the index is that of the reference", lines == trial.wanted)
    gone = [(job.names[it.worker], job.names[it.source]) for it in [*job.ended("lost"), *job.ended("failed")]]
    is_so = gone and all(names[0] in it for it in gone)
    count.holds(f"{says}: just its maps and its readers' are made again", is_so, gone, names)
    judged(job, count, says)
    trial.here.processes[names[0]].wait()
    trial.here.revive(NAMES)


def parts(trial: Trial, count: Count, more: int) -> None:
    """A map that gives too many or too few parts."""
    job, said = trial.job(trial.keys(), Gate("/"), set(), lambda job: None), ""
    job.work = Work(lambda data, pieces, parts: [b""] * (parts + more), reduce_words, PARTS)
    try:
        job.run()
    except ValueError as why:
        said = str(why)
    wanted = f"a map gave {PARTS + more} parts, and the job has {PARTS}"
    count.holds(f"a map that gives {PARTS + more} parts of {PARTS} is an error", said == wanted, said)


def two_deaths(trial: Trial, count: Count, sort: str) -> None:
    """Two workers of different racks die at once, while maps run."""
    blocks, killed = getattr(trial, sort)(), []
    with trial.room() as room:
        gate = Gate(room)

        def step(job: Watched) -> None:
            if not killed:
                killed.extend(["r0.w0", "r1.w0"])
                for name in killed:
                    trial.here.processes[name].kill()
                for name in killed:
                    trial.here.kill(name)
            elif not {*killed} & {job.names[it] for it in job.alive}:
                gate.open()

        job = trial.job(blocks, gate, {pieces[0] for pieces in blocks.pieces.values()}, step)
        lines = index_lines(job.run())
    count.holds(f"{sort}, two deaths: the index is that of the reference", lines == trial.wanted)
    gone = [*job.ended("lost"), *job.ended("failed")]
    is_so = len(gone) >= 2 and len(job.attempts) == len(blocks.pieces) + len(gone)
    count.holds(f"{sort}, two deaths: a start more for each map that was lost", is_so, gone)
    trial.here.revive(NAMES)


def joins(trial: Trial, count: Count, sort: str) -> None:
    """A worker of a new rack comes while maps run."""
    blocks, name, added = getattr(trial, sort)(), "r9.w0", []
    with trial.room() as room:
        gate = Gate(room)

        def step(job: Watched) -> None:
            if not added:
                added.append(name)
                trial.here.add(name)
                until(lambda: name in trial.here.addresses(), f"{name} is there")
            elif name in {job.names[it.worker] for it in job.attempts}:
                gate.open()

        job = trial.job(blocks, gate, {pieces[0] for pieces in blocks.pieces.values()}, step)
        lines = index_lines(job.run())
    says = f"{sort}{trial.how()}, a worker that comes"
    steps = {it.steps for it in job.attempts if job.names[it.worker] == name}
    count.holds(f"{says}: the index is that of the reference", lines == trial.wanted)
    count.holds(f"{says}: it maps blocks of other racks", 4 in steps <= {0, 4}, steps)
    judged(job, count, says)
    trial.here.kill(name)


def renewed(trial: Trial, count: Count, sort: str) -> None:
    """A session has told too much, while maps run and others are done: another one goes on."""
    blocks, first = getattr(trial, sort)(), []
    with trial.room() as room:
        gate = Gate(room)

        def step(job: Watched) -> None:
            if not first and len(job.ended("done")) > 9:
                first.append(job.master)
                job.master.is_worn = True
            elif first and job.master is not first[0]:
                gate.open()

        job = trial.job(blocks, gate, {pieces[0] for pieces in [*blocks.pieces.values()][-3:]}, step)
        lines = index_lines(job.run())
    count.holds(f"{sort}, a new session: the index is that of the reference", lines == trial.wanted)
    count.holds(f"{sort}, a new session: each block starts once", len(job.attempts) == len(blocks.pieces))
    judged(job, count, f"{sort}, a new session")


def many_parts(trial: Trial, count: Count) -> None:
    """A job has more parts than a session: a planner goes wave by wave."""
    with trial.room() as room:
        job = trial.job(trial.keys(), Gate(room), set(), lambda job: None)
        job.work = job.work._replace(parts=65)
        lines = index_lines(job.run())
    count.holds("65 parts: the index is that of the reference", lines == trial.wanted)
    count.holds("65 parts: no session decides", job.history() is None)


def spoilt(trial: Trial, count: Count, is_there: bool) -> None:
    """The files of a block are gone from all its holders' disks, or are too short: it fails on each, and that ends the
    job."""
    blocks = trial.files()
    bad = [*blocks.pieces][7]
    wanted, said = ("is shorter than its block" if is_there else "No such file"), ""
    for node in blocks.nodes[bad]:
        path = trial.here.disk(node) / blocks.pieces[bad][0][0]
        path.unlink()
        if is_there:
            path.touch()
    job = trial.job(blocks, Gate("/"), set(), lambda job: None)
    try:
        job.run()
    except (OSError, EOFError) as why:
        said = str(why)
    again = Counter((it.split, it.worker) for it in job.attempts).most_common(1)[0][1]
    failed = Counter(it.split for it in job.ended("failed")).most_common(1)[0][1]
    says = "short on all disks" if is_there else "gone from all disks"
    is_so = wanted in said and (again, failed) == (1, 4)
    count.holds(f"a block that is {says} ends the job after four tries", is_so, said, again, failed)


def halted(trial: Trial, count: Count, sort: str) -> None:
    """A worker is stopped while its map runs, and goes on after some turns: it is not taken for dead."""
    blocks, names, turns = getattr(trial, sort)(), [], []
    with trial.room() as room:
        gate = Gate(room)

        def step(job: Watched) -> None:
            turns.append(len(job.attempts))
            if not names:
                names.append(job.names[job.attempts[0].worker])
                trial.here.processes[names[0]].send_signal(signal.SIGSTOP)
            elif len(turns) == 4:
                trial.here.processes[names[0]].send_signal(signal.SIGCONT)
                gate.open()

        job = trial.job(blocks, gate, {pieces[0] for pieces in [*blocks.pieces.values()][:3]}, step)
        lines = index_lines(job.run())
    count.holds(f"{sort}, a worker that is stopped for a while: the index is that of the reference",
                lines == trial.wanted)
    kinds = {*job.told()} & {"die", "join", "withdraw"}
    count.holds(f"{sort}, a worker that is stopped for a while: it is not taken for dead", not kinds, kinds)


def without_scheduler(planner: Planner, count: Count) -> None:
    """The scheduler is killed while tasks run: the job ends by an error, and does not go on for ever."""
    said: Any = None
    with Cluster(1, 2) as here:
        client = here.client
        client._timeout = client.rpc.timeout = 1  # (seconds for which Dask tries to connect again)

        def step(placing: Placing) -> None:
            here.processes["scheduler"].kill()
            here.processes["scheduler"].wait()

        tasks = Tasks(client, [Task(lambda it: it, [it], []) for it in range(40)], None, None)
        try:
            Placing(client, tasks, place_of, planner, step=step).run()
        except Exception as why:
            said = why
    count.holds("a scheduler that is killed: an OSError ends the job", isinstance(said, OSError), repr(said))


def faults(trial: Trial, count: Count) -> None:
    """All of them."""
    for sort in ("files", "keys"):
        paused(trial, count, sort)
        two_deaths(trial, count, sort)
        joins(trial, count, sort)
        halted(trial, count, sort)
        renewed(trial, count, sort)
    many_parts(trial, count)
    for is_there in (True, False):
        spoilt(trial, count, is_there)
    busy(trial, count)
    replicas(trial, count)
    two_jobs(trial, count)
    for number in (signal.SIGINT, signal.SIGTERM, signal.SIGKILL):
        killed_client(trial, count, number)
    for more in (1, -1):
        parts(trial, count, more)
    for all_die in (False, True):
        returning(trial, count, all_die)
    restarted(trial, count)
    for sort in ("keys", "files"):
        retired(trial, count, sort)
        deadly(trial, count, sort)

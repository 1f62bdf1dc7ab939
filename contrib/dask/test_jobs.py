"""Jobs on a cluster of this machine, in which workers die, maps fail and others' tasks run: what must hold, by counts.

Nothing depends on time: where something has to happen while a task runs, the task waits for a file.
"""
from __future__ import annotations

from collections import Counter
from typing import Callable

from trial import NAMES, Count, Gate, Trial, Watched, judged, place_of  # (which finds the packages)

from mrjob_dask import Blocks, Files, LostBlock, Planner, Row
from mrjob_dask.calls import look, piece_key, sent
from mrjob_dask.planner import distance

from cluster import Cluster, until
from test_ahead import Kept, backups, stopped
from test_faults import faults, joins, paused
from test_place import placed
from words import index_lines


def carried(trial: Trial, blocks: Blocks) -> Counter:
    """The blocks that workers sent one another so far, by the senders' own logs: (block, sender, receiver, bytes)."""
    keys = {piece_key(pieces[0]) for pieces in blocks.pieces.values()} | {*blocks.pieces}
    return Counter(it for it in sent(trial.here.client) if it.key in keys)


def within_slots(job: Watched) -> bool:
    return all(
        number <= it.slots[worker] <= 1
        for it in job.waves for worker, number in Counter(attempt.worker for attempt in it.attempts).items()
    )


def undisturbed(trial: Trial, count: Count, sort: str) -> None:
    """Nobody dies: what was carried is what was planned."""
    blocks = getattr(trial, sort)()
    with trial.room() as room:
        before = carried(trial, blocks)
        job = trial.job(blocks, Gate(room), set(), lambda job: None)
        lines = index_lines(job.run())
    places = {address: place_of(name) for name, address in trial.here.addresses().items()}
    steps = sum(size * distance(places, a, b) for _, a, b, size in (carried(trial, blocks) - before).elements())
    planned = sum(it.cost for it in job.waves)
    sort += trial.how()
    count.holds(f"{sort}: the index is that of the reference", lines == trial.wanted)
    count.holds(f"{sort}: what was carried, by distance, is what was planned", steps == planned > 0, steps, planned)
    count.holds(f"{sort}: each block starts once", len(job.attempts) == len(blocks.pieces) == len(job.ended("done")))
    count.holds(f"{sort}: no wave starts more on a worker than it has slots", within_slots(job))
    judged(job, count, sort)


def killer(trial: Trial, gate: Gate, is_time: Callable[[Watched], str], killed: list) -> Callable[[Watched], None]:
    """A step that kills the worker that `is_time` names, once, and notes how many maps it had. The gate is opened when
    the job knows of the death."""

    def step(job: Watched) -> None:
        name = "" if killed else is_time(job)
        if name:
            killed.extend([name, sum(job.names[it.worker] == name for it in job.maps.values())])
            trial.here.kill(name)
        elif killed and killed[0] not in {job.names[it] for it in job.alive}:
            gate.open()

    return step


def first_started(job: Watched) -> str:
    return job.names[job.attempts[0].worker] if job.attempts else ""


def first_at_home(job: Watched) -> str:
    """Whoever runs a map of a block that it holds."""
    return next((job.names[it.worker] for it in job.attempts if it.worker == it.source), "")


def most_done(job: Watched) -> str:
    """Whoever has the most done maps, once there are twelve."""
    done = Counter(it.worker for it in job.maps.values() if it.future.status == "finished")
    return job.names[done.most_common(1)[0][0]] if done.total() >= 12 else ""


def with_result(job: Watched) -> str:
    """Whoever has a done map, once a part is done."""
    return job.names[next(iter(job.maps.values())).worker] if job.results else ""


DEATHS = {"a running map": first_started, "a done map": most_done, "reduces": with_result}


def death(trial: Trial, count: Count, sort: str, when: str) -> None:
    """A worker dies: what it had is made again, and nothing else."""
    blocks = getattr(trial, sort)()
    firsts = [pieces[0] for pieces in blocks.pieces.values()]
    closed = {"a running map": {*firsts}, "a done map": {*firsts[-3:]}, "reduces": set()}[when]
    killed: list = []
    with trial.room() as room:
        gate = Gate(room)
        step = killer(trial, gate, DEATHS[when], killed)
        job = trial.job(blocks, gate, closed, step, when == "reduces")
        lines = index_lines(job.run())
    seen = look(trial.here.client, keys=blocks.keys(blocks.pieces))
    says = f"{sort}{trial.how()}, a death at {when}"
    count.holds(f"{says}: the index is that of the reference", lines == trial.wanted)
    gone = [*job.ended("lost"), *job.ended("failed")]
    own = [it for it in gone if job.names[it.worker] == killed[0]]
    reads = [it for it in gone if job.names[it.source] == killed[0] and it not in own]
    is_so = len(own) == killed[1] > 0 and len(gone) == len(own + reads)
    count.holds(f"{says}: just its maps and its readers' are lost", is_so, killed, gone)
    count.holds(f"{says}: a start more for each", len(job.attempts) == len(blocks.pieces) + len(gone))
    count.holds(f"{says}: no wave starts more on a worker than it has slots", within_slots(job))
    count.holds(f"{says}: no part that was done is started again", not any(a & b for a, b in job.seen_rounds))
    if when != "reduces":
        judged(job, count, says)
    if when == "reduces":
        count.holds(f"{says}: there was such a part", any(a for a, _ in job.seen_rounds))
    if sort == "keys":
        held = [len(blocks.holders(it, seen)) for it in blocks.pieces]
        count.holds(f"{says}: each block has three holders again", min(held) >= 3, held)
    trial.here.revive(NAMES)


def lost_key(trial: Trial, count: Count) -> None:
    """The only holder of a block that waits dies: its name ends the job."""
    blocks, killed, said = trial.keys(replicas=1), [], ""
    with trial.room() as room:
        gate = Gate(room)
        step = killer(trial, gate, first_at_home, killed)
        job = trial.job(blocks, gate, {pieces[0] for pieces in blocks.pieces.values()}, step)
        try:
            job.run()
        except LostBlock as why:
            said = str(why)
    seen = look(trial.here.client, keys=blocks.keys(blocks.pieces))
    of_killed = {it for it in blocks.pieces if it not in job.maps and not blocks.holders(it, seen)}
    count.holds("a key without a living holder ends the job", said.partition(" has no living")[0] in of_killed, said)
    trial.here.revive(NAMES)


def lost_file(trial: Trial, count: Count) -> None:
    """A block in a file that no worker holds."""
    said, wanted = "", "a%20file@5 has no living holder: nobody is no worker's name or host"
    with trial.room() as room:
        rows = [Row("here", 0, 0, NAMES), Row("a file", 5, 7, ["nobody"])]
        try:
            trial.job(Files(trial.here.client, rows), Gate(room), set(), lambda job: None).run()
        except LostBlock as why:
            said = str(why)
    count.holds("a file without a living holder ends the job", said == wanted, said)


def lost_files(trial: Trial, count: Count) -> None:
    """The files of one disk are gone: the maps that fail there are started elsewhere."""
    blocks, bad = trial.files(), trial.here.disk(NAMES[0])
    hidden = {path: path.read_bytes() for path in bad.glob("*.md")}
    for path in hidden:
        path.unlink()
    with trial.room() as room:
        job = trial.job(blocks, Gate(room), set(), lambda job: None)
        lines = index_lines(job.run())
    for path, data in hidden.items():
        path.write_bytes(data)
    again = Counter((it.split, it.worker) for it in job.attempts).most_common(1)[0][1]
    count.holds("a disk that lost files: the index is that of the reference", lines == trial.wanted)
    count.holds("a disk that lost files: maps failed, and none twice at one place", job.ended("failed") and again == 1)


def failing(trial: Trial, count: Count) -> None:
    """A map that fails everywhere ends the job by what it raised."""

    def fails(data, pieces, parts):
        raise ValueError("this map fails")

    job, said = trial.job(trial.keys(), Gate("/"), set(), lambda job: None), ""
    job.work = job.work._replace(map=fails)
    try:
        job.run()
    except ValueError as why:
        said = str(why)
    most = Counter(it.split for it in job.attempts).most_common(1)[0][1]
    count.holds("a map that always fails ends the job after four tries", (said, most) == ("this map fails", 4), said)


def left_over(trial: Trial, count: Count) -> None:
    """Once a job has ended, well or not, nothing of it is on the cluster, though its user keeps it."""
    keys = lambda job: trial.here.client.run_on_scheduler(
        lambda mark, dask_scheduler: [it for it in dask_scheduler.tasks if mark in it], job.mark)
    with trial.room() as room:
        gate = Gate(room)
        well = trial.job(trial.files(), gate, set(), lambda job: None)
        well.run()
        until(lambda: not keys(well), "nothing of a job that ended well is left")

        def stops(job: Watched) -> None:
            gate.open()
            raise KeyboardInterrupt

        first = {pieces[0] for pieces in well.blocks.pieces.values()}
        stopped = trial.job(well.blocks, gate, first, stops)
        try:
            stopped.run()
        except KeyboardInterrupt:
            until(lambda: not keys(stopped), "nothing of a job that was interrupted is left")
    count.holds("a job leaves nothing on the cluster", well.maps and stopped.maps, well.maps, stopped.maps)


def beside_others(trial: Trial, count: Count, most: int) -> None:
    """Others' tasks take slots, until more than so many maps are done. Maps that waited for these slots until all were
    done run elsewhere."""
    client, address, turns = trial.here.client, trial.here.addresses(), []
    with trial.room() as room, trial.room() as other_room:
        gate, reduces = Gate(room), Gate(other_room)

        def step(job: Watched) -> None:
            if len(job.ended("done")) > most:
                gate.open()
            turns.extend([job] * all(it.done() for it in tasks))
            if len(turns) > 3:  # (in which the job sees the free slots)
                reduces.open()

        job = trial.job(trial.keys(), reduces, set(), step, True)
        waits = gate.map({("", 0, 0)})
        tasks = [
            client.submit(waits, b"", [("", 0, 0)], 1, key=f"others{job.mark}{name}", workers=[address[name]])
            for name in NAMES[:4]
        ]
        until(lambda: sum(it.others for it in look(client).workers.values()) == 4, "others' tasks run")
        lines = index_lines(job.run())
        client.gather(tasks)
    free = {job.names[it] for it in job.waves[0].slots}
    says = f"beside others' tasks while {most} maps are done"
    count.holds(f"{says}: the index is that of the reference", lines == trial.wanted)
    count.holds(f"{says}: the first wave goes to those that are free", free == {*NAMES[4:]}, free)
    judged(job, count, says)


def jobs(planner: Planner, count: Count, more: Callable[[Trial, Count], None]) -> None:
    """All of them on one cluster, and what else is tried on it."""
    with Cluster(3, 2) as here:
        trial = Trial(here, planner)
        for sort in ("files", "keys"):
            undisturbed(trial, count, sort)
            for when in DEATHS:
                death(trial, count, sort, when)
            backups(trial, count, sort)
        trial.is_ahead = True
        for trial.planner in (planner, Kept(planner)):  # (whose program's session decides, and which is asked itself)
            for sort, when in (("files", "a running map"), ("keys", "a done map")):
                undisturbed(trial, count, sort)
                death(trial, count, sort, when)
            backups(trial, count, "files")
            joins(trial, count, "keys")
        trial.planner = planner
        paused(trial, count, "files")
        trial.is_ahead = False
        stopped(trial, count)
        lost_file(trial, count)
        lost_files(trial, count)
        failing(trial, count)
        left_over(trial, count)
        beside_others(trial, count, 8)
        beside_others(trial, count, len(trial.cut) - 1)
        placed(trial, count)
        faults(trial, count)
        more(trial, count)
        lost_key(trial, count)

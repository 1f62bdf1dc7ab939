#!/usr/bin/python3
"""Tests of a job on a Dask cluster: words and waves against the references of scripts/, and then jobs on a cluster.

    tests.py PROGRAM            by the built program, from the folder of the repository

Where the C library stands, in lib/ or where MRJOB_LIBRARY says, jobs are planned by it too; else a line says that this
was skipped. The last line is 'N passed, M failed'.
"""
from __future__ import annotations

import faulthandler
import json
import os
import shutil
import signal
import subprocess
import sys
import tempfile
import threading
from http.server import BaseHTTPRequestHandler, ThreadingHTTPServer
from pathlib import Path
from random import Random
from typing import Optional
from urllib.parse import parse_qs, urlsplit

sys.dont_write_bytecode = True
from trial import NAMES, ROOT, Count, Gate, Trial, index_of, place_of  # (which finds the packages)

from mrjob_dask import Command, Library, NoPlanner, Place, Planner, RarestFirst, Unfit, planner_of
from mrjob_dask.keys import as_hdfs
from mrjob_dask.planner import Plan, Split, Wave, wave_of

import reference_check
from reference_play import misplayed
from test_ahead import anew, lengths, phases, prices, saved, waiting
from test_faults import without_scheduler
from test_jobs import jobs
from test_pending import candidates, edge, many, many_blocks, rarest, some_pending
from test_place import planners, racks
from words import blocks_of, index_lines, map_words, reduce_words

INDEX = str(Path(__file__).resolve().with_name("index.py"))


def words(count: Count) -> None:
    """Texts cut at any bytes give the reference's index."""
    wrong = []
    for seed in range(200):
        rnd = Random(seed)
        documents = [(f"d{it}", bytes(rnd.choices(b"aB -", k=rnd.randint(0, 40)))) for it in range(rnd.randint(1, 6))]
        sizes = iter(lambda: rnd.randint(1, 12), None)
        parts = rnd.randint(1, 3)
        outputs = [map_words(data, pieces, parts) for data, pieces in blocks_of(documents, sizes)]
        results = [reduce_words([output[part] for output in outputs]) for part in range(parts)]
        wrong += [seed] * (index_lines(results) != index_of(documents))
    count.holds("200 texts, cut at any bytes: the index is that of the reference", not wrong, wrong)


class Direct(reference_check.Wave):
    """A wave as the reference takes it, from its numbers and no text."""

    def __init__(self, wave: Wave) -> None:
        racks, workers = sorted({*wave.places.values()}), [*wave.places]
        centres = sorted({it.centre for it in racks})
        self.splits, self.workers = [*wave.splits], workers
        self.centre_of = [centres.index(it.centre) for it in racks]
        self.rack_of = [racks.index(wave.places[it]) for it in workers]
        self.free, self.live = [wave.slots[it] for it in workers], [True] * len(workers)
        self.places = [wave.prices.get(it, ()) for it in workers] if wave.prices else None
        self.bytes = [it.bytes for it in wave.splits.values()]
        self.holders = [[workers.index(at) for at in it.holders] for it in wave.splits.values()]
        self.pending = [True] * len(self.splits)
        self.barred = {
            (number, workers.index(at)) for number, it in enumerate(wave.splits.values()) for at in it.barred
        }


def some_wave(rnd: Random) -> Wave:
    places = {f"tcp://{it}": Place(f"r{rnd.randint(0, 1)}", f"c{rnd.randint(0, 1)}") for it in range(rnd.randint(1, 5))}
    workers = [*places]
    sample = lambda most: rnd.sample(workers, rnd.randint(0, min(most, len(workers))))
    splits = {f"block {it}": Split(rnd.randint(0, 99), sample(3), sample(1)) for it in range(rnd.randint(0, 6))}
    return wave_of(places, {it: rnd.randint(0, 2) for it in workers}, splits)


def misplanned(planner: Planner, wave: Wave) -> bool:
    """Whether a plan has a pair that may not start, or is not best."""
    plan, direct = planner.plan(wave), Direct(wave)
    pairs = [(direct.splits.index(split), direct.workers.index(at)) for split, at in plan.starts.items()]
    loads = [sum(at == worker for _, at in pairs) for worker in range(len(direct.workers))]
    is_fit = all(direct.is_admissible(*it) for it in pairs) and all(map(int.__le__, loads, direct.free))
    cost = sum(direct.cost(*it) for it in pairs)
    places = sum(direct.place_price(it, place) for it, load in enumerate(loads) for place in range(load))
    best = reference_check.most_and_least(direct)
    return not is_fit or (len(pairs), cost + places) != best or plan.cost != cost


class Both(Planner):
    """Asks two planners, and keeps the count and the cost that each of them gave to each wave."""

    def __init__(self, one: Planner, other: Planner) -> None:
        self.planners, self.totals = (one, other), []

    def plan(self, wave: Wave) -> Plan:
        plans = [it.plan(wave) for it in self.planners]
        self.totals.append([(len(it.starts), it.cost) for it in plans])
        return plans[0]

    def differing(self) -> list:
        return [totals for totals in self.totals if totals[0] != totals[1]]


def the_library() -> Optional[Planner]:
    """The planner by the C library, where that stands."""
    try:
        return Library(True)
    except NoPlanner as why:
        print(f"the library was skipped: {why}", flush=True)
        return None


def waves(program: str, library: Optional[Planner], count: Count) -> None:
    """Plans of small clusters are best, by the reference, and are checked."""
    words = f"{program} plan"
    planners: dict[str, Planner] = {"plan": Command(words), "plan and check": Command(words, True)}
    if library:
        planners["the library"] = library
    planners["plan, rarest first"] = RarestFirst(Command(words))
    for name, planner in planners.items():
        wrong = [seed for seed in range(100) if misplanned(planner, some_wave(Random(seed)))]
        count.holds(f"100 clusters, by {name}: each plan is best, by the reference", not wrong, wrong)
    seen = [Direct(make(Random(seed))) for make in (some_wave, some_pending) for seed in range(300)]
    wrong = [it for it, wave in enumerate(seen) if reference_check.by_chains(wave) != reference_check.by_all_ways(wave)]
    count.holds("600 clusters: the reference finds the same best both ways", not wrong, wrong)


def refuses(planner: Planner, wave: Wave) -> str:
    try:
        planner.plan(wave)
    except Unfit as why:
        return str(why)
    return ""


class Wrong(Planner):
    """Tells another cost than its starts come to."""

    def ask(self, wave, units):
        return {next(iter(wave.splits)): next(iter(wave.places))}, 1


def faults(program: str, count: Count) -> None:
    """Answers that are no best plan, and clusters past the limits, are refused."""
    wave = wave_of({"a": Place("r")}, {"a": 1}, {"s": Split(10, ["a"], [])})
    lazy = 'if [ "$0" = check ]; then exec "$1" check; else printf "wave 0 0\\nprice s0 0\\nprice w0 0\\n"; fi'
    planner = Command("sh plan", True)
    planner.plan_words, planner.check_words = ["sh", "-c", lazy, "plan"], ["sh", "-c", lazy, "check", program]
    said = refuses(planner, wave)
    count.holds("a plan that is not best is refused", "refused C5 s0 w0" in said, said)
    splits = {"any": Split(1, ["a", "b", "c"], []), "rare": Split(1, ["a"], []), "other": Split(1, ["a"], [])}
    wave = wave_of({it: Place("r") for it in "abc"}, {"a": 1}, splits)
    first = [[*it.plan(wave).starts] for it in (Command(f"{program} plan"), RarestFirst(Command(f"{program} plan")))]
    count.holds("of equal splits the first starts, and by RarestFirst the rarest", first == [["any"], ["rare"]], first)
    count.holds("a wrong cost is refused", "do not come to" in refuses(Wrong(), wave))
    count.holds("a command that fails is told", "ended with" in refuses(Command("false plan"), wave))
    many = {f"w{it}": Place(f"r{it}", f"c{it}") for it in range(32_769)}
    for most, says in ((32_769, "32769 workers"), (4097, "4097 racks"), (257, "257 data centres")):
        try:
            wave_of(dict([*many.items()][:most]), {}, {})
            said = ""
        except Unfit as why:
            said = str(why)
        count.holds(f"there may not be {says}", f"there are {says}" in said, said)
    wide = wave_of(
        {f"w{it}": Place("r") for it in range(17)}, {"w0": 256, "w1": 1},
        {f"s{it}": Split(1 << 34, [f"w{at}" for at in range(17)], []) for it in range(1025)},
    )
    shape = max(len(it.holders) for it in wide.splits.values()), wide.slots["w0"]
    plan = planner_of(f"{program} plan", True).plan(wide)
    count.holds("a wave takes 16 holders of a block and 255 slots", shape == (16, 255), shape)
    count.holds("blocks of 16 GiB are planned in units of 2 bytes", (len(plan.starts), plan.unit) == (256, 2), plan.unit)


def placing(count: Count) -> None:
    """Replicas lie as HDFS lays them: two racks, the second and the third in one."""
    places, rnd = {name: place_of(name) for name in NAMES}, Random(3)
    held = [as_hdfs(places, rnd) for _ in range(200)]
    is_so = all(places[a] != places[b] == places[c] and len({a, b, c}) == 3 for a, b, c in held)
    firsts = {first for first, _, _ in held}
    count.holds("replicas lie as HDFS lays them, and first ones anywhere", is_so and firsts == {*NAMES})
    count.holds("few workers hold what they can", len(as_hdfs({"a": Place("r"), "b": Place("r")}, rnd)) == 2)


def types(count: Count) -> None:
    """mypy finds nothing in the package."""
    if shutil.which("mypy") is None:
        print("mypy is not there, so no types were checked", flush=True)
        return
    with tempfile.TemporaryDirectory() as room:
        words = ["mypy", "--strict", "--python-executable", sys.executable, "--cache-dir", room]
        words += ["--config-file", "python/pyproject.toml", "python/mrjob_dask"]
        ran = subprocess.run(words, capture_output=True, text=True, cwd=ROOT, env={**os.environ, "MYPYPATH": "python"})
    count.holds("the package has no fault that mypy --strict finds", ran.returncode == 0, ran.stdout, ran.stderr)


def index(trial: Trial, *asked: str) -> tuple[str, str, int]:
    """What index.py writes: the index, its last words, and its status."""
    words = [sys.executable, INDEX, "--scheduler", trial.here.client.scheduler.address, *asked]
    patient = {**os.environ, "DASK_DISTRIBUTED__COMM__TIMEOUTS__CONNECT": "300s"}
    ran = subprocess.run(words, capture_output=True, text=True, cwd=ROOT, stdin=subprocess.DEVNULL, env=patient)
    return ran.stdout, ran.stderr, ran.returncode


def reported(trial: Trial, count: Count, by: str, planner: str, *more: str) -> list[dict]:
    """What index.py reports over a folder by a planner; its index is that which `mrjob run` gives as well."""
    report, out, told = (trial.here.disk(f"{name}-{by}") for name in ("report", "index", "history"))
    says, room = f"index.py FOLDER by {by}", trial.here.disk("folder")
    trial.rest()
    ended = index(trial, str(room), "--planner", planner, "--check", "--block", str(5000), "--parts", "3",
                  "--report", str(report), "--out", str(out), "--history", str(told), *more)
    count.holds(f"{says} ends well", (ended[0], ended[2]) == ("", 0), ended)
    lines = out.read_text().splitlines() if out.exists() else []
    count.holds(f"{says}: the index is that of the reference", lines == trial.wanted)
    rows = [json.loads(line) for line in report.read_text().splitlines()]
    starts, whole = [row for row in rows if "attempt" in row], rows[-1]
    cost = sum(row["distance"] * row["bytes"] for row in starts)
    adds_up = cost == whole["cost"] == sum(row["cost"] for row in rows[:-1] if "cost" in row)
    total = sum(len(text) for _, text in trial.documents)
    count.holds(f"{says}: its report adds up", adds_up and sum(row["bytes"] for row in starts) == total, whole)
    if by != "library":
        script, played = (Path(f"{told}.{it}").read_bytes() for it in ("txt", "out"))
        wrong = misplayed(script, played, 0)
        is_so = wrong is None and (b"\nahead " in script) == ("--ahead" in more)
        count.holds(f"{says}: it is a legal history, each plan best, by the reference", is_so, wrong)
    return rows


def command(program: str, library: Optional[Planner], trial: Trial, count: Count) -> None:
    """The command over a folder, by the program and by the library."""
    room = trial.here.disk("folder")
    room.mkdir()
    for name, text in trial.documents:
        (room / name).write_bytes(text)
    reported(trial, count, "plan ahead", f"{program} plan", "--ahead")
    rows = reported(trial, count, "plan", f"{program} plan")
    if library:
        others = reported(trial, count, "library", "library")
        # (when a slot is free again is nobody's to say, so later waves are those of one run alone)
        is_same = rows[0] == others[0]
        count.holds("index.py by library: its first wave has plan's count and cost", is_same, rows[0], others[0])
        # (in front of a block's number stands the mark of one run)
        number = lambda row: int(row["split"].rpartition("-")[2])
        started = [sorted(number(row) for row in it if "attempt" in row) for it in (rows, others)]
        count.holds("index.py by library: it starts what plan starts", started[0] == started[1], *started)


def both(program: str, library: Optional[Planner], trial: Trial, count: Count) -> None:
    """A job by the library, of whose waves the program is asked as well."""
    if not library:
        return
    usual, trial.planner = trial.planner, Both(library, Command(f"{program} plan"))
    with trial.room() as room:
        job = trial.job(trial.keys(), Gate(room), set(), lambda job: None)
        lines = index_lines(job.run())
    asked, trial.planner = trial.planner, usual
    count.holds("by the library: the index is that of the reference", lines == trial.wanted)
    wrong = asked.differing()
    count.holds("by the library: each wave has the count and cost of the program's", len(job.waves) > 1 and not wrong,
                len(job.waves), wrong)


def tables(program: str, trial: Trial, count: Count) -> None:
    """The command over blocks in files, and over one that nobody holds."""
    blocks, table, out = trial.files(), trial.here.disk("table"), trial.here.disk("no-index")
    rows = [" ".join(map(str, (*piece, *blocks.nodes[it]))) for it, (piece,) in blocks.pieces.items()]
    table.write_text("\n".join(rows) + "\n")
    asked = ["--planner", f"{program} plan", "--table", str(table)]
    said, _, status = index(trial, *asked)
    is_so = (said.splitlines(), status) == (trial.wanted, 0)
    count.holds("index.py --table: the index is that of the reference", is_so)
    table.write_text("\n".join([*rows, "lost 7 1 nobody"]) + "\n")
    said, why, status = index(trial, *asked, "--out", str(out), "--grace", "0")
    is_so = (said, status) == ("", 1) and "lost@7 has no living holder" in why and not out.exists()
    count.holds("index.py: a block without a living holder is named, and nothing written", is_so, said, why, status)


class Served(BaseHTTPRequestHandler):
    """Files as WebHDFS serves them."""

    folder = Path()

    def do_GET(self) -> None:
        asked = urlsplit(self.path)
        words = {name: value for name, (value,) in parse_qs(asked.query).items()}
        data = (self.folder / asked.path.removeprefix("/webhdfs/v1/")).read_bytes()
        self.send_response(200)
        self.end_headers()
        self.wfile.write(data[int(words["offset"]) :][: int(words["length"])])

    def log_message(self, *_) -> None:
        pass


def hdfs(program: str, trial: Trial, count: Count) -> None:
    """The command over what fsck lists, read by WebHDFS."""
    listing, lines = trial.here.disk("listing"), []
    for name, text in trial.documents:
        lines.append(f"/{name} {len(text)} bytes, replicated: replication=1, 1 block(s):  OK")
        lines.append(f"0. BP-1-127.0.0.1-1:blk_{len(lines)}_1 len={len(text)} Live_repl=1  [/r/127.0.0.1:9866]")
    listing.write_text("\n".join([*lines, ""]))
    Served.folder = trial.here.disk("folder")
    with ThreadingHTTPServer(("127.0.0.1", 0), Served) as server:
        threading.Thread(target=server.serve_forever, daemon=True).start()
        said, why, status = index(trial, "--planner", f"{program} plan", "--hdfs", str(listing), "--webhdfs",
                                  f"http://127.0.0.1:{server.server_port}")
        server.shutdown()
    wanted = index_of([(name, text) for name, text in trial.documents])
    said = said.replace(" /", " ").splitlines()
    count.holds("index.py --hdfs: the index is that of the reference", (said, status) == (wanted, 0), why, status)


def moosefs(program: str, trial: Trial, count: Count) -> None:
    """The command over what mfsfileinfo lists, read by a folder that all workers have."""
    folder, listing, lines = trial.here.disk("folder"), trial.here.disk("chunks"), []
    for number, (name, _) in enumerate(trial.documents, 1):
        chunk = f"\tchunk 0: {number:016X}_00000001 / (id:{number} ver:1)"
        lines += [f"{folder / name}:", chunk, "\t\tcopy 1: 127.0.0.1:9422 (status:VALID)"]
    listing.write_text("\n".join([*lines, ""]))
    said, why, status = index(trial, "--planner", f"{program} plan", "--moosefs", str(listing))
    said = said.replace(f" {folder}/", " ").splitlines()
    is_so = (said, status) == (trial.wanted, 0)
    count.holds("index.py --moosefs: the index is that of the reference", is_so, why, status)


def main() -> int:
    faulthandler.register(signal.SIGUSR1)  # (scripts/dask.py asks where they hang)
    program = os.environ["MRJOB"] = os.path.abspath(sys.argv[1])  # (which clients of their own take too)
    count, library = Count(), the_library()
    words(count)
    placing(count)
    racks(count)
    planners(count)
    types(count)
    waves(program, library, count)
    faults(program, count)
    planner = library or Command(f"{program} plan")
    lengths(count)
    prices(count)
    anew(planner, count)
    phases(planner, misplanned, count)
    saved(planner, program, count)
    waiting(program, count)
    for it in (planner, RarestFirst(planner)):
        candidates(it, misplanned, count)
    rarest(count)
    for says, it in {"by the program": Command(f"{program} plan", True), "by the library": library}.items():
        if it:
            many(it, says, count)
            edge(it, says, count)
    without_scheduler(planner, count)

    def commands(trial: Trial, count: Count) -> None:
        command(program, library, trial, count)
        both(program, library, trial, count)
        tables(program, trial, count)
        hdfs(program, trial, count)
        moosefs(program, trial, count)
        many_blocks(trial, count)

    jobs(planner_of(f"{program} plan", True), count, commands)
    print(f"{count.passed} passed, {count.failed} failed")
    return int(count.failed != 0)


if __name__ == "__main__":
    sys.exit(main())

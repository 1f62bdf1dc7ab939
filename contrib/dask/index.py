#!/usr/bin/python3
"""The inverted index of files, by a Dask cluster that runs, its maps and reduces placed by `mrjob serve`.

    dask-scheduler &
    dask-worker tcp://HOST:8786 --name r0.w0 --nthreads 2 &         one on each node
    contrib/dask/index.py FOLDER --scheduler tcp://HOST:8786

The files below FOLDER are cut in blocks and laid in the memory of workers, as HDFS would lay them. Or blocks lie on the
nodes' disks already: by `--table FILE`, of lines `FILE OFFSET BYTES NODE..`, each being a worker's name or host, a map
reads its block from its own disk or from that of the nearest holder; by `--hdfs FILE`, which has what `hdfs fsck PATH
-files -blocks -locations` prints, it reads from `--webhdfs ADDRESS`; by `--moosefs FILE`, which has what `mfsfileinfo
PATH..` prints, it reads by the mount, which all workers have at the same place. A worker's place is a line `NAME RACK
[CENTRE]` of the topology, NAME being its name or host; else what HDFS lists; else the rack is its name up to the first
dot, or is guessed from its host's network, of which is warned.

The index is written in the lines of `mrjob run`: `index N`, and `word WORD DOCUMENT..` for each. The status is 1 where
a block has no living holder or its map kills workers, and 2 where the cluster, a file or a plan does not fit, or there
is no planner; then nothing is written.
"""
from __future__ import annotations

import argparse
import itertools
import logging
import os
import sys
import uuid
import warnings
from contextlib import nullcontext
from pathlib import Path
from random import Random
from typing import Optional

import cloudpickle
from distributed import Client

sys.dont_write_bytecode = True
sys.path[1:1] = [str(Path(__file__).resolve().parents[1]), str(Path(__file__).resolve().parents[2] / "python")]
from mrjob_dask import Blocks, Files, Job, Keys, LostBlock, RarestFirst, Unfit, Work, planner_of
from mrjob_dask import read_mounted, read_table, read_web
from mrjob_dask.calls import look
from mrjob_dask.files import Row
from mrjob_dask.keys import as_hdfs
from mrjob_dask.placing import GRACE, DeadlySplit
from mrjob_dask.report import progress, report_lines
from mrjob_dask.topology import Topology
from mrjob_plan.master import MasterEnded

import words
from problem_of_hdfs import Stop, read_listing
from problem_of_moosefs import read_chunks
from words import blocks_of, index_lines, map_words, reduce_words, texts_of

cloudpickle.register_pickle_by_value(words)
Table = dict[str, tuple[str, ...]]


def racks_of(topology: Optional[str]) -> Table:
    """The places of workers, by names or hosts."""
    table: Table = {}
    if topology:
        with open(topology, encoding="utf-8") as file:
            for line in file:
                name, *place = line.split() or [""]
                if len(place) not in (1, 2):
                    raise Unfit(f"`{line.rstrip()}` is not NAME RACK [CENTRE]")
                table[name] = tuple(place)
    return table


def laid(client: Client, asked: argparse.Namespace, racks: Table) -> Keys:
    """The files of a folder as blocks in the memory of workers."""
    if not os.path.isdir(asked.folder):
        raise Unfit(f"{asked.folder} is no folder")
    places = Topology(racks).places({address: it.name for address, it in look(client).workers.items()})
    blocks, rnd, left_out = Keys(client, replicas=asked.replicas), Random(asked.seed), []
    mark = uuid.uuid4().hex[:8]
    for data, pieces in blocks_of(texts_of(asked.folder, left_out), itertools.repeat(asked.block)):
        blocks.put(f"block-{mark}-{len(blocks.pieces)}", data, pieces, as_hdfs(places, rnd, asked.replicas))
    blocks.lay()
    if left_out:
        print(f"{len(left_out)} files were left out, such as {left_out[0]}", file=sys.stderr)
    return blocks


def blocks_asked(client: Client, asked: argparse.Namespace, racks: Table) -> Blocks:
    """The blocks that the words of the command speak of. Racks that HDFS lists are entered."""
    if asked.folder:
        return laid(client, asked, racks)
    with open(asked.table or asked.hdfs or asked.moosefs, encoding="utf-8") as file:
        if asked.table:
            return Files(client, read_table(file))
        listing = read_listing(file) if asked.hdfs else read_chunks(file)
    for told, count in listing.told.items():
        print(f"{count} {told}", file=sys.stderr)
    racks.update({host: (rack,) for host, rack in listing.racks.items() if host not in racks})
    path = os.path.abspath if asked.moosefs else str
    rows = [Row(path(it.file), it.offset, it.bytes, it.nodes) for it in listing.blocks]
    return Files(client, rows, read_web(asked.webhdfs) if asked.hdfs else read_mounted)


def words_of() -> argparse.Namespace:
    parser = argparse.ArgumentParser(description=__doc__, formatter_class=argparse.RawDescriptionHelpFormatter)
    add = parser.add_argument
    add("folder", nargs="?", help="files below it are laid on the workers")
    add("--table", help="blocks in files, in lines FILE OFFSET BYTES NODE..")
    add("--hdfs", help="blocks in HDFS, as fsck lists them")
    add("--webhdfs", help="where HDFS is read, such as http://NAMENODE:9870")
    add("--moosefs", help="blocks in MooseFS, as mfsfileinfo lists them")
    add("--scheduler", required=True, help="the address of Dask's scheduler")
    add("--planner", default="", help="`PROGRAM plan`, whose session decides the job, or `library`, which plans waves")
    add("--rarest-first", action="store_true", help="of equal plans, one with the blocks hardest to place later")
    add("--ahead", action="store_true", help="plan all blocks that wait onto queues, and not wave by wave")
    add("--backup", type=float, metavar="TIMES",
        help="once no block waits, start a map that has run for so many times the mean on a second worker")
    add("--check", action="store_true", help="where no session decides, let each plan be checked by its prices")
    add("--workers", type=int, default=1, help="wait until so many are there")
    add("--topology", help="lines NAME RACK [CENTRE]")
    add("--grace", type=float, default=GRACE, help="for so many seconds a block may have no living holder")
    add("--replicas", type=int, default=3, help="so many workers hold a block that is laid")
    add("--block", type=int, default=1 << 20, help="its bytes")
    add("--parts", type=int, default=8, help="into how many parts words are divided")
    add("--seed", type=int, default=1, help="which places blocks are laid at")
    add("--out", help="where the index is written; standard output else")
    add("--report", help="where it is told what was started and carried")
    add("--history", metavar="NAME", help="write the session as a script NAME.txt with its report NAME.out")
    asked = parser.parse_args()
    if sum(map(bool, (asked.folder, asked.table, asked.hdfs, asked.moosefs))) != 1:
        parser.error("one of FOLDER, --table, --hdfs and --moosefs is wanted")
    if bool(asked.hdfs) != bool(asked.webhdfs):
        parser.error("--hdfs and --webhdfs go together")
    return asked


def write(lines: list[str], path: Optional[str]) -> None:
    """Writes lines to a file, or to standard output, as far as its reader wants them."""
    try:
        with open(path, "w", encoding="utf-8") if path else nullcontext(sys.stdout) as out:
            out.writelines(f"{line}\n" for line in lines)
            out.flush()
    except BrokenPipeError:
        if path:
            raise
        os.dup2(os.open(os.devnull, os.O_WRONLY), sys.stdout.fileno())  # (where Python writes the rest as it ends)


def write_all(job: Job, lines: list[str], asked: argparse.Namespace) -> None:
    """Writes what a done job is asked for."""
    report = report_lines(job)
    if asked.report:
        write(report, asked.report)
    history = job.history()
    if asked.history and not history:
        print("index.py: there is no history, since no session of the program decided the job", file=sys.stderr)
    elif asked.history and history:
        for kind, its in zip(("txt", "out"), history):
            write(its, f"{asked.history}.{kind}")
    write(lines, asked.out)
    print("\n" * sys.stderr.isatty() + report[-1], file=sys.stderr)


def run(asked: argparse.Namespace) -> None:
    """Runs the job on the cluster."""
    racks, planner = racks_of(asked.topology), planner_of(asked.planner, asked.check)
    planner = RarestFirst(planner) if asked.rarest_first else planner
    is_chosen = asked.planner or asked.rarest_first
    with Client(asked.scheduler) as client:
        client.wait_for_workers(asked.workers)
        blocks = blocks_asked(client, asked, racks)
        work = Work(map_words, reduce_words, asked.parts)
        decides = planner if is_chosen else None
        job = Job(client, blocks, work, racks, decides, asked.grace, progress, asked.ahead, asked.backup)
        try:
            write_all(job, index_lines(job.run()), asked)
        finally:
            blocks.close()
            # (Dask leaves a timer behind as a client closes, which may run out unheard: asyncio would tell of it)
            logging.getLogger("asyncio").setLevel(logging.CRITICAL)


def main() -> int:
    asked = words_of()
    warnings.formatwarning = lambda why, *_: f"index.py: {why}\n"
    try:
        run(asked)
    except (LostBlock, DeadlySplit) as why:
        print(f"index.py: {why}", file=sys.stderr)
        return 1
    except (Unfit, Stop, MasterEnded, OSError) as why:
        print(f"index.py: {why}", file=sys.stderr)
        return 2
    return 0


if __name__ == "__main__":
    sys.exit(main())

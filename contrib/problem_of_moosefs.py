#!/usr/bin/env python3
"""Writes the problem of a wave over the chunks of files in MooseFS, for `mrjob plan`.

Standard input, or the file that is named, is what `mfsfileinfo FILE..` prints of files in a mounted MooseFS. A file has
what `mfscli -n -p -s '|' -SCS` prints of its chunk servers. Each address of a connected one is a worker, with so many
free slots as --slots says, a number for all or a file with lines `ADDRESS SLOTS`, `#` beginning a comment.

A chunk is a split, held where it has a copy that is valid. It has 64 MiB, or as the last one what is left of its file,
whose size the file system is asked for. With the master's mfstopology.cfg the part of a path before the first `|` is a
data centre, and the rest a rack, where each path has both: so the distances are twice those of MooseFS, up to three.

    contrib/problem_of_moosefs.py --servers contrib/samples/moosefs_servers.txt contrib/samples/moosefs.txt

writes a problem, and what was changed, cut or left out on standard error. The status is 1 where there is none, 0 else.
"""
import argparse
import ipaddress
import os
import re
import signal
import sys
from collections import Counter
from typing import Callable, Dict, Iterable, Iterator, List, Optional, Tuple

sys.dont_write_bytecode = True
from problem_of_hdfs import Block, Listing, Names, Stop, cluster_of, problem_lines, read_slots, some_of, unit_of

CHUNK_BYTES = 67_108_864
CHUNK = re.compile(r"\tchunk (?P<at>[0-9]{1,9}): (?P<id>[0-9A-F]{16})_[0-9A-F]{8} /.*")
COPY = re.compile(r"\t\tcopy [0-9]+: (?P<host>[0-9.]+):[0-9]+ (?:\S+ )?\(status:(?P<status>[^)]*)\).*")
SERVER = re.compile(r"chunk servers:[|\t](?P<host>[0-9.]+)[|\t][0-9]+[|\t].*")
GONE = re.compile(r"Disconnected chunk servers:[|\t].*")
LINES_OF_A_NAME = 8


def size_of(path: str) -> Optional[int]:
    """How many bytes a file has, or None where it is not to be found."""
    try:
        return os.stat(path).st_size
    except (OSError, ValueError):
        return None


def file_of(lines: List[str], size: Callable[[str], Optional[int]]) -> str:
    """The file whose name the lines before its chunks have: the last line, or as many as the name has."""
    names = ["\n".join(lines[-some:])[:-1] for some in range(1, min(len(lines), LINES_OF_A_NAME) + 1)]
    return next((name for name in names if size(name) is not None), names[0] if names else "")


def read_chunks(lines: Iterable[str], size: Callable[[str], Optional[int]] = size_of) -> Listing:
    """What mfsfileinfo listed, without chunks that have no data."""
    listing = Listing([], {}, Counter())
    told, file, head, bytes_of = listing.told, "", [], None
    for line in lines:
        line = line.rstrip("\n")
        chunk, copy = CHUNK.fullmatch(line), COPY.fullmatch(line)
        if not line.startswith("\t"):
            head.append(line)
            continue
        if head:
            file, head = file_of(head, size), []
            bytes_of = size(file)
        if chunk:
            offset = int(chunk["at"]) * CHUNK_BYTES
            told["chunks of files that are not to be found have 64 MiB"] += bytes_of is None
            left = CHUNK_BYTES if bytes_of is None else max(min(bytes_of - offset, CHUNK_BYTES), 0)
            listing.blocks.append(Block(f"chunk_{chunk['id']}", file, offset, left, []))
        elif copy and copy["status"] != "VALID":
            told[f"copies of status {copy['status']} are left out"] += 1
        elif copy and listing.blocks:
            nodes = listing.blocks[-1].nodes
            nodes += [copy["host"]] * (copy["host"] not in nodes)
        elif re.fullmatch(r"\tchunk [0-9]+: empty", line):
            told["chunks have no data, and are left out"] += 1
        elif line == "\tno chunks - empty file":
            told["files have no chunks"] += 1
        elif line != "\t\tno valid copies !!!":
            told["lines that are in no form of mfsfileinfo are left out"] += 1
    told["chunks without a valid copy have no holder"] += sum(not block.nodes for block in listing.blocks)
    return listing


def read_servers(lines: Iterable[str], told: "Counter[str]") -> Iterator[str]:
    """The addresses of the servers that are connected."""
    for line in lines:
        line = line.strip("\r\n")
        found = SERVER.fullmatch(line)
        if found:
            yield found["host"]
        elif GONE.fullmatch(line):
            told["chunk servers are not connected, and left out"] += 1
        elif line:
            raise Stop(f"`{line}` is no line of `mfscli -n -p -s '|' -SCS`")


def addresses(words: str) -> Tuple[int, int]:
    """The first and the last address of a group: one, from-to, or with a mask."""
    first, dash, last = words.partition("-")
    if dash:
        return int(ipaddress.IPv4Address(first)), int(ipaddress.IPv4Address(last))
    net = ipaddress.IPv4Network("0.0.0.0/0" if words == "*" else words, strict=False)
    return int(net[0]), int(net[-1])


def read_topology(lines: Iterable[str]) -> Callable[[str], Optional[str]]:
    """Which rack an address is in, as a path, or none. A later line counts before an earlier one."""
    groups = []
    for line in lines:
        words = line.partition("#")[0].split()
        try:
            if words:
                network, path = words
                groups.append((*addresses(network), "/" + "/".join(path.split("|"))))
        except ValueError:
            raise Stop(f"`{' '.join(words)}` is no line of mfstopology.cfg") from None

    def rack(host: str) -> Optional[str]:
        at = int(ipaddress.IPv4Address(host))
        return next((path for first, last, path in reversed(groups) if first <= at <= last), None)

    return rack


def words_of(argv: Optional[List[str]]) -> argparse.Namespace:
    parser = argparse.ArgumentParser(description=__doc__, formatter_class=argparse.RawDescriptionHelpFormatter)
    parser.add_argument("info", nargs="?", default="-", help="what mfsfileinfo printed; standard input if not named")
    parser.add_argument("--servers", required=True, metavar="FILE", help="what `mfscli -n -p -s '|' -SCS` printed")
    parser.add_argument("--slots", default="1", metavar="N|FILE", help="free slots of each, or lines ADDRESS SLOTS")
    parser.add_argument("--topology", metavar="FILE", help="the master's mfstopology.cfg")
    parser.add_argument("--below", default=".", metavar="FOLDER", help="where mfsfileinfo was called")
    centres = parser.add_mutually_exclusive_group()
    centres.add_argument("--centres", action="store_true", default=None, help="each rack has a data centre in its path")
    centres.add_argument("--no-centres", dest="centres", action="store_false", help="leave out the data centres")
    parser.add_argument("--skip", type=int, default=0, metavar="N", help="leave out the first N chunks")
    parser.add_argument("--take", type=int, metavar="N", help="take at most N chunks")
    parser.add_argument("--names", metavar="FILE", help="write what each name stands for")
    return parser.parse_args(argv)


def lines_of(path: str) -> List[str]:
    try:
        with open(path, encoding="utf-8") as file:
            return [*file]
    except UnicodeDecodeError:
        raise Stop(f"{path} is no UTF-8") from None


def free_slots(asked: argparse.Namespace, servers: List[str]) -> Dict[str, int]:
    """The free slots of each connected server."""
    if re.fullmatch("[0-9]{1,9}", asked.slots):
        return dict.fromkeys(servers, int(asked.slots))
    slots, racks = read_slots(lines_of(asked.slots))
    if racks:
        raise Stop(f"{asked.slots} has a rack, which --topology tells")
    return {host: slots.get(host, 0) for host in servers}


def write(asked: argparse.Namespace) -> None:
    source = sys.stdin.fileno() if asked.info == "-" else asked.info
    with open(source, encoding="utf-8", errors="surrogateescape", newline="\n") as file:
        listing = read_chunks(file, lambda name: size_of(os.path.join(asked.below, name)))
    if not listing.blocks:
        raise Stop("no chunk is listed: mfsfileinfo is to be asked of files in MooseFS")
    servers = [*dict.fromkeys(read_servers(lines_of(asked.servers), listing.told))]
    rack_of = read_topology(lines_of(asked.topology) if asked.topology else [])
    hosts = dict.fromkeys([*servers, *(host for block in listing.blocks for host in block.nodes)])
    racks = {host: rack for host, rack in ((host, rack_of(host)) for host in hosts) if rack}
    listing = some_of(listing, asked.skip, asked.take)
    cluster, names = cluster_of(listing, free_slots(asked, servers), racks, asked.centres), Names()
    lines = [f"{line}\n" for line in problem_lines(cluster, unit_of(cluster.blocks), names)]
    for words, count in listing.told.items():
        if count:
            print(f"{count} {words}", file=sys.stderr)
    if asked.names:
        with open(asked.names, "w", encoding="utf-8", errors="surrogateescape") as file:
            file.writelines(names.lines())
    sys.stdout.writelines(lines)


def main(argv: Optional[List[str]] = None) -> int:
    asked = words_of(argv)
    try:
        write(asked)
    except (Stop, OSError, ValueError) as why:
        print(f"problem_of_moosefs.py: {why}", file=sys.stderr)
        return 1
    return 0


if __name__ == "__main__":
    signal.signal(signal.SIGPIPE, signal.SIG_DFL)  # (a reader that stops reading ends it quietly)
    sys.exit(main())

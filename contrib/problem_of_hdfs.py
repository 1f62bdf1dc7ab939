#!/usr/bin/env python3
"""Writes the problem of a wave over the blocks of HDFS, for `mrjob plan`.

Standard input, or the file that is named, is what `hdfs fsck PATH -files -blocks -locations -racks` prints, of Hadoop 2
or 3, with racks or without. A file has the free slots of the nodes, in lines `NODE SLOTS [RACK]`, NODE being a host as
the listing has it; what follows a `#` is a comment. A rack there counts before that of the listing; a node without any
is in `/default-rack`. A node that only the listing has is a worker without slots.

Where each rack's path has two parts or more, as `/west/r1`, the first is its data centre and the rest its rack: so the
distances are those of Hadoop, which counts two steps a level. Where a rack has one part, none has a centre, which is
told, or refused with --centres; --no-centres asks for no centres. Racks without a centre stand in one, `site`.

The problem is of version 3: blocks have their own sizes, and blocks, hosts and racks their own names. A byte that no
name has is a `-` there, and names that come out the same get numbers.

    contrib/problem_of_hdfs.py --slots contrib/samples/slots.txt contrib/samples/hdfs_3_racks.txt

writes a problem, and what was changed, cut or left out on standard error. `| bin/mrjob plan` plans it. The status is 1
where there is no problem to write, 0 else. `read_listing` is for other programs.
"""
import argparse
import re
import signal
import sys
from collections import Counter
from typing import Dict, Iterable, Iterator, List, NamedTuple, Optional, Tuple

MOST = {"centre": 256, "rack": 4096, "worker": 32_768, "split": 131_072}
MOST_BYTES, MOST_HOLDERS, MOST_SLOTS = 8_589_934_592, 16, 255
DEFAULT_RACK = "/default-rack"

FILE = re.compile(r"(?P<file>/.*) [0-9]+ bytes, (?P<sort>\S+: \S+, )?[0-9]+ block\(s\)[:,]")
# A block. What stands in braces after its name is how Hadoop 2 tells one that is still written.
BLOCK = re.compile(
    r"[0-9]+\. (?:\S+:)?(?P<name>blk_-?[0-9]+)[^\s{]*(?P<open>\{.*\})? +len=(?P<bytes>[0-9]{1,19})(?P<rest>(?![0-9]).*)"
)
ANY_BLOCK = re.compile(r"[0-9]+\. (?:\S+:)?blk_")
CORRUPT = re.compile(r"/.*: CORRUPT blockpool \S+ block (?P<name>blk_-?[0-9]+)")
LIVE = re.compile(r"\b(?:Live_)?repl=([0-9]{1,9})\b")
# A replica: `/RACK/HOST:PORT`, `HOST:PORT` or `DatanodeInfoWithStorage[HOST:PORT,STORAGE,KIND]`, and after it each in
# its brackets the upgrade domain and the state.
REPLICA = re.compile(r"(?:\w+\[)?(?P<rack>/.*(?=/))?/?(?P<host>[^/,]+):[0-9]+(?:,[^\]]*\])?(?P<marks>(?:\([^()]*\))*)")
SLOTS = re.compile(r"[0-9]{1,9}")


class Stop(Exception):
    """Why there is no problem to write, in a sentence."""


class Block(NamedTuple):
    """A block: its name, its file and place in it, and the hosts of its replicas, each once."""

    name: str
    file: str
    offset: int
    bytes: int
    nodes: List[str]


class Listing(NamedTuple):
    """The blocks that a listing has, the rack of each host whose rack it tells, and how often what was left out."""

    blocks: List[Block]
    racks: Dict[str, str]
    told: "Counter[str]"


def replicas(rest: str, racks: Dict[str, str], told: "Counter[str]") -> Tuple[List[str], bool]:
    """The hosts in the brackets of a block's line, each once, and whether states are told; enters their racks."""
    _, bracket, inner = rest.partition("[")
    hosts: Dict[str, None] = {}
    has_states = False
    for words in inner.rstrip().rpartition("]")[0].split(", ") if bracket else ():
        found = REPLICA.fullmatch(words)
        if not found:
            raise Stop(f"`{words}` is no replica")
        if found["rack"]:
            racks[found["host"]] = found["rack"]
        states = [it for it in re.findall(r"\(([^()]*)\)", found["marks"]) if not it.startswith("ud=")]
        has_states = has_states or bool(states)
        if "CORRUPT" in states:
            told["replicas marked CORRUPT are left out"] += 1
        else:
            hosts[found["host"]] = None
    return list(hosts), has_states


def nodes_of(rest: str, racks: Dict[str, str], told: "Counter[str]") -> List[str]:
    """The hosts that hold a block, by what follows its length."""
    live = LIVE.search(rest)
    if "MISSING!" in rest or live and live[1] == "0":
        told["blocks without a live replica have no holder"] += 1
        return []
    nodes, has_states = replicas(rest, racks, told)
    if not nodes and has_states:
        told["blocks without a live replica have no holder"] += 1
    elif not nodes:
        told["blocks have no locations, for which fsck is to be asked by -locations"] += 1
    elif live and len(nodes) > int(live[1]) and has_states:
        told["blocks list more replicas than live ones; all but those marked CORRUPT are kept"] += 1
    elif live and len(nodes) > int(live[1]):
        told["blocks list more replicas than live ones, and -replicaDetails tells which; all are kept"] += 1
    return nodes


def read_listing(lines: Iterable[str]) -> Listing:
    """What fsck listed, without unfinished blocks and those of erasure-coded files, of which no node has the whole."""
    listing = Listing([], {}, Counter())
    file, is_whole, offset, corrupt = "", True, 0, set()
    for line in lines:
        line = line.rstrip("\r\n")
        header, block, bad = FILE.match(line), BLOCK.match(line), CORRUPT.match(line)
        if bad:
            corrupt.add(bad["name"])
        elif header:
            file, is_whole, offset = header["file"], "erasure-coded" not in (header["sort"] or ""), 0
        elif block and not is_whole:
            listing.told["blocks of erasure-coded files are left out"] += 1
        elif block and (block["open"] or "Expected_repl=" in block["rest"]):
            listing.told["blocks that are still written are left out"] += 1
        elif block:
            rest = " MISSING!" if block["name"] in corrupt else block["rest"]
            nodes = nodes_of(rest, listing.racks, listing.told)
            listing.blocks.append(Block(block["name"], file, offset, int(block["bytes"]), nodes))
            offset += int(block["bytes"])
        elif ANY_BLOCK.match(line):
            listing.told["lines of blocks that are in no form of fsck are left out"] += 1
    return listing


def read_slots(lines: Iterable[str]) -> Tuple[Dict[str, int], Dict[str, str]]:
    """The free slots of each node, and the racks that are told with them."""
    slots: Dict[str, int] = {}
    racks: Dict[str, str] = {}
    for line in lines:
        words = line.partition("#")[0].split()
        if not words:
            continue
        if len(words) > 3 or len(words) < 2 or not SLOTS.fullmatch(words[1]):
            raise Stop(f"`{' '.join(words)}` is not NODE SLOTS or NODE SLOTS RACK")
        if words[0] in slots:
            raise Stop(f"the slots of {words[0]} are told twice")
        slots[words[0]] = int(words[1])
        for rack in words[2:]:
            racks[words[0]] = f"/{rack.strip('/')}"
    return slots, racks


class Names:
    """Names that fit the format, all different, each for a thing of a kind."""

    def __init__(self) -> None:
        self.given: Dict[Tuple[str, str], str] = {}
        self.taken = set()

    def of(self, kind: str, thing: str) -> str:
        """The name of a thing, after its first word."""
        if (kind, thing) not in self.given:
            word = re.sub(r"[^A-Za-z0-9._:/-]", "-", thing.split(" ")[0])[:64] or kind
            name, number = word, 1
            while name in self.taken:
                number += 1
                name = f"{word[:63 - len(str(number))]}-{number}"
            self.taken.add(name)
            self.given[kind, thing] = name
        return self.given[kind, thing]

    def lines(self) -> Iterator[str]:
        for (kind, thing), name in self.given.items():
            thing = thing.replace("\\", "\\\\").replace("\n", "\\n")
            yield f"{name} {kind} {thing}\n"


def centres_of(racks: Iterable[str], asked: Optional[bool], told: "Counter[str]") -> Dict[str, str]:
    """The data centre of each rack, the first part of its path, or none of any: as asked, or as the paths are."""
    parts = {rack: rack.strip("/").split("/") for rack in racks}
    short = [rack for rack, path in parts.items() if len(path) < 2]
    if asked and short:
        raise Stop(f"the rack {short[0]} has no data centre before it, so --centres has none")
    if asked is False:
        return {}
    if short:
        some = len(parts) - len(short)
        told["racks have a data centre in their path, which is left out, since others have none"] += some
        return {}
    told["racks have more than two levels, and stand two steps below their first"] += sum(
        len(path) > 2 for path in parts.values()
    )
    return {rack: path[0] for rack, path in parts.items()}


def unit_of(blocks: List[Block]) -> int:
    """The least power of two, in bytes, in which each block has at most as many units as a split may."""
    unit = 1
    while any(block.bytes > MOST_BYTES * unit for block in blocks):
        unit *= 2
    return unit


def rarest_first(blocks: List[Block]) -> List[Block]:
    """The blocks, with those in front that are hardest to start on a node of theirs later: of whose nodes even the one
    with the fewest blocks has many. A planner that takes the first of equal splits then moves less over a job."""
    load = Counter(node for block in blocks for node in block.nodes)
    return sorted(blocks, key=lambda block: -min((load[node] for node in block.nodes), default=0))


def enough(kind: str, number: int, most: int) -> None:
    if number > most:
        raise Stop(f"there are {number} {kind}s, and a wave has at most {most}")


class Cluster(NamedTuple):
    """What a problem is written of: nodes with their slots and racks, racks with their centres, and blocks."""

    slots: Dict[str, int]
    rack_of: Dict[str, str]
    centre_of: Dict[str, str]
    blocks: List[Block]


def cluster_of(listing: Listing, slots: Dict[str, int], racks: Dict[str, str], asked: Optional[bool]) -> Cluster:
    """The cluster of a listing; tells what is taken for granted or cut."""
    told, held = listing.told, [node for block in listing.blocks for node in block.nodes]
    all_slots = {**slots, **{node: 0 for node in held if node not in slots}}
    told["nodes that only the listing has are workers without slots"] += len(all_slots) - len(slots)
    told[f"nodes have more than {MOST_SLOTS} slots, and are given {MOST_SLOTS}"] += sum(
        number > MOST_SLOTS for number in slots.values()
    )
    known = {**listing.racks, **racks}
    rack_of = {node: known.get(node, DEFAULT_RACK) for node in all_slots}
    told[f"nodes without a rack are in {DEFAULT_RACK}"] += sum(node not in known for node in all_slots)
    told[f"blocks have more than {MOST_HOLDERS} replicas, of which the first are kept"] += sum(
        len(block.nodes) > MOST_HOLDERS for block in listing.blocks
    )
    centres = centres_of(dict.fromkeys(rack_of.values()), asked, told)
    for kind, things in (("centre", {*centres.values()}), ("rack", {*rack_of.values()}), ("worker", all_slots)):
        enough(kind, len(things), MOST[kind])
    enough("split", len(listing.blocks), MOST["split"])
    return Cluster(all_slots, rack_of, centres, listing.blocks)


def problem_lines(cluster: Cluster, unit: int, names: Names) -> Iterator[str]:
    """The lines of a problem, sizes in units."""
    yield "problem 3"
    centre_of = cluster.centre_of or dict.fromkeys(cluster.rack_of.values(), "site")
    for centre in dict.fromkeys(centre_of.values()):
        yield f"centre {names.of('centre', centre)}"
    for rack in dict.fromkeys(cluster.rack_of.values()):
        yield f"rack {names.of('rack', rack)} {names.of('centre', centre_of[rack])}"
    for node, number in cluster.slots.items():
        yield f"worker {names.of('node', node)} {names.of('rack', cluster.rack_of[node])} {min(number, MOST_SLOTS)}"
    for block in cluster.blocks:
        name = names.of("split", f"{block.name} {block.file} {block.offset}")
        holders = [names.of("node", node) for node in block.nodes[:MOST_HOLDERS]]
        yield " ".join(["split", name, str(-(-block.bytes // unit)), *holders])
    yield "end"


def words_of(argv: Optional[List[str]]) -> argparse.Namespace:
    parser = argparse.ArgumentParser(description=__doc__, formatter_class=argparse.RawDescriptionHelpFormatter)
    parser.add_argument("listing", nargs="?", default="-", help="what fsck printed; standard input where there is none")
    parser.add_argument("--slots", required=True, metavar="FILE", help="lines NODE SLOTS [RACK]")
    centres = parser.add_mutually_exclusive_group()
    centres.add_argument("--centres", action="store_true", default=None, help="each rack has a data centre in its path")
    centres.add_argument("--no-centres", dest="centres", action="store_false", help="leave out the data centres")
    parser.add_argument("--skip", type=int, default=0, metavar="N", help="leave out the first N blocks")
    parser.add_argument("--take", type=int, metavar="N", help="take at most N blocks")
    parser.add_argument("--rarest", action="store_true", help="write first the blocks whose nodes all have many blocks")
    parser.add_argument("--names", metavar="FILE", help="write what each name stands for")
    return parser.parse_args(argv)


def some_of(listing: Listing, skip: int, take: Optional[int]) -> Listing:
    """The listing with the blocks of one wave; no block is no listing."""
    if not listing.blocks:
        raise Stop("no block is listed: fsck is to be asked by -files -blocks -locations -racks")
    if skip < 0 or take is not None and take < 1:
        raise Stop(f"--skip {skip}: there may be 0 or more" if skip < 0 else f"--take {take}: there may be 1 or more")
    blocks = listing.blocks[skip:] if take is None else listing.blocks[skip : skip + take]
    if not blocks:
        raise Stop(f"--skip {skip}: there are {len(listing.blocks)} blocks")
    listing.told["blocks are left out by --skip and --take"] += len(listing.blocks) - len(blocks)
    return listing._replace(blocks=blocks)


def write(asked: argparse.Namespace) -> None:
    try:
        with open(asked.slots, encoding="utf-8") as file:
            slots, racks = read_slots(file)
    except UnicodeDecodeError:
        raise Stop(f"{asked.slots} is no UTF-8") from None
    source = sys.stdin.fileno() if asked.listing == "-" else asked.listing
    with open(source, encoding="utf-8", errors="replace") as file:
        listing = some_of(read_listing(file), asked.skip, asked.take)
    if asked.rarest:
        listing = listing._replace(blocks=rarest_first(listing.blocks))
    cluster, names = cluster_of(listing, slots, racks, asked.centres), Names()
    unit = unit_of(cluster.blocks)
    lines = [f"{line}\n" for line in problem_lines(cluster, unit, names)]
    for words, count in listing.told.items():
        if count:
            print(f"{count} {words}", file=sys.stderr)
    if unit > 1:
        print(f"sizes are in units of {unit} bytes, rounded up: so is the cost of a plan", file=sys.stderr)
    if asked.names:
        with open(asked.names, "w", encoding="utf-8") as file:
            file.writelines(names.lines())
    sys.stdout.writelines(lines)


def main(argv: Optional[List[str]] = None) -> int:
    asked = words_of(argv)
    try:
        write(asked)
    except (Stop, OSError) as why:
        print(f"problem_of_hdfs.py: {why}", file=sys.stderr)
        return 1
    return 0


if __name__ == "__main__":
    signal.signal(signal.SIGPIPE, signal.SIG_DFL)  # (a reader that stops reading ends it quietly)
    sys.exit(main())

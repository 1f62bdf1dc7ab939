#!/usr/bin/env python3
"""Tries contrib/problem_of_hdfs.py on the listings of contrib/samples, and plans its problems by a built program. The plan
of a great cluster is certified by contrib/certify.py.

    hdfs.py PROGRAM..

The problems beside the samples, what is told and the waves were found by hand. The last line is 'N passed, M failed'.
"""
import random
import re
import subprocess
import sys
import tempfile
from pathlib import Path

ROOT = Path(__file__).resolve().parent.parent
sys.dont_write_bytecode = True
sys.path.append(str(ROOT / "contrib"))
from certify import answer

SAMPLES = ROOT / "contrib/samples"
NODES = [
    "4 nodes without a rack are in /default-rack",
    "1 racks have a data centre in their path, which is left out, since others have none",
]
OTHER = ["1 nodes that only the listing has are workers without slots"]
BAD = ["2 blocks without a live replica have no holder"]
# Of each sample the words, what is told, and the first line of its plan.
CASES = {
    "hdfs_2_racks": (["--no-centres"], BAD + OTHER, "wave 3 0"),
    "hdfs_2": ([], NODES, "wave 2 1200"),
    "hdfs_3_racks": (
        [],
        ["1 blocks of erasure-coded files are left out", *BAD, "1 replicas marked CORRUPT are left out", *OTHER],
        "wave 3 0",
    ),
    "hdfs_3": (
        [],
        ["1 blocks list more replicas than live ones, and -replicaDetails tells which; all are kept",
         "1 blocks that are still written are left out", *NODES],
        "wave 2 1200",
    ),
}


class Count:
    passed = failed = 0

    def holds(self, says, is_so, shown=""):
        self.passed, self.failed = self.passed + bool(is_so), self.failed + (not is_so)
        if not is_so:
            print(f"{says}: FAILED", shown)


def problem(listing, *words, slots=SAMPLES / "slots.txt"):
    """The output, what is told, and the status."""
    command = [sys.executable, str(ROOT / "contrib/problem_of_hdfs.py"), "--slots", str(slots), *words, "-"]
    listing = listing if isinstance(listing, bytes) else listing.encode()
    ran = subprocess.run(command, input=listing, capture_output=True)
    return ran.stdout.decode(), ran.stderr.decode().splitlines(), ran.returncode


def listing_of(blocks, nodes, size=5, rack="/c/r{}"):
    """A listing of a file whose blocks lie on one node each, in turn."""
    lines = [f"/data/file {blocks * size} bytes, {blocks} block(s):  OK"]
    lines += [
        f"{it}. BP-1-10.0.0.1-1:blk_{it + 1}_1 len={size} repl=1 [{rack.format(it % nodes)}/10.0.0.{it % nodes}:50010]"
        for it in range(blocks)
    ]
    return "\n".join([*lines, ""])


def samples(count, programs):
    for name, (words, told, wave) in CASES.items():
        said = problem((SAMPLES / f"{name}.txt").read_text(), *words)
        wanted = (SAMPLES / f"{name}.problem").read_text()
        count.holds(name, said == (wanted, told, 0), said)
        for program in programs:
            ran = subprocess.run([program, "plan"], input=wanted, capture_output=True, text=True)
            count.holds(f"{name}, planned by {program}", ran.stdout.splitlines()[:1] == [wave], ran.stdout)


def refusals(count):
    """What is past a limit is told, and nothing is written."""
    for listing, words, says in (
        ("nothing\n", [], "no block is listed"),
        (listing_of(131_073, 2), [], "there are 131073 splits"),
        (listing_of(4100, 4100), ["--take", "4095"], "there are 4097 racks"),
        ((SAMPLES / "hdfs_2.txt").read_text(), ["--centres"], "the rack /default-rack has no data centre"),
        ("/f 1 bytes, 1 block(s): OK\n0. blk_1_1 len=1 repl=1 [x y]\n", [], "`x y` is no replica"),
        (listing_of(2, 2), ["--skip", "-1"], "--skip -1: there may be 0 or more"),
        (listing_of(2, 2), ["--skip", "2"], "--skip 2: there are 2 blocks"),
        (listing_of(2, 2), ["--take", "0"], "--take 0: there may be 1 or more"),
    ):
        said, told, status = problem(listing, *words)
        count.holds(says, (said, status) == ("", 1) and says in told[-1], (said, told))


def slots_refused(count):
    """A slots file that is not as it should be is told in one line."""
    with tempfile.TemporaryDirectory() as room:
        slots = Path(room) / "slots"
        for text, says in (
            (b"a 1\nb \xc2\xb2\n", "`b \u00b2` is not NODE SLOTS or NODE SLOTS RACK"),
            (b"a -1\n", "`a -1` is not NODE SLOTS or NODE SLOTS RACK"),
            (b"a\n", "`a` is not NODE SLOTS or NODE SLOTS RACK"),
            (b"a 1 /r x\n", "`a 1 /r x` is not NODE SLOTS or NODE SLOTS RACK"),
            (b"a " + b"1" * 5000 + b"\n", "` is not NODE SLOTS or NODE SLOTS RACK"),
            (b"a 1\nb\xff 1\n", f"{slots} is no UTF-8"),
            (b"a 1\nb 1\na 2\n", "the slots of a are told twice"),
        ):
            slots.write_bytes(text)
            said, told, status = problem(listing_of(1, 1), slots=slots)
            is_so = (said, status, len(told)) == ("", 1, 1) and told[0].endswith(says)
            count.holds(f"of slots {text[:20]}", is_so, (said, told, status))
        slots.write_text("# the free slots\n10.0.0.0 3 # of a small one\n\n")
        said, told, status = problem(listing_of(1, 1), slots=slots)
        is_so = "worker 10.0.0.0 /c/r0 3\n" in said and (told, status) == ([], 0)
        count.holds("comments of slots", is_so, (said, told))
    said, told, status = problem(listing_of(1, 1), slots=Path("/nowhere/slots"))
    count.holds("no file of slots", (said, status, len(told)) == ("", 1, 1), (said, told))


REPLICAS = "DatanodeInfoWithStorage[10.0.1.21:9866,DS-1,DISK]{}, DatanodeInfoWithStorage[10.0.2.31:9866,DS-2,DISK]{}"
OPEN = "{{blockUCState={}, primaryNodeIndex=-1, replicas=[ReplicaUC[[DISK]DS-1:NORMAL:10.0.1.21:50010|RBW]]}}"
WRITTEN, FORM = "1 blocks that are still written", "1 lines of blocks that are in no form of fsck"
MORE, CORRUPT = "1 blocks list more replicas than live ones", "1 replicas marked CORRUPT"
BOTH = "10.0.1.21 10.0.2.31"
# Lines of a block, what is told of them, and the holders in the problem, or None where the block is left out.
LINES = [
    (f"{OPEN.format('UNDER_CONSTRUCTION')} len=9 repl=1 [10.0.1.21:50010]", WRITTEN, None),
    (f"{OPEN.format('COMMITTED')} len=9 repl=1 [10.0.1.21:50010]", WRITTEN, None),
    ("{UCState=UNDER_CONSTRUCTION, truncateBlock=null} len=9 MISSING!", WRITTEN, None),
    (" len=9 Expected_repl=1 [10.0.1.21:9866]", WRITTEN, None),
    (" size=9 [10.0.1.21:9866]", FORM, None),
    (f" len={'9' * 5000} repl=1 [10.0.1.21:9866]", FORM, None),
    (f" len=9 Live_repl=1 [{REPLICAS.format('(ud=a)(CORRUPT)', '(ud=b)(LIVE)')}]", CORRUPT, "10.0.2.31"),
    (f" len=9 Live_repl=2 [{REPLICAS.format('(ud=CORRUPT)', '(ud=)')}]", "", BOTH),
    (f" len=9 Live_repl=1 [{REPLICAS.format('', '')}]", f"{MORE}, and -replicaDetails tells which; all are kept", BOTH),
    (f" len=9 Live_repl=1 [{REPLICAS.format('(DECOMMISSIONED)', '(LIVE)')}]",
     f"{MORE}; all but those marked CORRUPT are kept", BOTH),
    (f" len=9 Live_repl=0 [{REPLICAS.format('(IN MAINTENANCE)', '(EXCESS)')}]", "1 blocks without a live replica", ""),
    (f" len=9 Live_repl=1 [{REPLICAS.format('(CORRUPT)', '(CORRUPT)')}]", "1 blocks without a live replica", ""),
    (" len=9 repl=1", "1 blocks have no locations", ""),
]


def of_blocks(count):
    """What is made of each form of a block's line."""
    whole = "1. BP-1-10.0.0.1-1:blk_8_1 len=5 repl=1 [10.0.1.22:50010]"
    for line, says, holders in LINES:
        listing = f"/f 14 bytes, 2 block(s):  OK\n0. BP-1-10.0.0.1-1:blk_7_1{line}\n{whole}\n"
        said, told, status = problem(listing)
        found = [it.partition(" 9")[2].strip() for it in said.splitlines() if it.startswith("split blk_7 ")]
        is_so = status == 0 and found == ([] if holders is None else [holders])
        told = [it for it in told if it not in NODES]
        is_told = [it for it in told if says in it] if says else not told
        count.holds(line[:90], is_so and is_told and "split blk_8 5 10.0.1.22\n" in said, (said, told))


def levels(count):
    """Racks of two levels stand in their centres, and those of more two steps below the first."""
    with tempfile.TemporaryDirectory() as room:
        slots = Path(room) / "slots"
        slots.write_text("a 1 /east/r1\nb 1 /west/r1\nc 1 /west/hall/r1\n")
        said, told, _ = problem(listing_of(1, 1), slots=slots)
        racks = "rack /east/r1 east\nrack /west/r1 west\nrack /west/hall/r1 west\nrack /c/r0 c\n"
        is_so = said.startswith("problem 3\ncentre east\ncentre west\ncentre c\n" + racks)
        count.holds("racks of two and three levels", is_so and told[0].startswith("1 nodes that only"), said)
        deep = ["1 racks have more than two levels, and stand two steps below their first"]
        count.holds("three levels are told", told[1:] == deep, told)
        said, told, _ = problem(listing_of(1, 1), "--no-centres", slots=slots)
        racks = "rack /east/r1 site\nrack /west/r1 site\nrack /west/hall/r1 site\nrack /c/r0 site\n"
        is_so = said.startswith("problem 3\ncentre site\n" + racks)
        count.holds("--no-centres", is_so and len(told) == 1, (said, told))


def sizes(count):
    """Blocks have their own sizes, up to the most bytes of a split."""
    said, told, _ = problem(listing_of(1, 1, size=134_217_728, rack="/r{}"))
    is_so = "\nsplit blk_1 134217728 10.0.0.0\n" in said and "\nrack /r0 site\n" in said
    count.holds("a block of 128 MiB", is_so and "units" not in told[-1], (said, told))
    said, told, _ = problem(listing_of(1, 1, size=8_589_934_593))
    unit = "sizes are in units of 2 bytes, rounded up: so is the cost of a plan"
    is_so = "\nsplit blk_1 4294967297 10.0.0.0\n" in said and told[-1] == unit
    count.holds("a block of more than 8 GiB", is_so, (said, told))


def great(count, programs):
    """A listing of a great cluster, where each node has slots for the blocks that it holds: all start where they lie."""
    blocks, nodes = 102_400, 25_600
    lines = [f"/data/file {blocks << 27} bytes, {blocks} block(s):  OK"]
    lines += [
        f"{it}. BP-1-10.0.0.1-1:blk_{it}_1 len=134217728 repl=1 [/c{rack % 4}/r{rack}/h{node}:9866]"
        for it, node, rack in ((it, it % nodes, it % nodes // 16) for it in range(blocks))
    ]
    with tempfile.TemporaryDirectory() as room:
        slots = Path(room) / "slots"
        slots.write_text("".join(f"h{node} 4\n" for node in range(nodes)))
        said, told, status = problem("\n".join([*lines, ""]), slots=slots)
    count.holds("a great cluster", (told, status) == ([], 0), (told, status))
    for program in programs:
        ran = subprocess.run([program, "plan", "--prices"], input=said, capture_output=True, text=True)
        wave, _, plan = ran.stdout.partition("\n")
        count.holds(f"a great cluster, planned by {program}", wave == "wave 102400 0", wave[:80])
        text = said.removesuffix("end\n") + f"plan\n{plan}end\n"
        told = answer(text.encode())
        count.holds(f"a great cluster, planned by {program}, certified by certify.py", told == ("certified 102400 0", 0), told)


def any_bytes(count):
    """Whatever bytes are given, in the listing or in the slots, there is a problem or one line, and no traceback."""
    rnd = random.Random(51)
    samples = [path.read_bytes() for path in sorted(SAMPLES.glob("hdfs_*.txt"))]
    given_slots = (SAMPLES / "slots.txt").read_bytes()

    def spoilt(data):
        data = bytearray(data)
        for _ in range(rnd.randint(1, 12)):
            at = rnd.randrange(len(data))
            some = rnd.choice([bytes([rnd.randrange(256)]), *b"|\n|\0|\xc2\xb2|[|(|{|9999999999".split(b"|")])
            data[at : at + rnd.choice([0, 1, 1, 30])] = some
        return bytes(data)

    with tempfile.TemporaryDirectory() as room:
        slots, wrong = Path(room) / "slots", []
        for at in range(120):
            slots.write_bytes(spoilt(given_slots) if at % 3 == 0 else given_slots)
            listing = spoilt(rnd.choice(samples)) if at % 3 else rnd.choice(samples)
            try:
                said, told, status = problem(listing, slots=slots)
                if status not in (0, 1) or bool(said) != (status == 0) or [it for it in told if "Traceback" in it]:
                    wrong.append((listing, told))
            except UnicodeDecodeError as why:
                wrong.append((listing, why))
        count.holds("spoilt listings and slots", not wrong, wrong[:1])


def parts(count):
    """A part of a listing makes a problem; names that fit no format are made fit."""
    said, told, status = problem(listing_of(1025, 2), "--skip", "1", "--take", "2")
    lines = [line for line in said.splitlines() if line.startswith("split")]
    wanted = ["split blk_2 5 10.0.0.1", "split blk_3 5 10.0.0.0"]
    is_so = (lines, status) == (wanted, 0) and told[0].startswith("1023 blocks")
    count.holds("--skip and --take", is_so, (lines, told))
    alone = "2. BP-1-10.0.0.1-1:blk_3_1 len=5 repl=2 [/c/r0/10.0.0.0:50010, /c/r1/10.0.0.1:50010]\n"
    said, _, _ = problem(listing_of(2, 2) + alone + alone.replace("blk_3", "blk_4").split(", ")[0] + "]\n", "--rarest")
    found = re.findall(r"^split (\S+)", said, re.M)
    count.holds("--rarest", found == ["blk_1", "blk_4", "blk_2", "blk_3"], said)
    with tempfile.TemporaryDirectory() as room:
        slots, names = Path(room) / "slots", Path(room) / "names"
        slots.write_text("node=one 256 a+b\nnode_one 1 a=b\n")
        said, told, _ = problem(listing_of(1, 1), "--names", str(names), slots=slots)
        count.holds("racks that would be called alike", "rack /a-b site\nrack /a-b-2 site\n" in said, said)
        count.holds("more slots than a worker may have", "worker node-one /a-b 255" in said and "256" not in said, said)
        count.holds("what names stand for", "node-one node node=one\n" in names.read_text(), names.read_text())


def main():
    count = Count()
    samples(count, sys.argv[1:])
    great(count, sys.argv[1:])
    refusals(count)
    slots_refused(count)
    of_blocks(count)
    levels(count)
    sizes(count)
    parts(count)
    any_bytes(count)
    print(f"{count.passed} passed, {count.failed} failed")
    return int(count.failed != 0)


if __name__ == "__main__":
    sys.exit(main())

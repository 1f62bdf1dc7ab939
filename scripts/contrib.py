#!/usr/bin/env python3
"""Tries the scripts of contrib/ beside built programs.

    contrib.py PROGRAM..

The examples in each script's help run, and a script whose reader leaves ends quietly. certify.py answers what `check`
answers: the examples, 860 made texts, those at the limits on counts and plans of a great cluster. The starts of plans come to their cost. A least
flow over dimacs_of_problem.py's network, by a search of its own, starts and costs what `plan` says, and so does
plan_places.py. The jobs and scripts of job_of_files.py have the index that is made here of the files, lie on workers as
HDFS places blocks, and past a limit none is written. The pictures of the docs are what picture.py makes of the samples
anew, whose answers are a best plan and a report; pictures of many shapes fit a page, and a history is drawn as its report is. What `make install`
puts into an empty folder runs from there, and `make uninstall` leaves nothing. README's commands write what it shows of
them, and each link of the documents leads somewhere. The last line counts.
"""
import ast
import collections
import csv
import heapq
import io
import json
import os
import random
import re
import shlex
import shutil
import signal
import subprocess
import sys
import tempfile
from concurrent.futures import ThreadPoolExecutor
from pathlib import Path
from xml.etree import ElementTree

sys.dont_write_bytecode = True
import demo
import make_texts
import pictures
import readme
from crates import ROOT, read_crates, version
from reference_play import misplayed

sys.path.append(str(ROOT / "contrib"))
import job_of_files
from certify import answer
from drawing import cut
from picture_of_plan import draw_plan
from picture_of_report import draw_report
from plan_places import planned
from texts import Fault

CONTRIB, EXAMPLES = ROOT / "contrib", ROOT / "examples"
TALES = CONTRIB / "samples/tales"
SCRIPTS = [it.name for it in sorted(CONTRIB.glob("*.py")) if it.read_text().startswith("#!")]
CERTIFIED = {
    "best": 120, "changed": 200, "faulty": 180, "placed": 60, "changed_placed": 100, "faulty_placed": 200,
}


def said(words, given=b""):
    """What a command writes, on both streams, and its status."""
    ran = subprocess.run([str(it) for it in words], input=given, stdout=subprocess.PIPE, stderr=subprocess.PIPE)
    return ran.stdout, ran.stderr.decode(), ran.returncode


def script(name, *words, given=b""):
    return said([sys.executable, CONTRIB / name, *words], given)


class Counted:
    """Counts what holds, and shows what does not."""

    def __init__(self):
        self.passed = self.failed = 0

    def expect(self, name, found, wanted=True):
        if found == wanted:
            self.passed += 1
            print(f"{name}: ok", flush=True)
        else:
            self.failed += 1
            print(f"{name}: FAILED, with {str(found)[:600]} and not {str(wanted)[:600]}", flush=True)

    def none(self, name, wrong):
        """All of a group hold, where the list of what is wrong is empty."""
        self.expect(name, list(wrong)[:3], [])


def plain(count):
    """Each script is Python 3.8 over the standard library, and its help ends well."""
    own = {it.stem for it in CONTRIB.glob("*.py")}
    for path in sorted(CONTRIB.glob("*.py")):
        tree = ast.parse(path.read_text(), feature_version=(3, 8))
        names = [name.name for it in ast.walk(tree) if isinstance(it, ast.Import) for name in it.names]
        names += [it.module for it in ast.walk(tree) if isinstance(it, ast.ImportFrom)]
        known = own | set(getattr(sys, "stdlib_module_names", names))
        count.none(f"{path.name} imports the standard library alone", {it.split(".")[0] for it in names} - known)
    for name in SCRIPTS:
        out, wrong, status = script(name, "--help")
        count.expect(f"{name} --help", (b"contrib/" in out, wrong, status), (True, "", 0))


def help_examples(count, program):
    """The commands in each script's help run."""
    for name in SCRIPTS:
        doc = ast.get_docstring(ast.parse((CONTRIB / name).read_text()))
        for line in re.findall(r"^ {4}(contrib/.*)$", doc, re.M):
            # (what would go to a file is read here)
            words = line.partition(" > ")[0].replace("bin/mrjob", shlex.quote(str(program)))
            ran = subprocess.run(["bash", "-o", "pipefail", "-c", words], cwd=ROOT, capture_output=True)
            count.expect(line, (ran.returncode, bool(ran.stdout)), (0, True))


def left(count):
    """Each script whose reader has gone away is ended by that, without a word."""
    swap, plan, samples = EXAMPLES / "plan_swap.txt", EXAMPLES / "plan_swap.out", CONTRIB / "samples"
    given = {
        "certify.py": ([], EXAMPLES / "swap.txt"),
        "dimacs_of_problem.py": ([], swap),
        "job_of_files.py": ([TALES], swap),
        "page_of_history.py": ([samples / "job.txt", samples / "job.out"], swap),
        "picture.py": ([swap, plan], swap),
        "plan_places.py": ([], EXAMPLES / "plan_places.txt"),
        "problem_of_moosefs.py": (["--servers", samples / "moosefs_servers.txt"], samples / "moosefs.txt"),
        "problem_of_hdfs.py": (["--slots", samples / "slots.txt"], samples / "hdfs_3.txt"),
        "starts_of_plan.py": ([swap], plan),
    }
    count.expect("the scripts whose reader goes away", sorted(given), SCRIPTS)
    for name, (words, file) in given.items():
        here, there = os.pipe()
        os.close(here)
        with open(file) as text:
            words = [sys.executable, CONTRIB / name, *words]
            ran = subprocess.run(words, stdin=text, stdout=there, stderr=subprocess.PIPE, text=True)
        os.close(there)
        is_quiet = not re.search("Traceback|BrokenPipe|Errno", ran.stderr)
        count.expect(f"{name} without a reader", (ran.returncode, is_quiet), (-signal.SIGPIPE, True))


def helped(count, program):
    """The examples in the program's own help run, and the page that it names is there."""
    for words in ([], ["check"], ["plan"], ["play"], ["serve"], ["run"]):
        text = said([program, *words, "--help"])[0].decode()
        tried = re.findall(r"mrjob (.*) < (examples/\S+)", text)
        count.expect(f"mrjob {' '.join(words)} --help has examples", len(tried), 1 if words else 4)
        for asks, name in tried:
            ran = said([program, *asks.split()], (ROOT / name).read_bytes())
            count.expect(f"mrjob {asks} < {name}", (bool(ran[0]), *ran[1:]), (True, "", 0))
        pages = re.findall(r"docs/\S+\.md", text)
        count.expect(f"mrjob {' '.join(words)} --help names a page", [(ROOT / it).exists() for it in pages], [True])


def made(kind, some):
    return [make_texts.KINDS[kind](random.Random(seed)) for seed in range(1, some + 1)]


def certified(count, program):
    """certify.py answers what check answers."""
    examples = [it for it in sorted(EXAMPLES.glob("*.txt")) if not it.with_suffix(".args").exists()]
    for path in examples:
        wanted = (path.with_suffix(".out").read_bytes(), "", int(path.with_suffix(".status").read_text()))
        count.expect(f"certify.py < examples/{path.name}", script("certify.py", given=path.read_bytes()), wanted)
    groups = {f"{some} {kind} texts": made(kind, some) for kind, some in CERTIFIED.items()}
    groups["texts at the limits"] = [
        make_texts.limit(kind, over, version) for version in (2, 3) for kind in make_texts.MOST for over in (0, 1)
    ]
    groups["texts of the greatest reward"] = [make_texts.dearest(over) for over in (0, 1)]
    groups["all examples"] = [path.read_bytes() for path in sorted(EXAMPLES.glob("*.txt"))]
    for name, texts in groups.items():
        with ThreadPoolExecutor() as pool:
            answers = list(pool.map(lambda text: said([program, "check"], text), texts))
        found = [(f"{line}\n".encode(), "", status) for line, status in map(answer, texts)]
        count.none(f"certify.py on {name}", [it for it in zip(texts, found, answers) if it[1] != it[2]])


def certified_great(count, program):
    """certify.py and check certify plans of 102,400 splits on 25,600 workers."""
    for shape in ("just_enough", "scarce"):
        text = said([ROOT / "bench/make_problems.py", shape, 102_400, 4, 25_600])[0]
        planned = said([program, "plan", "--prices"], text)[0]
        wave, _, plan = planned.partition(b"\n")
        text = text.removesuffix(b"end\n") + b"plan\n" + plan + b"end\n"
        wanted = wave.replace(b"wave", b"certified").decode()
        count.expect(f"certify.py on a great cluster, {shape}", answer(text), (wanted, 0))
        count.expect(f"check on a great cluster, {shape}", said([program, "check"], text), (f"{wanted}\n".encode(), "", 0))


def problems():
    """The examples that are planned, and made problems, also with prices of places, without those that have a fault."""
    for path in sorted(EXAMPLES.glob("plan_*.txt")):
        if path.with_suffix(".status").read_text().strip() == "0":
            yield path.read_bytes()
    yield from made("problem", 40)
    yield from made("placed_problem", 40)


def charged(line):
    """How many splits start by the first line of a plan or of a check, and what they are charged in all."""
    _, started, *costs = line.split()
    return int(started), sum(map(int, costs))


def started(count, program):
    """The rows of starts are those of the plans, and come to their costs."""
    wanted = "split,worker,rack,distance,bytes_moved\ns,b,r,2,10\nt,a,r,0,0\n"
    swap, plan = EXAMPLES / "plan_swap.txt", (EXAMPLES / "plan_swap.out").read_bytes()
    count.expect("the starts of plan_swap", script("starts_of_plan.py", swap, given=plan), (wanted.encode(), "", 0))
    wrong = []
    with tempfile.NamedTemporaryFile() as file:
        for text in problems():
            Path(file.name).write_bytes(text)
            plan = said([program, "plan", "--prices"], text)[0]
            rows = list(csv.DictReader(io.StringIO(script("starts_of_plan.py", file.name, given=plan)[0].decode())))
            objects = script("starts_of_plan.py", "--format", "json", file.name, given=plan)[0].splitlines()
            cost = sum(int(row["distance"]) * int(row["bytes_moved"]) for row in rows)
            starts = [f"start {row['split']} {row['worker']}".encode() for row in rows]
            same = [{key: str(value) for key, value in json.loads(it).items()} for it in objects] == rows
            first, *lines = plan.splitlines()
            if not same or first.split()[:3] != f"wave {len(rows)} {cost}".encode().split() or lines[: len(rows)] != starts:
                wrong.append((text, plan, rows))
    count.none("the starts of made problems", wrong)
    for name, false in {
        "a cost that is not theirs": b"wave 2 21\nstart s b\nstart t a\n",
        "a slot too many": b"wave 2 0\nstart s a\nstart t a\n",
        "a split twice": b"wave 2 0\nstart t a\nstart t b\n",
        "an unknown worker": b"wave 1 0\nstart t c\n",
        "a worker that is a rack": b"wave 1 0\nstart t r\n",
        "half a line": b"wave 1 0\nstart t\n",
        "half a price": b"wave 1 0\nstart t a\nprice s\n",
        "a price that is no number": b"wave 1 0\nstart t a\nprice s \xb2\n",
        "a fault": b"line 2: fault 7\n",
        "nothing": b"",
    }.items():
        out, _, status = script("starts_of_plan.py", swap, given=false)
        count.expect(f"no starts of {name}", (out, status), (b"", 1))


def least_flow(lines):
    """The cost of a least flow of a DIMACS text, by shortest paths from a source that feeds all others."""
    arcs, residual = [], collections.defaultdict(list)

    def join(start, end, capacity, cost):
        residual[start].append(len(arcs))
        residual[end].append(len(arcs) + 1)
        arcs.extend([[end, capacity, cost], [start, 0, -cost]])

    for words in (line.split() for line in lines):
        if words[0] == "n":
            node, supply = int(words[1]), int(words[2])
            join(*((0, node) if supply > 0 else (node, -1)), abs(supply), 0)
        elif words[0] == "a":
            start, end, low, capacity, cost = map(int, words[1:])
            assert low == 0
            join(start, end, capacity, cost)
    depth, total = collections.defaultdict(int), 0
    while True:
        near, by, heap = {0: 0}, {}, [(0, 0)]
        while heap:
            far, node = heapq.heappop(heap)
            if far > near[node]:
                continue
            for at in residual[node]:
                end, room, cost = arcs[at]
                length = far + cost + depth[node] - depth[end]
                if room and length < near.get(end, length + 1):
                    near[end], by[end] = length, at
                    heapq.heappush(heap, (length, end))
        if -1 not in near:
            return total
        for node, far in near.items():
            depth[node] += min(far, near[-1]) - near[-1]
        node = -1
        while node:
            at = by[node]
            arcs[at][1] -= 1
            arcs[at ^ 1][1] += 1
            total += arcs[at][2]
            node = arcs[at ^ 1][0]


def flows(count, program):
    """A least flow of the DIMACS text starts as many splits at the same cost as the plan."""
    wrong = []
    for text in problems():
        lines = script("dimacs_of_problem.py", given=text)[0].decode().splitlines()
        reward, flow = int(lines[0].split()[2]), least_flow(lines[2:])
        pending = sum(line.startswith("n ") for line in lines) - 1
        nodes, arcs = map(int, lines[1].split()[2:])
        shape = (sum(it.startswith("c node") for it in lines), sum(it.startswith("a ") for it in lines))
        least, plan = (pending - flow // reward, flow % reward), said([program, "plan"], text)[0].splitlines()[0]
        if (nodes, arcs) != shape or charged(plan) != least:
            wrong.append((text, lines, plan))
    count.none("least flows cost what plans cost", wrong)
    out, _, status = script("dimacs_of_problem.py", given=b"problem 3\n")
    count.expect("no flow of a fault", (out, status), (b"", 1))


def priced(count, program):
    """plan_places.py starts as many splits at the same charge as the plan."""
    wrong = []
    for text in problems():
        plan = said([program, "plan"], text)[0].decode().splitlines()[0]
        certified = said([program, "check"], planned(text).encode())[0].decode()
        if not certified.startswith("certified ") or charged(certified) != charged(plan):
            wrong.append((text, plan, certified))
    count.none("plans of plan_places.py cost what plans cost", wrong)
    out, _, status = script("plan_places.py", given=b"problem 3\n")
    count.expect("no plan of places of a fault", (out, status), (b"", 1))


def index_of(names):
    """The index of the files of a list of names and files, made one after another."""
    index = collections.defaultdict(list)
    for line in names.splitlines():
        name, path = line.split("\t")[:2]
        if name != "-":
            for word in set(re.findall(rb"[a-z]+", Path(path).read_bytes().lower())):
                index[word.decode()].append(name)
    return "".join([f"index {len(index)}\n", *(f"word {it} {' '.join(index[it])}\n" for it in sorted(index))])


SETTINGS = [
    [],
    ["--block", "1"],
    ["--racks", "1", "--workers", "1", "--slots", "1", "--replicas", "8", "--block", "100"],
    ["--racks", "6", "--workers", "12", "--centres", "3", "--parts", "64", "--block", "130"],
    ["--racks", "32", "--workers", "32", "--slots", "16", "--centres", "8", "--parts", "1", "--seed", "7"],
    ["--racks", "33", "--workers", "40", "--slots", "17", "--centres", "9", "--replicas", "16", "--block", "100"],
    ["--only", "*.txt", "--replicas", "1"],
]


def indexed(count, program, room):
    """The index of a job and of a script is that of the files. A link, which is left out, is put beside them."""
    names, tales = room / "names", room / "tales"
    shutil.copytree(TALES, tales)
    (tales / "south/link.txt").symlink_to("wind.txt")
    (tales / "north/zero\nend\t.bin").write_bytes(b"\0")
    (tales / "north" / ("x" * 60)).touch()
    for words in SETTINGS:
        words = [tales, *words, "--names", names]
        job, script_text = (script("job_of_files.py", *words, *more)[0] for more in ([], ["--script"]))
        index = index_of(names.read_text()).encode()
        shown = " ".join(str(it) for it in words[1:-2]) or "nothing"
        count.expect(f"run of a job of files, {shown}", said([program, "run"], job), (index, "", 0))
        report, wrong, status = said([program, "play"], script_text)
        lines = report.decode().splitlines()
        is_played = not [line for line in lines if line.startswith("ignored")] and report.endswith(b"\n" + index)
        count.expect(f"play of a script of files, {shown}", (is_played, wrong, status), (True, "", 0))
    out, told, _ = script("job_of_files.py", tales, "--names", names)
    count.expect("what was left out", [it.split("/")[-1] for it in re.findall("(?m)^-.*$", names.read_text())],
                 ["link.txt\ta link", *(f"{it}.bin\ta zero byte, so no text" for it in ("zero\\nend\\t", "zero"))])
    told = [line.partition(": ")[2] for line in told.splitlines()]
    count.expect("what was changed", told, [
        "8 files of 438 bytes are documents in 1 splits",
        "12 line ends and 11 other bytes outside printable ASCII became spaces",
        "3 names differ from their file's path, 1 cut to 64 characters and 1 numbered",
        "1 left out: a link",
        "2 left out: a zero byte, so no text",
    ])
    texts = [line.split(b" ", 3)[3] for line in out.splitlines() if line.startswith(b"doc ")]
    paths = [line.split("\t")[1] for line in names.read_text().splitlines() if line[0] != "-"]
    files = [re.sub(rb"[^ -~]", b" ", Path(path).read_bytes()) for path in paths]
    count.expect("each byte of a file stands in its document, or a space for it", texts, files)


def large(count, program, room):
    """The index of a job past what versions 1 and 2 take: a text of 18 MB, and 2,000 splits."""
    folder, names = room / "large", room / "names"
    folder.mkdir()
    words = ["word" + "".join(chr(97 + int(digit)) for digit in str(number)) for number in range(1000)]
    for number in range(2000):
        some = random.Random(number).choices(words, k=1200)
        (folder / f"{number:04}").write_text(" ".join(some))
    job = script("job_of_files.py", folder, "--block", "1", "--names", names)[0]
    is_past = len(job) > 16_777_216 and job.count(b"\nsplit ") == 2000
    count.expect("the job of large files is past version 2", is_past)
    index = index_of(names.read_text()).encode()
    count.expect("run of a job of large files", said([program, "run"], job), (index, "", 0))


def misplaced(lines, racks, workers, replicas):
    """The splits whose replicas do not lie as HDFS places them by default."""
    rack_of = {line.split()[1]: line.split()[2] for line in lines if line.startswith("worker ")}
    sizes = collections.Counter(rack_of.values())
    wanted = min(replicas, workers)
    for line in (it for it in lines if it.startswith("split ")):
        held = line.split()[3:]
        at = [rack_of[name] for name in held]
        most = max(collections.Counter(at).values())
        fits = len(set(held)) == len(held) == wanted and (racks == 1 or most <= (wanted - 1) // racks + 2)
        if racks > 1 and wanted > 1:
            fits = fits and at[1] != at[0]
        if racks > 1 and wanted > 2:
            fits = fits and (at[2] == at[1] or sizes[at[1]] == 1)
        if not fits:
            yield line


def placed(count, room):
    """Replicas lie as HDFS places them."""
    many = room / "many"
    many.mkdir()
    for number in range(300):
        (many / f"{number}").write_text("x")
    shapes = [(1, 5, 3), (2, 2, 3), (2, 5, 3), (4, 4, 3), (4, 16, 3), (4, 16, 8), (3, 7, 2), (5, 9, 1)]
    for racks, workers, replicas in shapes:
        words = [many, "--block", "1", "--racks", racks, "--workers", workers, "--replicas", replicas]
        lines = script("job_of_files.py", *words)[0].decode().splitlines()
        wrong = misplaced(lines, racks, workers, replicas)
        count.none(f"{replicas} replicas on {workers} workers in {racks} racks", wrong)
        held = {name for line in lines if line.startswith("split ") for name in line.split()[3:]}
        count.expect(f"each of the {workers} workers holds some", len(held), workers)
    again = [script("job_of_files.py", many, "--block", "1", "--seed", seed)[0] for seed in (1, 1, 2)]
    count.expect("the same seed, the same text", (again[0] == again[1], again[0] == again[2]), (True, False))


def refused(count, room):
    """Past a limit nothing is written, and a sentence says which."""
    folder = lambda name, files: [room / name, *((room / name / at, text) for at, text in files)]
    rooms = [
        folder("bytes", [("one", "x" * 200_000_000), ("two", "x" * 68_435_457)]),
        folder("text", [("one", "x" * 200_000_000), ("two", "x" * 68_435_456)]),
        folder("fits", [("one", "x" * 200_000_000), ("two", "x" * 68_435_268)]),
        folder("empty", []),
    ]
    for path, *files in rooms:
        path.mkdir()
        for file, text in files:
            file.write_text(text)
    cases = [
        (["bytes"], "the files have more than 268,435,456 bytes, the most of a text"),
        (["text", "--racks", 1, "--workers", 1], "the text has 268,435,644 bytes, past 268,435,456"),
        (["empty"], "no file was taken"),
        (["none"], f"{room}/none is no folder"),
        (["empty", "--workers", "1025"], "--workers 1025: a job has at most 1,024, a script 32,768"),
        (["empty", "--workers", "32769", "--script"], "--workers 32769: there may be 1 to 32,768"),
        (["empty", "--workers", "3"], "--racks 4: each rack has a worker, and there are 3"),
        (["empty", "--centres", "5"], "--centres 5: each centre has a rack, and there are 4"),
    ]
    most = {"racks": 4096, "slots": 255, "centres": 256, "replicas": 16, "block": 8_589_934_592, "parts": 64}
    for name, number in most.items():
        for past in (0, number + 1):
            cases.append((["empty", f"--{name}", past], f"--{name} {past}: there may be 1 to {number:,}"))
    for words, sentence in cases:
        answer = script("job_of_files.py", room / words[0], *words[1:])
        lines = answer[1].splitlines()
        count.expect(f"job_of_files.py says: {sentence}", (answer[0], lines, answer[2]),
                     (b"", [f"job_of_files.py: {sentence}"], 1))
    written = script("job_of_files.py", room / "fits", "--racks", 1, "--workers", 1)
    count.expect("job_of_files.py writes a text of 268,435,456 bytes", (len(written[0]), written[2]), (268_435_456, 0))
    documents = job_of_files.Documents([])
    documents.texts = [b"x"] * 131_073
    count.expect("65,537 splits are not too many", len(documents.splits(2)), 65_537)
    try:
        said = len(documents.splits(1))
    except job_of_files.Limit as limit:
        said = str(limit)
    count.expect("131,073 splits are too many", said,
                 "the files fill 131,073 splits, past 131,072: take a greater --block")


def drawn(count):
    """The pictures are those of their texts, and each answer of an example can be drawn."""
    for name in pictures.PICTURES:
        count.expect(f"{name} made anew", (ROOT / name).read_bytes() == pictures.made(name))
    report = (CONTRIB / "samples/job.out").read_bytes()
    count.expect("samples/job.out is a report", misplayed((CONTRIB / "samples/job.txt").read_bytes(), report, 0), None)
    for path in sorted(EXAMPLES.glob("pl*_*.txt")):
        drawing, wrong, status = script("picture.py", path, path.with_suffix(".out"))
        if path.with_suffix(".status").read_text().strip() == "2":
            count.expect(f"no picture of {path.stem}", (drawing, status), (b"", 1))
            continue
        elements = list(ElementTree.fromstring(drawing).iter())
        families = {it.get("font-family") for it in elements} - {None}
        count.expect(f"the picture of {path.stem}", (wrong, status, families), ("", 0, {"monospace"}))
    swap = EXAMPLES / "plan_swap.txt"
    for false in ("play_first", "plan_two_centres"):
        for text in (swap, EXAMPLES / "play_death.txt"):
            answer_of = script("picture.py", text, EXAMPLES / f"{false}.out")
            count.expect(f"no picture of {text.stem} with the answer of {false}", answer_of[::2], (b"", 1))
    drawing = script("picture.py", swap, EXAMPLES / "plan_swap.out")[0].decode()
    head = "2 of 2 pending splits start, at a byte-distance of 20"
    for words in (head, "s of 10 bytes on b: 2 steps"):
        count.expect(f"the picture of plan_swap says {words}", words in drawing)
    table = "".join(f"spread {splits} 16 {splits + 500} {2 * splits} 0.9\n" for splits in (128, 256, 512)).encode()
    drawing, wrong, status = said([ROOT / "bench/plot_sizes.py", "a title"], table)
    curves = [it for it in ElementTree.fromstring(drawing).iter() if it.get("class") == "curve"]
    count.expect("plot_sizes.py draws ours and LEMON's", (len(curves), wrong, status), (2, "", 0))
    drawing = script("picture.py", *(EXAMPLES / f"plan_prices.{it}" for it in ("txt", "out")))[0].decode()
    count.expect("the picture of plan_prices has its prices", "greatest split prices: s 41" in drawing)
    drawing = script("picture.py", EXAMPLES / "play_death.txt", EXAMPLES / "play_death.out")[0].decode()
    for words in ("map of s on a: done, and then lost with its worker", "map of s on b: done", "part 1 on b: done"):
        count.expect(f"the picture of play_death says {words}", words in drawing)


def wave_of(racks, centres, slots, long):
    """A problem of racks with so many workers each and a plan that fills about half of the slots, with equal prices."""
    name = lambda kind, number: f"{kind}{'-same' * 4 if long else ''}{number:03d}"
    head = [f"problem {2 if centres else 1}", *(f"centre {name('c', it)}" for it in range(centres))]
    head += [f"rack {name('r', it)}" + (f" {name('c', it % centres)}" if centres else "") for it in range(len(racks))]
    rack_of = [rack for rack, some in enumerate(racks) for _ in range(some)]
    head += [f"worker {name('w', it)} {name('r', rack)} {slots}" for it, rack in enumerate(rack_of)]
    taken = [w for w in range(len(rack_of)) for _ in range(slots) if (w + _) % 2][:1024]
    head += [f"split {name('s', it)} 7 {name('w', w)}" for it, w in enumerate(taken)]
    plan = [f"wave {len(taken)} 0", *(f"start {name('s', it)} {name('w', w)}" for it, w in enumerate(taken))]
    plan += [f"price {name('s', it)} {10**19}" for it in range(len(taken))]
    return "\n".join([*head, "end", ""]).encode(), "\n".join([*plan, ""])


def sized(count):
    """No picture is wider or higher than a page and a half, whatever the racks, and names stay apart."""
    wrong = []
    for racks in ([256], [1], [40], [0, 41, 3], [8] * 32, [225] + [1] * 31, [24, 1, 1, 1, 1] * 6, [31] * 8, [64] * 4):
        for centres, slots, long in ((0, 1, False), (0, 16, True), (1, 4, True), (8, 16, True), (8, 2, False)):
            drawing = draw_plan(*wave_of(racks, min(centres, len(racks)), slots, long)).svg()
            wide, high = map(float, re.search('viewBox="0 0 ([0-9.]+) ([0-9.]+)"', drawing).groups())
            named = re.findall('>(w[^<]*)</text>', drawing)
            if wide > 1560 or high > 2400 or len({*named}) < sum(racks):
                wrong.append((racks, centres, slots, long, wide, high))
    count.none("plans of many shapes fit a page", wrong)
    drawing = draw_plan(*wave_of([256], 0, 2, True)).svg()
    says = "greatest split prices: 256 of 10,000,000,000,000,000,000 each"
    count.expect("equal prices are told as such", says in drawing)
    script_text = b"script 1\nrack r\n" + b"".join(b"worker w%d r 16\n" % it for it in range(256)) + b"begin\nend\n"
    drawing = draw_report(script_text, "stuck 0\n").svg()
    wide, high = map(float, re.search('viewBox="0 0 ([0-9.]+) ([0-9.]+)"', drawing).groups())
    count.expect("a report of 256 workers fits a page", wide <= 1560 and high <= 2400)
    for names, most in (
        ([f"blk_10737418{it:02d}" for it in range(60)], 12),
        ([f"ip-10-0-0-{it}.ec2.internal" for it in range(60)], 12),
        ([f"node{it:03d}.of.a.cluster.example.com" for it in range(60)], 10),
    ):
        short = [*cut(names, most).values()]
        fits = len({*short}) == len(names) and max(map(len, short)) <= most
        count.expect(f"names such as {short[0]} stay apart", fits)


def as_history(script_text, report):
    """The job of a script, and its report as the history of a run of that job."""
    lines, said = script_text.decode().splitlines(), report.splitlines()
    begin = lines.index("begin")
    job, history, at = [lines[0].replace("script", "job"), *lines[1:begin], "end", ""], [], 0
    for line in lines[begin + 1 : -1]:
        answer, at = said[at], at + 1
        is_own = line.split()[0] not in ("wave", "ahead", "backup", "reduce", "copies")
        history += [line] * (is_own and answer.startswith("accepted"))
        while at < len(said) and not said[at].startswith(("accepted", "ignored", "copies", "index", "stuck")):
            history += [said[at]] * (not said[at].startswith(("copy", "dead", "queued")))
            at += 1
    return "\n".join(job).encode(), "\n".join([*history, *said[at:], ""])


def recorded(count):
    """A job with its history is drawn as its script with its report is."""
    some = [CONTRIB / "samples/job.txt", *sorted(EXAMPLES.glob("play_*.txt"))]
    for path in some:
        if path.with_suffix(".status").exists() and path.with_suffix(".status").read_text().strip() == "2":
            continue
        given, report = path.read_bytes(), path.with_suffix(".out").read_text()
        below_head = lambda drawing: drawing.svg().split("</text>", 1)[1]
        found = below_head(draw_report(*as_history(given, report)))
        count.expect(f"the picture of the history of {path.stem}", found == below_head(draw_report(given, report)))
    job, history = as_history(some[0].read_bytes(), some[0].with_suffix(".out").read_text())
    for name, false in {
        "an attempt twice": history.replace("start 2 ", "start 1 "),
        "a wave that costs less": history.replace("wave 2 64", "wave 2 63"),
        "an unknown event": history.replace("done 1\n", "do 1\n"),
        "no end": history[: history.index("index")],
        "a death of the dead": history.replace("die dee", "die dee\ndie dee"),
    }.items():
        try:
            found = draw_report(job, false) and ""
        except Fault as fault:
            found = str(fault)
        count.expect(f"no picture of {name}", found, "the history is not of this job")


def many_drawn(count, program):
    """A plan of 256 workers has a cell for each slot, and a report of them a row for each."""
    text = said([ROOT / "bench/make_problems.py", "half_wait", 1024, 4])[0]
    with tempfile.TemporaryDirectory() as room:
        problem, plan = Path(room) / "problem", Path(room) / "plan"
        problem.write_bytes(text)
        plan.write_bytes(said([program, "plan", "--prices"], text)[0])
        drawing, *ended = script("picture.py", problem, plan)
        count.expect("a picture of 256 workers", ended, ["", 0])
        titles = re.findall("<title>([^<]* steps)</title>", drawing.decode())
        starts = [line.split() for line in plan.read_text().splitlines() if line.startswith("start")]
        said_of = [(words[1], words[2]) for words in starts]
        drawn_of = [tuple(re.match(r"(\S+) of \S+ bytes on (\S+): ", it).groups()) for it in titles]
        count.expect("the picture of 256 workers has each start", sorted(drawn_of), sorted(said_of))
    sample = CONTRIB / "samples/wave"
    planned = said([program, "plan"], sample.with_suffix(".txt").read_bytes())[0]
    recorded = sample.with_suffix(".out").read_bytes()
    count.expect("samples/wave.out is a best plan", planned.splitlines()[:1], recorded.splitlines()[:1])


def installed(count, program, room):
    """What is installed runs from where it is, and is taken away again. The program is that of bin/, which the gate put
    there."""
    if not (ROOT / "bin/mrjob").exists():
        print("bin/mrjob is not there, so nothing was installed")
        return
    root, prefix = room / "root", room / "root/usr"
    make = lambda what: subprocess.run(["make", "-s", what, f"DESTDIR={root}", "PREFIX=/usr"], cwd=ROOT).returncode
    count.expect("make install", make("install"), 0)
    (prefix / "share/mrjob/kept").write_text("of another")
    for name, words, status, _ in demo.RUNS:
        out, wrong, ended = said([prefix / "bin/mrjob", *words], (EXAMPLES / f"{name}.txt").read_bytes())
        front = out.startswith((EXAMPLES / f"{name}.out").read_bytes())
        count.expect(f"the demo's {name} by what is installed", (front, wrong, ended), (True, "", status))
    for name in ("check", "plan", "play", "serve", "run"):
        words = said([program, name, "--help"])[0].decode().split()
        page = re.sub(r"\\(.)", lambda it: {"e": "\\", "&": ""}.get(it[1], it[1]),
                      (prefix / "share/man/man1/mrjob.1").read_text().replace("\\(aq", "'").replace("\\(ga", "`"))
        missing = set(words) - set(page.split()) - {"Usage:", "Options:", "-h,", "<NETWORK>", "<N>"}
        count.expect(f"the manual page has the words of the help on {name}", missing, set())
    for path in sorted((prefix / "share/mrjob/contrib").glob("*.py")):
        same = path.read_bytes() == (CONTRIB / path.name).read_bytes()
        runs = os.access(path, os.X_OK) == path.read_text().startswith("#!")
        count.expect(f"{path.name} is installed", (same, runs), (True, True))
    paged(count, prefix)
    certified = said([prefix / "share/mrjob/contrib/certify.py"], (EXAMPLES / "swap.txt").read_bytes())
    count.expect("certify.py runs from there", certified, (b"certified 2 20\n", "", 0))
    completes = f"source {prefix}/share/bash-completion/completions/mrjob; "
    for line, wanted in {"mrjob p": ["plan", "play"], "mrjob plan --n": ["--network"],
                         "mrjob plan --network d": ["direct"], "mrjob plan --network=": ["direct", "racks"],
                         "mrjob plan --network=d": ["direct"], "mrjob help ru": ["run"]}.items():
        words = line.replace("=", " = ").split()
        line = " ".join(words)
        asks = f"COMP_WORDS=({line}); COMP_CWORD={len(words) - 1}; _mrjob; echo ${{COMPREPLY[@]}}"
        count.expect(f"bash completes {line}", said(["bash", "-c", completes + asks])[0].decode().split(), wanted)
    count.expect("make uninstall", make("uninstall"), 0)
    left = sorted(str(it.relative_to(prefix)) for it in prefix.rglob("*"))
    count.expect("what was not installed is left", left, ["share", "share/mrjob", "share/mrjob/kept"])


def paged(count, prefix):
    """No line of a manual page that is not filled is past 72 columns; what the pages refer to is installed."""
    lines = []
    for page in sorted((prefix / "share/man").rglob("mrjob*")):
        text = page.read_text()
        marks = {"\\(aq": "'", "\\(ga": "`", "\\-": "-", "\\&": "", "\\e": "\\"}
        plain = re.sub(r"\\(?:\(..|.)", lambda it: marks.get(it[0], it[0]), text)
        lines += [it for part in re.findall(r"^\.nf\n(.*?)^\.fi$", plain, re.M | re.S) for it in part.splitlines()]
        head = re.match(r"\.TH \S+ \d \d{4}-\d\d-\d\d \"mrjob (\S+)\"", text)
        count.expect(f"the version of {page.name}", head and head[1], version())
        named = set(re.findall(r"(?:docs|examples)/[\w/.]*\w", plain))
        missing = [it for it in named if not (prefix / "share/doc/mrjob" / it).exists()]
        count.none(f"what {page.name} refers to is installed", missing)
    count.none("no line of a manual page is too wide", [it for it in lines if len(it) > 72])


def mapped(count):
    """docs/MAP.md has a row for each crate, but for crates of tests, which it names, and no cell past 60 words."""
    text = (ROOT / "docs/MAP.md").read_text()
    rows = re.findall(r"^\| `(\w+)` \|", text, re.M)
    names = [it for it in read_crates() if not it.endswith("_tests")]
    count.expect("each crate has a row in docs/MAP.md", sorted(rows), sorted(names))
    count.none("docs/MAP.md names each crate", [it for it in read_crates() if f"`{it}`" not in text])
    cells = [cell for line in text.splitlines() if line.startswith("|") for cell in line.split("|")]
    count.none("no cell of docs/MAP.md is past 60 words", [it for it in cells if len(it.split()) > 60])


def linked(count):
    """Each link of a document leads to a file, and to a heading of it."""
    heads = lambda page: {re.sub(r"[^\w -]", "", it.lower()).replace(" ", "-")
                          for it in re.findall(r"^#+ (.*)$", page.read_text(), re.M)}
    wrong = []
    for page in [*ROOT.glob("*.md"), *ROOT.glob("docs/*.md"), *ROOT.glob("*/README.md"), *ROOT.glob("*/*/README.md")]:
        for file, head in re.findall(r"\]\((?!http)([^)#\s]*)#?([^)\s]*)\)", page.read_text()):
            there = (page.parent / file) if file else page
            if not there.exists() or (head and head not in heads(there)):
                wrong.append(f"{page.relative_to(ROOT)}: {file}#{head}")
    count.none("each link of the documents leads to a file and its heading", wrong)


def shown(count, program, room):
    """Each command that the README shows writes the lines below it; it has at most 1,000 words."""
    text = (ROOT / "README.md").read_text()
    count.expect("the README has at most 1,000 words", len(text.split()) <= 1000)
    named = set(re.findall(r"`mrjob(?:_plan)?[-_](\d[\d.]*\d)", text))
    changed = re.findall(r"^## (.*)$", (ROOT / "CHANGELOG.md").read_text(), re.M)
    count.expect("README and CHANGELOG.md have the version", (named, changed[0]), ({version()}, version()))
    (room / "path").mkdir()
    (room / "path/mrjob").symlink_to(program)
    path = [room / "path", os.environ["PATH"]]
    for command, wanted in readme.commands(text):
        count.expect(f"README: {command[:74]}", readme.written(command, ROOT, path), wanted)


def main():
    count = Counted()
    with tempfile.TemporaryDirectory() as room:
        plain(count)
        left(count)
        placed(count, Path(room))
        refused(count, Path(room))
        drawn(count)
        sized(count)
        recorded(count)
        mapped(count)
        linked(count)
        for program in map(os.path.abspath, sys.argv[1:]):
            help_examples(count, program)
            helped(count, program)
            certified(count, program)
            certified_great(count, program)
            started(count, program)
            flows(count, program)
            priced(count, program)
            indexed(count, program, Path(room))
            large(count, program, Path(room))
            many_drawn(count, program)
            installed(count, program, Path(room))
            shown(count, program, Path(room))
    print(f"{count.passed} passed, {count.failed} failed")
    return 1 if count.failed or not count.passed else 0


if __name__ == "__main__":
    sys.exit(main())

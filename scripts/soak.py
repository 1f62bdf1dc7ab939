#!/usr/bin/env python3
"""Runs and plays made jobs for minutes, under schedules that nobody chose. It ends by counts, never by time.

    soak.py [--short] [PROGRAM]    PROGRAM is bin/mrjob where none is named; --short is what the gate runs

- The made jobs of job_tests under their made gates, 10,000 of them; and how many blocks of memory a process holds at
  the end of one of 32 workers, and of 1,000.
- Jobs of make_texts.py by `mrjob run`: bound to one processor, as 300 of the made jobs are, and at the lowest priority
  beside a spinning process for each processor. Each has its own index, or is stuck with just what nobody holds.
- The histories of jobs whose workers die, return and are backed up, under made gates: reference_run.py follows each
  event, and finds the copies, the returns and the backups that the calling thread owes. Half of them plan ahead.
- Long jobs, of one split of up to 1,500,000 words, each another one: alone, and bound to one processor beside eight
  spinning processes. No map is given up or made again.
- A script of 65,536 commands, more than 1,000 waves among them, followed by reference_play.py.
- 100,000 events of 1,000 small clusters, a wave after almost each, by kept_waves.py: whether a wave's planner keeps up
  with slots and pending splits or goes over to other holders and bars, no assignment starts more or costs less.
- 2,000 runs of check, plan, play and run, under limits that are drawn at random: on memory, address space, the stack,
  files, threads and processor time (ten seconds at least). Each ends by a status of the table. Either it has the answer of a run without limits, or its status is 3, 4 or 6 and nothing was written. A worker of `run`
  that finds no memory fails its attempt, so failures may fill the history (5), or bar each pair of a split (`stuck`).

A failing seed can be run alone: with SEEDS="17 17" in the environment the tests of job_tests run
made::made_jobs_have_no_other_index on it alone, and `make_texts.py job 17` writes the text of a job. With a text as
JOB and a number as SEED recorded::a_history_under_a_made_gate writes the history of that job under that gate, planned
ahead where a number of waves is given as AHEAD.
`kept_waves.py 17 17 PROGRAM` plays the cluster of a seed. The last line is 'N passed, M failed'.
"""
import os
import random
import re
import shutil
import subprocess
import sys
import tempfile
import time
from collections import Counter
from concurrent.futures import ThreadPoolExecutor
from contextlib import contextmanager
from pathlib import Path

sys.dont_write_bytecode = True
import make_texts
import reference_run
from crates import ROOT, kit, need_kit
from reference_play import misplayed

TESTS = ROOT / "crates/job_tests/out/job_tests_tests"
MADE = "made::made_jobs_have_no_other_index"
RECORDED = "recorded::a_history_under_a_made_gate"
PROCESSORS = sorted(os.sched_getaffinity(0))
# Far past what any run takes: one that has not ended by then hangs.
HANGS = 3600


class Sizes:
    """How much is run, of each kind."""

    def __init__(self, is_short):
        # (the first 100 made jobs are also a test, whose time is limited)
        self.gates = 500 if is_short else 10_000
        self.crowded = 0 if is_short else 300
        self.held = 100 if is_short else 1_000
        self.jobs = 12 if is_short else 200
        self.histories = 100 if is_short else 1_000
        self.words_alone = [1_500_000]
        self.words_beside = [400_000] if is_short else [1_500_000, 1_500_000, 400_000]
        self.commands = 4_000 if is_short else 65_536
        self.clusters = 100 if is_short else 1_000
        self.limited = 150 if is_short else 2_000


class Failure(Exception):
    """What was found."""


def ran(words, text=b"", **how):
    out = subprocess.run(words, input=text, stdout=subprocess.PIPE, stderr=subprocess.PIPE, timeout=HANGS, **how)
    return out.stdout, out.returncode, out.stderr


# The made jobs of job_tests.


def seeds_in_parts(count):
    """The seeds from 1 to this, in some ranges for each processor."""
    parts = min(count, 4 * len(PROCESSORS))
    edges = [1 + count * at // parts for at in range(parts + 1)]
    return [(first, after - 1) for first, after in zip(edges, edges[1:])]


def run_seeds(before, first, last):
    """The two lines of figures that the made jobs of these seeds come to."""
    said, status, _ = ran([*before, "env", f"SEEDS={first} {last}", TESTS, MADE])
    lines = re.findall(r"\d+ (?:runs:|workers stopped,) .*", said.decode())
    if status or len(lines) != 2 or not lines[0].startswith(f"{last - first + 1} runs:"):
        raise Failure(f"made jobs of the seeds {first} to {last}: status {status}: {said.decode()[-2000:]}")
    return lines


def run_gates(before, count, pool):
    """The made jobs under their made gates, some side by side; the figures of all."""
    sums = Counter()
    kinds = {}
    for lines in pool.map(lambda it: run_seeds(before, *it), seeds_in_parts(count)):
        for number, kind in re.findall(r"(?:at most )?(\d+) ([a-z ]+)", ", ".join(lines)):
            kinds[kind] = None
            sums[kind] = max(sums[kind], int(number)) if kind == "turns" else sums[kind] + int(number)
    return ", ".join(f"{'at most ' if kind == 'turns' else ''}{sums[kind]} {kind}" for kind in kinds)


def made_gates(_program, sizes, pool):
    """The made jobs under their made gates, side by side."""
    return run_gates([], sizes.gates, pool)


def held_blocks(shim, first, last):
    """How many blocks of memory are held at the end of the made jobs of these seeds in one process."""
    met = Path(f"{shim}.met")
    shell = 'exec 9> "$0.met"; LD_PRELOAD=$0 REFUSE=none NTH=1 exec "$@"'
    said, status, _ = ran(["/bin/sh", "-c", shell, shim, TESTS, MADE], env={"SEEDS": f"{first} {last}"})
    told = met.read_text() if met.exists() else ""
    if status or not told.isdigit():
        raise Failure(f"made jobs of the seeds {first} to {last}, their blocks counted: status {status}: {said.decode()[-2000:]}")
    return int(told)


def memory(_program, sizes, _pool):
    """That many jobs in one process hold no more memory at the end than one."""
    with tempfile.TemporaryDirectory() as room:
        shim = f"{room}/refuse.so"
        words = [kit() / "toolchain/bin/clang", "-O2", "-fPIC", "-shared", "-nostdlib", "-fuse-ld=lld"]
        subprocess.run([*words, "-o", shim, ROOT / "scripts/refuse_call.c"], check=True)
        # (the C library keeps some ended threads' stacks, so the one job has as many workers as any of the others)
        one, many = held_blocks(shim, 8, 8), held_blocks(shim, 1, sizes.held)
    if one != many:
        raise Failure(f"{one} blocks are held after one run, and {many} after {sizes.held}")
    return f"{one} blocks are held after one run, and after {sizes.held}"


# Histories of jobs under made gates.


def followed(seed):
    """How many events of each kind a made job has under its made gate; none where that ended it."""
    text, ahead = make_texts.scattered_job(random.Random(seed)), 1 + seed % 3 if seed % 2 else None
    waves = {b"AHEAD": str(ahead).encode()} if ahead else {}
    said, status, _ = ran([TESTS, RECORDED], env={b"JOB": text, b"SEED": str(seed).encode(), **waves})
    lines, _, end = said.partition(b"ended ")
    end = end.split(b"\n")[0]
    if status or end not in (b"Ok(Done)", b"Ok(Stuck)", b"Err(Run(GateLimit))"):
        raise Failure(f"scattered_job {seed}: status {status}: {said.decode()[-2000:]}")
    if end == b"Err(Run(GateLimit))":
        return Counter()
    wrong = reference_run.misrecorded(text, lines, 0 if end == b"Ok(Done)" else 1, ahead)
    if wrong:
        raise Failure(f"scattered_job {seed}: {wrong}: {lines.decode()}")
    return Counter(line.split(b" ")[0].decode() for line in lines.split(b"\n"))


def histories(_program, sizes, pool):
    """That the calling thread does what it owes, event by event."""
    kinds = sum(pool.map(followed, range(1, sizes.histories + 1)), Counter())
    told = ", ".join(f"{kinds[kind]} {kind}s" for kind in ("wave", "ahead", "sweep", "add", "join", "backup"))
    if 0 in (kinds["ahead"], kinds["add"], kinds["join"], kinds["backup"]):
        raise Failure(f"there was nothing to follow: {told}")
    return f"{sizes.histories} histories: {told}"


# Jobs by `mrjob run`.


def job_texts(count):
    """Made jobs, each with the words by which make_texts.py writes it; one in 20 is wide."""
    kinds = [(seed, "wide_job" if seed % 20 == 0 else "job") for seed in range(1, count + 1)]
    return [(f"{kind} {seed}", make_texts.KINDS[kind](random.Random(seed))) for seed, kind in kinds]


def wrong_run(said, text):
    """What is wrong with how a job ended, or None."""
    wanted, (lines, status, words) = reference_run.answer(text), said
    if (lines, status) == wanted:
        return None
    return f"it ends with {status}, {words}, {lines[:999]}, and the reference with {wanted[1]}, {wanted[0][:999]}"


def run_all(program, before, texts, pool):
    done = 0
    began = time.monotonic()
    longest = 0
    for (name, text), (said, took) in zip(texts, pool.map(lambda it: timed_run(program, before, it[1]), texts)):
        wrong = wrong_run(said, text)
        if wrong:
            raise Failure(f"{' '.join(before)}, {name}: {wrong}")
        done, longest = done + (said[1] == 0), max(longest, took)
    whole = time.monotonic() - began
    return (f"{len(texts)} runs: {done} done, {len(texts) - done} stuck, none by its schedule; "
            f"{whole:.0f} s, the longest {longest:.1f} s")


def timed_run(program, before, text, *words):
    began = time.monotonic()
    return ran([*before, program, "run", *words], text), time.monotonic() - began


def on_one_processor(program, sizes, pool):
    """Jobs of both kinds that share one processor, some side by side."""
    before = ["taskset", "-c", str(PROCESSORS[-1])]
    told = run_all(program, before, job_texts(sizes.jobs), pool)
    return f"{told}; {run_gates(before, sizes.crowded, pool)}" if sizes.crowded else told


@contextmanager
def spinning(before, count):
    """So many processes that spin. They end with this process, however it ends."""
    spin = [*before, "/bin/sh", "-c", "while kill -0 $0; do :; done", str(os.getpid())]
    spinners = [subprocess.Popen(spin, stderr=subprocess.DEVNULL) for _ in range(count)]
    try:
        yield
    finally:
        for spinner in spinners:
            spinner.kill()
            spinner.wait()


def beside_spinners(program, sizes, pool):
    """Jobs at the lowest priority, beside as many spinning processes as there are processors."""
    with spinning([], len(PROCESSORS)):
        return run_all(program, ["nice", "-n", "19"], job_texts(sizes.jobs), pool)


def map_long(program, before, seed, count):
    """How many sweeps there were while a long job ran, and its seconds. None of its maps and merges is made again."""
    text = make_texts.long_job(random.Random(seed), count)
    (lines, status, words), took = timed_run(program, before, text, "--history")
    at = max(lines.find(b"index "), 0)
    kinds = Counter(line.split(b" ")[0] for line in lines[:at].split(b"\n"))
    sweeps = kinds.pop(b"sweep", 0)
    once = {b"": 1, b"wave": 1, b"start": 1, b"reduce": 1, b"done": 2}
    wanted, wanted_status = reference_run.answer(text)
    if (status, kinds, lines[at:]) != (wanted_status, once, wanted):
        raise Failure(f"{count} words: status {status}, {words}, {dict(kinds)}: {lines[:999]}")
    return sweeps, took


def long_maps(program, sizes, _pool):
    """Long jobs, alone and on one processor beside eight spinning processes, one after the other: none is given up."""
    before = ["taskset", "-c", str(PROCESSORS[0])]
    ended = [map_long(program, [], seed, count) for seed, count in enumerate(sizes.words_alone, 1)]
    with spinning(before, 8):
        ended += [map_long(program, before, seed, count) for seed, count in enumerate(sizes.words_beside, 1)]
    longest = max(took for _, took in ended)
    return (f"{len(ended)} runs: all done, by one map and one merge each; {sum(sweeps for sweeps, _ in ended)} sweeps, "
            f"the longest {longest:.1f} s")


# Scripts by `mrjob play`.


def script_of(program, count):
    """A script of so many commands, at least one of 65 a wave. Their attempts are about the newest of the report."""
    rnd = random.Random(count)
    scenario = make_texts.Scenario(rnd)
    while scenario.workers < 4 or scenario.splits < 5 or scenario.version == 1:
        scenario = make_texts.Scenario(rnd)
    scenario.free = [max(free, 1) for free in scenario.free]
    racks, workers, splits = scenario.cluster()
    head = [f"script {scenario.version}", "parts 64", "target 2", "silence 2", *racks, *workers, *splits]
    head += [*make_texts.documents_of(rnd, scenario), "begin"]
    commands, newest, played = [], 0, 0
    while len(commands) < count:
        # (who is dead comes back, and each split has a holder again)
        commands += [f"join w{worker}" for worker in range(scenario.workers)]
        commands += [f"add s{split} w{rnd.randrange(scenario.workers)}" for split in range(scenario.splits)]
        others = 64 - scenario.workers - scenario.splits
        commands += ["wave", *(command_near(rnd, scenario, newest) for _ in range(others))]
        if len(commands) < played * 21 // 20 and len(commands) < count:
            # (until it is played again the attempts rise as they did)
            newest += newest * 65 // len(commands)
            continue
        report = ran([program, "play"], make_texts.text_of([*head, *commands[:count], "end"]))[0]
        found = re.findall(rb"^(?:start|backup|reduce) (\d+)", report, re.M)
        newest, played = int(found[-1]) if found else 0, len(commands)
    return make_texts.text_of([*head, *commands[:count], "end"]), commands[:count].count("wave")


def command_near(rnd, scenario, newest):
    """A command, whose attempt is one of the newest or of the next. Few maps fail, since a pair is barred for good,
    and few parts are done, since a job whose parts are done is over."""
    words = make_texts.command(rnd, scenario, 1).split(" ")
    if words[0] in ("reduce", "die") and rnd.random() < 0.9:
        return "wave"
    if words[0] == "sweep":
        # (their beats rise with the attempts)
        return " ".join(["sweep", *(str(newest + rnd.randint(0, 9)) for _ in words[1:])])
    if words[0] in ("done", "fail", "withdraw"):
        word = "done" if words[0] == "fail" and rnd.random() < 0.998 else words[0]
        return f"{word} {max(0, newest + rnd.randint(-6, 8))}"
    return " ".join(words)


def long_script(program, sizes, _pool):
    """Each command of a long script has its answer."""
    text, waves = script_of(program, sizes.commands)
    report, status, words = ran([program, "play"], text)
    wrong = misplayed(text, report, status)
    if wrong:
        raise Failure(f"{words}: {wrong}")
    lines = report.split(b"\n")
    answers = sum(line.startswith((b"accepted ", b"ignored ", b"copies ")) for line in lines)
    if answers != sizes.commands:
        raise Failure(f"{answers} answers to {sizes.commands} commands")
    accepted, started = (sum(line.startswith(it) for line in lines) for it in (b"accepted ", b"start "))
    return f"{sizes.commands} commands, {waves} waves, {accepted} accepted, {started} starts"


# Waves by `mrjob serve`.


def waves_counted(program, first, last):
    """What the clusters of these seeds count."""
    said, status, words = ran([sys.executable, ROOT / "scripts/kept_waves.py", str(first), str(last), program])
    if status:
        raise Failure(f"{said.decode()[-2000:]}{words.decode()[-2000:]}")
    return Counter({kind: int(number) for number, kind in re.findall(r"(\d+) ([a-z ]+)", said.decode())})


def kept_waves(program, sizes, pool):
    """No assignment is better than a wave of small clusters, whatever happened since the wave before."""
    counts = sum(pool.map(lambda it: waves_counted(program, *it), seeds_in_parts(sizes.clusters)), Counter())
    told = ", ".join(f"{count} {kind}" for kind, count in counts.items())
    if not all(counts[f"{kind} waves that start splits"] for kind in ("near", "far")):
        raise Failure(f"there was nothing to keep: {told}")
    return f"{sizes.clusters} clusters: {told}"


# Every command, with limits drawn at random.

# The statuses of a run that told why it has no answer: no memory, a transfer that failed, no thread.
WITHOUT_ANSWER = (3, 4, 6)
# How failed attempts can end a job: its history is full, or it is stuck.
FULL, STUCK = 5, 1
# The commands with the kinds of make_texts.py that they read.
READ_BY = {
    "check": ["best", "changed", "faulty"],
    "plan": ["problem", "faulty_problem"],
    "play": ["script", "faulty_script"],
    "run": ["job", "wide_job", "faulty_job"],
}
# A user who owns nothing, as whom root runs what is limited: root may have as many threads as it likes.
NOBODY = 65534


class Limited:
    """Runs of a program that may be limited, as a user whose threads can be."""

    def __init__(self, program, room):
        self.program = shutil.copy(program, room)
        os.chmod(room, 0o755)
        os.chmod(self.program, 0o755)
        self.who = {"user": NOBODY, "group": NOBODY, "extra_groups": []} if os.getuid() == 0 else {}
        # how much address space the loader of a program wants
        self.least = self.least_space()

    def ran(self, limits, words, text=b""):
        """What a run writes, and its status; below 0 if a signal ended it."""
        before = ["prlimit", *(f"--{name}={most}" for name, most in limits.items())]
        return ran([*before, self.program, *words], text, env={}, **self.who)[:2]

    def least_space(self):
        """The least address space in which the program comes to its own code."""
        low, high = 0, 1 << 26
        while high - low > 4096:
            middle = (low + high) // 2
            if self.ran({"as": middle}, ["--version"])[1] in (0, 3):
                high = middle
            else:
                low = middle
        return high

    def drawn(self, rnd, command):
        """Some limits, each above what the loader wants."""
        limits = {}
        if rnd.random() < 0.6:
            limits["as"] = self.least + int(2 ** rnd.uniform(12, 30))
        if rnd.random() < 0.4:
            limits["data"] = int(2 ** rnd.uniform(18, 28))
        if rnd.random() < 0.4:
            limits["nofile"] = rnd.randint(4, 16)
        if rnd.random() < 0.4 and (self.who or command != "run"):
            limits["nproc"] = rnd.randint(1, 80)
        if rnd.random() < 0.4:
            limits["cpu"] = rnd.randint(10, 20)
        if rnd.random() < 0.4:
            limits["stack"] = int(2 ** rnd.uniform(17, 23))
        return limits


def limited_run(machine, seed):
    """The status of one run with limits."""
    rnd = random.Random(seed)
    command = rnd.choice(list(READ_BY))
    kind = rnd.choice(READ_BY[command])
    text = make_texts.KINDS[kind](random.Random(seed))
    limits = machine.drawn(rnd, command)
    answer, status = machine.ran(limits, [command], text)
    if status in WITHOUT_ANSWER or (command, status) == ("run", FULL):
        if not answer:
            return status
    elif (answer, status) == machine.ran({}, [command], text):
        return status
    elif (command, status) == ("run", STUCK) and re.fullmatch(rb"stuck \d+\n(open \S+\n)+", answer):
        return status
    told = " ".join(f"{name}={most}" for name, most in limits.items())
    raise Failure(f"{command} of {kind} {seed} with {told}: status {status}: {answer[:999]}")


def limits(program, sizes, pool):
    """Whatever the limits are, each run ends by a status of the table."""
    if not shutil.which("prlimit"):
        return "there is no prlimit, so none was set"
    with tempfile.TemporaryDirectory() as room:
        machine = Limited(program, room)
        ends = Counter(pool.map(lambda seed: limited_run(machine, seed), range(1, sizes.limited + 1)))
    told = ", ".join(f"{count} with status {status}" for status, count in sorted(ends.items()))
    return f"{sizes.limited} runs: {told}"


def main(words):
    need_kit()
    sizes = Sizes("--short" in words)
    named = [word for word in words if word != "--short"]
    program = os.path.abspath(named[0]) if named else str(ROOT / "bin/mrjob")
    parts = (made_gates, memory, histories, on_one_processor, beside_spinners)
    parts += (long_maps, long_script, kept_waves, limits)
    passed = failed = 0
    with ThreadPoolExecutor(len(PROCESSORS)) as pool:
        for part in parts:
            name = part.__name__.replace("_", " ")
            try:
                print(f"{name}: {part(program, sizes, pool)}", flush=True)
                passed += 1
            except (Failure, OSError, subprocess.SubprocessError) as why:
                print(f"{name}: FAILED: {why}", flush=True)
                failed += 1
    print(f"{passed} passed, {failed} failed")
    return 1 if failed or not passed else 0


if __name__ == "__main__":
    sys.exit(main(sys.argv[1:]))

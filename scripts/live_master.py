#!/usr/bin/env python3
"""Tries the Python client of `mrjob serve` by a built program, and the example of a scheduler that stands on it.

    live_master.py PROGRAM..

The last line is 'N passed, M failed'.
"""
import asyncio
import os
import re
import shutil
import subprocess
import sys
import tempfile
import textwrap
import threading
from pathlib import Path

sys.dont_write_bytecode = True
import crates  # (it ends a script quietly where head does)

ROOT = Path(__file__).resolve().parent.parent
sys.path.insert(0, str(ROOT / "python"))
from mrjob_plan import Cluster, Prices, Split, Worker, calls
from mrjob_plan.calls import QUERIES, Ahead, Copy, Ended, Faulty, Ignored, NotCertified, OpenWork, Reduce, Standing, Start
from mrjob_plan.calls import Unanswered, Wave, head
from mrjob_plan.master import AsyncMaster, Master, MasterEnded, NoSession

CLUSTER = Cluster({"a": Worker("r"), "b": Worker("r"), "c": Worker("q")})
SPLITS = {"s": Split(10, ["a"]), "t": Split(20, ["a"])}
HEAD = head(CLUSTER, SPLITS, target=2, silence=1, documents=[("d", "s", "the cat"), ("e", "t", "the dog")])
# Calls with what they give, or the class and number of what they raise; worked by hand by the rules of docs/MODEL.md.
FIRST = Wave((Start(1, "s", "b"), Start(2, "t", "a")), 20)
WORKED = [
    (calls.reduce(), (Ignored, 7)),
    (calls.copies(), (Copy("s", "a", "c"), Copy("t", "a", "c"))),
    (calls.wave(), FIRST),
    (calls.done(2), None),
    (calls.done(2), (Ignored, 1)),
    (calls.add("s", "c"), None),
    (calls.backup("s", "c"), Start(3, "s", "c")),
    (calls.open_work(), OpenWork((), (Start(1, "s", "b"),), (Start(3, "s", "c"),), (0,), ())),
    (calls.workers(), (Standing("a", True, 1), Standing("b", True, 1, 1), Standing("c", True, 1, 1))),
    (calls.fail(3), None),
    (calls.lose("s", "c"), None),
    (calls.withdraw(1), None),
    (calls.ahead([1, 0, 2]), Ahead((Start(4, "s", "a"),), 0, 1, 0)),
    (calls.die("c"), None),
    (calls.die("d"), (Faulty, 3)),
    (calls.open_work(), OpenWork((), (Start(4, "s", "a"),), (), (0,), ())),
    (calls.join("c", ["s"]), None),
    (calls.sweep([1, 0, 1]), ("b",)),
    (calls.workers(), (Standing("a", True, 1, 1), Standing("b", False), Standing("c", True, 1))),
    (calls.outputs(), (Start(2, "t", "a"),)),
    (calls.done(4), None),
    (calls.outputs(), (Start(4, "s", "a"), Start(2, "t", "a"))),
    (calls.reduce(), Reduce(5, 0, "a")),
    (calls.open_work(), OpenWork((), (), (), (), (Reduce(5, 0, "a"),))),
    (calls.done(5), None),
    (calls.open_work(), OpenWork((), (), (), (), ())),
    (calls.end(), Ended({"cat": ("d",), "dog": ("e",), "the": ("d", "e")}, (), True)),
]


class Count:
    """How many checks hold."""

    def __init__(self, program):
        self.program, self.passed, self.failed = program, 0, 0

    def expect(self, says, got, wanted):
        holds = got == wanted
        print(f"{self.program}: {says}: {'ok' if holds else f'FAILED: {got!r:.600}, and not {wanted!r:.600}'}", flush=True)
        self.passed, self.failed = self.passed + holds, self.failed + (not holds)


def outcome(do, *given):
    """What a call gives, or the class of what it raises, with its number."""
    try:
        return do(*given)
    except Unanswered as why:
        return type(why), why.number
    except MasterEnded as why:
        return type(why), why.status
    except (NoSession, OSError) as why:
        return type(why), str(why).partition("]")[2] or str(why)


async def awaited(do, *given):
    try:
        return await do(*given)
    except Unanswered as why:
        return type(why), why.number


def played(program, log):
    """What `mrjob play` says of a log."""
    with open(log, "rb") as script:
        return subprocess.run([program, "play"], stdin=script, capture_output=True, text=True).stdout.splitlines()


def worked(count, program, room):
    log = room / "worked"
    with Master(HEAD, program=["env", program], log=log) as master:
        got = [(call, outcome(master.do, call)) for call, _ in WORKED]
        after = outcome(master.wave)
    count.expect("a job, call by call", (got, master.status, after), (WORKED, 0, (MasterEnded, 0)))
    lines = [it for it in log.read_text().splitlines() if it != "die d"]
    (room / "faultless").write_text("".join(f"{it}\n" for it in lines))
    count.expect("its log is a script", played(program, room / "faultless")[-4:],
                 ["index 3", "word cat d", "word dog e", "word the d e"])


def at_once(count, program, room):
    """More lines than a pipe holds, and one that a pipe does not hold."""
    lines = [it for split in SPLITS for it in (f"add {split} c", f"lose {split} c") * 3000]
    lines += [" ".join(["join", *"x" * 50_000]), "wave"]

    async def whole():
        async with await AsyncMaster.open(HEAD, program=program) as master:
            return await master.tell_all(lines)

    with Master(HEAD, program=program) as master:
        got = master.tell_all(lines)
    count.expect("many lines at once are answered each", (len(got), got == asyncio.run(whole())), (len(lines), True))
    accepted = [[f"accepted {it}"] for it in range(1, len(lines) - 1)]
    ends = [[it.partition(" ")[0] for it in answer] for answer in got[-2:]]
    count.expect("in their order", (got[:-2] == accepted, ends), (True, [["fault"], ["accepted", "wave", "start", "start"]]))


def logged(turns):
    """Those of which a log has the line."""
    return [turn for turn in turns if turn[0].line not in QUERIES]


def awaiting(count, program, room):
    at = [call.line for call, _ in WORKED].index("withdraw 1")

    async def whole():
        log = room / "awaiting"
        async with await AsyncMaster.open(HEAD, program=program, log=log) as master:
            got = [(call, await awaited(master.do, call)) for call, _ in WORKED[:at]]
            # (its answer is read, though nobody waits for it)
            waiting = asyncio.ensure_future(master.withdraw(1))
            await asyncio.sleep(0)
            waiting.cancel()
            got += [(call, await awaited(master.do, call)) for call, _ in WORKED[at + 1 : at + 3]]
            master.kill()
        async with await AsyncMaster.recover(log, program=program) as master:
            told = [line for line, _ in master.told]
            got += [(call, await awaited(master.do, call)) for call, _ in WORKED[at + 3 :]]
        return got, told, master.status

    got, told, status = asyncio.run(whole())
    lines = [call.line for call, _ in logged(WORKED[: at + 3])]
    count.expect("the same, awaited", (got, told, status), ([*WORKED[:at], *WORKED[at + 1 :]], lines, 0))


# The best starts of SPLITS, with prices worked by hand: K is 1 + 4 * 30.
STARTS, PRICES = {"s": "b", "t": "a"}, Prices({"s": 101, "t": 101}, {"a": 20, "b": 0, "c": 0})
# Plans of a client's own, and what becomes of them one after another.
OWN_PLANS = [
    (STARTS, Prices(PRICES.splits, {**PRICES.workers, "c": 1}), (NotCertified, 8)),
    ({**STARTS, "x": "c"}, PRICES, (Faulty, 3)),
    (STARTS, Prices(PRICES.splits, {"a": 20}), (Faulty, 10)),
    (STARTS, PRICES, Wave((Start(1, "s", "b"), Start(2, "t", "a")), 20)),
    (STARTS, PRICES, (NotCertified, 1)),
]


def own_plans(count, program, room):
    wanted = [result for _, _, result in OWN_PLANS]
    log = room / "own plans"
    with Master(HEAD, program=program, log=log) as master:
        first = outcome(master.audit)
        got = [outcome(lambda: master.commit(*plan)) for *plan, _ in OWN_PLANS]
        text = master.audit()
        where = None
        try:
            master.commit(*OWN_PLANS[0][:2])
        except NotCertified as why:
            where = why.place
    count.expect("plans of a client's own", (first, got, where), ((Ignored, 7), wanted, ("s",)))
    said = subprocess.run([program, "check"], input=text, capture_output=True, text=True).stdout
    count.expect("a check certifies the audit", said, "certified 2 20\n")
    with Master.recover(log, program=program) as master:
        count.expect("a new master has the plan of the log", (master.audit(), len(master.told) > 9), (text, True))

    async def whole():
        async with await AsyncMaster.open(HEAD, program=program) as master:
            return [await awaited(master.commit, *plan) for *plan, _ in OWN_PLANS], await master.audit()

    count.expect("the same, awaited", asyncio.run(whole()), (wanted, text))


def without_audits(count, program, room):
    log = room / "without audits"
    with Master(HEAD, program=program, log=log, audits=False) as master:
        got = [outcome(master.wave), outcome(master.audit)]
    with Master.recover(log, program=program, audits=False) as master:
        got.append(outcome(master.audit))
    count.expect("no wave is kept without audits", got, [FIRST, (Ignored, 7), (Ignored, 7)])

    async def awaited_too():
        async with await AsyncMaster.open(HEAD, program=program, audits=False) as master:
            await master.wave()
            return await awaited(master.audit)

    count.expect("the same, awaited", asyncio.run(awaited_too()), (Ignored, 7))


def refused(count, program, room):
    wrong = outcome(lambda: Master([*HEAD, "rack r centre-0"], program=program))
    count.expect("a head with a fault", wrong, (NoSession, f"line {len(HEAD) + 1}: fault 4"))
    log = room / "refused"
    Master(HEAD, program=program, log=log).close()
    wrong = outcome(lambda: Master(HEAD, program=program, log=log))[0]
    count.expect("a log that is there already", wrong, FileExistsError)
    (room / "no-head").write_text("script 2\n")
    wrong = outcome(lambda: Master.recover(room / "no-head", program=program))
    count.expect("a log without a head", wrong, (NoSession, f"{room / 'no-head'}: there is no line 'begin'"))
    try:
        head(Cluster({"a": Worker("r", live=False)}), {})
        said = ""
    except ValueError as why:
        said = str(why)
    count.expect("a head with a dead worker", said, "a job opens with all workers alive")


def recovered(count, program, room):
    """A new master goes on from each place of a log, also one whose last line was cut off."""
    log, wrong = room / "recovered", []
    for at in range(len(WORKED)):
        log.unlink(missing_ok=True)
        with Master(HEAD, program=program, log=log) as master:
            first = [outcome(master.do, call) for call, _ in WORKED[:at]]
            master.kill()
        with open(log, "ab") as file:
            file.write(b"wav" * (at % 2))
        with Master.recover(log, program=program) as master:
            again = [outcome(call.answered, answer) for (call, _), (_, answer) in zip(logged(WORKED), master.told)]
            rest = [outcome(master.do, call) for call, _ in WORKED[at:]]
        lines = log.read_text().splitlines()
        wanted = [result for _, result in WORKED]
        is_so = [*first, *rest] == wanted and again == [result for _, result in logged(WORKED[:at])]
        wrong += [at] * (not is_so or lines != [*HEAD, "begin", *(call.line for call, _ in logged(WORKED))])
    count.expect("a new master goes on from each place of the log", wrong, [])


def threads(count, program, room):
    log = room / "threads"

    def turns(split, worker):
        for _ in range(500):
            master.add(split, worker)
            master.lose(split, worker)

    with Master(HEAD, program=program, log=log, durable=False) as master:
        pairs = [(split, worker) for split in SPLITS for worker in "bc"]
        all_turns = [threading.Thread(target=turns, args=it) for it in pairs]
        for it in all_turns:
            it.start()
        for it in all_turns:
            it.join()
        ended = master.end()
    said = played(program, log)
    accepted = [line for line in said if line.startswith("accepted ")]
    count.expect("four threads call", (ended.open, accepted, said[-3:]), (
        ("s", "t"), [f"accepted {it}" for it in range(1, 4001)], ["stuck 2", "open s", "open t"]))


def simulated(count, program, room):
    """The example, of which the master is killed or not."""
    words = [sys.executable, ROOT / "examples/python/serve.py", "--program", program]
    patient = {**os.environ, "PYTHONPATH": str(ROOT / "python"), "PYTHONDONTWRITEBYTECODE": "1"}
    ran = lambda *more: subprocess.run([*words, *more], capture_output=True, text=True, env=patient)
    logs = [room / "whole", room / "killed"]
    whole, killed = ran("--log", logs[0]), ran("--log", logs[1], "--kill", "300")
    said = [it.stdout.splitlines() for it in (whole, killed)]
    shape = re.fullmatch(r"\d+ calls, 27 words, 0 splits open", said[0][-1] if said[0] else whole.stderr)
    count.expect("the example of a scheduler ends", (bool(shape), whole.returncode), (True, 0))
    of_kill = ["the master ended with status -9; a new one was told 300 lines", said[0][-1]]
    count.expect("the same where its master is killed", (said[1], killed.stderr), (of_kill, ""))
    count.expect("the logs are alike", logs[0].read_text(), logs[1].read_text())
    count.expect("its log is a script, done at its end", played(program, logs[0])[-28:-27], ["index 27"])


def documents(count, program, room):
    """What README and the package's README show of a live master runs as it stands, and prints what it says."""
    (room / "mrjob").symlink_to(program)
    how = {**os.environ, "PYTHONPATH": str(ROOT / "python"), "PYTHONDONTWRITEBYTECODE": "1"}
    how["PATH"] = f"{room}:{how['PATH']}"
    begin = r"^    from mrjob_plan import.*\n(?:    .*\n|\n(?=    ))*"
    blocks = [textwrap.dedent(it) for it in re.findall(begin, (ROOT / "README.md").read_text(), re.M)]
    blocks += re.findall(r"```python\n(.*?)```", (ROOT / "python/README.md").read_text(), re.S)
    got, wanted = [], []
    for block in blocks:
        if "mrjob_plan.master" in block:
            ran = subprocess.run([sys.executable, "-c", block], capture_output=True, text=True, cwd=room, env=how)
            (room / "job.log").unlink()
            got.append((ran.stdout, ran.returncode))
            wanted.append(("".join(f"{it}\n" for it in re.findall(r"^ *print\(.*?\)  +# (.*)$", block, re.M)), 0))
    count.expect("what is shown of it in README and in the package's README", (got, len(got)), (wanted, 2))


# What the examples in Rust and in Go tell of their job, worked by hand.
TOLD = """told 0 lines, 0 attempts run
wave: accepted 1, wave 3 0, start 1 s a, start 2 t b, start 3 u d
done 1: accepted 2
done 2: accepted 3
done 3: accepted 4
wave: accepted 5, wave 0 0
reduce: accepted 6, reduce 4 0 a
done 4: accepted 7
wave: accepted 8, wave 0 0
reduce: ignored 7
index 5
word a three
word and three
word cat one three
word dog two three
word the one two
"""


def compiled(count, program, room):
    """The examples in other languages, from nothing and from a log that was cut off in a line."""
    made = {
        "Rust": ("rustc", ["rustc", "--edition", "2021", "-o", room / "client", "examples/rust/src/serve.rs"]),
        "Go": ("go", ["go", "build", "-o", room / "client", "examples/go/serve.go"]),
    }
    for language, (compiler, words) in made.items():
        if shutil.which(compiler) is None:
            print(f"{compiler} is not there, so the example in {language} was skipped")
            continue
        count.expect(f"the example in {language} is built", subprocess.run(words, cwd=ROOT, env=go_home(room)).returncode, 0)
        log, cut = room / f"log in {language}", room / f"cut log in {language}"
        told = lambda path: subprocess.run([room / "client", path, program], capture_output=True, text=True).stdout
        count.expect(f"the example in {language}", told(log), TOLD)
        lines = log.read_text().splitlines(keepends=True)
        cut.write_text("".join(lines[: lines.index("begin\n") + 4]) + "do")
        again = ["told 3 lines, 1 attempts run\n", *TOLD.splitlines(keepends=True)[4:]]
        count.expect(f"the example in {language}, from a log", told(cut), "".join(again))
        count.expect(f"the example in {language}: the logs are alike", cut.read_text(), "".join(lines))


def go_home(room):
    return {**os.environ, "GOCACHE": str(room / "go"), "GOPATH": str(room / "path"), "GO111MODULE": "off"}


PARTS = (worked, at_once, awaiting, own_plans, without_audits, refused, recovered, threads, simulated, documents, compiled)


def main(programs):
    counts = [Count(os.path.abspath(it)) for it in programs]
    for count in counts:
        for part in PARTS:
            with tempfile.TemporaryDirectory() as room:
                part(count, count.program, Path(room))
    passed, failed = sum(it.passed for it in counts), sum(it.failed for it in counts)
    print(f"{passed} passed, {failed} failed")
    return 1 if failed or not passed else 0


if __name__ == "__main__":
    sys.exit(main(sys.argv[1:]))

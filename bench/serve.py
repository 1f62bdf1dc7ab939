#!/usr/bin/env python3
"""What serve.sh says, by a program: serve.py PROGRAM."""
import random
import subprocess
import sys
import tempfile
import time
from pathlib import Path

sys.dont_write_bytecode = True
sys.path.insert(0, str(Path(__file__).resolve().parent.parent / "python"))
from mrjob_plan import Cluster, Split, Worker
from mrjob_plan.calls import head
from mrjob_plan.master import Master

TURNS, RUNS, EVENTS = 20_000, 5, 65_536


def least(made):
    return min(made() for _ in range(RUNS))


def seconds(do):
    start = time.perf_counter()
    do()
    return time.perf_counter() - start


def of_cat():
    """Seconds for a line to `cat` and back."""
    with subprocess.Popen(["cat"], stdin=subprocess.PIPE, stdout=subprocess.PIPE) as cat:

        def turns():
            for _ in range(TURNS):
                cat.stdin.write(b"add s0 w1\n")
                cat.stdin.flush()
                cat.stdout.readline()

        taken = seconds(turns) / TURNS
        cat.stdin.close()
    return taken


def cluster():
    dice = random.Random(1)
    workers = {f"w{it}": Worker(f"r{it // 32}", 4) for it in range(256)}
    splits = {f"s{it}": Split(dice.randrange(1 << 26), dice.sample([*workers], 3)) for it in range(1024)}
    return head(Cluster(workers), splits)


def of_opening(program, lines):
    master = None

    def opened():
        nonlocal master
        master = Master(lines, program=program)

    taken = seconds(opened)
    master.close()
    return taken


def of_wave(program, lines):
    with Master(lines, program=program) as master:
        return seconds(lambda: master.tell("wave"))


def of_freed_slot(program, lines):
    """Seconds for a wave that starts one split, on a slot that was given back."""
    with Master(lines, program=program) as master:
        starts = master.wave().starts

        def turns():
            for it in starts[:200]:
                master.withdraw(it.attempt)
                assert len(master.wave().starts) == 1

        return (seconds(turns) - 200 * of_calls(program, lines)) / 200


def of_calls(program, lines):
    """Seconds for a call that is accepted."""
    held = next(it for it in lines if it.startswith("split s0 ")).split(" ")[3:]
    worker = next(it for it in ("w0", "w1", "w2", "w3") if it not in held)
    with Master(lines, program=program) as master:

        def turns():
            for _ in range(TURNS // 2):
                master.tell(f"add s0 {worker}")
                master.tell(f"lose s0 {worker}")

        return seconds(turns) / TURNS


def of_log(program, room):
    """Seconds in which a log is told again."""
    log = Path(room) / "log"
    if not log.exists():
        lines = [*head(Cluster({"a": Worker("r"), "b": Worker("r")}), {"s": Split(1, ["a"])}), "begin"]
        log.write_text("".join(f"{it}\n" for it in [*lines, *(["add s b", "lose s b"] * (EVENTS // 2))]))
    master = None

    def again():
        nonlocal master
        master = Master.recover(log, program=program)

    taken = seconds(again)
    master.close()
    return taken


def main(program):
    lines = cluster()
    cat, call = least(of_cat), least(lambda: of_calls(program, lines))
    print(f"a call: {1 / call:9,.0f} a second, cat {1 / cat:9,.0f}, ratio {call / cat:.2f}")
    print(f"a wave of 1,024 starts: {least(lambda: of_wave(program, lines)) * 1e3:.2f} ms")
    print(f"a wave of one start: {least(lambda: of_freed_slot(program, lines)) * 1e3:.2f} ms")
    print(f"opening: {least(lambda: of_opening(program, lines)) * 1e3:.2f} ms")
    with tempfile.TemporaryDirectory() as room:
        print(f"a log of {EVENTS:,} commands: {least(lambda: of_log(program, room)):.2f} s")


if __name__ == "__main__":
    main(sys.argv[1])

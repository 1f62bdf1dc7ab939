#!/usr/bin/env python3
"""Writes the scripts and jobs that are timed, the same ones each time: 1,024 splits of 8 holders and 256 workers.

    make_scripts.py commands      65,536 commands, none of them a wave: holders, deaths, returns, sweeps, old attempts
    make_scripts.py waves [N]     1,000 waves, or N, that start one split each, and its completion
    make_scripts.py slots SPLITS WORKERS N    of a great cluster, each of whose workers has one slot: a wave that fills
                                  all slots, and N times a completion and a wave for the slot that came back
    make_scripts.py job FILE      the lines of a file as documents, in 256 splits and 8 parts: one wave, and all is done
    make_scripts.py run FILE N    the same documents, splits and parts as a job of N workers, each holding its share
"""
import random
import sys

SPLITS, WORKERS, PARTS = 1024, 256, 8
COMMANDS = 65_536
WAVES = 1_000
JOB_SPLITS = 256
BLOCK = 67_108_864
# One sweep in so many commands: its line has a count for each worker.
SWEEP_EVERY = 64


def head(slots, splits, holders):
    """The racks, the workers with these slots, and the splits."""
    yield "script 1"
    yield from (f"rack r{rack}" for rack in range(WORKERS // 8))
    yield from (f"worker w{worker} r{worker // 8} {slots(worker)}" for worker in range(WORKERS))
    for split in range(splits):
        yield f"split s{split} {BLOCK} " + " ".join(f"w{worker}" for worker in holders(split))


def command(at, rnd):
    """The command of a place."""
    split, worker = f"s{rnd.randrange(SPLITS)}", f"w{rnd.randrange(WORKERS)}"
    if at % SWEEP_EVERY == 0:
        return "sweep " + " ".join([str(at)] * WORKERS)
    return rnd.choice(
        [f"add {split} {worker}", f"lose {split} {worker}", f"done {at}", f"fail {at}", f"withdraw {at}", "reduce"]
        + [f"die {worker}", f"join {worker} {split}"] * (at % 8 == 0)
    )


def commands():
    rnd = random.Random("commands")
    yield from head(lambda worker: 16, SPLITS, lambda split: rnd.sample(range(WORKERS), 8))
    yield "begin"
    yield from (command(at, rnd) for at in range(COMMANDS))


def waves(count=WAVES):
    # (one slot in all, on a holder of every split)
    yield from head(lambda worker: int(worker == 0), SPLITS, lambda split: range(8))
    yield "begin"
    for wave in range(int(count)):
        yield "wave"
        yield f"done {wave + 1}"


def slots(splits, workers, count):
    splits, workers, rnd = int(splits), int(workers), random.Random("slots")
    racks = max(1, workers // 25)
    yield "script 3"
    yield "centre c"
    yield from (f"rack r{rack} c" for rack in range(racks))
    yield from (f"worker w{worker} r{worker % racks} 1" for worker in range(workers))
    for split in range(splits):
        yield f"split s{split} {2 * BLOCK} " + " ".join(f"w{it}" for it in rnd.sample(range(workers), 3))
    yield "begin"
    yield "wave"
    for wave in range(int(count)):
        yield f"done {wave + 1}"
        yield "wave"


def documents(path):
    """The lines of a file, in the splits of a job."""
    with open(path, encoding="ascii") as file:
        texts = file.read().splitlines()
    yield f"parts {PARTS}"
    for number, text in enumerate(texts):
        yield f"doc d{number} s{number * JOB_SPLITS // len(texts)} {text}"


def job(path):
    splits = JOB_SPLITS
    yield from head(lambda worker: 16, splits, lambda split: [split])
    yield from documents(path)
    yield "begin"
    yield "wave"
    yield from (f"done {attempt + 1}" for attempt in range(splits))
    for part in range(PARTS):
        yield "reduce"
        yield f"done {splits + part + 1}"


def run(path, workers):
    yield "job 1"
    yield "rack r"
    # (one order that it works at, and one that waits in its lane)
    yield from (f"worker w{worker} r 2" for worker in range(int(workers)))
    yield from (f"split s{split} {BLOCK} w{split % int(workers)}" for split in range(JOB_SPLITS))
    yield from documents(path)


def main():
    kinds = {"commands": commands, "waves": waves, "slots": slots, "job": job, "run": run}
    if len(sys.argv) < 2 or sys.argv[1] not in kinds:
        sys.exit(__doc__)
    for line in kinds[sys.argv[1]](*sys.argv[2:]):
        print(line)
    print("end")


if __name__ == "__main__":
    main()

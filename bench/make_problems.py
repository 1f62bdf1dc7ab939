#!/usr/bin/env python3
"""Writes the problems on which plans are timed, the same ones each time: 1,024 splits and up to 256 workers, or fewer.

    make_problems.py SHAPE [SPLITS [CENTRES [WORKERS]]]
    make_problems.py drawn SEED

The first writes the text of one shape, with so many splits, a multiple of 128, its racks in so many data centres, and
so many workers, a multiple of 16; with 1,024, 1 and a worker for each four splits where these are not given. It is of
version 3 where it has more splits than 1,024 or more workers than 256. The second writes a problem of 1,024 splits and
256 workers of which all else is drawn: racks, data centres, slots too few, as many as splits or more, holders and where
they may be, barred pairs of no split, of one, of some or of all, and bytes. Without an argument it writes the names of
the shapes.
"""
import random
import sys

SPLITS, WORKERS = 1024, 256
BLOCK = 67_108_864

# With so many splits and workers. Racks of 8 workers, and one host's neighbours, grow with the workers.
SHAPES = {
    "one_host": "one host without slots holds all splits; 64 workers of 16 slots stand in another rack",
    "one_of_many": "32 racks of 8 workers of 4 slots; one of these workers holds all splits",
    "spread": "32 racks of 8 workers with 4 to 16 slots; each split has 3 holders anywhere",
    "eight_holders": "the same, with 8 holders each",
    "few_hosts": "the same, with 3 holders each among 16 workers",
    "barred": "as few_hosts; each fourth split has a barred pair",
    "crowded": "256 workers of 3 slots, so too few; holders among 64 workers, splits of three sizes",
    "scarce": "256 workers of 0 to 2 slots, so that most splits wait; holders among 32 workers, splits of all sizes",
    "all_barred": "as few_hosts, with splits of all sizes, and three barred pairs of each split",
    "many_barred": "the same, with three barred pairs of 300 of the splits",
    "some_barred": "the same, with three barred pairs of 100 of them",
    "half_wait": "256 workers of 2 slots, so that half of the splits wait; holders among 64 workers, splits of all sizes",
    "half_wait_barred": "the same, with three barred pairs of each split",
    "just_enough": "256 workers of 4 slots, as many as splits; one holder each among 64 workers, splits of all sizes",
    "ties": "256 workers of 4 slots, as many as splits; 3 holders each among 64 workers, splits of three sizes",
}

# One of so many workers may hold a replica, where not each may.
APART = {
    "few_hosts": 16,
    "barred": 16,
    "crowded": 4,
    "scarce": 8,
    "all_barred": 16,
    "many_barred": 16,
    "some_barred": 16,
    "half_wait": 4,
    "half_wait_barred": 4,
    "just_enough": 4,
    "ties": 4,
}
HOLDERS = {"eight_holders": 8, "just_enough": 1}
THREE_SIZES = {"crowded", "ties"}
ALL_SIZES = {"scarce", "all_barred", "many_barred", "some_barred", "half_wait", "half_wait_barred", "just_enough"}
# How many of 1,024 splits have three barred pairs.
BARRED = {"all_barred": 1024, "many_barred": 300, "some_barred": 100, "half_wait_barred": 1024}


def workers(shape, count, rnd):
    """The rack and the free slots of each worker."""
    if shape == "one_host":
        return [(0, 0)] + [(1, 16)] * max(64, count // 4)
    slots = {
        "one_of_many": lambda: 4,
        "crowded": lambda: 3,
        "scarce": lambda: rnd.randint(0, 2),
        "half_wait": lambda: 2,
        "half_wait_barred": lambda: 2,
        "just_enough": lambda: 4,
        "ties": lambda: 4,
    }.get(shape, lambda: rnd.randint(4, 16))
    return [(w // 8, slots()) for w in range(count)]


def split(shape, count, rnd):
    """The bytes and the holders of a split."""
    if shape in ("one_host", "one_of_many"):
        return BLOCK, [0]
    size = BLOCK
    if shape in THREE_SIZES:
        size = BLOCK >> rnd.randrange(3)
    elif shape in ALL_SIZES:
        size = rnd.randint(0, BLOCK)
    held = min(HOLDERS.get(shape, 3), count // APART.get(shape, 1))
    return size, rnd.sample(range(0, count, APART.get(shape, 1)), held)


def bars(shape, number, splits, count, holders, rnd):
    """The workers on which a split may not start."""
    if shape == "barred":
        return [rnd.choice(holders)] if number % 4 == 0 else []
    return rnd.sample(range(count), 3) if number * SPLITS < BARRED.get(shape, 0) * splits else []


# What is drawn: one word of each row, a word that stands twice more often.
RACKS = (1, 3, 8, 32, 32)
CENTRES = (1, 1, 2, 4, 8)
HOLDER_COUNTS = {"one": lambda rnd: 1, "three": lambda rnd: 3, "eight": lambda rnd: 8, "any": lambda rnd: rnd.randint(0, 8)}
HELD_AMONG = (256, 256, 64, 16)
SLOTS = {
    "short": lambda rnd: 2,
    "equal": lambda rnd: 4,
    "plenty": lambda rnd: rnd.randint(4, 12),
    "mixed": lambda rnd: rnd.randint(0, 8),
}
SIZES = {
    "equal": lambda rnd: BLOCK,
    "drawn": lambda rnd: rnd.randint(0, BLOCK),
    "powers": lambda rnd: 1 << rnd.randrange(27),
    "zero": lambda rnd: 0,
    "small": lambda rnd: rnd.randrange(4),
    "three": lambda rnd: BLOCK >> rnd.randrange(3),
}
# How many splits have barred pairs, and how many at most each.
BARS = {
    "none": lambda rnd: (0, 0),
    "one_split": lambda rnd: (1, 255),
    "one_each": lambda rnd: (SPLITS, 1),
    "few": lambda rnd: (SPLITS // 4, 3),
    "few_of_many": lambda rnd: (SPLITS // 16, 128),
    "many": lambda rnd: (SPLITS, rnd.choice([3, 8, 32, 100])),
}


def drawn(seed):
    """The lines of a drawn problem."""
    rnd = random.Random(f"drawn {seed}")
    racks = rnd.choice(RACKS)
    centres = min(racks, rnd.choice(CENTRES))
    used = racks if rnd.random() < 0.7 else min(racks, 3)
    among = rnd.choice(HELD_AMONG)
    slots = SLOTS[rnd.choice(["short", "equal", "equal", "plenty", "mixed"])]
    holders = HOLDER_COUNTS[rnd.choice(["one", "three", "eight", "any", "any"])]
    size = SIZES[rnd.choice(["equal", "drawn", "drawn", "powers", "zero", "small", "three"])]
    barred, most = BARS[rnd.choice(["none", "one_split", "one_each", "few", "few_of_many", "many", "many"])](rnd)
    yield from ["problem 2", *(f"centre c{c}" for c in range(centres))]
    yield from (f"rack r{r} c{rnd.randrange(centres)}" for r in range(racks))
    yield from (f"worker w{w} r{rnd.randrange(used)} {slots(rnd)}" for w in range(WORKERS))
    has_bars = set(rnd.sample(range(SPLITS), barred))
    for s in range(SPLITS):
        held = rnd.sample(range(among), holders(rnd))
        yield " ".join([f"split s{s} {size(rnd)}"] + [f"w{w}" for w in held])
        if s in has_bars:
            yield from (f"barred s{s} w{w}" for w in rnd.sample(range(256), rnd.randint((most + 1) // 2, most)))
    yield "end"


def main():
    if len(sys.argv) == 1:
        print(*SHAPES, sep="\n")
        return
    if sys.argv[1] == "drawn":
        print(*drawn(int(sys.argv[2])), sep="\n")
        return
    shape, splits = sys.argv[1], int(sys.argv[2]) if len(sys.argv) > 2 else SPLITS
    centres = int(sys.argv[3]) if len(sys.argv) > 3 else 1
    count = int(sys.argv[4]) if len(sys.argv) > 4 else splits // 4
    rnd = random.Random(shape)
    stand = workers(shape, count, rnd)
    racks = 1 + max(rack for rack, _ in stand)
    version = 3 if splits > SPLITS or count > WORKERS else 2 if centres > 1 else 1
    lines = ["problem 1", *(f"rack r{r}" for r in range(racks))]
    if version > 1:
        lines = [f"problem {version}", *(f"centre c{c}" for c in range(centres))]
        lines += [f"rack r{r} c{r * centres // racks}" for r in range(racks)]
    lines += [f"worker w{w} r{rack} {slots}" for w, (rack, slots) in enumerate(stand)]
    for s in range(splits):
        size, holders = split(shape, count, rnd)
        lines.append(" ".join([f"split s{s} {size}"] + [f"w{w}" for w in holders]))
        lines += [f"barred s{s} w{w}" for w in bars(shape, s, splits, count, holders, rnd)]
    lines.append("end")
    sys.stdout.write("\n".join(lines) + "\n")


main()

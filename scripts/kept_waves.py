#!/usr/bin/env python3
"""Plays small clusters by `mrjob serve`, a wave after almost every event, and compares each wave with all assignments.

    kept_waves.py FIRST LAST PROGRAM    plays the clusters of these seeds

A live master keeps its planner from wave to wave. A wave is near the one before where nothing but slots and pending
splits changed since: the planner keeps up with these. It is far where holders or barred pairs may have changed: the
planner goes over to another problem. The clusters have three to five workers and four to seven splits. Their events
are drawn so that most of them are accepted. A plan ahead stands now and then in place of a wave. Each answer has to be
the reference's of reference_play.py, which goes over all assignments. The last line counts the events, the waves of
each kind and the plans ahead.
"""
import random
import sys
from collections import Counter

sys.dont_write_bytecode = True
import make_texts
from reference_play import Master, Wrong
from reference_text import read
from served import Master as Live, text_of

EVENTS = 100
# How often an event of each kind is drawn.
SHARES = {"withdraw": 8, "done": 5, "fail": 2, "backup": 3, "die": 2, "join": 4, "add": 5, "lose": 2, "sweep": 2,
          "reduce": 2}
TURNS_FAR = ("add", "lose", "join", "die")


class Failure(Exception):
    """An answer is not the reference's."""


def head_of(rnd):
    """The head of a script: few slots or many, and sizes of which some are equal."""
    centres, racks, workers, splits = (rnd.randint(*most) for most in ((1, 2), (1, 3), (3, 5), (4, 7)))
    slots = rnd.choice([[0, 1, 1], [1], [1, 2], [0, 1, 2, 3]])
    sizes = rnd.choice([[0, 1], [1, 2, 3], [5, 7, 10, 20], [1, 1000, 67108864]])
    names = [f"w{worker}" for worker in range(workers)]
    lines = ["script 3", "parts 64", f"silence {rnd.randint(1, 3)}", *(f"centre c{it}" for it in range(centres))]
    lines += [f"rack r{rack} c{rnd.randrange(centres)}" for rack in range(racks)]
    lines += [f"worker {name} r{rnd.randrange(racks)} {rnd.choice(slots)}" for name in names]
    for split in range(splits):
        held = rnd.sample(names, rnd.choice([0, 1, 1, 1, 2, 2, 3]))
        lines.append(" ".join([f"split s{split} {rnd.choice(sizes)}", *held]))
    return lines


def drawn(rnd, master):
    """An event near the present state, as the words of its line; none where the state has none of the kind drawn."""
    workers, splits = range(len(master.live)), range(len(master.done))
    names = [f"w{worker}" for worker in workers]
    running = [[str(attempt)] for runs in (*master.running, *master.part_running) for attempt in runs]
    dead = [name for name, live in zip(names, master.live) if not live]
    living = [name for name, live in zip(names, master.live) if live]
    pending = [split for split in splits if master.done[split] is None and not master.running[split]]
    pairs = [[f"s{split}", name] for split in splits for name in names]
    some = [f"s{split}" for split in rnd.sample(splits, rnd.randint(0, 3))]
    near = {
        "withdraw": running,
        "done": running,
        "fail": running,
        "backup": [] if pending else pairs,
        "die": [[name] for name in living],
        "join": [[name, *some] for name in dead],
        "add": [[f"s{split}", name] for split in pending or splits for name in living],
        "lose": [[f"s{split}", names[holder]] for split in splits for holder in master.holders[split]],
        "sweep": [[str(last + (rnd.random() < 0.8)) for last in master.last]],
        "reduce": [] if None in master.done else [[]],
    }
    # (most of these are ignored)
    stray = {
        "withdraw": [[str(rnd.randint(0, master.next))]],
        "die": [[name] for name in names],
        "join": [[name, *some] for name in names],
        "backup": pairs,
        "add": pairs,
        "lose": pairs,
        "reduce": [[]],
        "copies": [[]],
    }
    kinds, shares = (stray, None) if rnd.random() < 0.05 else (near, SHARES.values())
    kind = rnd.choices(list(kinds), shares)[0]
    return [kind, *rnd.choice(kinds[kind])] if kinds[kind] else None


class Session:
    """A live master, and the reference beside it."""

    def __init__(self, program, head):
        self.told = [*head, "begin"]
        self.live = Live(program, head)
        self.master = Master(read(text_of([*self.told, "end"]), "play"))
        # what the next wave is to the wave before it: new where there was none, else near or far
        self.next_is = "new"
        self.counts = Counter()

    def fail(self, got, why):
        told = "\n".join(self.told)
        raise Failure(f"{told}\nThe last line is answered by {got}, but {why}")

    def tell(self, words):
        """Tells a command. Its answer, which has to be the reference's."""
        self.told.append(" ".join(words))
        got = self.live.tell(self.told[-1])
        if None in got:
            self.fail(got, "the master ended")
        try:
            wanted = self.master.answer(words[0], [word.encode() for word in words[1:]], got)
        except (Wrong, ValueError) as wrong:
            self.fail(got, wrong)
        if got != wanted:
            self.fail(got, f"the reference says {wanted}")
        return got

    def event(self, words):
        kind = words[0]
        bars = kind == "fail" and self.master.of_split(int(words[1])) is not None
        first, *dead = self.tell(words)
        accepted = first.startswith("accepted ")
        if accepted and self.next_is == "near" and (kind in TURNS_FAR or bars or kind == "sweep" and dead):
            self.next_is = "far"
        self.counts += Counter({"events": 1, "accepted": int(accepted)})

    def wave(self):
        starts = self.tell(["wave"])[2:]
        self.counts += Counter({f"{self.next_is} waves": 1, f"{self.next_is} waves that start splits": int(starts != [])})
        self.next_is = "near"

    def ahead(self, rnd):
        starts = self.tell(make_texts.ahead(rnd, len(self.master.live)).split(" "))[3:]
        self.counts += Counter({"plans ahead": 1, "plans ahead that start splits": int(starts != [])})

    def end(self):
        got, wanted = self.live.tell("end"), self.master.ending()
        ended, status = self.live.end(), 1 if wanted[0].startswith("stuck") else 0
        if (got, ended) != (wanted, (b"", status)):
            self.fail(got, f"it ends with {wanted} and status {status}, and not with {ended}")


def played(program, seed):
    """What the session of a seed counts."""
    rnd = random.Random(seed)
    session = Session(program, head_of(rnd))
    try:
        session.wave()
        while session.counts["events"] < EVENTS:
            words = drawn(rnd, session.master)
            if words:
                session.event(words)
                if rnd.random() < 0.15:
                    session.ahead(rnd)
                elif rnd.random() < 0.85:
                    session.wave()
        session.end()
    finally:
        session.live.pipe.kill()
    return session.counts


def main(words):
    first, last, program = int(words[0]), int(words[1]), words[2]
    counts = Counter()
    for seed in range(first, last + 1):
        try:
            counts += played(program, seed)
        except Failure as why:
            print(f"seed {seed}: {why}")
            return 1
    print(", ".join(f"{count} {kind}" for kind, count in counts.items()))
    return 0


if __name__ == "__main__":
    sys.exit(main(sys.argv[1:]))

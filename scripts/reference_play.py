#!/usr/bin/env python3
"""Judges what `mrjob play` answered to a script: an independent reference for tests.

It follows the report command by command, as docs/MODEL.md says what each call of the master does. A report leaves the
starts of a wave free, so these are read from the report, and must be a best plan of the problem that stands then. Those
of a plan ahead must be the heads of a best plan onto its places.

    reference_play.py TEXT < REPORT      says what is wrong, or nothing; the status is 0 where nothing is
"""
import copy
import re
import sys

sys.dont_write_bytecode = True
from reference_check import Wave, most_and_least
from reference_text import Fault, read

WORD = re.compile(rb"[A-Za-z]+")


class Wrong(Exception):
    """A line of a report that may not stand where it does."""


class Problem(Wave):
    """The problem of a wave, without plan and prices."""

    def __init__(self, given, master):
        self.workers, self.splits = list(given.numbers["worker"]), list(given.numbers["split"])
        self.centre_of, self.rack_of, self.bytes = given.centre_of, given.rack_of, given.bytes
        self.holders, self.live, self.barred = master.holders, master.live, master.barred
        self.free = [master.free(worker) for worker in range(len(self.workers))]
        self.pending = [not running and done is None for running, done in zip(master.running, master.done)]


def rest_of(problem, whole, starts):
    """What is left of a plan ahead behind these heads, as a problem. A worker with a free slot left has no split more
    in the plan, and another one only splits after its heads."""
    rest = copy.copy(whole)
    rest.pending = [pending and split not in starts for split, pending in enumerate(whole.pending)]
    rest.free, rest.barred = [0] * len(whole.free), {*whole.barred}
    for worker, free in enumerate(problem.free):
        heads = [split for split, to in starts.items() if to == worker]
        if len(heads) == free:
            rest.free[worker] = whole.free[worker] - free
            rest.barred |= {(split, worker) for split in range(max(heads, default=0))}
    return rest


class Master:
    """The state of a job. A split runs as the attempts of `running`, each with its worker, or is done as one."""

    def __init__(self, given):
        workers, splits = len(given.slots), len(given.bytes)
        self.given = given
        self.names = {kind: [name.decode() for name in given.numbers[kind]] for kind in ("split", "worker")}
        self.parts = given.setting(b"parts", 1)
        self.target = given.setting(b"target", 3)
        self.silence = given.setting(b"silence", 3)
        # to how many holders a split may grow
        self.most_holders = 16 if given.version == 3 else 8
        self.events = 0
        self.next = 1
        # the problem that the last wave found, its count and its cost
        self.waved = None
        self.live = [True] * workers
        self.last = [0] * workers
        self.silent = [0] * workers
        self.holders = [list(held) for held in given.holders]
        self.barred = set()
        self.running = [{} for _ in range(splits)]
        self.done = [None] * splits
        self.done_by = [None] * splits
        self.part_running = [{} for _ in range(self.parts)]
        self.part_done = [False] * self.parts

    def free(self, worker):
        attempts = [of for runs in (*self.running, *self.part_running) for of in runs.values()]
        return self.given.slots[worker] - attempts.count(worker)

    def start(self, runs, worker):
        runs[self.next] = worker
        self.next += 1
        return self.next - 1

    def accepted(self):
        self.events += 1
        return [f"accepted {self.events}"]

    def of_split(self, attempt):
        return next((split for split, runs in enumerate(self.running) if attempt in runs), None)

    def of_part(self, attempt):
        return next((part for part, runs in enumerate(self.part_running) if attempt in runs), None)

    def finish(self, attempt):
        split, part = self.of_split(attempt), self.of_part(attempt)
        if split is not None:
            self.done[split], self.done_by[split] = self.running[split][attempt], attempt
            self.running[split] = {}
        elif part is not None:
            self.part_done[part] = True
            self.part_running[part] = {}
        else:
            return ["ignored 1"]
        return self.accepted()

    def drop(self, attempt, bars):
        split, part = self.of_split(attempt), self.of_part(attempt)
        if split is not None:
            worker = self.running[split].pop(attempt)
            if bars:
                self.barred.add((split, worker))
        elif part is not None:
            del self.part_running[part][attempt]
        else:
            return ["ignored 1"]
        return self.accepted()

    def lose_worker(self, worker):
        self.live[worker] = False
        for held in self.holders:
            if worker in held:
                held.remove(worker)
        keep_done = all(self.part_done)
        for runs in (*self.running, *self.part_running):
            for attempt in [it for it, of in runs.items() if of == worker]:
                del runs[attempt]
        if not keep_done:
            self.done = [None if of == worker else of for of in self.done]

    def die(self, worker):
        if not self.live[worker]:
            return ["ignored 2"]
        self.lose_worker(worker)
        return self.accepted()

    def join(self, worker, splits):
        if self.live[worker]:
            return ["ignored 3"]
        if any(len(self.holders[split]) >= self.most_holders for split in splits):
            return ["ignored 6"]
        self.live[worker], self.silent[worker] = True, 0
        for split in splits:
            self.holders[split].append(worker)
        return self.accepted()

    def add(self, split, worker):
        if not self.live[worker]:
            return ["ignored 2"]
        if worker in self.holders[split]:
            return ["ignored 4"]
        if len(self.holders[split]) >= self.most_holders:
            return ["ignored 6"]
        self.holders[split].append(worker)
        return self.accepted()

    def lose(self, split, worker):
        if worker not in self.holders[split]:
            return ["ignored 5"]
        self.holders[split].remove(worker)
        return self.accepted()

    def sweep(self, counts):
        died = []
        for worker, count in enumerate(counts):
            if not self.live[worker]:
                continue
            if count > self.last[worker]:
                self.last[worker], self.silent[worker] = count, 0
            else:
                self.silent[worker] = min(self.silent[worker] + 1, self.silence)
            if self.silent[worker] == self.silence:
                died.append(worker)
        for worker in died:
            self.lose_worker(worker)
        return [*self.accepted(), *(f"dead {self.worker(worker)}" for worker in died)]

    def reduce(self):
        waiting = [part for part in range(self.parts) if not self.part_done[part] and not self.part_running[part]]
        idle = [worker for worker, live in enumerate(self.live) if live and self.free(worker)]
        if None in self.done or not waiting or not idle:
            return ["ignored 7"]
        attempt = self.start(self.part_running[waiting[0]], idle[0])
        return [*self.accepted(), f"reduce {attempt} {waiting[0]} {self.worker(idle[0])}"]

    def backup(self, split, worker):
        runs = self.running[split]
        if not self.live[worker]:
            return ["ignored 2"]
        if len(runs) != 1 or worker in runs.values():
            return ["ignored 12"]
        pending = any(not runs and done is None for runs, done in zip(self.running, self.done))
        if pending or not self.holders[split] or not self.free(worker):
            return ["ignored 7"]
        if (split, worker) in self.barred:
            return ["ignored 13"]
        attempt = self.start(runs, worker)
        return [*self.accepted(), f"backup {attempt} {self.split(split)} {self.worker(worker)}"]

    def copies(self):
        wanted = min(self.target, sum(self.live))
        rack_of = self.given.rack_of
        lines = []
        for split, held in enumerate(self.holders):
            if not held or len(held) >= wanted:
                continue
            others = [worker for worker, live in enumerate(self.live) if live and worker not in held]
            near = lambda worker: sum(rack_of[holder] == rack_of[worker] for holder in held)
            to = min(others, key=lambda worker: (near(worker), worker))
            lines.append(f"copy {self.split(split)} {self.worker(min(held))} {self.worker(to)}")
        return [f"copies {len(lines)}", *lines]

    def split(self, number):
        return self.names["split"][number]

    def worker(self, number):
        return self.names["worker"][number]

    def wave(self, lines):
        """The lines of a wave, whose starts are those of the report's own lines."""
        problem = Problem(self.given, self)
        count, cost = most_and_least(problem)
        self.waved = copy.deepcopy(problem), count, cost
        wanted = [*self.accepted(), f"wave {count} {cost}"]
        if lines[:2] != wanted:
            raise Wrong(f"{wanted} is what a best wave says, and not {lines[:2]}")
        starts, spent = self.started(problem, lines[2 : 2 + count])
        if (len(starts), spent) != (count, cost):
            raise Wrong(f"{len(starts)} splits start at {spent}, and not {count} at {cost}")
        return [*wanted, *lines[2 : 2 + count]]

    def started(self, problem, lines):
        """The worker of each split that these lines start, by rising split, and their cost in this problem."""
        starts, spent = {}, 0
        for line in lines:
            word, attempt, split, worker = (line.split(" ") + [""] * 4)[:4]
            split = problem.splits.index(split.encode())
            worker = problem.workers.index(worker.encode())
            if line != f"start {self.next} {self.split(split)} {self.worker(worker)}" or split <= max(starts, default=-1):
                raise Wrong(f"{line} is no start of a wave by rising split")
            if not problem.is_admissible(split, worker) or not self.free(worker):
                raise Wrong(f"{line} may not start")
            spent += problem.cost(split, worker)
            self.start(self.running[split], worker)
            starts[split] = worker
        return starts, spent

    def queued(self, places):
        """The problem with these places, how many splits start on them, and at what cost."""
        problem = Problem(self.given, self)
        problem.free = [max(it) for it in zip(places, problem.free)]
        return problem, *most_and_least(problem)

    def ahead(self, places, lines):
        """The lines of a plan ahead, whose starts are those of the report's own lines."""
        problem, (whole, planned, total) = Problem(self.given, self), self.queued(places)
        accepted = self.accepted()
        count = int("".join(lines[1:2]).removeprefix("ahead ").partition(" ")[0])
        starts, spent = self.started(problem, lines[3 : 3 + count])
        wanted = [*accepted, f"ahead {len(starts)} {spent}", f"queued {planned} {total}", *lines[3 : 3 + count]]
        if lines[:3] != wanted[:3]:
            raise Wrong(f"{wanted[:3]} is what the plan ahead says, and not {lines[:3]}")
        if most_and_least(rest_of(problem, whole, starts)) != (planned - count, total - spent):
            raise Wrong(f"{lines[3 : 3 + count]} are not the heads of a best plan ahead")
        return wanted

    def answer(self, command, words, lines):
        """The lines that a command answers. Those of a wave are read from the report."""
        workers, splits = self.given.numbers["worker"], self.given.numbers["split"]
        if command == "wave":
            return self.wave(lines)
        if command == "ahead":
            return self.ahead([int(word) for word in words], lines)
        if command in ("done", "fail", "withdraw"):
            attempt = int(words[0])
            return self.finish(attempt) if command == "done" else self.drop(attempt, command == "fail")
        if command in ("add", "lose", "backup"):
            return getattr(self, command)(splits[words[0]], workers[words[1]])
        if command == "die":
            return self.die(workers[words[0]])
        if command == "join":
            return self.join(workers[words[0]], sorted(splits[name] for name in words[1:]))
        if command == "sweep":
            return self.sweep([int(word) for word in words])
        return getattr(self, command)()

    def workers(self):
        """What a session answers to a query; so are the next two."""
        lines = []
        for number, slots in enumerate(self.given.slots):
            stands = f" {slots} {slots - self.free(number)} {self.silent[number]}"
            lines.append(f"live {self.worker(number)}{stands}" if self.live[number] else f"dead {self.worker(number)}")
        return lines

    def open(self):
        lines = []
        for split, runs in enumerate(self.running):
            words = iter(["start", "backup"])
            lines += [f"{next(words)} {it} {self.split(split)} {self.worker(of)}" for it, of in sorted(runs.items())]
            lines += [f"open {self.split(split)}"] * (not runs and self.done[split] is None)
        for part, runs in enumerate(self.part_running):
            lines += [f"reduce {it} {part} {self.worker(of)}" for it, of in runs.items()]
            lines += [f"part {part}"] * (not runs and not self.part_done[part])
        return lines

    def outputs(self):
        done = [split for split, worker in enumerate(self.done) if worker is not None]
        return [f"from {self.split(it)} {self.done_by[it]} {self.worker(self.done[it])}" for it in done]

    def ending(self):
        if not all(self.part_done):
            still = [split for split, done in enumerate(self.done) if done is None]
            return [f"stuck {len(still)}", *(f"open {self.split(split)}" for split in still)]
        documents = list(self.given.numbers["doc"])
        index = {}
        for number, (_, text) in enumerate(self.given.documents):
            for word in set(WORD.findall(text.lower())):
                index.setdefault(word, []).append(documents[number])
        lines = [f"word {b' '.join([word, *index[word]]).decode()}" for word in sorted(index)]
        return [f"index {len(lines)}", *lines]


def misplayed(text, written, status):
    """What is wrong with what `mrjob play` answered to a text, or None."""
    try:
        given = read(text, "play")
    except Fault as fault:
        return None if (written, status) == (f"{fault}\n".encode(), 2) else f"the text has {fault}"
    lines = written.decode().split("\n")[:-1]
    master = Master(given)
    at = 0
    try:
        for command, words in given.commands:
            # (a wave's lines are two and its starts, and a plan ahead has one more)
            wanted = master.answer(command, words, lines[at : at + 3 + len(given.bytes)])
            if lines[at : at + len(wanted)] != wanted:
                return f"line {at + 1}: {' '.join([command, *(it.decode() for it in words)])} answers {wanted}"
            at += len(wanted)
    except (Wrong, ValueError) as wrong:
        return f"line {at + 1}: {wrong}"
    wanted = master.ending()
    if lines[at:] != wanted or not written.endswith(b"\n"):
        return f"line {at + 1}: the report ends with {wanted}"
    if status != (1 if wanted[0].startswith("stuck") else 0):
        return f"the status is {status}"
    return None


def main():
    with open(sys.argv[1], "rb") as file:
        text = file.read()
    written = sys.stdin.buffer.read()
    statuses = (2,) if written.startswith(b"line ") else (0, 1)
    wrong = min((misplayed(text, written, status) or "" for status in statuses), key=len)
    if wrong:
        print(wrong)
    return 1 if wrong else 0


if __name__ == "__main__":
    sys.exit(main())

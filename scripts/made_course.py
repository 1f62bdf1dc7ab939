"""Makes a script with a report of it, of as many workers and commands as wanted, with all that may happen to a job: for
tests of what draws them. Its waves take the nearest free worker for one split after another, so they are not all best.
"""
import random
import sys

sys.dont_write_bytecode = True
from crates import ROOT

sys.path.append(str(ROOT / "contrib"))
from course import Course, Head


class Maker:
    """A course that grows by drawn commands, with their lines and those of the report."""

    def __init__(self, seed, racks, workers, slots, splits, parts):
        self.rnd = rnd = random.Random(seed)
        self.head = ["script 2", "centre north", "centre south"]
        self.head += [f"rack rack-{it:02d} {['north', 'south'][it % 2]}" for it in range(racks)]
        names = [f"ip-10-0-{it % racks}-{it:03d}.internal" for it in range(workers)]
        self.head += [f"worker {name} rack-{it % racks:02d} {slots}" for it, name in enumerate(names)]
        self.head += [f"parts {parts}", "silence 2"]
        for it in range(splits):
            held = rnd.sample(names, min(3, workers))
            self.head.append(" ".join([f"split blk_10737{it:05d}", str(rnd.randrange(1 << 18, 1 << 26)), *held]))
        self.course, self.commands, self.report = Course(Head([it.split(" ") for it in self.head])), [], []

    def happens(self, command, line=None, starts=()):
        """A command is accepted, and as an event is told by a line of the report or its own."""
        self.commands.append(command)
        self.course.happens((line or command).split(" "), starts)
        self.report += [f"accepted {self.course.place}", *([line] if line else [])]
        self.report += [" ".join(["start", *it]) for it in starts]

    def look(self):
        """What runs, what is pending, and the live workers with a free slot."""
        course = self.course
        self.running = [it for runs in course.running.values() for it in runs]
        works = {name: (False, name) for name in course.head.bytes}
        self.pending = [it for it, work in works.items() if not course.running.get(work) and work not in course.done]
        self.free = {name: slots * course.lives[name] for name, slots in course.slots.items()}
        for attempt in self.running:
            self.free[attempt.worker] -= 1
        self.takers = [name for name, free in self.free.items() if free > 0]

    def steps(self, split, worker):
        return min(self.course.head.steps(it, worker) for it in self.course.holders[split])

    def wave(self):
        starts, cost = [], 0
        for split in filter(self.course.holders.get, self.pending):
            takers = [it for it in self.takers if self.free[it] and (split, it) not in self.course.barred]
            if takers:
                worker = min(takers, key=lambda it: self.steps(split, it))
                self.free[worker] -= 1
                cost += self.course.head.bytes[split] * self.steps(split, worker)
                starts.append([str(len(self.course.attempts) + len(starts) + 1), split, worker])
        self.happens("wave", f"wave {len(starts)} {cost}", starts)
        return bool(starts)

    def reduce(self):
        works = [(True, str(it)) for it in range(self.course.parts)]
        left = [it for _, it in works if not self.course.running.get((True, it)) and (True, it) not in self.course.done]
        if left and self.takers:
            self.happens("reduce", f"reduce {len(self.course.attempts) + 1} {left[0]} {self.takers[0]}")

    def backup(self):
        attempt = self.rnd.choice(self.running)
        takers = [it for it in self.takers if it != attempt.worker and (attempt.of, it) not in self.course.barred]
        alone = len(self.course.running[attempt.work()]) == 1
        if attempt.kind != "part" and alone and takers and not self.pending:
            of = f"{attempt.of} {self.rnd.choice(takers)}"
            self.happens(f"backup {of}", f"backup {len(self.course.attempts) + 1} {of}")

    def trouble(self, drawn):
        """A death, a return or a copy."""
        course, rnd = self.course, self.rnd
        alive = [name for name, lives in course.lives.items() if lives]
        dead = [name for name, lives in course.lives.items() if not lives]
        few = [split for split, held in course.holders.items() if 0 < len(held) < min(3, len(alive))]
        if drawn < 0.3 and len(alive) > len(dead):
            self.happens(f"die {rnd.choice(alive)}")
        elif drawn < 0.6 and dead:
            some = [it for it in rnd.sample(list(course.holders), 5) if len(course.holders[it]) < 8]
            self.happens(" ".join(["join", rnd.choice(dead), *some]))
        elif few:
            split = rnd.choice(few)
            self.happens(f"add {split} {rnd.choice([it for it in alive if it not in course.holders[split]])}")

    def step(self):
        """One command or none; whether the job can go on."""
        self.look()
        drawn = self.rnd.random()
        if self.pending and (not self.running or drawn < 0.005):
            return self.wave() or bool(self.running)
        if not self.pending and drawn < 0.3 and len(self.course.done) >= len(self.course.head.bytes):
            self.reduce()
        elif 0.3 < drawn < 0.32:
            self.trouble(self.rnd.random())
        elif self.running and 0.32 < drawn < 0.34:
            self.backup()
        elif self.running:
            end = "fail" if drawn > 0.99 else "withdraw" if drawn > 0.98 else "done"
            self.happens(f"{end} {self.rnd.choice(self.running).number}")
        return True


def made(seed, racks, workers, slots, splits, parts, most):
    """A script of at most about so many commands, and its report."""
    maker = Maker(seed, racks, workers, slots, splits, parts)
    course = maker.course
    is_done = lambda: sum(is_part for is_part, _ in course.done) == parts
    while len(maker.commands) < most and not is_done() and maker.step():
        pass
    left = [split for split in course.head.bytes if (False, split) not in course.done]
    ending = ["index 0"] if is_done() else [f"stuck {len(left)}", *(f"open {it}" for it in left)]
    script = [*maker.head, "begin", *maker.commands, "end", ""]
    return "\n".join(script), "\n".join([*maker.report, *ending, ""])

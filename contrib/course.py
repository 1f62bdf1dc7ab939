"""The course of a job: what a script with its report, or a job with the history of its run, tell of it.

It follows the machine of docs/MODEL.md: who lives, what runs, who holds what, after each event. The scripts beside it
draw it. A text that does not fit the other is a Fault.
"""
from texts import Fault

ENDINGS = ("index", "stuck")


class Attempt:
    """An attempt: its work, where it started and ended in the history, and how, and where what it had done was lost. A
    map knows the steps that its split's bytes went, from the nearest live holder."""

    def __init__(self, number, kind, of, worker, start, steps=None):
        self.number, self.kind, self.of, self.worker, self.start = number, kind, of, worker, start
        self.steps, self.end, self.how, self.undone = steps, None, "runs", None

    def ends(self, place, how):
        self.end, self.how = place, how

    def work(self):
        return (self.kind == "part", self.of)


class Started:
    """A wave, or the heads of a plan ahead, by its keyword: its place, what it started at which cost, and its prices
    where they were asked for. No prices certify heads alone."""

    def __init__(self, keyword, place, count, cost, prices=None):
        self.keyword, self.place, self.count, self.cost, self.prices = keyword, place, count, cost, prices
        self.attempts = []


class Head:
    """The cluster of a script or job, by names."""

    def __init__(self, lines):
        of = lambda keyword: [words[1:] for words in lines if words[0] == keyword]
        setting = lambda keyword, other: int(of(keyword)[0][0]) if of(keyword) else other
        self.version = int(lines[0][1])
        self.centres = [name for name, in of("centre")]
        self.centre_of = {words[0]: words[1] if self.version > 1 else None for words in of("rack")}
        self.rack_of = {name: rack for name, rack, _ in of("worker")}
        self.slots = {name: int(slots) for name, _, slots in of("worker")}
        self.bytes = {words[0]: int(words[1]) for words in of("split")}
        self.holders = {words[0]: words[2:] for words in of("split")}
        self.parts, self.silence = setting("parts", 1), setting("silence", 3)
        self.documents = len(of("doc"))

    def steps(self, one, other):
        """The distance of two workers."""
        if one == other:
            return 0
        one, other = self.rack_of[one], self.rack_of[other]
        return 2 if one == other else 4 if self.centre_of[one] == self.centre_of[other] else 6


class Course:
    """What has happened so far, with the place in the history of each event, counted from 1."""

    def __init__(self, head, ask=None):
        self.head, self.ask, self.place, self.ignored, self.ending = head, ask, 0, 0, ""
        self.slots, self.parts = head.slots, head.parts
        self.events, self.attempts, self.waves = [], {}, []
        self.deaths, self.returns, self.copies, self.losses = [], [], [], []
        self.holders = {split: dict.fromkeys(held) for split, held in head.holders.items()}
        self.lives = dict.fromkeys(head.slots, True)
        self.beats, self.silent = dict.fromkeys(head.slots, 0), dict.fromkeys(head.slots, 0)
        self.running, self.done, self.barred = {}, {}, {}

    def happens(self, words, starts=()):
        """Takes the next event by its line: of a script, or where it starts attempts of a report or history."""
        self.place += 1
        self.events.append(" ".join(words))
        getattr(self, f"on_{words[0]}")(*words[1:], *([starts] if words[0] in ("wave", "ahead") else []))

    def begin(self, kind, number, of, worker):
        if int(number) != len(self.attempts) + 1 or not self.lives[worker]:
            raise ValueError(number)
        held = [] if kind == "part" else self.holders[of]
        steps = min(self.head.steps(holder, worker) for holder in held) if held else None
        attempt = self.attempts[number] = Attempt(number, kind, of, worker, self.place, steps)
        self.running.setdefault(attempt.work(), []).append(attempt)
        return attempt

    def on_wave(self, count, cost, starts):
        prices = self.ask(self, starts) if self.ask else None
        self.on_starts(Started("wave", self.place, int(count), int(cost), prices), starts)

    def on_ahead(self, count, cost, starts):
        self.on_starts(Started("ahead", self.place, int(count), int(cost)), starts)

    def on_starts(self, wave, starts):
        self.waves.append(wave)
        wave.attempts = [self.begin("map", *words) for words in starts]
        moved = sum(self.head.bytes[it.of] * it.steps for it in wave.attempts)
        if (wave.count, wave.cost) != (len(starts), moved):
            raise ValueError(wave.count)

    def on_backup(self, number, split, worker):
        self.begin("backup", number, split, worker)

    def on_reduce(self, number, part, worker):
        self.begin("part", number, part, worker)

    def stop(self, number, how):
        """An attempt runs no more."""
        attempt = self.attempts[number]
        self.running[attempt.work()].remove(attempt)
        attempt.ends(self.place, how)
        return attempt

    def on_done(self, number):
        attempt = self.stop(number, "done")
        self.done[attempt.work()] = attempt
        for other in self.running.pop(attempt.work()):
            other.ends(self.place, "outrun")

    def on_fail(self, number):
        attempt = self.stop(number, "failed")
        if attempt.kind != "part":
            self.barred[attempt.of, attempt.worker] = True

    def on_withdraw(self, number):
        self.stop(number, "withdrawn")

    def on_die(self, worker):
        """Its attempts are lost, and what it had mapped, unless every part is done."""
        if not self.lives[worker]:
            raise ValueError(worker)
        self.deaths.append((self.place, worker))
        self.lives[worker] = False
        for held in self.holders.values():
            held.pop(worker, None)
        for attempt in [it for runs in self.running.values() for it in runs if it.worker == worker]:
            self.stop(attempt.number, "lost")
        if sum(is_part for is_part, _ in self.done) < self.parts:
            for work, attempt in [*self.done.items()]:
                if attempt.worker == worker and attempt.kind != "part":
                    attempt.how, attempt.undone = "undone", self.place
                    del self.done[work]

    def on_join(self, worker, *splits):
        if self.lives[worker]:
            raise ValueError(worker)
        self.returns.append((self.place, worker))
        self.lives[worker], self.silent[worker] = True, 0
        for split in splits:
            self.holders[split][worker] = None

    def on_add(self, split, worker):
        self.copies.append((self.place, split, worker))
        self.holders[split][worker] = None

    def on_lose(self, split, worker):
        self.losses.append((self.place, split, worker))
        del self.holders[split][worker]

    def on_sweep(self, *counts):
        silent = []
        for worker, count in zip(self.lives, map(int, counts)):
            rises = count > self.beats[worker]
            self.beats[worker] = max(count, self.beats[worker])
            self.silent[worker] = 0 if rises else self.silent[worker] + 1
            if self.lives[worker] and self.silent[worker] >= self.head.silence:
                silent.append(worker)
        for worker in silent:
            self.on_die(worker)

    def problem(self):
        """The lines of the problem that the next wave has to plan."""
        head, taken = self.head, dict.fromkeys(self.slots, 0)
        for runs in self.running.values():
            for attempt in runs:
                taken[attempt.worker] += 1
        yield f"problem {head.version}"
        yield from (f"centre {name}" for name in head.centres)
        yield from (" ".join(["rack", *filter(None, it)]) for it in head.centre_of.items())
        for name, slots in self.slots.items():
            yield f"worker {name} {head.rack_of[name]} {slots - taken[name]}"
        for name, size in head.bytes.items():
            yield " ".join(["split", name, str(size), *self.holders[name]])
        yield from (f"barred {split} {worker}" for split, worker in self.barred)
        yield from (f"dead {name}" for name, lives in self.lives.items() if not lives)
        works = {(False, name): name for name in head.bytes}
        yield from (f"busy {name}" for work, name in works.items() if self.running.get(work) or work in self.done)
        yield "end"


def words_of(text):
    return [line.split(" ") for line in text.splitlines()]


def starts_in(lines, at):
    """The starts that follow a wave's line, and where they end."""
    first = at
    while at < len(lines) and lines[at][0] == "start":
        at += 1
    return [words[1:] for words in lines[first:at]], at


def follow_report(course, commands, said):
    """Follows a script's commands by what the report says of each."""
    at = 0
    for words in commands:
        answer, at = said[at], at + 1
        if answer[0] == words[0] == "copies":
            at += int(answer[1])
        elif answer[0] == "ignored":
            course.ignored += 1
        elif answer != ["accepted", str(course.place + 1)]:
            raise ValueError(answer)
        elif words[0] in ("wave", "ahead", "backup", "reduce"):
            # (the whole plan ahead is told before its heads)
            starts, after = starts_in(said, at + 1 + (said[at + 1][0] == "queued"))
            course.happens(said[at], starts)
            at = after
        else:
            before = len(course.deaths)
            course.happens(words)
            while at < len(said) and said[at][0] == "dead":
                at += 1
            died = [["dead", worker] for _, worker in course.deaths[before:]]
            if words[0] == "sweep" and said[at - len(died) : at] != died:
                raise ValueError(words)
    return at


def follow_history(course, said):
    """Follows the lines of a run's history."""
    at = 0
    while said[at][0] not in ENDINGS:
        starts, after = starts_in(said, at + 1)
        course.happens(said[at], starts)
        at = after
    return at


def course_of(given, answer, ask=None):
    """The course of a script by its report, or of a job by its history. Before each wave `ask(course, starts)` is asked
    for its prices."""
    lines, said = words_of(given.decode("latin-1")), words_of(answer)
    is_script = given.startswith(b"script ")
    try:
        begin = lines.index(["begin"]) if is_script else len(lines) - 1
        course = Course(Head(lines[:begin]), ask)
        at = follow_report(course, lines[begin + 1 : -1], said) if is_script else follow_history(course, said)
        if said[at][0] not in ENDINGS:
            raise ValueError(said[at])
        course.ending = f"{said[at][0]} {int(said[at][1])}"
    except (AttributeError, IndexError, KeyError, TypeError, ValueError):
        kinds = ("report", "script") if is_script else ("history", "job")
        raise Fault("the {} is not of this {}".format(*kinds)) from None
    return course

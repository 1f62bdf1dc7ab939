"""What `mrjob run` answers to a job: an independent reference for tests.

Without a death that lasts, a job is done where some worker has a slot and each split a holder. Else the splits without
a holder stay open, or all of them. A history is followed event by event, and so is what the calling thread does of
itself: copies, returns and backups.
"""
from copy import deepcopy
from itertools import takewhile

from reference_play import Master, Wrong
from reference_text import Fault, read


def answer(text):
    """The output and the status."""
    try:
        given = read(text, "run")
    except Fault as fault:
        return f"{fault}\n".encode(), 2
    master = Master(given)
    has_slots = any(given.slots)
    # (who mapped a split does not show)
    master.done = [0 if has_slots and held else None for held in given.holders]
    is_done = has_slots and None not in master.done
    master.part_done = [is_done] * master.parts
    return "".join(line + "\n" for line in master.ending()).encode(), 0 if is_done else 1


def script(text):
    """A script of the same job, with commands that bring it as far as it comes; the text has no fault."""
    given = read(text, "run")
    attempts = [f"done {attempt}" for attempt in range(1, len(given.bytes) + given.setting(b"parts", 1) + 1)]
    commands = ["wave", *attempts] * (len(given.bytes) + 1) + ["reduce", *attempts] * given.setting(b"parts", 1)
    head = text[: -len(b"end\n")].replace(b"job", b"script", 1)
    return head + "".join(line + "\n" for line in ["begin", *commands, "end"]).encode()


def happened(master, lines, places):
    """How many lines tell the event whose lines come first. The master is changed as the event says. Where places are
    given, each plan is ahead onto these, else none is."""
    command, *words = lines[0].split(" ")
    words = [word.encode() for word in words]
    if command in ("backup", "reduce"):
        # (as a command it names no attempt)
        wanted, told = master.answer(command, words[1:3], lines), lines[:1]
    elif (command == "ahead") != (places is not None) and command in ("wave", "ahead"):
        raise Wrong(f"{lines[0]} is no plan of this run")
    elif command == "wave":
        wanted = master.wave([f"accepted {master.events + 1}", *lines])
        told = lines[: len(wanted) - 1]
    elif command == "ahead":
        # (a history leaves out the places and the whole plan)
        told = [lines[0], *takewhile(lambda it: it.startswith("start "), lines[1:])]
        _, planned, total = master.queued(places)
        report = [f"accepted {master.events + 1}", lines[0], f"queued {planned} {total}", *told[1:]]
        wanted = master.ahead(places, report)
        del wanted[2]
    else:
        # (a sweep tells the dead of a report, which a history leaves out)
        wanted, told = master.answer(command, words, lines)[:1], []
    if wanted[0] != f"accepted {master.events}" or wanted[1:] != told:
        raise Wrong(f"{lines[0]} answers {wanted}")
    return max(1, len(told))


class Policy:
    """What the calling thread of a run does of itself: the copies after a death, who joins again after a sweep and with
    which splits, and where a second attempt starts. Workers alone tell `done` and `fail`."""

    def __init__(self, master):
        self.master = master
        # of each dead worker, how many of its beats were seen when it died, and what it held
        self.dead = {}
        # what is still to be done after the last sweep: copies, and then those that join
        self.copies, self.rising = [], []
        # the states since the last event of the calling thread
        self.states = []
        # the last event's command
        self.last = ""
        self.keep(False)

    def due(self):
        """The line of what is to be done next, or None."""
        if self.copies:
            return self.copies[0]
        if self.rising:
            master, held = self.master, self.dead[self.rising[0]][1]
            splits = [split for split in held if len(master.holders[split]) < 8]
            return " ".join(["join", master.worker(self.rising[0]), *map(master.split, splits)])
        return None

    def before(self, line):
        """An event that comes next."""
        command, *words = line.split(" ")
        if command == self.last == "ahead":
            raise Wrong(f"{line} comes right after a plan ahead")
        if command in ("done", "fail"):
            return
        due = self.due()
        if due and line != due or not due and command in ("add", "join"):
            raise Wrong(f"{line} comes where the calling thread does {due or 'neither'}")
        if command == "backup":
            self.is_lowest(*(word.encode() for word in words[1:]))
        self.held = [[split for split, held in enumerate(self.master.holders) if worker in held]
                     for worker in range(len(self.master.live))]
        self.lived = list(self.master.live)

    def is_lowest(self, split, worker):
        """Each lower worker was refused at some time after the last event of the calling thread."""
        numbers = self.master.given.numbers
        for lower in range(numbers["worker"][worker]):
            answers = [deepcopy(state, self.shared()).backup(numbers["split"][split], lower) for state in self.states]
            if not any(answer[0].startswith("ignored ") for answer in answers):
                raise Wrong(f"{self.master.worker(lower)} is lower than {worker.decode()}, and may take the backup")

    def shared(self):
        """What a copy of a state need not copy."""
        return {id(self.master.given): self.master.given}

    def keep(self, is_of_worker):
        """Keeps the state, for what is asked until the next event of the calling thread."""
        self.states = [*(self.states if is_of_worker else []), deepcopy(self.master, self.shared())]

    def after(self, line):
        """The event has come."""
        command, *words = line.split(" ")
        self.last = command
        self.keep(command in ("done", "fail"))
        if command == "add":
            self.copies.pop(0)
        elif command == "join":
            del self.dead[self.rising.pop(0)]
        elif command == "sweep":
            self.sweep([int(word) for word in words])

    def sweep(self, counts):
        died = [worker for worker, live in enumerate(self.lived) if live and not self.master.live[worker]]
        if died:
            self.copies = [" ".join(["add", *line.split(" ")[1::2]]) for line in self.master.copies()[1:]]
        self.rising = [worker for worker in sorted(self.dead) if self.dead[worker][0] < counts[worker]]
        self.dead.update((worker, (counts[worker], self.held[worker])) for worker in died)


def misrecorded(text, written, status, ahead=None):
    """What is wrong with what `mrjob run --history` answered to a job, or None; with `--ahead` where it is a number."""
    try:
        given = read(text, "run")
    except Fault as fault:
        return None if (written, status) == (f"{fault}\n".encode(), 2) else f"the text has {fault}"
    lines = written.decode().split("\n")[:-1]
    master, at = Master(given), 0
    policy = Policy(master)
    places = ahead and [min(255, ahead * slots) for slots in given.slots]
    try:
        while at < len(lines) and not lines[at].startswith(("index ", "stuck ")):
            line = lines[at]
            policy.before(line)
            at += happened(master, lines[at:], places)
            policy.after(line)
        if policy.due():
            raise Wrong(f"{policy.due()} is left to do")
    except (Wrong, ValueError, KeyError, IndexError) as wrong:
        return f"line {at + 1}: {wrong}"
    if lines[at:] != master.ending() or not written.endswith(b"\n"):
        return f"line {at + 1}: the lines end with {master.ending()}"
    return None if status == (0 if all(master.part_done) else 1) else f"the status is {status}"

#!/usr/bin/env python3
"""Drives `mrjob serve` over a pipe, as a scheduler does.

    served.py PROGRAM..

Each answer is read before the next line is sent. Sessions worked by hand have to get the answers of the tables below.
Made sessions, with queries and lines that no master takes, have to get what `mrjob play` says of their other lines, and
of each query what a reference that follows the session has. The audit of a wave is a text that `mrjob check` certifies,
of the problem that the reference had then. Plans of the client's own are committed or refused as `mrjob check` says of
the same plan behind the audit's problem. A million lines take no memory. Clients that go away between lines and in one, lines of
every length at the bound, and a history that is full are tried too. A log of what was told brings a new master where an
ended one was. Nothing depends on timing. The last line is 'N passed, M failed'.
"""
import os
import random
import subprocess
import sys
import threading
from concurrent.futures import ThreadPoolExecutor

sys.dont_write_bytecode = True
import make_texts
import reference_play
from reference_check import Wave
from reference_text import read

LONGEST = 524_287
SESSIONS = 60
LINES = 1_000_000
EVENTS = 1_048_576
# Longer than any answer takes: a master that says nothing fails a test, and doesn't stop the gate.
PATIENCE = 300

QUERIES = ("workers", "open", "outputs", "audit")
# What a problem consists of, for the reference.
PROBLEM = ("splits", "workers", "centre_of", "rack_of", "bytes", "free", "live", "pending", "barred")
SMALL = ["script 1", "rack r", "worker a r 1", "worker b r 1", "split s 10 a", "doc d s the cat"]
TWO = ["script 2", "centre c", "rack r c", "worker a r 1", "worker b r 2", "split s 10 a", "split t 20 a", "parts 2",
       "silence 3"]
AHEAD = ["script 3", "centre c", "rack r c", "rack q c", "worker a r 1", "worker b q 1", "split s 10 a", "split t 20 a"]
NONE = []
# What a client tells and is answered, worked by hand by the rules of docs/MODEL.md. Each head is told with `begin`.
WORKED = {
    "a job up to its index": (SMALL, 0, [
        ("wave", ["accepted 1", "wave 1 0", "start 1 s a"]),
        ("wave", ["accepted 2", "wave 0 0"]),
        ("done 1", ["accepted 3"]),
        ("reduce", ["accepted 4", "reduce 2 0 a"]),
        ("done 2", ["accepted 5"]),
        ("end", ["index 2", "word cat d", "word the d"]),
    ]),
    "a stuck job": (SMALL, 1, [("wave", ["accepted 1", "wave 1 0", "start 1 s a"]), ("end", ["stuck 1", "open s"])]),
    "an end at once": (["script 1", "rack r"], 1, [("end", ["stuck 0"])]),
    "a death, with a replica elsewhere": (SMALL, 1, [
        ("wave", ["accepted 1", "wave 1 0", "start 1 s a"]),
        ("add s b", ["accepted 2"]),
        ("die a", ["accepted 3"]),
        ("done 1", ["ignored 1"]),
        ("wave", ["accepted 4", "wave 1 0", "start 2 s b"]),
        ("end", ["stuck 1", "open s"]),
    ]),
    "copies": (SMALL, 1, [("copies", ["copies 1", "copy s a b"]), ("end", ["stuck 1", "open s"])]),
    "faulty lines change nothing": (SMALL, 1, [
        ("", ["fault 1"]),
        (" ", ["fault 1"]),
        ("wave ", ["fault 1"]),
        ("wav", ["fault 1"]),
        ("done", ["fault 1"]),
        ("done 01", ["fault 1"]),
        ("done 1000001", ["fault 5"]),
        ("done 99999999999999999999", ["fault 5"]),
        ("die c", ["fault 3"]),
        ("die s", ["fault 3"]),
        ("add a s", ["fault 3"]),
        ("sweep 1", ["fault 1"]),
        ("ahead 1", ["fault 1"]),
        ("ahead 1 1", ["fault 7"]),
        ("join a s s", ["fault 8"]),
        ("backup s a", ["fault 7"]),
        ("script 1", ["fault 7"]),
        ("split t 1 a", ["fault 7"]),
        ("begin", ["fault 7"]),
        ("wave\t", ["fault 13"]),
        ("\u00e9", ["fault 13"]),
        ("\0", ["fault 13"]),
        ("wave", ["accepted 1", "wave 1 0", "start 1 s a"]),
        ("end", ["stuck 1", "open s"]),
    ]),
    "queries": (TWO, 1, [
        ("workers", ["live a 1 0 0", "live b 2 0 0"]),
        ("open", ["open s", "open t", "part 0", "part 1"]),
        ("outputs", NONE),
        ("wave", ["accepted 1", "wave 2 20", "start 1 s b", "start 2 t a"]),
        ("backup t b", ["accepted 2", "backup 3 t b"]),
        ("open", ["start 1 s b", "start 2 t a", "backup 3 t b", "part 0", "part 1"]),
        ("workers", ["live a 1 1 0", "live b 2 2 0"]),
        ("sweep 1 0", ["accepted 3"]),
        ("sweep 1 0", ["accepted 4"]),
        ("workers", ["live a 1 1 1", "live b 2 2 2"]),
        ("fail 2", ["accepted 5"]),
        ("open", ["start 1 s b", "start 3 t b", "part 0", "part 1"]),
        ("done 3", ["accepted 6"]),
        ("outputs", ["from t 3 b"]),
        ("die a", ["accepted 7"]),
        ("workers", ["dead a", "live b 2 1 2"]),
        ("done 1", ["accepted 8"]),
        ("outputs", ["from s 1 b", "from t 3 b"]),
        ("reduce", ["accepted 9", "reduce 4 0 b"]),
        ("open", ["reduce 4 0 b", "part 1"]),
        ("done 4", ["accepted 10"]),
        ("open", ["part 1"]),
        ("die b", ["accepted 11"]),
        ("workers", ["dead a", "dead b"]),
        ("open", ["open s", "open t", "part 1"]),
        ("outputs", NONE),
        ("end", ["stuck 2", "open s", "open t"]),
    ]),
    "a split that waits for its holder": (AHEAD, 1, [
        ("ahead 2", ["fault 1"]),
        ("ahead 2 256", ["fault 5"]),
        ("ahead 2 0", ["accepted 1", "ahead 1 0", "queued 2 0", "start 1 s a"]),
        ("open", ["start 1 s a", "open t", "part 0"]),
        ("ahead 1 0", ["accepted 2", "ahead 0 0", "queued 1 0"]),
        ("done 1", ["accepted 3"]),
        ("ahead 0 0", ["accepted 4", "ahead 1 0", "queued 1 0", "start 2 t a"]),
        ("ahead 255 255", ["accepted 5", "ahead 0 0", "queued 0 0"]),
        ("end", ["stuck 1", "open t"]),
    ]),
    "queries of nothing, and of all that is done": (["script 1", "rack r", "worker a r 0"], 1, [
        ("workers", ["live a 0 0 0"]),
        ("open", ["part 0"]),
        ("outputs", NONE),
        ("reduce", ["ignored 7"]),
        ("end", ["stuck 0"]),
    ]),
    "lines that are almost queries": (SMALL, 0, [
        ("open s", ["fault 1"]),
        (" open", ["fault 1"]),
        ("workers ", ["fault 1"]),
        ("Outputs", ["fault 1"]),
        ("output", ["fault 1"]),
        ("wave", ["accepted 1", "wave 1 0", "start 1 s a"]),
        ("done 1", ["accepted 2"]),
        ("reduce", ["accepted 3", "reduce 2 0 a"]),
        ("done 2", ["accepted 4"]),
        ("open", NONE),
        ("outputs", ["from s 1 a"]),
        ("workers", ["live a 1 0 0", "live b 1 0 0"]),
        ("end", ["index 2", "word cat d", "word the d"]),
    ]),
    "a plan of the client's own": (SMALL, 1, [
        ("audit", ["ignored 7"]),
        ("commit", ["fault 10"]),
        ("start s a", NONE),
        ("start s b", ["fault 9"]),
        ("price s 41", NONE),
        ("price s 41", ["fault 9"]),
        ("price a 0", NONE),
        ("commit", ["fault 10"]),
        ("price b 0", NONE),
        ("commit", ["accepted 1", "wave 1 0", "start 1 s a"]),
        ("audit", ["problem 1", "rack r", "worker a r 1", "worker b r 1", "split s 10 a", "plan", "start s a", "price s 41",
                   "price a 0", "price b 0", "end"]),
        ("commit", ["fault 10"]),
        ("end", ["stuck 1", "open s"]),
    ]),
    "a plan that its prices do not certify": (SMALL, 1, [
        ("start s b", NONE),
        ("price s 21", NONE),
        ("price a 20", NONE),
        ("price b 0", NONE),
        ("commit", ["refused C8 a"]),
        ("audit", ["ignored 7"]),
        ("price s 0", NONE),
        ("price a 0", NONE),
        ("price b 0", NONE),
        ("commit", ["refused C5 s a"]),
        ("wave", ["accepted 1", "wave 1 0", "start 1 s a"]),
        ("price s 0", NONE),
        ("price a 0", NONE),
        ("price b 0", NONE),
        ("commit", ["accepted 2", "wave 0 0"]),
        ("end", ["stuck 1", "open s"]),
    ]),
    "a plan that is dropped, and faults of its lines": (SMALL, 1, [
        ("drop", NONE),
        ("start s a", NONE),
        ("price a 0", NONE),
        ("drop", NONE),
        ("start s", ["fault 1"]),
        ("start a s", ["fault 3"]),
        ("start s c", ["fault 3"]),
        ("start s r", ["fault 3"]),
        ("start 1 a", ["fault 2"]),
        ("price r 0", ["fault 3"]),
        ("price d 0", ["fault 3"]),
        ("price s", ["fault 1"]),
        ("price s -1", ["fault 1"]),
        ("price s 18446744073709551616", ["fault 5"]),
        ("price s 18446744073709551615", NONE),
        ("start s b", NONE),
        ("die a", ["accepted 1"]),
        ("price a 0", NONE),
        ("price b 0", NONE),
        ("commit", ["refused C1 s"]),
        ("drop x", ["fault 1"]),
        ("commit s", ["fault 1"]),
        ("plan", ["fault 7"]),
        ("end", ["stuck 1", "open s"]),
    ]),
    "the longest line, and longer ones": (SMALL, 1, [
        ("x" * LONGEST, ["fault 1"]),
        ("x" * (LONGEST + 1), ["fault 11"]),
        ("\t" * LONGEST, ["fault 13"]),
        ("\t" * (LONGEST + 1), ["fault 11"]),
        ("wave" + " " * 1_000_000, ["fault 11"]),
        ("wave", ["accepted 1", "wave 1 0", "start 1 s a"]),
        ("end", ["stuck 1", "open s"]),
    ]),
}

# Heads with a fault, whole inputs that end before `end`, and their answers.
REFUSED = {
    "no bytes": (b"", "line 1: fault 7"),
    "a session of a problem": (b"problem 1\n", "line 1: fault 7"),
    "a command in the head": (b"script 1\nwave\n", "line 2: fault 7"),
    "a rack that nobody declares": (b"script 1\nworker a q 1\nbegin\n", "line 2: fault 3"),
    "a rack twice": (b"script 1\nrack r\nrack r\nbegin\n", "line 3: fault 4"),
    "a word behind `begin`": (b"script 1\nbegin x\n", "line 2: fault 1"),
    "a line that is no text": (b"script 1\n\xff\n", "line 2: fault 13"),
    "a head without `begin`": (b"script 1\nrack r\n", "line 3: fault 7"),
    "a head cut off in a line": (b"script 1\nrack r", "line 2: fault 12"),
    "a line of 70,000 bytes": (b"script 1\n" + b"x" * 70_000 + b"\n", "line 2: fault 1"),
}

# What is told behind a head, and what the whole output is then.
CUT_OFF = {
    "between two lines": (b"wave\n", ["", "accepted 1", "wave 1 0", "start 1 s a", "", "fault 7", ""]),
    "at once": (b"", ["", "fault 7", ""]),
    "in a line, which is not done": (b"wave\ndone 1", ["", "accepted 1", "wave 1 0", "start 1 s a", "", "fault 12", ""]),
    "in `end`": (b"end", ["", "fault 12", ""]),
    "in a line that is too long": (b"x" * 100_000, ["", "fault 12", ""]),
}


class Count:
    """Counts what passed and what failed, and says so."""

    def __init__(self, program):
        self.program, self.passed, self.failed = program, 0, 0

    def expect(self, name, got, wanted):
        """Counts and tells whether it is what was wanted."""
        holds = got == wanted
        print(f"{self.program}: {name}: {'ok' if holds else f'FAILED: {got!r:.500}, and not {wanted!r:.500}'}", flush=True)
        self.passed, self.failed = self.passed + holds, self.failed + (not holds)


class Master:
    """A live master, which is told a head at once. `tell` sends a line and reads its whole answer."""

    def __init__(self, program, head, *words):
        self.pipe = subprocess.Popen([program, "serve", *words], stdin=subprocess.PIPE, stdout=subprocess.PIPE)
        self.opening = self.tell("\n".join([*head, "begin"]))

    def tell(self, line):
        self.pipe.stdin.write(line.encode() + b"\n")
        self.pipe.stdin.flush()
        return self.answer()

    def answer(self):
        """The lines up to the first empty one. Where the master ends before it, the last one is None."""
        lines = []
        while (line := self.pipe.stdout.readline()) != b"\n":
            if not line.endswith(b"\n"):
                return [*lines, None]
            lines.append(line[:-1].decode())
        return lines

    def end(self):
        """Tells it nothing more. What it still writes, and its status."""
        self.pipe.stdin.close()
        rest = self.pipe.stdout.read()
        self.pipe.stdout.close()
        return rest, self.pipe.wait(PATIENCE)

    def kill(self):
        self.pipe.kill()
        return self.end()


def ended(program, text, *words):
    """All that a program writes for a whole input, and its status."""
    ran = subprocess.run([program, *words], input=text, stdout=subprocess.PIPE, stderr=subprocess.PIPE, timeout=PATIENCE)
    return ran.stdout, ran.returncode


def text_of(lines):
    return "".join(f"{line}\n" for line in lines).encode()


def worked(count, program):
    for name, (head, status, turns) in WORKED.items():
        master = Master(program, head)
        got = [(line, master.tell(line)) for line, _ in turns]
        count.expect(name, (master.opening, got, master.end()), (NONE, turns, (b"", status)))


def without_audits(count, program):
    """With --no-audit each answer is the same, but that there is no wave for an audit."""
    for name, (head, status, turns) in WORKED.items():
        master = Master(program, head, "--no-audit")
        got = [(line, master.tell(line)) for line, _ in turns]
        wanted = [(line, ["ignored 7"] if line == "audit" else answer) for line, answer in turns]
        count.expect(f"{name}, without audits", (master.opening, got, master.end()), (NONE, wanted, (b"", status)))


def refused(count, program):
    for name, (text, line) in REFUSED.items():
        count.expect(f"a refused head: {name}", ended(program, text, "serve"), (text_of([line, ""]), 2))


def cut_off(count, program):
    for name, (told, lines) in CUT_OFF.items():
        text = text_of([*SMALL, "begin"]) + told
        count.expect(f"an input that ends {name}", ended(program, text, "serve"), (text_of(lines), 2))
    master = Master(program, SMALL)
    got = [master.tell("wave"), *master.kill()]
    count.expect("a killed master", got, [["accepted 1", "wave 1 0", "start 1 s a"], b"", -9])
    master = Master(program, SMALL)
    master.pipe.stdout.close()
    master.pipe.stdin.write(b"wave\n")
    master.pipe.stdin.close()
    count.expect("a client that reads nothing more", master.pipe.wait(PATIENCE), 141)


def made_line(dice, line):
    """A line that no master takes, made of one that it may take."""
    kinds = ["", "wav", f"{line} ", f"{line} x" * 9, "done", "done 01", "done 1000001", "die nobody", "begin", "rack q"]
    kinds += ["open x", "workers ", "outputs outputs", "audit x", "commit", "drop x", "start nobody nobody", "price x 1"]
    return dice.choice([*kinds, f"{line}\t", f" {line}", "x" * 70_000, "split z 1", "end x", "copies\r"])


def made_session(seed):
    """The head and the lines of a script, with queries and faulty lines among its commands."""
    dice = random.Random(seed)
    lines = make_texts.script(random.Random(seed)).decode().split("\n")[:-1]
    head, commands = lines[: lines.index("begin")], lines[lines.index("begin") + 1 : -1]
    told = []
    for line in commands:
        told += [made_line(dice, line) for _ in range(dice.choice([0, 0, 1, 2]))] + [line]
        told += dice.sample(QUERIES, dice.choice([0, 0, 1, 3]))
    return head, [*told, "end"]


def wrong_audit(program, master, answer):
    """What is wrong with an audit, by a check of its text and by the reference's last wave, or None."""
    if master.waved is None:
        return None if answer == ["ignored 7"] else f"before any wave the audit is {answer!r:.300}"
    problem, count, cost = master.waved
    text = text_of(answer)
    said = ended(program, text, "check")
    if said != (f"certified {count} {cost}\n".encode(), 0):
        return f"of the audit of {count} starts at {cost} a check says {said!r:.300}"
    told = Wave(read(text, "check"))
    unlike = [it for it in PROBLEM if getattr(told, it) != getattr(problem, it)]
    same_holders = [*map(sorted, told.holders)] == [*map(sorted, problem.holders)]
    return f"the audit has other {', '.join(unlike) or 'holders'}" if unlike or not same_holders else None


def wrong_query(program, head, turns):
    """The first query whose answer is not what the reference has that follows the other lines, or None."""
    given = read(text_of([*head, "begin", *(line for line, _ in turns if line not in QUERIES)]), "play")
    master, commands = reference_play.Master(given), iter(given.commands)
    for line, answer in turns[:-1]:
        if line == "audit":
            if wrong := wrong_audit(program, master, answer):
                return wrong
            continue
        wanted = getattr(master, line)() if line in QUERIES else master.answer(*next(commands), answer)
        if answer != wanted:
            return f"{line} is answered {answer!r:.300}, and not {wanted!r:.300}"
    return None


def wrong_session(program, seed):
    """What is wrong with the answers to a made session, or None."""
    head, told = made_session(seed)
    master = Master(program, head)
    answers = [master.tell(line) for line in told]
    rest, status = master.end()
    if master.opening or rest:
        return f"it opens with {master.opening}, and ends with {rest}"
    is_refused = [len(answer) == 1 and str(answer[0]).startswith("fault ") for answer in answers]
    turns = [turn for turn, no in zip(zip(told, answers), is_refused) if not no]
    kept = [line for line, _ in turns if line not in QUERIES]
    report = text_of(it for line, answer in turns if line not in QUERIES for it in answer)
    wanted = ended(program, text_of([*head, "begin", *kept]), "play")
    if (report, status) != wanted:
        return f"play says {wanted!r:.300}, and the session said {(report, status)!r:.300}"
    if wrong := wrong_query(program, head, turns):
        return wrong
    faulty = [line for line, no in zip(told, is_refused) if no]
    # (a query is no line of a script)
    for line in [*faulty[:2], QUERIES[seed % len(QUERIES)]]:
        # (a line of 524,288 bytes is short enough for a script)
        if ended(program, text_of([*head, "begin", line, "end"]), "play")[1] != 2:
            return f"play takes {line!r:.60}"
    return None


def made(count, program):
    with ThreadPoolExecutor(2 * os.cpu_count()) as pool:
        wrong = list(pool.map(lambda seed: wrong_session(program, seed), range(1, SESSIONS + 1)))
    faults = [f"seed {seed}: {it}" for seed, it in enumerate(wrong, 1) if it]
    count.expect(f"{SESSIONS} made sessions are what play says of their other lines", faults[:3], [])


def spoiled(dice, plan):
    """A plan with one line less, or with another worker or price in one."""
    at = dice.randrange(len(plan))
    words = plan[at].split(" ")
    if words[0] == "start":
        others = [it.split(" ")[1] for it in plan if it.startswith("price ")]
        words = [*words[:2], dice.choice(others)] if dice.random() < 0.7 else []
    else:
        words[2] = str(max(0, int(words[2]) + dice.choice([-1, 1, 1 << 40])))
    return [*plan[:at], *([" ".join(words)] if words else []), *plan[at + 1 :]]


def wrong_plan(program, seed):
    """A wave of a made session is said again as a plan of the client's own, spoiled first. What is wrong, or None."""
    (head, told), dice, log = made_session(seed), random.Random(seed), []
    master = Master(program, head)
    for line in told[:-1]:
        answer = master.tell(line)
        if line == "wave" and len(answer) > 2 and dice.random() < 0.6:
            break
        log.append(line)
    else:
        master.kill()
        return None
    text = master.tell("audit")
    master.kill()
    problem, plan = text[: text.index("plan") + 1], text[text.index("plan") + 1 : -1]
    again = Master(program, head)
    for line in log:
        again.tell(line)
    again.tell("drop")
    for tried in [*(spoiled(dice, plan) for _ in range(5)), plan]:
        said, status = ended(program, text_of([*problem, *tried, "end"]), "check")
        if status == 2:  # (a split starts on a split, say)
            continue
        answers = [again.tell(line) for line in tried]
        got, wanted = again.tell("commit"), said.decode().split("\n")[:-1]
        if status == 0:
            again.kill()
            wanted = answer if tried == plan else [answer[0], wanted[0].replace("certified", "wave")]
            got = got if tried == plan else got[:2]
        if any(answers) or got != wanted:
            return f"a plan is answered {got!r:.300}, and not {wanted!r:.300}"
        if status == 0:
            return None
    return "the plan of a wave was not committed"


def own_plans(count, program):
    with ThreadPoolExecutor(2 * os.cpu_count()) as pool:
        wrong = list(pool.map(lambda seed: wrong_plan(program, seed), range(1, SESSIONS + 1)))
    faults = [f"seed {seed}: {it}" for seed, it in enumerate(wrong, 1) if it]
    count.expect(f"waves of {SESSIONS} made sessions as plans of the client's own are what a check says", faults[:3], [])


def told_again(count, program):
    """A new master that is told what an ended one was told answers the same, whichever command that one got last."""
    head, told = made_session(7)
    first = Master(program, head)
    answers = [first.tell(line) for line in told]
    first.end()
    same = True
    for at in sorted({1, len(told) // 3, len(told) // 2, len(told) - 1}):
        master = Master(program, head)
        begun = [master.tell(line) for line in told[:at]]
        master.kill()
        master = Master(program, head)
        again = [master.tell(line) for line in told]
        master.end()
        same = same and begun == answers[:at] and again == answers
    count.expect("a new master that is told the log answers the same", same, True)


def fed(master, text):
    """A thread that tells a master a text, as far as it takes it."""

    def feed():
        try:
            master.pipe.stdin.write(text)
            master.pipe.stdin.flush()
        except BrokenPipeError:
            pass

    thread = threading.Thread(target=feed, daemon=True)
    thread.start()
    return thread


def peak(master):
    """The most memory that a master had so far, in KiB."""
    with open(f"/proc/{master.pipe.pid}/status", encoding="ascii") as status:
        return next(int(line.split()[1]) for line in status if line.startswith("VmHWM"))


def endless(count, program):
    """A million lines, and a master that is ended within an answer."""
    master, turn = Master(program, SMALL), b"wavee\nopen\ndie c\nprice s 1\ndrop\n"
    wanted = b"fault 1\n\nopen s\npart 0\n\nfault 3\n\n\n\n"
    got = [master.tell(line) for line in ("wavee", "audit")]
    before, feeding = peak(master), fed(master, LINES // 5 * turn)
    is_so = all(master.pipe.stdout.read(len(wanted)) == wanted for _ in range(LINES // 5))
    feeding.join()
    count.expect(f"{LINES} lines, and no memory", (is_so, peak(master) - before < 512, len(got)), (True, True, 2))
    master.end()
    master, line = Master(program, TWO), b"live a 1 0 0\nlive b 2 0 0\n\n"
    feeding = fed(master, b"workers\n" * LINES)
    first = master.pipe.stdout.read(1000)
    master.pipe.terminate()
    rest = master.pipe.stdout.read()
    feeding.join()
    told, status = first + rest, master.pipe.wait(PATIENCE)
    count.expect("a master that is ended within an answer", (line * (len(told) // len(line) + 1)).startswith(told), True)
    count.expect("its status", status, -15)


def full(count, program):
    """After as many events as a master has room for, all that would be one more is ignored, and faults stay faults.
    The session goes on up to its `end`."""
    turns = ["add s b" if at % 2 == 0 else "lose s b" for at in range(EVENTS)]
    accepted = [[f"accepted {at}"] for at in range(1, EVENTS + 1)]
    more = ["add s b", "wave", "sweep 0 0", "die b", "reduce", "wav", "copies"]
    more += ["price s 0", "price a 0", "price b 0", "commit", "end"]
    text = text_of([*SMALL, "target 1", "begin", *turns, *more])
    answers = [NONE, *accepted, *(4 * [["ignored 9"]]), ["ignored 7"], ["fault 1"], ["copies 0"]]
    answers += [NONE, NONE, NONE, ["ignored 9"], ["stuck 1", "open s"]]
    got = ended(program, text, "serve")
    wanted = text_of([line for answer in answers for line in [*answer, ""]]), 1
    count.expect("a full history", got if got[1] != 1 else (got == wanted, got[0][-200:]), (True, wanted[0][-200:]))


def main(programs):
    counts = []
    for program in programs:
        counts.append(Count(program))
        for part in (worked, without_audits, refused, cut_off, made, own_plans, endless, told_again, full):
            part(counts[-1], program)
    passed, failed = sum(it.passed for it in counts), sum(it.failed for it in counts)
    print(f"{passed} passed, {failed} failed")
    return 1 if failed or not passed else 0


if __name__ == "__main__":
    sys.exit(main(sys.argv[1:]))

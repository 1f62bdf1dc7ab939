#!/usr/bin/env python3
"""Compares what built programs answer to made texts with what reference_check.py, reference_play.py and
reference_run.py say of them.

    differential.py PROGRAM..

The texts are the same in each run: what `make_texts.py KIND SEED` makes of the seeds from 1, each front of
some examples, a script with a death more at each of its places, problems of up to 4,000 splits or 32,768
workers, and texts at the limits on counts, bytes and prices. A check's answer has to be the reference's. A plan
with its prices, over either network, has to start as many splits at as little cost as any choice of starts, and
to be certified by the reference; without prices its lines are the same up to them. Where places have prices, these
are part of the cost, and there is no plan over a direct network. A script's report is followed
command by command. A job's answer has to be the reference's, and the end of the report of a script that brings
it as far; what a run says was done is followed event by event. The last line counts the groups of texts that
agree.
"""
import os
import random
import subprocess
import sys
from concurrent.futures import ThreadPoolExecutor

sys.dont_write_bytecode = True
import make_texts
import reference_run
from reference_check import answer, misplanned
from reference_play import misplayed
from reference_text import MAX_TEXT_BYTES, Fault, read

CHECKED = {
    "best": 120, "changed": 200, "faulty": 320, "placed": 120, "changed_placed": 200, "faulty_placed": 320,
}
PLANNED = {"problem": 300, "faulty_problem": 200, "placed_problem": 300, "faulty_placed_problem": 200}
PLAYED = {"script": 1000, "faulty_script": 500, "vast_script": 20, "joined_script": 40}
RUN = {"job": 2000, "faulty_job": 500}
RECORDED = {"job": 300}
# How many splits the larger problems have, up to the most, with each size near it: more than a thread takes at once,
# and more than there are slots for.
MANY_SPLITS = [129, 200, 256, 257, 512, 1000, 1001, *range(1010, 1025)]
# And more than a direct network is built for, in texts of version 3.
MORE_SPLITS = [1025, 1500, 4000]
MORE_PLACED = [10, 129, 1025, 4000]
MORE_WORKERS = [257, 300, 1000, 4097, 32_768]
# More than there are processors, since a job's threads nap where they have nothing to do.
PROGRAMS_AT_ONCE = 4 * os.cpu_count()
EXAMPLES = os.path.join(os.path.dirname(os.path.abspath(__file__)), "..", "examples")


def made(kind, count):
    make = make_texts.KINDS[kind]
    return [(f"make_texts.py {kind} {seed}", make(random.Random(seed))) for seed in range(1, count + 1)]


def groups():
    """The name of each group, what finds a fault in the answers to one text, and the texts."""
    for kind, count in CHECKED.items():
        yield kind, wrong_check, made(kind, count)
    for kind, count in PLANNED.items():
        yield kind, wrong_plan, made(kind, count)
    yield "many", wrong_many, [(f"a problem of {splits} splits", many(splits)) for splits in MANY_SPLITS]
    yield "more", wrong_more, [(f"a problem of {splits} splits", many(splits, 3)) for splits in MORE_SPLITS]
    yield "more placed", wrong_more, [
        (f"a problem of {splits} splits, with prices of places", many(splits, 3, 30_000)) for splits in MORE_PLACED
    ]
    yield "wide", wrong_more, [(f"a problem of {workers} workers", wide(workers)) for workers in MORE_WORKERS]
    for kind, count in PLAYED.items():
        yield kind, wrong_play, made(kind, count)
    for kind, count in RUN.items():
        yield kind, wrong_run, made(kind, count)
    for kind, count in RECORDED.items():
        yield f"recorded {kind}", wrong_history, made(kind, count)
        yield f"recorded {kind} ahead", wrong_ahead, made(kind, count)
    yield "front", wrong_check, fronts("swap.txt")
    yield "front", wrong_check, fronts("dear_place.txt")
    yield "front", wrong_play, fronts("play_death.txt")
    yield "front", wrong_run, fronts("run_words.txt")
    yield "death", wrong_death, deaths("play_death.txt", [b"a", b"b"])
    yield "full", wrong_index, [(f"a job of {over} bytes past the most", full_of_bytes(over)) for over in (0, 1)]
    yield "full", wrong_index, [
        (f"a job of {over} documents past the most", full_of_documents(over)) for over in (0, 1)
    ]
    yield "full", wrong_run, [(f"a job of {over} workers past the most", full_of_workers(over)) for over in (0, 1)]
    yield "full", wrong_index, [(f"a job of {over} splits past the most", full_of_splits(over)) for over in (0, 1)]
    yield "dearest", wrong_check, [
        (f"a price {over} past the greatest reward", make_texts.dearest(over)) for over in (0, 1)
    ]
    for most, wrong, make in (
        (make_texts.MOST, wrong_check, make_texts.limit),
        (make_texts.MOST_OF_3, wrong_check, lambda kind, over: make_texts.limit(kind, over, 3)),
        (make_texts.MOST_OF_SCRIPTS, wrong_play, make_texts.limit_of_scripts),
        (make_texts.MOST_OF_SCRIPTS_3, wrong_play, lambda kind, over: make_texts.limit_of_scripts(kind, over, 3)),
    ):
        yield "limit", wrong, [
            (f"{over} past the most {kind}s", make(kind, over)) for kind in most for over in (0, 1)
        ]


def many(splits, version=2, dearest=None):
    """A problem of so many splits for a few slots, in version 3 with prices of places up to the dearest, if it is given:
    the reference's search goes by the slots that are left."""
    rnd, workers = random.Random(splits), [f"w{w}" for w in range(4)]
    lines = [f"problem {version}", "centre c0", "centre c1", "rack r0 c0", "rack r1 c0", "rack r2 c1"]
    lines += [f"worker {name} r{w % 3} {rnd.randint(1, 3)}" for w, name in enumerate(workers)]
    for s in range(splits):
        # (half of the workers hold nothing, so that some starts cost)
        holders = rnd.sample(workers[:2], rnd.choice([0, 1, 1, 2]))
        lines.append(" ".join([f"split s{s} {rnd.randint(1, 9999)}", *holders]))
    lines += [f"busy s{s}" for s in range(splits) if rnd.random() < 0.1]
    lines += [f"barred s{s} {rnd.choice(workers)}" for s in range(splits) if rnd.random() < 0.1]
    if dearest is not None:
        prices = lambda: sorted(rnd.randint(0, dearest) for _ in range(3))
        lines += [" ".join(["places", name, *map(str, prices())]) for name in workers]
    return make_texts.text_of([*lines, "end"])


def wide(workers):
    """A problem of so many workers in up to the most racks and data centres, of which five have a slot."""
    rnd, centres, racks = random.Random(workers), min(workers // 40, 256), min(workers // 8, 4096)
    slots = dict.fromkeys(rnd.sample(range(workers), 5), 1)
    lines = ["problem 3", *(f"centre c{c}" for c in range(centres))]
    lines += [f"rack r{r} c{rnd.randrange(centres)}" for r in range(racks)]
    lines += [f"worker w{w} r{rnd.randrange(racks)} {slots.get(w, 0)}" for w in range(workers)]
    near = [*slots, *rnd.sample(range(workers), 8)]
    for s in range(8):
        held = rnd.sample(near, rnd.randint(0, 3))
        lines.append(" ".join([f"split s{s} {rnd.randint(1, 9999)}", *(f"w{w}" for w in held)]))
    lines += [f"barred s{s} w{rnd.choice([*slots])}" for s in range(8) if rnd.random() < 0.5]
    lines += [f"dead w{w}" for w in rnd.sample(range(workers), 3)]
    return make_texts.text_of([*lines, "end"])


def full_of_bytes(over):
    """A job of as many bytes as a text may have, or one more."""
    front, end = b"job 1\nrack r\nworker a r 1\nsplit s 1 a\ndoc d s ", b"\nend\n"
    room = MAX_TEXT_BYTES + over - len(front) - len(end)
    return front + (b"some words " * room)[:room] + end


def full_of_documents(over):
    """A job of as many documents as one of version 3 may have, or one more."""
    count = make_texts.MOST_OF_SCRIPTS_3["document"] + over
    lines = ["job 3", "centre z", "rack r z", "worker w r 1", "split s 1 w", "split t 1 w"]
    return make_texts.text_of([*lines, *(f"doc {i:X} {'st'[i % 2]} w" for i in range(count)), "end"])


def full_of_workers(over):
    """A job of as many workers as one of version 3 may have, or one more."""
    return make_texts.wide_job(random.Random(over), 3, make_texts.MOST_WORKERS_OF_JOBS_3 + over)


def full_of_splits(over):
    """A job of as many splits as one of version 3 may have, or one more. Each has a holder, and the first a document."""
    count, workers = make_texts.MOST_OF_SCRIPTS_3["split"] + over, [f"w{w}" for w in range(4)]
    lines = ["job 3", "centre z", "rack r z", *(f"worker {name} r 255" for name in workers)]
    lines += [f"split s{s} 1 {workers[s % 4]}" for s in range(count)]
    return make_texts.text_of([*lines, "doc d s0 some words", "end"])


def example(name):
    with open(os.path.join(EXAMPLES, name), "rb") as file:
        return file.read()


def fronts(name):
    text = example(name)
    return [(f"the first {n} bytes of {name}", text[:n]) for n in range(len(text))]


def deaths(name, workers):
    """The script with one worker's death more, at each place of its commands."""
    lines = example(name).splitlines(True)
    places = range(lines.index(b"begin\n") + 1, len(lines))
    return [
        (f"{name} with {worker.decode()} dead before line {at + 1}",
         b"".join([*lines[:at], b"die " + worker + b"\n", *lines[at:]]))
        for worker in workers for at in places
    ]


def said_by(program, words, text):
    ran = subprocess.run([program, *words], input=text, stdout=subprocess.PIPE, stderr=subprocess.PIPE)
    return ran.stdout, ran.returncode


def wrong_check(program, text):
    said, wanted = said_by(program, ["check"], text), answer(text)
    return None if said == wanted else f"it says {said}, and the reference {wanted}"


def wrong_plan_over(program, words, text):
    said = said_by(program, [*words, "--prices"], text)
    wrong = misplanned(text, *said)
    if wrong:
        return f"{' '.join(words)}: it says {said}, but {wrong}"
    without = b"".join(line for line in said[0].splitlines(True) if not line.startswith(b"price "))
    if said_by(program, words, text) != (without, said[1]):
        return f"{' '.join(words)}: without prices it says otherwise"
    return None


def wrong_plan(program, text):
    # (racks is what is taken where no network is named)
    return wrong_plan_over(program, ["plan"], text) or wrong_plan_by_pairs(program, text)


def wrong_plan_by_pairs(program, text):
    if has_places(text):
        return wrong_refusal(program, text)
    return wrong_plan_over(program, ["plan", "--network", "direct"], text)


def has_places(text):
    """Whether a problem to plan from has no fault, and prices of places."""
    try:
        return bool(read(text, "plan").places)
    except Fault:
        return False


def wrong_refusal(program, text):
    """No direct network is built for the problem."""
    direct = said_by(program, ["plan", "--network", "direct"], text)
    return None if direct == (b"", 64) else f"over a direct network it says {direct}"


def wrong_many(program, text):
    return wrong_plan(program, text) or wrong_recheck(program, text)


def wrong_more(program, text):
    """A direct network is not built for so many splits."""
    return wrong_refusal(program, text) or wrong_plan_over(program, ["plan"], text) or wrong_recheck(program, text)


def wrong_recheck(program, text):
    """A check of the plan that was made says what the reference says."""
    lines = said_by(program, ["plan", "--prices"], text)[0].partition(b"\n")[2]
    return wrong_check(program, text[: -len(b"end\n")] + b"plan\n" + lines + b"end\n")


def wrong_play(program, text):
    said = said_by(program, ["play"], text)
    wrong = misplayed(text, *said)
    return f"it says {said}, but {wrong}" if wrong else None


def wrong_index(program, text):
    said, wanted = said_by(program, ["run"], text), reference_run.answer(text)
    shown = [(out[:999], status) for out, status in (said, wanted)]
    return None if said == wanted else f"it says {shown[0]}, and the reference {shown[1]}"


def wrong_run(program, text):
    wrong, said = wrong_index(program, text), reference_run.answer(text)
    if wrong or said[1] == 2:
        return wrong
    report, status = said_by(program, ["play"], reference_run.script(text))
    if status != said[1] or not (b"\n" + report).endswith(b"\n" + said[0]):
        return f"it says {said}, and a script of the same job {report}"
    return None


def wrong_history(program, text):
    said = said_by(program, ["run", "--history"], text)
    wrong = reference_run.misrecorded(text, *said)
    return f"it says {said}, but {wrong}" if wrong else None


def wrong_ahead(program, text):
    """The same of a run that is planned ahead, by one to three waves."""
    ahead = 1 + len(text) % 3
    said = said_by(program, ["run", "--history", "--ahead", str(ahead)], text)
    wrong = reference_run.misrecorded(text, *said, ahead)
    return f"with --ahead {ahead} it says {said}, but {wrong}" if wrong else None


def wrong_death(program, text):
    # (where every part is done all the same, the index is that of the script without the death)
    lines, index = said_by(program, ["play"], text)[0], example("play_death.out")
    index = index[index.index(b"index ") :]
    if b"\nindex " in lines and not lines.endswith(b"\n" + index):
        return f"it says {lines}, and the index is {index}"
    return wrong_play(program, text)


def main():
    passed = failed = 0
    for kind, wrong, texts in groups():
        for program in sys.argv[1:]:
            with ThreadPoolExecutor(PROGRAMS_AT_ONCE) as pool:
                found = list(pool.map(lambda it: wrong(program, it[1]), texts))
            differ = [at for at, it in enumerate(found) if it]
            print(f"{program}: {len(texts) - len(differ)} of {len(texts)} {kind} texts agree", flush=True)
            for at in differ[:3]:
                print(f"  {texts[at][0]}: {found[at]}")
            passed, failed = passed + (not differ), failed + bool(differ)
    print(f"{passed} passed, {failed} failed")
    return 1 if failed or not passed else 0


if __name__ == "__main__":
    sys.exit(main())

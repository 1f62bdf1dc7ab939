#!/usr/bin/env python3
"""Writes one web page of a job, on standard output: a job with the history of its run, or a script with its report.

The page is one file that needs no network. It has the cluster as racks with what runs after each event, a time line of
attempts by worker, and of each wave what it moved. A slider goes from event to event, by arrow keys too. The texts have
no prices. With --planner the program is asked for the prices of each wave, and whether they certify it. Plans ahead are
shown as waves by their own word, and without prices.

    contrib/page_of_history.py contrib/samples/job.txt contrib/samples/job.out > job.html
    contrib/page_of_history.py --planner bin/mrjob contrib/samples/job.txt contrib/samples/job.out > job.html
"""
import argparse
import json
import os
import signal
import subprocess
import sys

sys.dont_write_bytecode = True
from course import course_of
from drawing import DARK, FILLS, LIGHT, cut
from page_frame import page
from texts import Fault

KINDS = ["map", "backup", "part"]
HOWS = ["done", "undone", "outrun", "failed", "withdrawn", "lost", "runs"]


def asked_of(program, *words, given):
    """What the program answers to a text."""
    ran = subprocess.run([program, *words], input=given, stdout=subprocess.PIPE, stderr=subprocess.PIPE, text=True)
    if ran.returncode > 1:
        raise Fault(f"{program} {' '.join(words)} ended with status {ran.returncode}: {ran.stdout}{ran.stderr}".strip())
    return ran.stdout.splitlines()


def prices_by(program):
    """Asks a program for the prices of a wave, and whether they certify what the texts say it started."""

    def ask(course, starts):
        problem = [*course.problem()]
        given = "\n".join([*problem, ""])
        lines = [line for line in asked_of(program, "plan", "--prices", given=given) if line.startswith("price ")]
        plan = [*problem[:-1], "plan", *(f"start {split} {worker}" for _, split, worker in starts), *lines, "end", ""]
        (said,) = asked_of(program, "check", given="\n".join(plan))
        return said, [int(line.split(" ")[2]) for line in lines]

    return ask


def data_of(course, title):
    """What the page is made of, by numbers of workers, racks, centres and splits."""
    head = course.head
    number = lambda names: {name: at for at, name in enumerate(names)}
    centres, racks, workers, splits = map(number, (head.centres, head.centre_of, head.slots, head.bytes))
    attempts = []
    for it in course.attempts.values():
        of = int(it.of) if it.kind == "part" else splits[it.of]
        steps = -1 if it.steps is None else it.steps
        row = [KINDS.index(it.kind), of, workers[it.worker], it.start, it.end or 0, HOWS.index(it.how), steps]
        attempts.append([*row, it.undone or 0])
    waves = []
    for it in course.waves:
        said, prices = it.prices or ("", [])
        waves.append([it.place, it.count, it.cost, [int(start.number) for start in it.attempts], said, prices, it.keyword])
    moves = [[place, "dies", workers[name], []] for place, name in course.deaths]
    for place, name in course.returns:
        moves.append([place, "joins", workers[name], [splits[it] for it in course.events[place - 1].split(" ")[2:]]])
    for keyword, some in (("adds", course.copies), ("loses", course.losses)):
        moves += [[place, keyword, workers[name], [splits[split]]] for place, split, name in some]
    return {
        "title": title,
        "centres": head.centres,
        "racks": [[name, centres.get(centre, -1)] for name, centre in head.centre_of.items()],
        "workers": [[name, racks[head.rack_of[name]], slots] for name, slots in head.slots.items()],
        "short": [*cut(head.slots, 18).values()],
        "splits": [[name, size, [workers[it] for it in head.holders[name]]] for name, size in head.bytes.items()],
        "shortSplits": [*cut(head.bytes, 10).values()],
        "parts": head.parts,
        "documents": head.documents,
        "events": course.events,
        "ignored": course.ignored,
        "attempts": attempts,
        "waves": waves,
        # (a sweep kills in its place: what died is told before what else happened there)
        "moves": sorted(moves, key=lambda it: it[0]),
        "ending": course.ending,
    }


def main():
    parser = argparse.ArgumentParser(description=__doc__, formatter_class=argparse.RawDescriptionHelpFormatter)
    parser.add_argument("text", help="the file of a job or a script")
    parser.add_argument("history", help="what `mrjob run --history`, or `mrjob play`, answered to it")
    parser.add_argument("--planner", metavar="PROGRAM", help="ask this mrjob for the prices of each wave")
    given = parser.parse_args()
    try:
        with open(given.text, "rb") as text, open(given.history, "rb") as history:
            text, history = text.read(), history.read().decode("ascii")
        course = course_of(text, history, prices_by(given.planner) if given.planner else None)
    except (Fault, OSError, ValueError) as wrong:
        print(f"page_of_history.py: {wrong}", file=sys.stderr)
        return 1
    title = os.path.basename(os.fsencode(given.text)).decode("ascii", "replace")
    sys.stdout.write(page(json.dumps(data_of(course, title), separators=(",", ":")), title, LIGHT, DARK, FILLS))
    return 0


if __name__ == "__main__":
    signal.signal(signal.SIGPIPE, signal.SIG_DFL)  # (a reader that stops reading ends it quietly)
    sys.exit(main())

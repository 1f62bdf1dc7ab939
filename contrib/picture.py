#!/usr/bin/env python3
"""Draws a problem with its plan, a script with its report, or a job with the history of its run, as SVG on standard
output, of at most 1,560 by 2,400 points.

Of a plan: centres and racks as boxes with their workers, a cell for each free slot, which tells by colour and digit how
many steps its split's bytes go, what waits, and the greatest prices where the plan has them. Of a report or a history:
a row for each worker along the places of the history, with each attempt as a bar, deaths, returns and waves.

    contrib/picture.py examples/plan_swap.txt examples/plan_swap.out > plan.svg
    contrib/picture.py examples/play_death.txt examples/play_death.out > report.svg
    contrib/picture.py examples/run_words.txt <(bin/mrjob run --history < examples/run_words.txt) > run.svg
"""
import argparse
import signal
import sys

sys.dont_write_bytecode = True
from picture_of_plan import draw_plan
from picture_of_report import draw_report
from texts import Fault


def main():
    parser = argparse.ArgumentParser(description=__doc__, formatter_class=argparse.RawDescriptionHelpFormatter)
    parser.add_argument("text", help="the file of a problem, a script or a job")
    parser.add_argument("answer", help="what `mrjob plan`, `mrjob play` or `mrjob run --history` answered to it")
    given = parser.parse_args()
    try:
        with open(given.text, "rb") as text, open(given.answer, "rb") as answer:
            text, answer = text.read(), answer.read().decode("ascii")
        draw = draw_report if text.startswith((b"script ", b"job ")) else draw_plan
        sys.stdout.write(draw(text, answer).svg())
    except (Fault, OSError, ValueError) as wrong:
        print(f"picture.py: {wrong}", file=sys.stderr)
        return 1
    return 0


if __name__ == "__main__":
    signal.signal(signal.SIGPIPE, signal.SIG_DFL)  # (a reader that stops reading ends it quietly)
    sys.exit(main())

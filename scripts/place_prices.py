#!/usr/bin/env python3
"""Tries prices of places on all assignments of small problems, contrib/plan_places.py, and the plans of programs.

    place_prices.py [--problems N] PROGRAM..

makes small problems of version 3 in which places have prices, and goes through all admissible assignments of
each. Which assignments are best is found by counting starts and adding up byte-distances and prices of
places, and by nothing else. For each assignment prices that meet C4 to C8 are sought by shortest paths, since
each of these conditions bounds a difference of two unknowns. There have to be such prices for the best
assignments alone. With them contrib/certify.py and reference_check.py have to certify the plan, and to tell
its figures. Where a price is changed by one, or the plan is another one, both have to say the same, and may
certify a best plan alone. The plans of plan_places.py and of the programs have to be certified as best, and the
figures of a program's first line have to be those of its plan. Of problems of hundreds of splits the programs'
plans have to be certified, and to be charged what those of plan_places.py are. The problems are the same in each
run. The last line is 'N passed, M failed'.
"""
import argparse
import itertools
import random
import subprocess
import sys

sys.dont_write_bytecode = True
import make_texts
import reference_check
from crates import ROOT
from reference_text import read

sys.path.append(str(ROOT / "contrib"))
import certify
from plan_places import planned

PROBLEMS = 400
# How many splits and workers the larger problems have.
LARGER = [(100, 7), (200, 40), (300, 60), (300, 300)]


def places_of(rnd, worker, most):
    """The line of a worker whose places have prices: fewer or more of them than the worker has slots."""
    prices = sorted(rnd.randint(0, most) for _ in range(rnd.randint(1, 5)))
    if rnd.random() < 0.1:
        prices[-1] = rnd.choice([most + 1000, 2**36])
    return " ".join([f"places w{worker}", *map(str, prices)])


def small(rnd):
    """The head of a problem that has few assignments, with dead workers, busy splits and barred pairs."""
    centres, racks, workers, splits = (rnd.randint(1, most) for most in (2, 3, 3, 4))
    lines = ["problem 3", *(f"centre c{c}" for c in range(centres))]
    lines += [f"rack r{r} c{rnd.randrange(centres)}" for r in range(racks)]
    slots = [rnd.choice([0, 1, 1, 2, 2, 3, 4]) for _ in range(workers)]
    lines += [f"worker w{w} r{rnd.randrange(racks)} {count}" for w, count in enumerate(slots)]
    for s in range(splits):
        held = rnd.sample(range(workers), rnd.randint(0, workers) if rnd.random() < 0.3 else 1)
        lines.append(" ".join([f"split s{s} {rnd.choice([0, 1, 2, 3, 5, 8])}", *(f"w{w}" for w in held)]))
    most = rnd.choice([0, 3, 10, 40])
    lines += [places_of(rnd, w, most) for w in range(workers) if rnd.random() < 0.8]
    lines += [f"barred s{s} w{w}" for s in range(splits) for w in range(workers) if rnd.random() < 0.1]
    lines += [f"dead w{w}" for w in range(workers) if rnd.random() < 0.1]
    return lines + [f"busy s{s}" for s in range(splits) if rnd.random() < 0.1]


def larger(rnd, splits, workers):
    """The head of a problem in which half of the workers hold all splits."""
    lines = ["problem 3", "centre c0", "centre c1", *(f"rack r{r} c{r % 2}" for r in range(8))]
    slots = [rnd.randint(0, 2 * splits // workers) for _ in range(workers)]
    lines += [f"worker w{w} r{rnd.randrange(8)} {count}" for w, count in enumerate(slots)]
    for s in range(splits):
        held = rnd.sample(range(workers // 2), rnd.randint(0, 3))
        lines.append(" ".join([f"split s{s} {rnd.randint(1, 999)}", *(f"w{w}" for w in held)]))
    return lines + [places_of(rnd, w, 4000) for w in range(0, workers, 2)]


def text_of(head, starts, prices):
    """The text of a problem with a plan, by its starts, and with prices of splits and of workers."""
    lines = [*head, "plan", *(f"start s{s} w{w}" for s, w in enumerate(starts) if w is not None)]
    for kind, some in zip("sw", prices):
        lines += [f"price {kind}{at} {price}" for at, price in enumerate(some)]
    return make_texts.text_of([*lines, "end"])


class Small:
    """A small problem with all its admissible assignments."""

    def __init__(self, head):
        free = [[0] * sum(line.startswith(kind) for line in head) for kind in ("split ", "worker ")]
        self.head, self.wave = head, reference_check.Wave(read(text_of(head, [], free), "check"))
        self.has_places = any(line.startswith("places ") for line in head)
        self.splits, self.workers = (range(len(it)) for it in free)
        self.ways = [(s, w) for s in self.splits for w in self.workers if self.wave.is_admissible(s, w)]
        choices = [[None, *(w for w in self.workers if (s, w) in self.ways)] for s in self.splits]
        has_room = lambda plan: all(plan.count(w) <= self.wave.free[w] for w in self.workers)
        self.plans = [plan for plan in itertools.product(*choices) if has_room(plan)]
        self.best = min(map(self.order, self.plans))

    def figures(self, plan):
        """The number of starts, their byte-distance, and what their places cost."""
        started = [(s, w) for s, w in enumerate(plan) if w is not None]
        places = [self.wave.place_price(w, k) for w in self.workers for k in range(plan.count(w))]
        return len(started), sum(self.wave.cost(*pair) for pair in started), sum(places)

    def order(self, plan):
        """The better a plan, the less."""
        count, distance, places = self.figures(plan)
        return -count, distance + places

    def demands(self, plan):
        """What C4 to C8 demand of prices for a plan, each as a, b and the most by which a may be above b. The
        unknowns are the negated prices of splits, then the prices of workers, then 0."""
        reward, zero = self.wave.reward, len(self.splits) + len(self.workers)
        at, place_price = lambda w: len(self.splits) + w, self.wave.place_price
        for s in self.splits:
            yield s, zero, 0
            yield zero, s, reward if plan[s] is not None else 0
            if plan[s] is not None:
                yield at(plan[s]), s, reward - self.wave.cost(s, plan[s])
        for w in self.workers:
            load = plan.count(w)
            yield at(w), zero, place_price(w, load) if load < self.wave.free[w] else reward
            yield zero, at(w), -place_price(w, load - 1) if load else 0
        for s, w in self.ways:
            yield s, at(w), self.wave.cost(s, w) - reward

    def prices(self, plan):
        """Prices of splits and of workers that certify a plan, or None where there are none."""
        demands, splits = [*self.demands(plan)], len(self.splits)
        value = [0] * (splits + len(self.workers) + 1)
        for _ in range(len(value) + 1):
            changed = False
            for a, b, most in demands:
                if value[b] + most < value[a]:
                    value[a], changed = value[b] + most, True
            if not changed:
                above = [it - value[-1] for it in value[:-1]]
                return [-it for it in above[:splits]], above[splits:]
        return None


def answer(text):
    """What both references answer, or None where they differ."""
    line, status = certify.answer(text)
    return line if (f"{line}\n".encode(), status) == reference_check.answer(text) else None


def bent(rnd, problem, plan, prices):
    """The plan with each of its prices changed by one in turn, and another plan with the prices."""
    for side in (0, 1):
        for at in range(len(prices[side])):
            changed = [*map(list, prices)]
            changed[side][at] = max(0, changed[side][at] + rnd.choice([-1, 1]))
            yield plan, changed
    yield rnd.choice(problem.plans), prices


def wrong_prices(rnd, problem, plan):
    """What is wrong with one assignment and its prices, or None."""
    prices, is_best = problem.prices(plan), problem.order(plan) == problem.best
    if (prices is not None) != is_best:
        return f"its prices are {prices}, and that it is best is {is_best}"
    if not is_best:
        return None
    figures = problem.figures(plan)[: 3 if problem.has_places else 2]
    said = answer(text_of(problem.head, plan, prices))
    if said != " ".join(["certified", *map(str, figures)]):
        return f"its prices {prices} are answered {said}"
    for other, changed in bent(rnd, problem, plan, prices):
        said = answer(text_of(problem.head, other, changed))
        if said is None or said.startswith("certified") and problem.order(other) != problem.best:
            return f"with {other} and {changed} the answer is {said}"
    return None


def plan_by(program, text):
    """The text with a program's plan and prices, and the figures of the plan's first line."""
    ran = subprocess.run([program, "plan", "--prices"], input=text, capture_output=True)
    first, _, lines = ran.stdout.decode().partition("\n")
    return f"{text.decode()[: -len('end') - 1]}plan\n{lines}end\n", first.split(" ")[1:]


def wrong_plan(programs, text, best):
    """Whose plan of a problem is not certified as best, or tells other figures, or None."""
    plans = [("plan_places.py", planned(text), None), *((program, *plan_by(program, text)) for program in programs)]
    for name, whole, told in plans:
        said = answer(whole.encode()) or "nothing"
        word, *figures = said.split(" ")
        if word != "certified" or told not in (None, figures):
            return f"the plan of {name} tells {told} and is answered {said}"
        order = -int(figures[0]), sum(map(int, figures[1:]))
        best = best or order  # (of a larger problem: that of plan_places.py)
        if order != best:
            return f"the plan of {name} is answered {said}"
    return None


def wrong(rnd, programs, problem):
    """What is wrong with a small problem, or None."""
    for plan in problem.plans:
        found = wrong_prices(rnd, problem, plan)
        if found:
            return f"{plan}: {found}"
    return wrong_plan(programs, make_texts.text_of([*problem.head, "end"]), problem.best)


def main():
    parser = argparse.ArgumentParser(description=__doc__, formatter_class=argparse.RawDescriptionHelpFormatter)
    parser.add_argument("--problems", type=int, default=PROBLEMS)
    parser.add_argument("programs", nargs="*", metavar="PROGRAM")
    asked = parser.parse_args()
    passed = failed = plans = 0
    for seed in range(1, asked.problems + 1):
        rnd = random.Random(seed)
        problem = Small(small(rnd))
        found, plans = wrong(rnd, asked.programs, problem), plans + len(problem.plans)
        if found:
            print(f"problem {seed} failed: {problem.head}: {found}")
        passed, failed = passed + (not found), failed + bool(found)
    print(f"{passed} of {asked.problems} problems with {plans} assignments agree")
    for splits, workers in LARGER:
        text = make_texts.text_of([*larger(random.Random(splits + workers), splits, workers), "end"])
        found = wrong_plan(asked.programs, text, None)
        print(f"{splits} splits on {workers} workers{f' failed: {found}' if found else ' agree'}", flush=True)
        passed, failed = passed + (not found), failed + bool(found)
    print(f"{passed} passed, {failed} failed")
    return 1 if failed or not passed else 0


if __name__ == "__main__":
    sys.exit(main())

#!/usr/bin/env python3
"""Answers a text as `mrjob check` must, and judges what `mrjob plan` answered: an independent reference for tests.

It is written from the definitions of docs/MODEL.md, the plain way, and shares nothing with the program. Texts are read
by reference_text.py.

    reference_check.py < TEXT      writes the answer of a check; the status is the program's: 0, 1 or 2
"""
import math
import sys

sys.dont_write_bytecode = True
from reference_text import Fault, read


class Wave:
    """The problem with its plan and prices, by numbers."""

    places = None  # of each worker the prices of its places, where any have prices

    def __init__(self, given):
        self.splits = list(given.numbers["split"])
        self.workers = list(given.numbers["worker"])
        workers, splits = given.numbers["worker"], given.numbers["split"]
        self.centre_of, self.rack_of, self.free = given.centre_of, given.rack_of, given.slots
        self.bytes, self.holders = given.bytes, given.holders
        self.live = [(name,) not in given.dead for name in self.workers]
        self.pending = [(name,) not in given.busy for name in self.splits]
        self.barred = {(splits[split], workers[worker]) for split, worker in given.barred}
        self.starts = [workers.get(given.starts.get(name)) for name in self.splits]
        self.split_price = [given.prices[name] for name in self.splits]
        self.worker_price = [given.prices[name] for name in self.workers]
        reach = 6 if len(given.numbers["centre"]) > 1 else 4
        self.places = [given.places.get(name, []) for name in self.workers] if given.places else None
        every_place = sum(self.place_price(w, k) for w, free in enumerate(self.free) for k in range(free))
        self.reward = 1 + reach * sum(self.bytes) + every_place

    def place_price(self, worker, place):
        """What the place of the worker costs, the first being 0: past the last price as much as that."""
        prices = self.places[worker] if self.places else []
        return prices[min(place, len(prices) - 1)] if prices else 0

    def fits_places(self, worker):
        """Whether the worker's price lies from that of its last place taken to that of its first place left."""
        load, price = self.load(worker), self.worker_price[worker]
        taken = load == 0 or self.place_price(worker, load - 1) <= price
        return taken and (load >= self.free[worker] or price <= self.place_price(worker, load))

    def distance(self, a, b):
        """The steps from each up to the closest of worker, rack, centre and root that both are below."""
        above = lambda worker: (worker, self.rack_of[worker], self.centre_of[self.rack_of[worker]])
        return next((2 * steps for steps, (x, y) in enumerate(zip(above(a), above(b))) if x == y), 6)

    def live_holders(self, split):
        return [holder for holder in self.holders[split] if self.live[holder]]

    def cost(self, split, worker):
        return self.bytes[split] * min(self.distance(holder, worker) for holder in self.live_holders(split))

    def is_open(self, split):
        return self.pending[split] and bool(self.live_holders(split))

    def may_take(self, split, worker):
        return self.live[worker] and (split, worker) not in self.barred

    def is_admissible(self, split, worker):
        return self.is_open(split) and self.may_take(split, worker) and self.free[worker] > 0

    def load(self, worker):
        return self.starts.count(worker)

    def priced(self, split, worker):
        return self.split_price[split] + self.worker_price[worker] + self.cost(split, worker)


def first_failure(wave):
    """The first condition that fails and the names of its place, or None."""
    splits, workers = range(len(wave.splits)), range(len(wave.workers))
    started = [(s, w) for s, w in enumerate(wave.starts) if w is not None]
    pairs = [(s, w) for s in splits for w in workers]
    at_split = lambda number, places: [(number, wave.splits[s]) for s in places]
    at_worker = lambda number, places: [(number, wave.workers[w]) for w in places]
    at_pair = lambda number, places: [(number, wave.splits[s], wave.workers[w]) for s, w in places]
    conditions = (
        lambda: at_split(1, (s for s, _ in started if not wave.is_open(s))),
        lambda: at_pair(2, (pair for pair in started if not wave.may_take(*pair))),
        lambda: at_worker(3, (w for w in workers if wave.load(w) > wave.free[w])),
        lambda: at_split(4, (s for s in splits if wave.split_price[s] > wave.reward))
        + at_worker(4, (w for w in workers if wave.worker_price[w] > wave.reward)),
        lambda: at_pair(5, (it for it in pairs if wave.is_admissible(*it) and wave.priced(*it) < wave.reward)),
        lambda: at_pair(6, (pair for pair in started if wave.priced(*pair) != wave.reward)),
        lambda: at_split(7, (s for s in splits if wave.starts[s] is None and wave.split_price[s] != 0)),
        lambda: at_worker(8, (w for w in workers if not wave.fits_places(w))),
    )
    for failing in conditions:
        found = failing()
        if found:
            return found[0]
    return None


def figures(wave):
    """How many splits the plan starts, their byte-distance, and what the places cost that they take, where places have
    prices."""
    started = [(s, w) for s, w in enumerate(wave.starts) if w is not None]
    numbers = [len(started), sum(wave.cost(*pair) for pair in started)]
    if wave.places:
        numbers.append(sum(wave.place_price(w, k) for w in range(len(wave.workers)) for k in range(wave.load(w))))
    return numbers


def answer(text):
    """The bytes that `mrjob check` writes for a text, and its status."""
    try:
        wave = Wave(read(text, "check"))
    except Fault as fault:
        return f"{fault}\n".encode(), 2
    failure = first_failure(wave)
    if failure:
        number, *names = failure
        return f"refused C{number} {b' '.join(names).decode()}\n".encode(), 1
    return f"certified {' '.join(map(str, figures(wave)))}\n".encode(), 0


def most_and_least(wave):
    """The most splits that can start together, and the least that as many are charged: their byte-distance and the
    prices of their places."""
    idle = sum(map(bool, wave.free))
    # (so many ways there are at most to fill the slots, and to give so many splits to workers or to none)
    states = min(math.prod(free + 1 for free in wave.free), math.comb(len(wave.splits) + idle, idle))
    return by_all_ways(wave) if states <= 1024 else by_chains(wave)


def by_chains(wave):
    """The same by one start more at a time, at the end of the cheapest chain: a split that does not start takes the
    place of another one, which takes the place of the next, up to a free slot, whose place has its price. As many starts
    then cost the least, as prices of places do not fall."""
    costs = [{it: wave.cost(split, it) for it in range(len(wave.free)) if wave.is_admissible(split, it)}
             for split in range(len(wave.splits))]
    at = {}
    while True:
        chains = {}  # of each worker the cheapest one by which it has a split more: the cost, and where splits start

        def found(worker, cost, starts):
            is_less = worker not in chains or cost < chains[worker][0]
            if is_less:
                chains[worker] = cost, starts
            return is_less

        for split in {*range(len(costs))} - {*at}:
            for worker, cost in costs[split].items():
                found(worker, cost, {split: worker})
        grew = True
        while grew:
            grew = False
            for split, old in at.items():
                for worker, cost in costs[split].items() if old in chains else ():
                    before, starts = chains[old]
                    grew |= found(worker, before + cost - costs[split][old], {**starts, split: worker})
        loads = [*at.values()]
        ends = [(cost + wave.place_price(it, loads.count(it)), starts)
                for it, (cost, starts) in chains.items() if loads.count(it) < wave.free[it]]
        if not ends:
            places = [wave.place_price(it, k) for it in {*loads} for k in range(loads.count(it))]
            return len(at), sum(costs[split][worker] for split, worker in at.items()) + sum(places)
        at.update(min(ends, key=lambda it: it[0])[1])


def by_all_ways(wave):
    """The same by going over the workers' slots in all ways that matter, split by split, with the free slots that are
    left as the state."""
    idle = [worker for worker, free in enumerate(wave.free) if free]
    found = {tuple(wave.free[worker] for worker in idle): (0, 0)}
    for split in range(len(wave.splits)):
        pairs = [(at, wave.cost(split, it)) for at, it in enumerate(idle) if wave.is_admissible(split, it)]
        following = {}
        for free, (count, cost) in found.items():
            choices = [(free, (count, cost))]
            for at, more in pairs:
                if free[at]:
                    left = free[:at] + (free[at] - 1,) + free[at + 1 :]
                    place = wave.place_price(idle[at], wave.free[idle[at]] - free[at])
                    choices.append((left, (count + 1, cost + more + place)))
            for left, (starts, spent) in choices:
                known = following.get(left)
                if known is None or (-starts, spent) < (-known[0], known[1]):
                    following[left] = (starts, spent)
        found = following
    return min(found.values(), key=lambda it: (-it[0], it[1]))


def misplanned(text, written, status):
    """What is wrong with what `mrjob plan --prices` answered to a text, or None."""
    try:
        given = read(text, "plan")
    except Fault as fault:
        return None if (written, status) == (f"{fault}\n".encode(), 2) else f"the text has {fault}"
    given.prices = dict.fromkeys([*given.numbers["split"], *given.numbers["worker"]], 0)
    wave = Wave(given)
    count, charge = most_and_least(wave)
    first, _, lines = written.partition(b"\n")
    word, *told = first.split(b" ")
    if (word, status) != (b"wave", 0) or not all(it.isdigit() for it in told) or len(told) != (3 if wave.places else 2):
        return "that is not how a plan begins"
    if [int(told[0]), sum(map(int, told[1:]))] != [count, charge]:
        return f"{count} splits start at {charge}"
    said = [line.split(b" ") for line in lines.splitlines()]
    started = [words[1] for words in said if words[0] == b"start"]
    if started != [name for name in wave.splits if name in started]:
        return "the starts are not by split"
    priced = [words[1] for words in said[len(started) :]]
    if priced != wave.splits + wave.workers:
        return "the prices are not those of all splits, then of all workers"
    whole = text[: -len(b"end\n")] + b"plan\n" + lines + b"end\n"
    if answer(whole) != (b" ".join([b"certified", *told]) + b"\n", 0):
        return f"a check of plan and prices answers {answer(whole)}"
    return None


def main():
    written, status = answer(sys.stdin.buffer.read())
    sys.stdout.buffer.write(written)
    return status


if __name__ == "__main__":
    sys.exit(main())

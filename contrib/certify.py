#!/usr/bin/env python3
"""Answers a text as `mrjob check` does: a problem with a plan and its prices, on standard input.

It is written from docs/MODEL.md alone, in plain Python, for whoever trusts neither the program nor its proofs. The
status is 0 where the plan is certified, 1 where a condition fails, and 2 where the text has a fault.

    contrib/certify.py < examples/swap.txt

writes `certified 2 20`.
"""
import argparse
import signal
import sys
from collections import Counter, defaultdict

sys.dont_write_bytecode = True
from texts import Fault, read


class Wave:
    """The wave of a text, by numbers, with the plan and the prices."""

    def __init__(self, text):
        self.text, self.split_names, self.worker_names = text, list(text.numbers["split"]), list(text.numbers["worker"])
        self.splits, self.workers = range(len(self.split_names)), range(len(self.worker_names))
        self.lives = [("dead", name) not in text.marks for name in self.worker_names]
        self.live_holders = [[h for h in holders if self.lives[h]] for holders in text.holders]
        self.is_open = [
            ("busy", name) not in text.marks and bool(self.live_holders[s]) for s, name in enumerate(self.split_names)
        ]
        self.start = [text.numbers["worker"].get(text.starts.get(name)) for name in self.split_names]
        self.started = [(s, w) for s, w in enumerate(self.start) if w is not None]
        self.load = Counter(w for _, w in self.started)
        self.price = [int(text.prices.get(name, 0)) for name in self.split_names]
        self.slot_price = [int(text.prices.get(name, 0)) for name in self.worker_names]
        self.place_prices = [text.place_prices.get(name, [0]) for name in self.worker_names]
        self.reward = 1 + (6 if len(text.numbers["centre"]) > 1 else 4) * sum(text.bytes)
        self.reward += sum(self.places_cost(w, text.free[w]) for w in self.workers)

    def distance(self, a, b):
        one, other = self.text.rack_of[a], self.text.rack_of[b]
        if a == b or one == other:
            return 0 if a == b else 2
        return 4 if self.text.centre_of[one] == self.text.centre_of[other] else 6

    def cost(self, s, w):
        return self.text.bytes[s] * min(self.distance(h, w) for h in self.live_holders[s])

    def place_price(self, w, place):
        """The price of a worker's place, counted from 0. A place past the last price costs as much."""
        return self.place_prices[w][min(place, len(self.place_prices[w]) - 1)]

    def places_cost(self, w, places):
        """What the first places of a worker cost together."""
        prices = self.place_prices[w]
        return sum(prices[:places]) + prices[-1] * max(0, places - len(prices))

    def figures(self):
        """The number of starts, their byte-distance and, where places have prices, what the taken places cost."""
        found = [len(self.started), sum(self.cost(s, w) for s, w in self.started)]
        if self.text.place_prices:
            found.append(sum(self.places_cost(w, self.load[w]) for w in self.workers))
        return found

    def sum(self, s, w):
        return self.price[s] + self.slot_price[w] + self.cost(s, w)

    def may_take(self, s, w):
        return self.lives[w] and ("barred", self.split_names[s], self.worker_names[w]) not in self.text.marks

    def may_start(self, s, w):
        return self.is_open[s] and self.text.free[w] > 0 and self.may_take(s, w)

    def by_price(self):
        """The live workers with a free slot by rising price: those of each rack, of each data centre, and all."""
        near = defaultdict(list)
        for w in sorted(self.workers, key=self.slot_price.__getitem__):
            if self.lives[w] and self.text.free[w]:
                rack = self.text.rack_of[w]
                for place in (("rack", rack), ("centre", *self.text.centre_of[rack]), "all"):
                    near[place].append(w)
        return near

    def lists(self, s, near):
        """Lists of workers by rising price, and how many steps from the split each of a list's workers is at most."""
        for holder in self.live_holders[s]:
            rack = self.text.rack_of[holder]
            yield from ((0, [holder]), (2, near[("rack", rack)]), (4, near[("centre", *self.text.centre_of[rack])]))
        yield 6, near["all"]

    def is_underpriced(self, s, near):
        """Whether the prices of a pair of the split are too low. Each worker stands in a list at its own distance, and in
        others at no lesser one. So the first worker of each list on which the split may start decides."""
        for steps, workers in self.lists(s, near):
            least = next((w for w in workers if self.may_start(s, w)), None)
            if least is not None and self.price[s] + self.slot_price[least] + steps * self.text.bytes[s] < self.reward:
                return True
        return False

    def underpriced(self):
        """The pairs whose prices are too low, of the first split that has one."""
        near = self.by_price()
        first = next((s for s in self.splits if self.is_open[s] and self.is_underpriced(s, near)), None)
        return (
            (first, w) for w in self.workers
            if first is not None and self.may_start(first, w) and self.sum(first, w) < self.reward
        )

    def is_misfit(self, w):
        """Whether the worker's price is lower than the price of its last place taken, or higher than that of
        its first place left."""
        load, price = self.load[w], self.slot_price[w]
        is_low = load > 0 and price < self.place_price(w, load - 1)
        return is_low or (load < self.text.free[w] and price > self.place_price(w, load))

    def failures(self):
        """The demands that fail, in their order, each with its places by split and then by worker; C5 of one split."""
        free = self.text.free
        yield from (("C1", s, None) for s, _ in self.started if not self.is_open[s])
        yield from (("C2", s, w) for s, w in self.started if not self.may_take(s, w))
        yield from (("C3", None, w) for w in self.workers if self.load[w] > free[w])
        yield from (("C4", s, None) for s in self.splits if self.price[s] > self.reward)
        yield from (("C4", None, w) for w in self.workers if self.slot_price[w] > self.reward)
        yield from (("C5", s, w) for s, w in self.underpriced())
        yield from (("C6", s, w) for s, w in self.started if self.sum(s, w) != self.reward)
        yield from (("C7", s, None) for s in self.splits if self.start[s] is None and self.price[s] != 0)
        yield from (("C8", None, w) for w in self.workers if self.is_misfit(w))


def answer(data):
    """The line that answers a text, and the status."""
    try:
        wave = Wave(read(data, has_plan=True))
    except Fault as fault:
        return str(fault), 2
    for name, s, w in wave.failures():
        places = [] if s is None else [wave.split_names[s]]
        places += [] if w is None else [wave.worker_names[w]]
        return " ".join(["refused", name, *places]), 1
    return " ".join(["certified", *map(str, wave.figures())]), 0


def main():
    argparse.ArgumentParser(description=__doc__, formatter_class=argparse.RawDescriptionHelpFormatter).parse_args()
    said, status = answer(sys.stdin.buffer.read())
    print(said)
    return status


if __name__ == "__main__":
    signal.signal(signal.SIGPIPE, signal.SIG_DFL)  # (a reader that stops reading ends it quietly)
    sys.exit(main())

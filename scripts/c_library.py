#!/usr/bin/env python3
"""Calls lib/libmrjob.so through the package mrjob_plan, and compares what it answers with the reference and a program.

    c_library.py PROGRAM

Made problems, the same in each run, are planned and checked by names and by arrays, over both networks: count and
cost have to be those of reference_check.py and of `mrjob plan`, and a verdict with its place those of the reference
and of `mrjob check`, of the same problem as text. So it is of problems in which places have prices, whose plan has to
be charged as little as an assignment to single slots. Then waves of up to 131,072 splits, four threads at once, and
the names that the library shows. python_package.py tries what the package adds. The last line is 'N passed, M failed'.
"""
import ctypes
import os
import random
import subprocess
import sys
from concurrent.futures import ThreadPoolExecutor
from itertools import product
from pathlib import Path

sys.dont_write_bytecode = True
ROOT = Path(__file__).resolve().parent.parent
sys.path.insert(0, str(ROOT / "python"))
import make_texts
import reference_check
import reference_text
from mrjob_plan import Cluster, Network, Prices, Split, Worker, arrays, check, library, plan

COUNT = 2000
# How many splits the larger waves have, up to the most that a network takes.
MANY_SPLITS = {
    Network.RACKS: [1000, *range(1010, 1026), 4095, 4096, 4097, 32_768, 65_534, 65_535, 65_536, 131_072],
    Network.DIRECT: [1000, *range(1010, 1025)],
}
PROGRAM = sys.argv[1] if len(sys.argv) > 1 else str(ROOT / "bin/mrjob")


def said_by(words, text):
    ran = subprocess.run([PROGRAM, *words], input=text, stdout=subprocess.PIPE, stderr=subprocess.PIPE, timeout=60)
    return ran.stdout.decode()


# ---- problems ----


def named(scenario):
    """The cluster and the splits by the names that the scenario's text has."""
    racks = {f"r{r}": f"c{centre}" for r, centre in enumerate(scenario.centre_of)}
    workers = {
        f"w{w}": Worker(f"r{scenario.rack_of[w]}", scenario.free[w], scenario.live[w]) for w in range(scenario.workers)
    }
    splits = {}
    for s in range(scenario.splits):
        holders = [f"w{w}" for w in scenario.holders[s]]
        barred = [f"w{w}" for split, w in scenario.barred if split == s]
        splits[f"s{s}"] = Split(scenario.bytes[s], holders, scenario.pending[s], barred)
    return Cluster(workers, racks, [f"c{c}" for c in range(scenario.centres)]), splits


def rows(scenario, yes):
    """The wave by numbers, in which this number says yes."""
    workers = list(zip(scenario.rack_of, scenario.free, [yes * it for it in scenario.live]))
    splits, holders = [], []
    for size, held, pending in zip(scenario.bytes, scenario.holders, scenario.pending):
        splits.append((size, len(holders), len(held), yes * pending))
        holders += held
    return arrays.Wave(scenario.centres, scenario.centre_of, workers, splits, holders, scenario.barred)


def named_places(scenario):
    """The prices of places by the names of workers, where there are some."""
    return {f"w{w}": it for w, it in scenario.places.items()} or None


def place_rows(scenario):
    """The same by numbers. Rows of the same prices share them."""
    first, prices, of_workers = {}, [], []
    for w in range(scenario.workers):
        own = tuple(scenario.places.get(w, ()))
        if own not in first:
            first[own] = len(prices)
            prices += own
        of_workers.append((first[own], len(own)))
    return arrays.Places(of_workers, prices) if scenario.places else None


def figures(scenario, found):
    """Count and cost, and what the places cost where they have prices."""
    return [found.count, found.cost, *[found.places] * bool(scenario.places)]


def by_names(scenario, network):
    """A plan of the scenario: its starts, prices of splits and of workers, and figures."""
    best = plan(*named(scenario), network, places=named_places(scenario))
    starts = [best.starts.get(f"s{s}") for s in range(scenario.splits)]
    starts = [None if it is None else int(it[1:]) for it in starts]
    return starts, [*best.prices.splits.values()], [*best.prices.workers.values()], *figures(scenario, best)


def by_numbers(scenario, network):
    best = arrays.plan(rows(scenario, 2), network, places=place_rows(scenario))
    starts = [None if it == arrays.NONE else it for it in best.starts]
    return starts, [*best.split_prices], [*best.worker_prices], *figures(scenario, best)


def checked_by_names(scenario):
    """What a check says of the scenario's plan and prices, in the words of `mrjob check`."""
    started = {f"s{s}": f"w{w}" for s, w in enumerate(scenario.starts) if w is not None}
    prices = Prices(
        {f"s{s}": it for s, it in enumerate(scenario.split_price)},
        {f"w{w}": it for w, it in enumerate(scenario.worker_price)},
    )
    verdict = check(*named(scenario), started, prices, places=named_places(scenario))
    if verdict:
        return " ".join(["certified", *map(str, figures(scenario, verdict))])
    return " ".join([f"refused C{verdict.condition}", *(it for it in (verdict.split, verdict.worker) if it)])


def checked_by_numbers(scenario):
    given = scenario.starts, scenario.split_price, scenario.worker_price
    verdict = arrays.check(rows(scenario, 255), *given, place_rows(scenario))
    if verdict:
        return " ".join(["certified", *map(str, figures(scenario, verdict))])
    places = [f"{kind}{it}" for kind, it in (("s", verdict.split), ("w", verdict.worker)) if it is not None]
    return " ".join([f"refused C{verdict.condition}", *places])


def wrong(seed):
    """What is wrong with the answers to one made problem, or None."""
    rnd = random.Random(seed)
    scenario = make_texts.Scenario(rnd)
    given = reference_text.read(make_texts.text_of(scenario.lines(rnd)), "check")
    most_and_least = reference_check.most_and_least(reference_check.Wave(given))
    lines = make_texts.text_of(scenario.lines(rnd))
    problem = lines[: lines.index(b"plan\n")] + b"end\n"
    first = said_by(["plan"], problem).split("\n")[0]
    for planned in (by_names, by_numbers):
        for network in Network:
            starts, split_prices, worker_prices, *total = planned(scenario, network)
            if tuple(total) != most_and_least or first != "wave {} {}".format(*total):
                return f"{planned.__name__}: {total}, and by the reference {most_and_least}, by the program {first}"
            scenario.starts, scenario.split_price, scenario.worker_price = starts, split_prices, worker_prices
            text = make_texts.text_of(scenario.lines(rnd))
            if reference_check.answer(text)[1] != 0:
                return f"{planned.__name__}: the reference says {reference_check.answer(text)}"
    return wrong_check(rnd, scenario)


def wrong_check(rnd, scenario):
    """What is wrong with what a check says of the scenario once it is changed, or None."""
    for _ in range(rnd.randint(0, 3)):
        scenario.change(rnd)
    text = make_texts.text_of(scenario.lines(rnd))
    wanted = reference_check.answer(text)[0].decode().strip()
    said = [checked_by_numbers(scenario), checked_by_names(scenario)]
    if scenario.version == 3:
        said = [make_texts.long_named(it) for it in said]
    said.append(said_by(["check"], text).strip())
    if said != [wanted] * 3:
        return f"a check says {said}, and the reference {wanted}"
    return None


def least_charge(scenario):
    """How many splits a plan by an assignment to single slots starts, and what it is charged."""
    scenario.plan()
    started = [(s, w) for s, w in enumerate(scenario.starts) if w is not None]
    taken = (scenario.place_price(w, k) for w in range(scenario.workers) for k in range(scenario.starts.count(w)))
    return len(started), sum(scenario.cost(*it) for it in started) + sum(taken)


def wrong_placed(seed):
    """What is wrong with the answers to one made problem in which places have prices, or None."""
    rnd = random.Random(seed)
    scenario = make_texts.Placed(rnd)
    wanted = least_charge(scenario)
    for planned in (by_names, by_numbers):
        starts, split_prices, worker_prices, *total = planned(scenario, Network.RACKS)
        if (total[0], sum(total[1:])) != wanted:
            return f"{planned.__name__}: {total}, and by an assignment {wanted}"
        scenario.starts, scenario.split_price, scenario.worker_price = starts, split_prices, worker_prices
        said = reference_check.answer(make_texts.text_of(scenario.lines(rnd)))
        if said != (f"certified {' '.join(map(str, total))}\n".encode(), 0):
            return f"{planned.__name__}: {total}, and the reference says {said}"
    return wrong_check(rnd, scenario)


def agrees(wrong=wrong):
    with ThreadPoolExecutor(os.cpu_count()) as pool:
        found = list(pool.map(wrong, range(1, COUNT + 1)))
    differ = [seed for seed, it in enumerate(found, 1) if it]
    print(f"{COUNT - len(differ)} of {COUNT} made problems agree")
    for seed in differ[:3]:
        print(f"  seed {seed}: {found[seed - 1]}")
    return not differ


def agrees_with_places():
    return agrees(wrong_placed)


def many():
    """Splits of one byte on one worker fill its slots at no cost, and as many next door at two bytes each."""
    for network, slots in product(Network, (16, 255)):
        for splits in MANY_SPLITS[network]:
            workers = [(0, slots, 1), (0, slots, 1)]
            wave = arrays.Wave(1, [0], workers, [(1, s, 1, 1) for s in range(splits)], [0] * splits, [])
            best = arrays.plan(wave, network)
            verdict = arrays.check(wave, best.starts, best.split_prices, best.worker_prices)
            totals = [(it.count, it.cost) for it in (best, verdict)]
            if totals != [(2 * slots, 2 * slots)] * 2 or verdict.condition is not None:
                return print(f"{splits} splits: {best.count} start at {best.cost}, and a check says {verdict}")
    return True


# ---- the rest ----


def threads():
    """Four threads at once are answered as one alone."""
    waves = [rows(make_texts.Scenario(random.Random(seed)), 1) for seed in range(200)]
    alone = [[arrays.plan(it, network).cost for it in waves] for network in Network]
    together = lambda network: [arrays.plan(it, network).cost for it in waves]
    with ThreadPoolExecutor(4) as pool:
        return list(pool.map(together, list(Network) * 4)) == alone * 4


def exported(archive):
    """The global names of an archive, by its first member."""
    content = archive.read_bytes()
    count = int.from_bytes(content[68:72], "big")
    end = 68 + int(content[56:66])
    return content[72 + 4 * count : end].rstrip(b"\0").decode().split("\0")


def shown():
    """Of the names that the archive has, the shared library shows mrjob_* alone."""
    is_there = lambda name: hasattr(ctypes.CDLL(library.place()), name)
    names = exported(ROOT / "lib/libmrjob.a")
    calls = {"mrjob_plan", "mrjob_check", "mrjob_unfit"}
    ours = {"mrjob_version", *calls, *(f"{it}_{kind}" for it in calls for kind in ("wide", "places"))}
    return ours < set(names) and all(is_there(it) == (it in ours) for it in names) or print(names)


def main():
    passed = failed = 0
    for test in (agrees, agrees_with_places, many, threads, shown):
        holds = bool(test())
        print(f"{test.__name__}: {'ok' if holds else 'FAILED'}", flush=True)
        passed, failed = passed + holds, failed + (not holds)
    print(f"{passed} passed, {failed} failed")
    return failed != 0


if __name__ == "__main__":
    sys.exit(main())

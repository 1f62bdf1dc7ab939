#!/usr/bin/env python3
"""Tries the package mrjob_plan over lib/libmrjob.so, by itself and as pip installs it.

    python_package.py [TEST..]          all tests, or those that are named

What is refused with which status and words, at each bound; what is given, answered or raised, copied, pickled,
compared and brought back from other processes; arrays, those of numpy where numpy is there; README's own lines; the
types, where mypy is there; the wheel and the source archive, and what pip makes of them. The last line is 'N passed,
M failed'.
"""
import copy
import ctypes
import multiprocessing
import os
import pickle
import re
import shutil
import signal
import subprocess
import sys
import tempfile
import traceback
import zipfile
from array import array
from concurrent.futures import ProcessPoolExecutor
from pathlib import Path

sys.dont_write_bytecode = True
ROOT = Path(__file__).resolve().parent.parent
sys.path.insert(0, str(ROOT / "python"))
import mrjob_plan
from mrjob_plan import Certified, Cluster, Network, NoMemory, Prices, Refused, Split, Status, Unfit, Worker
from mrjob_plan import arrays, check, library, plan

DEBIAN = "/usr/bin/python3"  # which may have numpy where this Python has none
MOST_SECONDS = 300  # which only a hang takes

CLUSTER = Cluster({"a": Worker("r"), "b": Worker("r")})
SPLITS = {"s": Split(10, ["a"]), "t": Split(20, ["a"])}


def run(*words, **how):
    """The status of a command and what it wrote. Where it hangs it is ended, with all that it started."""
    told = {"stdin": subprocess.DEVNULL, "stdout": subprocess.PIPE, "stderr": subprocess.STDOUT, "text": True}
    ran = subprocess.Popen([str(it) for it in words], start_new_session=True, **told, **how)
    try:
        said = ran.communicate(timeout=MOST_SECONDS)[0]
    except subprocess.TimeoutExpired:
        os.killpg(ran.pid, signal.SIGKILL)
        said = f"{ran.communicate()[0]}{words[0]} hung"
    return ran.returncode, said


def alone(**more):
    """What a command has as its environment that must find no other package and no other library."""
    kept = {name: it for name, it in os.environ.items() if not name.startswith(("PYTHON", "MRJOB", "PIP", "LD_"))}
    return {**kept, "PYTHONDONTWRITEBYTECODE": "1", **more}


def differences(pairs):
    """Whether each pair has two that are equal; those that differ are shown."""
    wrong = [(said, wanted) for said, wanted in pairs if said != wanted]
    for said, wanted in wrong[:5]:
        print(f"  {said!r}, and not {wanted!r}")
    return not wrong


# ---- what is refused ----

FIT = {
    "centres": 1,
    "centre_of": [0],
    "workers": [(0, 1, 1)],
    "splits": [(10, 0, 1, 1)],
    "holders": [0],
    "barred": [(0, 0)],
}
# What is changed of a wave of arrays, the status that a plan and a check answer, and its words.
UNFIT_WAVES = [
    ({"centres": 257}, Status.BAD_RACKS, "257 data centres, at most 256"),
    ({"centres": 2**64}, Status.BAD_RACKS, "18,446,744,073,709,551,616 data centres, at most 256"),
    ({"centres": -1}, Status.BAD_RACKS, "-1 data centres, at least 0"),
    ({"centre_of": [0] * 4097}, Status.BAD_RACKS, "4,097 racks, at most 4,096"),
    ({"centre_of": [0, 1]}, Status.BAD_RACKS, "rack 1: there is no data centre 1 among 1"),
    ({"centre_of": [-1]}, Status.BAD_RACKS, "rack 0: there is no data centre -1 among 1"),
    ({"workers": [(0, 1, 1)] * 32_769}, Status.BAD_WORKERS, "32,769 workers, at most 32,768"),
    ({"workers": [(0, 1, 1), (1, 1, 1)]}, Status.BAD_WORKERS, "worker 1: there is no rack 1 among 1"),
    ({"workers": [(2**16, 1, 1)]}, Status.BAD_WORKERS, "worker 0: there is no rack 65,536 among 1"),
    ({"workers": [(0, 256, 1)]}, Status.BAD_WORKERS, "worker 0: 256 free slots, at most 255"),
    ({"workers": [(0, 2**64, 1)]}, Status.BAD_WORKERS, f"worker 0: {2**64:,} free slots, at most 255"),
    ({"workers": [(0, -1, 1)]}, Status.BAD_WORKERS, "worker 0: -1 free slots, at least 0"),
    ({"workers": [(0, 1, 2**8), (0, 256, -1)]}, Status.BAD_WORKERS, "worker 1: 256 free slots, at most 255"),
    ({"splits": [(0, 0, 0, 0)] * 131_073}, Status.BAD_SPLITS, "131,073 splits, at most 131,072"),
    ({"splits": [(2**33 + 1, 0, 1, 1)]}, Status.BAD_SPLITS, "split 0: 8,589,934,593 bytes, at most 8,589,934,592"),
    ({"splits": [(2**64, 0, 1, 1)]}, Status.BAD_SPLITS, f"split 0: {2**64:,} bytes, at most 8,589,934,592"),
    ({"splits": [(-1, 0, 1, 1)]}, Status.BAD_SPLITS, "split 0: -1 bytes, at least 0"),
    ({"splits": [(10, 0, 17, 1)]}, Status.BAD_SPLITS, "split 0: 17 holders, at most 16"),
    ({"splits": [(10, 0, 2, 1)]}, Status.BAD_SPLITS, "split 0: holders from 0 up to 2, and there are 1"),
    ({"splits": [(10, 2**32, 1, 1)]}, Status.BAD_SPLITS,
     "split 0: holders from 4,294,967,296 up to 4,294,967,297, and there are 1"),
    ({"splits": [(10, 0, 2**16, 1)]}, Status.BAD_SPLITS, "split 0: 65,536 holders, at most 16"),
    ({"barred": [(0, 0), (2**16, 0)]}, Status.BAD_BARRED, "barred pair 1: there is no split 65,536 among 1"),
    ({"barred": [(-1, 0)]}, Status.BAD_BARRED, "barred pair 0: there is no split -1 among 1"),
    ({"barred": [(0, 1)]}, Status.BAD_BARRED, "barred pair 0: there is no worker 1 among 1"),
    ({"barred": [(0, 2**16)]}, Status.BAD_BARRED, "barred pair 0: there is no worker 65,536 among 1"),
    ({"splits": [(0, 0, 0, 0)] * 65_535, "barred": [(65_534, 0), (65_535, 0)]}, Status.BAD_BARRED,
     "barred pair 1: there is no split 65,535 among 65,535"),
    ({"splits": [(0, 0, 0, 0)] * 65_535, "barred": [(65_534, 0), (65_536, 0)]}, Status.BAD_BARRED,
     "barred pair 1: there is no split 65,536 among 65,535"),
    ({"splits": [(0, 0, 0, 0)] * 65_537, "barred": [(65_536, 0), (65_537, 0)]}, Status.BAD_BARRED,
     "barred pair 1: there is no split 65,537 among 65,537"),
    ({"splits": [(0, 0, 0, 0)] * 131_072, "barred": [(131_071, 0), (2**32, 0)]}, Status.BAD_BARRED,
     "barred pair 1: there is no split 4,294,967,296 among 131,072"),
    ({"holders": [2**16]}, Status.BAD_HOLDERS, "split 0, holder: there is no worker 65,536 among 1"),
    ({"holders": [0, 0], "splits": [(1, 0, 2, 1)]}, Status.BAD_HOLDERS, "split 0: worker 0 holds it twice"),
]
WAVE = arrays.Wave(**FIT)


def wave_of(splits, workers):
    """A wave of so many splits of the most bytes on so many workers, with as many as there may be of all else."""
    racks, stands, split = [255] * 4096, [(4095, 255, 2**8)] * workers, (2**33, 0, 16, 2**16)
    return arrays.Wave(256, racks, stands, [split] * splits, range(16), [(splits - 1, workers - 1)])


FREE = arrays.Places([(0, 0)], [])
ONE = (Cluster([Worker(0)]), [Split(10, [0])])
ZERO = Prices([0], [0])
UNFIT_CALLS = [
    (lambda: arrays.plan(WAVE, 2), Status.BAD_NETWORK, "network 2 is neither 0, over racks, nor 1, direct"),
    (lambda: arrays.plan(wave_of(1025, 257), 2), Status.BAD_NETWORK,
     "network 2 is neither 0, over racks, nor 1, direct"),
    (lambda: arrays.plan(wave_of(1025, 257), 1), Status.BAD_NETWORK,
     "1,025 splits for the direct network, at most 1,024"),
    (lambda: arrays.plan(wave_of(65_535, 256), 1), Status.BAD_NETWORK,
     "65,535 splits for the direct network, at most 1,024"),
    (lambda: arrays.plan(wave_of(1024, 257), 1), Status.BAD_NETWORK,
     "257 workers for the direct network, at most 256"),
    (lambda: arrays.plan(wave_of(1, 32_768), 1), Status.BAD_NETWORK,
     "32,768 workers for the direct network, at most 256"),
    (lambda: plan(CLUSTER, [Split(1)] * 1025, Network.DIRECT), Status.BAD_NETWORK,
     "1,025 splits for the direct network, at most 1,024"),
    (lambda: arrays.check(WAVE, [1], [0], [0]), Status.BAD_STARTS, "split 0: there is no worker 1 among 1"),
    (lambda: arrays.check(WAVE, [2**16], [0], [0]), Status.BAD_STARTS, "split 0: there is no worker 65,536 among 1"),
    (lambda: arrays.check(WAVE, [-1], [0], [0]), Status.BAD_STARTS, "split 0: there is no worker -1 among 1"),
    (lambda: arrays.check(WAVE, [0, 0], [0], [0]), Status.BAD_LENGTH, "2 starts, and 1 splits"),
    (lambda: arrays.check(WAVE, [0], [0, 0], [0]), Status.BAD_LENGTH, "2 split prices, and 1 splits"),
    (lambda: arrays.check(WAVE, [0], [0], []), Status.BAD_LENGTH, "0 worker prices, and 1 workers"),
    (lambda: arrays.plan(WAVE, starts=array("H", [0, 0])), Status.BAD_LENGTH, "2 starts, and 1 splits"),
    (lambda: plan(Cluster({"a": Worker("r")}, {"q": "c"}), {}), Status.BAD_WORKERS, "worker 'a': rack 'r' is no rack"),
    (lambda: plan(Cluster([], ["c"], ["d"]), []), Status.BAD_RACKS, "rack 0: centre 'c' is no data centre"),
    (lambda: plan(Cluster({"a": Worker("r", 256)}), {}), Status.BAD_WORKERS,
     "worker 'a': 256 free slots, at most 255"),
    (lambda: plan(CLUSTER, {"blk_7": Split(2**34)}), Status.BAD_SPLITS,
     "split 'blk_7': 17,179,869,184 bytes, at most 8,589,934,592"),
    (lambda: plan(CLUSTER, {"s": Split(1, ["a"] * 17)}), Status.BAD_SPLITS, "split 's': 17 holders, at most 16"),
    (lambda: plan(CLUSTER, {"s": Split(1, ["a", "a"])}), Status.BAD_HOLDERS, "split 's': worker 'a' holds it twice"),
    (lambda: plan(CLUSTER, {"s": Split(1, ["n"])}), Status.BAD_HOLDERS, "split 's': holder 'n' is no worker"),
    (lambda: plan(CLUSTER, {"s": Split(1, barred=["n"])}), Status.BAD_BARRED, "split 's': barred 'n' is no worker"),
    (lambda: arrays.plan(WAVE, 1, places=FREE), Status.BAD_NETWORK,
     "network 1, and where places have prices it is 0, over racks"),
    (lambda: arrays.plan(WAVE, places=arrays.Places([], [])), Status.BAD_PLACES,
     "0 rows of place prices, and 1 workers"),
    (lambda: arrays.plan(WAVE, places=arrays.Places([(0, 256)], [0] * 256)), Status.BAD_PLACES,
     "worker 0: 256 prices of places, at most 255"),
    (lambda: arrays.plan(WAVE, places=arrays.Places([(1, 2)], [0, 0])), Status.BAD_PLACES,
     "worker 0: prices from 1 up to 3, and there are 2"),
    (lambda: arrays.plan(WAVE, places=arrays.Places([(2**32, 1)], [0])), Status.BAD_PLACES,
     "worker 0: prices from 4,294,967,296 up to 4,294,967,297, and there are 1"),
    (lambda: arrays.check(WAVE, [0], [0], [0], arrays.Places([(0, 1)], [2**36 + 1])), Status.BAD_PLACES,
     "worker 0: 68,719,476,737 for a place, at most 68,719,476,736"),
    (lambda: arrays.check(WAVE, [0], [0], [0], arrays.Places([(0, 1)], [-1])), Status.BAD_PLACES,
     "worker 0: -1 for a place, at least 0"),
    (lambda: arrays.check(WAVE, [0], [0], [0], arrays.Places([(0, 3)], [3, 3, 2])), Status.BAD_PLACES,
     "worker 0: a place at 2 after one at 3"),
    (lambda: arrays.check(WAVE, [1], [0], [0], arrays.Places([], [])), Status.BAD_STARTS,
     "split 0: there is no worker 1 among 1"),
    (lambda: plan(CLUSTER, SPLITS, places={"b": [5, 4]}), Status.BAD_PLACES, "worker 'b': a place at 4 after one at 5"),
    (lambda: plan(CLUSTER, SPLITS, places={"n": [5]}), Status.BAD_PLACES, "places: 'n' is no worker"),
    (lambda: plan(CLUSTER, SPLITS, places=[[5]]), Status.BAD_PLACES, "1 rows of place prices, and 2 workers"),
    (lambda: check(CLUSTER, SPLITS, {}, ZERO, places={"a": [2**70]}), Status.BAD_LENGTH,
     "1 split prices, and 2 splits"),
    (lambda: check(CLUSTER, SPLITS, {}, Prices({}, {}), places={"a": [2**70]}), Status.BAD_PLACES,
     f"worker 'a': {2**70:,} for a place, at most 68,719,476,736"),
    (lambda: check(CLUSTER, SPLITS, {"s": "n"}, ZERO), Status.BAD_STARTS, "split 's': worker 'n' is no worker"),
    (lambda: check(CLUSTER, SPLITS, {"x": "a"}, ZERO), Status.BAD_LENGTH, "starts: 'x' is no split"),
    (lambda: check(CLUSTER, SPLITS, {}, Prices({"x": 1}, {})), Status.BAD_LENGTH, "prices: 'x' is no split"),
    (lambda: check(CLUSTER, SPLITS, {}, Prices({}, {"x": 1})), Status.BAD_LENGTH, "prices: 'x' is no worker"),
    (lambda: check(*ONE, [0, 0], ZERO), Status.BAD_LENGTH, "2 starts, and 1 splits"),
    (lambda: check(*ONE, [], ZERO), Status.BAD_LENGTH, "0 starts, and 1 splits"),
]


def refused(call, *kinds):
    """What a call is refused with."""
    try:
        return call()
    except kinds as fault:
        return fault


def statuses():
    """Each status and its words, at each bound, of numbers past their types too, and of names that are none."""
    pairs = []
    for change, status, words in UNFIT_WAVES:
        wave = arrays.Wave(**{**FIT, **change})
        starts, prices, slots = ([0] * len(it) for it in (wave.splits, wave.splits, wave.workers))
        for call in (lambda: arrays.plan(wave), lambda: arrays.check(wave, starts, prices, slots)):
            pairs.append((refused(call, Unfit), Unfit(status, words)))
    pairs += [(refused(call, Unfit), Unfit(status, words)) for call, status, words in UNFIT_CALLS]
    told = re.findall(r"^#define MRJOB_(MAX_\w+|(?:WIDE_)?NONE|VERSION) (\d+)", (ROOT / "include/mrjob.h").read_text(), re.M)
    pairs += [(getattr(library, name), int(value)) for name, value in told]
    return differences([(str(said), str(wanted)) for said, wanted in pairs] + pairs) and len(told) == 14


def bounds():
    """The most of all is planned: the holders start what they have slots for, and the other workers in their rack the
    rest, two steps away."""
    pairs = []
    sizes = [(65_535, 32_768, Network.RACKS), (65_535, 256, Network.RACKS)]
    sizes += [(65_536, 256, Network.RACKS), (131_072, 32_768, Network.RACKS)]
    sizes += [(1024, 256, Network.RACKS), (1024, 256, Network.DIRECT)]
    for splits, workers, network in sizes:
        wave = wave_of(splits, workers)
        best = arrays.plan(wave, network)
        started = min(splits, workers * 255)
        wanted = (started, max(0, started - 16 * 255) * 2 * 2**33)
        pairs += [((best.count, best.cost), wanted), (best.starts[splits - 1] == workers - 1, False)]
        pairs += [(arrays.check(wave, best.starts, best.split_prices, best.worker_prices).condition, None)]
        unpriced = array("Q", best.split_prices)
        unpriced[-1] = 2**64 - 1
        verdict = arrays.check(wave, best.starts, unpriced, best.worker_prices)
        pairs += [((verdict.condition, verdict.split, verdict.worker), (4, splits - 1, None))]
    names = plan(CLUSTER, {f"s{it}": Split(1, ["a"]) for it in range(65_535)})
    return differences([*pairs, ((names.count, names.cost), (2, 2))])


FORMS = [
    (lambda: Split(10, "ab"), "holders are names one by one, and not 'ab'"),
    (lambda: Split(10, barred="ab"), "barred are names one by one, and not 'ab'"),
    (lambda: Cluster([], racks="ab"), "racks are names one by one, and not 'ab'"),
    (lambda: Split(1.5), "'float' object cannot be interpreted as an integer"),
    (lambda: Worker("r", "2"), "'str' object cannot be interpreted as an integer"),
    (lambda: arrays.Wave(**{**FIT, "workers": [(0, 1)]}), "workers[0] is (0, 1): it does not have rack, free, live"),
    (lambda: arrays.Wave(**{**FIT, "workers": [(0, 1, 1), (0, 1, 1, 1)]}),
     "workers[1] is (0, 1, 1, 1): it does not have rack, free, live"),
    (lambda: arrays.Wave(**{**FIT, "holders": [0, 0.5]}),
     "holders[1] is 0.5: 'float' object cannot be interpreted as an integer"),
    (lambda: arrays.Wave(**{**FIT, "holders": "0"}),
     "holders[0] is '0': 'str' object cannot be interpreted as an integer"),
    (lambda: check(CLUSTER, SPLITS, {}, Prices({"t": 1.5}, {})),
     "split_prices[1] is 1.5: 'float' object cannot be interpreted as an integer"),
    (lambda: arrays.plan(WAVE, starts=[0]),
     "starts is no array that can be lent and written, of unsigned numbers of 16 bits"),
    (lambda: arrays.plan(WAVE, split_prices=array("q", [0])),
     "split_prices is no array that can be lent and written, of unsigned numbers of 64 bits"),
    (lambda: arrays.plan(WAVE, worker_prices=memoryview(bytes(8)).cast("Q")),
     "worker_prices is no array that can be lent and written, of unsigned numbers of 64 bits"),
]


def forms():
    """What has another form than it should is refused by words that say where, and outputs that overlap are."""
    pairs = [(str(refused(call, TypeError)), words) for call, words in FORMS]
    shared, holders = array("Q", [7]), array("H", [0])
    wave = arrays.Wave(**{**FIT, "holders": holders})
    calls = [
        (lambda: arrays.plan(WAVE, split_prices=shared, worker_prices=shared),
         "split_prices and worker_prices share memory, and split_prices is to be written"),
        (lambda: arrays.plan(wave, starts=holders), "starts and holders share memory, and starts is to be written"),
    ]
    pairs += [(str(refused(call, ValueError)), words) for call, words in calls]
    return differences([*pairs, (shared, array("Q", [7])), (holders, array("H", [0]))])


# ---- what is given, answered and raised ----


def values():
    """One of each kind of value, all different."""
    best = plan(CLUSTER, SPLITS)
    out_of_type = arrays.Wave(**{**FIT, "splits": [(2**70, 0, 1, 1)]})
    priced = arrays.Wave(**{**FIT, "barred": []})
    lent = arrays.Wave(1, array("H", [0]), (library.WorkerRow * 1)((0, 1, 1)), FIT["splits"], [])
    return [
        Worker("r"), Worker("r", 2), SPLITS["s"], SPLITS["t"], CLUSTER, Cluster([Worker("r")], ["c"], ["c"]),
        best, best.prices, Certified(2, 20), Refused(6, "s", "a"), Refused(8, None, "a"), Unfit(Status.BAD_SPLITS),
        Unfit(Status.BAD_SPLITS, "split 's': -1 bytes"), NoMemory(), WAVE, out_of_type, lent, arrays.plan(WAVE),
        arrays.check(WAVE, [None], [0], [0]), arrays.check(WAVE, [0], [0], [0]), FREE, arrays.Places([(0, 1)], [2**70]),
        Certified(2, 20, 3), arrays.plan(priced, places=arrays.Places([(0, 1)], [7])), *Status, *Network,
    ]  # fmt: skip


def by_value():
    """Each value is equal to itself copied and pickled by each protocol, and to no other; each shows what it is."""
    ways = [copy.copy, copy.deepcopy]
    ways += [lambda it, way=way: pickle.loads(pickle.dumps(it, way)) for way in range(pickle.HIGHEST_PROTOCOL + 1)]
    pairs = []
    for given, again in zip(values(), values()):
        same = [given, again, *(way(given) for way in ways)]
        pairs += [((type(it), it, str(it), repr(it)), (type(given), given, str(given), repr(given))) for it in same]
        pairs += [(isinstance(given, Unfit) and it.status, isinstance(given, Unfit) and given.status) for it in same]
    every = [it for it in values() if not isinstance(it, int)]
    pairs += [(a == b, a is b) for a in every for b in every]
    split = Split(10, ["a"])
    pairs += [
        (split, Split(10, ("a",))),
        ({split: 1, Worker("r"): 2}[Split(10, ["a"])], 1),
        (repr(split), "Split(bytes=10, holders=('a',), pending=True, barred=())"),
        (repr(WAVE), "<Wave of 1 centres, 1 racks, 1 workers, 1 splits, 1 holders, 1 barred>"),
        (repr(Unfit(Status.BAD_RACKS, "9")), "Unfit(<Status.BAD_RACKS: 2>, '9')"),
        (str(Refused(8, None, "a")), "C8 fails at worker 'a': a worker with a slot left has a price"),
        (bool(Refused(8, None, "a")), False),
        (bool(Certified(0, 0)), True),
        (str(arrays.Verdict(2, 20, None, None, None)), "certified: 2 starts at byte-distance 20"),
        (str(arrays.Verdict(2, 20, None, None, None, 3)),
         "certified: 2 starts at byte-distance 20 in places that cost 3"),
        (repr(FREE), "<Places of 1 workers, 0 prices>"),
    ]
    return differences(pairs)


def verdicts():
    """A check is true where it certifies, and false with the condition and its place where it does not."""
    best = plan(CLUSTER, SPLITS)
    nearest, prices = {"s": "a", "t": "b"}, Prices({"s": 101, "t": 91}, {"a": 30, "b": 0})
    by_number = arrays.Wave(1, [0], [(0, 1, 1)] * 2, [(10, 0, 1, 1), (20, 0, 1, 1)], [0])
    refusal = arrays.check(by_number, [0, 1], [101, 91], [30, 0])
    return differences([
        (check(CLUSTER, SPLITS, best.starts, best.prices), Certified(2, 20)),
        (check(CLUSTER, SPLITS, nearest, prices), Refused(6, "s", "a")),
        (str(check(CLUSTER, SPLITS, nearest, prices)),
         "C6 fails at split 's' and worker 'a': the prices of a pair that starts are too high"),
        (bool(arrays.check(by_number, [1, 0], [101, 101], [20, 0])), True),
        ((bool(refusal), refusal.condition, refusal.split, refusal.worker), (False, 6, 0, 0)),
        (str(refusal), "C6 fails at split 0 and worker 0: the prices of a pair that starts are too high"),
    ])  # fmt: skip


def priced_places():
    """Where the second place of a worker costs more than the way to another one, and where it does not; by names, by
    numbers, and by arrays that are lent."""
    cluster, numbered = Cluster({"a": Worker("r", 2), "b": Worker("r", 2)}), Cluster([Worker(0, 2), Worker(0, 2)])
    splits, pairs = {"s": Split(10, ["a"]), "t": Split(20, ["a"])}, []
    for second, starts, cost, taken in ((24, {"s": "a", "t": "a"}, 0, 24), (26, {"s": "b", "t": "a"}, 20, 5)):
        places = {"a": [0, second], "b": (5,)}
        best = plan(cluster, splits, places=places)
        pairs += [((best.starts, best.count, best.cost, best.places), (starts, 2, cost, taken))]
        pairs += [(check(cluster, splits, best.starts, best.prices, places=places), Certified(2, cost, taken))]
        by_number = plan(numbered, [Split(10, [0]), Split(20, [0])], places=[[0, second], [5]])
        numbers = {"a": 0, "b": 1}
        pairs += [([*by_number.starts.values()], [numbers[it] for it in starts.values()])]
    wave = arrays.Wave(1, [0], [(0, 2, 1)] * 2, [(10, 0, 1, 1), (20, 0, 1, 1)], [0], [(0, 1)])
    prices = array("Q", [0, 26, 5])
    rows = (library.PlaceRow * 2)((0, 2), (2, 1))
    places = arrays.Places(rows, prices)
    best = arrays.plan(wave, places=places)
    pairs += [(([*best.starts], best.cost, best.places), ([0, 0], 0, 26))]
    given = best.starts, best.split_prices, best.worker_prices
    pairs += [(arrays.check(wave, *given, places), arrays.Verdict(2, 0, None, None, None, 26))]
    prices[1] = 30  # (in the memory that is lent)
    pairs += [(arrays.check(wave, *given, places).condition is None, False)]
    shared = refused(lambda: arrays.plan(wave, split_prices=prices, places=places), ValueError)
    pairs += [(str(shared), "split_prices and place_prices share memory, and split_prices is to be written")]
    unfree = Prices({"s": 151, "t": 151}, {"a": 30, "b": 10})
    pairs += [(bool(check(cluster, splits, {"s": "b", "t": "a"}, unfree)), False)]
    return differences(pairs)


def work(size):
    """What a process of a pool is asked for."""
    return plan(CLUSTER, {"s": Split(size, ["a"])})


def in_pools():
    """What is raised in another process comes back as it is: run alone, since it hung where that could not be."""
    unfit = Unfit(Status.BAD_SPLITS, "split 's': 8,589,934,593 bytes, at most 8,589,934,592")
    with multiprocessing.Pool(2) as pool:
        pairs = [(refused(lambda: pool.map(work, [1, 2**33 + 1]), Unfit), unfit), (pool.map(work, [7]), [work(7)])]
    with ProcessPoolExecutor(2) as pool:
        pairs += [(refused(lambda: [*pool.map(work, [1, 2**33 + 1])], Unfit), unfit)]
        pairs += [([*pool.map(work, [7])], [work(7)])]
    return differences(pairs)


def pools():
    status, said = run(sys.executable, __file__, "in_pools")
    return status == 0 or print(said)


def new_arrays():
    """Arrays of the module array and of ctypes are lent, read and written; others are copied."""
    numbers, rows = array("H", [0]), (library.WorkerRow * 2)((0, 1, 1), (0, 1, 1))
    splits = (library.SplitRow * 2)((10, 0, 1, 1), (20, 0, 1, 1))
    wave = arrays.Wave(1, numbers, rows, splits, array("H", [0]))
    starts, prices, slots = (ctypes.c_uint16 * 2)(), array("Q", [0, 0]), (ctypes.c_uint64 * 2)()
    best = arrays.plan(wave, starts=starts, split_prices=prices, worker_prices=slots)
    pairs = [(best.starts is starts and best.split_prices is prices, True), ([*starts, *slots], [1, 0, 20, 0])]
    pairs += [(prices, array("Q", [101, 101])), (bool(arrays.check(wave, starts, prices, slots)), True)]
    splits[0].bytes = 30  # (in the memory that the wave lends)
    pairs += [([*arrays.plan(wave).starts], [0, 1]), (refused(lambda: numbers.append(0), BufferError) is None, False)]
    other = arrays.Wave(1, array("q", [0]), [(0, 1, True)] * 2, [(30, 0, 1, 1), (20, 0, 1, 1)], (0,))
    return differences([*pairs, (other, wave), (arrays.plan(other), arrays.plan(wave))])


# ---- numpy ----


def numpy_arrays():
    """Arrays of numpy: those of the very type are lent, others are copied by names and within bounds."""
    try:
        import numpy
    except ImportError:
        if os.path.exists(DEBIAN) and run(DEBIAN, "-c", "import numpy", env=alone(), cwd="/")[0] == 0:
            status, said = run(DEBIAN, __file__, "numpy_arrays")
            return status == 0 or print(said)
        print("without numpy, no array of numpy was taken")
        return True
    workers, splits = numpy.zeros(2, arrays.WORKER), numpy.zeros(2, arrays.SPLIT)
    workers["free"] = workers["live"] = 1
    splits["bytes"], splits["first_holder"] = [10, 20], [0, 1]
    splits["holder_count"] = splits["pending"] = 1
    numbers = lambda *given: numpy.array(given, "u2")
    given = {"centres": 1, "centre_of": numbers(0), "workers": workers, "splits": splits, "holders": numbers(0, 0)}
    wave = arrays.Wave(**given, barred=numpy.zeros(0, arrays.PAIR))
    starts, prices, slots = numpy.zeros(2, "u2"), numpy.zeros(2, "u8"), numpy.zeros(2, "u8")
    best = arrays.plan(wave, starts=starts, split_prices=prices, worker_prices=slots)
    pairs = [(best.starts is starts, True), ([*starts], [1, 0]), ((best.count, best.cost), (2, 20))]
    pairs += [(pickle.loads(pickle.dumps(best)), best), (copy.deepcopy(wave), wave)]
    # those of other types, in another order, with gaps and not to be written
    pair = [("worker", "<u2"), ("split", "<u2")]
    changes = [
        {"workers": workers[["live", "rack", "free"]]},
        {"workers": numpy.array([(True, 0, 1)] * 2, [("live", "?"), ("rack", "i8"), ("free", "i4")])},
        {"workers": numpy.array([[0, 1, 1]] * 2)},
        {"workers": [*workers]},
        {"splits": numpy.repeat(splits, 2)[::2]},
        {"splits": numpy.array([it[::-1] for it in splits.tolist()], [(it, ">i8") for it, _ in arrays.SPLIT[::-1]])},
        {"holders": numpy.zeros(2, "i8")},
        {"holders": numpy.frombuffer(bytes(4), "u2")},
        {"barred": numpy.zeros(0, pair)},
    ]
    pairs += [(arrays.Wave(**{**given, **change}), wave) for change in changes]
    barred = numpy.array([(1, 0)], pair)
    pairs += [(arrays.plan(arrays.Wave(**given, barred=it)).starts, array("H", [0, 1])) for it in (barred, [*barred])]
    for other in (prices.astype("i8"), prices.astype("u4"), numpy.repeat(prices, 2)[::2], prices.tolist()):
        pairs += [(bool(arrays.check(wave, starts.astype("i8"), other, slots)), True)]
        pairs += [(type(refused(lambda: arrays.plan(wave, split_prices=other), TypeError)), TypeError)]
    starts_past = refused(lambda: arrays.check(wave, numpy.array([0, -1]), prices, slots), Unfit)
    pairs += [(str(starts_past), "split 1: there is no worker -1 among 2")]
    past = refused(lambda: arrays.plan(arrays.Wave(**{**given, "holders": numpy.array([0, 70000])})), Unfit)
    pairs += [(str(past), "split 1, holder: there is no worker 70,000 among 2")]
    for change in ({"holders": numpy.zeros(2)}, {"workers": splits}, {"holders": workers}, {"workers": numbers(0)},
                   {"holders": numpy.zeros((2, 1), "u2")}):  # fmt: skip
        pairs += [(type(refused(lambda: arrays.Wave(**{**given, **change}), TypeError)), TypeError)]
    both = numpy.zeros(3, "u8")
    overlap = refused(lambda: arrays.plan(wave, split_prices=both[:2], worker_prices=both[1:]), ValueError)
    pairs += [(str(overlap), "split_prices and worker_prices share memory, and split_prices is to be written")]
    return differences(pairs)


# ---- documents and types ----


def blocks():
    """README's lines of Python, and those of the package's own README, but for live masters (live_master.py)."""
    begin = r"^    from mrjob_plan import.*\n(?:    .*\n|\n(?=    ))*"
    found = [re.sub(r"^    ", "", it, flags=re.M) for it in re.findall(begin, (ROOT / "README.md").read_text(), re.M)]
    found += re.findall(r"```python\n(.*?)```", (ROOT / "python/README.md").read_text(), re.S)
    return [it for it in found if "mrjob_plan.master" not in it]


def printed(block):
    """What a block's comments say that it prints."""
    return "".join(f"{it}\n" for it in re.findall(r"^ *print\(.*?\)  +# (.*)$", block, re.M))


def documents():
    """Each block runs as it stands, and prints what its comments say."""
    how = {"env": alone(PYTHONPATH=str(ROOT / "python")), "cwd": "/"}
    pairs = [(run(sys.executable, "-c", block, **how), (0, printed(block))) for block in blocks()]
    return differences([*pairs, (len(pairs), 3)])


TYPES = """
from mrjob_plan import Cluster, Prices, Split, Worker, check, plan

cluster = Cluster({"a": Worker("r")})
splits = {7: Split(1), 8: Split(2, ["a"])}
best = plan(cluster, splits)
reveal_type(best.starts)  # Dict[int, str]
reveal_type(best.prices.workers["a"])  # int
reveal_type(plan(Cluster([Worker("r")]), [Split(1)]).starts)  # Dict[int, int]
verdict = check(cluster, splits, {7: None, 8: "a"}, Prices([1, 2], {"a": 0}))
if not verdict:
    reveal_type(verdict.split)  # Union[int, None]
reveal_type(verdict.cost if verdict else 0)  # int
reveal_type(plan(cluster, splits, places={"a": [0, 5]}).places)  # int
check(cluster, splits, {8: 3}, best.prices)  # error
check(cluster, splits, {"s": "a"}, best.prices)  # error
plan(cluster, {"s": 10})  # error
plan(cluster, splits, places={"a": 5})  # error
plan(cluster, splits, places={7: [5]})  # error
"""


def types():
    """mypy finds nothing in the package, the example and the documents, and it finds names of another type."""
    if shutil.which("mypy") is None:
        print("mypy is not there, so no types were checked")
        return True
    with tempfile.TemporaryDirectory() as room:
        files = [Path(room) / f"block_{number}.py" for number in range(len(blocks()))]
        for path, block in zip(files, blocks()):
            path.write_text(block)
        made = Path(room) / "typed.py"
        made.write_text(TYPES)
        words = ["mypy", "--strict", "--cache-dir", f"{room}/cache"]
        how = {"env": alone(MYPYPATH=str(ROOT / "python"))}
        status, said = run(*words, ROOT / "python/mrjob_plan", ROOT / "examples/python/plan.py", *files, **how)
        _, told = run(*words, made, **how)
    said_of = dict(re.findall(r"typed\.py:(\d+): (?:note: Revealed type is \"(?=.*\")|(?=error))(.*)", told))
    pairs = [(status, 0)]
    for number, line in enumerate(TYPES.split("\n"), 1):
        if "  # " in line:
            found = re.sub(r"builtins\.|typing\.|\"$", "", said_of.get(str(number), ""))
            wanted = line.split("  # ")[1]
            pairs.append((found.partition(":")[0] if wanted == "error" else found.replace("dict[", "Dict["), wanted))
    return differences(pairs) or print(said, told)


# ---- packages ----


def made(folder, *words, **more):
    """The names of what the backend makes in a folder."""
    status, said = run(sys.executable, ROOT / "python/backend.py", folder, *words, env=alone(**more))
    return sorted(said.split()) if status == 0 else print(said)


def wheel():
    """Two builds give the same bytes, with license, readme and the one version, and the tag that the library wants."""
    with tempfile.TemporaryDirectory() as room:
        rooms = [Path(room) / it for it in ("1", "2", "dated")]
        names = [made(it, **more) for it, more in zip(rooms, ({}, {}, {"SOURCE_DATE_EPOCH": "1000000000"}))]
        content = [[(it / name).read_bytes() for name in names[0]] for it in rooms]
        with zipfile.ZipFile(next(rooms[0].glob("*.whl"))) as archive:
            files = {it.filename: archive.read(it) for it in archive.infolist()}
            modes = {it.external_attr >> 16 for it in archive.infolist()}
        with zipfile.ZipFile(next(rooms[2].glob("*.whl"))) as archive:
            dates = {it.date_time for it in archive.infolist()}
    version = (ROOT / "VERSION").read_text().strip()
    head, _, readme = files[f"mrjob_plan-{version}.dist-info/METADATA"].decode().partition("\n\n")
    pairs = [
        (content[0] == content[1], True),
        (any(a == b for a, b in zip(content[0], content[2])), False),
        (dates, {(2001, 9, 9, 1, 46, 40)}),
        (modes, {0o644, 0o755}),
        (files[f"mrjob_plan-{version}.dist-info/LICENSE"], (ROOT / "LICENSE").read_bytes()),
        (readme, (ROOT / "python/README.md").read_text()),
        (f"\nVersion: {version}\n" in head and "\nLicense: MIT\n" in head, True),
        (mrjob_plan.__version__, version),
        (files[f"mrjob_plan/{library.NAME}"], (ROOT / "lib" / library.NAME).read_bytes()),
    ]
    return differences(pairs) and tag(next(it for it in names[0] if it.endswith(".whl")))


def another_checkout():
    """Where there is no library the wheel has Python alone; what pyproject.toml names as URLs it tells."""
    with tempfile.TemporaryDirectory() as room:
        shutil.copytree(ROOT / "python", f"{room}/python")
        for name in ("LICENSE", "VERSION"):
            shutil.copy(ROOT / name, room)
        with open(f"{room}/python/pyproject.toml", "a") as project:
            project.write('\n[project.urls]\nSource = "https://example.org/mrjob"\n')
        said = run(sys.executable, f"{room}/python/backend.py", f"{room}/dist", env=alone())
        name = f"mrjob_plan-{mrjob_plan.__version__}"
        with zipfile.ZipFile(f"{room}/dist/{name}-py3-none-any.whl") as archive:
            metadata, names = archive.read(f"{name}.dist-info/METADATA").decode(), archive.namelist()
    return differences([
        (said, (0, f"{name}-py3-none-any.whl\n{name}.tar.gz\n")),
        ("\nProject-URL: Source, https://example.org/mrjob\n" in metadata, True),
        ([it for it in names if ".so" in it], []),
    ])  # fmt: skip


def tag(name):
    """The wheel's tag has the least glibc that its library's symbols allow, and the library wants no other library."""
    if shutil.which("readelf") is None:
        print("readelf is not there, so the wheel's tag was not checked")
        return True
    versions = run("readelf", "-W", "--version-info", ROOT / "lib" / library.NAME)[1]
    wanted = max(tuple(map(int, it.split("."))) for it in re.findall(r"Name: GLIBC_([\d.]+)", versions))
    told = re.search(r"-py3-none-manylinux_(\d+)_(\d+)_x86_64[.\w]*\.whl$", name)
    needs = re.findall(r"NEEDED.*\[(.*)\]", run("readelf", "-W", "--dynamic", ROOT / "lib" / library.NAME)[1])
    return (wanted <= (int(told[1]), int(told[2])) and needs == ["libc.so.6"]) or print(name, wanted, needs)


NO_LIBRARY = """
from mrjob_plan import *
print(Split(1).bytes)
try:
    plan(Cluster([]), [])
except ImportError as why:
    print(why)
"""


def installed():
    """The example, over what pip makes of the folder, the wheel, the folder left in place, and the source archive."""
    wanted = (ROOT / "examples/library.out").read_text()
    with tempfile.TemporaryDirectory() as room:
        python, names, pairs = f"{room}/venv/bin/python", made(room), []
        if run(sys.executable, "-m", "venv", f"{room}/venv", env=alone())[0]:
            print("without venv and pip, the package was not installed")
            return True
        pip = lambda *words: run(python, "-m", "pip", "--quiet", *words, env=alone(PIP_NO_INDEX="1"), cwd="/")
        example = lambda **more: run(python, ROOT / "examples/python/plan.py", env=alone(**more), cwd="/")
        wheel, archive = (next(f"{room}/{it}" for it in names if it.endswith(end)) for end in (".whl", ".tar.gz"))
        version = lambda: run(python, "-c", "import mrjob_plan as it; print(it.__version__)", env=alone(), cwd="/")
        for words in ([ROOT / "python"], [wheel], ["-e", ROOT / "python"]):
            pairs += [(pip("install", *words), (0, "")), (example(), (0, wanted))]
            pairs += [(version(), (0, (ROOT / "VERSION").read_text()))]
            pairs += [(run(python, "-c", it, env=alone(), cwd="/"), (0, printed(it))) for it in blocks()]
            pairs += [(pip("uninstall", "--yes", "mrjob-plan"), (0, ""))]
        # (what is made of the source archive has no library)
        pairs += [(pip("install", archive), (0, ""))]
        pairs += [(example(MRJOB_LIBRARY=str(ROOT / "lib" / library.NAME)), (0, wanted))]
        status, said = run(python, "-c", NO_LIBRARY, env=alone(MRJOB_LIBRARY=f"{room}/none.so"), cwd="/")
        way = "`make library` makes it, and MRJOB_LIBRARY may say where it is"
        pairs += [((status, said.partition(" (")[0]), (0, f"1\n{library.NAME} is not there: {way}"))]
        return differences([*pairs, (said.count("\n"), 2)])


TESTS = [statuses, bounds, forms, by_value, verdicts, priced_places, pools, new_arrays, numpy_arrays, documents, types]
TESTS += [wheel, another_checkout, installed]


def main():
    chosen = [globals()[it] for it in sys.argv[1:]] or TESTS
    passed = failed = 0
    for test in chosen:
        try:
            holds = bool(test())
        except Exception:
            traceback.print_exc()
            holds = False
        print(f"{test.__name__}: {'ok' if holds else 'FAILED'}", flush=True)
        passed, failed = passed + holds, failed + (not holds)
    print(f"{passed} passed, {failed} failed")
    return failed != 0


if __name__ == "__main__":
    sys.exit(main())

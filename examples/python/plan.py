#!/usr/bin/env python3
"""Plans two small waves by libmrjob, and checks plans.

From the top of the repository, after `make library`:
    PYTHONPATH=python python3 examples/python/plan.py
or, after `pip install ./python`, without the path.
"""
from typing import Any, Union

from mrjob_plan import Certified, Cluster, Prices, Refused, Split, Worker, check, plan


def shown(verdict: Union[Certified, Refused[Any, Any]]) -> str:
    if verdict:
        return f"certified {verdict.count} {verdict.cost}"
    return f"refused C{verdict.condition} {verdict.split} {verdict.worker}"


def plan_two() -> None:
    """Two splits that both lie on one of two workers, which has one slot."""
    cluster = Cluster(workers={"a": Worker("r"), "b": Worker("r")})
    splits = {"s": Split(10, ["a"]), "t": Split(20, ["a"])}
    best = plan(cluster, splits)
    print(f"{best.count} splits start at byte-distance {best.cost}")
    for split, worker in best.starts.items():
        print(split, "on", worker)
    print(shown(check(cluster, splits, best.starts, best.prices)))
    # each split in turn on its nearest free worker
    nearest = {"s": "a", "t": "b"}
    prices = Prices(splits={"s": 101, "t": 91}, workers={"a": 30, "b": 0})
    print(shown(check(cluster, splits, nearest, prices)))


def plan_many() -> None:
    """1,024 splits of many sizes, which lie on 64 of 256 workers in two data centres."""
    cluster = Cluster(
        workers=[Worker(rack=w % 32, free=3 + w % 4) for w in range(256)],
        racks=[rack % 2 for rack in range(32)],
    )
    splits = [
        Split(1 + 7919 * s % 1024 * 65535, [(5 * s + 21 * k) % 64 for k in range(3)]) for s in range(1024)
    ]
    best = plan(cluster, splits)
    print(f"{best.count} splits start at byte-distance {best.cost}")
    print(shown(check(cluster, splits, best.starts, best.prices)))


plan_two()
plan_many()

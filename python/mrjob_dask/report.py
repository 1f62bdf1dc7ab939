"""What a job did: its progress on a terminal, and a report of lines of JSON."""
from __future__ import annotations

import json
import sys
from collections import Counter
from typing import Any

from .calls import sent
from .job import Job
from .placing import Placing
from .planner import distance


def progress(job: Job) -> None:
    """One line on a terminal, written over and over."""
    if sys.stderr.isatty():
        print(
            f"\rwave {len(job.waves)}, maps {len(job.maps) - len(job.running)} of {len(job.splits.bytes)}, begun"
            f" {len(job.attempts)}, parts {len(job.results)} of {job.work.parts} ", end="", file=sys.stderr, flush=True,
        )


def outputs_carried(job: Job) -> dict[int, int]:
    """The bytes of map outputs that workers who still live sent one another, by distance."""
    places = job.topology.known
    carried: Counter[int] = Counter()
    for key, sender, receiver, size in sent(job.client):
        if key.startswith(job.part_key) and receiver in places:
            carried[distance(places, sender, receiver)] += size
    return dict(sorted(carried.items()))


def blocks_carried(job: Placing) -> dict[int, int]:
    """The bytes of the blocks that maps were to read, by distance; 0 is a read on a holder."""
    carried: Counter[int] = Counter()
    for it in job.attempts:
        carried[it.steps] += job.splits.bytes[it.split]
    return dict(sorted(carried.items()))


def report_lines(job: Job) -> list[str]:
    """A line for each wave, for each start, and for the whole."""
    name = job.names
    rows: list[dict[str, Any]] = [
        dict(wave=number, pending=it.pending, slots=sum(it.slots.values()), starts=len(it.attempts), cost=it.cost)
        for number, it in enumerate(job.waves, 1)
    ]
    rows += [
        dict(attempt=it.number, wave=it.wave, split=it.split, worker=name[it.worker], source=name[it.source],
             distance=it.steps, bytes=job.splits.bytes[it.split], end=it.end)
        for it in job.attempts
    ]
    ends = Counter(it.end for it in job.attempts)
    rows.append(
        dict(waves=len(job.waves), starts=len(job.attempts), lost=ends["lost"], failed=ends["failed"],
             cost=sum(it.cost for it in job.waves), copies=job.copies, backups=sum(it.wave == 0 for it in job.attempts),
             blocks_carried=blocks_carried(job), outputs_carried=outputs_carried(job))
    )
    return [json.dumps(row) for row in rows]

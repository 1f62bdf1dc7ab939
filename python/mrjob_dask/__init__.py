"""Map tasks of a Dask cluster, each started where a best plan puts it: as many as slots are free, at the least
byte-distance (bytes times the steps that they go).

    futures = place(client, tasks, holders, bytes, racks)       of delayed objects
    futures = place_map(client, function, futures)              of keys on the cluster
    results = Job(client, Files(client, {"node": paths}), Work(map, reduce, parts)).run()

The client looks at the cluster, asks a planner for a wave, or for a job the live master `mrjob serve`, and starts each
task on its worker alone. Nothing is installed on the cluster; what is sent to it is sent whole.
"""
import sys

import cloudpickle

from .blocks import Blocks, Splits
from .files import Files, Row, read_mounted, read_table, read_web
from .job import Job, Work
from .keys import Keys
from .pending import Place
from .place import place, place_map
from .placing import DeadlySplit, LostBlock, Placing
from .planner import Command, Library, NoPlanner, Planner, RarestFirst, Unfit, planner_of
from .topology import GuessedRacks

__all__ = ["place", "place_map", "Job", "Work", "Placing", "Blocks", "Splits", "Keys", "Files", "Row", "read_table"]
__all__ += ["read_mounted", "read_web", "Place", "Planner", "Command", "Library", "RarestFirst", "planner_of"]
__all__ += ["GuessedRacks", "LostBlock", "DeadlySplit", "Unfit", "NoPlanner"]

cloudpickle.register_pickle_by_value(sys.modules[__name__])

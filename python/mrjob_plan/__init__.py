"""Waves of map tasks, planned and checked by functions that are proved: libmrjob from Python, by ctypes.

    cluster = Cluster(workers={"a": Worker("r"), "b": Worker("r")})
    splits = {"s": Split(10, ["a"]), "t": Split(20, ["a"])}
    best = plan(cluster, splits)
    best.starts                                             {'s': 'b', 't': 'a'}
    check(cluster, splits, best.starts, best.prices)        Certified(count=2, cost=20, places=0), which is true

Names are any keys; sequences in place of mappings go by number. `mrjob_plan.arrays` has the same over arrays, those
of numpy without a copy. Calls raise Unfit or NoMemory where they have no answer, and ImportError where the library is
not there; any number of threads may call. What is given, answered or raised is equal by value, and can be copied and
pickled.
"""
from pathlib import Path

from .arrays import Network
from .clusters import Certified, Cluster, Plan, Prices, Refused, Split, Worker, check, plan
from .faults import NoMemory, Status, Unfit

__all__ = ["Certified", "Cluster", "Network", "Plan", "Prices", "Refused", "Split", "Worker", "check", "plan"]
__all__ += ["NoMemory", "Status", "Unfit", "__version__"]


def version() -> str:
    """The number in the file VERSION, which lies in the package where pip put it, or at the top of the checkout."""
    here = Path(__file__).resolve().parent
    places = (here / "VERSION", here.parent.parent / "VERSION")
    return next((it.read_text().strip() for it in places if it.exists()), "unknown")


__version__ = version()

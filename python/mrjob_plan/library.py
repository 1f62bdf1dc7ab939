"""The library itself: its bounds, and how its structs lie in memory (mrjob.h)."""
import ctypes
import os
from ctypes import POINTER, Structure, c_size_t, c_uint8, c_uint16, c_uint32, c_uint64, c_void_p
from functools import lru_cache
from pathlib import Path

VERSION = 1
NAME = f"libmrjob.so.{VERSION}"

MAX_CENTRES = 256
MAX_RACKS = 4096
MAX_WORKERS = 32768
# Of a wave whose barred pairs have numbers of 16 bits, and of a wide one, whose pairs have numbers of 32.
MAX_SPLITS = 65535
MAX_WIDE_SPLITS = 131072
# Of a plan over the direct network.
MAX_DIRECT_SPLITS = 1024
MAX_DIRECT_WORKERS = 256
MAX_HOLDERS = 16
MAX_SLOTS = 255
MAX_BYTES = 8589934592
# Of one place.
MAX_PLACE_PRICE = 68719476736
# In a place of a worker or a split: none. Workers and splits are numbered below it.
NONE = 65535
# The same in the verdict of a wide wave.
WIDE_NONE = 4294967295


class WorkerRow(Structure):
    _fields_ = [("rack", c_uint16), ("free", c_uint8), ("live", c_uint8)]


class SplitRow(Structure):
    _fields_ = [("bytes", c_uint64), ("first_holder", c_uint32), ("holder_count", c_uint16), ("pending", c_uint16)]


class PairRow(Structure):
    _fields_ = [("split", c_uint16), ("worker", c_uint16)]


class WidePairRow(Structure):
    _fields_ = [("split", c_uint32), ("worker", c_uint32)]


class PlaceRow(Structure):
    _fields_ = [("first_price", c_uint32), ("price_count", c_uint32)]


class PlaceRows(Structure):
    _fields_ = [
        (f"{name}_{part}", kind)
        for name in ("rows", "prices")
        for part, kind in (("address", c_void_p), ("length", c_size_t))
    ]


class WaveRows(Structure):
    """Of a narrow or a wide wave, which differ in what the address of the barred pairs leads to."""

    _fields_ = [("centres", c_size_t)] + [
        (f"{name}_{part}", kind)
        for name in ("centre_of", "workers", "splits", "holders", "barred")
        for part, kind in (("address", c_void_p), ("length", c_size_t))
    ]


class Total(Structure):
    count: int
    cost: int
    _fields_ = [("count", c_uint64), ("cost", c_uint64)]


class PlacesTotal(Total):
    places: int
    _fields_ = [("places", c_uint64)]


class VerdictRow(Structure):
    count: int
    cost: int
    condition: int
    split: int
    worker: int
    _fields_ = [*Total._fields_, ("condition", c_uint32), ("split", c_uint16), ("worker", c_uint16)]


class WideVerdictRow(Structure):
    count: int
    cost: int
    condition: int
    split: int
    worker: int
    _fields_ = [*Total._fields_, ("condition", c_uint32), ("split", c_uint32), ("worker", c_uint32)]


class PlacesVerdictRow(Structure):
    count: int
    cost: int
    places: int
    condition: int
    split: int
    worker: int
    _fields_ = [
        *Total._fields_,
        ("places", c_uint64),
        ("condition", c_uint32),
        ("split", c_uint32),
        ("worker", c_uint32),
    ]


def place() -> str:
    """Where the library is: where MRJOB_LIBRARY says; else in the package, or in the lib/ of the checkout that the
    package stands in, or among the libraries that are installed."""
    if "MRJOB_LIBRARY" in os.environ:
        return os.environ["MRJOB_LIBRARY"]
    here = Path(__file__).resolve().parent
    return next((str(it) for it in (here / NAME, here.parent.parent / "lib" / NAME) if it.exists()), NAME)


@lru_cache(maxsize=None)
def load() -> ctypes.CDLL:
    """The library, which the first call loads, or an ImportError."""
    try:
        # (a call of a CDLL lets go of the interpreter's lock)
        library = ctypes.CDLL(place())
    except OSError as why:
        words = f"{NAME} is not there: `make library` makes it, and MRJOB_LIBRARY may say where it is ({why})"
        raise ImportError(words) from None
    library.mrjob_version.restype = c_uint32
    if library.mrjob_version() != VERSION:
        raise ImportError(f"{place()} has version {library.mrjob_version()}, and this package wants {VERSION}")
    array = [c_void_p, c_size_t]
    for plan in (library.mrjob_plan, library.mrjob_plan_wide):
        plan.restype = c_uint32
        plan.argtypes = [POINTER(WaveRows), c_uint32, *array, *array, *array, POINTER(Total)]
    for check, verdict in ((library.mrjob_check, VerdictRow), (library.mrjob_check_wide, WideVerdictRow)):
        check.restype = c_uint32
        check.argtypes = [POINTER(WaveRows), *array, *array, *array, POINTER(verdict)]
    for call, row in ((library.mrjob_plan_places, PlacesTotal), (library.mrjob_check_places, PlacesVerdictRow)):
        call.restype = c_uint32
        call.argtypes = [POINTER(WaveRows), POINTER(PlaceRows), *array, *array, *array, POINTER(row)]
    return library

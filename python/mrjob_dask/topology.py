"""Where workers stand: by a table of names or hosts, by a name RACK.NAME, or guessed from the network of a host."""
from __future__ import annotations

import warnings
from ipaddress import ip_address, ip_network
from typing import Any, Callable, Mapping, Union

from .pending import Place
from .planner import Unfit

# A rack alone, or with its data centre.
Rack = Union[str, tuple[str, str]]
# A table by names of workers, which may be numbers, or by hosts; or a function of a name.
Racks = Union[None, Mapping[Any, Rack], Callable[[str], Rack]]


class GuessedRacks(UserWarning):
    """No table and no name tells the racks of some workers, so they were guessed from the networks of their hosts."""


def host_of(address: str) -> str:
    """The host in an address of Dask, such as tcp://10.0.0.3:40713."""
    return address.split("://")[-1].rpartition(":")[0].strip("[]")


def network_of(host: str) -> str:
    """The network that stands for a rack, where nothing else tells it: /24, or /64 of version 6."""
    try:
        of = ip_address(host)
    except ValueError:
        return "default"
    return str(ip_network((of, 24 if of.version == 4 else 64), strict=False))


def is_address(name: str) -> bool:
    return "://" in name or network_of(name) != "default"


def place_of(rack: Any) -> Place:
    """The place that is told by a rack alone, or with its data centre."""
    words = [*map(str, rack if isinstance(rack, (tuple, list)) else [rack])]
    if len(words) not in (1, 2):
        raise Unfit(f"{rack!r} is neither a rack nor a rack with its data centre")
    return Place(*words)


class Topology:
    """The places of workers. `racks` is a table by names or hosts, or a function of a name, and it goes first."""

    def __init__(self, racks: Racks = None) -> None:
        self.racks = {str(node): rack for node, rack in racks.items()} if isinstance(racks, Mapping) else racks
        self.known: dict[str, Place] = {}  # by a worker's address
        self.guessed: dict[str, Place] = {}  # by its name

    def place(self, name: str, address: str) -> Place:
        given = self.given(name, host_of(address))
        if given is not None:
            return place_of(given)
        if "." in name and not is_address(name):
            return Place(name.partition(".")[0])
        self.guessed[name] = Place(network_of(host_of(address)))
        return self.guessed[name]

    def given(self, name: str, host: str) -> Union[None, Rack]:
        if self.racks is None:
            return None
        if isinstance(self.racks, Mapping):
            return self.racks.get(name, self.racks.get(host))
        return self.racks(name)

    def places(self, names: Mapping[str, str]) -> dict[str, Place]:
        """The places of workers by their addresses, of which the names are given. Warns of those that it guesses."""
        known = len(self.guessed)
        for address, name in names.items():
            if address not in self.known:
                self.known[address] = self.place(name, address)
        if len(self.guessed) > known:
            racks = sorted({it.rack for it in self.guessed.values()})
            warnings.warn(
                f"the racks of {len(self.guessed)} workers were guessed from their hosts ({', '.join(racks)}):"
                " give racks=, or start workers with --name RACK.NAME", GuessedRacks, stacklevel=2,
            )
        return {address: self.known[address] for address in names}

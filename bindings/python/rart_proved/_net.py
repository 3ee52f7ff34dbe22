"""Tables of networks."""

import collections.abc
import ctypes
import ipaddress

from . import _sys
from ._library import LIBRARY, check, check_value

_NETWORKS = {4: ipaddress.IPv4Network, 6: ipaddress.IPv6Network}
_NAMES = ["insert", "remove", "free", "get", "longest_match", "len"]
_MISSING = object()


class _Version:
    """The routes of one version of addresses."""

    def __init__(self, version):
        self.network = _NETWORKS[version]
        self.handle = getattr(_sys, f"RartNet{version}")()
        self.at = ctypes.byref(self.handle)
        self.call = {name: getattr(LIBRARY, f"rart_net{version}_{name}") for name in _NAMES}

    def of_network(self, name, network, *rest):
        """Calls a function of the library for a network, and returns the status and the value that it wrote."""
        value = ctypes.c_uint64()
        first, length = network.network_address.packed, network.prefixlen
        return check(self.call[name](self.at, first, length, *rest, value)), value.value


def _network(network):
    is_network = isinstance(network, tuple(_NETWORKS.values()))
    return network if is_network else ipaddress.ip_network(network)


def _address(address):
    is_address = isinstance(address, (ipaddress.IPv4Address, ipaddress.IPv6Address))
    return address if is_address else ipaddress.ip_address(address)


class NetTable:
    """A table from IPv4 and IPv6 networks to integers below 2**64.

    A network is one of `ipaddress`, or what `ipaddress.ip_network` takes; it raises ValueError where bits are set after
    those of the network. The zone of an IPv6 address is ignored. A table can't be iterated, copied or pickled.

    >>> from rart_proved import NetTable
    >>> routes = NetTable({"10.0.0.0/8": 1, "10.16.0.0/12": 2, "2001:db8::/32": 3})
    >>> routes.longest_match("10.17.2.3")
    (IPv4Network('10.16.0.0/12'), 2)
    >>> routes["10.0.0.0/8"], "10.0.0.0/9" in routes
    (1, False)
    """

    def __init__(self, routes=()):
        self._versions = {version: _Version(version) for version in _NETWORKS}
        self.update(routes)

    def __del__(self):
        if hasattr(self, "_versions"):
            self.clear()

    def __len__(self):
        return sum(it.call["len"](it.at) for it in self._versions.values())

    def __getitem__(self, network):
        value = self.get(network, _MISSING)
        if value is _MISSING:
            raise KeyError(network)
        return value

    def get(self, network, default=None):
        """Returns the value of exactly a network, or `default`."""
        network = _network(network)
        status, value = self._versions[network.version].of_network("get", network)
        return value if status == _sys.DONE else default

    def __contains__(self, network):
        return self.get(network, _MISSING) is not _MISSING

    def __setitem__(self, network, value):
        network = _network(network)
        self._versions[network.version].of_network("insert", network, check_value(value))

    def __delitem__(self, network):
        if self.pop(network, _MISSING) is _MISSING:
            raise KeyError(network)

    # without it `iter` would call `__getitem__` with 0, 1, .., which are networks
    __iter__ = None

    # a copy of the handles would free the routes of both
    def __reduce__(self):
        raise TypeError("a table of networks can't be copied or pickled")

    def __repr__(self):
        return f"<NetTable of {len(self)} networks>"

    def pop(self, network, *default):
        """Removes exactly a network and returns its value, or `default` if it is given."""
        key, network = network, _network(network)
        status, value = self._versions[network.version].of_network("remove", network)
        if status == _sys.DONE:
            return value
        if not default:
            raise KeyError(key)
        return default[0]

    def update(self, routes):
        """Inserts routes, of a mapping or of pairs; later ones replace earlier ones of the same network."""
        pairs = routes.items() if isinstance(routes, collections.abc.Mapping) else routes
        for network, value in pairs:
            self[network] = value

    def clear(self):
        """Removes all networks."""
        for it in self._versions.values():
            it.call["free"](it.at)

    def longest_match(self, address):
        """Returns the longest network that contains an address, with its value, or None.

        An address is one of `ipaddress`, or what `ipaddress.ip_address` takes.
        """
        address, length, value = _address(address), ctypes.c_uint8(), ctypes.c_uint64()
        routes = self._versions[address.version]
        if not routes.call["longest_match"](routes.at, address.packed, length, value):
            return None
        return routes.network((address.packed, length.value), strict=False), value.value

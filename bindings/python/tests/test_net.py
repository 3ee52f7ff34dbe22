"""Tests of the tables of networks beside a dict."""

import copy
import doctest
import ipaddress
import pickle
import random
import unittest

from rart_proved import NetTable, _library, _net, _sys


class RandomCalls(unittest.TestCase):
    """Random calls on a table and on a dict, which is searched from end to end."""

    def setUp(self):
        self.random = random.Random(1)
        self.table = NetTable()
        self.model = {}

    def address(self):
        """Returns an address; most differ in few bits, so that networks contain each other."""
        kind = self.random.choice([ipaddress.IPv4Address, ipaddress.IPv6Address])
        bits = kind(0).max_prefixlen
        number = self.random.choice([0, (1 << bits) - 1, 0x0A100203 << bits - 32])
        for _ in range(self.random.randrange(4)):
            number ^= 1 << self.random.randrange(bits)
        return kind(number)

    def network(self):
        if self.model and self.random.randrange(3) == 0:
            return self.random.choice(list(self.model))
        address = self.address()
        length = self.random.randrange(address.max_prefixlen + 1)
        return ipaddress.ip_network((address.packed, length), strict=False)

    def test_edits_and_look_ups(self):
        for _ in range(10_000):
            network, call = self.network(), self.random.randrange(10)
            if call < 4:
                self.table[network] = self.model[network] = self.random.randrange(1 << 64)
            elif call < 6:
                self.assertEqual(self.table.pop(network, None), self.model.pop(network, None))
            elif call == 6:
                self.assertEqual(network in self.table, network in self.model)
                self.assertEqual(self.table.get(str(network), -1), self.model.get(network, -1))
                self.assertEqual(len(self.table), len(self.model))
            else:
                self.look_up(self.address())
            if len(self.model) > 150:
                self.table.clear()
                self.model.clear()

    def look_up(self, address):
        found = [it for it in self.model if address in it]
        longest = max(found, key=lambda it: it.prefixlen, default=None)
        wanted = None if longest is None else (longest, self.model[longest])
        self.assertEqual(self.table.longest_match(address), wanted)


class Errors(unittest.TestCase):
    """What the table refuses."""

    def test_networks(self):
        routes = NetTable([("10.0.0.0/8", 1)])
        for network in ("10.0.0.1/8", "10.0.0.0/33", "ten"):
            with self.assertRaises(ValueError):
                routes[network] = 2
            with self.assertRaises(ValueError):
                network in routes
        for network in ("10.0.0.0/9", "::/8"):
            self.assertNotIn(network, routes)
            with self.assertRaises(KeyError):
                routes[network]
            with self.assertRaises(KeyError):
                del routes[network]
            with self.assertRaises(KeyError):
                routes.pop(network)
        with self.assertRaises(ValueError):
            routes.longest_match("10.0.0")
        self.assertEqual((len(routes), routes["10.0.0.0/8"]), (1, 1))

    def test_values(self):
        routes = NetTable()
        for value in (-1, 1 << 64):
            with self.assertRaises(OverflowError):
                routes["::/0"] = value
        with self.assertRaises(TypeError):
            routes["::/0"] = 1.5
        self.assertEqual((len(routes), repr(routes)), (0, "<NetTable of 0 networks>"))

    def test_iterations(self):
        with self.assertRaises(TypeError):
            iter(NetTable())

    def test_copies(self):
        routes = NetTable({"::/0": 1})
        for copied in (copy.copy, copy.deepcopy, pickle.dumps):
            with self.assertRaises(TypeError):
                copied(routes)
        self.assertEqual(routes["::/0"], 1)

    def test_statuses(self):
        refused = ((_sys.NO_MEMORY, MemoryError), (_sys.FULL, OverflowError), (_sys.HOST_BITS, ValueError))
        for status, error in (*refused, (_sys.BAD_LENGTH, ValueError)):
            with self.assertRaises(error):
                _library.check(status)


class Tables(unittest.TestCase):
    """What a dict does too."""

    def test_edits(self):
        routes = NetTable({ipaddress.ip_network("10.0.0.0/8"): 1})
        routes.update([("10.0.0.0/8", 2), ("::/0", 3)])
        self.assertEqual((routes["10.0.0.0/8"], routes["::/0"], len(routes)), (2, 3, 2))
        del routes["::/0"]
        self.assertEqual((routes.pop("10.0.0.0/8"), len(routes)), (2, 0))
        self.assertFalse(routes)

    def test_both_versions(self):
        routes = NetTable({"0.0.0.0/0": 4, "::/0": 6})
        self.assertEqual(routes.longest_match("1.2.3.4"), (ipaddress.ip_network("0.0.0.0/0"), 4))
        self.assertEqual(routes.longest_match("fe80::1%eth0"), (ipaddress.ip_network("::/0"), 6))


class Documentation(unittest.TestCase):
    """The examples of the documentation."""

    def test_examples(self):
        self.assertEqual(doctest.testmod(_net).failed, 0)


if __name__ == "__main__":
    unittest.main()

"""Tests of the maps beside a dict."""

import copy
import doctest
import pickle
import random
import unittest

import rart_proved
from rart_proved import RartMap


class RandomCalls(unittest.TestCase):
    """Random calls on a map and on a dict."""

    def setUp(self):
        self.random = random.Random(1)
        self.map = RartMap()
        self.model = {}

    def key(self):
        letters = self.random.choice([b"ab", b"\x00\x01\xfe\xff", bytes(range(60))])
        return bytes(self.random.choice(letters) for _ in range(self.random.randrange(7)))

    def test_edits_and_look_ups(self):
        for _ in range(30_000):
            key, call = self.key(), self.random.randrange(10)
            if call < 5:
                self.map[key] = self.model[key] = self.random.randrange(1 << 64)
            elif call < 7:
                self.assertEqual(self.map.pop(key, None), self.model.pop(key, None))
            elif call == 7:
                self.assertEqual((key in self.map, self.map.get(key)), (key in self.model, self.model.get(key)))
                self.assertEqual(len(self.map), len(self.model))
            else:
                self.look_up(key)
        self.assertEqual(list(self.map.items()), sorted(self.model.items()))
        self.assertEqual(list(reversed(self.map)), sorted(self.model, reverse=True))

    def look_up(self, probe):
        matches = [(probe[:i], self.model[probe[:i]]) for i in range(len(probe) + 1) if probe[:i] in self.model]
        self.assertEqual(self.map.longest_prefix(probe), matches[-1] if matches else None)
        self.assertEqual(self.map.matches(probe), matches)

    def test_ranges(self):
        for _ in range(60):
            for _ in range(40):
                key = self.key()
                self.map[key] = self.model[key] = self.random.randrange(9)
            start, end, prefix = self.key(), self.key(), self.key()[:2]
            pairs = sorted(self.model.items())
            self.assertEqual(list(self.map.range(start, end)), [it for it in pairs if start <= it[0] < end])
            self.assertEqual(list(self.map.range(start)), [it for it in pairs if start <= it[0]])
            self.assertEqual(list(self.map.prefix(prefix)), [it for it in pairs if it[0].startswith(prefix)])
            self.assertEqual((self.map.first(), self.map.last()), (pairs[0], pairs[-1]))
        before = len(self.model)
        kept = {key: value for key, value in self.model.items() if not key.startswith(b"a")}
        self.assertEqual(self.map.remove_prefix(b"a"), before - len(kept))
        self.assertEqual(dict(self.map), kept)


class WideRandomCalls(RandomCalls):
    """The same of keys of at most 128 bytes."""

    def setUp(self):
        super().setUp()
        self.map = RartMap(width=128)

    def key(self):
        return super().key() * self.random.choice([1, 1, 18])


class Errors(unittest.TestCase):
    """What the map refuses."""

    def test_keys(self):
        words = RartMap({b"a": 1})
        with self.assertRaises(ValueError):
            words[b"x" * 33] = 1
        with self.assertRaises(TypeError):
            words["x"] = 1
        for key in (b"x", b"x" * 99):
            self.assertNotIn(key, words)
            with self.assertRaises(KeyError):
                words[key]
            with self.assertRaises(KeyError):
                del words[key]
        self.assertEqual(list(words.range(b"a" * 40)), [])
        self.assertEqual(list(words.range(None, b"a" * 40)), [(b"a", 1)])

    def test_loads(self):
        words = RartMap({b"x": 1})
        with self.assertRaises(ValueError):
            words.load_sorted([(b"b", 1), (b"a", 2)])
        with self.assertRaises(ValueError):
            words.load_sorted([(b"y" * 33, 1)])
        self.assertEqual(dict(words), {b"x": 1})
        words.load_sorted([(b"a", 1), (b"b", 2), (b"b", 3)])
        self.assertEqual(list(words.items()), [(b"a", 1), (b"b", 3)])

    def test_values(self):
        with self.assertRaises(OverflowError):
            RartMap({b"x": 1 << 64})
        with self.assertRaises(OverflowError):
            RartMap({b"x": -1})
        with self.assertRaises(TypeError):
            RartMap({b"x": 1.5})

    def test_an_edit_during_an_iteration(self):
        words = RartMap({b"a": 1, b"b": 2})
        with self.assertRaises(RuntimeError):
            for key in words:
                words[key + b"x"] = 3


class Copies(unittest.TestCase):
    """Copies have pairs of their own."""

    def test_copies(self):
        words = RartMap({b"a": 1, b"b" * 99: 2}, width=128)
        for made in (copy.copy(words), copy.deepcopy(words), pickle.loads(pickle.dumps(words))):
            self.assertEqual(dict(made), dict(words))
            made[b"c" * 100] = 3
            del made[b"a"]
        del made
        self.assertEqual(dict(words), {b"a": 1, b"b" * 99: 2})


class Documentation(unittest.TestCase):
    """The examples of the documentation."""

    def test_examples(self):
        self.assertEqual(doctest.testmod(rart_proved).failed, 0)


if __name__ == "__main__":
    unittest.main()

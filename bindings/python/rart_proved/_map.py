"""Maps from byte strings."""

import collections.abc
import ctypes

from . import _sys
from ._library import LIBRARY, check, check_value

_FIRST, _ROOM = 8, 64

# For each width: the handle, a pair, and the prefix of the functions.
_WIDTHS = {
    width: (getattr(_sys, f"Rart{width}"), getattr(_sys, f"Rart{width}Pair"), f"rart{width}_")
    for width in (32, 128)
}


def _bytes(key):
    if not isinstance(key, (bytes, bytearray, memoryview)):
        raise TypeError(f"a key is bytes, not {type(key).__name__}")
    return bytes(key)


def _remade(width, pairs):
    return RartMap(pairs, width=width)


class RartMap(collections.abc.MutableMapping):
    """A map from byte strings of at most `width` bytes, 32 or 128, to integers below 2**64, ascending by key."""

    def __init__(self, pairs=(), *, width=32):
        if width not in _WIDTHS:
            raise ValueError(f"the width is one of {', '.join(map(str, _WIDTHS))}")
        handle, self._pair, prefix = _WIDTHS[width]
        self._width = width
        self._edits = 0
        self._handle = handle()
        self._at = ctypes.byref(self._handle)
        self._call = {name: getattr(LIBRARY, prefix + name) for name in _NAMES}
        self._free = self._call["free"]
        self.update(pairs)

    def __del__(self):
        if hasattr(self, "_free"):
            self._free(self._at)

    # for `copy` and `pickle`: a copy of the handle would free the pairs of both
    def __reduce__(self):
        return _remade, (self._width, list(self.items()))

    def __len__(self):
        return self._call["len"](self._at)

    def __getitem__(self, key):
        key, value = _bytes(key), ctypes.c_uint64()
        if not self._call["get"](self._at, key, len(key), value):
            raise KeyError(key)
        return value.value

    def __contains__(self, key):
        key, value = _bytes(key), ctypes.c_uint64()
        return self._call["get"](self._at, key, len(key), value)

    def __setitem__(self, key, value):
        key, old, value = _bytes(key), ctypes.c_uint64(), check_value(value)
        if check(self._call["insert"](self._at, key, len(key), value, old), self._width) == _sys.DONE:
            self._edits += 1

    def __delitem__(self, key):
        key, old = _bytes(key), ctypes.c_uint64()
        # no stored key is too long
        if len(key) > self._width:
            raise KeyError(key)
        if check(self._call["remove"](self._at, key, len(key), old), self._width) != _sys.DONE:
            raise KeyError(key)
        self._edits += 1

    def __iter__(self):
        return (key for key, _ in self.range())

    def __reversed__(self):
        return (key for key, _ in self._walk("range_descending", None, None))

    def __repr__(self):
        return f"RartMap({dict(self.range())!r})"

    def items(self):
        """Returns the pairs, ascending by key, as a view."""
        return _Items(self)

    def clear(self):
        """Removes all pairs."""
        self._call["clear"](self._at)
        self._edits += 1

    def load_sorted(self, pairs):
        """Replaces all pairs by `pairs`, whose keys must ascend; of equal keys the last pair stays."""
        pairs = [(_bytes(key), value) for key, value in pairs]
        buffer, at = (self._pair * len(pairs))(), ctypes.c_size_t()
        for to, (key, value) in zip(buffer, pairs):
            ctypes.memmove(to.key, key, min(len(key), self._width))
            to.len, to.value = len(key), check_value(value)
        status = check(self._call["load_sorted"](self._at, buffer, len(pairs), at), self._width)
        if status == _sys.UNSORTED:
            raise ValueError(f"the key of pair {at.value} is below the one before it")
        self._edits += 1

    def remove_prefix(self, prefix):
        """Removes all pairs whose key begins with `prefix`, and returns their number."""
        prefix, removed = _bytes(prefix), ctypes.c_size_t()
        if len(prefix) > self._width:
            return 0
        check(self._call["remove_prefix"](self._at, prefix, len(prefix), removed), self._width)
        self._edits += 1
        return removed.value

    def longest_prefix(self, probe):
        """Returns the longest key that begins `probe`, with its value, or None."""
        probe, length, value = _bytes(probe), ctypes.c_size_t(), ctypes.c_uint64()
        if not self._call["longest_prefix"](self._at, probe, len(probe), length, value):
            return None
        return probe[: length.value], value.value

    def matches(self, probe):
        """Returns the pairs whose key begins `probe`, the shortest key first."""
        cut = _bytes(probe)[: self._width]
        out, written, more = (self._pair * (self._width + 1))(), ctypes.c_size_t(), ctypes.c_bool()
        check(self._call["matches"](self._at, cut, len(cut), out, len(out), written, more), self._width)
        return [self._read(pair) for pair in out[: written.value]]

    def first(self):
        """Returns the pair with the least key, or None."""
        return self._end("first")

    def last(self):
        """Returns the pair with the greatest key, or None."""
        return self._end("last")

    def range(self, start=None, end=None):
        """Returns an iterator over the pairs from `start` on and before `end`, ascending; None is no bound."""
        return self._walk("range", start, end)

    def prefix(self, prefix):
        """Returns an iterator over the pairs whose key begins with `prefix`, ascending."""
        prefix = _bytes(prefix)
        if len(prefix) > self._width:
            return iter(())
        kept = prefix.rstrip(b"\xff")
        return self._walk("range", prefix, kept[:-1] + bytes([kept[-1] + 1]) if kept else None)

    def _read(self, pair):
        return bytes(pair.key[: pair.len]), pair.value

    def _end(self, name):
        pair = self._pair()
        return self._read(pair) if self._call[name](self._at, pair) else None

    def _bound(self, kind, key, long_kind):
        """Returns a bound with the same keys before it and after it; a long one is cut."""
        if key is None:
            return _sys.UNBOUNDED, b""
        key = _bytes(key)
        return (kind, key) if len(key) <= self._width else (long_kind, key[: self._width])

    def _walk(self, name, start, end):
        start = self._bound(_sys.INCLUDED, start, _sys.EXCLUDED)
        end = self._bound(_sys.EXCLUDED, end, _sys.INCLUDED)
        return self._pairs(name, start, end)

    def _pairs(self, name, start, end):
        edits, room, more = self._edits, _FIRST, ctypes.c_bool(True)
        out, written = (self._pair * _ROOM)(), ctypes.c_size_t()
        while more.value:
            bounds = (start[0], start[1], len(start[1]), end[0], end[1], len(end[1]))
            check(self._call[name](self._at, *bounds, out, room, written, more), self._width)
            for at in range(written.value):
                pair = self._read(out[at])
                yield pair
                if edits != self._edits:
                    raise RuntimeError("the map changed during an iteration")
            if more.value:
                last = _sys.EXCLUDED, pair[0]
                start, end = (start, last) if name == "range_descending" else (last, end)
                room = _ROOM


class _Items(collections.abc.ItemsView):
    def __iter__(self):
        return self._mapping.range()


_NAMES = [
    "insert",
    "remove",
    "remove_prefix",
    "clear",
    "free",
    "get",
    "longest_prefix",
    "len",
    "first",
    "last",
    "range",
    "range_descending",
    "matches",
    "load_sorted",
]

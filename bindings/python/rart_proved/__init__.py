"""Ordered maps from short byte strings to integers, and tables of networks, over a proved adaptive radix tree.

>>> from rart_proved import RartMap
>>> words = RartMap({b"cat": 1, b"catalog": 2, b"dog": 3})
>>> words.longest_prefix(b"catalogue")
(b'catalog', 2)
>>> list(words.prefix(b"cat"))
[(b'cat', 1), (b'catalog', 2)]
>>> list(words.range(b"catalog"))
[(b'catalog', 2), (b'dog', 3)]

>>> from rart_proved import NetTable
>>> NetTable({"10.0.0.0/8": 1}).longest_match("10.1.2.3")
(IPv4Network('10.0.0.0/8'), 1)
"""

from ._map import RartMap
from ._net import NetTable

__all__ = ["NetTable", "RartMap"]

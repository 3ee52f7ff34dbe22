"""The functions of librart_c as C declares them.

Written by bindings/generate from crates/rart_c/src: change that, and run it again.
"""

import ctypes

UNBOUNDED = 0
INCLUDED = 1
EXCLUDED = 2
DONE = 0
REPLACED = 1
STORED = 1
ABSENT = 1
NO_MEMORY = 2
FULL = 3
KEY_TOO_LONG = 4
BAD_BOUND = 5
UNSORTED = 6
BAD_LENGTH = 7
HOST_BITS = 8


class RartStats(ctypes.Structure):
    """The nodes of a map, counted."""

    _fields_ = [
        ("leaves", ctypes.c_size_t),
        ("values", ctypes.c_size_t),
        ("inner_nodes", ctypes.c_size_t),
        ("children", ctypes.c_size_t),
        ("width", ctypes.c_size_t),
        ("height", ctypes.c_size_t),
    ]


class Rart32Pair(ctypes.Structure):
    """A pair: the first `len` bytes of `key` are the key. The others are zero where a call wrote the pair."""

    _fields_ = [
        ("key", ctypes.c_uint8 * 32),
        ("len", ctypes.c_size_t),
        ("value", ctypes.c_uint64),
    ]


class Rart32(ctypes.Structure):
    """A map from keys of at most 32 bytes to `u64`. Zeroed, it is an empty map. A call takes it by its address and is
    the only one that uses it; a copy of it must not be used once either is passed to a call.
    """

    _fields_ = [
        ("at", ctypes.c_void_p),
    ]


class Rart128Pair(ctypes.Structure):
    """A pair: the first `len` bytes of `key` are the key. The others are zero where a call wrote the pair."""

    _fields_ = [
        ("key", ctypes.c_uint8 * 128),
        ("len", ctypes.c_size_t),
        ("value", ctypes.c_uint64),
    ]


class Rart128(ctypes.Structure):
    """A map from keys of at most 128 bytes to `u64`. Zeroed, it is an empty map. A call takes it by its address and is
    the only one that uses it; a copy of it must not be used once either is passed to a call.
    """

    _fields_ = [
        ("at", ctypes.c_void_p),
    ]


class RartNet4(ctypes.Structure):
    """A table from IPv4 networks to `u64` targets. Zeroed, it is an empty table. A call takes it by its address and is
    the only one that uses it; a copy of it must not be used once either is passed to a call.
    """

    _fields_ = [
        ("at", ctypes.c_void_p),
    ]


class RartNet6(ctypes.Structure):
    """A table from IPv6 networks to `u64` targets. Zeroed, it is an empty table. A call takes it by its address and is
    the only one that uses it; a copy of it must not be used once either is passed to a call.
    """

    _fields_ = [
        ("at", ctypes.c_void_p),
    ]


# Each function: its name, its result and its arguments.
CALLS = [
    (
        "rart32_insert",
        ctypes.c_uint8,
        [
            ctypes.POINTER(Rart32),
            ctypes.c_char_p,
            ctypes.c_size_t,
            ctypes.c_uint64,
            ctypes.POINTER(ctypes.c_uint64),
        ],
    ),
    (
        "rart32_try_insert",
        ctypes.c_uint8,
        [
            ctypes.POINTER(Rart32),
            ctypes.c_char_p,
            ctypes.c_size_t,
            ctypes.c_uint64,
            ctypes.POINTER(ctypes.c_uint64),
        ],
    ),
    (
        "rart32_remove",
        ctypes.c_uint8,
        [
            ctypes.POINTER(Rart32),
            ctypes.c_char_p,
            ctypes.c_size_t,
            ctypes.POINTER(ctypes.c_uint64),
        ],
    ),
    (
        "rart32_remove_prefix",
        ctypes.c_uint8,
        [
            ctypes.POINTER(Rart32),
            ctypes.c_char_p,
            ctypes.c_size_t,
            ctypes.POINTER(ctypes.c_size_t),
        ],
    ),
    ("rart32_clear", None, [ctypes.POINTER(Rart32)]),
    ("rart32_free", None, [ctypes.POINTER(Rart32)]),
    (
        "rart32_get",
        ctypes.c_bool,
        [
            ctypes.POINTER(Rart32),
            ctypes.c_char_p,
            ctypes.c_size_t,
            ctypes.POINTER(ctypes.c_uint64),
        ],
    ),
    (
        "rart32_longest_prefix",
        ctypes.c_bool,
        [
            ctypes.POINTER(Rart32),
            ctypes.c_char_p,
            ctypes.c_size_t,
            ctypes.POINTER(ctypes.c_size_t),
            ctypes.POINTER(ctypes.c_uint64),
        ],
    ),
    ("rart32_len", ctypes.c_size_t, [ctypes.POINTER(Rart32)]),
    ("rart32_intersect_count", ctypes.c_size_t, [ctypes.POINTER(Rart32), ctypes.POINTER(Rart32)]),
    ("rart32_first", ctypes.c_bool, [ctypes.POINTER(Rart32), ctypes.POINTER(Rart32Pair)]),
    ("rart32_last", ctypes.c_bool, [ctypes.POINTER(Rart32), ctypes.POINTER(Rart32Pair)]),
    (
        "rart32_range",
        ctypes.c_uint8,
        [
            ctypes.POINTER(Rart32),
            ctypes.c_uint8,
            ctypes.c_char_p,
            ctypes.c_size_t,
            ctypes.c_uint8,
            ctypes.c_char_p,
            ctypes.c_size_t,
            ctypes.POINTER(Rart32Pair),
            ctypes.c_size_t,
            ctypes.POINTER(ctypes.c_size_t),
            ctypes.POINTER(ctypes.c_bool),
        ],
    ),
    (
        "rart32_range_descending",
        ctypes.c_uint8,
        [
            ctypes.POINTER(Rart32),
            ctypes.c_uint8,
            ctypes.c_char_p,
            ctypes.c_size_t,
            ctypes.c_uint8,
            ctypes.c_char_p,
            ctypes.c_size_t,
            ctypes.POINTER(Rart32Pair),
            ctypes.c_size_t,
            ctypes.POINTER(ctypes.c_size_t),
            ctypes.POINTER(ctypes.c_bool),
        ],
    ),
    (
        "rart32_matches",
        ctypes.c_uint8,
        [
            ctypes.POINTER(Rart32),
            ctypes.c_char_p,
            ctypes.c_size_t,
            ctypes.POINTER(Rart32Pair),
            ctypes.c_size_t,
            ctypes.POINTER(ctypes.c_size_t),
            ctypes.POINTER(ctypes.c_bool),
        ],
    ),
    (
        "rart32_load_sorted",
        ctypes.c_uint8,
        [
            ctypes.POINTER(Rart32),
            ctypes.POINTER(Rart32Pair),
            ctypes.c_size_t,
            ctypes.POINTER(ctypes.c_size_t),
        ],
    ),
    ("rart32_stats", ctypes.c_uint8, [ctypes.POINTER(Rart32), ctypes.POINTER(RartStats)]),
    (
        "rart128_insert",
        ctypes.c_uint8,
        [
            ctypes.POINTER(Rart128),
            ctypes.c_char_p,
            ctypes.c_size_t,
            ctypes.c_uint64,
            ctypes.POINTER(ctypes.c_uint64),
        ],
    ),
    (
        "rart128_try_insert",
        ctypes.c_uint8,
        [
            ctypes.POINTER(Rart128),
            ctypes.c_char_p,
            ctypes.c_size_t,
            ctypes.c_uint64,
            ctypes.POINTER(ctypes.c_uint64),
        ],
    ),
    (
        "rart128_remove",
        ctypes.c_uint8,
        [
            ctypes.POINTER(Rart128),
            ctypes.c_char_p,
            ctypes.c_size_t,
            ctypes.POINTER(ctypes.c_uint64),
        ],
    ),
    (
        "rart128_remove_prefix",
        ctypes.c_uint8,
        [
            ctypes.POINTER(Rart128),
            ctypes.c_char_p,
            ctypes.c_size_t,
            ctypes.POINTER(ctypes.c_size_t),
        ],
    ),
    ("rart128_clear", None, [ctypes.POINTER(Rart128)]),
    ("rart128_free", None, [ctypes.POINTER(Rart128)]),
    (
        "rart128_get",
        ctypes.c_bool,
        [
            ctypes.POINTER(Rart128),
            ctypes.c_char_p,
            ctypes.c_size_t,
            ctypes.POINTER(ctypes.c_uint64),
        ],
    ),
    (
        "rart128_longest_prefix",
        ctypes.c_bool,
        [
            ctypes.POINTER(Rart128),
            ctypes.c_char_p,
            ctypes.c_size_t,
            ctypes.POINTER(ctypes.c_size_t),
            ctypes.POINTER(ctypes.c_uint64),
        ],
    ),
    ("rart128_len", ctypes.c_size_t, [ctypes.POINTER(Rart128)]),
    (
        "rart128_intersect_count",
        ctypes.c_size_t,
        [
            ctypes.POINTER(Rart128),
            ctypes.POINTER(Rart128),
        ],
    ),
    ("rart128_first", ctypes.c_bool, [ctypes.POINTER(Rart128), ctypes.POINTER(Rart128Pair)]),
    ("rart128_last", ctypes.c_bool, [ctypes.POINTER(Rart128), ctypes.POINTER(Rart128Pair)]),
    (
        "rart128_range",
        ctypes.c_uint8,
        [
            ctypes.POINTER(Rart128),
            ctypes.c_uint8,
            ctypes.c_char_p,
            ctypes.c_size_t,
            ctypes.c_uint8,
            ctypes.c_char_p,
            ctypes.c_size_t,
            ctypes.POINTER(Rart128Pair),
            ctypes.c_size_t,
            ctypes.POINTER(ctypes.c_size_t),
            ctypes.POINTER(ctypes.c_bool),
        ],
    ),
    (
        "rart128_range_descending",
        ctypes.c_uint8,
        [
            ctypes.POINTER(Rart128),
            ctypes.c_uint8,
            ctypes.c_char_p,
            ctypes.c_size_t,
            ctypes.c_uint8,
            ctypes.c_char_p,
            ctypes.c_size_t,
            ctypes.POINTER(Rart128Pair),
            ctypes.c_size_t,
            ctypes.POINTER(ctypes.c_size_t),
            ctypes.POINTER(ctypes.c_bool),
        ],
    ),
    (
        "rart128_matches",
        ctypes.c_uint8,
        [
            ctypes.POINTER(Rart128),
            ctypes.c_char_p,
            ctypes.c_size_t,
            ctypes.POINTER(Rart128Pair),
            ctypes.c_size_t,
            ctypes.POINTER(ctypes.c_size_t),
            ctypes.POINTER(ctypes.c_bool),
        ],
    ),
    (
        "rart128_load_sorted",
        ctypes.c_uint8,
        [
            ctypes.POINTER(Rart128),
            ctypes.POINTER(Rart128Pair),
            ctypes.c_size_t,
            ctypes.POINTER(ctypes.c_size_t),
        ],
    ),
    ("rart128_stats", ctypes.c_uint8, [ctypes.POINTER(Rart128), ctypes.POINTER(RartStats)]),
    (
        "rart_net4_insert",
        ctypes.c_uint8,
        [
            ctypes.POINTER(RartNet4),
            ctypes.c_char_p,
            ctypes.c_uint8,
            ctypes.c_uint64,
            ctypes.POINTER(ctypes.c_uint64),
        ],
    ),
    (
        "rart_net4_remove",
        ctypes.c_uint8,
        [
            ctypes.POINTER(RartNet4),
            ctypes.c_char_p,
            ctypes.c_uint8,
            ctypes.POINTER(ctypes.c_uint64),
        ],
    ),
    ("rart_net4_free", None, [ctypes.POINTER(RartNet4)]),
    (
        "rart_net4_get",
        ctypes.c_uint8,
        [
            ctypes.POINTER(RartNet4),
            ctypes.c_char_p,
            ctypes.c_uint8,
            ctypes.POINTER(ctypes.c_uint64),
        ],
    ),
    (
        "rart_net4_longest_match",
        ctypes.c_bool,
        [
            ctypes.POINTER(RartNet4),
            ctypes.c_char_p,
            ctypes.POINTER(ctypes.c_uint8),
            ctypes.POINTER(ctypes.c_uint64),
        ],
    ),
    ("rart_net4_len", ctypes.c_size_t, [ctypes.POINTER(RartNet4)]),
    (
        "rart_net6_insert",
        ctypes.c_uint8,
        [
            ctypes.POINTER(RartNet6),
            ctypes.c_char_p,
            ctypes.c_uint8,
            ctypes.c_uint64,
            ctypes.POINTER(ctypes.c_uint64),
        ],
    ),
    (
        "rart_net6_remove",
        ctypes.c_uint8,
        [
            ctypes.POINTER(RartNet6),
            ctypes.c_char_p,
            ctypes.c_uint8,
            ctypes.POINTER(ctypes.c_uint64),
        ],
    ),
    ("rart_net6_free", None, [ctypes.POINTER(RartNet6)]),
    (
        "rart_net6_get",
        ctypes.c_uint8,
        [
            ctypes.POINTER(RartNet6),
            ctypes.c_char_p,
            ctypes.c_uint8,
            ctypes.POINTER(ctypes.c_uint64),
        ],
    ),
    (
        "rart_net6_longest_match",
        ctypes.c_bool,
        [
            ctypes.POINTER(RartNet6),
            ctypes.c_char_p,
            ctypes.POINTER(ctypes.c_uint8),
            ctypes.POINTER(ctypes.c_uint64),
        ],
    ),
    ("rart_net6_len", ctypes.c_size_t, [ctypes.POINTER(RartNet6)]),
]

//! The functions of librart_c as C declares them.
//!
//! Written by bindings/generate from crates/rart_c/src: change that, and run it again.

#![allow(dead_code)]

use std::ffi::c_void;

/// No bound; the key is ignored.
pub const UNBOUNDED: u8 = 0;

/// The key itself is within the range.
pub const INCLUDED: u8 = 1;

/// The key itself is not within the range.
pub const EXCLUDED: u8 = 2;

/// The call succeeded. Of an insertion: the key was new.
pub const DONE: u8 = 0;

/// The key was stored, and its old value was replaced.
pub const REPLACED: u8 = 1;

/// The key is stored, and keeps its value.
pub const STORED: u8 = 1;

/// The key is not stored.
pub const ABSENT: u8 = 1;

/// An allocation failed. Nothing has changed.
pub const NO_MEMORY: u8 = 2;

/// The map holds as many pairs as it can count. Nothing has changed.
pub const FULL: u8 = 3;

/// A key has more bytes than the map's keys have. The map has not changed, nor has a variable, except the place of a
/// pair that a load writes.
pub const KEY_TOO_LONG: u8 = 4;

/// A bound is none of unbounded, included and excluded. Nothing has changed.
pub const BAD_BOUND: u8 = 5;

/// A key is below the one before it, at the place that was written. The map has not changed.
pub const UNSORTED: u8 = 6;

/// A network has more bits than its address. Nothing has changed.
pub const BAD_LENGTH: u8 = 7;

/// A bit of the address after those of the network is set. Nothing has changed.
pub const HOST_BITS: u8 = 8;

/// The nodes of a map, counted.
#[repr(C)]
#[derive(Clone, Copy)]
pub struct RartStats {
    /// Nodes without children.
    pub leaves: usize,
    /// Nodes with a value.
    pub values: usize,
    /// Nodes with children.
    pub inner_nodes: usize,
    /// The children of all nodes.
    pub children: usize,
    /// The sum of the capacities of the inner nodes.
    pub width: usize,
    /// The most nodes on a path from the root.
    pub height: usize,
}

/// A pair: the first `len` bytes of `key` are the key. The others are zero where a call wrote the pair.
#[repr(C)]
#[derive(Clone, Copy)]
pub struct Rart32Pair {
    pub key: [u8; 32],
    pub len: usize,
    pub value: u64,
}

/// A map from keys of at most 32 bytes to `u64`. Zeroed, it is an empty map. A call takes it by its address and is the
/// only one that uses it; a copy of it must not be used once either is passed to a call.
#[repr(C)]
pub struct Rart32 {
    pub at: *mut c_void,
}

/// A pair: the first `len` bytes of `key` are the key. The others are zero where a call wrote the pair.
#[repr(C)]
#[derive(Clone, Copy)]
pub struct Rart128Pair {
    pub key: [u8; 128],
    pub len: usize,
    pub value: u64,
}

/// A map from keys of at most 128 bytes to `u64`. Zeroed, it is an empty map. A call takes it by its address and is the
/// only one that uses it; a copy of it must not be used once either is passed to a call.
#[repr(C)]
pub struct Rart128 {
    pub at: *mut c_void,
}

/// A table from IPv4 networks to `u64` targets. Zeroed, it is an empty table. A call takes it by its address and is the
/// only one that uses it; a copy of it must not be used once either is passed to a call.
#[repr(C)]
pub struct RartNet4 {
    pub at: *mut c_void,
}

/// A table from IPv6 networks to `u64` targets. Zeroed, it is an empty table. A call takes it by its address and is the
/// only one that uses it; a copy of it must not be used once either is passed to a call.
#[repr(C)]
pub struct RartNet6 {
    pub at: *mut c_void,
}

unsafe extern "C" {
    /// Inserts `value` at a key and writes the value that it replaces to `old`.
    pub fn rart32_insert(
        map: *mut Rart32,
        key: *const u8,
        key_len: usize,
        value: u64,
        old: *mut u64,
    ) -> u8;

    /// Inserts `value` at a new key; writes the value of a stored key to `stored`, and keeps it.
    pub fn rart32_try_insert(
        map: *mut Rart32,
        key: *const u8,
        key_len: usize,
        value: u64,
        stored: *mut u64,
    ) -> u8;

    /// Removes a key and writes its value to `old`.
    pub fn rart32_remove(map: *mut Rart32, key: *const u8, key_len: usize, old: *mut u64) -> u8;

    /// Removes all pairs whose key begins with `prefix` and writes their number to `removed`.
    pub fn rart32_remove_prefix(
        map: *mut Rart32,
        prefix: *const u8,
        prefix_len: usize,
        removed: *mut usize,
    ) -> u8;

    /// Removes all pairs. The handle keeps its memory for a map; `rart32_free` frees that too.
    pub fn rart32_clear(map: *mut Rart32);

    /// Frees the map. The handle is then null, an empty map that owns no memory; to free it again does nothing.
    pub fn rart32_free(map: *mut Rart32);

    /// Writes the value at a key, and returns whether the key is stored. The key may be of any length.
    pub fn rart32_get(map: *mut Rart32, key: *const u8, key_len: usize, value: *mut u64) -> bool;

    /// Writes the length and the value of the longest key that begins `probe`, and returns whether there is one. The
    /// probe may be of any length.
    pub fn rart32_longest_prefix(
        map: *mut Rart32,
        probe: *const u8,
        probe_len: usize,
        len: *mut usize,
        value: *mut u64,
    ) -> bool;

    /// Returns the number of pairs.
    pub fn rart32_len(map: *mut Rart32) -> usize;

    /// Returns the number of keys that two maps have both. They must not be the same handle.
    pub fn rart32_intersect_count(map: *mut Rart32, other: *mut Rart32) -> usize;

    /// Writes the pair with the least key, and returns whether there is one.
    pub fn rart32_first(map: *mut Rart32, pair: *mut Rart32Pair) -> bool;

    /// Writes the pair with the greatest key, and returns whether there is one.
    pub fn rart32_last(map: *mut Rart32, pair: *mut Rart32Pair) -> bool;

    /// Writes the pairs within two bounds to `out`, ascending by key, as many as fit. Writes their number to `written`,
    /// and whether pairs are left to `more`. A caller that wants those passes the last key as an excluded start.
    pub fn rart32_range(
        map: *mut Rart32,
        start_kind: u8,
        start: *const u8,
        start_len: usize,
        end_kind: u8,
        end: *const u8,
        end_len: usize,
        out: *mut Rart32Pair,
        out_len: usize,
        written: *mut usize,
        more: *mut bool,
    ) -> u8;

    /// Writes the pairs within two bounds to `out`, descending by key, as many as fit. Writes their number to
    /// `written`, and whether pairs are left to `more`. A caller that wants those passes the last key as an excluded
    /// end.
    pub fn rart32_range_descending(
        map: *mut Rart32,
        start_kind: u8,
        start: *const u8,
        start_len: usize,
        end_kind: u8,
        end: *const u8,
        end_len: usize,
        out: *mut Rart32Pair,
        out_len: usize,
        written: *mut usize,
        more: *mut bool,
    ) -> u8;

    /// Writes the pairs whose key begins `probe` to `out`, the shortest key first, as many as fit. Writes their number
    /// to `written`, and whether pairs are left to `more`.
    pub fn rart32_matches(
        map: *mut Rart32,
        probe: *const u8,
        probe_len: usize,
        out: *mut Rart32Pair,
        out_len: usize,
        written: *mut usize,
        more: *mut bool,
    ) -> u8;

    /// Replaces all pairs of a map by those of a buffer, whose keys must ascend; of equal keys the last pair stays.
    /// Writes the place of the first pair that is refused, if its key is too long or below the one before it, to `at`.
    pub fn rart32_load_sorted(
        map: *mut Rart32,
        pairs: *const Rart32Pair,
        pairs_len: usize,
        at: *mut usize,
    ) -> u8;

    /// Writes the statistics of a map; of an empty one, zeros.
    pub fn rart32_stats(map: *mut Rart32, stats: *mut RartStats) -> u8;

    /// Inserts `value` at a key and writes the value that it replaces to `old`.
    pub fn rart128_insert(
        map: *mut Rart128,
        key: *const u8,
        key_len: usize,
        value: u64,
        old: *mut u64,
    ) -> u8;

    /// Inserts `value` at a new key; writes the value of a stored key to `stored`, and keeps it.
    pub fn rart128_try_insert(
        map: *mut Rart128,
        key: *const u8,
        key_len: usize,
        value: u64,
        stored: *mut u64,
    ) -> u8;

    /// Removes a key and writes its value to `old`.
    pub fn rart128_remove(map: *mut Rart128, key: *const u8, key_len: usize, old: *mut u64) -> u8;

    /// Removes all pairs whose key begins with `prefix` and writes their number to `removed`.
    pub fn rart128_remove_prefix(
        map: *mut Rart128,
        prefix: *const u8,
        prefix_len: usize,
        removed: *mut usize,
    ) -> u8;

    /// Removes all pairs. The handle keeps its memory for a map; `rart128_free` frees that too.
    pub fn rart128_clear(map: *mut Rart128);

    /// Frees the map. The handle is then null, an empty map that owns no memory; to free it again does nothing.
    pub fn rart128_free(map: *mut Rart128);

    /// Writes the value at a key, and returns whether the key is stored. The key may be of any length.
    pub fn rart128_get(map: *mut Rart128, key: *const u8, key_len: usize, value: *mut u64) -> bool;

    /// Writes the length and the value of the longest key that begins `probe`, and returns whether there is one. The
    /// probe may be of any length.
    pub fn rart128_longest_prefix(
        map: *mut Rart128,
        probe: *const u8,
        probe_len: usize,
        len: *mut usize,
        value: *mut u64,
    ) -> bool;

    /// Returns the number of pairs.
    pub fn rart128_len(map: *mut Rart128) -> usize;

    /// Returns the number of keys that two maps have both. They must not be the same handle.
    pub fn rart128_intersect_count(map: *mut Rart128, other: *mut Rart128) -> usize;

    /// Writes the pair with the least key, and returns whether there is one.
    pub fn rart128_first(map: *mut Rart128, pair: *mut Rart128Pair) -> bool;

    /// Writes the pair with the greatest key, and returns whether there is one.
    pub fn rart128_last(map: *mut Rart128, pair: *mut Rart128Pair) -> bool;

    /// Writes the pairs within two bounds to `out`, ascending by key, as many as fit. Writes their number to `written`,
    /// and whether pairs are left to `more`. A caller that wants those passes the last key as an excluded start.
    pub fn rart128_range(
        map: *mut Rart128,
        start_kind: u8,
        start: *const u8,
        start_len: usize,
        end_kind: u8,
        end: *const u8,
        end_len: usize,
        out: *mut Rart128Pair,
        out_len: usize,
        written: *mut usize,
        more: *mut bool,
    ) -> u8;

    /// Writes the pairs within two bounds to `out`, descending by key, as many as fit. Writes their number to
    /// `written`, and whether pairs are left to `more`. A caller that wants those passes the last key as an excluded
    /// end.
    pub fn rart128_range_descending(
        map: *mut Rart128,
        start_kind: u8,
        start: *const u8,
        start_len: usize,
        end_kind: u8,
        end: *const u8,
        end_len: usize,
        out: *mut Rart128Pair,
        out_len: usize,
        written: *mut usize,
        more: *mut bool,
    ) -> u8;

    /// Writes the pairs whose key begins `probe` to `out`, the shortest key first, as many as fit. Writes their number
    /// to `written`, and whether pairs are left to `more`.
    pub fn rart128_matches(
        map: *mut Rart128,
        probe: *const u8,
        probe_len: usize,
        out: *mut Rart128Pair,
        out_len: usize,
        written: *mut usize,
        more: *mut bool,
    ) -> u8;

    /// Replaces all pairs of a map by those of a buffer, whose keys must ascend; of equal keys the last pair stays.
    /// Writes the place of the first pair that is refused, if its key is too long or below the one before it, to `at`.
    pub fn rart128_load_sorted(
        map: *mut Rart128,
        pairs: *const Rart128Pair,
        pairs_len: usize,
        at: *mut usize,
    ) -> u8;

    /// Writes the statistics of a map; of an empty one, zeros.
    pub fn rart128_stats(map: *mut Rart128, stats: *mut RartStats) -> u8;

    /// Inserts a route from the network of the first `len` bits of an address to `target`, and writes the target that
    /// it replaces to `old`.
    pub fn rart_net4_insert(
        table: *mut RartNet4,
        addr: *const [u8; 4],
        len: u8,
        target: u64,
        old: *mut u64,
    ) -> u8;

    /// Removes the route from a network and writes its target to `old`.
    pub fn rart_net4_remove(
        table: *mut RartNet4,
        addr: *const [u8; 4],
        len: u8,
        old: *mut u64,
    ) -> u8;

    /// Frees the table. The handle is then null, an empty table that owns no memory; to free it again does nothing.
    pub fn rart_net4_free(table: *mut RartNet4);

    /// Writes the target of exactly one network.
    pub fn rart_net4_get(
        table: *mut RartNet4,
        addr: *const [u8; 4],
        len: u8,
        target: *mut u64,
    ) -> u8;

    /// Writes the length and the target of the longest network that contains an address, and returns whether there is
    /// one.
    pub fn rart_net4_longest_match(
        table: *mut RartNet4,
        addr: *const [u8; 4],
        len: *mut u8,
        target: *mut u64,
    ) -> bool;

    /// Returns the number of routes.
    pub fn rart_net4_len(table: *mut RartNet4) -> usize;

    /// Inserts a route from the network of the first `len` bits of an address to `target`, and writes the target that
    /// it replaces to `old`.
    pub fn rart_net6_insert(
        table: *mut RartNet6,
        addr: *const [u8; 16],
        len: u8,
        target: u64,
        old: *mut u64,
    ) -> u8;

    /// Removes the route from a network and writes its target to `old`.
    pub fn rart_net6_remove(
        table: *mut RartNet6,
        addr: *const [u8; 16],
        len: u8,
        old: *mut u64,
    ) -> u8;

    /// Frees the table. The handle is then null, an empty table that owns no memory; to free it again does nothing.
    pub fn rart_net6_free(table: *mut RartNet6);

    /// Writes the target of exactly one network.
    pub fn rart_net6_get(
        table: *mut RartNet6,
        addr: *const [u8; 16],
        len: u8,
        target: *mut u64,
    ) -> u8;

    /// Writes the length and the target of the longest network that contains an address, and returns whether there is
    /// one.
    pub fn rart_net6_longest_match(
        table: *mut RartNet6,
        addr: *const [u8; 16],
        len: *mut u8,
        target: *mut u64,
    ) -> bool;

    /// Returns the number of routes.
    pub fn rart_net6_len(table: *mut RartNet6) -> usize;
}

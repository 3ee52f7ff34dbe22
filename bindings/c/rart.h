/* The proved map for C. Written by bindings/generate from crates/rart_c/src: change that, and run it again.
 *
 * A map is a struct of one pointer. Zeroed, as by `rart32 map = {0};`, it is empty. Free it by `rart32_free` or
 * `rart128_free`. A table of networks is such a struct too, freed by `rart_net4_free` or `rart_net6_free`. An address
 * is its bytes in network order, and a length that is no `uint8_t` must be tested before the call: C would cut it.
 *
 * A function that returns a `bool` returns true if there is an answer. A status of success is `RART_DONE`, which is 0:
 * a network is stored if `rart_net4_get(..) == RART_DONE`, and `RART_ABSENT` says that it isn't.
 *
 * What a function does on each status is proved for every call that keeps these rules:
 * - A pointer to a key, a probe or a buffer is valid for its length, one to an address for 4 bytes or for 16; no two
 *   pointers of a call overlap if one of them is written. Other pointers are aligned and not NULL.
 * - A map or a table is zeroed or as the last call left it, and was not copied. It is used by one call at a time, on
 *   one thread, and not from a signal handler.
 *
 * `Proved:` quotes the contract; its words are defined in crates/rart_c/specs. `x.old` is what x points to before the
 * call, `x.new` after it, `x.now` if it isn't written; `map.old.held.tree.pairs` are the pairs, ascending by key, and
 * `table.old.held.table` the routes, ascending by the bits of their networks.
 */
#ifndef RART_H
#define RART_H

#include <stdbool.h>
#include <stddef.h>
#include <stdint.h>

#ifdef __cplusplus
extern "C" {
#endif

/* No bound; the key is ignored. */
#define RART_UNBOUNDED 0

/* The key itself is within the range. */
#define RART_INCLUDED 1

/* The key itself is not within the range. */
#define RART_EXCLUDED 2

/* The call succeeded. Of an insertion: the key was new. */
#define RART_DONE 0

/* The key was stored, and its old value was replaced. */
#define RART_REPLACED 1

/* The key is stored, and keeps its value. */
#define RART_STORED 1

/* The key is not stored. */
#define RART_ABSENT 1

/* An allocation failed. Nothing has changed. */
#define RART_NO_MEMORY 2

/* The map holds as many pairs as it can count. Nothing has changed. */
#define RART_FULL 3

/* A key has more bytes than the map's keys have. The map has not changed, nor has a variable, except the place of a
 * pair that a load writes.
 */
#define RART_KEY_TOO_LONG 4

/* A bound is none of unbounded, included and excluded. Nothing has changed. */
#define RART_BAD_BOUND 5

/* A key is below the one before it, at the place that was written. The map has not changed. */
#define RART_UNSORTED 6

/* A network has more bits than its address. Nothing has changed. */
#define RART_BAD_LENGTH 7

/* A bit of the address after those of the network is set. Nothing has changed. */
#define RART_HOST_BITS 8

/* The nodes of a map, counted. */
typedef struct rart_stats {
  /* Nodes without children. */
  size_t leaves;
  /* Nodes with a value. */
  size_t values;
  /* Nodes with children. */
  size_t inner_nodes;
  /* The children of all nodes. */
  size_t children;
  /* The sum of the capacities of the inner nodes. */
  size_t width;
  /* The most nodes on a path from the root. */
  size_t height;
} rart_stats;

/* A pair: the first `len` bytes of `key` are the key. The others are zero where a call wrote the pair. */
typedef struct rart32_pair {
  uint8_t key[32];
  size_t len;
  uint64_t value;
} rart32_pair;

/* A map from keys of at most 32 bytes to `u64`. Zeroed, it is an empty map. A call takes it by its address and is the
 * only one that uses it; a copy of it must not be used once either is passed to a call.
 */
typedef struct rart32 {
  void *at;
} rart32;

/* A pair: the first `len` bytes of `key` are the key. The others are zero where a call wrote the pair. */
typedef struct rart128_pair {
  uint8_t key[128];
  size_t len;
  uint64_t value;
} rart128_pair;

/* A map from keys of at most 128 bytes to `u64`. Zeroed, it is an empty map. A call takes it by its address and is the
 * only one that uses it; a copy of it must not be used once either is passed to a call.
 */
typedef struct rart128 {
  void *at;
} rart128;

/* A table from IPv4 networks to `u64` targets. Zeroed, it is an empty table. A call takes it by its address and is the
 * only one that uses it; a copy of it must not be used once either is passed to a call.
 */
typedef struct rart_net4 {
  void *at;
} rart_net4;

/* A table from IPv6 networks to `u64` targets. Zeroed, it is an empty table. A call takes it by its address and is the
 * only one that uses it; a copy of it must not be used once either is passed to a call.
 */
typedef struct rart_net6 {
  void *at;
} rart_net6;

/* Inserts `value` at a key and writes the value that it replaces to `old`.
 *
 * Proved: Inserts 32 key.now value map.old.held.tree.pairs map.new.held.tree.pairs old.old old.new (status_of result)
 */
uint8_t rart32_insert(rart32 *map, const uint8_t *key, size_t key_len, uint64_t value,
    uint64_t *old);

/* Inserts `value` at a new key; writes the value of a stored key to `stored`, and keeps it.
 *
 * Proved: InsertsNew 32 key.now value map.old.held.tree.pairs map.new.held.tree.pairs stored.old stored.new
 *   (status_of result)
 */
uint8_t rart32_try_insert(rart32 *map, const uint8_t *key, size_t key_len, uint64_t value,
    uint64_t *stored);

/* Removes a key and writes its value to `old`.
 *
 * Proved: Removes 32 key.now map.old.held.tree.pairs map.new.held.tree.pairs old.old old.new (status_of result)
 */
uint8_t rart32_remove(rart32 *map, const uint8_t *key, size_t key_len, uint64_t *old);

/* Removes all pairs whose key begins with `prefix` and writes their number to `removed`.
 *
 * Proved: RemovesPrefix 32 prefix.now map.old.held.tree.pairs map.new.held.tree.pairs removed.old removed.new
 *   (status_of result)
 */
uint8_t rart32_remove_prefix(rart32 *map, const uint8_t *prefix, size_t prefix_len,
    size_t *removed);

/* Removes all pairs. The handle keeps its memory for a map; `rart32_free` frees that too.
 *
 * Proved: map.new.held ≡ empty_map
 */
void rart32_clear(rart32 *map);

/* Frees the map. The handle is then null, an empty map that owns no memory; to free it again does nothing.
 *
 * Proved: map.new.held ≡ empty_map
 */
void rart32_free(rart32 *map);

/* Writes the value at a key, and returns whether the key is stored. The key may be of any length.
 *
 * Proved: Finds (λ v. v) (lookup key.now map.old.held.tree.pairs) value.old value.new result
 * Proved: map.new.held ≡ map.old.held
 */
bool rart32_get(rart32 *map, const uint8_t *key, size_t key_len, uint64_t *value);

/* Writes the length and the value of the longest key that begins `probe`, and returns whether there is one. The probe
 * may be of any length.
 *
 * Proved: FindsLongest probe.now map.old.held.tree.pairs (len.old, value.old) (len.new, value.new) result
 * Proved: IsTrue result → len.new ≤ length probe.now
 * Proved: map.new.held ≡ map.old.held
 */
bool rart32_longest_prefix(rart32 *map, const uint8_t *probe, size_t probe_len, size_t *len,
    uint64_t *value);

/* Returns the number of pairs.
 *
 * Proved: result ≡ length map.old.held.tree.pairs
 * Proved: map.new.held ≡ map.old.held
 */
size_t rart32_len(rart32 *map);

/* Returns the number of keys that two maps have both. They must not be the same handle.
 *
 * Proved: result ≡ length (join map.old.held.tree.pairs other.old.held.tree.pairs)
 * Proved: map.new.held ≡ map.old.held
 * Proved: other.new.held ≡ other.old.held
 */
size_t rart32_intersect_count(rart32 *map, rart32 *other);

/* Writes the pair with the least key, and returns whether there is one.
 *
 * Proved: Finds pair_in (slice_get map.old.held.tree.pairs 0) pair.old pair.new result
 * Proved: map.new.held ≡ map.old.held
 */
bool rart32_first(rart32 *map, rart32_pair *pair);

/* Writes the pair with the greatest key, and returns whether there is one.
 *
 * Proved: Finds pair_in (last_or None map.old.held.tree.pairs) pair.old pair.new result
 * Proved: map.new.held ≡ map.old.held
 */
bool rart32_last(rart32 *map, rart32_pair *pair);

/* Writes the pairs within two bounds to `out`, ascending by key, as many as fit. Writes their number to `written`, and
 * whether pairs are left to `more`. A caller that wants those passes the last key as an excluded start.
 *
 * Proved: RangesTo pair_in (range_fault 32 start_kind start.now end_kind end.now) map.old.held.tree.pairs (between
 *   (bound_of start_kind start.now) (bound_of end_kind end.now) map.old.held.tree.pairs) (record { pairs = out.old;
 *   written = written.old; more = more.old }) (record { pairs = out.new; written = written.new; more = more.new })
 *   (status_of result)
 * Proved: map.new.held ≡ map.old.held
 */
uint8_t rart32_range(rart32 *map, uint8_t start_kind, const uint8_t *start, size_t start_len,
    uint8_t end_kind, const uint8_t *end, size_t end_len, rart32_pair *out, size_t out_len,
    size_t *written, bool *more);

/* Writes the pairs within two bounds to `out`, descending by key, as many as fit. Writes their number to `written`,
 * and whether pairs are left to `more`. A caller that wants those passes the last key as an excluded end.
 *
 * Proved: RangesTo pair_in (range_fault 32 start_kind start.now end_kind end.now) map.old.held.tree.pairs (reverse
 *   (between (bound_of start_kind start.now) (bound_of end_kind end.now) map.old.held.tree.pairs)) (record { pairs =
 *   out.old; written = written.old; more = more.old }) (record { pairs = out.new; written = written.new; more =
 *   more.new }) (status_of result)
 * Proved: map.new.held ≡ map.old.held
 */
uint8_t rart32_range_descending(rart32 *map, uint8_t start_kind, const uint8_t *start,
    size_t start_len, uint8_t end_kind, const uint8_t *end, size_t end_len, rart32_pair *out,
    size_t out_len, size_t *written, bool *more);

/* Writes the pairs whose key begins `probe` to `out`, the shortest key first, as many as fit. Writes their number to
 * `written`, and whether pairs are left to `more`.
 *
 * Proved: MatchesTo pair_in 32 (length probe.now) (matches probe.now map.old.held.tree.pairs) (record { pairs =
 *   out.old; written = written.old; more = more.old }) (record { pairs = out.new; written = written.new; more =
 *   more.new }) (status_of result)
 * Proved: map.new.held ≡ map.old.held
 */
uint8_t rart32_matches(rart32 *map, const uint8_t *probe, size_t probe_len, rart32_pair *out,
    size_t out_len, size_t *written, bool *more);

/* Replaces all pairs of a map by those of a buffer, whose keys must ascend; of equal keys the last pair stays. Writes
 * the place of the first pair that is refused, if its key is too long or below the one before it, to `at`.
 *
 * Proved: Loads 32 (lens_read pairs.now) (pairs_read pairs.now) map.old.held.tree.pairs map.new.held.tree.pairs
 *   at.old at.new (status_of result)
 */
uint8_t rart32_load_sorted(rart32 *map, const rart32_pair *pairs, size_t pairs_len, size_t *at);

/* Writes the statistics of a map; of an empty one, zeros.
 *
 * Proved: CountsNodes map.old.held.tree stats.old stats.new (status_of result)
 * Proved: map.new.held ≡ map.old.held
 */
uint8_t rart32_stats(rart32 *map, rart_stats *stats);

/* Inserts `value` at a key and writes the value that it replaces to `old`.
 *
 * Proved: Inserts 128 key.now value map.old.held.tree.pairs map.new.held.tree.pairs old.old old.new (status_of result)
 */
uint8_t rart128_insert(rart128 *map, const uint8_t *key, size_t key_len, uint64_t value,
    uint64_t *old);

/* Inserts `value` at a new key; writes the value of a stored key to `stored`, and keeps it.
 *
 * Proved: InsertsNew 128 key.now value map.old.held.tree.pairs map.new.held.tree.pairs stored.old stored.new
 *   (status_of result)
 */
uint8_t rart128_try_insert(rart128 *map, const uint8_t *key, size_t key_len, uint64_t value,
    uint64_t *stored);

/* Removes a key and writes its value to `old`.
 *
 * Proved: Removes 128 key.now map.old.held.tree.pairs map.new.held.tree.pairs old.old old.new (status_of result)
 */
uint8_t rart128_remove(rart128 *map, const uint8_t *key, size_t key_len, uint64_t *old);

/* Removes all pairs whose key begins with `prefix` and writes their number to `removed`.
 *
 * Proved: RemovesPrefix 128 prefix.now map.old.held.tree.pairs map.new.held.tree.pairs removed.old removed.new
 *   (status_of result)
 */
uint8_t rart128_remove_prefix(rart128 *map, const uint8_t *prefix, size_t prefix_len,
    size_t *removed);

/* Removes all pairs. The handle keeps its memory for a map; `rart128_free` frees that too.
 *
 * Proved: map.new.held ≡ empty_map
 */
void rart128_clear(rart128 *map);

/* Frees the map. The handle is then null, an empty map that owns no memory; to free it again does nothing.
 *
 * Proved: map.new.held ≡ empty_map
 */
void rart128_free(rart128 *map);

/* Writes the value at a key, and returns whether the key is stored. The key may be of any length.
 *
 * Proved: Finds (λ v. v) (lookup key.now map.old.held.tree.pairs) value.old value.new result
 * Proved: map.new.held ≡ map.old.held
 */
bool rart128_get(rart128 *map, const uint8_t *key, size_t key_len, uint64_t *value);

/* Writes the length and the value of the longest key that begins `probe`, and returns whether there is one. The probe
 * may be of any length.
 *
 * Proved: FindsLongest probe.now map.old.held.tree.pairs (len.old, value.old) (len.new, value.new) result
 * Proved: IsTrue result → len.new ≤ length probe.now
 * Proved: map.new.held ≡ map.old.held
 */
bool rart128_longest_prefix(rart128 *map, const uint8_t *probe, size_t probe_len, size_t *len,
    uint64_t *value);

/* Returns the number of pairs.
 *
 * Proved: result ≡ length map.old.held.tree.pairs
 * Proved: map.new.held ≡ map.old.held
 */
size_t rart128_len(rart128 *map);

/* Returns the number of keys that two maps have both. They must not be the same handle.
 *
 * Proved: result ≡ length (join map.old.held.tree.pairs other.old.held.tree.pairs)
 * Proved: map.new.held ≡ map.old.held
 * Proved: other.new.held ≡ other.old.held
 */
size_t rart128_intersect_count(rart128 *map, rart128 *other);

/* Writes the pair with the least key, and returns whether there is one.
 *
 * Proved: Finds pair_in (slice_get map.old.held.tree.pairs 0) pair.old pair.new result
 * Proved: map.new.held ≡ map.old.held
 */
bool rart128_first(rart128 *map, rart128_pair *pair);

/* Writes the pair with the greatest key, and returns whether there is one.
 *
 * Proved: Finds pair_in (last_or None map.old.held.tree.pairs) pair.old pair.new result
 * Proved: map.new.held ≡ map.old.held
 */
bool rart128_last(rart128 *map, rart128_pair *pair);

/* Writes the pairs within two bounds to `out`, ascending by key, as many as fit. Writes their number to `written`, and
 * whether pairs are left to `more`. A caller that wants those passes the last key as an excluded start.
 *
 * Proved: RangesTo pair_in (range_fault 128 start_kind start.now end_kind end.now) map.old.held.tree.pairs (between
 *   (bound_of start_kind start.now) (bound_of end_kind end.now) map.old.held.tree.pairs) (record { pairs = out.old;
 *   written = written.old; more = more.old }) (record { pairs = out.new; written = written.new; more = more.new })
 *   (status_of result)
 * Proved: map.new.held ≡ map.old.held
 */
uint8_t rart128_range(rart128 *map, uint8_t start_kind, const uint8_t *start, size_t start_len,
    uint8_t end_kind, const uint8_t *end, size_t end_len, rart128_pair *out, size_t out_len,
    size_t *written, bool *more);

/* Writes the pairs within two bounds to `out`, descending by key, as many as fit. Writes their number to `written`,
 * and whether pairs are left to `more`. A caller that wants those passes the last key as an excluded end.
 *
 * Proved: RangesTo pair_in (range_fault 128 start_kind start.now end_kind end.now) map.old.held.tree.pairs (reverse
 *   (between (bound_of start_kind start.now) (bound_of end_kind end.now) map.old.held.tree.pairs)) (record { pairs =
 *   out.old; written = written.old; more = more.old }) (record { pairs = out.new; written = written.new; more =
 *   more.new }) (status_of result)
 * Proved: map.new.held ≡ map.old.held
 */
uint8_t rart128_range_descending(rart128 *map, uint8_t start_kind, const uint8_t *start,
    size_t start_len, uint8_t end_kind, const uint8_t *end, size_t end_len, rart128_pair *out,
    size_t out_len, size_t *written, bool *more);

/* Writes the pairs whose key begins `probe` to `out`, the shortest key first, as many as fit. Writes their number to
 * `written`, and whether pairs are left to `more`.
 *
 * Proved: MatchesTo pair_in 128 (length probe.now) (matches probe.now map.old.held.tree.pairs) (record { pairs =
 *   out.old; written = written.old; more = more.old }) (record { pairs = out.new; written = written.new; more =
 *   more.new }) (status_of result)
 * Proved: map.new.held ≡ map.old.held
 */
uint8_t rart128_matches(rart128 *map, const uint8_t *probe, size_t probe_len, rart128_pair *out,
    size_t out_len, size_t *written, bool *more);

/* Replaces all pairs of a map by those of a buffer, whose keys must ascend; of equal keys the last pair stays. Writes
 * the place of the first pair that is refused, if its key is too long or below the one before it, to `at`.
 *
 * Proved: Loads 128 (lens_read pairs.now) (pairs_read pairs.now) map.old.held.tree.pairs map.new.held.tree.pairs
 *   at.old at.new (status_of result)
 */
uint8_t rart128_load_sorted(rart128 *map, const rart128_pair *pairs, size_t pairs_len, size_t *at);

/* Writes the statistics of a map; of an empty one, zeros.
 *
 * Proved: CountsNodes map.old.held.tree stats.old stats.new (status_of result)
 * Proved: map.new.held ≡ map.old.held
 */
uint8_t rart128_stats(rart128 *map, rart_stats *stats);

/* Inserts a route from the network of the first `len` bits of an address to `target`, and writes the target that it
 * replaces to `old`.
 *
 * Proved: InsertsNet (bits_of addr.now) len target table.old.held.table table.new.held.table old.old old.new
 *   (status_of result)
 */
uint8_t rart_net4_insert(rart_net4 *table, const uint8_t addr[4], uint8_t len, uint64_t target,
    uint64_t *old);

/* Removes the route from a network and writes its target to `old`.
 *
 * Proved: RemovesNet (bits_of addr.now) len table.old.held.table table.new.held.table old.old old.new (status_of
 *   result)
 */
uint8_t rart_net4_remove(rart_net4 *table, const uint8_t addr[4], uint8_t len, uint64_t *old);

/* Frees the table. The handle is then null, an empty table that owns no memory; to free it again does nothing.
 *
 * Proved: table.new.held ≡ empty_table
 */
void rart_net4_free(rart_net4 *table);

/* Writes the target of exactly one network.
 *
 * Proved: FindsNet (bits_of addr.now) len table.old.held.table target.old target.new (status_of result)
 * Proved: table.new.held ≡ table.old.held
 */
uint8_t rart_net4_get(rart_net4 *table, const uint8_t addr[4], uint8_t len, uint64_t *target);

/* Writes the length and the target of the longest network that contains an address, and returns whether there is one.
 *
 * Proved: FindsLongestNet (bits_of addr.now) table.old.held.table (len.old, target.old) (len.new, target.new) result
 * Proved: table.new.held ≡ table.old.held
 */
bool rart_net4_longest_match(rart_net4 *table, const uint8_t addr[4], uint8_t *len,
    uint64_t *target);

/* Returns the number of routes.
 *
 * Proved: result ≡ length table.old.held.table
 * Proved: table.new.held ≡ table.old.held
 */
size_t rart_net4_len(rart_net4 *table);

/* Inserts a route from the network of the first `len` bits of an address to `target`, and writes the target that it
 * replaces to `old`.
 *
 * Proved: InsertsNet (bits_of addr.now) len target table.old.held.table table.new.held.table old.old old.new
 *   (status_of result)
 */
uint8_t rart_net6_insert(rart_net6 *table, const uint8_t addr[16], uint8_t len, uint64_t target,
    uint64_t *old);

/* Removes the route from a network and writes its target to `old`.
 *
 * Proved: RemovesNet (bits_of addr.now) len table.old.held.table table.new.held.table old.old old.new (status_of
 *   result)
 */
uint8_t rart_net6_remove(rart_net6 *table, const uint8_t addr[16], uint8_t len, uint64_t *old);

/* Frees the table. The handle is then null, an empty table that owns no memory; to free it again does nothing.
 *
 * Proved: table.new.held ≡ empty_table
 */
void rart_net6_free(rart_net6 *table);

/* Writes the target of exactly one network.
 *
 * Proved: FindsNet (bits_of addr.now) len table.old.held.table target.old target.new (status_of result)
 * Proved: table.new.held ≡ table.old.held
 */
uint8_t rart_net6_get(rart_net6 *table, const uint8_t addr[16], uint8_t len, uint64_t *target);

/* Writes the length and the target of the longest network that contains an address, and returns whether there is one.
 *
 * Proved: FindsLongestNet (bits_of addr.now) table.old.held.table (len.old, target.old) (len.new, target.new) result
 * Proved: table.new.held ≡ table.old.held
 */
bool rart_net6_longest_match(rart_net6 *table, const uint8_t addr[16], uint8_t *len,
    uint64_t *target);

/* Returns the number of routes.
 *
 * Proved: result ≡ length table.old.held.table
 * Proved: table.new.held ≡ table.old.held
 */
size_t rart_net6_len(rart_net6 *table);

#ifdef __cplusplus
}
#endif

#endif

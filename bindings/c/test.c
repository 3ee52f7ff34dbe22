/* Calls each function of rart.h. It ends with 0, or stops at the first answer that is wrong. The linker's option
 * `--wrap` leads the library's calls of malloc, realloc and free to the functions below, which count blocks and refuse
 * requests.
 */
#include "rart.h"

#include <stdio.h>
#include <stdlib.h>
#include <string.h>

#define BYTES(text) (const uint8_t *)(text), sizeof(text) - 1

#define CHECK(condition)                                                    \
  do {                                                                      \
    if (!(condition)) {                                                     \
      fprintf(stderr, "%s:%d: not %s\n", __FILE__, __LINE__, #condition);   \
      exit(1);                                                              \
    }                                                                       \
  } while (0)

_Static_assert(sizeof(rart32) == sizeof(void *), "a map is one pointer");
_Static_assert(sizeof(rart32_pair) == 48, "a pair has no padding");
_Static_assert(sizeof(rart128) == sizeof(void *), "a map is one pointer");
_Static_assert(sizeof(rart128_pair) == 144, "a pair has no padding");
_Static_assert(sizeof(rart_net4) == sizeof(void *), "a table is one pointer");
_Static_assert(sizeof(rart_net6) == sizeof(void *), "a table is one pointer");

/* How many requests for memory succeed before the others are refused. */
static size_t granted = SIZE_MAX;

/* Blocks that were requested and not yet freed. */
static size_t blocks = 0;

void *__real_malloc(size_t size);
void *__real_realloc(void *block, size_t size);
void __real_free(void *block);
void *__wrap_malloc(size_t size);
void *__wrap_realloc(void *block, size_t size);
void __wrap_free(void *block);

static bool is_granted(void) {
  if (granted == 0) return false;
  granted -= granted != SIZE_MAX;
  return true;
}

void *__wrap_malloc(size_t size) {
  void *block = is_granted() ? __real_malloc(size) : NULL;
  blocks += block != NULL;
  return block;
}

void *__wrap_realloc(void *block, size_t size) { return is_granted() ? __real_realloc(block, size) : NULL; }

void __wrap_free(void *block) {
  blocks -= block != NULL;
  __real_free(block);
}

static bool has_pair(const rart32_pair *pair, const char *key, uint64_t value) {
  return pair->len == strlen(key) && memcmp(pair->key, key, pair->len) == 0 && pair->value == value;
}

static rart32 three_words(void) {
  rart32 map = {0};
  uint64_t old = 77;
  CHECK(rart32_insert(&map, BYTES("cat"), 1, &old) == RART_DONE);
  CHECK(rart32_insert(&map, BYTES("catalog"), 2, &old) == RART_DONE);
  CHECK(rart32_insert(&map, BYTES("dog"), 3, &old) == RART_DONE);
  CHECK(old == 77);
  return map;
}

static void test_empty(void) {
  rart32 map = {0};
  uint64_t value = 77;
  size_t number = 77;
  bool more = true;
  rart32_pair pair;
  rart_stats stats;
  CHECK(rart32_len(&map) == 0);
  CHECK(!rart32_get(&map, BYTES("cat"), &value) && value == 77);
  CHECK(!rart32_longest_prefix(&map, BYTES("cat"), &number, &value) && number == 77);
  CHECK(!rart32_first(&map, &pair) && !rart32_last(&map, &pair));
  CHECK(rart32_remove(&map, BYTES("cat"), &value) == RART_ABSENT && value == 77);
  CHECK(rart32_range(&map, RART_UNBOUNDED, NULL, 0, RART_UNBOUNDED, NULL, 0, &pair, 1, &number, &more) == RART_DONE);
  CHECK(number == 0 && !more);
  CHECK(rart32_stats(&map, &stats) == RART_DONE && stats.leaves == 0 && stats.height == 0);
  CHECK(rart32_remove_prefix(&map, BYTES(""), &number) == RART_DONE && number == 0);
  rart32_clear(&map);
  rart32_free(&map);
  rart32_free(&map);
  CHECK(map.at == NULL);
}

static void test_edits(void) {
  rart32 map = three_words();
  uint64_t old = 77;
  size_t number = 77;
  CHECK(rart32_insert(&map, BYTES("dog"), 4, &old) == RART_REPLACED && old == 3);
  CHECK(rart32_try_insert(&map, BYTES("dog"), 5, &old) == RART_STORED && old == 4);
  CHECK(rart32_try_insert(&map, BYTES("dot"), 5, &old) == RART_DONE && old == 4);
  CHECK(rart32_remove(&map, BYTES("dot"), &old) == RART_DONE && old == 5);
  CHECK(rart32_remove(&map, BYTES("dot"), &old) == RART_ABSENT && old == 5);
  CHECK(rart32_insert(&map, BYTES("123456789012345678901234567890123"), 1, &old) == RART_KEY_TOO_LONG);
  CHECK(rart32_len(&map) == 3);
  CHECK(rart32_remove_prefix(&map, BYTES("ca"), &number) == RART_DONE && number == 2);
  CHECK(rart32_len(&map) == 1);
  rart32_clear(&map);
  CHECK(rart32_len(&map) == 0);
  rart32_free(&map);
}

static void test_look_ups(void) {
  rart32 map = three_words(), other = {0};
  uint64_t value = 77;
  size_t len = 77;
  rart32_pair pair;
  rart_stats stats;
  CHECK(rart32_get(&map, BYTES("catalog"), &value) && value == 2);
  CHECK(!rart32_get(&map, BYTES("cata"), &value) && value == 2);
  CHECK(rart32_longest_prefix(&map, BYTES("catalogue"), &len, &value) && len == 7 && value == 2);
  CHECK(!rart32_longest_prefix(&map, BYTES("bird"), &len, &value) && len == 7);
  CHECK(rart32_first(&map, &pair) && has_pair(&pair, "cat", 1));
  CHECK(rart32_last(&map, &pair) && has_pair(&pair, "dog", 3));
  CHECK(rart32_intersect_count(&map, &other) == 0);
  CHECK(rart32_insert(&other, BYTES("dog"), 9, &value) == RART_DONE);
  CHECK(rart32_intersect_count(&map, &other) == 1);
  CHECK(rart32_stats(&map, &stats) == RART_DONE && stats.values == 3);
  rart32_free(&other);
  rart32_free(&map);
}

static void test_batches(void) {
  rart32 map = three_words();
  rart32_pair out[3];
  size_t written = 77;
  bool more = false;
  CHECK(rart32_range(&map, RART_UNBOUNDED, NULL, 0, RART_UNBOUNDED, NULL, 0, out, 2, &written, &more) == RART_DONE);
  CHECK(written == 2 && more && has_pair(&out[0], "cat", 1) && has_pair(&out[1], "catalog", 2));
  CHECK(rart32_range(&map, RART_EXCLUDED, BYTES("catalog"), RART_UNBOUNDED, NULL, 0, out, 2, &written, &more) ==
        RART_DONE);
  CHECK(written == 1 && !more && has_pair(&out[0], "dog", 3));
  CHECK(rart32_range(&map, RART_INCLUDED, BYTES("cat"), RART_INCLUDED, BYTES("cat"), out, 3, &written, &more) ==
        RART_DONE);
  CHECK(written == 1 && !more && has_pair(&out[0], "cat", 1));
  CHECK(rart32_range_descending(&map, RART_UNBOUNDED, NULL, 0, RART_EXCLUDED, BYTES("dog"), out, 3, &written, &more) ==
        RART_DONE);
  CHECK(written == 2 && !more && has_pair(&out[0], "catalog", 2) && has_pair(&out[1], "cat", 1));
  CHECK(rart32_matches(&map, BYTES("catalogue"), out, 3, &written, &more) == RART_DONE);
  CHECK(written == 2 && !more && has_pair(&out[0], "cat", 1) && has_pair(&out[1], "catalog", 2));
  CHECK(rart32_range(&map, 3, NULL, 0, RART_UNBOUNDED, NULL, 0, out, 3, &written, &more) == RART_BAD_BOUND);
  CHECK(rart32_range(&map, RART_INCLUDED, BYTES("123456789012345678901234567890123"), RART_UNBOUNDED, NULL, 0, out, 3,
                     &written, &more) == RART_KEY_TOO_LONG);
  CHECK(written == 2);
  rart32_free(&map);
}

static rart32_pair pair_of(const char *key, uint64_t value) {
  rart32_pair pair = {.len = strlen(key), .value = value};
  memcpy(pair.key, key, pair.len);
  return pair;
}

static void test_loads(void) {
  rart32 map = three_words();
  size_t at = 77;
  rart32_pair pair;
  rart32_pair pairs[4] = {pair_of("ant", 1), pair_of("bee", 2), pair_of("bee", 3), pair_of("cow", 4)};
  CHECK(rart32_load_sorted(&map, pairs, 4, &at) == RART_DONE && at == 77);
  CHECK(rart32_len(&map) == 3);
  CHECK(rart32_first(&map, &pair) && has_pair(&pair, "ant", 1));
  CHECK(rart32_last(&map, &pair) && has_pair(&pair, "cow", 4));
  pairs[3] = pair_of("asp", 5);
  CHECK(rart32_load_sorted(&map, pairs, 4, &at) == RART_UNSORTED && at == 3);
  pairs[1].len = 33;
  CHECK(rart32_load_sorted(&map, pairs, 4, &at) == RART_KEY_TOO_LONG && at == 1);
  CHECK(rart32_len(&map) == 3);
  CHECK(rart32_load_sorted(&map, NULL, 0, &at) == RART_DONE && rart32_len(&map) == 0);
  rart32_free(&map);
}

/* Each function of the wide maps once. */
static void test_wide(void) {
  rart128 map = {0}, other = {0};
  uint8_t key[129];
  uint64_t value = 77;
  size_t number = 77;
  bool more = true;
  rart128_pair pair, loaded[2] = {{.key = "a", .len = 1, .value = 1}, {.key = "b", .len = 1, .value = 2}};
  rart_stats stats;
  memset(key, 'k', sizeof key);
  CHECK(rart128_insert(&map, key, 129, 1, &value) == RART_KEY_TOO_LONG && value == 77);
  CHECK(rart128_insert(&map, key, 128, 1, &value) == RART_DONE);
  CHECK(rart128_try_insert(&map, key, 128, 2, &value) == RART_STORED && value == 1);
  CHECK(rart128_get(&map, key, 128, &value) && value == 1 && !rart128_get(&map, key, 127, &value));
  CHECK(rart128_longest_prefix(&map, key, 129, &number, &value) && number == 128);
  CHECK(rart128_first(&map, &pair) && pair.len == 128 && pair.value == 1 && memcmp(pair.key, key, 128) == 0);
  CHECK(rart128_last(&map, &pair) && pair.len == 128);
  CHECK(rart128_range(&map, RART_INCLUDED, key, 1, RART_UNBOUNDED, NULL, 0, &pair, 1, &number, &more) == RART_DONE);
  CHECK(number == 1 && !more);
  CHECK(rart128_range_descending(&map, RART_UNBOUNDED, NULL, 0, RART_EXCLUDED, key, 1, &pair, 1, &number, &more) ==
        RART_DONE);
  CHECK(number == 0 && !more);
  CHECK(rart128_matches(&map, key, 128, &pair, 1, &number, &more) == RART_DONE && number == 1 && !more);
  CHECK(rart128_intersect_count(&map, &other) == 0);
  CHECK(rart128_stats(&map, &stats) == RART_DONE && stats.leaves == 1);
  CHECK(rart128_load_sorted(&other, loaded, 2, &number) == RART_DONE && rart128_len(&other) == 2);
  CHECK(rart128_remove_prefix(&other, BYTES("a"), &number) == RART_DONE && number == 1);
  CHECK(rart128_remove(&other, BYTES("b"), &value) == RART_DONE && value == 2);
  rart128_clear(&map);
  CHECK(rart128_len(&map) == 0);
  rart128_free(&other);
  rart128_free(&map);
}

static void test_networks(void) {
  rart_net4 table = {0};
  const uint8_t ten[4] = {10, 0, 0, 0}, office[4] = {10, 16, 0, 0}, host[4] = {10, 16, 2, 3}, other[4] = {11, 0, 0, 1};
  uint64_t target = 77;
  uint8_t len = 77;
  CHECK(rart_net4_len(&table) == 0 && !rart_net4_longest_match(&table, host, &len, &target) && len == 77);
  CHECK(rart_net4_insert(&table, ten, 8, 1, &target) == RART_DONE && target == 77);
  CHECK(rart_net4_insert(&table, office, 12, 2, &target) == RART_DONE);
  CHECK(rart_net4_insert(&table, office, 12, 3, &target) == RART_REPLACED && target == 2);
  CHECK(rart_net4_insert(&table, host, 12, 4, &target) == RART_HOST_BITS);
  CHECK(rart_net4_insert(&table, host, 33, 4, &target) == RART_BAD_LENGTH && target == 2);
  CHECK(rart_net4_longest_match(&table, host, &len, &target) && len == 12 && target == 3);
  CHECK(!rart_net4_longest_match(&table, other, &len, &target) && len == 12);
  CHECK(rart_net4_get(&table, ten, 8, &target) == RART_DONE && target == 1);
  CHECK(rart_net4_get(&table, ten, 9, &target) == RART_ABSENT && target == 1);
  CHECK(rart_net4_remove(&table, office, 12, &target) == RART_DONE && target == 3);
  CHECK(rart_net4_remove(&table, office, 12, &target) == RART_ABSENT);
  CHECK(rart_net4_longest_match(&table, host, &len, &target) && len == 8 && target == 1);
  rart_net4_free(&table);
  rart_net4_free(&table);
  CHECK(rart_net4_len(&table) == 0);
}

static void test_wide_networks(void) {
  rart_net6 table = {0};
  const uint8_t doc[16] = {0x20, 1, 0x0d, 0xb8}, host[16] = {0x20, 1, 0x0d, 0xb8, [15] = 1};
  uint64_t target = 77;
  uint8_t len = 77;
  CHECK(rart_net6_insert(&table, doc, 32, 1, &target) == RART_DONE);
  CHECK(rart_net6_insert(&table, host, 128, 2, &target) == RART_DONE);
  CHECK(rart_net6_insert(&table, host, 64, 3, &target) == RART_HOST_BITS);
  CHECK(rart_net6_insert(&table, host, 129, 3, &target) == RART_BAD_LENGTH && target == 77);
  CHECK(rart_net6_longest_match(&table, host, &len, &target) && len == 128 && target == 2);
  CHECK(rart_net6_remove(&table, host, 128, &target) == RART_DONE && target == 2);
  CHECK(rart_net6_longest_match(&table, host, &len, &target) && len == 32 && target == 1);
  CHECK(rart_net6_get(&table, doc, 32, &target) == RART_DONE && rart_net6_len(&table) == 1);
  rart_net6_free(&table);
}

/* Many keys, so that each kind of node is made and freed. */
static void test_many(void) {
  rart32 map = {0};
  uint64_t old, value;
  for (uint64_t i = 0; i < 100000; i++) {
    uint64_t key = i * 0x9E3779B97F4A7C15u;
    CHECK(rart32_insert(&map, (const uint8_t *)&key, sizeof key, i, &old) == RART_DONE);
  }
  CHECK(rart32_len(&map) == 100000);
  for (uint64_t i = 0; i < 100000; i += 2) {
    uint64_t key = i * 0x9E3779B97F4A7C15u;
    CHECK(rart32_remove(&map, (const uint8_t *)&key, sizeof key, &old) == RART_DONE && old == i);
  }
  for (uint64_t i = 0; i < 100000; i++) {
    uint64_t key = i * 0x9E3779B97F4A7C15u;
    CHECK(rart32_get(&map, (const uint8_t *)&key, sizeof key, &value) == (i % 2 == 1));
  }
  rart32_free(&map);
}

/* Inserts and removes pairs and networks with a number of requests for memory, and returns whether one was refused. A
 * call that lacks memory changes nothing and succeeds later.
 */
static bool lacks_memory(size_t requests) {
  rart32 map = {0};
  rart_net6 table = {0};
  bool lacks = false;
  granted = requests;
  for (unsigned i = 0; i < 2 * 120; i++) {
    const uint8_t high = (uint8_t)(i % 120 / 16), low = (uint8_t)(i % 120 % 16), key[2] = {high, low};
    const uint8_t addr[16] = {0x20, high, (uint8_t)(low << 4)}, len = 20 + low % 2 * 100;
    const bool is_first = i < 120;
    const size_t pairs = rart32_len(&map), routes = rart_net6_len(&table);
    uint64_t old = 777, target = 777;
    uint8_t status = is_first ? rart32_insert(&map, key, 2, i, &old) : rart32_remove(&map, key, 2, &old);
    uint8_t answer = is_first ? rart_net6_insert(&table, addr, len, i, &target)
                              : rart_net6_remove(&table, addr, len, &target);
    if (status == RART_NO_MEMORY || answer == RART_NO_MEMORY) {
      lacks = true;
      CHECK(status != RART_NO_MEMORY || (rart32_len(&map) == pairs && old == 777));
      CHECK(answer != RART_NO_MEMORY || (rart_net6_len(&table) == routes && target == 777));
      granted = SIZE_MAX;
      if (status == RART_NO_MEMORY)
        status = is_first ? rart32_insert(&map, key, 2, i, &old) : rart32_remove(&map, key, 2, &old);
      if (answer == RART_NO_MEMORY)
        answer = is_first ? rart_net6_insert(&table, addr, len, i, &target)
                          : rart_net6_remove(&table, addr, len, &target);
    }
    CHECK(status == RART_DONE && old == (is_first ? 777 : i - 120));
    CHECK(answer == RART_DONE && target == (is_first ? 777 : i - 120));
  }
  granted = SIZE_MAX;
  CHECK(rart32_len(&map) == 0 && rart_net6_len(&table) == 0);
  rart32_free(&map);
  rart_net6_free(&table);
  CHECK(blocks == 0 && map.at == NULL && table.at == NULL);
  return lacks;
}

/* Calls that fail for want of memory. */
static void test_refusals(void) {
  size_t requests = 0;
  while (lacks_memory(requests)) requests++;
  CHECK(requests > 50);
  rart32 map = three_words();
  rart32_pair pair = {.key = "x", .len = 1, .value = 4}, out;
  rart_stats stats = {.leaves = 77};
  size_t number = 77;
  bool more = true;
  granted = 0;
  CHECK(rart32_range(&map, RART_UNBOUNDED, NULL, 0, RART_UNBOUNDED, NULL, 0, &out, 1, &number, &more) ==
        RART_NO_MEMORY);
  CHECK(rart32_load_sorted(&map, &pair, 1, &number) == RART_NO_MEMORY && number == 77 && more);
  CHECK(rart32_stats(&map, &stats) == RART_NO_MEMORY && stats.leaves == 77);
  granted = SIZE_MAX;
  CHECK(rart32_len(&map) == 3);
  rart32_free(&map);
}

int main(void) {
  test_empty();
  test_edits();
  test_look_ups();
  test_batches();
  test_loads();
  test_wide();
  test_networks();
  test_wide_networks();
  test_many();
  test_refusals();
  CHECK(blocks == 0);
  puts("c: passed");
  return 0;
}

/* Mixed calls on a map that threads share, by two handles in turn and by one thread, beside the same calls on a map with one
 * owner. Each returns the same, writes the same, and is charged the same, under a limit that refuses some. No call is busy.
 * Then the same of a map in shards, which has a charge of its own and no limit, and its limits apart. */
#include "congee.h"
#include <inttypes.h>
#include <stdio.h>
#include <stdlib.h>
#include <string.h>

enum { CALLS = 1000000, FEWER = 100000, KEYS = 2048, ROOM = 24, LIMIT = 20000, FIRST = 2104 };

static bool sharded;

static void need(bool holds, const char *what) {
    if (!holds) {
        fprintf(stderr, "shared_calls: wrong: %s\n", what);
        exit(1);
    }
}

static uint64_t next(uint64_t *state) { /* splitmix64 */
    uint64_t z = (*state += 0x9e3779b97f4a7c15u);
    z = (z ^ (z >> 30)) * 0xbf58476d1ce4e5b9u;
    z = (z ^ (z >> 27)) * 0x94d049bb133111ebu;
    return z ^ (z >> 31);
}

/* The least and the greatest key, dense keys, and some that lie far apart. */
static uint64_t key_of(uint64_t i) {
    return i == 0 ? 0 : i == 1 ? UINT64_MAX : i % 4 ? i : i * 0x0010010010010010u;
}

static bool is_same(struct congee_pair a, struct congee_pair b) {
    return a.key == b.key && a.value == b.value;
}

/* A call that writes a number, and returns a code. */
static int call_one(struct congee *map, struct congee_shared *shared, uint64_t kind, uint64_t key, uint64_t *seed) {
    uint64_t a = 99, b = 99, value = next(seed) % 4, expected = next(seed) % 4;
    int one, other;
    switch (kind) {
    case 0:
    case 1:
    case 2:
        one = congee_insert(map, key, value, &a);
        other = value ? congee_shared_insert(shared, key, value, &b) : congee_shared_try_insert(shared, key, value, &b);
        break;
    case 3:
        one = congee_remove(map, key, &a);
        other = value ? congee_shared_remove(shared, key, &b) : congee_shared_try_remove(shared, key, &b);
        break;
    case 4:
        one = congee_get(map, key, &a);
        other = value ? congee_shared_get(shared, key, &b) : congee_shared_try_get(shared, key, &b);
        break;
    case 5:
        one = congee_compare_exchange(map, key, expected, value, &a);
        other = value ? congee_shared_compare_exchange(shared, key, expected, value, &b)
                      : congee_shared_try_compare_exchange(shared, key, expected, value, &b);
        break;
    case 6:
        one = congee_compare_remove(map, key, expected, &a);
        other = value ? congee_shared_compare_remove(shared, key, expected, &b)
                      : congee_shared_try_compare_remove(shared, key, expected, &b);
        break;
    case 7:
        one = congee_add(map, key, value - 2, &a);
        other = value ? congee_shared_add(shared, key, value - 2, &b) : congee_shared_try_add(shared, key, value - 2, &b);
        break;
    case 8:
        one = congee_get_or_insert(map, key, value, &a);
        other = value ? congee_shared_get_or_insert(shared, key, value, &b)
                      : congee_shared_try_get_or_insert(shared, key, value, &b);
        break;
    default:
        one = congee_insert(map, key, value, NULL);
        other = congee_shared_insert(shared, key, value, NULL);
    }
    need(one == other && a == b, "a call of one key");
    return one;
}

/* An end or a neighbour. */
static void call_near(struct congee *map, struct congee_shared *shared, uint64_t key, uint64_t *seed) {
    struct congee_pair a = {99, 99}, b = {99, 99};
    bool waits = next(seed) % 2;
    int one, other;
    switch (next(seed) % 10) {
    case 0:
        one = congee_first(map, &a);
        other = waits ? congee_shared_first(shared, &b) : congee_shared_try_first(shared, &b);
        break;
    case 1:
        one = congee_last(map, &a);
        other = waits ? congee_shared_last(shared, &b) : congee_shared_try_last(shared, &b);
        break;
    case 2:
        one = congee_floor(map, key, &a);
        other = waits ? congee_shared_floor(shared, key, &b) : congee_shared_try_floor(shared, key, &b);
        break;
    case 3:
        one = congee_ceiling(map, key, &a);
        other = waits ? congee_shared_ceiling(shared, key, &b) : congee_shared_try_ceiling(shared, key, &b);
        break;
    case 4:
        one = congee_below(map, key, &a);
        other = waits ? congee_shared_below(shared, key, &b) : congee_shared_try_below(shared, key, &b);
        break;
    case 5:
        one = congee_above(map, key, &a);
        other = waits ? congee_shared_above(shared, key, &b) : congee_shared_try_above(shared, key, &b);
        break;
    case 6:
        one = congee_pop_first(map, &a);
        other = waits ? congee_shared_pop_first(shared, &b) : congee_shared_try_pop_first(shared, &b);
        break;
    case 7:
        one = congee_pop_first_to(map, key, &a);
        other = waits ? congee_shared_pop_first_to(shared, key, &b) : congee_shared_try_pop_first_to(shared, key, &b);
        break;
    case 8:
        one = congee_pop_last_from(map, key, &a);
        other = waits ? congee_shared_pop_last_from(shared, key, &b) : congee_shared_try_pop_last_from(shared, key, &b);
        break;
    default:
        one = congee_pop_last(map, &a);
        other = waits ? congee_shared_pop_last(shared, &b) : congee_shared_try_pop_last(shared, &b);
    }
    need(one == other && is_same(a, b), "an end or a neighbour");
}

static void call_range(struct congee *map, struct congee_shared *shared, uint64_t key, uint64_t *seed) {
    struct congee_pair a[ROOM], b[ROOM];
    uint64_t last = key_of(next(seed) % KEYS), n = next(seed) % (ROOM + 1);
    bool waits = next(seed) % 2;
    size_t one, other = 99;
    memset(a, 0xee, sizeof a);
    memset(b, 0xee, sizeof b);
    switch (next(seed) % 3) {
    case 0:
        one = congee_range(map, key, last, a, n);
        if (waits)
            other = congee_shared_range(shared, key, last, b, n);
        else
            need(congee_shared_try_range(shared, key, last, b, n, &other) == 0, "a range isn't busy");
        break;
    case 1:
        one = congee_range_inclusive(map, key, last, a, n);
        if (waits)
            other = congee_shared_range_inclusive(shared, key, last, b, n);
        else
            need(congee_shared_try_range_inclusive(shared, key, last, b, n, &other) == 0, "a range isn't busy");
        break;
    default:
        one = congee_range_descending(map, key, last, a, n);
        if (waits)
            other = congee_shared_range_descending(shared, key, last, b, n);
        else
            need(congee_shared_try_range_descending(shared, key, last, b, n, &other) == 0, "a range isn't busy");
    }
    need(one == other && memcmp(a, b, sizeof a) == 0, "a range");
    need(congee_shared_range(shared, key, last, NULL, 0) == 0, "a range of no pairs");
}

static void compare_counts(struct congee *map, struct congee_shared *shared) {
    uint64_t count = 99, charged = 99, bytes = 99, limit = 99;
    need(congee_count(map) == congee_shared_count(shared), "count");
    if (sharded)
        need(congee_count(map) ? congee_shared_charged(shared) >= 64 * FIRST : congee_shared_charged(shared) == 64 * FIRST,
             "charged, of all shards");
    else
        need(congee_charged(map) == congee_shared_charged(shared) && congee_charged(map) <= LIMIT, "charged");
    need(congee_is_empty(map) == congee_shared_is_empty(shared), "is_empty");
    need(congee_shared_try_count(shared, &count) == 0 && count == congee_count(map), "count, tried");
    need(congee_shared_try_charged(shared, &charged) == 0 && charged == congee_shared_charged(shared), "charged, tried");
    need(congee_shared_try_is_empty(shared) == (count == 0), "is_empty, tried");
    congee_shared_usage(shared, &bytes, &limit);
    need(bytes == charged && limit == (sharded ? UINT64_MAX / 64 * 64 : LIMIT), "usage");
    bytes = limit = 99;
    need(congee_shared_try_usage(shared, &bytes, &limit) == 0 && bytes == charged && bytes <= limit && limit != 99, "usage, tried");
}

struct list {
    struct congee_pair pairs[KEYS];
    size_t n;
};

static int note(struct congee_pair pair, void *with) {
    struct list *list = with;
    list->pairs[list->n++] = pair;
    return pair.value == 3 ? 7 : 0;
}

/* The pairs from a key on, up to the first one with the value 3. */
static void call_each(struct congee *map, struct congee_shared *shared, uint64_t key) {
    static struct list one, other;
    one.n = other.n = 0;
    need(congee_each(map, key, UINT64_MAX, note, &one) == congee_shared_each(shared, key, UINT64_MAX, note, &other), "each");
    need(one.n == other.n && memcmp(one.pairs, other.pairs, one.n * sizeof *one.pairs) == 0, "the pairs of each");
}

/* What is asked about, and which values stay. */
static bool keep(struct congee_pair pair, void *with) {
    struct list *list = with;
    list->pairs[list->n++] = pair;
    return pair.value != 2;
}

static void retain(struct congee *map, struct congee_shared *shared) {
    static struct list one, other;
    one.n = other.n = 0;
    need(congee_retain(map, keep, &one) == congee_shared_retain(shared, keep, &other), "retain");
    need(one.n == other.n && memcmp(one.pairs, other.pairs, one.n * sizeof *one.pairs) == 0, "the pairs of retain");
}

static void insert_many(struct congee *map, struct congee_shared *shared, uint64_t *seed) {
    struct congee_pair pairs[40];
    for (int i = 0; i < 40; i++)
        pairs[i] = (struct congee_pair){key_of(next(seed) % KEYS), next(seed) % 4};
    need(congee_insert_many(map, pairs, 40) == congee_shared_insert_many(shared, pairs, 40), "insert_many");
}

static void clear(struct congee *map, struct congee_shared *shared, bool waits) {
    congee_clear(map);
    if (waits)
        congee_shared_clear(shared);
    else
        need(congee_shared_try_clear(shared) == 0, "clear isn't busy");
}

/* So many calls. Returns how many of them the limit refused. */
static uint64_t call_all(int calls, uint64_t limit) {
    struct congee *map;
    struct congee_shared *handles[2];
    uint64_t seed = 11, refused = 0;
    need(congee_new_with_limit(&map, limit) == 0, "a map with one owner");
    need((sharded ? congee_shared_new_sharded(limit, &handles[0]) : congee_shared_new(limit, &handles[0])) == 0, "a map");
    need(congee_shared_another(handles[0], &handles[1]) == 0 && handles[1] != handles[0], "another handle");
    for (int call = 0; call < calls; call++) {
        struct congee_shared *shared = handles[next(&seed) % 2];
        uint64_t key = key_of(next(&seed) % KEYS), kind = next(&seed) % 16;
        if (kind < 10)
            refused += call_one(map, shared, kind, key, &seed) == CONGEE_OOM;
        else if (kind < 13)
            call_range(map, shared, key, &seed);
        else if (kind < 15)
            call_near(map, shared, key, &seed);
        else if (next(&seed) % 64 == 0)
            call_each(map, shared, key);
        else if (next(&seed) % 8 == 0)
            insert_many(map, shared, &seed);
        else if (next(&seed) % 512 == 0)
            retain(map, shared);
        else if (next(&seed) % 1024 == 0)
            clear(map, shared, next(&seed) % 2);
        else
            compare_counts(map, shared);
    }
    compare_counts(map, handles[1]);
    congee_shared_free(handles[0]);
    call_each(map, handles[1], 0);
    congee_shared_free(handles[1]);
    congee_free(map);
    return refused;
}

/* A shard has a 64th of the limit: room for its first node and little more. */
static void try_limits(void) {
    struct congee_shared *map;
    uint64_t stored = 0, bytes, limit;
    int code;
    need(congee_shared_new_sharded(64 * FIRST - 1, &map) == CONGEE_OOM && map == NULL, "a limit below the first nodes' sizes");
    need(congee_shared_new_sharded(64 * (FIRST + 64), &map) == 0 && congee_shared_charged(map) == 64 * FIRST, "the first nodes");
    /* (keys of one shard, until it is full) */
    while ((code = congee_shared_insert(map, stored << 40, stored, NULL)) == 0)
        stored++;
    need(code == CONGEE_OOM && stored > 0, "a shard that is full");
    need(congee_shared_insert(map, 1 << 8, 1, NULL) == 0, "another shard has room");
    need(congee_shared_count(map) == stored + 1, "the pairs of both");
    congee_shared_usage(map, &bytes, &limit);
    need(bytes == congee_shared_charged(map) && limit == 64 * (FIRST + 64) && bytes <= limit, "the limit holds");
    congee_shared_free(map);
}

int main(void) {
    struct congee_shared *map;
    uint64_t refused;
    congee_shared_free(NULL);
    need(congee_shared_new(FIRST - 1, &map) == CONGEE_OOM && map == NULL, "a limit below the first node's size");
    refused = call_all(CALLS, LIMIT);
    need(refused > 1000, "calls that the limit refuses");
    sharded = true;
    need(call_all(FEWER, UINT64_MAX) == 0, "no call is refused without a limit");
    try_limits();
    printf("%d calls, %" PRIu64 " of them refused\n", CALLS + FEWER, refused);
    return 0;
}

/* Calls of a live map that make several calls of the library, by threads.
 *
 *   - Four threads pop, beside two that insert: each pair goes to one of them, and none is lost.
 *   - A pop beside writers returns no key beyond one that is there throughout, and always finds one then.
 *   - Four threads change keys by a function: no step is lost.
 *   - Pages downwards, copies and calls of many pairs beside writers: a key that stays is read, called with, copied, or
 *     removed. In a copy no key is older than a lower one.
 *   - Four threads remove one range at once: each pair counts for one of them.
 *
 * A call of the library that changes a key begins late now and then, so that other threads come in after the search before it.
 *
 *     live_pops [STEPS] */
#include "congee_exports.h"
#include <sched.h>

static void pause_now_and_then(void) {
    static _Thread_local unsigned calls;
    if (++calls % 4 == 0)
        sched_yield();
}

static int32_t late_remove(struct congee_live_handle *map, uint64_t key, uint64_t *old) {
    pause_now_and_then();
    return congee_c_live_remove(map, key, old);
}

static int32_t late_compare_remove(struct congee_live_handle *map, uint64_t key, uint64_t expected, uint64_t *found) {
    pause_now_and_then();
    return congee_c_live_compare_remove(map, key, expected, found);
}

static int32_t late_compare_exchange(struct congee_live_handle *map, uint64_t key, uint64_t expected, uint64_t desired,
                                     uint64_t *found) {
    pause_now_and_then();
    return congee_c_live_compare_exchange(map, key, expected, desired, found);
}

static int32_t late_get_or_insert(struct congee_live_handle *map, uint64_t key, uint64_t value, uint64_t *found) {
    pause_now_and_then();
    return congee_c_live_get_or_insert(map, key, value, found);
}

static int32_t late_remove_some(struct congee_live_handle *map, uint64_t start, uint64_t last, uint64_t *count,
                                uint64_t *reached) {
    pause_now_and_then();
    return congee_c_live_remove_some(map, start, last, count, reached);
}

#define congee_c_live_remove late_remove
#define congee_c_live_compare_remove late_compare_remove
#define congee_c_live_compare_exchange late_compare_exchange
#define congee_c_live_get_or_insert late_get_or_insert
#define congee_c_live_remove_some late_remove_some
#include "congee.h"
#include <inttypes.h>
#include <pthread.h>
#include <stdatomic.h>
#include <stdio.h>
#include <stdlib.h>

enum { TAKERS = 4, MAKERS = 2, COUNTERS = 4, STAY = 64, KEYS = 8, MANY = 4096, FULL = 3 };

static uint64_t steps = 20000;
static atomic_bool going;

static void need(bool holds, const char *what) {
    if (!holds) {
        fprintf(stderr, "live_pops: wrong: %s\n", what);
        exit(1);
    }
}

static uint64_t next(uint64_t *state) { /* splitmix64 */
    uint64_t z = (*state += 0x9e3779b97f4a7c15u);
    z = (z ^ (z >> 30)) * 0xbf58476d1ce4e5b9u;
    z = (z ^ (z >> 27)) * 0x94d049bb133111ebu;
    return z ^ (z >> 31);
}

/* Dense keys, and some that lie far apart. */
static uint64_t key_of(uint64_t i) {
    return i % 4 ? i : i * 0x0010010010010010u;
}

/* What a thread has: a handle, which of its kind it is, and what it counted or got. */
struct worker {
    pthread_t thread;
    struct congee_live *map;
    uint64_t id, count;
    unsigned char *got;
};

static void begin(struct worker *worker, struct congee_live *map, uint64_t id, void *(*work)(void *)) {
    worker->id = id;
    worker->count = 0;
    need(congee_live_another(map, &worker->map) == CONGEE_DONE, "a handle");
    need(pthread_create(&worker->thread, NULL, work, worker) == 0, "a thread");
}

static uint64_t end(struct worker *worker) {
    need(pthread_join(worker->thread, NULL) == 0, "the end of a thread");
    congee_live_free(worker->map);
    return worker->count;
}

/* -- Each pair goes to one -- */

/* Inserts keys that are absent, each with a value of its own. A key that was popped comes again. */
static void *make(void *at) {
    struct worker *worker = at;
    uint64_t seed = worker->id;
    while (worker->count < steps) {
        uint64_t key = key_of(next(&seed) % KEYS), value = worker->count * MAKERS + worker->id;
        if (congee_live_get_or_insert(worker->map, key, value, NULL) == CONGEE_ABSENT)
            worker->count++;
        else
            CONGEE_YIELD();
    }
    return NULL;
}

static int pop(struct worker *worker, struct congee_pair *pair) {
    /* (by each of the four in turn) */
    switch ((worker->id + worker->count) % 4) {
    case 0:
        return congee_live_pop_first(worker->map, pair);
    case 1:
        return congee_live_pop_last(worker->map, pair);
    case 2:
        return congee_live_try_pop_first(worker->map, pair);
    default:
        return congee_live_try_pop_last(worker->map, pair);
    }
}

/* Pops until no pair is found and no thread inserts any more. */
static void *take(void *at) {
    struct worker *worker = at;
    for (;;) {
        struct congee_pair pair = {0, 0};
        /* (asked first: what was inserted before is there) */
        bool may_come = atomic_load(&going);
        int code = pop(worker, &pair);
        if (code == CONGEE_PRESENT) {
            need(pair.value < steps * MAKERS && !worker->got[pair.value], "a thread pops a pair once");
            worker->got[pair.value] = 1;
            worker->count++;
        } else if (code == CONGEE_ABSENT && !may_come) {
            return NULL;
        } else {
            CONGEE_YIELD();
        }
    }
}

static uint64_t each_pair_to_one(void) {
    static struct worker takers[TAKERS], makers[MAKERS];
    struct congee_live *map;
    uint64_t inserted = 0, popped = 0;
    need(congee_live_new(&map) == CONGEE_DONE, "a map");
    atomic_store(&going, true);
    for (uint64_t i = 0; i < TAKERS; i++) {
        takers[i].got = calloc(steps * MAKERS, 1);
        need(takers[i].got != NULL, "memory");
        begin(&takers[i], map, i, take);
    }
    for (uint64_t i = 0; i < MAKERS; i++)
        begin(&makers[i], map, i, make);
    for (uint64_t i = 0; i < MAKERS; i++)
        inserted += end(&makers[i]);
    atomic_store(&going, false);
    for (uint64_t i = 0; i < TAKERS; i++)
        popped += end(&takers[i]);
    for (uint64_t value = 0; value < steps * MAKERS; value++) {
        int takes = 0;
        for (int i = 0; i < TAKERS; i++)
            takes += takers[i].got[value];
        need(takes <= 1, "a pair goes to one thread");
    }
    need(popped == inserted, "no pair is lost");
    need(congee_live_is_empty(map), "all pairs are popped");
    for (int i = 0; i < TAKERS; i++)
        free(takers[i].got);
    congee_live_free(map);
    return popped;
}

/* -- No key that is there throughout is passed -- */

/* Stores and removes keys below and above the middle one. */
static void *stir(void *at) {
    struct worker *worker = at;
    uint64_t seed = worker->id;
    while (atomic_load(&going)) {
        uint64_t key = next(&seed) % 2 ? next(&seed) % 1024 : 1 + (next(&seed) % 1024 << 40);
        if (key != 512) {
            congee_live_insert(worker->map, key, worker->id, NULL);
            congee_live_remove(worker->map, next(&seed) % 2 ? key : key + 1 + (key == 511), NULL);
        }
    }
    return NULL;
}

static void none_is_passed(void) {
    static struct worker writers[2];
    struct congee_live *map;
    need(congee_live_new(&map) == CONGEE_DONE, "a map");
    atomic_store(&going, true);
    for (uint64_t i = 0; i < 2; i++)
        begin(&writers[i], map, i, stir);
    for (uint64_t i = 0; i < steps; i++) {
        struct congee_pair pair = {0, 0};
        need(congee_live_insert(map, 512, 512, NULL) != CONGEE_OOM, "memory");
        int code = i % 2 ? congee_live_pop_first(map, &pair) : congee_live_pop_last(map, &pair);
        need(code == CONGEE_PRESENT, "a pop finds a key that is there throughout, or one before it");
        need(i % 2 ? pair.key <= 512 : pair.key >= 512, "a pop doesn't pass a key that is there throughout");
    }
    atomic_store(&going, false);
    for (uint64_t i = 0; i < 2; i++)
        end(&writers[i]);
    congee_live_free(map);
}

/* -- Changes by a function -- */

/* Counts up, and removes the key where it would be full. */
static int raise(int found, uint64_t *value, void *with) {
    need(found == CONGEE_PRESENT ? *value > 0 && *value < FULL : *value == 0, "a value to count up");
    ++*(uint64_t *)with;
    return ++*value < FULL ? CONGEE_PRESENT : CONGEE_ABSENT;
}

/* Calls both forms in turn, the second until it isn't busy. Counts how often a key was full. */
static void *count(void *at) {
    struct worker *worker = at;
    uint64_t seed = worker->id, calls = 0;
    for (uint64_t i = 0; i < steps; i++) {
        uint64_t key = next(&seed) % 2, old = 0;
        int code;
        if (i % 2)
            code = congee_live_compute(worker->map, key, raise, &calls, &old);
        else
            while ((code = congee_live_try_compute(worker->map, key, raise, &calls, &old)) == CONGEE_BUSY)
                CONGEE_YIELD();
        need(code != CONGEE_OOM, "memory");
        worker->count += code == CONGEE_PRESENT && old == FULL - 1;
    }
    need(calls >= steps, "the function is called");
    return NULL;
}

static int add_value(struct congee_pair pair, void *with) {
    *(uint64_t *)with += pair.value;
    return 0;
}

static void no_step_is_lost(void) {
    static struct worker counters[COUNTERS];
    struct congee_live *map;
    uint64_t full = 0, left = 0;
    need(congee_live_new(&map) == CONGEE_DONE, "a map");
    for (uint64_t i = 0; i < COUNTERS; i++)
        begin(&counters[i], map, i, count);
    for (uint64_t i = 0; i < COUNTERS; i++)
        full += end(&counters[i]);
    need(congee_live_each(map, 0, UINT64_MAX, add_value, &left) == 0, "all values");
    need(FULL * full + left == COUNTERS * steps, "no step is lost");
    congee_live_free(map);
}

/* -- Many pairs -- */

/* Stores and removes keys between those that stay, which are multiples of 256. */
static void *disturb(void *at) {
    struct worker *worker = at;
    uint64_t seed = worker->id;
    while (atomic_load(&going)) {
        uint64_t key = next(&seed) % STAY * 256 + 1 + next(&seed) % 3;
        congee_live_insert(worker->map, key, key, NULL);
        congee_live_remove(worker->map, key, NULL);
    }
    return NULL;
}

/* Whether these pairs descend, and how many of the keys that stay are among them. */
static uint64_t staying(const struct congee_pair *page, size_t n) {
    uint64_t stay = 0;
    for (size_t i = 0; i < n; i++) {
        need(i == 0 || page[i].key < page[i - 1].key, "a page descends");
        stay += page[i].key % 256 == 0;
    }
    return stay;
}

static int count_staying(struct congee_pair pair, void *with) {
    *(uint64_t *)with += pair.key % 256 == 0;
    return 0;
}

static void many_beside_writers(void) {
    static struct worker writers[2];
    static struct congee_pair page[4 * STAY], stay[STAY];
    struct congee_live *map;
    struct congee *copy;
    need(congee_live_new(&map) == CONGEE_DONE, "a map");
    atomic_store(&going, true);
    for (uint64_t i = 0; i < 2; i++)
        begin(&writers[i], map, i, disturb);
    for (uint64_t round = 0; round < steps / 100; round++) {
        uint64_t called = 0;
        size_t n;
        for (uint64_t i = 0; i < STAY; i++)
            stay[i] = (struct congee_pair){i * 256, round};
        need(congee_live_insert_many(map, stay, STAY) == STAY, "pairs that stay");
        n = congee_live_range_descending(map, 0, UINT64_MAX, page, 4 * STAY);
        need(staying(page, n) == STAY, "a page downwards has each key that stays");
        if (congee_live_try_range_descending(map, 0, UINT64_MAX, page, 4 * STAY, &n) == CONGEE_DONE)
            need(staying(page, n) == STAY, "a page downwards has each key that stays, tried");
        congee_live_each(map, 0, UINT64_MAX, count_staying, &called);
        need(called == STAY, "each key that stays is called with");
        called = 0;
        congee_live_each_descending(map, 0, UINT64_MAX, count_staying, &called);
        need(called == STAY, "each key that stays is called with downwards");
        called = 0;
        need(congee_live_snapshot(map, &copy) == CONGEE_DONE, "a copy");
        congee_each(copy, 0, UINT64_MAX, count_staying, &called);
        need(called == STAY, "each key that stays is copied");
        congee_free(copy);
        if (round % 2)
            congee_live_clear(map);
        else
            need(congee_live_remove_range_inclusive(map, 0, STAY * 256) >= STAY, "each key that stays is removed");
        for (uint64_t i = 0; i < STAY; i++)
            need(congee_live_get(map, i * 256, NULL) == CONGEE_ABSENT, "no key that stayed is left");
    }
    atomic_store(&going, false);
    for (uint64_t i = 0; i < 2; i++)
        end(&writers[i]);
    congee_live_clear(map);
    need(congee_live_is_empty(map), "a map that was cleared alone");
    congee_live_free(map);
}

/* Gives all keys the number of the round, the greatest key first. */
static void *number_down(void *at) {
    struct worker *worker = at;
    for (uint64_t round = 1; atomic_load(&going); round++)
        for (uint64_t i = 4 * STAY; i > 0; i--)
            need(congee_live_insert(worker->map, key_of(4 * (i - 1)), round, NULL) == CONGEE_PRESENT, "a key that stays");
    return NULL;
}

static int is_no_older(struct congee_pair pair, void *with) {
    uint64_t *newest = with;
    need(pair.value >= *newest, "a key of a copy is as it was after the lower keys");
    *newest = pair.value;
    return 0;
}

/* A copy has each key as of a moment, and the moments follow the keys. So the rounds, which begin at the greatest key, ascend. */
static void copies_follow_the_keys(void) {
    static struct worker writer;
    struct congee_live *map;
    struct congee *copy;
    uint64_t last = 0;
    need(congee_live_new(&map) == CONGEE_DONE, "a map");
    for (uint64_t i = 0; i < 4 * STAY; i++)
        need(congee_live_insert(map, key_of(4 * i), 0, NULL) == CONGEE_ABSENT, "a key");
    atomic_store(&going, true);
    begin(&writer, map, 0, number_down);
    for (uint64_t i = 0; i < steps / 100; i++) {
        uint64_t newest = 0;
        need(congee_live_snapshot(map, &copy) == CONGEE_DONE && congee_count(copy) == 4 * STAY, "a copy of all keys");
        congee_each(copy, 0, UINT64_MAX, is_no_older, &newest);
        need(newest >= last, "a copy is no older than the one before");
        last = newest;
        congee_free(copy);
    }
    atomic_store(&going, false);
    end(&writer);
    congee_live_free(map);
}

static void *remove_all(void *at) {
    struct worker *worker = at;
    worker->count = congee_live_remove_range_inclusive(worker->map, 0, UINT64_MAX);
    return NULL;
}

static void each_counts_for_one(void) {
    static struct worker removers[TAKERS];
    struct congee_live *map;
    need(congee_live_new(&map) == CONGEE_DONE, "a map");
    for (uint64_t round = 0; round < steps / 1000; round++) {
        uint64_t removed = 0;
        for (uint64_t i = 0; i < MANY; i++)
            need(congee_live_insert(map, key_of(i), i, NULL) == CONGEE_ABSENT, "a new key");
        for (uint64_t i = 0; i < TAKERS; i++)
            begin(&removers[i], map, i, remove_all);
        for (uint64_t i = 0; i < TAKERS; i++)
            removed += end(&removers[i]);
        need(removed == MANY && congee_live_is_empty(map), "each pair counts for one thread");
    }
    congee_live_free(map);
}

int main(int count_of, char **words) {
    if (count_of > 1)
        steps = strtoull(words[1], NULL, 10);
    uint64_t popped = each_pair_to_one();
    none_is_passed();
    no_step_is_lost();
    many_beside_writers();
    copies_follow_the_keys();
    each_counts_for_one();
    printf("%" PRIu64 " pairs popped by %d threads beside %d, each by one\n", popped, TAKERS, MAKERS);
    return 0;
}

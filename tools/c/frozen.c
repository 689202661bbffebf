/* Four threads read one frozen map, each by a reader of its own, and free it when they are done. Meanwhile the first
 * thread waits, with no join, until its reader is the last one, and changes the map again. */
#define _POSIX_C_SOURCE 199309L
#include "congee.h"
#include <pthread.h>
#include <stdio.h>
#include <time.h>

enum { THREADS = 4, PAGE = 64, PAIRS = 50000, CALLS = 300000 };

static uint64_t key_of(uint64_t i) {
    return i % 2 ? i * 7 : i * 0x9E3779B97F4A7C15u;
}

/* Whether the neighbours of a present key are those that a range from it on has. */
static bool has_neighbours(struct congee_frozen *frozen, uint64_t key) {
    struct congee_pair from[2] = {{0, 0}}, pair = {0, 0};
    size_t n = congee_frozen_range_inclusive(frozen, key, UINT64_MAX, from, 2);
    if (congee_frozen_floor(frozen, key, &pair) != 1 || pair.key != key)
        return false;
    if (congee_frozen_ceiling(frozen, key, &pair) != 1 || pair.key != key)
        return false;
    if (n < 2)
        return congee_frozen_above(frozen, key, NULL) == 0 && congee_frozen_last(frozen, &pair) == 1 && pair.key == key;
    if (congee_frozen_above(frozen, key, &pair) != 1 || pair.key != from[1].key || pair.value != from[1].value)
        return false;
    return congee_frozen_below(frozen, from[1].key, &pair) == 1 && pair.key == key;
}

static void *look_up(void *at) {
    struct congee_frozen *frozen = at;
    struct congee_pair page[PAGE] = {{0, 0}};
    uint64_t x = (uintptr_t)at, value = 0;
    for (int call = 0; call < CALLS; call++) {
        x = x * 6364136223846793005u + 1442695040888963407u;
        uint64_t i = (x >> 33) % PAIRS;
        if (congee_frozen_get(frozen, key_of(i), &value) != 1 || value != i)
            return at;
        if (call % 64 == 0 && (congee_frozen_range(frozen, key_of(i), UINT64_MAX, page, PAGE) == 0 || page[0].value != i))
            return at;
        if (call % 64 == 1 && !has_neighbours(frozen, key_of(i)))
            return at;
        if (congee_frozen_count(frozen) != PAIRS)
            return at;
    }
    congee_frozen_free(frozen);
    return NULL;
}

int main(void) {
    struct congee *map;
    struct congee_frozen *first, *readers[THREADS];
    pthread_t threads[THREADS];
    uint64_t value = 0;
    congee_frozen_free(NULL);
    if (congee_new(&map))
        return 1;
    for (uint64_t i = 0; i < PAIRS; i++)
        if (congee_insert(map, key_of(i), i, NULL) != 0)
            return 2;
    uint64_t charged = congee_charged(map);
    if (congee_freeze(&map, &first) || map || !first)
        return 3;
    for (int i = 0; i < THREADS; i++)
        if (congee_frozen_another(first, &readers[i]) || congee_thaw(&first, &map) != 0 || map || !first)
            return 4;
    for (int i = 0; i < THREADS; i++)
        if (pthread_create(&threads[i], NULL, look_up, readers[i]))
            return 5;
    /* (the count of readers alone orders the change behind the look-ups) */
    while (!congee_thaw(&first, &map))
        nanosleep(&(struct timespec){0, 1000000}, NULL);
    if (first || congee_charged(map) != charged || congee_count(map) != PAIRS)
        return 6;
    if (congee_insert(map, key_of(0), 9, &value) != 1 || value != 0 || congee_insert(map, 1, 1, NULL) != 0)
        return 7;
    for (int i = 0; i < THREADS; i++) {
        void *failed;
        if (pthread_join(threads[i], &failed) || failed)
            return 8;
    }
    congee_clear(map);
    if (congee_insert(map, 1, 1, NULL) != 0)
        return 9;
    /* (and the map is freed with its last reader) */
    struct congee_pair pair = {0, 0};
    if (congee_freeze(&map, &first) || congee_frozen_get(first, 1, &value) != 1 || value != 1)
        return 10;
    if (congee_frozen_first(first, &pair) != 1 || pair.key != 1 || congee_frozen_below(first, 1, NULL) != 0 ||
        congee_frozen_above(first, UINT64_MAX, NULL) != 0 || congee_frozen_below(first, 0, NULL) != 0)
        return 11;
    congee_frozen_free(first);
    printf("%d threads read one map of %d pairs\n", THREADS, PAIRS);
    return 0;
}

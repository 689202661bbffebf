/* Threads raise counters of one map, by loops of compare_exchange and by add: none is lost, and who reads sees none fall. The
 * map is under one lock, and then in shards, each counter in another.
 *
 *     shared_counts [CALLS]     so many calls a thread */
#include "congee.h"
#include <inttypes.h>
#include <pthread.h>
#include <stdio.h>
#include <stdlib.h>

enum { THREADS = 4, COUNTERS = 8 };

static uint64_t calls = 100000;

static uint64_t counter(uint64_t i) {
    return i << 8;
}

static int raise(struct congee_shared *map, uint64_t key) {
    uint64_t current, now;
    if (congee_shared_get(map, key, &current) != 1)
        return -1;
    for (;;) {
        int code = congee_shared_compare_exchange(map, key, current, current + 1, &now);
        if (code != 2)
            return code;
        if (now <= current)
            return -1; /* (it only rises) */
        current = now;
    }
}

static void *work(void *at) {
    struct congee_shared *map = at;
    uint64_t last[COUNTERS] = {0}, value;
    for (uint64_t i = 0; i < calls; i++) {
        uint64_t at_key = i % COUNTERS, key = counter(at_key);
        if (i / COUNTERS % 2 ? congee_shared_add(map, key, 1, NULL) != 1 : raise(map, key) != 1)
            return at;
        if (congee_shared_get(map, key, &value) != 1 || value <= last[at_key])
            return at;
        last[at_key] = value;
    }
    congee_shared_free(map);
    return NULL;
}

static int count(int (*make)(uint64_t, struct congee_shared **)) {
    struct congee_shared *first, *other;
    pthread_t threads[THREADS];
    uint64_t sum = 0, value;
    void *failed;
    if (make(UINT64_MAX, &first))
        return 1;
    for (uint64_t i = 0; i < COUNTERS; i++)
        if (congee_shared_insert(first, counter(i), 0, NULL))
            return 2;
    for (int i = 0; i < THREADS; i++)
        if (congee_shared_another(first, &other) || pthread_create(&threads[i], NULL, work, other))
            return 3;
    for (int i = 0; i < THREADS; i++)
        if (pthread_join(threads[i], &failed) || failed)
            return 4;
    for (uint64_t i = 0; i < COUNTERS; i++)
        sum += congee_shared_get(first, counter(i), &value) == 1 ? value : 0;
    congee_shared_free(first);
    if (sum != THREADS * calls)
        return 5;
    printf("%d threads, %" PRIu64 " raises, none lost\n", THREADS, sum);
    return 0;
}

int main(int words, char **word) {
    calls = words > 1 ? strtoull(word[1], NULL, 10) : calls;
    int failed = count(congee_shared_new);
    return failed ? failed : count(congee_shared_new_sharded);
}

/* A window of keys that moves on for ever, in a map that is read without a lock: each step stores the next key and removes the
 * one that leaves the window. Threads share the steps, and each has a handle of its own. The map holds at most three times the
 * memory that it has after a tenth of the steps, since nodes that were taken out are used again. So it is over dense keys and over
 * spread ones. Handles that come and go meanwhile leave nothing behind but the room of one more.
 *
 *     live_window [STEPS] [THREADS]     so many steps, in all */
#define _POSIX_C_SOURCE 200809L
#include "congee.h"
#include <inttypes.h>
#include <malloc.h>
#include <pthread.h>
#include <sched.h>
#include <stdatomic.h>
#include <stdio.h>
#include <stdlib.h>

enum { MOST = 64, WINDOW = 1000, TURNS = 100000 };

static uint64_t steps = 300000, threads = 4;
static _Atomic uint64_t taken;
static uint64_t (*key_of)(uint64_t);

static void need(int holds, const char *what) {
    if (!holds) {
        fprintf(stderr, "live_window: wrong: %s\n", what);
        exit(1);
    }
}

static uint64_t dense(uint64_t step) {
    return step;
}

/* Neighbours in time are apart, and in 32 runs. */
static uint64_t spread(uint64_t step) {
    return (step % 32 << 56) + step / 32 * 0x10001;
}

/* The bytes that malloc has lent, by mmap too. (Under a sanitizer it isn't asked, and 0 each time.) */
static size_t lent(void) {
    struct mallinfo2 now = mallinfo2();
    return now.uordblks + now.hblkhd;
}

static void step_on(struct congee_live *map, uint64_t step) {
    uint64_t before = 0;
    need(congee_live_insert(map, key_of(step + WINDOW), step + WINDOW, NULL) == 0, "a key that comes into the window");
    /* (the thread that stores the key may have stopped) */
    while (congee_live_remove(map, key_of(step), &before) == 0)
        sched_yield();
    need(before == step, "the value of a key that leaves the window");
}

static void *move_on(void *at) {
    struct congee_live *map = at, *other;
    uint64_t step;
    while ((step = atomic_fetch_add(&taken, 1)) < steps) {
        step_on(map, step);
        if (step % TURNS == 0) {
            /* (another handle takes its place) */
            need(congee_live_another(map, &other) == 0, "another handle");
            congee_live_free(map);
            map = other;
        }
    }
    congee_live_free(map);
    return NULL;
}

/* The window moves by all threads, from a tenth of the steps on. Tells the memory then and at the end. */
static void move(uint64_t (*keys)(uint64_t), size_t *start, size_t *end) {
    pthread_t workers[MOST];
    struct congee_live *map, *handles[MOST];
    uint64_t value;
    size_t before = lent();
    key_of = keys;
    need(congee_live_new(&map) == 0, "a map");
    for (uint64_t i = 0; i < WINDOW; i++)
        need(congee_live_insert(map, key_of(i), i, NULL) == 0, "a key of the first window");
    /* (each handle takes its room by a step) */
    for (uint64_t i = 0; i < threads; i++) {
        need(congee_live_another(map, &handles[i]) == 0, "a handle");
        step_on(handles[i], i);
    }
    for (uint64_t i = threads; i < steps / 10; i++)
        step_on(handles[i % threads], i);
    *start = lent() - before;
    atomic_store(&taken, steps / 10);
    for (uint64_t i = 0; i < threads; i++)
        need(pthread_create(&workers[i], NULL, move_on, handles[i]) == 0, "a thread");
    for (uint64_t i = 0; i < threads; i++)
        pthread_join(workers[i], NULL);
    *end = lent() - before;
    for (uint64_t i = steps; i < steps + WINDOW; i++)
        need(congee_live_remove(map, key_of(i), &value) == 1 && value == i, "a key of the last window");
    need(congee_live_first(map, NULL) == 0, "a map without keys");
    congee_live_free(map);
}

int main(int argc, char **argv) {
    if (argc > 1)
        steps = strtoull(argv[1], NULL, 10);
    if (argc > 2)
        threads = strtoull(argv[2], NULL, 10);
    need(threads >= 1 && threads <= MOST && steps > 10 * threads, "STEPS above ten times THREADS, and at most 64 threads");
    size_t start, end, start_dense, end_dense;
    move(spread, &start, &end);
    move(dense, &start_dense, &end_dense);
    printf("%" PRIu64 " steps by %" PRIu64 " threads: from %zu to %zu bytes over spread keys, from %zu to %zu over dense ones\n", steps, threads,
           start, end, start_dense, end_dense);
    need(end <= 3 * start, "memory over spread keys that stays within three times what it was");
    need(end_dense <= 3 * start_dense, "memory over dense keys that stays within three times what it was");
    return 0;
}

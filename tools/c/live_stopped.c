/* A thread that is stopped inside an insertion, by a signal whose handler waits. Where it holds its leaf, calls at keys of that
 * leaf are busy by each form that gives up, change nothing and keep no memory. Calls at other keys go on. Once the thread goes on, so do all.
 * The thread is stopped until it was met with a lock and without one. A reader that is stopped keeps nobody. */
#define _POSIX_C_SOURCE 200809L
#include "congee.h"
#include <malloc.h>
#include <pthread.h>
#include <sched.h>
#include <signal.h>
#include <stdatomic.h>
#include <stdio.h>
#include <stdlib.h>

enum { LEAF = 0x4200, STOPS = 200000 };

static atomic_int stopped, go_on, done;
static atomic_long turns; /* calls that the thread has made */

/* The handler of the signal: the thread stands still until it may go on. */
static void stand(int signal) {
    (void)signal;
    atomic_store(&stopped, 1);
    while (!atomic_load(&go_on))
        sched_yield();
    atomic_store(&stopped, 0);
}

static void need(bool holds, const char *what) {
    if (!holds) {
        fprintf(stderr, "live_stopped: wrong: %s\n", what);
        exit(1);
    }
}

/* Stops a thread, and lets it go on. */
static void stop(pthread_t thread) {
    atomic_store(&go_on, 0);
    need(pthread_kill(thread, SIGUSR1) == 0, "a signal");
    while (!atomic_load(&stopped))
        sched_yield();
}

/* (until it has made a call, and some of the next one) */
static void release(long count) {
    long made = atomic_load(&turns);
    atomic_store(&go_on, 1);
    while (atomic_load(&stopped) || atomic_load(&turns) == made)
        sched_yield();
    for (volatile long i = 0; i < count % 64; i++)
        ;
}

static void *inserts(void *at) {
    for (uint64_t i = 1; !atomic_load(&done); i++, atomic_fetch_add(&turns, 1))
        need(congee_live_insert(at, LEAF + i % 4, i, NULL) == 1, "an insertion");
    return NULL;
}

static void *reads(void *at) {
    for (uint64_t value; !atomic_load(&done); atomic_fetch_add(&turns, 1))
        need(congee_live_get(at, LEAF + 1, &value) == 1, "a look-up");
    return NULL;
}

/* The bytes that malloc has lent. (Under a sanitizer it isn't asked, and 0 each time.) */
static size_t lent(void) {
    return mallinfo2().uordblks;
}

/* Calls beside a thread that is stopped: whether its leaf is busy. */
static bool is_busy(struct congee_live *map) {
    uint64_t value = 99, old = 99, found = 99;
    struct congee_pair pair = {99, 99}, page = {0, 0};
    size_t n = 99;
    int code = congee_live_try_get(map, LEAF + 8, &value);
    need(code == 0 || code == CONGEE_BUSY, "an absent key beside it");
    if (code == CONGEE_BUSY) {
        need(congee_live_try_get(map, LEAF + 1, &value) == CONGEE_BUSY, "a look-up of a key of its leaf");
        need(congee_live_try_insert(map, LEAF + 9, 1, &old) == CONGEE_BUSY, "an insertion into its leaf");
        need(congee_live_try_compare_exchange(map, LEAF + 1, 0, 1, &found) == CONGEE_BUSY, "an exchange in its leaf");
        need(congee_live_try_remove(map, LEAF + 1, &old) == CONGEE_BUSY, "a removal from its leaf");
        need(congee_live_try_remove(map, LEAF + 8, &old) == CONGEE_BUSY, "a removal of an absent key of its leaf");
        need(congee_live_try_compare_remove(map, LEAF + 1, 0, &found) == CONGEE_BUSY, "a removal by a value from its leaf");
        need(congee_live_try_add(map, LEAF + 1, 1, &old) == CONGEE_BUSY, "a sum in its leaf");
        need(congee_live_try_get_or_insert(map, LEAF + 9, 1, &found) == CONGEE_BUSY, "an absent key of its leaf");
        need(congee_live_try_first(map, &pair) == CONGEE_BUSY, "the first pair, which is in its leaf");
        need(congee_live_try_ceiling(map, LEAF, &pair) == CONGEE_BUSY, "a ceiling in its leaf");
        need(congee_live_try_above(map, LEAF + 2, &pair) == CONGEE_BUSY, "a pair above, in its leaf");
        need(congee_live_try_floor(map, LEAF + 9, &pair) == CONGEE_BUSY, "a floor in its leaf");
        need(congee_live_try_below(map, LEAF + 1, &pair) == CONGEE_BUSY, "a pair below, in its leaf");
        need(congee_live_try_range(map, LEAF, LEAF + 4, &page, 1, &n) == CONGEE_BUSY, "a range in its leaf");
        need(congee_live_try_range_inclusive(map, 0, LEAF, &page, 1, &n) == CONGEE_BUSY, "a range to its leaf");
        need(congee_live_try_range_descending(map, 0, LEAF + 4, &page, 1, &n) == CONGEE_BUSY, "a range downwards in its leaf");
        need(congee_live_try_count(map, &found) == CONGEE_BUSY, "a count of all leaves");
        need(congee_live_try_is_empty(map) == CONGEE_BUSY, "a test for no pair, by its leaf");
        need(pair.key == 99 && n == 99, "a busy reader writes no pair and no number");
        need(value == 99 && old == 99 && found == 99, "a busy call writes nothing");
        size_t before = lent();
        for (int i = 0; i < 20; i++)
            need(congee_live_try_insert(map, LEAF + 9 + i, 1, &old) == CONGEE_BUSY, "another insertion into its leaf");
        need(lent() == before, "busy insertions keep no memory");
    }
    need(congee_live_try_get(map, LEAF + 256, &value) == 1, "a look-up elsewhere");
    need(congee_live_try_insert(map, LEAF + 256, value + 1, &old) == 1 && old == value, "an insertion elsewhere");
    need(congee_live_try_compare_exchange(map, LEAF + 256, old + 1, old + 2, &found) == 1, "an exchange elsewhere");
    need(congee_live_try_ceiling(map, LEAF + 4, &pair) == (code == CONGEE_BUSY ? CONGEE_BUSY : 1), "a pair behind its leaf");
    need(congee_live_try_above(map, LEAF + 255, &pair) == 1 && pair.key == LEAF + 256, "a pair elsewhere");
    need(congee_live_try_last(map, &pair) == 1 && pair.key == LEAF + 256, "the last pair, elsewhere");
    need(congee_live_try_floor(map, LEAF + 256, &pair) == 1 && pair.key == LEAF + 256, "a floor elsewhere");
    need(congee_live_try_range(map, LEAF + 256, UINT64_MAX, &page, 1, &n) == 0 && n == 1, "a range elsewhere");
    need(page.key == LEAF + 256 && page.value == old + 2, "its pair");
    page.key = n = 0;
    need(congee_live_try_range_descending(map, LEAF + 256, UINT64_MAX, &page, 1, &n) == 0 && n == 1, "a range downwards elsewhere");
    need(page.key == LEAF + 256 && page.value == old + 2, "its pair");
    need(congee_live_try_add(map, LEAF + 256, 1, &old) == 1 && old == value + 2, "a sum elsewhere");
    need(congee_live_try_remove(map, LEAF + 256, &old) == 1 && old == value + 3, "a removal elsewhere");
    need(congee_live_try_get_or_insert(map, LEAF + 256, old, &found) == 0, "an absent key elsewhere");
    return code == CONGEE_BUSY;
}

static long stops(struct congee_live *map, void *(*work)(void *), bool writes) {
    struct congee_live *its;
    pthread_t thread;
    long busy = 0, free = 0, count = 0;
    atomic_store(&done, 0);
    need(congee_live_another(map, &its) == 0 && pthread_create(&thread, NULL, work, its) == 0, "a thread");
    while (count < STOPS && (free < 10 || (writes && busy < 10))) {
        stop(thread);
        if (is_busy(map))
            busy++;
        else
            free++;
        release(count);
        count++;
        /* (it goes on, and so do calls at its leaf that wait) */
        need(congee_live_get(map, LEAF + 8, NULL) == 0, "an absent key, once it goes on");
    }
    atomic_store(&done, 1);
    need(pthread_join(thread, NULL) == 0, "its end");
    need(writes ? busy >= 10 && free >= 10 : busy == 0, writes ? "it was met with a lock and without" : "a reader locks nothing");
    congee_live_free(its);
    return count;
}

int main(void) {
    struct congee_live *map;
    struct sigaction action = {.sa_handler = stand};
    need(sigaction(SIGUSR1, &action, NULL) == 0 && congee_live_new(&map) == 0, "a map");
    for (uint64_t i = 0; i < 4; i++)
        need(congee_live_insert(map, LEAF + i, 0, NULL) == 0, "a key");
    need(congee_live_insert(map, LEAF + 256, 0, NULL) == 0, "a key elsewhere");
    stops(map, inserts, true);
    stops(map, reads, false);
    for (uint64_t i = 0, value; i < 4; i++)
        need(congee_live_try_get(map, LEAF + i, &value) == 1, "a key at the end");
    congee_live_free(map);
    printf("a writer that is stopped keeps its leaf busy and no other, and a reader none\n");
    return 0;
}

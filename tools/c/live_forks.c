/* A process forks while other threads have handles of a map that is read without a lock. In the child there is one thread, and the
 * others are gone for ever.
 *   - Where they are between two calls, the child has the whole map: each call is made, and none is busy.
 *   - Where they are inside calls, the nodes that they had locked stay so. Calls at these end if they give up, and change nothing.
 *     At no more leaves than there are threads the child is kept out. All others have what was stored last, and go on. Handles
 *     are made and freed.
 * The parent goes on, and no write of its threads is lost. */
#define _POSIX_C_SOURCE 200809L
#include "congee.h"
#include <inttypes.h>
#include <pthread.h>
#include <stdatomic.h>
#include <stdio.h>
#include <stdlib.h>
#include <sys/wait.h>
#include <time.h>
#include <unistd.h>

enum { THREADS = 4, LEAVES = 16, KEYS = 8, FORKS = 200 };

struct worker {
    pthread_t thread;
    struct congee_live *map;
    uint64_t id, writes;
};

static atomic_bool is_over, rests;
static atomic_int resting;

static void need(bool holds, const char *what) {
    if (!holds) {
        fprintf(stderr, "live_forks: wrong: %s\n", what);
        _exit(1);
    }
}

static void nap(void) {
    nanosleep(&(struct timespec){0, 100000}, NULL);
}

/* Keys of a few leaves, each a thread's own. */
static uint64_t key_of(uint64_t leaf, uint64_t id, uint64_t i) {
    return (leaf << 8) + i * THREADS + id;
}

/* Overwrites its keys with ever greater numbers, and rests between two calls while it has to. */
static void *writes(void *at) {
    struct worker *worker = at;
    for (uint64_t i = 0; !atomic_load(&is_over); i++) {
        uint64_t key = key_of(i % LEAVES, worker->id, i / LEAVES % KEYS), before = 0;
        need(congee_live_insert(worker->map, key, ++worker->writes, &before) == 1, "a key that is there");
        need(before < worker->writes, "a write of its own");
        if (atomic_load(&rests)) {
            atomic_fetch_add(&resting, 1);
            while (atomic_load(&rests))
                nap();
            atomic_fetch_sub(&resting, 1);
        }
    }
    return NULL;
}

/* What the threads have stored at their keys so far. */
static void look(struct congee_live *map, uint64_t *seen) {
    for (uint64_t leaf = 0; leaf < LEAVES; leaf++)
        for (uint64_t i = 0; i < KEYS * THREADS; i++)
            need(congee_live_get(map, (leaf << 8) + i, seen++) == 1, "a key beside its writer");
}

/* The calls at a leaf where another thread was stopped for ever. */
static void meet_a_lock(struct congee_live *map, uint64_t key) {
    uint64_t value = 99;
    need(congee_live_try_get(map, key, &value) == CONGEE_BUSY, "a look-up where a node is locked");
    need(congee_live_try_insert(map, key, 1, &value) == CONGEE_BUSY, "an insertion there");
    need(congee_live_try_remove(map, key, &value) == CONGEE_BUSY, "a removal there");
    need(congee_live_try_add(map, key, 1, &value) == CONGEE_BUSY && value == 99, "what a busy call writes");
}

/* The calls at a leaf that nobody holds, each the only one there. */
static void call_alone(struct congee_live *map, uint64_t key, uint64_t seen) {
    uint64_t value = 0, old = 0;
    struct congee_pair pair = {0, 0}, page[2] = {{0, 0}};
    size_t n = 0;
    need(congee_live_try_get(map, key, &value) == 1 && value >= seen, "what was stored last");
    need(congee_live_try_add(map, key, 1, &old) == 1 && old == value, "a sum");
    need(congee_live_try_compare_exchange(map, key, old + 1, old, &value) == 1, "an exchange");
    need(congee_live_try_floor(map, key, &pair) == 1 && pair.key == key && pair.value == old, "a floor");
    need(congee_live_try_range_inclusive(map, key, key, page, 2, &n) == 0 && n == 1 && page[0].value == old, "a range");
    need(congee_live_try_remove(map, key, &value) == 1 && value == old, "a removal");
    need(congee_live_try_insert(map, key, old, NULL) == 0, "an insertion");
    need(congee_live_try_insert(map, key + 128, 1, NULL) == 0, "a new key");
}

/* All that a child does with the map. Returns at how many leaves it was kept out. */
static int in_child(struct congee_live *map, const uint64_t *seen) {
    struct congee_live *other;
    int busy = 0;
    alarm(60);
    need(congee_live_another(map, &other) == 0, "a handle in a child");
    for (uint64_t leaf = 0; leaf < LEAVES; leaf++)
        if (congee_live_try_get(other, leaf << 8, NULL) == CONGEE_BUSY) {
            meet_a_lock(other, (leaf << 8) + 1);
            busy++;
        } else {
            for (uint64_t i = 0; i < KEYS * THREADS; i++)
                call_alone(i % 2 ? other : map, (leaf << 8) + i, seen[leaf * KEYS * THREADS + i]);
        }
    for (uint64_t i = 0; i < 1000; i++)
        need(congee_live_insert(other, (i + 1) << 40, i, NULL) == 0, "a key with nodes of its own");
    congee_live_free(other);
    need(congee_live_try_get(map, (uint64_t)1000 << 40, NULL) == 1, "a key after its handle");
    return busy;
}

/* Forks, and returns at how many leaves the child was kept out. */
static int forked(struct congee_live *map, const uint64_t *seen) {
    int status = 0;
    pid_t child = fork();
    need(child >= 0, "a fork");
    if (child == 0)
        _exit(100 + in_child(map, seen));
    need(waitpid(child, &status, 0) == child && WIFEXITED(status) && WEXITSTATUS(status) >= 100, "a child");
    return WEXITSTATUS(status) - 100;
}

int main(void) {
    static struct worker workers[THREADS];
    static uint64_t seen[LEAVES * KEYS * THREADS], after[LEAVES * KEYS * THREADS];
    struct congee_live *map;
    int met = 0;
    need(congee_live_new(&map) == 0, "a map");
    for (uint64_t leaf = 0; leaf < LEAVES; leaf++)
        for (uint64_t i = 0; i < KEYS * THREADS; i++)
            need(congee_live_insert(map, (leaf << 8) + i, 0, NULL) == 0, "a key");
    for (uint64_t id = 0; id < THREADS; id++) {
        workers[id].id = id;
        need(congee_live_another(map, &workers[id].map) == 0, "a handle");
        need(pthread_create(&workers[id].thread, NULL, writes, &workers[id]) == 0, "a thread");
    }
    for (int i = 0; i < FORKS; i++) {
        look(map, seen);
        if (i % 8 == 0) {
            atomic_store(&rests, true);
            while (atomic_load(&resting) < THREADS)
                nap();
        }
        int busy = forked(map, seen);
        need(busy <= (i % 8 ? THREADS : 0), "no more leaves are locked than there are threads in calls");
        met += busy > 0;
        atomic_store(&rests, false);
        while (atomic_load(&resting) > 0)
            nap();
        look(map, after);
        for (int k = 0; k < LEAVES * KEYS * THREADS; k++)
            need(after[k] >= seen[k], "no number falls");
    }
    atomic_store(&is_over, true);
    for (uint64_t id = 0; id < THREADS; id++) {
        need(pthread_join(workers[id].thread, NULL) == 0, "its end");
        congee_live_free(workers[id].map);
    }
    congee_live_free(map);
    printf("%d forks beside %d threads, at %d of them a node was locked\n", FORKS, THREADS, met);
    return 0;
}

/* Maps with a limit that are read without a lock:
 *   - there is no map below the first segment, and no more is charged than the limit, by one thread and by four at once
 *   - malloc lends no more than that and a little
 *   - a refused call changes no pair. What needs no new node goes on: look-ups, other values, removals, and then new keys
 *   - a window of keys that moves on stays within its limit for ever
 *   - 64 handles with a key each, far from one another, take 384 KB, and 512 keys that follow one another by eight handles 16 KB */
#include "congee.h"
#include <malloc.h>
#include <pthread.h>
#include <sched.h>
#include <stdio.h>
#include <stdlib.h>

enum { THREADS = 4, HANDLES = 64, MOST = 1000000, SLACK = 32 << 10, WINDOW = 1000, STEPS = 300000 };

static void need(bool holds, const char *what) {
    if (!holds) {
        fprintf(stderr, "live_limits: wrong: %s\n", what);
        exit(1);
    }
}

static uint64_t key_of(uint64_t i) {
    return i * 0x9e3779b97f4a7c15u;
}

/* The bytes that malloc has lent, by mmap too. (Under a sanitizer it isn't asked, and 0 each time.) */
static size_t lent(void) {
    struct mallinfo2 now = mallinfo2();
    return now.uordblks + now.hblkhd;
}

static struct congee_live *made(uint64_t limit) {
    struct congee_live *map;
    need(congee_live_new_with_limit(&map, limit) == 0 && congee_live_limit(map) == limit, "a map with a limit");
    return map;
}

/* Inserts every THREADS-th key from this one on until one is refused. Returns the first key that isn't there. */
static uint64_t fill(struct congee_live *map, uint64_t i) {
    for (; i < MOST; i += THREADS) {
        uint64_t old = 99;
        int code = congee_live_insert(map, key_of(i), i, &old);
        uint64_t charged = 1, limit = 0;
        congee_live_usage(map, &charged, &limit);
        need(charged <= limit && limit == congee_live_limit(map), "no more than the limit");
        need((code == 0 || code == CONGEE_OOM) && old == 99, "a new key");
        if (code == CONGEE_OOM)
            return i;
    }
    need(false, "a limit");
    return i;
}

/* An insertion of a new key into a full map, again where it is out of memory, so often. One thread alone has to be served at
 * once. Beside others the nodes that went may be with their handles. Where two nodes of one form went, a call may need both,
 * and the next one has the other. */
static int patience;

static int put(struct congee_live *map, uint64_t i) {
    int code;
    for (int tries = 0; (code = congee_live_insert(map, key_of(i), i, NULL)) == CONGEE_OOM && tries < patience; tries++)
        sched_yield();
    return code;
}

/* What a full map still does, from this key up to that one. */
static void use(struct congee_live *map, uint64_t first, uint64_t end) {
    uint64_t value = 99;
    need(congee_live_get(map, key_of(end), &value) == 0 && value == 99, "a key that was refused");
    for (uint64_t i = first; i < end; i += THREADS) {
        need(congee_live_get(map, key_of(i), &value) == 1 && value == i, "a key of a full map");
        need(congee_live_insert(map, key_of(i), i + 1, &value) == 1 && value == i, "another value, which needs no memory");
        need(congee_live_add(map, key_of(i), 1, &value) == 1 && value == i + 1, "a sum");
        need(congee_live_get_or_insert(map, key_of(i), 7, &value) == 1 && value == i + 2, "a present key");
        need(congee_live_remove(map, key_of(i), &value) == 1 && value == i + 2, "a removal");
        need(put(map, i) == 0, "a key in the place of a removed one");
    }
}

/* By one handle: the segments that fit. */
static void fit(uint64_t limit, uint64_t segments) {
    size_t before = lent();
    struct congee_live *map = made(limit), *other;
    uint64_t end = fill(map, 0);
    need(congee_live_charged(map) == segments, "the segments that fit");
    need(lent() - before <= limit + SLACK, "what malloc lends");
    need(end > 0, "pairs");
    use(map, 0, end);
    need(congee_live_another(map, &other) == 0, "another handle");
    congee_live_free(map);
    use(other, 0, end);
    need(congee_live_limit(other) == limit && congee_live_charged(other) == segments, "the same map");
    congee_live_free(other);
}

struct work {
    pthread_t thread;
    struct congee_live *map;
    uint64_t first, end;
};

static void *fill_share(void *at) {
    struct work *work = at;
    work->end = fill(work->map, work->first);
    return NULL;
}

static void *use_share(void *at) {
    struct work *work = at;
    use(work->map, work->first, work->end);
    return NULL;
}

static void at_once(struct work *all, void *(*call)(void *)) {
    for (int i = 0; i < THREADS; i++)
        need(pthread_create(&all[i].thread, NULL, call, &all[i]) == 0, "a thread");
    for (int i = 0; i < THREADS; i++)
        pthread_join(all[i].thread, NULL);
}

/* By four threads at once. */
static void fill_by_four(uint64_t limit, uint64_t segments) {
    struct congee_live *map = made(limit);
    struct work all[THREADS];
    for (int i = 0; i < THREADS; i++) {
        all[i].first = i;
        need(congee_live_another(map, &all[i].map) == 0, "a handle");
    }
    patience = MOST;
    at_once(all, fill_share);
    need(congee_live_charged(map) == segments, "the segments that fit, by four threads");
    at_once(all, use_share);
    need(congee_live_charged(map) == segments, "the same segments");
    for (int i = 0; i < THREADS; i++)
        congee_live_free(all[i].map);
    congee_live_free(map);
}

/* A window of keys that follow one another moves on. */
static void move(uint64_t limit) {
    struct congee_live *map = made(limit);
    uint64_t value;
    for (uint64_t i = 0; i < STEPS; i++) {
        need(congee_live_insert(map, i, i, NULL) == 0, "the next key of a window");
        if (i >= WINDOW)
            need(congee_live_remove(map, i - WINDOW, &value) == 1 && value == i - WINDOW, "the last key of a window");
    }
    need(congee_live_charged(map) <= limit, "a window within its limit");
    congee_live_free(map);
}

static uint64_t dense(uint64_t i) {
    return i;
}

/* By many handles in turn: so many keys, and the bytes of the segments. */
static void share(int handles, uint64_t (*key)(uint64_t), uint64_t keys, uint64_t segments) {
    struct congee_live *all[HANDLES];
    size_t before = lent();
    need(congee_live_new(&all[0]) == 0, "a map");
    for (int i = 1; i < handles; i++)
        need(congee_live_another(all[0], &all[i]) == 0, "one of many handles");
    for (uint64_t i = 0; i < keys; i++)
        need(congee_live_insert(all[i % handles], key(i), i, NULL) == 0, "a key of one of many handles");
    need(congee_live_charged(all[0]) == segments, "few bytes by many handles");
    need(lent() - before <= segments + 2 * SLACK, "what malloc lends by many handles");
    for (int i = 0; i < handles; i++)
        congee_live_free(all[i]);
}

int main(void) {
    struct congee_live *map;
    need(congee_live_new_with_limit(&map, 4095) == CONGEE_OOM && map == NULL, "a limit below the first segment");
    need(congee_live_new_with_limit(&map, 0) == CONGEE_OOM && map == NULL, "no bytes");
    need(congee_live_new(&map) == 0 && congee_live_limit(map) == UINT64_MAX, "a map without a limit");
    uint64_t charged = 0, limit = 0;
    congee_live_usage(map, &charged, &limit);
    need(congee_live_charged(map) == 4096 && charged == 4096 && limit == UINT64_MAX, "its first segment");
    congee_live_free(map);
    fit(4096, 4096);
    fit(8191, 4096);
    fit(8192, 8192);
    fit(1000000, 983040);
    fit(1048576, 1048576);
    for (int round = 0; round < 20; round++)
        fill_by_four(1048575, 1015808);
    fill_by_four(4000000, 3997696);
    move(253952);
    share(1, dense, 20, 4096);
    share(HANDLES, key_of, HANDLES, 384 << 10);
    share(8, dense, 512, 16 << 10);
    printf("no more than the limit is charged, by one thread and by four\n");
    return 0;
}

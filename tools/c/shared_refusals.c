/* Each request for memory of a shared map and its handles fails in turn, alone and with all after it: the call returns
 * CONGEE_OOM, everything is as it was, the lock is free, and no block is lost. Then the least limits, and one below each.
 * Linked with --wrap for malloc, realloc and free. */
#include "congee.h"
#include <stdio.h>
#include <stdlib.h>

enum { KEYS = 600 };

static long left = -1; /* how many allocations succeed before one fails, or none for -1 */
static bool all_after; /* whether those after it fail, too */
static long failed;    /* how many have failed */
static long live;      /* how many blocks are out */

void *__real_malloc(size_t);
void *__real_realloc(void *, size_t);
void __real_free(void *);

static bool is_refused(void) {
    if (left != 0) {
        left -= left > 0;
        return false;
    }
    failed++;
    left = all_after ? 0 : -1;
    return true;
}

void *__wrap_malloc(size_t n) {
    if (is_refused())
        return NULL;
    void *block = __real_malloc(n);
    live += block != NULL;
    return block;
}

void *__wrap_realloc(void *block, size_t n) {
    if (is_refused())
        return NULL;
    void *made = __real_realloc(block, n);
    live += made && !block;
    return made;
}

void __wrap_free(void *block) {
    live -= block != NULL;
    __real_free(block);
}

static void need(bool holds, const char *what) {
    if (!holds) {
        fprintf(stderr, "shared_refusals: wrong: %s\n", what);
        exit(1);
    }
}

static uint64_t key_of(uint64_t i) {
    return i / 20 * 0x0100010001000100u + i % 20;
}

/* Enters a new key by one of the calls that may. */
static int enter(struct congee_shared *map, uint64_t i, uint64_t *old) {
    switch (i % 3) {
    case 0:
        return congee_shared_insert(map, key_of(i), i, old);
    case 1:
        return congee_shared_add(map, key_of(i), i, old);
    default:
        return congee_shared_get_or_insert(map, key_of(i), i, old);
    }
}

/* How a map is made: under one lock, or in shards. */
static int (*make)(uint64_t, struct congee_shared **);

/* Makes a map and a second handle, fills it by both and empties it by one, with so many requests granted. Returns whether one
 * was refused. */
static bool fill(long granted, bool all) {
    struct congee_shared *one = NULL, *other = NULL;
    uint64_t stored = 0, value;
    left = granted;
    all_after = all;
    failed = 0;
    if (make(UINT64_MAX, &one) == CONGEE_OOM)
        need(one == NULL && failed > 0, "what a refused map leaves");
    if (one && congee_shared_another(one, &other) == CONGEE_OOM)
        need(other == NULL && failed > 0, "what a refused handle leaves");
    for (uint64_t i = 0; one && i < KEYS; i++) {
        struct congee_shared *map = other && i % 2 ? other : one;
        uint64_t old = 99, charged = congee_shared_charged(one);
        int code = enter(map, i, &old);
        need(old == 99, "the place of a new key");
        if (code == CONGEE_OOM) {
            need(failed > 0 && congee_shared_charged(one) == charged, "what a refusal leaves");
            need(congee_shared_try_get(one, key_of(i), &value) == 0, "the key of a refusal");
        } else {
            need(code == 0, "an insertion");
            stored++;
        }
        need(congee_shared_count(map) == stored, "the count after an insertion");
    }
    for (uint64_t i = 0; one && i < KEYS; i++)
        if (congee_shared_try_get(one, key_of(i), &value) == 1) {
            need(value == i && congee_shared_remove(one, key_of(i), &value) == 1 && value == i, "a removal");
            stored--;
        }
    need(stored == 0, "the pairs at the end");
    congee_shared_free(one);
    congee_shared_free(other);
    left = -1;
    need(live == 0, "a block leaks");
    return failed > 0;
}

static int insert_with_limit(uint64_t limit) {
    struct congee_shared *map;
    if (congee_shared_new(limit, &map) == CONGEE_OOM) {
        need(map == NULL, "no map is null");
        return -9;
    }
    int code = congee_shared_insert(map, 1, 42, NULL);
    need(congee_shared_count(map) == (code == 0) && congee_shared_charged(map) <= limit, "the limit holds");
    congee_shared_free(map);
    return code;
}

int main(void) {
    long tried = 0;
    make = congee_shared_new_sharded;
    while (fill(tried, false) && fill(tried, true))
        tried++;
    need(tried > 64, "each shard takes memory");
    tried = 0;
    make = congee_shared_new;
    while (fill(tried, false) && fill(tried, true))
        tried++;
    need(tried > 10, "each node takes memory");
    need(insert_with_limit(2103) == -9, "a limit below the first node's size");
    need(insert_with_limit(2104) == CONGEE_OOM && insert_with_limit(2167) == CONGEE_OOM, "a limit below a leaf's size");
    need(insert_with_limit(2168) == 0 && live == 0, "the least limit for one pair");
    printf("%ld requests refused, and all from each on, no block lost\n", tried);
    return 0;
}

/* Each request for memory of a map that is read without a lock, and of its handles, fails in turn, alone and with all after it:
 * the call is made without, or it returns CONGEE_OOM and everything is as it was. No node stays locked, and no block is lost.
 * Linked with --wrap for malloc, realloc and free. */
#include "congee.h"
#include <stdio.h>
#include <stdlib.h>

enum { KEYS = 1000 };

static long left = -1; /* how many allocations succeed before one fails, or none for -1 */
static bool all_after; /* whether those after it fail, too */
static long failed;    /* how many have failed */
static long live;      /* how many blocks are out */

void *__real_malloc(size_t);
void *__real_realloc(void *, size_t);
void __real_free(void *);

static bool is_refused(void) {
    if (left != 0) {
        left -= left > 0;
        return false;
    }
    failed++;
    left = all_after ? 0 : -1;
    return true;
}

void *__wrap_malloc(size_t n) {
    if (is_refused())
        return NULL;
    void *block = __real_malloc(n);
    live += block != NULL;
    return block;
}

void *__wrap_realloc(void *block, size_t n) {
    if (is_refused())
        return NULL;
    void *made = __real_realloc(block, n);
    live += made && !block;
    return made;
}

void __wrap_free(void *block) {
    live -= block != NULL;
    __real_free(block);
}

static void need(bool holds, const char *what) {
    if (!holds) {
        fprintf(stderr, "live_refusals: wrong: %s\n", what);
        exit(1);
    }
}

static uint64_t key_of(uint64_t i) {
    return i / 20 * 0x0100010001000100u + i % 20;
}

/* Gives a new key its value, by each call that does. */
static int enter(struct congee_live *map, uint64_t i, uint64_t *old) {
    switch (i % 3) {
    case 0:
        return congee_live_try_insert(map, key_of(i), i, old);
    case 1:
        return congee_live_try_get_or_insert(map, key_of(i), i, old);
    default:
        return congee_live_try_add(map, key_of(i), i, old);
    }
}

/* What needs no memory, of a key that is stored or not, while there may be none. In the end it is gone. */
static void spare(struct congee_live *map, uint64_t i, bool is_stored) {
    uint64_t key = key_of(i), value = 99, old = 99;
    struct congee_pair pair = {0, 0};
    size_t n = 99;
    need(congee_live_try_get(map, key, &value) == is_stored && value == (is_stored ? i : 99), "a key at the end");
    need(congee_live_try_range_inclusive(map, key, key, &pair, 1, &n) == 0 && n == is_stored, "a range of it alone");
    need(!is_stored || (pair.key == key && pair.value == i), "its pair");
    need(congee_live_try_ceiling(map, key, &pair) != CONGEE_OOM && (!is_stored || pair.key == key), "a ceiling");
    need(congee_live_try_floor(map, key, &pair) != CONGEE_OOM && (!is_stored || pair.key == key), "a floor");
    need(congee_live_try_compare_exchange(map, key, i, ~i, &value) == is_stored, "an exchange");
    need(congee_live_try_compare_remove(map, key, i, &old) == (is_stored ? 2 : 0), "a removal of another value");
    need(old == (is_stored ? ~i : 99), "the value that it finds");
    if (is_stored) {
        need(congee_live_try_get_or_insert(map, key, 5, &old) == 1 && old == ~i, "a present key");
        need(congee_live_try_add(map, key, i + 1, &old) == 1 && old == ~i, "a sum");
        need(congee_live_try_get(map, key, &old) == 1 && old == 0, "a sum past the greatest number");
    }
    if (i % 2)
        need(congee_live_try_compare_remove(map, key, 0, &old) == is_stored, "a removal of the expected value");
    else
        need(congee_live_try_remove(map, key, &old) == is_stored && old == (is_stored ? 0 : 99), "a removal");
    need(congee_live_try_get(map, key, &old) == 0, "a key that is gone");
}

/* Makes a map and a second handle, and fills it by both, with so many requests granted. Returns whether one was refused. */
static bool fill(long granted, bool all) {
    struct congee_live *one = NULL, *other = NULL;
    uint64_t value = 0;
    static bool stored[KEYS];
    left = granted;
    all_after = all;
    failed = 0;
    if (congee_live_new(&one) == CONGEE_OOM)
        need(one == NULL && failed > 0, "what a refused map leaves");
    if (one && congee_live_another(one, &other) == CONGEE_OOM)
        need(other == NULL && failed > 0, "what a refused handle leaves");
    for (uint64_t i = 0; one && i < KEYS; i++) {
        struct congee_live *map = other && i % 2 ? other : one;
        uint64_t old = 99;
        int code = enter(map, i, &old);
        need(old == 99, "the place of a new key");
        need(code == 0 || (code == CONGEE_OOM && failed > 0), "an insertion");
        stored[i] = code == 0;
        need(congee_live_try_get(one, key_of(i), &value) == stored[i] && (!stored[i] || value == i), "its key");
    }
    for (uint64_t i = 0; one && i < KEYS; i++)
        spare(one, i, stored[i]);
    congee_live_free(one);
    congee_live_free(other);
    left = -1;
    need(live == 0, "a block leaks");
    return failed > 0;
}

int main(void) {
    long tried = 0;
    while (fill(tried, false) && fill(tried, true))
        tried++;
    need(tried > 10, "each segment takes memory");
    printf("%ld requests refused, and all from each on, no block lost\n", tried);
    return 0;
}

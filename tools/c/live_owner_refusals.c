/* Each request for memory of a map of owners, and of its handles, fails in turn, alone and with all after it: the call is made
 * without, or it returns CONGEE_OOM, the owner is still the caller's, and no key has changed. No reference and no block is lost.
 * Linked with --wrap for malloc, realloc and free. */
#include "congee.h"
#include <stdio.h>
#include <stdlib.h>

enum { KEYS = 3000 };

static long left = -1; /* how many allocations succeed before one fails, or none for -1 */
static bool all_after; /* whether those after it fail, too */
static long failed;    /* how many have failed */
static long live;      /* how many blocks are out */

void *__real_malloc(size_t);
void *__real_realloc(void *, size_t);
void __real_free(void *);

static bool is_refused(void) {
    if (left != 0) {
        left -= left > 0;
        return false;
    }
    failed++;
    left = all_after ? 0 : -1;
    return true;
}

void *__wrap_malloc(size_t n) {
    if (is_refused())
        return NULL;
    void *block = __real_malloc(n);
    live += block != NULL;
    return block;
}

void *__wrap_realloc(void *block, size_t n) {
    if (is_refused())
        return NULL;
    void *made = __real_realloc(block, n);
    live += made && !block;
    return made;
}

void __wrap_free(void *block) {
    live -= block != NULL;
    __real_free(block);
}

static void need(bool holds, const char *what) {
    if (!holds) {
        fprintf(stderr, "live_owner_refusals: wrong: %s\n", what);
        exit(1);
    }
}

/* The references to each object. Of each key there are two objects. */
static long objects[2 * KEYS];

static void retain(void *owner, void *with) {
    (void)with;
    need(++*(long *)owner > 1, "an object that is retained has a reference");
}

static void release(void *owner, void *with) {
    (void)with;
    need(--*(long *)owner >= 0, "an object that is released has a reference");
}

static uint64_t key_of(uint64_t i) {
    return i / 20 * 0x0100010001000100u + i % 20;
}

/* Gives a new key its owner, by both calls that do. Returns whether the map has it. */
static bool enter(struct congee_live_owners *map, uint64_t i) {
    void *owner = &objects[i], *old = NULL;
    objects[i] = 1;
    int code = i % 2 ? congee_live_owners_try_insert(map, key_of(i), owner, &old)
                     : congee_live_owners_try_get_or_insert(map, key_of(i), owner, &old);
    need(!old && objects[i] == 1, "a new key");
    need(code == CONGEE_ABSENT || (code == CONGEE_OOM && failed > 0), "an insertion");
    if (code == CONGEE_OOM)
        release(owner, NULL);
    need(congee_live_owners_get(map, key_of(i), NULL) == (code == CONGEE_ABSENT), "its key");
    return code == CONGEE_ABSENT;
}

/* Replaces the owner of a present key, by both calls that do. An exchange of an absent key needs memory for a slot alone. */
static void replace(struct congee_live_owners *map, uint64_t i, bool is_stored) {
    void *owner = &objects[KEYS + i], *now = NULL;
    uint64_t ticket = 0;
    int code = CONGEE_OTHER;
    objects[KEYS + i] = 1;
    need(congee_live_owners_try_borrow(map, key_of(i), &now, &ticket) == is_stored && (!is_stored || now == &objects[i]), "a loan");
    if (!is_stored || i % 2)
        code = congee_live_owners_try_compare_exchange(map, key_of(i), ticket, owner);
    else
        code = congee_live_owners_try_insert(map, key_of(i), owner, NULL);
    need(code == (is_stored ? CONGEE_PRESENT : CONGEE_OTHER) || (code == CONGEE_OOM && failed > 0), "a replacement");
    if (code != CONGEE_PRESENT) {
        need(objects[KEYS + i] == 1, "a refused owner is the caller's");
        release(owner, NULL);
    }
    need(congee_live_owners_try_borrow(map, key_of(i), &now, NULL) == is_stored, "a key that may be replaced");
    need(!is_stored || now == (code == CONGEE_PRESENT ? owner : &objects[i]), "its owner");
}

/* Makes a map and a second handle, and fills it by both, with so many requests granted. Returns whether one was refused. */
static bool fill(long granted, bool all) {
    struct congee_live_owners *one = NULL, *other = NULL;
    static bool stored[KEYS];
    left = granted;
    all_after = all;
    failed = 0;
    if (congee_live_owners_new(&one, retain, release, NULL) == CONGEE_OOM)
        need(one == NULL && failed > 0, "what a refused map leaves");
    if (one && congee_live_owners_another(one, &other) != CONGEE_DONE)
        need(other == NULL && failed > 0, "what a refused handle leaves");
    for (uint64_t i = 0; one && i < KEYS; i++)
        stored[i] = enter(other && i % 3 == 1 ? other : one, i);
    for (uint64_t i = 0; one && i < KEYS; i++)
        replace(other && i % 3 == 2 ? other : one, i, stored[i]);
    for (uint64_t i = 0; one && i < KEYS; i += 2)
        need(congee_live_owners_try_remove(one, key_of(i), NULL) == stored[i], "a removal");
    congee_live_owners_free(one);
    congee_live_owners_free(other);
    left = -1;
    need(live == 0, "a block leaks");
    for (int i = 0; i < 2 * KEYS; i++)
        need(objects[i] == 0, "a reference is lost");
    return failed > 0;
}

int main(void) {
    long tried = 0;
    while (fill(tried, false) && fill(tried, true))
        tried++;
    need(tried > 10, "each segment takes memory");
    printf("%ld requests refused, and all from each on, no block and no reference lost\n", tried);
    return 0;
}

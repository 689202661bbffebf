/* Each of the first 400 allocations fails in turn: the call answers CONGEE_OOM, everything is as it was, and nothing leaks.
 * Then each that removals make, alone and with all after it: none of them is refused. Then each that a map makes which shrinks,
 * and each that freezing a map and another reader take. Then the least limits, and one below each. Linked with --wrap for
 * malloc, realloc and free. */
#include "congee.h"
#include <stdio.h>
#include <stdlib.h>

enum { FIRST = 400, KEYS = 3000, IN_LEAVES = 2400 };

static long left = -1; /* how many allocations succeed before one fails, or none for -1 */
static long failed;    /* how many have failed */
static long live;      /* how many blocks are out */

void *__real_malloc(size_t);
void *__real_realloc(void *, size_t);
void __real_free(void *);

static bool is_refused(void) {
    failed += left == 0;
    if (left == 0)
        return true;
    left -= left > 0;
    return false;
}

void *__wrap_malloc(size_t n) {
    if (is_refused())
        return NULL;
    void *block = __real_malloc(n);
    live += block != NULL;
    return block;
}

void *__wrap_realloc(void *block, size_t n) {
    return is_refused() ? NULL : __real_realloc(block, n);
}

void __wrap_free(void *block) {
    live -= block != NULL;
    __real_free(block);
}

static void need(bool holds, const char *what) {
    if (!holds) {
        fprintf(stderr, "refusals: wrong: %s\n", what);
        exit(1);
    }
}

/* Leaves of 20 keys each, far from one another: each grows twice. Then keys without a neighbour, 40 of them under each node:
 * its row of children grows in steps. */
static uint64_t key_of(uint64_t i) {
    if (i < IN_LEAVES)
        return i / 20 * 0x0100010001000100u + i % 20;
    uint64_t alone = i - IN_LEAVES;
    return 0xf000000000000000u + (alone / 40 << 16) + (alone % 40 * 37 % 40 << 8);
}

/* The map has the keys below a place, each with its place as its value, and no other key. */
static void check(struct congee *map, uint64_t below) {
    uint64_t value = 0;
    need(congee_count(map) == below, "the count after a refusal");
    for (uint64_t i = 0; i < KEYS; i++)
        need(congee_get(map, key_of(i), &value) == (i < below) && (i >= below || value == i), "a pair after a refusal");
}

/* Enters a new key by one of the calls that may. */
static int enter(struct congee *map, uint64_t i, uint64_t *old) {
    switch (i % 3) {
    case 0:
        return congee_insert(map, key_of(i), i, old);
    case 1:
        return congee_add(map, key_of(i), i, old);
    default:
        return congee_get_or_insert(map, key_of(i), i, old);
    }
}

/* Fills a map with one allocation refused, and returns how many insertions were refused. */
static long fill(struct congee *map) {
    long refused = 0;
    for (uint64_t i = 0; i < KEYS; i++) {
        uint64_t old = 99, charged = congee_charged(map);
        int code = enter(map, i, &old);
        if (code == CONGEE_OOM) {
            refused++;
            left = -1;
            need(old == 99 && congee_charged(map) == charged, "what a refusal leaves");
            check(map, i);
            code = enter(map, i, &old);
        }
        need(code == 0 && old == 99, "an insertion");
    }
    return refused;
}

/* Fills a map, and removes its keys with so many allocations granted: the next one fails, or all after them. Each
 * removal is answered. Returns whether one failed. */
static bool empty(long granted, bool all_after) {
    struct congee *map;
    need(congee_new(&map) == 0, "a map");
    need(fill(map) == 0, "an insertion with memory");
    left = granted;
    failed = 0;
    for (uint64_t i = KEYS; i-- > 0;) {
        uint64_t value = 99, charged = congee_charged(map);
        need(congee_remove(map, key_of(i), &value) == 1 && value == i, "a removal");
        need(congee_charged(map) <= charged, "the charge of a removal");
        if (failed == 1 && left == 0 && !all_after) {
            left = -1;
            check(map, i);
        }
    }
    left = -1;
    check(map, 0);
    need(congee_charged(map) == 2104, "the charge of an emptied map");
    congee_free(map);
    need(live == 0, "a block leaks");
    return failed > 0;
}

/* Removes most keys of a map without memory for a smaller table, and shrinks it with so many allocations granted. Returns
 * whether one failed. */
static bool shrink(long granted) {
    enum { KEPT = 45 };
    struct congee *map;
    need(congee_new(&map) == 0, "a map");
    need(fill(map) == 0, "an insertion with memory");
    left = 0;
    for (uint64_t i = KEYS; i-- > KEPT;)
        need(congee_remove(map, key_of(i), NULL) == 1, "a removal without memory");
    uint64_t charged = congee_charged(map);
    left = granted;
    failed = 0;
    congee_shrink_to_fit(map);
    left = -1;
    need(congee_charged(map) == charged, "the charge of a map that shrinks");
    check(map, KEPT);
    congee_free(map);
    need(live == 0, "a block leaks");
    return failed > 0;
}

/* Freezes a map and makes another reader, with so many allocations granted, and thaws it again. Returns whether one
 * failed. */
static bool freeze(long granted) {
    struct congee *map;
    struct congee_frozen *one, *other;
    uint64_t value;
    need(congee_new(&map) == 0, "a map");
    need(fill(map) == 0, "an insertion with memory");
    uint64_t charged = congee_charged(map);
    left = granted;
    failed = 0;
    if (congee_freeze(&map, &one) == CONGEE_OOM) {
        need(map != NULL && one == NULL && failed == 1, "what a refused freeze leaves");
        left = -1;
        check(map, KEYS);
    } else {
        need(map == NULL && one != NULL, "what a freeze leaves");
        if (congee_frozen_another(one, &other) == 0) {
            need(congee_thaw(&one, &map) == 0 && one != NULL && map == NULL, "a thaw with another reader");
            congee_frozen_free(other);
        } else {
            need(other == NULL && failed == 1, "what a refused reader leaves");
        }
        need(congee_frozen_get(one, key_of(7), &value) == 1 && value == 7, "a pair of a frozen map");
        left = 0; /* (a thaw takes no memory) */
        need(congee_thaw(&one, &map) == 1 && one == NULL && map != NULL, "a thaw by the last reader");
        left = -1;
        check(map, KEYS);
    }
    need(congee_charged(map) == charged, "the charge of a map that was frozen");
    congee_free(map);
    need(live == 0, "a block leaks");
    return failed > 0;
}

static int insert_with_limit(uint64_t limit) {
    struct congee *map;
    if (congee_new_with_limit(&map, limit) == CONGEE_OOM) {
        need(map == NULL, "no map is null");
        return -2;
    }
    int code = congee_insert(map, 1, 42, NULL);
    need(congee_count(map) == (code == 0) && congee_charged(map) <= limit && congee_limit(map) == limit, "the limit holds");
    congee_free(map);
    return code;
}

int main(void) {
    long maps = 0, insertions = 0, removals = 0, tables = 0, readers = 0;
    for (long fail = 0; fail < FIRST; fail++) {
        struct congee *map;
        left = fail;
        if (congee_new(&map) == CONGEE_OOM) {
            need(map == NULL, "no map is null");
            maps++;
        } else {
            insertions += fill(map);
            need(left != 0, "an allocation failed unseen");
            left = -1;
            check(map, KEYS);
            congee_free(map);
        }
        need(live == 0, "a block leaks");
    }
    need(maps + insertions == FIRST, "each of the allocations failed once");
    left = -1;
    while (empty(removals, false) && empty(removals, true))
        removals++;
    need(removals >= IN_LEAVES / 20 + (KEYS - IN_LEAVES) / 40, "each leaf and each node above takes memory for a smaller one");
    while (shrink(tables))
        tables++;
    need(tables >= 2, "a map that shrinks takes a smaller table, and a list of slots");
    while (freeze(readers))
        readers++;
    need(readers == 3, "a frozen map takes two blocks, and another reader one");
    need(insert_with_limit(2103) == -2, "a limit below the first node's size");
    need(insert_with_limit(2104) == CONGEE_OOM && insert_with_limit(2167) == CONGEE_OOM, "a limit below a leaf's size");
    need(insert_with_limit(2168) == 0, "the least limit for one pair");
    need(live == 0, "a block leaks");
    printf("%ld maps, %ld insertions, %ld smaller nodes, %ld tables and %ld readers refused, no block lost\n", maps, insertions,
           removals, tables, readers);
    return 0;
}

/* What malloc lends to a map: little once no pair is left, after congee_clear, removals one by one and pops, and again and again.
 * A map that removals leave small holds as much for each pair as one that was never larger, or four times as much until
 * congee_shrink_to_fit. */
#include "congee.h"
#include <inttypes.h>
#include <malloc.h>
#include <stdio.h>
#include <stdlib.h>

/* (The small blocks that malloc keeps for its next calls count as lent, unless glibc.malloc.tcache_count is 0.) */
enum { KEYS = 100000, ROUNDS = 3, LEFT = 65536 };

static void need(bool holds, const char *what) {
    if (!holds) {
        fprintf(stderr, "memory: wrong: %s\n", what);
        exit(1);
    }
}

/* The finalizer of splitmix64: different numbers have different keys. */
static uint64_t key_of(uint64_t number) {
    number = (number ^ number >> 30) * 0xbf58476d1ce4e5b9;
    number = (number ^ number >> 27) * 0x94d049bb133111eb;
    return number ^ number >> 31;
}

static size_t lent(void) {
    struct mallinfo2 now = mallinfo2();
    return now.uordblks + now.hblkhd;
}

static void fill(struct congee *map, bool dense) {
    for (uint64_t i = 0; i < KEYS; i++)
        need(congee_insert(map, dense ? i : key_of(i), i, NULL) == 0, "a new key");
}

static void remove_each(struct congee *map, bool dense) {
    for (uint64_t i = 0; i < KEYS; i++)
        need(congee_remove(map, dense ? i : key_of(i), NULL) == 1, "a key that is there");
}

static void pop_each(struct congee *map, bool dense) {
    struct congee_pair pair;
    uint64_t count = 0;
    (void)dense;
    while (congee_pop_first(map, &pair))
        count++;
    need(count == KEYS, "as many pairs as were inserted");
}

static void clear(struct congee *map, bool dense) {
    (void)dense;
    congee_clear(map);
}

static void empty_it(const char *how, bool dense, void (*empty)(struct congee *, bool)) {
    size_t before = lent();
    struct congee *map;
    need(congee_new(&map) == 0, "a map");
    size_t least = congee_charged(map);
    for (int round = 0; round < ROUNDS; round++) {
        fill(map, dense);
        size_t full = lent() - before;
        empty(map, dense);
        size_t left = lent() - before;
        need(congee_count(map) == 0 && congee_charged(map) == least, "an empty map is charged for its root alone");
        need(full > 8 * KEYS, "a full map holds its keys");
        need(left < LEFT, "an empty map holds little");
        if (round == 0)
            printf("%s, %s: %d keys held %zu bytes, then %zu\n", how, dense ? "dense" : "random", KEYS, full, left);
    }
    congee_free(map);
    need(lent() < before + LEFT, "a freed map holds nothing");
}

/* All but few of a million keys go. What is held for them does too, and then what congee_shrink_to_fit finds. */
static void shrink_it(bool dense, bool one_by_one) {
    enum { MANY = 1000000, KEPT = 1000, MOST = 800, LEAST = 300 };
    size_t before = lent();
    struct congee *map;
    need(congee_new(&map) == 0, "a map");
    for (uint64_t i = 0; i < MANY; i++)
        need(congee_insert(map, dense ? i : key_of(i), i, NULL) == 0, "a new key");
    size_t full = lent() - before;
    for (uint64_t i = KEPT; one_by_one && i < MANY; i++)
        need(congee_remove(map, dense ? i : key_of(i), NULL) == 1, "a key that is there");
    if (!one_by_one)
        need(congee_remove_range_inclusive(map, KEPT, UINT64_MAX) == MANY - KEPT, "the pairs of a range");
    size_t held = lent() - before, charged = congee_charged(map);
    congee_shrink_to_fit(map);
    size_t left = lent() - before;
    printf("%s, %s: %d keys held %zu bytes, %d left %zu, and shrunk %zu\n", one_by_one ? "one by one" : "a range", dense ? "dense" : "random",
           MANY, full, KEPT, held, left);
    need(held < MOST * KEPT && left < LEAST * KEPT, "a map that removals leave small holds little");
    need(congee_count(map) == KEPT && congee_charged(map) == charged, "the pairs and the charge stay");
    for (uint64_t i = 0; i < KEPT; i++) {
        uint64_t value = 0;
        need(congee_get(map, dense ? i : key_of(i), &value) && value == i, "each pair is there");
    }
    for (uint64_t i = KEPT; i < KEYS; i++)
        need(congee_insert(map, dense ? i : key_of(i), i, NULL) == 0, "a key that was removed");
    congee_free(map);
    need(lent() < before + LEFT, "a freed map holds nothing");
}

int main(void) {
    printf("warm\n"); /* (the buffer of stdout) */
    for (int dense = 0; dense < 2; dense++) {
        empty_it("cleared", dense, clear);
        empty_it("removed one by one", dense, remove_each);
        empty_it("popped", dense, pop_each);
    }
    shrink_it(true, false);
    shrink_it(true, true);
    shrink_it(false, true);
    return 0;
}

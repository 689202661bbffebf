/* congee_each, congee_frozen_each, congee_retain and pops with a bound over maps of every length up to some pages, and
 * congee_insert_many up to each limit. */
#include "congee.h"
#include <inttypes.h>
#include <stdio.h>
#include <stdlib.h>

enum { MOST = 200 };

static void need(bool holds, const char *what) {
    if (!holds) {
        fprintf(stderr, "loops: wrong: %s\n", what);
        exit(1);
    }
}

/* What a loop is to meet, and how far it is. */
struct walk {
    uint64_t next, last; /* the keys that are left */
    uint64_t stop;       /* the key at which it ends */
    struct congee *map;  /* from which each key is taken out, or null */
};

static int visit(struct congee_pair pair, void *with) {
    struct walk *walk = with;
    need(walk->next <= walk->last, "a pair past the last one");
    need(pair.key == walk->next && pair.value == 10 * pair.key, "the next pair");
    walk->next++;
    if (walk->map)
        need(congee_remove(walk->map, pair.key, NULL) == 1, "a removal within a loop");
    return pair.key == walk->stop ? 7 : 0;
}

/* A map of the keys from 1 to n, and the greatest one. */
static struct congee *filled(uint64_t n) {
    struct congee_pair pairs[MOST + 1];
    struct congee *map;
    for (uint64_t key = 1; key <= n; key++)
        pairs[key - 1] = (struct congee_pair){key, 10 * key};
    pairs[n] = (struct congee_pair){UINT64_MAX, 10 * UINT64_MAX};
    need(congee_new(&map) == 0, "a map");
    need(congee_insert_many(map, pairs, n + 1) == n + 1 && congee_count(map) == n + 1, "the pairs of an array");
    need(congee_insert_many(map, NULL, 0) == 0, "no pairs");
    return map;
}

static void walk_all(uint64_t n) {
    struct congee *map = filled(n);
    for (uint64_t last = 0; last <= n + 1; last++) {
        struct walk walk = {1, last < n ? last : n, 0, NULL};
        need(congee_each(map, 0, last, visit, &walk) == 0 && walk.next == walk.last + 1, "a loop to its end");
    }
    for (uint64_t stop = 1; stop <= n; stop++) {
        struct walk walk = {1, n, stop, NULL};
        need(congee_each(map, 0, n, visit, &walk) == 7 && walk.next == stop + 1, "a loop that is ended");
    }
    struct walk end = {UINT64_MAX, UINT64_MAX, 0, NULL};
    need(congee_each(map, n + 1, UINT64_MAX, visit, &end) == 0 && end.next == 0, "a loop to the greatest key");
    struct congee_frozen *frozen;
    need(congee_freeze(&map, &frozen) == 0, "a frozen map");
    struct walk walk = {1, n, 0, NULL};
    need(congee_frozen_each(frozen, 0, UINT64_MAX - 1, visit, &walk) == 0 && walk.next == n + 1, "a loop of a reader");
    need(congee_thaw(&frozen, &map) == 1, "a map that is thawed");
    walk = (struct walk){1, n, 0, map};
    need(congee_each(map, 1, UINT64_MAX - 1, visit, &walk) == 0 && walk.next == n + 1, "a loop that removes its pairs");
    need(congee_count(map) == 1, "what such a loop leaves");
    need(congee_each(map, 1, 0, visit, &walk) == 0, "a loop over reversed bounds");
    congee_free(map);
}

/* What is left of a loop by which each pair is asked about once. */
static bool keep(struct congee_pair pair, void *with) {
    struct walk *walk = with;
    need(pair.key == walk->next && pair.value == 10 * pair.key, "the next pair that is asked about");
    walk->next = walk->next == walk->last ? UINT64_MAX : walk->next + 1;
    need(congee_get(walk->map, pair.key, NULL) == 1, "a pair that is asked about is there");
    return pair.key % 3 != walk->stop;
}

/* Removes the keys of one remainder, by a function, and then pops the rest up to a key, and down to it. */
static void retain_and_pop(uint64_t n) {
    struct congee *map = filled(n);
    struct walk walk = {1, n, n % 4, map};
    uint64_t gone = 0, middle = n / 2;
    for (uint64_t key = 1; key <= n; key++)
        gone += key % 3 == n % 4;
    gone += UINT64_MAX % 3 == n % 4;
    need(congee_retain(map, keep, &walk) == gone && congee_count(map) == n + 1 - gone, "how many pairs are removed");
    for (uint64_t key = 1; key <= n; key++)
        need(congee_get(map, key, NULL) == (key % 3 != n % 4), "which pairs are removed");
    for (uint64_t key = 1; key <= middle; key++) {
        struct congee_pair pair = {1, 2};
        if (key % 3 != n % 4)
            need(congee_pop_first_to(map, middle, &pair) == 1 && pair.key == key && pair.value == 10 * key, "a pop up to a key");
    }
    need(congee_pop_first_to(map, middle, NULL) == 0, "no pair up to a key");
    congee_remove(map, UINT64_MAX, NULL);
    for (uint64_t key = n; key > middle; key--) {
        struct congee_pair pair = {1, 2};
        if (key % 3 != n % 4)
            need(congee_pop_last_from(map, middle, &pair) == 1 && pair.key == key && pair.value == 10 * key, "a pop down to a key");
    }
    need(congee_pop_last_from(map, 0, NULL) == 0 && congee_is_empty(map), "nothing is left");
    congee_free(map);
}

/* Under each limit as many pairs go in as a loop of insertions puts in. */
static uint64_t insert_up_to(uint64_t limit) {
    struct congee_pair pairs[MOST];
    struct congee *one, *other;
    uint64_t wanted = 0;
    for (uint64_t i = 0; i < MOST; i++)
        pairs[i] = (struct congee_pair){i % 7 * 1000 + i / 7, i};
    need(congee_new_with_limit(&one, limit) == 0 && congee_new_with_limit(&other, limit) == 0, "a map with a limit");
    while (wanted < MOST && congee_insert(one, pairs[wanted].key, pairs[wanted].value, NULL) != CONGEE_OOM)
        wanted++;
    size_t done = congee_insert_many(other, pairs, MOST);
    need(done == wanted && congee_count(other) == wanted, "how many pairs went in");
    for (uint64_t i = 0; i < MOST; i++) {
        uint64_t value = MOST;
        need(congee_get(other, pairs[i].key, &value) == (i < done) && value == (i < done ? i : MOST), "which pairs went in");
    }
    congee_free(one);
    congee_free(other);
    return done;
}

int main(void) {
    uint64_t refused = 0;
    for (uint64_t n = 1; n < MOST; n++)
        walk_all(n), retain_and_pop(n);
    for (uint64_t limit = 2104; limit < 12000; limit += 61)
        refused += insert_up_to(limit) < MOST;
    need(refused > 20, "limits that refuse");
    printf("loops over %d maps, %" PRIu64 " arrays that went in in part\n", MOST - 1, refused);
    return 0;
}

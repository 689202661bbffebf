/* Three million mixed calls, each answer compared with an array of the keys. */
#include "congee.h"
#include <inttypes.h>
#include <stdio.h>
#include <stdlib.h>
#include <string.h>

enum { KEYS = 4096, CALLS = 3000000, ROOM = 8 };

static uint64_t keys[KEYS]; /* ascending */
static bool present[KEYS];
static uint64_t values[KEYS];
static uint64_t count;

static uint64_t next(uint64_t *state) { /* splitmix64 */
    uint64_t z = (*state += 0x9e3779b97f4a7c15u);
    z = (z ^ (z >> 30)) * 0xbf58476d1ce4e5b9u;
    z = (z ^ (z >> 27)) * 0x94d049bb133111ebu;
    return z ^ (z >> 31);
}

static void need(bool holds, const char *what) {
    if (!holds) {
        fprintf(stderr, "stress: wrong answer: %s\n", what);
        exit(1);
    }
}

/* Eight full leaves, then keys that differ in all bytes; 0 is the first and UINT64_MAX the last. */
static void make_keys(void) {
    for (uint64_t i = 0; i < KEYS; i++)
        keys[i] = i < KEYS / 2 ? (i / 256) << 40 | i % 256 : ((uint64_t)1 << 60) + i * 0x0001010101010101u;
    keys[KEYS - 1] = UINT64_MAX;
    for (int i = 1; i < KEYS; i++)
        need(keys[i - 1] < keys[i], "the keys ascend");
}

static void check_range(struct congee *map, int i, uint64_t *seed) {
    struct congee_pair got[ROOM];
    memset(got, 0xee, sizeof got);
    int end = i + (int)(next(seed) % 64) - 4;
    end = end < 0 ? 0 : end >= KEYS ? KEYS - 1 : end;
    size_t n = next(seed) % (ROOM + 1), k = 0;
    size_t written = congee_range(map, keys[i], keys[end], n > 0 ? got : NULL, n);
    for (int j = i; j < end && k < n; j++)
        if (present[j]) {
            need(k < written && got[k].key == keys[j] && got[k].value == values[j], "a pair of a range");
            k++;
        }
    need(k == written, "how many pairs a range has");
    for (; k < ROOM; k++)
        need(got[k].key == 0xeeeeeeeeeeeeeeeeu && got[k].value == 0xeeeeeeeeeeeeeeeeu, "the rest of the buffer stays");
}

/* The place of the first present key from a place on, or KEYS; and of the last one up to a place, or -1. */
static int next_present(int i) {
    while (i < KEYS && !present[i])
        i++;
    return i;
}

static int last_present(int i) {
    while (i >= 0 && !present[i])
        i--;
    return i;
}

static void check_pair(int code, struct congee_pair pair, int i, const char *what) {
    bool is_there = i >= 0 && i < KEYS;
    need(code == is_there, what);
    need(pair.key == (is_there ? keys[i] : 99) && pair.value == (is_there ? values[i] : 99), what);
}

/* The ends, and the neighbours of a key and of the number before it. */
static void check_neighbours(struct congee *map, int i) {
    struct congee_pair none = {99, 99}, pair = none;
    check_pair(congee_first(map, &pair), pair, next_present(0), "first");
    pair = none;
    check_pair(congee_last(map, &pair), pair, last_present(KEYS - 1), "last");
    pair = none;
    check_pair(congee_floor(map, keys[i], &pair), pair, last_present(i), "floor");
    pair = none;
    check_pair(congee_ceiling(map, keys[i], &pair), pair, next_present(i), "ceiling");
    pair = none;
    check_pair(congee_below(map, keys[i], &pair), pair, last_present(i - 1), "below");
    pair = none;
    check_pair(congee_above(map, keys[i], &pair), pair, next_present(i + 1), "above");
    if (i > 0) {
        pair = none;
        check_pair(congee_floor(map, keys[i] - 1, &pair), pair, last_present(i - 1), "floor before a key");
        pair = none;
        check_pair(congee_above(map, keys[i] - 1, &pair), pair, next_present(i), "above a number before a key");
    }
    need(congee_first(map, NULL) == (count > 0), "first without a place");
}

static void check_pop(struct congee *map, bool is_first) {
    struct congee_pair pair = {99, 99};
    int i = is_first ? next_present(0) : last_present(KEYS - 1);
    check_pair(is_first ? congee_pop_first(map, &pair) : congee_pop_last(map, &pair), pair, i, "pop");
    if (i >= 0 && i < KEYS) {
        present[i] = false;
        count--;
    }
}

/* A range that includes its last key, from either end. */
static void check_inclusive(struct congee *map, int i, uint64_t *seed) {
    struct congee_pair got[ROOM] = {{0, 0}}, down[ROOM] = {{0, 0}};
    int last = i + (int)(next(seed) % 64) - 4;
    last = last < 0 ? 0 : last >= KEYS ? KEYS - 1 : last;
    size_t n = next(seed) % (ROOM + 1), k = 0, d = 0;
    size_t written = congee_range_inclusive(map, keys[i], keys[last], n > 0 ? got : NULL, n);
    size_t written_down = congee_range_descending(map, keys[i], keys[last], n > 0 ? down : NULL, n);
    for (int j = i; j <= last && k < n; j++)
        if (present[j]) {
            need(k < written && got[k].key == keys[j] && got[k].value == values[j], "a pair of a range with its end");
            k++;
        }
    for (int j = last; j >= i && d < n; j--)
        if (present[j]) {
            need(d < written_down && down[d].key == keys[j] && down[d].value == values[j],
                 "a pair of a descending range");
            d++;
        }
    need(k == written && d == written_down, "how many pairs a range with its end has");
    for (; k < ROOM; k++)
        need(got[k].key == 0 && got[k].value == 0, "the rest of the buffer stays");
    for (; d < ROOM; d++)
        need(down[d].key == 0 && down[d].value == 0, "the rest of the buffer stays, descending");
}

static void check_exchange(struct congee *map, int i, uint64_t value, uint64_t *seed) {
    uint64_t expected = next(seed) % 4, found = 99;
    int wanted = !present[i] ? 0 : values[i] == expected ? 1 : 2;
    need(congee_compare_exchange(map, keys[i], expected, value, &found) == wanted, "compare_exchange");
    need(found == (wanted == 2 ? values[i] : 99), "what compare_exchange found");
    if (wanted == 1)
        values[i] = value;
}

static void check_removal(struct congee *map, int i, uint64_t *seed) {
    uint64_t expected = next(seed) % 4, found = 99;
    int wanted = !present[i] ? 0 : values[i] == expected ? 1 : 2;
    need(congee_compare_remove(map, keys[i], expected, &found) == wanted, "compare_remove");
    need(found == (wanted == 2 ? values[i] : 99), "what compare_remove found");
    if (wanted == 1) {
        present[i] = false;
        count--;
    }
}

static void check_sum(struct congee *map, int i, uint64_t *seed) {
    uint64_t number = next(seed) % 2 ? UINT64_MAX : 1, old = 99;
    need(congee_add(map, keys[i], number, &old) == present[i] && old == (present[i] ? values[i] : 99), "add");
    values[i] = present[i] ? values[i] + number : number;
    count += !present[i];
    present[i] = true;
}

static void check_first(struct congee *map, int i, uint64_t value) {
    uint64_t found = 99;
    need(congee_get_or_insert(map, keys[i], value, &found) == present[i], "get_or_insert");
    need(found == (present[i] ? values[i] : 99), "what get_or_insert found");
    if (!present[i])
        values[i] = value;
    count += !present[i];
    present[i] = true;
}

/* The removal of a range that includes its last key. */
static void check_range_removal(struct congee *map, int i, uint64_t *seed) {
    int last = i + (int)(next(seed) % 4) - 1;
    last = last < 0 ? 0 : last >= KEYS ? KEYS - 1 : last;
    uint64_t wanted = 0;
    for (int j = i; j <= last; j++) {
        wanted += present[j];
        present[j] = false;
    }
    need(congee_remove_range_inclusive(map, keys[i], keys[last]) == wanted, "remove_range_inclusive");
    count -= wanted;
}

static void check_clear(struct congee *map) {
    congee_clear(map);
    need(congee_charged(map) == 2104, "the charge of a cleared map");
    memset(present, 0, sizeof present);
    count = 0;
}

static void call(struct congee *map, uint64_t *seed, unsigned removals) {
    int i = (int)(next(seed) % KEYS);
    uint64_t value = next(seed) % 4, out = 99, before = present[i] ? values[i] : 99;
    unsigned kind = next(seed) % 20;
    if (kind < removals) {
        need(congee_remove(map, keys[i], &out) == present[i] && out == before, "remove");
        count -= present[i];
        present[i] = false;
    } else if (kind < 6) {
        need(congee_insert(map, keys[i], value, kind == 5 ? NULL : &out) == present[i], "insert");
        need(kind == 5 || out == before, "what insert replaced");
        count += !present[i];
        present[i] = true, values[i] = value;
    } else if (kind < 8) {
        need(congee_get(map, keys[i], &out) == present[i] && out == before, "get");
    } else if (kind < 10) {
        check_exchange(map, i, value, seed);
    } else if (kind < 12) {
        check_range(map, i, seed);
    } else if (kind == 12) {
        check_removal(map, i, seed);
    } else if (kind == 13) {
        check_sum(map, i, seed);
    } else if (kind == 14) {
        check_first(map, i, value);
    } else if (kind == 15) {
        check_inclusive(map, i, seed);
    } else if (kind == 16) {
        check_neighbours(map, i);
    } else if (kind == 17) {
        check_pop(map, value % 2 == 0);
    } else if (kind == 18) {
        check_range_removal(map, i, seed);
        if (next(seed) % 4096 == 0)
            check_clear(map);
    } else {
        need(congee_add(map, keys[i], 0, NULL) == present[i], "add without a place");
        values[i] = present[i] ? values[i] : 0;
        count += !present[i];
        present[i] = true;
    }
    need(congee_count(map) == count && congee_is_empty(map) == (count == 0), "count and is_empty");
}

/* A window of keys moves on: the charge is never more than that of the first four windows. */
static void move_window(uint64_t apart) {
    enum { WINDOW = 1024, STEPS = 60000 };
    struct congee *map;
    uint64_t most = 0;
    if (congee_new(&map))
        exit(1);
    for (uint64_t i = 0; i < STEPS; i++) {
        need(congee_insert(map, i * apart, i, NULL) == 0, "the window's next key");
        if (i >= WINDOW)
            need(congee_remove(map, (i - WINDOW) * apart, NULL) == 1, "the window's last key");
        uint64_t charged = congee_charged(map);
        if (i < 4 * WINDOW && charged > most)
            most = charged;
        need(charged <= most, "the charge of a window that moves on");
    }
    congee_free(map);
}

int main(void) {
    struct congee *map;
    uint64_t seed = 7, out;
    make_keys();
    congee_free(NULL);
    if (congee_new(&map))
        return 1;
    need(congee_charged(map) == 2104, "the charge of an empty map");
    /* (so nodes grow, and shrink again) */
    for (int c = 0; c < CALLS; c++)
        call(map, &seed, c / (CALLS / 6) % 2 == 0 ? 1 : 5);
    uint64_t left = count;
    for (int i = 0; i < KEYS; i++)
        need(congee_remove(map, keys[i], &out) == present[i], "the last removals");
    need(congee_is_empty(map) && congee_count(map) == 0, "an emptied map is empty");
    need(congee_charged(map) == 2104, "the charge of an emptied map");
    congee_free(map);
    move_window(1);
    move_window(256);
    printf("%d calls, %" PRIu64 " pairs at the end\n", CALLS, left);
    return 0;
}

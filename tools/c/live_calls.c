/* Each call of a map that is read without a lock, by one thread. First by tables of calls and answers, by the forms that wait and
 * by those that give up. A function that is called may change its key by another handle. Then mixed calls, by two handles in turn,
 * beside the same calls on a map with one owner. Each returns the same, and writes the same. No call is busy. */
#include "congee.h"
#include <inttypes.h>
#include <stdio.h>
#include <stdlib.h>
#include <string.h>

enum { CALLS = 1000000, KEYS = 2048, ROOM = 300, NOTHING = 99 };

static void need(bool holds, const char *what) {
    if (!holds) {
        fprintf(stderr, "live_calls: wrong: %s\n", what);
        exit(1);
    }
}

static uint64_t next(uint64_t *state) { /* splitmix64 */
    uint64_t z = (*state += 0x9e3779b97f4a7c15u);
    z = (z ^ (z >> 30)) * 0xbf58476d1ce4e5b9u;
    z = (z ^ (z >> 27)) * 0x94d049bb133111ebu;
    return z ^ (z >> 31);
}

enum kind { GET, INSERT, REMOVE, EXCHANGE, DROP, ADD, KEEP };

/* A call: with which key and numbers, what it returns, and what it writes, or NOTHING. */
struct row {
    enum kind kind;
    uint64_t key, a, b;
    int code;
    uint64_t written;
};

static const struct row rows[] = {
    {GET, 7, 0, 0, 0, NOTHING},
    {REMOVE, 7, 0, 0, 0, NOTHING},
    {EXCHANGE, 7, 0, 1, 0, NOTHING},
    {DROP, 7, 0, 0, 0, NOTHING},
    {INSERT, 7, 70, 0, 0, NOTHING},
    {GET, 7, 0, 0, 1, 70},
    {INSERT, 7, 71, 0, 1, 70},
    {EXCHANGE, 7, 70, 5, 2, 71},
    {EXCHANGE, 7, 71, 72, 1, NOTHING},
    {DROP, 7, 71, 0, 2, 72},
    {GET, 7, 0, 0, 1, 72},
    {DROP, 7, 72, 0, 1, NOTHING},
    {GET, 7, 0, 0, 0, NOTHING},
    {ADD, 7, 3, 0, 0, NOTHING},
    {ADD, 7, 4, 0, 1, 3},
    {ADD, 7, UINT64_MAX - 1, 0, 1, 7},
    {GET, 7, 0, 0, 1, 5},
    {KEEP, 7, 8, 0, 1, 5},
    {GET, 7, 0, 0, 1, 5},
    {REMOVE, 7, 0, 0, 1, 5},
    {REMOVE, 7, 0, 0, 0, NOTHING},
    {KEEP, 7, 8, 0, 0, NOTHING},
    {GET, 7, 0, 0, 1, 8},
    /* keys of the same leaf, of a leaf beside it, and far away */
    {INSERT, 6, 60, 0, 0, NOTHING},
    {INSERT, 0x107, 61, 0, 0, NOTHING},
    {INSERT, UINT64_MAX, 0, 0, 0, NOTHING},
    {EXCHANGE, UINT64_MAX, 0, UINT64_MAX, 1, NOTHING},
    {REMOVE, 7, 0, 0, 1, 8},
    {GET, 6, 0, 0, 1, 60},
    {GET, 0x107, 0, 0, 1, 61},
    {ADD, UINT64_MAX, 2, 0, 1, UINT64_MAX},
    {REMOVE, UINT64_MAX, 0, 0, 1, 1},
    {REMOVE, 0x107, 0, 0, 1, 61},
    {REMOVE, 6, 0, 0, 1, 60},
    {GET, 0, 0, 0, 0, NOTHING},
};

static int waits(struct congee_live *map, const struct row *row, uint64_t *place) {
    switch (row->kind) {
    case GET:
        return congee_live_get(map, row->key, place);
    case INSERT:
        return congee_live_insert(map, row->key, row->a, place);
    case REMOVE:
        return congee_live_remove(map, row->key, place);
    case EXCHANGE:
        return congee_live_compare_exchange(map, row->key, row->a, row->b, place);
    case DROP:
        return congee_live_compare_remove(map, row->key, row->a, place);
    case ADD:
        return congee_live_add(map, row->key, row->a, place);
    default:
        return congee_live_get_or_insert(map, row->key, row->a, place);
    }
}

static int tries(struct congee_live *map, const struct row *row, uint64_t *place) {
    switch (row->kind) {
    case GET:
        return congee_live_try_get(map, row->key, place);
    case INSERT:
        return congee_live_try_insert(map, row->key, row->a, place);
    case REMOVE:
        return congee_live_try_remove(map, row->key, place);
    case EXCHANGE:
        return congee_live_try_compare_exchange(map, row->key, row->a, row->b, place);
    case DROP:
        return congee_live_try_compare_remove(map, row->key, row->a, place);
    case ADD:
        return congee_live_try_add(map, row->key, row->a, place);
    default:
        return congee_live_try_get_or_insert(map, row->key, row->a, place);
    }
}

static int owned(struct congee *map, const struct row *row, uint64_t *place) {
    switch (row->kind) {
    case GET:
        return congee_get(map, row->key, place);
    case INSERT:
        return congee_insert(map, row->key, row->a, place);
    case REMOVE:
        return congee_remove(map, row->key, place);
    case EXCHANGE:
        return congee_compare_exchange(map, row->key, row->a, row->b, place);
    case DROP:
        return congee_compare_remove(map, row->key, row->a, place);
    case ADD:
        return congee_add(map, row->key, row->a, place);
    default:
        return congee_get_or_insert(map, row->key, row->a, place);
    }
}

/* Each row in turn, by two handles, with a place or with none. */
static void call_rows(int (*call)(struct congee_live *, const struct row *, uint64_t *), bool has_place) {
    struct congee_live *handles[2];
    need(congee_live_new(&handles[0]) == 0 && congee_live_another(handles[0], &handles[1]) == 0, "a map");
    need(handles[0] != handles[1], "another handle");
    for (size_t i = 0; i < sizeof rows / sizeof *rows; i++) {
        uint64_t place = NOTHING;
        int code = call(handles[i % 2], &rows[i], has_place ? &place : NULL);
        if (code != rows[i].code || (has_place && place != rows[i].written)) {
            fprintf(stderr, "live_calls: wrong: row %zu returns %d and writes %" PRIu64 "\n", i, code, place);
            exit(1);
        }
    }
    congee_live_free(handles[0]);
    congee_live_free(handles[1]);
}

/* These keys are there, each with its tenfold as value, when the calls below are made. */
static const uint64_t there[] = {5, 7, 0x105, 0x1ff, 0x200, 1ull << 40, UINT64_MAX};
enum { THERE = sizeof there / sizeof *there };

/* A range from a key on, up to another one: whether that is included, how many pairs there is room for, and which of the keys
 * above are written, by the first one's place and their number. */
static const struct range {
    uint64_t start, last;
    bool inclusive;
    size_t room, first, count;
} ranges[] = {
    {0, UINT64_MAX, true, 8, 0, 7},       {0, UINT64_MAX, false, 8, 0, 6}, {0, UINT64_MAX, true, 7, 0, 7},
    {0, UINT64_MAX, true, 3, 0, 3},       {5, 7, false, 8, 0, 1},          {5, 7, true, 8, 0, 2},
    {6, 0x1ff, true, 8, 1, 3},            {6, 0x1ff, false, 8, 1, 2},      {8, 0x104, true, 8, 0, 0},
    {0x200, 1ull << 40, false, 1, 4, 1},  {0x201, 1ull << 40, true, 8, 5, 1}, {7, 5, true, 8, 0, 0},
    {7, 7, true, 8, 1, 1},                {7, 7, false, 8, 0, 0},          {UINT64_MAX, UINT64_MAX, true, 8, 6, 1},
    {UINT64_MAX, UINT64_MAX, false, 8, 0, 0}, {0, 0, false, 8, 0, 0},      {0, 0, true, 8, 0, 0},
    {1, UINT64_MAX, true, 0, 0, 0},
};

/* A key, and the places of its ceiling, of the first key above it, of its floor, and of the last key below it. THERE is none. */
static const struct near {
    uint64_t key;
    size_t ceiling, above, floor, below;
} nears[] = {
    {0, 0, 0, THERE, THERE},          {5, 0, 1, 0, THERE},          {6, 1, 1, 0, 0},
    {7, 1, 2, 1, 0},                  {0x1fe, 3, 3, 2, 2},          {0x200, 4, 5, 4, 3},
    {1ull << 40, 5, 6, 5, 4},         {(1ull << 40) + 1, 6, 6, 5, 5}, {UINT64_MAX - 1, 6, 6, 5, 5},
    {UINT64_MAX, 6, THERE, 6, 5},
};

static bool is_there(struct congee_pair pair, size_t place) {
    return place < THERE ? pair.key == there[place] && pair.value == 10 * there[place] : pair.key == 1 && pair.value == 2;
}

static void call_range(struct congee_live *map, const struct range *range, bool waits) {
    struct congee_pair page[8];
    size_t n = 99;
    memset(page, 0xee, sizeof page);
    if (range->inclusive && waits)
        n = congee_live_range_inclusive(map, range->start, range->last, page, range->room);
    else if (range->inclusive)
        need(congee_live_try_range_inclusive(map, range->start, range->last, page, range->room, &n) == 0, "a range isn't busy");
    else if (waits)
        n = congee_live_range(map, range->start, range->last, page, range->room);
    else
        need(congee_live_try_range(map, range->start, range->last, page, range->room, &n) == 0, "a range isn't busy");
    need(n == range->count, "how many pairs a range has");
    for (size_t i = 0; i < n; i++)
        need(is_there(page[i], range->first + i), "a pair of a range");
    for (size_t i = range->room; i < 8; i++)
        need(page[i].key == 0xeeeeeeeeeeeeeeee && page[i].value == page[i].key, "what lies behind the buffer");
}

/* The next pairs, by both forms, with a place and with none. */
static void call_near(struct congee_live *map, uint64_t key, size_t ceiling, size_t above) {
    struct congee_pair a = {1, 2}, b = {1, 2}, c = {1, 2}, d = {1, 2};
    int codes[] = {congee_live_ceiling(map, key, &a), congee_live_try_ceiling(map, key, &b), congee_live_ceiling(map, key, NULL)};
    for (int i = 0; i < 3; i++)
        need(codes[i] == (ceiling < THERE), "ceiling");
    need(is_there(a, ceiling) && is_there(b, ceiling), "the pair of ceiling");
    int others[] = {congee_live_above(map, key, &c), congee_live_try_above(map, key, &d), congee_live_try_above(map, key, NULL)};
    for (int i = 0; i < 3; i++)
        need(others[i] == (above < THERE), "above");
    need(is_there(c, above) && is_there(d, above), "the pair of above");
}

/* The pairs before, in the same way. */
static void call_before(struct congee_live *map, uint64_t key, size_t floor, size_t below) {
    struct congee_pair a = {1, 2}, b = {1, 2}, c = {1, 2}, d = {1, 2};
    int codes[] = {congee_live_floor(map, key, &a), congee_live_try_floor(map, key, &b), congee_live_floor(map, key, NULL)};
    for (int i = 0; i < 3; i++)
        need(codes[i] == (floor < THERE), "floor");
    need(is_there(a, floor) && is_there(b, floor), "the pair of floor");
    int others[] = {congee_live_below(map, key, &c), congee_live_try_below(map, key, &d), congee_live_try_below(map, key, NULL)};
    for (int i = 0; i < 3; i++)
        need(others[i] == (below < THERE), "below");
    need(is_there(c, below) && is_there(d, below), "the pair of below");
}

/* A range of the keys above, downwards: how many pairs there is room for, and which keys are written, by the place behind the
 * greatest of them and their number. */
static const struct down {
    uint64_t start, last;
    size_t room, behind, count;
} downs[] = {
    {0, UINT64_MAX, 8, 7, 7},     {0, UINT64_MAX, 7, 7, 7},          {0, UINT64_MAX, 3, 7, 3},    {5, 7, 8, 2, 2},
    {6, 0x1ff, 8, 4, 3},          {6, 0x1fe, 8, 3, 2},               {8, 0x104, 8, 0, 0},         {0x200, 1ull << 40, 1, 6, 1},
    {0, (1ull << 40) - 1, 8, 5, 5}, {7, 5, 8, 0, 0},                 {UINT64_MAX, 0, 8, 0, 0},    {7, 7, 8, 2, 1},
    {UINT64_MAX, UINT64_MAX, 8, 7, 1}, {0, 0, 8, 0, 0},              {0, 4, 8, 0, 0},             {0, 5, 8, 1, 1},
    {1, UINT64_MAX, 0, 0, 0},
};

static void call_down(struct congee_live *map, const struct down *down, bool waits) {
    struct congee_pair page[8];
    size_t n = 99;
    memset(page, 0xee, sizeof page);
    if (waits)
        n = congee_live_range_descending(map, down->start, down->last, page, down->room);
    else
        need(congee_live_try_range_descending(map, down->start, down->last, page, down->room, &n) == CONGEE_DONE,
             "a range downwards isn't busy");
    need(n == down->count, "how many pairs a range downwards has");
    for (size_t i = 0; i < n; i++)
        need(is_there(page[i], down->behind - 1 - i), "a pair of a range downwards");
    for (size_t i = down->room; i < 8; i++)
        need(page[i].key == 0xeeeeeeeeeeeeeeee && page[i].value == page[i].key, "what lies behind the buffer");
}

static void call_ends(struct congee_live *map, bool is_some) {
    struct congee_pair a = {1, 2}, b = {1, 2}, c = {1, 2}, d = {1, 2};
    need(congee_live_first(map, &a) == is_some && congee_live_try_first(map, &b) == is_some, "first");
    need(congee_live_first(map, NULL) == is_some, "first, with no place");
    need(is_there(a, is_some ? 0 : THERE) && is_there(b, is_some ? 0 : THERE), "the pair of first");
    need(congee_live_last(map, &c) == is_some && congee_live_try_last(map, &d) == is_some, "last");
    need(congee_live_last(map, NULL) == is_some, "last, with no place");
    need(is_there(c, is_some ? THERE - 1 : THERE) && is_there(d, is_some ? THERE - 1 : THERE), "the pair of last");
}

/* Counts of so many keys, by both forms. */
static void call_counts(struct congee_live *map, uint64_t keys) {
    uint64_t count = 99;
    need(congee_live_count(map) == keys, "count");
    need(congee_live_try_count(map, &count) == 0 && count == keys, "try_count");
    need(congee_live_is_empty(map) == (keys == 0) && congee_live_try_is_empty(map) == (keys == 0), "is_empty");
}

/* Each range, each next pair and each one before, of the keys above, and of no keys. They are removed, so nodes without pairs are there. */
static void call_ranges(void) {
    struct congee_live *map;
    need(congee_live_new(&map) == 0, "a map");
    call_ends(map, false);
    call_counts(map, 0);
    for (size_t i = 0; i < THERE; i++) {
        need(congee_live_insert(map, there[THERE - 1 - i], 10 * there[THERE - 1 - i], NULL) == 0, "a key");
        call_counts(map, i + 1);
    }
    for (size_t i = 0; i < sizeof ranges / sizeof *ranges; i++) {
        call_range(map, &ranges[i], true);
        call_range(map, &ranges[i], false);
    }
    for (size_t i = 0; i < sizeof downs / sizeof *downs; i++) {
        call_down(map, &downs[i], true);
        call_down(map, &downs[i], false);
    }
    for (size_t i = 0; i < sizeof nears / sizeof *nears; i++)
        call_near(map, nears[i].key, nears[i].ceiling, nears[i].above);
    for (size_t i = 0; i < sizeof nears / sizeof *nears; i++)
        call_before(map, nears[i].key, nears[i].floor, nears[i].below);
    call_ends(map, true);
    for (size_t i = 0; i < THERE; i++)
        need(congee_live_remove(map, there[i], NULL) == 1, "a removal");
    for (size_t i = 0; i < sizeof nears / sizeof *nears; i++)
        call_near(map, nears[i].key, THERE, THERE);
    for (size_t i = 0; i < sizeof nears / sizeof *nears; i++)
        call_before(map, nears[i].key, THERE, THERE);
    call_ends(map, false);
    call_counts(map, 0);
    need(congee_live_range_inclusive(map, 0, UINT64_MAX, (struct congee_pair[1]){{0, 0}}, 1) == 0, "a range of no keys");
    congee_live_free(map);
}

/* Inserts the keys above, all at once. */
static void insert_all(struct congee_live *map) {
    struct congee_pair pairs[THERE];
    for (size_t i = 0; i < THERE; i++)
        pairs[i] = (struct congee_pair){there[i], 10 * there[i]};
    need(congee_live_insert_many(map, pairs, THERE) == THERE, "many pairs");
    need(congee_live_insert_many(map, pairs, 0) == 0, "no pairs");
}

/* Pops from both ends with a bound beside each pair, by both forms, until no pair is left. */
static void call_bounded_pops(struct congee_live *map) {
    insert_all(map);
    for (size_t first = 0, last = THERE; first < last; first++, last--) {
        struct congee_pair pair = {1, 2}, *at = first == 1 ? NULL : &pair;
        if (there[first] > 0)
            need(congee_live_pop_first_to(map, there[first] - 1, &pair) == CONGEE_ABSENT, "no pair up to a key");
        need(is_there(pair, THERE), "the place of no pair up to a key");
        need(congee_live_try_pop_first_to(map, there[first], at) == CONGEE_PRESENT, "a pop up to a key");
        need(is_there(pair, at ? first : THERE), "the pair of a pop up to a key");
        if (first + 1 == last)
            break;
        pair = (struct congee_pair){1, 2};
        if (there[last - 1] < UINT64_MAX)
            need(congee_live_try_pop_last_from(map, there[last - 1] + 1, &pair) == CONGEE_ABSENT, "no pair from a key on");
        need(is_there(pair, THERE), "the place of no pair from a key on");
        need(congee_live_pop_last_from(map, there[last - 1], &pair) == CONGEE_PRESENT, "a pop from a key on");
        need(is_there(pair, last - 1), "the pair of a pop from a key on");
    }
    call_counts(map, 0);
}

/* Pops from both ends in turn, by both forms, with a place or with none, until no pair is left. */
static void call_pops(struct congee_live *map) {
    size_t first = 0, last = THERE;
    insert_all(map);
    for (int i = 0; first < last; i++) {
        struct congee_pair pair = {1, 2}, *at = i == 3 ? NULL : &pair;
        bool up = i % 2 == 0;
        int code = i % 4 == 0   ? congee_live_pop_first(map, at)
                   : i % 4 == 1 ? congee_live_pop_last(map, at)
                   : i % 4 == 2 ? congee_live_try_pop_first(map, at)
                                : congee_live_try_pop_last(map, at);
        need(code == CONGEE_PRESENT, "a pop");
        size_t popped = up ? first++ : --last;
        need(is_there(pair, i == 3 ? THERE : popped), "the pair of a pop");
        need(congee_live_get(map, there[popped], NULL) == CONGEE_ABSENT, "a popped key is gone");
        call_counts(map, last - first);
    }
    struct congee_pair a = {1, 2}, b = {1, 2}, c = {1, 2}, d = {1, 2};
    need(congee_live_pop_first(map, &a) == CONGEE_ABSENT && congee_live_try_pop_first(map, &b) == CONGEE_ABSENT, "no first pair");
    need(congee_live_pop_last(map, &c) == CONGEE_ABSENT && congee_live_try_pop_last(map, &d) == CONGEE_ABSENT, "no last pair");
    need(is_there(a, THERE) && is_there(b, THERE) && is_there(c, THERE) && is_there(d, THERE), "the places of no pairs");
}

/* What a visitor was called with, and at which call it ends the loop, and by what. */
struct visit {
    size_t first, calls, ends;
};

static int visitor(struct congee_pair pair, void *with) {
    struct visit *visit = with;
    need(is_there(pair, visit->first + visit->calls), "the pair of a call");
    return ++visit->calls == visit->ends ? 7 : 0;
}

/* Loops over a range of the keys above: the first that it is called with, and how often. Then the removal of the range. */
static const struct loop {
    uint64_t start, last;
    size_t first, calls;
} loops[] = {
    {0, UINT64_MAX, 0, 7}, {6, 0x1ff, 1, 3},        {7, 7, 1, 1},          {8, 0x104, 0, 0},
    {7, 5, 0, 0},          {UINT64_MAX, UINT64_MAX, 6, 1}, {0, 4, 0, 0}, {0, UINT64_MAX - 1, 0, 6},
};

/* Removals of ranges of the keys below 600, of 1000, and of the greatest key: 256 keys are in each of the first two leaves, and 64
 * are removed at once. How many are removed. */
static const struct removal {
    uint64_t start, last, removed;
} removals[] = {
    /* within a leaf, and a whole leaf */
    {10, 19, 10}, {255, 255, 1}, {256, 511, 256},
    /* over several leaves, and over a leaf without a key of the range behind it */
    {250, 261, 12}, {250, 520, 271}, {599, 999, 1},
    /* at once, one more, and several times */
    {0, 63, 64}, {0, 64, 65}, {10, 137, 128}, {3, 202, 200},
    /* up to the greatest key */
    {590, UINT64_MAX, 12}, {1001, UINT64_MAX, 1}, {UINT64_MAX, UINT64_MAX, 1}, {0, UINT64_MAX, 602}, {0, UINT64_MAX - 1, 601},
    /* none: of no keys, and whose end is before its start */
    {600, 999, 0}, {1001, UINT64_MAX - 1, 0}, {20, 19, 0}, {300, 5, 0}, {UINT64_MAX, 0, 0},
};

static void call_removals(struct congee_live *map) {
    struct congee_pair pairs[602];
    for (uint64_t i = 0; i < 602; i++)
        pairs[i].key = pairs[i].value = i < 600 ? i : i == 600 ? 1000 : UINT64_MAX;
    for (size_t i = 0; i < sizeof removals / sizeof *removals; i++) {
        const struct removal *it = &removals[i];
        need(congee_live_insert_many(map, pairs, 602) == 602, "the keys of leaves");
        need(congee_live_remove_range_inclusive(map, it->start, it->last) == it->removed, "how many pairs of leaves are removed");
        call_counts(map, 602 - it->removed);
        for (size_t key = 0; key < 602; key++)
            need(congee_live_get(map, pairs[key].key, NULL) == (pairs[key].key < it->start || pairs[key].key > it->last),
                 "which pairs of leaves are removed");
    }
    congee_live_clear(map);
    call_counts(map, 0);
    need(congee_live_remove_range_inclusive(map, 0, UINT64_MAX) == 0, "a removal of no pairs");
}

static void call_loops(struct congee_live *map) {
    for (size_t i = 0; i < sizeof loops / sizeof *loops; i++) {
        const struct loop *loop = &loops[i];
        struct visit all = {loop->first, 0, 99}, two = {loop->first, 0, 2};
        insert_all(map);
        need(congee_live_each(map, loop->start, loop->last, visitor, &all) == 0 && all.calls == loop->calls, "each");
        need(congee_live_each(map, loop->start, loop->last, visitor, &two) == (loop->calls > 1 ? 7 : 0), "each that ends");
        need(two.calls == (loop->calls < 2 ? loop->calls : 2), "how often each calls that ends");
        need(congee_live_remove_range_inclusive(map, loop->start, loop->last) == loop->calls, "how many pairs are removed");
        for (size_t key = 0; key < THERE; key++)
            need(congee_live_get(map, there[key], NULL) == (key < loop->first || key >= loop->first + loop->calls),
                 "which are removed");
    }
    congee_live_clear(map);
    call_counts(map, 0);
    call_removals(map);
}

/* What a function is called with by congee_live_compute, and what it answers. */
struct change {
    int found, wanted;
    uint64_t value, desired;
    int calls;
};

static int changes(int found, uint64_t *value, void *with) {
    struct change *change = with;
    need(found == change->found && *value == change->value, "what a function is called with");
    change->calls++;
    *value = change->desired;
    return change->wanted;
}

/* Changes of one key in turn, each with what it returns, and with the old value or NOTHING. */
static const struct {
    struct change change;
    int code;
    uint64_t old;
} computes[] = {
    {{CONGEE_ABSENT, CONGEE_ABSENT, 0, 5, 0}, CONGEE_ABSENT, NOTHING},
    {{CONGEE_ABSENT, CONGEE_PRESENT, 0, 70, 0}, CONGEE_ABSENT, NOTHING},
    {{CONGEE_PRESENT, CONGEE_PRESENT, 70, 71, 0}, CONGEE_PRESENT, 70},
    {{CONGEE_PRESENT, CONGEE_PRESENT, 71, 71, 0}, CONGEE_PRESENT, 71},
    {{CONGEE_PRESENT, CONGEE_PRESENT, 71, 0, 0}, CONGEE_PRESENT, 71},
    {{CONGEE_PRESENT, CONGEE_ABSENT, 0, 9, 0}, CONGEE_PRESENT, 0},
    {{CONGEE_ABSENT, CONGEE_PRESENT, 0, 0, 0}, CONGEE_ABSENT, NOTHING},
    {{CONGEE_PRESENT, CONGEE_ABSENT, 0, 0, 0}, CONGEE_PRESENT, 0},
};

static void call_computes(struct congee_live *map, bool waits, bool has_place) {
    for (size_t i = 0; i < sizeof computes / sizeof *computes; i++) {
        struct change change = computes[i].change;
        uint64_t old = NOTHING, value = NOTHING, *place = has_place ? &old : NULL;
        int code = (waits ? congee_live_compute : congee_live_try_compute)(map, 7, changes, &change, place);
        need(code == computes[i].code && change.calls == 1, "a change by a function");
        need(old == (has_place ? computes[i].old : NOTHING), "the old value of a change by a function");
        need(congee_live_get(map, 7, &value) == change.wanted, "whether the key is there after a change");
        need(value == (change.wanted == CONGEE_PRESENT ? change.desired : NOTHING), "the value after a change");
    }
}

/* A function that changes the key by another handle while it is called: it is called again with the new value, or the call is
 * busy. */
struct meddler {
    struct congee_live *other;
    int calls;
};

static int meddles(int found, uint64_t *value, void *with) {
    struct meddler *meddler = with;
    switch (meddler->calls++) {
    case 0:
        need(found == CONGEE_ABSENT && *value == 0, "an absent key");
        need(congee_live_insert(meddler->other, 7, 70, NULL) == CONGEE_ABSENT, "another handle inserts it");
        break;
    case 1:
        need(found == CONGEE_PRESENT && *value == 70, "what another handle inserted");
        need(congee_live_insert(meddler->other, 7, 71, NULL) == CONGEE_PRESENT, "another handle changes it");
        break;
    case 2:
        need(found == CONGEE_PRESENT && *value == 71, "what another handle changed");
        need(congee_live_remove(meddler->other, 7, NULL) == CONGEE_PRESENT, "another handle removes it");
        break;
    default:
        need(found == CONGEE_ABSENT && *value == 0, "what another handle removed");
    }
    *value = 5;
    return meddler->calls == 3 ? CONGEE_ABSENT : CONGEE_PRESENT;
}

static void call_meddled(struct congee_live *map) {
    struct meddler meddler = {NULL, 0};
    uint64_t value = NOTHING, old = NOTHING;
    need(congee_live_another(map, &meddler.other) == CONGEE_DONE, "another handle");
    need(congee_live_compute(map, 7, meddles, &meddler, &old) == CONGEE_ABSENT && meddler.calls == 4, "a call that goes on");
    need(old == NOTHING && congee_live_get(map, 7, &value) == CONGEE_PRESENT && value == 5, "what it leaves");
    need(congee_live_remove(map, 7, NULL) == CONGEE_PRESENT, "a removal");
    meddler.calls = 0;
    for (int calls = 1; calls <= 3; calls++)
        need(congee_live_try_compute(map, 7, meddles, &meddler, &old) == CONGEE_BUSY && meddler.calls == calls,
             "a call that gives up");
    need(old == NOTHING && congee_live_get(map, 7, NULL) == CONGEE_ABSENT, "it changes nothing");
    need(congee_live_try_compute(map, 7, meddles, &meddler, &old) == CONGEE_ABSENT && meddler.calls == 4, "a call that is made");
    need(congee_live_remove(map, 7, &value) == CONGEE_PRESENT && value == 5, "what that leaves");
    congee_live_free(meddler.other);
}

/* Calls that make several calls of the library. */
static void call_several(void) {
    struct congee_live *map;
    need(congee_live_new(&map) == CONGEE_DONE, "a map");
    call_pops(map);
    call_bounded_pops(map);
    call_loops(map);
    for (int i = 0; i < 4; i++)
        call_computes(map, i / 2, i % 2);
    call_meddled(map);
    need(congee_live_insert(map, 7, 70, NULL) == CONGEE_ABSENT, "a key that is left at the end");
    congee_live_free(map);
}

/* The least and the greatest key, dense keys, and some that lie far apart. */
static uint64_t key_of(uint64_t i) {
    return i == 0 ? 0 : i == 1 ? UINT64_MAX : i % 4 ? i : i * 0x0010010010010010u;
}

static bool is_same(struct congee_pair a, struct congee_pair b) {
    return a.key == b.key && a.value == b.value;
}

static bool keep(struct congee_pair pair, void *with) {
    uint64_t *sum = with;
    *sum = 31 * *sum + (pair.key ^ pair.value);
    return pair.value != 2;
}

/* Pops, and now and then a removal of many pairs. */
static void remove_pairs(struct congee *map, struct congee_live *live, uint64_t key, uint64_t last, uint64_t *seed) {
    struct congee_pair a = {1, 2}, b = {1, 2};
    uint64_t kind = next(seed) % 512;
    if (kind == 0) {
        congee_clear(map);
        congee_live_clear(live);
    } else if (kind == 1) {
        uint64_t one = 0, other = 0;
        need(congee_retain(map, keep, &one) == congee_live_retain(live, keep, &other) && one == other, "retain");
    } else if (kind < 8) {
        need(congee_remove_range_inclusive(map, key, last) == congee_live_remove_range_inclusive(live, key, last),
             "a removal of many");
    } else if (kind % 4 == 2) {
        need(congee_pop_first_to(map, key, &a) == congee_live_pop_first_to(live, key, &b) && is_same(a, b), "pop_first_to");
    } else if (kind % 4 == 3) {
        need(congee_pop_last_from(map, key, &a) == congee_live_pop_last_from(live, key, &b) && is_same(a, b), "pop_last_from");
    } else if (kind % 2) {
        need(congee_pop_first(map, &a) == congee_live_pop_first(live, &b) && is_same(a, b), "pop_first");
    } else {
        need(congee_pop_last(map, &a) == congee_live_pop_last(live, &b) && is_same(a, b), "pop_last");
    }
}

/* A range, a next pair, one before, or a pop. */
static void compare_pairs(struct congee *map, struct congee_live *live, uint64_t key, uint64_t *seed) {
    static struct congee_pair one[ROOM], other[ROOM];
    struct congee_pair a = {1, 2}, b = {1, 2};
    uint64_t last = key_of(next(seed) % KEYS), kind = next(seed) % 10;
    size_t n = next(seed) % (ROOM + 1), count, its;
    switch (kind) {
    case 0:
        need(congee_first(map, &a) == congee_live_first(live, &b) && is_same(a, b), "first");
        break;
    case 1:
        need(congee_ceiling(map, key, &a) == congee_live_ceiling(live, key, &b) && is_same(a, b), "ceiling");
        break;
    case 2:
        need(congee_above(map, key, &a) == congee_live_above(live, key, &b) && is_same(a, b), "above");
        break;
    case 3:
        need(congee_last(map, &a) == congee_live_last(live, &b) && is_same(a, b), "last");
        break;
    case 4:
        need(congee_floor(map, key, &a) == congee_live_floor(live, key, &b) && is_same(a, b), "floor");
        break;
    case 5:
        need(congee_below(map, key, &a) == congee_live_below(live, key, &b) && is_same(a, b), "below");
        break;
    case 8:
        count = congee_range_descending(map, key, last, one, n);
        its = congee_live_range_descending(live, key, last, other, n);
        need(count == its && memcmp(one, other, count * sizeof *one) == 0, "a range downwards");
        break;
    case 9:
        remove_pairs(map, live, key, last, seed);
        break;
    default:
        count = kind == 6 ? congee_range(map, key, last, one, n) : congee_range_inclusive(map, key, last, one, n);
        its = kind == 6 ? congee_live_range(live, key, last, other, n) : congee_live_range_inclusive(live, key, last, other, n);
        need(count == its && memcmp(one, other, count * sizeof *one) == 0, "a range");
    }
}

static void call_mixed(void) {
    struct congee *map;
    struct congee_live *handles[2];
    uint64_t seed = 11;
    need(congee_new(&map) == 0 && congee_live_new(&handles[0]) == 0, "maps");
    need(congee_live_another(handles[0], &handles[1]) == 0, "another handle");
    for (int call = 0; call < CALLS; call++) {
        struct row row = {next(&seed) % 7, key_of(next(&seed) % KEYS), next(&seed) % 4, next(&seed) % 4, 0, 0};
        uint64_t one = NOTHING, other = NOTHING;
        int code = owned(map, &row, &one), its = (next(&seed) % 2 ? waits : tries)(handles[next(&seed) % 2], &row, &other);
        need(code == its && one == other, "a call beside a map with one owner");
        if (call % 16 == 0)
            compare_pairs(map, handles[next(&seed) % 2], row.key, &seed);
        if (call % 4096 == 0)
            need(congee_count(map) == congee_live_count(handles[next(&seed) % 2]), "a count beside a map with one owner");
    }
    for (uint64_t i = 0; i < KEYS; i++) {
        uint64_t one = NOTHING, other = NOTHING;
        int code = congee_get(map, key_of(i), &one);
        need(congee_live_get(handles[0], key_of(i), &other) == code && one == other, "a key at the end");
    }
    congee_free(map);
    congee_live_free(handles[0]);
    congee_live_free(handles[1]);
}

int main(void) {
    congee_live_free(NULL);
    call_rows(waits, true);
    call_rows(tries, true);
    call_rows(waits, false);
    call_rows(tries, false);
    call_ranges();
    call_several();
    call_mixed();
    printf("%zu rows four times, %d calls beside a map with one owner\n", sizeof rows / sizeof *rows, CALLS);
    return 0;
}

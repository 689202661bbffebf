/* Calls that all forms of the map have, by one table of keys and answers for a map with one owner, a map under one lock, a map
 * in shards, and a live map: changes by a function, loops downwards, removals of a range, limits, copies. Copies are also
 * made with each request for memory refused in turn. A reader has the loops and the copies. Linked with --wrap for malloc, realloc and free. */
#include "congee.h"
#include <inttypes.h>
#include <stdio.h>
#include <stdlib.h>

enum { NOTHING = 99, MANY = 600, NO_LIMIT = 0 };

static long left = -1; /* how many allocations succeed before one fails, or none for -1 */
static long live;      /* how many blocks are out */

void *__real_malloc(size_t);
void *__real_realloc(void *, size_t);
void __real_free(void *);

static bool is_refused(void) {
    if (left == 0)
        return true;
    left -= left > 0;
    return false;
}

void *__wrap_malloc(size_t n) {
    void *block = is_refused() ? NULL : __real_malloc(n);
    live += block != NULL;
    return block;
}

void *__wrap_realloc(void *block, size_t n) {
    void *made = is_refused() ? NULL : __real_realloc(block, n);
    live += made && !block;
    return made;
}

void __wrap_free(void *block) {
    live -= block != NULL;
    __real_free(block);
}

/* -- Forms -- */

/* The calls of a form. Where a form lacks one it is null. */
struct form {
    const char *name;
    void *(*make)(uint64_t limit); /* NO_LIMIT is none */
    void (*free)(void *map);
    int (*get)(void *map, uint64_t key, uint64_t *value);
    int (*insert)(void *map, uint64_t key, uint64_t value, uint64_t *old);
    int (*remove)(void *map, uint64_t key, uint64_t *old);
    int (*compute)(void *map, uint64_t key, congee_updater *f, void *with, uint64_t *old);
    int (*try_compute)(void *map, uint64_t key, congee_updater *f, void *with, uint64_t *old);
    int (*each)(void *map, uint64_t start, uint64_t last, congee_visitor *f, void *with);
    int (*each_descending)(void *map, uint64_t start, uint64_t last, congee_visitor *f, void *with);
    size_t (*insert_many)(void *map, const struct congee_pair *pairs, size_t n);
    uint64_t (*remove_range)(void *map, uint64_t start, uint64_t last);
    uint64_t (*count)(void *map);
    uint64_t (*limit)(void *map);
    int (*try_limit)(void *map, uint64_t *bytes);
    void (*usage)(void *map, uint64_t *charged, uint64_t *limit);
    int (*snapshot)(void *map, struct congee **out);
    int (*snapshot_frozen)(void *map, struct congee_frozen **out);
    uint64_t least; /* the least limit with which a map is made, and what the limit is then */
};

#define CALL(form, type, name, parameters, ...)                                                                             \
    static type form##_##name parameters {                                                                                  \
        return form##_is(name)(__VA_ARGS__);                                                                                \
    }
#define owned_is(name) congee_##name
#define shared_is(name) congee_shared_##name
#define live_is(name) congee_live_##name
#define CALLS_OF_ALL(form)                                                                                                  \
    static void form##_free(void *it) {                                                                                     \
        form##_is(free)(it);                                                                                                \
    }                                                                                                                       \
    static void form##_usage(void *it, uint64_t *charged, uint64_t *limit) {                                                \
        form##_is(usage)(it, charged, limit);                                                                               \
    }                                                                                                                       \
    CALL(form, int, get, (void *it, uint64_t key, uint64_t *value), it, key, value)                                         \
    CALL(form, int, insert, (void *it, uint64_t key, uint64_t value, uint64_t *old), it, key, value, old)                   \
    CALL(form, int, remove, (void *it, uint64_t key, uint64_t *old), it, key, old)                                          \
    CALL(form, int, compute, (void *it, uint64_t key, congee_updater *f, void *with, uint64_t *old), it, key, f, with, old) \
    CALL(form, int, each, (void *it, uint64_t from, uint64_t last, congee_visitor *f, void *with), it, from, last, f, with) \
    CALL(form, int, each_descending, (void *it, uint64_t from, uint64_t last, congee_visitor *f, void *with), it, from,     \
         last, f, with)                                                                                                     \
    CALL(form, size_t, insert_many, (void *it, const struct congee_pair *pairs, size_t n), it, pairs, n)                    \
    CALL(form, uint64_t, remove_range_inclusive, (void *it, uint64_t from, uint64_t last), it, from, last)                  \
    CALL(form, uint64_t, count, (void *it), it)                                                                             \
    CALL(form, uint64_t, limit, (void *it), it)
CALLS_OF_ALL(owned)
CALLS_OF_ALL(shared)
CALLS_OF_ALL(live)
CALL(shared, int, try_compute, (void *it, uint64_t key, congee_updater *f, void *with, uint64_t *old), it, key, f, with, old)
CALL(live, int, try_compute, (void *it, uint64_t key, congee_updater *f, void *with, uint64_t *old), it, key, f, with, old)
CALL(shared, int, try_limit, (void *it, uint64_t *bytes), it, bytes)
CALL(owned, int, snapshot, (void *it, struct congee **out), it, out)
CALL(shared, int, snapshot, (void *it, struct congee **out), it, out)
CALL(live, int, snapshot, (void *it, struct congee **out), it, out)
CALL(shared, int, snapshot_frozen, (void *it, struct congee_frozen **out), it, out)
CALL(live, int, snapshot_frozen, (void *it, struct congee_frozen **out), it, out)

#define MAKE(form, type, code_without, code_within)                                                                         \
    static void *form##_make(uint64_t limit) {                                                                              \
        type *it = NULL;                                                                                                    \
        int code = limit == NO_LIMIT ? code_without : code_within;                                                          \
        return code == CONGEE_DONE ? it : NULL;                                                                             \
    }
MAKE(owned, struct congee, congee_new(&it), congee_new_with_limit(&it, limit))
MAKE(shared, struct congee_shared, congee_shared_new(UINT64_MAX, &it), congee_shared_new_with_limit(&it, limit))
MAKE(sharded, struct congee_shared, congee_shared_new_sharded(UINT64_MAX, &it), congee_shared_new_sharded(limit, &it))
MAKE(live, struct congee_live, congee_live_new(&it), congee_live_new_with_limit(&it, limit))

#define ENTRIES(form)                                                                                                       \
    .free = form##_free, .get = form##_get, .insert = form##_insert, .remove = form##_remove, .compute = form##_compute,    \
    .each = form##_each, .each_descending = form##_each_descending, .insert_many = form##_insert_many,                      \
    .remove_range = form##_remove_range_inclusive, .count = form##_count, .limit = form##_limit, .usage = form##_usage
#define SHARED_ENTRIES                                                                                                      \
    ENTRIES(shared), .try_compute = shared_try_compute, .try_limit = shared_try_limit, .snapshot = shared_snapshot,         \
        .snapshot_frozen = shared_snapshot_frozen
static const struct form forms[] = {
    {"a map with one owner", .make = owned_make, ENTRIES(owned), .snapshot = owned_snapshot, .least = 2104},
    {"a map under one lock", .make = shared_make, SHARED_ENTRIES, .least = 2104},
    {"a map in shards", .make = sharded_make, SHARED_ENTRIES, .least = 64 * 2104},
    {"a live map", .make = live_make, ENTRIES(live), .try_compute = live_try_compute, .snapshot = live_snapshot,
     .snapshot_frozen = live_snapshot_frozen, .least = 4096},
};
enum { FORMS = sizeof forms / sizeof *forms };
static const struct form *form;

static void need(bool holds, const char *what) {
    if (!holds) {
        fprintf(stderr, "forms: wrong: %s: %s\n", form->name, what);
        exit(1);
    }
}

/* -- Changes by a function -- */

/* What a function is called with, and what it answers. */
struct change {
    int found, wanted;
    uint64_t value, desired;
    int calls;
};

static int changes(int found, uint64_t *value, void *with) {
    struct change *change = with;
    need(found == change->found && *value == change->value, "what a function is called with");
    change->calls++;
    *value = change->desired;
    return change->wanted;
}

/* Changes of one key in turn, each with what it returns, and with the old value or NOTHING. */
static const struct {
    struct change change;
    int code;
    uint64_t old;
} computes[] = {
    {{CONGEE_ABSENT, CONGEE_ABSENT, 0, 5, 0}, CONGEE_ABSENT, NOTHING},
    {{CONGEE_ABSENT, CONGEE_PRESENT, 0, 70, 0}, CONGEE_ABSENT, NOTHING},
    {{CONGEE_PRESENT, CONGEE_PRESENT, 70, 71, 0}, CONGEE_PRESENT, 70},
    {{CONGEE_PRESENT, CONGEE_PRESENT, 71, 71, 0}, CONGEE_PRESENT, 71},
    {{CONGEE_PRESENT, CONGEE_PRESENT, 71, 0, 0}, CONGEE_PRESENT, 71},
    {{CONGEE_PRESENT, CONGEE_ABSENT, 0, 9, 0}, CONGEE_PRESENT, 0},
    {{CONGEE_ABSENT, CONGEE_PRESENT, 0, 0, 0}, CONGEE_ABSENT, NOTHING},
    {{CONGEE_PRESENT, CONGEE_ABSENT, 0, 0, 0}, CONGEE_PRESENT, 0},
};

static void call_computes(void *map, bool waits, bool has_place) {
    for (size_t i = 0; i < sizeof computes / sizeof *computes; i++) {
        struct change change = computes[i].change;
        uint64_t old = NOTHING, value = NOTHING, *place = has_place ? &old : NULL;
        int code = (waits ? form->compute : form->try_compute)(map, 7, changes, &change, place);
        need(code == computes[i].code && change.calls == 1, "a change by a function");
        need(old == (has_place ? computes[i].old : NOTHING), "the old value of a change by a function");
        need(form->get(map, 7, &value) == change.wanted, "whether the key is there after a change");
        need(value == (change.wanted == CONGEE_PRESENT ? change.desired : NOTHING), "the value after a change");
    }
}

/* A function that changes the key of a map for threads while it is called: it is called again with the new value, or the call
 * is busy. */
struct meddler {
    void *map;
    int calls;
};

static int meddles(int found, uint64_t *value, void *with) {
    struct meddler *meddler = with;
    if (meddler->calls++ == 0) {
        need(found == CONGEE_ABSENT && *value == 0, "an absent key");
        need(form->insert(meddler->map, 8, 80, NULL) == CONGEE_ABSENT, "the key is inserted meanwhile");
    } else if (meddler->calls == 2) {
        need(found == CONGEE_PRESENT && *value == 80, "what was inserted meanwhile");
        need(form->remove(meddler->map, 8, NULL) == CONGEE_PRESENT, "the key is removed meanwhile");
    } else {
        need(found == CONGEE_ABSENT && *value == 0, "what was removed meanwhile");
    }
    *value = 5;
    return CONGEE_PRESENT;
}

static void call_meddled(void *map) {
    struct meddler waits = {map, 0}, tries = {map, 0}, again = {map, 1};
    uint64_t old = NOTHING, value = NOTHING;
    need(form->compute(map, 8, meddles, &waits, &old) == CONGEE_ABSENT && waits.calls == 3, "a change that begins again");
    need(old == NOTHING && form->get(map, 8, &value) == CONGEE_PRESENT && value == 5, "what such a change leaves");
    need(form->remove(map, 8, NULL) == CONGEE_PRESENT, "a removal");
    need(form->try_compute(map, 8, meddles, &tries, &old) == CONGEE_BUSY && tries.calls == 1, "a change that is busy");
    need(form->try_compute(map, 8, meddles, &again, &old) == CONGEE_BUSY && again.calls == 2, "another one that is busy");
    need(old == NOTHING && form->get(map, 8, NULL) == CONGEE_ABSENT, "what a busy change leaves");
}

/* -- Loops downwards, and removals -- */

/* These keys are there, each with its tenfold as value. */
static const uint64_t there[] = {5, 7, 0x105, 0x1ff, 0x200, 1ull << 40, UINT64_MAX};
enum { THERE = sizeof there / sizeof *there };

static void insert_all(void *map) {
    struct congee_pair pairs[THERE];
    for (size_t i = 0; i < THERE; i++)
        pairs[i] = (struct congee_pair){there[i], 10 * there[i]};
    need(form->insert_many(map, pairs, THERE) == THERE, "many pairs");
}

/* What a visitor is called with next, how often it was called, and at which call it ends the loop. */
struct visit {
    size_t behind, calls, ends;
};

static int visitor(struct congee_pair pair, void *with) {
    struct visit *visit = with;
    uint64_t key = there[visit->behind - 1 - visit->calls];
    need(pair.key == key && pair.value == 10 * key, "the pair of a loop downwards");
    return ++visit->calls == visit->ends ? 7 : 0;
}

/* Ranges of the keys above: the place behind the greatest of them, and their number. */
static const struct loop {
    uint64_t start, last;
    size_t behind, calls;
} loops[] = {
    {0, UINT64_MAX, 7, 7}, {6, 0x1ff, 4, 3}, {7, 7, 2, 1},     {8, 0x104, 0, 0},           {7, 5, 0, 0},
    {UINT64_MAX, 0, 0, 0}, {0, 4, 0, 0},     {0, 5, 1, 1},     {0, UINT64_MAX - 1, 6, 6},  {0, 0, 0, 0},
    {5, UINT64_MAX, 7, 7}, {6, 7, 2, 1},     {0x106, 0x200, 5, 2}, {UINT64_MAX, UINT64_MAX, 7, 1},
};

typedef int loop_call(void *map, uint64_t start, uint64_t last, congee_visitor *f, void *with);

static void call_loop(loop_call *each_descending, void *map, const struct loop *loop) {
    struct visit all = {loop->behind, 0, NOTHING}, two = {loop->behind, 0, 2};
    need(each_descending(map, loop->start, loop->last, visitor, &all) == 0 && all.calls == loop->calls, "a loop downwards");
    need(each_descending(map, loop->start, loop->last, visitor, &two) == (loop->calls > 1 ? 7 : 0), "a loop that ends");
    need(two.calls == (loop->calls < 2 ? loop->calls : 2), "how often a loop that ends calls");
}

static void call_loops(void *map) {
    for (size_t i = 0; i < sizeof loops / sizeof *loops; i++) {
        const struct loop *loop = &loops[i];
        insert_all(map);
        call_loop(form->each_descending, map, loop);
        need(form->remove_range(map, loop->start, loop->last) == loop->calls, "how many pairs are removed");
        for (size_t key = 0; key < THERE; key++)
            need(form->get(map, there[key], NULL) == (key >= loop->behind || key < loop->behind - loop->calls),
                 "which pairs are removed");
    }
    need(form->remove_range(map, 0, UINT64_MAX) > 0 && form->count(map) == 0, "all pairs are removed");
}

/* The keys of a map of more than a page: 0, 3, 4, 7, 8 and so on, and the greatest key. */
static uint64_t key_of(uint64_t i, uint64_t n) {
    return i + 1 < n ? 4 * ((i + 1) / 2) - i % 2 : UINT64_MAX;
}

struct walk {
    uint64_t left, n;
    bool up;
};

static int walks(struct congee_pair pair, void *with) {
    struct walk *walk = with;
    walk->left--;
    const uint64_t i = walk->up ? walk->n - 1 - walk->left : walk->left;
    need(pair.key == key_of(i, walk->n) && pair.value == i, "the next pair");
    return 0;
}

static void fill(void *map, uint64_t n) {
    for (uint64_t i = 0; i < n; i++)
        need(form->insert(map, key_of(i, n), i, NULL) == CONGEE_ABSENT, "a new key");
}

/* Lengths at and beside the ends of pages. */
static const uint64_t lengths[] = {1, 2, 15, 16, 17, 63, 64, 65, 127, 128, 129, 271, 272, 273, MANY};
enum { LENGTHS = sizeof lengths / sizeof *lengths };

static void call_long_loops(void) {
    for (size_t i = 0; i < LENGTHS; i++) {
        struct walk down = {lengths[i], lengths[i], false}, up = {lengths[i], lengths[i], true};
        void *map = form->make(NO_LIMIT);
        fill(map, lengths[i]);
        need(form->each_descending(map, 0, UINT64_MAX, walks, &down) == 0 && down.left == 0, "a loop by pages");
        need(form->each(map, 0, UINT64_MAX, walks, &up) == 0 && up.left == 0, "a loop by pages upwards");
        need(form->remove_range(map, 0, UINT64_MAX - 1) == lengths[i] - 1, "a removal by pages");
        need(form->count(map) == 1, "what a removal by pages leaves");
        form->free(map);
    }
}

/* -- Readers -- */

static int frozen_each_descending(void *frozen, uint64_t start, uint64_t last, congee_visitor *f, void *with) {
    return congee_frozen_each_descending(frozen, start, last, f, with);
}

static void call_reader(void) {
    struct congee_frozen *reader = NULL;
    struct congee *map = NULL;
    need(congee_new(&map) == CONGEE_DONE && congee_freeze(&map, &reader) == CONGEE_DONE, "a reader of no pairs");
    need(congee_frozen_is_empty(reader) && congee_thaw(&reader, &map) == 1, "a map without pairs is empty");
    insert_all(map);
    need(congee_freeze(&map, &reader) == CONGEE_DONE && !congee_frozen_is_empty(reader), "a reader of pairs");
    for (size_t i = 0; i < sizeof loops / sizeof *loops; i++)
        call_loop(frozen_each_descending, reader, &loops[i]);
    congee_frozen_free(reader);
    for (size_t i = 0; i < LENGTHS; i++) {
        struct walk walk = {lengths[i], lengths[i], false};
        need(congee_new(&map) == CONGEE_DONE, "a map");
        fill(map, lengths[i]);
        need(congee_freeze(&map, &reader) == CONGEE_DONE, "a reader of pages");
        need(congee_frozen_each_descending(reader, 0, UINT64_MAX, walks, &walk) == 0 && walk.left == 0, "a reader's loop");
        congee_frozen_free(reader);
    }
}

/* -- Limits -- */

static void call_limits(void) {
    uint64_t charged = 0, limit = 0, tried = 0;
    void *map = form->make(NO_LIMIT);
    form->usage(map, &charged, &limit);
    /* (in shards each has a 64th) */
    need(limit >= UINT64_MAX / 64 * 64 && charged <= limit && form->limit(map) == limit, "no limit");
    form->free(map);
    need(form->make(form->least - 1) == NULL, "a limit below the least");
    map = form->make(form->least);
    form->usage(map, &charged, &limit);
    need(map && limit == form->least && form->limit(map) == limit, "the least limit");
    need(charged > 0 && charged <= limit, "what is charged to an empty map");
    if (form->try_limit)
        need(form->try_limit(map, &tried) == CONGEE_DONE && tried == limit, "the limit, tried");
    form->free(map);
}

/* -- Copies -- */

struct beside {
    void *map;
    uint64_t pairs;
};

static int is_in_map(struct congee_pair pair, void *with) {
    struct beside *beside = with;
    uint64_t value = NOTHING;
    need(form->get(beside->map, pair.key, &value) == CONGEE_PRESENT && value == pair.value, "a pair of a copy");
    beside->pairs++;
    return 0;
}

static void call_copies(void) {
    for (size_t i = 0; i <= LENGTHS; i++) {
        uint64_t n = i < LENGTHS ? lengths[i] : 0, value = NOTHING;
        void *map = form->make(NO_LIMIT);
        struct beside beside = {map, 0};
        struct congee *copy = NULL;
        struct congee_frozen *reader = NULL;
        fill(map, n);
        need(form->snapshot(map, &copy) == CONGEE_DONE && copy != NULL, "a copy");
        need(congee_count(copy) == n && congee_limit(copy) == UINT64_MAX, "the pairs and the limit of a copy");
        congee_each(copy, 0, UINT64_MAX, is_in_map, &beside);
        need(beside.pairs == n && form->count(map) == n, "all pairs are copied, and stay");
        /* (neither has the other's changes) */
        need(form->insert(map, 1, 11, NULL) == CONGEE_ABSENT && congee_insert(copy, 2, 22, NULL) == CONGEE_ABSENT, "new keys");
        need(congee_get(copy, 1, &value) == CONGEE_ABSENT && form->get(map, 2, &value) == CONGEE_ABSENT, "two maps");
        need(congee_freeze(&copy, &reader) == CONGEE_DONE && congee_frozen_get(reader, 2, &value) == CONGEE_PRESENT, "a reader");
        /* (a reader's copy, too) */
        struct congee *again = NULL;
        struct beside copied = {map, 0};
        need(congee_frozen_snapshot(reader, &again) == CONGEE_DONE && congee_count(again) == n + 1, "a copy of a reader");
        need(congee_remove(again, 2, &value) == CONGEE_PRESENT && value == 22 && congee_frozen_count(reader) == n + 1, "apart");
        congee_each(again, 0, UINT64_MAX, is_in_map, &copied);
        need(copied.pairs == n && congee_limit(again) == UINT64_MAX, "the pairs of a reader's copy");
        congee_free(again);
        congee_frozen_free(reader);
        if (!form->snapshot_frozen) {
            form->free(map);
            continue;
        }
        need(form->snapshot_frozen(map, &reader) == CONGEE_DONE && congee_frozen_count(reader) == n + 1, "a frozen copy");
        need(congee_thaw(&reader, &copy) == 1 && congee_count(copy) == n + 1, "a frozen copy that is thawed");
        congee_free(copy);
        form->free(map);
    }
}

/* Freezes a map, and refuses each request of a copy of the frozen map in turn: its pairs are as they were, and no block is left. */
static void refuse_readers_copies(struct congee *map) {
    struct congee_frozen *reader;
    struct congee *copy;
    need(congee_freeze(&map, &reader) == CONGEE_DONE, "a reader");
    long granted = 0, before = live;
    for (;; granted++) {
        copy = (struct congee *)&before;
        left = granted;
        int code = congee_frozen_snapshot(reader, &copy);
        left = -1;
        if (code == CONGEE_DONE)
            break;
        need(code == CONGEE_OOM && copy == NULL, "a reader's copy without memory");
        need(live == before && congee_frozen_count(reader) == MANY, "what a reader's refused copy leaves");
    }
    need(granted > 10 && congee_count(copy) == MANY, "a reader's copy with just enough memory");
    congee_free(copy);
    congee_frozen_free(reader);
}

/* A copy of a map with one owner has its limit. Near the limit there may be none, and none is left then. */
static void copy_limits(void) {
    struct congee *map, *copy;
    long refused = 0;
    for (uint64_t limit = 2104; limit < 12000; limit += 61) {
        uint64_t stored = 0;
        need(congee_new_with_limit(&map, limit) == CONGEE_DONE, "a map with a limit");
        while (stored < 300 && congee_insert(map, stored % 7 * 1000 + stored / 7, stored, NULL) == CONGEE_ABSENT)
            stored++;
        long before = live;
        copy = (struct congee *)&before;
        if (congee_snapshot(map, &copy) == CONGEE_DONE) {
            need(congee_limit(copy) == limit && congee_count(copy) == stored && congee_charged(copy) <= limit, "a limited copy");
            congee_free(copy);
        } else {
            need(copy == NULL && live == before && congee_count(map) == stored, "what a copy past a limit leaves");
            refused++;
        }
        congee_free(map);
    }
    need(refused > 0 && refused < 20, "few copies don't fit under the limit of a map that does");
}

/* Each request of a copy refused in turn, with all after it: the map is as it was, and no block is left. Returns how many. */
static long refuse_copies(void) {
    void *map = form->make(NO_LIMIT);
    struct congee *copy;
    long granted = 0, before;
    fill(map, MANY);
    before = live;
    for (;; granted++) {
        copy = (struct congee *)&before; /* (it has to be overwritten) */
        left = granted;
        int code = form->snapshot(map, &copy);
        left = -1;
        if (code == CONGEE_DONE)
            break;
        need(code == CONGEE_OOM && copy == NULL, "a copy without memory");
        need(live == before && form->count(map) == MANY, "what a refused copy leaves");
    }
    need(congee_count(copy) == MANY, "a copy with just enough memory");
    if (!form->snapshot_frozen) {
        refuse_readers_copies(copy);
        form->free(map);
        need(granted > 10 && live == 0, "each request of a copy is refused, and no block is lost");
        return granted;
    }
    congee_free(copy);
    /* (a frozen one takes two blocks more) */
    struct congee_frozen *reader;
    for (long frozen = 0;; frozen++) {
        reader = (struct congee_frozen *)&before;
        left = frozen;
        int code = form->snapshot_frozen(map, &reader);
        left = -1;
        if (code == CONGEE_DONE)
            break;
        need(code == CONGEE_OOM && reader == NULL && live == before, "a frozen copy without memory");
    }
    congee_frozen_free(reader);
    form->free(map);
    need(granted > 10 && live == 0, "each request of a copy is refused, and no block is lost");
    return granted;
}

int main(void) {
    long refused = 0;
    for (form = forms; form < forms + FORMS; form++) {
        void *map = form->make(NO_LIMIT);
        need(map != NULL, "a map");
        call_computes(map, true, true);
        call_computes(map, true, false);
        if (form->try_compute) {
            call_computes(map, false, true);
            call_computes(map, false, false);
            call_meddled(map);
        }
        call_loops(map);
        form->free(map);
        call_long_loops();
        call_limits();
        if (form->snapshot) {
            call_copies();
            refused += refuse_copies();
        }
        need(live == 0, "a block leaks");
    }
    form = forms;
    call_reader();
    copy_limits();
    need(live == 0, "a block leaks");
    printf("calls of %d forms, %ld requests of copies refused\n", FORMS, refused);
    return 0;
}

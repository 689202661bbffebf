/* The tables of maps and keys, and the calls of history_maps.h. */
#include "history_maps.h"
#include "stand_in.h"
#include <stdio.h>
#include <string.h>

/* -- Maps -- */

/* (each call by a map of any type) */
#define CALL(map, name, parameters, ...)                                                                                    \
    static int map##_##name parameters {                                                                                    \
        return map##_is(name)(__VA_ARGS__);                                                                                 \
    }
#define live_is(name) congee_live_try_##name
#define shared_is(name) congee_shared_try_##name
#define alone_is(name) stand_in_try_##name
#define CALLS_OF_ALL(map)                                                                                                   \
    CALL(map, get, (void *it, uint64_t key, uint64_t *value), it, key, value)                                               \
    CALL(map, insert, (void *it, uint64_t key, uint64_t value, uint64_t *old), it, key, value, old)                         \
    CALL(map, remove, (void *it, uint64_t key, uint64_t *old), it, key, old)                                                \
    CALL(map, compare_exchange, (void *it, uint64_t key, uint64_t old, uint64_t to, uint64_t *found), it, key, old, to,     \
         found)                                                                                                             \
    CALL(map, compare_remove, (void *it, uint64_t key, uint64_t old, uint64_t *found), it, key, old, found)                 \
    CALL(map, add, (void *it, uint64_t key, uint64_t number, uint64_t *old), it, key, number, old)                          \
    CALL(map, get_or_insert, (void *it, uint64_t key, uint64_t value, uint64_t *found), it, key, value, found)              \
    CALL(map, compute, (void *it, uint64_t key, congee_updater *f, void *with, uint64_t *old), it, key, f, with, old)       \
    CALL(map, range, (void *it, uint64_t from, uint64_t to, struct congee_pair *all, size_t n, size_t *written), it, from,  \
         to, all, n, written)                                                                                               \
    CALL(map, range_inclusive, (void *it, uint64_t from, uint64_t to, struct congee_pair *all, size_t n, size_t *written),  \
         it, from, to, all, n, written)                                                                                     \
    CALL(map, first, (void *it, struct congee_pair *pair), it, pair)                                                        \
    CALL(map, last, (void *it, struct congee_pair *pair), it, pair)                                                         \
    CALL(map, floor, (void *it, uint64_t key, struct congee_pair *pair), it, key, pair)                                     \
    CALL(map, ceiling, (void *it, uint64_t key, struct congee_pair *pair), it, key, pair)                                   \
    CALL(map, below, (void *it, uint64_t key, struct congee_pair *pair), it, key, pair)                                     \
    CALL(map, above, (void *it, uint64_t key, struct congee_pair *pair), it, key, pair)                                     \
    CALL(map, range_descending, (void *it, uint64_t from, uint64_t to, struct congee_pair *all, size_t n, size_t *written), \
         it, from, to, all, n, written)                                                                                     \
    CALL(map, pop_first, (void *it, struct congee_pair *pair), it, pair)                                                    \
    CALL(map, pop_last, (void *it, struct congee_pair *pair), it, pair)                                                     \
    CALL(map, pop_first_to, (void *it, uint64_t key, struct congee_pair *pair), it, key, pair)                              \
    CALL(map, pop_last_from, (void *it, uint64_t key, struct congee_pair *pair), it, key, pair)                             \
    CALL(map, is_empty, (void *it), it)                                                                                     \
    CALL(map, count, (void *it, uint64_t *count), it, count)
CALLS_OF_ALL(live)
CALLS_OF_ALL(shared)
CALL(shared, clear, (void *it), it)
CALLS_OF_ALL(alone)
CALL(alone, clear, (void *it), it)

#define waits_live_is(name) congee_live_##name
#define waits_shared_is(name) congee_shared_##name
#define waits_alone_is(name) stand_in_##name
CALL(waits_live, compute, (void *it, uint64_t key, congee_updater *f, void *with, uint64_t *old), it, key, f, with, old)
CALL(waits_live, pop_first, (void *it, struct congee_pair *pair), it, pair)
CALL(waits_live, pop_last, (void *it, struct congee_pair *pair), it, pair)
CALL(waits_shared, compute, (void *it, uint64_t key, congee_updater *f, void *with, uint64_t *old), it, key, f, with, old)
#define WITH_BOUNDS(map)                                                                                                    \
    CALL(map, pop_first_to, (void *it, uint64_t key, struct congee_pair *pair), it, key, pair)                              \
    CALL(map, pop_last_from, (void *it, uint64_t key, struct congee_pair *pair), it, key, pair)                             \
    CALL(map, remove_range_inclusive, (void *it, uint64_t from, uint64_t last), it, from, last)
WITH_BOUNDS(waits_live)
WITH_BOUNDS(waits_shared)
CALL(waits_alone, remove_range_inclusive, (void *it, uint64_t from, uint64_t last), it, from, last)

/* Functions that make, share and free a map of this type. */
#define ENDS(map, type, made, shared, freed)                                                                                \
    static int map##_new(uint64_t limit, void **out) {                                                                      \
        type *it;                                                                                                           \
        int code = made(limit, &it);                                                                                        \
        *out = it;                                                                                                          \
        return code;                                                                                                        \
    }                                                                                                                       \
    static int map##_another(void *from, void **out) {                                                                      \
        type *it;                                                                                                           \
        int code = shared(from, &it);                                                                                       \
        *out = it;                                                                                                          \
        return code;                                                                                                        \
    }                                                                                                                       \
    static void map##_free(void *it) {                                                                                      \
        freed(it);                                                                                                          \
    }
static int live_within(uint64_t limit, struct congee_live **out) {
    return congee_live_new_with_limit(out, limit);
}

ENDS(live, struct congee_live, live_within, congee_live_another, congee_live_free)
ENDS(shared, struct congee_shared, congee_shared_new, congee_shared_another, congee_shared_free)
ENDS(alone, struct stand_in, stand_in_new, stand_in_another, stand_in_free)

static int sharded_new(uint64_t limit, void **out) {
    struct congee_shared *it;
    int code = congee_shared_new_sharded(limit, &it);
    *out = it;
    return code;
}

#define ENTRIES_OF_ALL(map)                                                                                                 \
    .another = map##_another, .free = map##_free, .get = map##_get, .insert = map##_insert, .remove = map##_remove,         \
    .compare_exchange = map##_compare_exchange, .compare_remove = map##_compare_remove, .add = map##_add,                   \
    .get_or_insert = map##_get_or_insert, .compute = map##_compute, .range = map##_range,                                   \
    .range_inclusive = map##_range_inclusive, .range_descending = map##_range_descending, .first = map##_first,             \
    .last = map##_last, .floor = map##_floor, .ceiling = map##_ceiling, .below = map##_below, .above = map##_above,         \
    .pop_first = map##_pop_first, .pop_last = map##_pop_last, .pop_first_to = map##_pop_first_to,                           \
    .pop_last_from = map##_pop_last_from, .waits_remove_range_inclusive = waits_##map##_remove_range_inclusive,             \
    .is_empty = map##_is_empty, .count = map##_count
#define WAITING_ENTRIES(map)                                                                                                \
    .waits_compute = waits_##map##_compute, .waits_pop_first_to = waits_##map##_pop_first_to,                               \
    .waits_pop_last_from = waits_##map##_pop_last_from
#define SHARED_ENTRIES ENTRIES_OF_ALL(shared), WAITING_ENTRIES(shared), .is_of_one_moment = true, .clear = shared_clear
const struct map_kind live_map = {"live",
                                  .make = live_new,
                                  ENTRIES_OF_ALL(live),
                                  WAITING_ENTRIES(live),
                                  .waits_pop_first = waits_live_pop_first,
                                  .waits_pop_last = waits_live_pop_last};
const struct map_kind locked_map = {"locked", .make = shared_new, SHARED_ENTRIES};
const struct map_kind sharded_map = {"sharded", .make = sharded_new, SHARED_ENTRIES};
const struct map_kind stand_in_map = {
    "stand-in", .make = alone_new, ENTRIES_OF_ALL(alone), .is_of_one_moment = true, .clear = alone_clear};
const struct map_kind stand_in_by_leaf = {"stand-in read by leaf", .make = alone_new, ENTRIES_OF_ALL(alone)};

bool is_fault_by_leaf(int fault) {
    return fault == POPPED_TWICE || fault == POPPED_BEHIND || fault == CHANGE_IN_TWO || fault == TORN_LEAF ||
           fault == SKIPPED_PAIR || fault == NEIGHBOUR_TOO_FAR || fault == BOUND_LEFT_OUT;
}

/* -- Keys -- */

/* A key whose bytes are not 0, at which the others differ in one byte. */
static const uint64_t base = 0x1122334455667740u;

static uint64_t with_byte(uint64_t key, size_t depth, uint64_t byte) {
    size_t shift = 8 * (7 - depth);
    return (key & ~((uint64_t)0xff << shift)) | byte << shift;
}

static void add_key(struct key_set *set, uint64_t key) {
    set->keys[set->count++] = key;
}

/* So many children stay below one node at this depth, and so many more come and go between them. */
static void make_border(struct key_set *set, size_t depth, size_t stays, size_t moves) {
    size_t all = stays + moves, step = 256 / all;
    for (size_t i = 0; i < all; i++) {
        uint64_t key = with_byte(base, depth, i * step);
        bool is_moving = i * moves / all != (i + 1) * moves / all;
        if (is_moving)
            add_key(set, key);
        else
            set->staying[set->stays++] = key;
    }
    snprintf(set->name, sizeof set->name, "%zu to %zu children at depth %zu", stays, all, depth);
}

/* Keys that differ from one in a byte each, at all depths. */
static void make_ladder(struct key_set *set) {
    add_key(set, base);
    for (size_t depth = 7; depth > 0; depth--)
        add_key(set, with_byte(base, depth, 0xee));
    snprintf(set->name, sizeof set->name, "a part at each depth");
}

/* Keys below, within and above one leaf. */
static void make_many(struct key_set *set) {
    for (uint64_t i = 0; i < 64; i++)
        add_key(set, i < 32 ? 240 + i : i == 63 ? UINT64_MAX : (i << 40) + (i << 8));
    snprintf(set->name, sizeof set->name, "64 keys");
}

/* Nodes grow and become smaller where the children are so many as stay, or more, up to all. */
static const struct {
    size_t depth, stays, moves;
} borders[] = {{7, 1, 6},   {7, 11, 8},  {7, 34, 17}, {7, 240, 8}, {6, 1, 6},   {6, 11, 8},
               {6, 34, 17}, {6, 240, 8}, {3, 1, 6},   {3, 11, 8},  {3, 34, 17}, {1, 1, 6},
               {1, 11, 8},  {1, 34, 17}, {0, 2, 2},   {7, 0, 2},   {7, 0, 8}};

void make_key_set(size_t number, struct key_set *set) {
    enum { BORDERS = sizeof borders / sizeof borders[0] };
    memset(set, 0, sizeof *set);
    if (number < 7) {
        make_border(set, 7 - number, 0, 5);
    } else if (number < 7 + BORDERS) {
        make_border(set, borders[number - 7].depth, borders[number - 7].stays, borders[number - 7].moves);
    } else if (number == 7 + BORDERS) {
        make_ladder(set);
    } else {
        make_many(set);
    }
}

bool is_small(const struct key_set *set) {
    return set->count <= MOST_WHOLE;
}

/* -- Calls -- */

uint64_t next_random(uint64_t *state) { /* splitmix64 */
    uint64_t z = (*state += 0x9e3779b97f4a7c15u);
    z = (z ^ (z >> 30)) * 0xbf58476d1ce4e5b9u;
    z = (z ^ (z >> 27)) * 0x94d049bb133111ebu;
    return z ^ (z >> 31);
}

static uint64_t staying_value(uint64_t key) {
    return key * 3 + 1;
}

bool fill_map(const struct map_kind *kind, const struct key_set *set, void *map) {
    enum fault fault = stand_in_fault;
    uint64_t old;
    bool is_filled = true;
    stand_in_fault = NO_FAULT;
    for (size_t i = 0; i < set->stays; i++)
        is_filled = is_filled && kind->insert(map, set->staying[i], staying_value(set->staying[i]), &old) == 0;
    for (size_t i = 0; i < set->count; i += 2)
        is_filled = is_filled && kind->insert(map, set->keys[i], i + 1, &old) == 0;
    stand_in_fault = fault;
    return is_filled;
}

void begin_history(struct history *history, const struct map_kind *kind, const struct key_set *set, void *map) {
    history->keys = set->count;
    history->is_of_one_moment = kind->is_of_one_moment;
    history->first = (struct content){{0}, 0};
    for (size_t i = 0; i < set->count; i++) {
        history->leaf[i] = set->keys[i] >> 8;
        if (kind->get(map, set->keys[i], &history->first.value[i]) == 1)
            history->first.present |= (uint64_t)1 << i;
    }
    for (size_t i = 0; i < history->threads; i++)
        history->records[i].count = history->records[i].valued = 0;
}

/* A value that no other call stores. */
static uint64_t fresh(struct caller *caller) {
    return ++caller->number * MOST_THREADS + caller->id + 1000;
}

static void write_down(struct caller *caller, struct call call) {
    caller->record->calls[caller->record->count++] = call;
}

/* Whether the call is made again, as it was busy. */
static bool is_again(struct caller *caller, int code, bool waits) {
    caller->busy += code == CONGEE_BUSY;
    if (code != CONGEE_BUSY || !waits)
        return false;
    pause_here();
    return true;
}

/* A change by a function: what the function was called with last, how often, and what it left. */
struct change {
    struct caller *caller;
    uint64_t before, argument;
    int found, left, calls;
};

/* Removes the key, keeps it as it is, or gives it a value that no other call stores. */
static int changes(int found, uint64_t *value, void *with) {
    struct change *change = with;
    uint64_t way = next_random(&change->caller->random) % 4;
    change->calls++;
    change->found = found;
    change->before = *value;
    if (found == CONGEE_ABSENT && *value != 0)
        change->caller->wrong = "a function that is called with the value of an absent key";
    if (way > 1)
        *value = fresh(change->caller);
    change->argument = *value;
    return change->left = way == 0 ? CONGEE_ABSENT : way == 1 ? found : CONGEE_PRESENT;
}

/* A change by a function, by the form that waits or by the other. The entry is what the function got and what it left. */
static int make_change(struct caller *caller, struct call *call, bool waits) {
    const struct map_kind *kind = caller->kind;
    uint64_t key = caller->set->keys[call->key];
    struct change change = {.caller = caller};
    waits = waits && kind->waits_compute;
    int code = (waits ? kind->waits_compute : kind->compute)(caller->map, key, changes, &change, &call->answer);
    call->argument = change.argument;
    call->left = change.left;
    if (code == CONGEE_BUSY ? waits || change.calls > 1 : change.calls == 0 || (!waits && change.calls > 1))
        caller->wrong = "a change that calls its function too often, or never";
    if (code == CONGEE_OOM && (change.found == CONGEE_PRESENT || change.left == CONGEE_ABSENT))
        caller->wrong = "a change that needs no memory is refused for it";
    if (code >= 0 && (code != change.found || (code == CONGEE_PRESENT && call->answer != change.before)))
        caller->wrong = "a change that returns another value than its function got";
    return code;
}

/* The call itself of one key. */
static int make_call(struct caller *caller, struct call *call, bool waits) {
    const struct map_kind *kind = caller->kind;
    uint64_t key = caller->set->keys[call->key];
    switch (call->kind) {
    case GET:
        return kind->get(caller->map, key, &call->answer);
    case INSERT:
        return kind->insert(caller->map, key, call->argument, &call->answer);
    case REMOVE:
        return kind->remove(caller->map, key, &call->answer);
    case EXCHANGE:
        return kind->compare_exchange(caller->map, key, call->expected, call->argument, &call->answer);
    case COMPARE_REMOVE:
        return kind->compare_remove(caller->map, key, call->expected, &call->answer);
    case ADD:
        return kind->add(caller->map, key, call->argument, &call->answer);
    case COMPUTE:
        return make_change(caller, call, waits);
    default:
        return kind->get_or_insert(caller->map, key, call->argument, &call->answer);
    }
}

/* A call of one key. */
static void call_key(struct caller *caller, enum kind kind, uint64_t key, bool waits) {
    struct call call = {.kind = kind, .key = key, .argument = fresh(caller), .expected = caller->seen[key]};
    uint64_t expected = call.expected;
    call.start = clock_now();
    while (call.answer = 0, call.code = make_call(caller, &call, waits), is_again(caller, call.code, waits)) {
    }
    call.end = clock_now();
    if (call.code == CONGEE_BUSY)
        return;
    if (call.code == CONGEE_OOM) {
        call.kind = REFUSED;
        caller->refused++;
        if (kind != INSERT && kind != ADD && kind != GET_OR_INSERT && kind != COMPUTE)
            caller->wrong = "a call that needs no memory is refused for it";
    } else if (call.code < 0 || call.code > (kind == EXCHANGE || kind == COMPARE_REMOVE ? 2 : 1)) {
        caller->wrong = "an answer that isn't one";
    } else if (call.code == 2 && call.answer == expected) {
        caller->wrong = "a comparison that fails with the expected value";
    }
    if (kind == INSERT || (kind == EXCHANGE && call.code == 1) || (kind == COMPUTE && call.left))
        caller->seen[key] = call.argument;
    else if (call.code > 0 && call.answer)
        caller->seen[key] = call.answer;
    write_down(caller, call);
}

/* Which of the keys lie between these two. */
static uint64_t keys_between(const struct key_set *set, uint64_t from, uint64_t last) {
    uint64_t keys = 0;
    for (size_t i = 0; i < set->count; i++)
        if (set->keys[i] >= from && set->keys[i] <= last)
            keys |= (uint64_t)1 << i;
    return keys;
}

/* How many of those that stay lie between these two. */
static size_t staying_between(const struct key_set *set, uint64_t from, uint64_t last) {
    size_t count = 0;
    for (size_t i = 0; i < set->stays; i++)
        count += set->staying[i] >= from && set->staying[i] <= last;
    return count;
}

static size_t number_of(const struct key_set *set, uint64_t key) {
    size_t number = 0;
    while (number < set->count && set->keys[number] != key)
        number++;
    return number;
}

/* Notes the pairs that a call found between these two keys, ascending. Those that stay are compared at once. */
static void note_found(struct caller *caller, struct call *call, const struct congee_pair *pairs, size_t n, uint64_t from,
                       uint64_t last) {
    const struct key_set *set = caller->set;
    struct record *record = caller->record;
    size_t stays = 0;
    call->passed = keys_between(set, from, last);
    call->values = record->values + record->valued;
    for (size_t i = 0; i < n; i++) {
        size_t key = number_of(set, pairs[i].key);
        if (pairs[i].key < from || pairs[i].key > last || (i > 0 && pairs[i].key <= pairs[i - 1].key))
            caller->wrong = "a pair outside of its range, or not in order";
        if (key < set->count) {
            call->found |= (uint64_t)1 << key;
            record->values[record->valued++] = pairs[i].value;
            caller->seen[key] = pairs[i].value;
        } else {
            stays++;
            if (pairs[i].value != staying_value(pairs[i].key))
                caller->wrong = "a pair that nobody stored";
        }
    }
    if (stays != staying_between(set, from, last))
        caller->wrong = "a key that stays isn't found";
}

static void reverse(struct congee_pair *pairs, size_t n) {
    for (size_t i = 0; i < n / 2; i++) {
        struct congee_pair pair = pairs[i];
        pairs[i] = pairs[n - 1 - i];
        pairs[n - 1 - i] = pair;
    }
}

/* A key of the set, or one beside it. */
static uint64_t near_key(struct caller *caller) {
    uint64_t random = next_random(&caller->random), key = caller->set->keys[random % caller->set->count];
    return random >> 32 & 1 ? key : key + (random >> 33 & 2) - 1;
}

/* The range itself: 0 without its last key, 1 with it, 2 downwards. */
static int make_range(const struct caller *caller, uint64_t which, uint64_t start, uint64_t last, struct congee_pair *pairs,
                      size_t n, size_t *written) {
    const struct map_kind *kind = caller->kind;
    return which == 0   ? kind->range(caller->map, start, last, pairs, n, written)
           : which == 1 ? kind->range_inclusive(caller->map, start, last, pairs, n, written)
                        : kind->range_descending(caller->map, start, last, pairs, n, written);
}

/* Notes the pairs of a range. One that is full has passed no key behind its last pair. */
static void note_range(struct caller *caller, struct call *call, struct congee_pair *pairs, size_t n, bool is_full,
                       uint64_t start, uint64_t last) {
    bool is_down = call->kind == FIND_DOWN;
    if (is_down)
        reverse(pairs, n);
    if (is_full && is_down)
        start = pairs[0].key < start ? start : pairs[0].key;
    else if (is_full)
        last = pairs[n - 1].key > last ? last : pairs[n - 1].key;
    note_found(caller, call, pairs, n, start, last);
    write_down(caller, *call);
}

/* A range of at most so many pairs as there are keys. */
static void call_range(struct caller *caller, uint64_t which, bool waits) {
    struct congee_pair pairs[MOST_KEYS + MOST_STAYING];
    uint64_t start = near_key(caller), last = near_key(caller), random = next_random(&caller->random);
    size_t n = 1 + random % (caller->set->count + caller->set->stays), written = 0;
    struct call call = {.kind = which == 2 ? FIND_DOWN : FIND, .is_by_key = which == 2};
    if (random >> 40 & 1) {
        start = 0;
        last = UINT64_MAX;
    }
    call.start = clock_now();
    while (call.code = make_range(caller, which, start, last, pairs, n, &written), is_again(caller, call.code, waits)) {
    }
    call.end = clock_now();
    bool is_empty = start > last || (which == 0 && start == last);
    if (call.code == CONGEE_BUSY)
        return;
    if (written > n || (is_empty && written > 0))
        caller->wrong = "more pairs than the range or its place has";
    else if (!is_empty)
        note_range(caller, &call, pairs, written, written == n, start, last - (which == 0));
}

/* The first or last pair from a key on. Where there is no such key, or the answer is a pair, the rest isn't passed. */
static void call_end(struct caller *caller, uint64_t which, bool waits) {
    const struct map_kind *kind = caller->kind;
    uint64_t key = near_key(caller);
    struct congee_pair pair = {0, 0};
    bool is_down = which >= 3;
    struct call call = {.kind = is_down ? FIND_DOWN : FIND};
    uint64_t from = which == 1 ? key : which == 2 ? key + 1 : 0, last = which == 4 ? key : which == 5 ? key - 1 : UINT64_MAX;
    call.start = clock_now();
    while (call.code = which == 0   ? kind->first(caller->map, &pair)
                       : which == 1 ? kind->ceiling(caller->map, key, &pair)
                       : which == 2 ? kind->above(caller->map, key, &pair)
                       : which == 3 ? kind->last(caller->map, &pair)
                       : which == 4 ? kind->floor(caller->map, key, &pair)
                                    : kind->below(caller->map, key, &pair),
           is_again(caller, call.code, waits)) {
    }
    call.end = clock_now();
    if (call.code == CONGEE_BUSY)
        return;
    if ((which == 2 && key == UINT64_MAX) || (which == 5 && key == 0)) {
        caller->wrong = call.code ? "a pair beyond the greatest or the least key" : NULL;
        return;
    }
    if (call.code == 1 && is_down)
        from = pair.key > last ? last : pair.key;
    else if (call.code == 1)
        last = pair.key < from ? from : pair.key;
    note_found(caller, &call, &pair, call.code == 1, from, last);
    write_down(caller, call);
}

static uint64_t all_keys(const struct key_set *set) {
    return UINT64_MAX >> (64 - set->count);
}

static void call_count(struct caller *caller, bool waits) {
    struct call call = {.kind = COUNT, .passed = all_keys(caller->set)};
    call.start = clock_now();
    while (call.code = caller->kind->count(caller->map, &call.answer), is_again(caller, call.code, waits)) {
    }
    call.end = clock_now();
    if (call.code == CONGEE_BUSY)
        return;
    call.answer -= caller->set->stays;
    if (call.answer > caller->set->count)
        caller->wrong = "a count below the keys that stay, or above all";
    write_down(caller, call);
}

static void call_is_empty(struct caller *caller, bool waits) {
    struct call call = {.kind = IS_FILLED, .passed = all_keys(caller->set)};
    call.start = clock_now();
    while (call.code = caller->kind->is_empty(caller->map), is_again(caller, call.code, waits)) {
    }
    call.end = clock_now();
    if (call.code == CONGEE_BUSY)
        return;
    if (call.code == 1)
        call.kind = FIND;
    if (caller->set->stays == 0)
        write_down(caller, call);
    else if (call.code == 1)
        caller->wrong = "a map with keys that stay is empty";
}

/* Pops and the like: the number of each. Those up to BOUNDED_LAST return a pair. */
enum { POP_FIRST, POP_LAST, BOUNDED_FIRST, BOUNDED_LAST, TAKE_RANGE, TAKE_ALL };

/* The pop itself: of the first pair or of the last one, without a bound or with one, by the form that waits where that is a loop
 * of its own. */
static int make_pop(const struct caller *caller, int which, uint64_t bound, bool waits, struct congee_pair *pair) {
    const struct map_kind *kind = caller->kind;
    switch (which) {
    case POP_FIRST:
        return (waits && kind->waits_pop_first ? kind->waits_pop_first : kind->pop_first)(caller->map, pair);
    case POP_LAST:
        return (waits && kind->waits_pop_last ? kind->waits_pop_last : kind->pop_last)(caller->map, pair);
    case BOUNDED_FIRST:
        return (waits && kind->waits_pop_first_to ? kind->waits_pop_first_to : kind->pop_first_to)(caller->map, bound, pair);
    default:
        return (waits && kind->waits_pop_last_from ? kind->waits_pop_last_from : kind->pop_last_from)(caller->map, bound, pair);
    }
}

/* A pop has passed the keys up to its pair or, where it found none, up to its bound. */
static void call_pop(struct caller *caller, int which, bool waits) {
    struct congee_pair pair = {0, 0};
    bool is_down = which == POP_LAST || which == BOUNDED_LAST, is_bounded = which >= BOUNDED_FIRST;
    uint64_t from = 0, last = UINT64_MAX;
    struct call call = {.kind = is_down ? POP_DOWN : POP, .is_in_two = is_bounded};
    if (is_bounded)
        *(is_down ? &from : &last) = near_key(caller);
    call.start = clock_now();
    while (call.code = make_pop(caller, which, is_down ? from : last, waits, &pair), is_again(caller, call.code, waits)) {
    }
    call.end = clock_now();
    if (call.code == CONGEE_BUSY)
        return;
    if (call.code == 1 && is_down && pair.key > from)
        from = pair.key;
    else if (call.code == 1 && !is_down && pair.key < last)
        last = pair.key;
    note_found(caller, &call, &pair, call.code == 1, from, last);
    write_down(caller, call);
}

/* A removal of a range of a few keys. */
static void call_range_removal(struct caller *caller) {
    const struct key_set *set = caller->set;
    size_t first = next_random(&caller->random) % set->count, few = next_random(&caller->random) % 4,
           end = first + few < set->count ? first + few : set->count - 1;
    struct call call = {.kind = REMOVE_RANGE, .passed = keys_between(set, set->keys[first], set->keys[end])};
    call.start = clock_now();
    call.answer = (uint64_t)caller->kind->waits_remove_range_inclusive(caller->map, set->keys[first], set->keys[end]);
    call.end = clock_now();
    if (call.answer > end - first + 1)
        caller->wrong = "more pairs are removed than a range has keys";
    write_down(caller, call);
}

static void call_clear(struct caller *caller, bool waits) {
    struct call call = {.kind = CLEAR};
    call.start = clock_now();
    while (call.code = caller->kind->clear(caller->map), is_again(caller, call.code, waits)) {
    }
    call.end = clock_now();
    if (call.code != CONGEE_BUSY)
        write_down(caller, call);
}

/* A pop, or a removal of more. Only where no key stays. */
static void call_taking(struct caller *caller, uint64_t random, bool waits) {
    /* (a clear isn't searched key by key) */
    int which = (int)(random % (caller->kind->clear && is_small(caller->set) ? TAKE_ALL + 1 : TAKE_ALL));
    if (which == TAKE_ALL)
        call_clear(caller, waits);
    else if (which == TAKE_RANGE)
        call_range_removal(caller);
    else
        call_pop(caller, which, waits);
}

/* One of the keys at which this caller makes calls of one key. */
static uint64_t some_key(struct caller *caller) {
    uint64_t few = caller->few ? caller->few : caller->set->count;
    return (caller->from + next_random(&caller->random) % few) % caller->set->count;
}

void call_at_random(struct caller *caller) {
    uint64_t random = next_random(&caller->random), kinds = caller->kinds ? caller->kinds : 64;
    uint64_t which = (caller->first_call + random % kinds) % 64;
    bool waits = random >> 32 & 1;
    if (which < 48)
        call_key(caller, which / 4 % 8, some_key(caller), waits);
    else if (which < 54)
        call_range(caller, which % 3, waits);
    else if (which < 60 || (which < 62 && !is_small(caller->set)))
        call_end(caller, which % 6, waits);
    else if (which == 60)
        call_is_empty(caller, waits);
    else if (which == 61)
        call_count(caller, waits);
    else if (caller->set->stays == 0)
        call_taking(caller, random >> 8, waits);
    else
        call_key(caller, GET, some_key(caller), waits);
}

void look_up_all(struct caller *caller) {
    for (uint64_t key = 0; key < caller->set->count; key++)
        call_key(caller, GET, key, true);
}

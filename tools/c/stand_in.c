/* The map of stand_in.h: pairs in an array, keys ascending, under a lock. */
#include "stand_in.h"
#include "pauses.h"
#include <pthread.h>
#include <stdlib.h>
#include <string.h>

enum fault stand_in_fault = NO_FAULT;

const char *const stand_in_faults[FAULTS] = {"no fault",
                                             "a torn leaf",
                                             "a lost insertion",
                                             "a stale look-up",
                                             "an exchange in two holds",
                                             "a removal in two holds",
                                             "an addition in two holds",
                                             "an insertion of an absent key in two holds",
                                             "a range without a pair that is there",
                                             "a next pair behind the next",
                                             "a count of before",
                                             "a pair that is popped twice",
                                             "a pop of the pair behind the end",
                                             "a change by a function in two holds",
                                             "a pop that leaves its bound out",
                                             "a removal of a range in two holds",
                                             "a pair that a removal of a range leaves",
                                             "a pair that a clear leaves",
                                             "a busy call that was made",
                                             "a present key that is refused for memory"};

struct pairs {
    struct congee_pair all[STAND_IN_KEYS];
    size_t count;
};

struct shared {
    pthread_mutex_t lock;
    struct pairs pairs;
    size_t handles;
};

/* A handle, with what it had seen last. */
struct stand_in {
    struct shared *shared;
    struct congee_pair seen;
    uint64_t counted;
};

static void hold(const struct stand_in *map) {
    pthread_mutex_lock(&map->shared->lock);
}

static void give_back(const struct stand_in *map) {
    pthread_mutex_unlock(&map->shared->lock);
}

/* Whether this call has the fault: each fourth of those that may have it. */
static bool has(enum fault fault) {
    static _Atomic uint64_t calls;
    return stand_in_fault == fault && calls++ % 4 == 0;
}

/* Lets others come in. */
static void let_in(const struct stand_in *map) {
    give_back(map);
    pause_here();
    hold(map);
}

/* Where the first pair is that isn't below the key. */
static size_t place_of(const struct pairs *pairs, uint64_t key) {
    size_t at = 0;
    while (at < pairs->count && pairs->all[at].key < key)
        at++;
    return at;
}

static struct congee_pair *pair_of(struct pairs *pairs, uint64_t key) {
    size_t at = place_of(pairs, key);
    return at < pairs->count && pairs->all[at].key == key ? &pairs->all[at] : NULL;
}

static void put(struct pairs *pairs, uint64_t key, uint64_t value) {
    size_t at = place_of(pairs, key);
    struct congee_pair *pair = pair_of(pairs, key);
    if (pair) {
        pair->value = value;
        return;
    }
    if (pairs->count == STAND_IN_KEYS)
        abort();
    memmove(&pairs->all[at + 1], &pairs->all[at], (pairs->count++ - at) * sizeof pairs->all[0]);
    pairs->all[at] = (struct congee_pair){key, value};
}

static void take(struct pairs *pairs, uint64_t key) {
    size_t at = place_of(pairs, key);
    if (!pair_of(pairs, key))
        return;
    memmove(&pairs->all[at], &pairs->all[at + 1], (--pairs->count - at) * sizeof pairs->all[0]);
}

int stand_in_new(uint64_t limit, struct stand_in **out) {
    struct shared *shared = calloc(1, sizeof *shared);
    struct stand_in *map = calloc(1, sizeof *map);
    (void)limit;
    *out = map;
    if (!shared || !map || pthread_mutex_init(&shared->lock, NULL))
        return CONGEE_OOM;
    map->shared = shared;
    shared->handles = 1;
    return 0;
}

int stand_in_another(struct stand_in *map, struct stand_in **out) {
    *out = calloc(1, sizeof **out);
    if (!*out)
        return CONGEE_OOM;
    (*out)->shared = map->shared;
    hold(map);
    map->shared->handles++;
    give_back(map);
    return 0;
}

void stand_in_free(struct stand_in *map) {
    hold(map);
    size_t left = --map->shared->handles;
    give_back(map);
    if (left == 0) {
        pthread_mutex_destroy(&map->shared->lock);
        free(map->shared);
    }
    free(map);
}

/* What is at the key: 1 with the value in *value, or 0. Notes what was seen. */
static int look(const struct stand_in *map, uint64_t key, uint64_t *value) {
    struct congee_pair *pair = pair_of(&map->shared->pairs, key);
    if (!pair)
        return 0;
    *value = pair->value;
    ((struct stand_in *)map)->seen = *pair;
    return 1;
}

int stand_in_try_get(const struct stand_in *map, uint64_t key, uint64_t *value) {
    if (map->seen.value != 0 && map->seen.key == key && has(STALE_LOOK_UP)) {
        *value = map->seen.value;
        return 1;
    }
    hold(map);
    int code = look(map, key, value);
    give_back(map);
    return code;
}

int stand_in_try_insert(struct stand_in *map, uint64_t key, uint64_t value, uint64_t *old) {
    hold(map);
    map->counted = map->shared->pairs.count;
    struct pairs before = map->shared->pairs;
    int code = look(map, key, old);
    if (code == 1 && has(REFUSED_BUT_PRESENT)) {
        give_back(map);
        return CONGEE_OOM;
    }
    if (has(LOST_INSERTION)) {
        let_in(map);
        map->shared->pairs = before;
    }
    put(&map->shared->pairs, key, value);
    give_back(map);
    return has(BUSY_BUT_MADE) ? CONGEE_BUSY : code;
}

int stand_in_try_remove(struct stand_in *map, uint64_t key, uint64_t *old) {
    hold(map);
    map->counted = map->shared->pairs.count;
    int code = look(map, key, old);
    if (has(REMOVAL_IN_TWO))
        let_in(map);
    take(&map->shared->pairs, key);
    give_back(map);
    return code;
}

/* An exchange, or a removal where there is nothing desired. */
static int compare(struct stand_in *map, uint64_t key, uint64_t expected, const uint64_t *desired, uint64_t *found) {
    hold(map);
    int code = look(map, key, found);
    code = code == 1 && *found != expected ? 2 : code;
    if (has(EXCHANGE_IN_TWO))
        let_in(map);
    if (code == 1 && desired)
        put(&map->shared->pairs, key, *desired);
    else if (code == 1)
        take(&map->shared->pairs, key);
    give_back(map);
    return code;
}

int stand_in_try_compare_exchange(struct stand_in *map, uint64_t key, uint64_t expected, uint64_t desired, uint64_t *found) {
    return compare(map, key, expected, &desired, found);
}

int stand_in_try_compare_remove(struct stand_in *map, uint64_t key, uint64_t expected, uint64_t *found) {
    return compare(map, key, expected, NULL, found);
}

int stand_in_try_add(struct stand_in *map, uint64_t key, uint64_t number, uint64_t *old) {
    hold(map);
    int code = look(map, key, old);
    if (has(ADDITION_IN_TWO))
        let_in(map);
    put(&map->shared->pairs, key, code == 1 ? *old + number : number);
    give_back(map);
    return code;
}

int stand_in_try_get_or_insert(struct stand_in *map, uint64_t key, uint64_t value, uint64_t *found) {
    hold(map);
    int code = look(map, key, found);
    if (has(INSERTION_IN_TWO))
        let_in(map);
    if (code == 0)
        put(&map->shared->pairs, key, value);
    give_back(map);
    return code;
}

/* The function is called within the hold, or with the fault between two. */
int stand_in_try_compute(struct stand_in *map, uint64_t key, congee_updater *f, void *with, uint64_t *old) {
    uint64_t before = 0, value;
    hold(map);
    int code = look(map, key, &before);
    value = before;
    int wanted = f(code, &value, with);
    if (has(CHANGE_IN_TWO))
        let_in(map);
    if (wanted == CONGEE_PRESENT)
        put(&map->shared->pairs, key, value);
    else
        take(&map->shared->pairs, key);
    give_back(map);
    if (code == CONGEE_PRESENT)
        *old = before;
    return code;
}

int stand_in_try_range_inclusive(const struct stand_in *map, uint64_t start, uint64_t last, struct congee_pair *buffer,
                                 size_t n, size_t *written) {
    bool is_torn = has(TORN_LEAF), skips = has(SKIPPED_PAIR);
    *written = 0;
    hold(map);
    const struct pairs *pairs = &map->shared->pairs;
    for (size_t at = place_of(pairs, start); at < pairs->count && pairs->all[at].key <= last && *written < n; at++) {
        if (!skips || *written != 1)
            buffer[(*written)++] = pairs->all[at];
        skips = skips && *written <= 1;
        if (is_torn && *written == 1) {
            let_in(map);
            at = place_of(pairs, buffer[0].key + 1) - 1;
        }
    }
    give_back(map);
    return 0;
}

int stand_in_try_range(const struct stand_in *map, uint64_t start, uint64_t end, struct congee_pair *buffer, size_t n,
                       size_t *written) {
    *written = 0;
    return end == 0 ? 0 : stand_in_try_range_inclusive(map, start, end - 1, buffer, n, written);
}

int stand_in_try_range_descending(const struct stand_in *map, uint64_t start, uint64_t last, struct congee_pair *buffer,
                                  size_t n, size_t *written) {
    *written = 0;
    hold(map);
    const struct pairs *pairs = &map->shared->pairs;
    for (size_t at = pairs->count; at > 0 && pairs->all[at - 1].key >= start && *written < n; at--)
        if (pairs->all[at - 1].key <= last)
            buffer[(*written)++] = pairs->all[at - 1];
    give_back(map);
    return 0;
}

int stand_in_try_first(const struct stand_in *map, struct congee_pair *pair) {
    return stand_in_try_ceiling(map, 0, pair);
}

int stand_in_try_ceiling(const struct stand_in *map, uint64_t key, struct congee_pair *pair) {
    hold(map);
    const struct pairs *pairs = &map->shared->pairs;
    size_t at = place_of(pairs, key);
    if (at + 1 < pairs->count && has(NEIGHBOUR_TOO_FAR))
        at++;
    bool is_there = at < pairs->count;
    if (is_there)
        *pair = pairs->all[at];
    give_back(map);
    return is_there;
}

int stand_in_try_above(const struct stand_in *map, uint64_t key, struct congee_pair *pair) {
    return key == UINT64_MAX ? 0 : stand_in_try_ceiling(map, key + 1, pair);
}

int stand_in_try_floor(const struct stand_in *map, uint64_t key, struct congee_pair *pair) {
    size_t written;
    stand_in_try_range_descending(map, 0, key, pair, 1, &written);
    return written == 1;
}

int stand_in_try_last(const struct stand_in *map, struct congee_pair *pair) {
    return stand_in_try_floor(map, UINT64_MAX, pair);
}

int stand_in_try_below(const struct stand_in *map, uint64_t key, struct congee_pair *pair) {
    return key == 0 ? 0 : stand_in_try_floor(map, key - 1, pair);
}

/* A pop of the pair that is so found. */
static int pop(struct stand_in *map, bool is_first, struct congee_pair *pair) {
    hold(map);
    struct pairs *pairs = &map->shared->pairs;
    bool is_there = pairs->count > 0;
    if (is_there) {
        size_t behind = pairs->count > 1 && has(POPPED_BEHIND);
        *pair = pairs->all[is_first ? behind : pairs->count - 1 - behind];
        if (has(POPPED_TWICE))
            let_in(map);
        take(pairs, pair->key);
    }
    give_back(map);
    return is_there;
}

int stand_in_try_pop_first(struct stand_in *map, struct congee_pair *pair) {
    return pop(map, true, pair);
}

int stand_in_try_pop_last(struct stand_in *map, struct congee_pair *pair) {
    return pop(map, false, pair);
}

/* A pop with a bound, which is the greatest key of a pop from below, and the least of one from above. */
static int pop_within(struct stand_in *map, bool is_first, uint64_t bound, struct congee_pair *pair) {
    hold(map);
    struct pairs *pairs = &map->shared->pairs;
    struct congee_pair end = {0, 0};
    bool is_there = pairs->count > 0;
    if (is_there) {
        end = pairs->all[is_first ? 0 : pairs->count - 1];
        is_there = (is_first ? end.key <= bound : end.key >= bound) && !(end.key == bound && has(BOUND_LEFT_OUT));
    }
    if (is_there) {
        *pair = end;
        take(pairs, end.key);
    }
    give_back(map);
    return is_there;
}

int stand_in_try_pop_first_to(struct stand_in *map, uint64_t key, struct congee_pair *pair) {
    return pop_within(map, true, key, pair);
}

int stand_in_try_pop_last_from(struct stand_in *map, uint64_t key, struct congee_pair *pair) {
    return pop_within(map, false, key, pair);
}

uint64_t stand_in_remove_range_inclusive(struct stand_in *map, uint64_t start, uint64_t last) {
    hold(map);
    struct pairs *pairs = &map->shared->pairs;
    size_t at = place_of(pairs, start), found = 0;
    while (at + found < pairs->count && pairs->all[at + found].key <= last)
        found++;
    bool is_left = found > 0 && has(LEFT_IN_RANGE);
    if (found > 0 && has(TAKEN_IN_TWO))
        let_in(map);
    for (at = place_of(pairs, start) + is_left; at < pairs->count && pairs->all[at].key <= last;)
        take(pairs, pairs->all[at].key);
    give_back(map);
    return found - is_left;
}

int stand_in_try_clear(struct stand_in *map) {
    hold(map);
    struct pairs *pairs = &map->shared->pairs;
    if (pairs->count > 0 && has(KEPT_AFTER_CLEAR)) {
        pairs->all[0] = pairs->all[pairs->count - 1];
        pairs->count = 1;
    } else {
        pairs->count = 0;
    }
    give_back(map);
    return 0;
}

int stand_in_try_is_empty(const struct stand_in *map) {
    hold(map);
    bool is_so = map->shared->pairs.count == 0;
    give_back(map);
    return is_so;
}

int stand_in_try_count(const struct stand_in *map, uint64_t *count) {
    hold(map);
    *count = has(COUNT_OF_BEFORE) ? map->counted : map->shared->pairs.count;
    give_back(map);
    return 0;
}

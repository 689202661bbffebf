/* Threads write and read one map that is read without a lock, each by a handle of its own. Each stored value is stored once, and
 * each thread notes what its calls returned. Afterwards:
 *   - what is replaced or removed at a key, and what is there at the end, is what was stored there, each value once. Each
 *     removal is followed by one insertion of an absent key, or is the last write. So the writes of a key are one chain
 *   - no thread sees a value of another thread at a key after it has seen a later one of that thread there
 *   - keys of one thread lie between those of the others, and nodes grow and ways part beside readers: each of its own keys
 *     has the thread's own value, is removed and stored again, and all are there at the end. A range over keys that stay has
 *     them all, ascending, whatever comes and goes between them
 *   - what a range or a next pair has at a key that all threads write is no older than what the thread has seen there
 *   - counters that are raised by compare_exchange and by add lose nothing
 *
 *     live_load [CALLS] [THREADS] [SEED]     so many calls a thread, drawn by this number */
#include "congee.h"
#include <inttypes.h>
#include <pthread.h>
#include <stdio.h>
#include <stdlib.h>
#include <string.h>

enum { MOST = 32, KEYS = 64, KINDS = 3, PAGE = 8 };

static uint64_t calls = 100000, threads = 4, first_seed;

/* A write: what it took the place of, and what it stored. 0 is no value, and what a removal stores. */
struct write {
    uint64_t key, before, after;
};

struct worker {
    pthread_t thread;
    struct congee_live *map;
    struct write *writes;
    uint64_t id, count, number, busy;
    uint64_t seen[KEYS][MOST]; /* of each key and thread the last number seen */
    const char *wrong;
};

static uint64_t next(uint64_t *state) { /* splitmix64 */
    uint64_t z = (*state += 0x9e3779b97f4a7c15u);
    z = (z ^ (z >> 30)) * 0xbf58476d1ce4e5b9u;
    z = (z ^ (z >> 27)) * 0x94d049bb133111ebu;
    return z ^ (z >> 31);
}

/* Keys below, within and above one leaf. */
static uint64_t key_of(uint64_t i) {
    return i < 32 ? 240 + i : i == 63 ? UINT64_MAX : (i << 40) + (i << 8);
}

/* A value that no other call stores: which thread's, and the thread's number of it. */
static uint64_t fresh(struct worker *worker) {
    return ++worker->number * MOST + worker->id;
}

static void sees(struct worker *worker, uint64_t place, uint64_t value) {
    uint64_t *last = &worker->seen[place][value % MOST];
    if (value == 0 || value % MOST == worker->id)
        return;
    if (value / MOST < *last)
        worker->wrong = "a value that is older than one that was seen";
    *last = value / MOST;
}

static void writes(struct worker *worker, uint64_t place, uint64_t before, uint64_t after) {
    worker->writes[worker->count++] = (struct write){place, before, after};
    sees(worker, place, before);
}

static uint64_t place_of(uint64_t key) {
    uint64_t place = 0;
    while (place < KEYS && key_of(place) != key)
        place++;
    return place;
}

/* A pair that a reader of many keys has given, of a key from this one on. */
static void gives(struct worker *worker, struct congee_pair pair, uint64_t from) {
    uint64_t place = place_of(pair.key);
    if (place < KEYS)
        sees(worker, place, pair.value);
    if (pair.key < from || (place < KEYS && pair.value == 0))
        worker->wrong = "a pair that isn't one";
}

/* A page of a range, or a next pair, from a key on. */
static void read_on(struct worker *worker, uint64_t key, uint64_t kind) {
    struct congee_pair page[PAGE];
    struct congee_live *map = worker->map;
    size_t n = 0;
    int code;
    switch (kind) {
    case 0:
        n = congee_live_range_inclusive(map, key, UINT64_MAX, page, PAGE);
        break;
    case 1:
        code = congee_live_try_range(map, key, UINT64_MAX, page, PAGE, &n);
        worker->busy += code == CONGEE_BUSY;
        break;
    case 2:
        n = congee_live_ceiling(map, key, page);
        break;
    default:
        n = congee_live_above(map, key, page);
        key += n;
    }
    for (size_t i = 0; i < n; i++) {
        gives(worker, page[i], key);
        key = page[i].key + (i + 1 < n);
    }
}

/* One call at a key that all threads have. */
static void call(struct worker *worker, uint64_t place, uint64_t kind) {
    struct congee_live *map = worker->map;
    uint64_t key = key_of(place), value = fresh(worker), found = 0, now = 0;
    int code;
    switch (kind) {
    case 0:
        code = congee_live_insert(map, key, value, &found);
        writes(worker, place, code == 1 ? found : 0, value);
        break;
    case 1:
        code = congee_live_try_insert(map, key, value, &found);
        if (code == CONGEE_BUSY)
            worker->busy++;
        else
            writes(worker, place, code == 1 ? found : 0, value);
        break;
    case 2:
        if (congee_live_get(map, key, &found) == 1)
            sees(worker, place, found);
        break;
    case 3:
        code = congee_live_try_get(map, key, &found);
        if (code == 1)
            sees(worker, place, found);
        worker->busy += code == CONGEE_BUSY;
        break;
    case 4:
        if (congee_live_remove(map, key, &found) == 1)
            writes(worker, place, found, 0);
        break;
    case 5:
        code = congee_live_try_remove(map, key, &found);
        if (code == 1)
            writes(worker, place, found, 0);
        worker->busy += code == CONGEE_BUSY;
        break;
    case 6:
        code = congee_live_get_or_insert(map, key, value, &found);
        if (code == 0)
            writes(worker, place, 0, value);
        else
            sees(worker, place, found);
        break;
    default:
        if (congee_live_get(map, key, &found) == 0)
            return;
        bool removes = kind == 7;
        code = removes ? congee_live_compare_remove(map, key, found, &now)
                       : congee_live_compare_exchange(map, key, found, value, &now);
        if (code == 1)
            writes(worker, place, found, removes ? 0 : value);
        else if (code == 2 && now == found)
            worker->wrong = "a comparison that fails with the expected value";
        else
            sees(worker, place, now);
    }
}

static void *together(void *at) {
    struct worker *worker = at;
    uint64_t seed = first_seed * MOST + worker->id;
    for (uint64_t i = 0; i < calls && !worker->wrong; i++) {
        uint64_t kind = next(&seed) % 11, place = next(&seed) % KEYS;
        if (kind < 10)
            call(worker, place, kind);
        else
            read_on(worker, key_of(place), i % 4);
    }
    return NULL;
}

/* The i-th key of a thread: beside those of others in leaves, in the nodes above, or far from all. */
static uint64_t own_key(uint64_t kind, uint64_t id, uint64_t i) {
    uint64_t number = i * MOST + id;
    return kind == 0 ? 1 << 20 | number : kind == 1 ? 1ull << 56 | number << 8 : (number + 1) * 0x9e3779b97f4a7c15u;
}

/* A key with its last value is removed, and stored again. */
static bool comes_back(struct congee_live *map, uint64_t key) {
    uint64_t value = 0;
    return congee_live_remove(map, key, &value) == 1 && value == (key ^ 7) && congee_live_get(map, key, NULL) == 0 &&
           congee_live_get_or_insert(map, key, key ^ 5, NULL) == 0 && congee_live_add(map, key, 0, &value) == 1 &&
           value == (key ^ 5) && congee_live_compare_remove(map, key, key ^ 5, NULL) == 1 &&
           congee_live_add(map, key, key ^ 7, NULL) == 0;
}

/* Whether pages of a range have each key of the thread itself from one of its numbers to another, ascending. */
static bool reads_through(struct worker *worker, uint64_t kind, uint64_t from, uint64_t to) {
    struct congee_pair page[24];
    uint64_t start = own_key(kind, worker->id, from), last = own_key(kind, worker->id, to), at = from;
    size_t n;
    do {
        n = congee_live_range_inclusive(worker->map, start, last, page, 24);
        for (size_t i = 0; i < n; i++) {
            if (page[i].key < start || page[i].key > last)
                return false;
            start = page[i].key + (i + 1 < n);
            if (at <= to && page[i].key == own_key(kind, worker->id, at) && page[i].value == (page[i].key ^ 7))
                at++;
        }
        start++;
    } while (n == 24);
    return at == to + 1;
}

/* Keys that no other thread writes. */
static void *apart(void *at) {
    struct worker *worker = at;
    struct congee_live *map = worker->map;
    uint64_t value = 0;
    for (uint64_t i = 0; i < calls / 16; i++)
        for (uint64_t kind = 0; kind < KINDS; kind++) {
            uint64_t key = own_key(kind, worker->id, i), old = own_key(kind, worker->id, i / 2);
            if (congee_live_insert(map, key, key ^ 5, NULL) != 0 || congee_live_get(map, key, &value) != 1 ||
                value != (key ^ 5) || congee_live_compare_exchange(map, key, key ^ 5, key ^ 7, &value) != 1 ||
                congee_live_get(map, old, &value) != 1 || value != (old ^ 7) || !comes_back(map, old)) {
                worker->wrong = "a reply at a key of one's own";
                return NULL;
            }
            if (i % 64 == 63 && kind < 2 && !reads_through(worker, kind, i - 63, i))
                worker->wrong = "a range without a key that stays";
            /* (a key of another thread, which may be there by now) */
            old = own_key(kind, worker->id % threads + 1, i);
            if (congee_live_get(map, old, &value) == 1 && value != (old ^ 5) && value != (old ^ 7))
                worker->wrong = "a value that nobody wrote";
        }
    return NULL;
}

/* Raises a counter by an exchange, which is tried until nobody comes in between. */
static bool raise_once(struct worker *worker, uint64_t key) {
    uint64_t current = 0, now;
    if (congee_live_get(worker->map, key, &current) != 1)
        worker->wrong = "a counter that is gone";
    int code;
    while ((code = congee_live_compare_exchange(worker->map, key, current, current + 1, &now)) == 2) {
        if (now <= current)
            worker->wrong = "a counter that falls";
        current = now;
    }
    return code == 1;
}

static void *raises(void *at) {
    struct worker *worker = at;
    uint64_t last[8] = {0}, before = 0;
    for (uint64_t i = 0; i < calls && !worker->wrong; i++) {
        uint64_t key = (1ull << 60) + i % 8;
        if (i / 8 % 2) {
            if (!raise_once(worker, key))
                return NULL;
        } else {
            if (congee_live_add(worker->map, key, 1, &before) != 1 || before < last[i % 8])
                worker->wrong = "a counter that is gone or falls";
            last[i % 8] = before + 1;
        }
    }
    return NULL;
}

/* (of a write, the value that it took the place of) */
static int by_key_and_value(const void *a, const void *b) {
    const uint64_t *one = a, *other = b;
    return one[0] != other[0] ? (one[0] < other[0] ? -1 : 1) : (one[1] > other[1]) - (one[1] < other[1]);
}

/* Whether at each key each value that was stored is replaced or removed once, or is there at the end. */
static bool is_balanced(struct worker *workers, struct congee_live *map, uint64_t count) {
    uint64_t at = 0;
    uint64_t(*stored)[2] = malloc((count + KEYS) * sizeof *stored), (*ended)[2] = malloc((count + KEYS) * sizeof *ended);
    if (!stored || !ended)
        return false;
    for (uint64_t i = 0; i < threads; i++)
        for (uint64_t j = 0; j < workers[i].count; j++, at++) {
            const struct write *write = &workers[i].writes[j];
            stored[at][0] = ended[at][0] = write->key;
            stored[at][1] = write->after;
            ended[at][1] = write->before;
        }
    /* (a key is absent at first, and at the end it is what the map has) */
    for (uint64_t place = 0; place < KEYS; place++, at++) {
        uint64_t value = 0;
        congee_live_get(map, key_of(place), &value);
        stored[at][0] = ended[at][0] = place;
        stored[at][1] = 0;
        ended[at][1] = value;
    }
    qsort(stored, at, sizeof *stored, by_key_and_value);
    qsort(ended, at, sizeof *ended, by_key_and_value);
    bool is_so = memcmp(stored, ended, at * sizeof *stored) == 0;
    free(stored);
    free(ended);
    return is_so;
}

/* Whether each write is met on the ways that begin where a key was absent, from each value to the one that replaced it. */
static bool is_reached(struct worker *workers, uint64_t count) {
    uint64_t at = 0, met = 0;
    struct write *all = malloc((count + 1) * sizeof *all);
    if (!all)
        return false;
    for (uint64_t i = 0; i < threads; i++)
        for (uint64_t j = 0; j < workers[i].count; j++, at++)
            all[at] = workers[i].writes[j];
    qsort(all, count, sizeof *all, by_key_and_value);
    for (at = 0; at < count; at++)
        if (all[at].before == 0)
            for (const struct write *write = &all[at]; write; met++) {
                struct write wanted = {write->key, write->after, 0};
                write = write->after ? bsearch(&wanted, all, count, sizeof *all, by_key_and_value) : NULL;
            }
    free(all);
    return met == count;
}

static bool is_chain(struct worker *workers, struct congee_live *map) {
    uint64_t count = 0;
    for (uint64_t i = 0; i < threads; i++)
        count += workers[i].count;
    return is_balanced(workers, map, count) && is_reached(workers, count);
}

static bool all(struct worker *workers, void *(*work)(void *)) {
    for (uint64_t i = 0; i < threads; i++)
        if (pthread_create(&workers[i].thread, NULL, work, &workers[i]))
            return false;
    for (uint64_t i = 0; i < threads; i++)
        pthread_join(workers[i].thread, NULL);
    for (uint64_t i = 0; i < threads; i++)
        if (workers[i].wrong) {
            fprintf(stderr, "live_load: wrong: %s\n", workers[i].wrong);
            return false;
        }
    return true;
}

/* Whether all keys of threads are there, and each counter was raised by all. */
static bool is_whole(struct congee_live *map) {
    uint64_t value, sum = 0;
    for (uint64_t id = 1; id <= threads; id++)
        for (uint64_t i = 0; i < calls / 16; i++)
            for (uint64_t kind = 0; kind < KINDS; kind++) {
                uint64_t key = own_key(kind, id, i);
                if (congee_live_get(map, key, &value) != 1 || value != (key ^ 7))
                    return false;
            }
    for (uint64_t i = 0; i < 8; i++)
        sum += congee_live_get(map, (1ull << 60) + i, &value) == 1 ? value : 0;
    return sum == threads * calls;
}

int main(int words, char **word) {
    static struct worker workers[MOST];
    struct congee_live *first;
    uint64_t count = 0, busy = 0;
    calls = words > 1 ? strtoull(word[1], NULL, 10) : calls;
    threads = words > 2 ? strtoull(word[2], NULL, 10) : threads;
    first_seed = words > 3 ? strtoull(word[3], NULL, 10) : first_seed;
    if (threads == 0 || threads >= MOST || congee_live_new(&first))
        return 1;
    for (uint64_t i = 0; i < threads; i++) {
        workers[i].id = i + 1;
        workers[i].writes = malloc((calls + 1) * sizeof *workers[i].writes);
        if (!workers[i].writes || congee_live_another(first, &workers[i].map))
            return 2;
    }
    for (uint64_t i = 0; i < 8; i++)
        if (congee_live_insert(first, (1ull << 60) + i, 0, NULL) != 0)
            return 3;
    if (!all(workers, apart) || !all(workers, raises) || !all(workers, together))
        return 4;
    if (!is_whole(first)) {
        fprintf(stderr, "live_load: wrong: a key or a raise is lost\n");
        return 5;
    }
    if (!is_chain(workers, first)) {
        fprintf(stderr, "live_load: wrong: the writes of a key aren't one chain\n");
        return 6;
    }
    for (uint64_t i = 0; i < threads; i++) {
        count += workers[i].count;
        busy += workers[i].busy;
        free(workers[i].writes);
        congee_live_free(workers[i].map);
    }
    congee_live_free(first);
    printf("%" PRIu64 " threads, the %" PRIu64 " writes of %d keys are chains, %" PRIu64 " busy\n", threads, count, KEYS, busy);
    return 0;
}

/* Threads change one map, each by a handle of its own: under one lock, then in shards, each without a limit and with one. Each
 * stored value is stored once, and each thread notes what its calls returned:
 *   - what is replaced or removed at a key, and what is there at the end, is what was stored there, each value once. So the
 *     writes of a key are one chain
 *   - no thread sees a value of another thread at a key after it has seen a later one of that thread there
 *   - the replies of a thread that has keys of its own are those of its own calls
 *   - keys that nobody changes are in each range
 *   - a limit that has no room for all keys refuses some, and no limit refuses none. Once the map is emptied, it is charged
 *     what it was charged at first, and has room for as many keys as at first
 *   - at the end there are so many pairs as keys
 *
 *     shared_load [CALLS] [THREADS] [SEED]     so many calls a thread, drawn by this number */
#include "congee.h"
#include <inttypes.h>
#include <pthread.h>
#include <stdio.h>
#include <stdlib.h>
#include <string.h>

enum { MOST = 16, KEYS = 64, STAY = 16, PAGE = KEYS + STAY };

static uint64_t calls = 100000, threads = 4, first_seed;

/* A write: what it took the place of, and what it stored. 0 is no value. */
struct write {
    uint64_t key, before, after;
};

struct worker {
    pthread_t thread;
    struct congee_shared *map;
    struct write *writes;
    uint64_t id, count, number, refused;
    uint64_t seen[KEYS][MOST]; /* of each key and thread the last number seen */
    const char *wrong;
};

static uint64_t next(uint64_t *state) { /* splitmix64 */
    uint64_t z = (*state += 0x9e3779b97f4a7c15u);
    z = (z ^ (z >> 30)) * 0xbf58476d1ce4e5b9u;
    z = (z ^ (z >> 27)) * 0x94d049bb133111ebu;
    return z ^ (z >> 31);
}

/* Keys below, within and above one leaf, of 34 shards. */
static uint64_t key_of(uint64_t i) {
    return i < 32 ? 240 + i : i == 63 ? UINT64_MAX : (i << 40) + (i << 8);
}

static uint64_t place_of(uint64_t key) {
    return key == UINT64_MAX ? 63 : key < 1024 ? key - 240 : key >> 40;
}

/* Keys that stay, between those that come and go, in some leaves and shards. Each has itself as value. */
static uint64_t staying(uint64_t i) {
    return ((uint64_t)1 << 32) + 2048 + i * 85;
}

static bool stays(uint64_t key) {
    return key >= staying(0) && key < staying(STAY);
}

/* A value that no other call stores: of which key it is, which thread's, and the thread's number of it. */
static uint64_t fresh(struct worker *worker, uint64_t place) {
    return (++worker->number * MOST + worker->id) * KEYS + place;
}

static void sees(struct worker *worker, uint64_t place, uint64_t value) {
    uint64_t id = value / KEYS % MOST, number = value / KEYS / MOST, *last = &worker->seen[place][id];
    if (value == 0)
        return;
    if (value % KEYS != place)
        worker->wrong = "a value of another key";
    if (id == worker->id)
        return;
    if (number < *last)
        worker->wrong = "a value that is older than one that was seen";
    *last = number;
}

static void writes(struct worker *worker, uint64_t place, uint64_t before, uint64_t after) {
    worker->writes[worker->count++] = (struct write){place, before, after};
    sees(worker, place, before);
}

/* A write, unless there was no memory for it. */
static void writes_or_not(struct worker *worker, int code, uint64_t place, uint64_t before, uint64_t after) {
    if (code == CONGEE_OOM)
        worker->refused++;
    else
        writes(worker, place, before, after);
}

/* A change by a function: what the function got last, and what it left. */
struct change {
    struct worker *worker;
    uint64_t place, before, after;
};

/* Removes a value of an odd number, and gives the key a new one else. */
static int changes(int found, uint64_t *value, void *with) {
    struct change *change = with;
    bool removes = found == CONGEE_PRESENT && *value / KEYS / MOST % 2;
    change->before = found == CONGEE_PRESENT ? *value : 0;
    *value = change->after = removes ? 0 : fresh(change->worker, change->place);
    return removes ? CONGEE_ABSENT : CONGEE_PRESENT;
}

/* One call at a key that all threads have. */
static void call(struct worker *worker, uint64_t place, uint64_t kind) {
    struct congee_shared *map = worker->map;
    uint64_t key = key_of(place), value = fresh(worker, place), found = 0, now = 0;
    struct change change = {worker, place, 0, 0};
    int code;
    switch (kind) {
    case 0:
    case 1:
        code = congee_shared_insert(map, key, value, &found);
        writes_or_not(worker, code, place, found, value);
        break;
    case 2:
        if (congee_shared_remove(map, key, &found) == 1)
            writes(worker, place, found, 0);
        break;
    case 3:
        if (congee_shared_get(map, key, &found) == 1)
            sees(worker, place, found);
        break;
    case 4:
        code = congee_shared_get_or_insert(map, key, value, &found);
        if (code == 1)
            sees(worker, place, found);
        else
            writes_or_not(worker, code, place, 0, value);
        break;
    case 5:
        code = congee_shared_compute(map, key, changes, &change, &found);
        if (code != CONGEE_OOM && found != change.before)
            worker->wrong = "a change that returns another value than its function got";
        writes_or_not(worker, code, place, change.before, change.after);
        break;
    default:
        if (congee_shared_get(map, key, &found) == 0)
            return;
        code = kind == 6 ? congee_shared_compare_exchange(map, key, found, value, &now)
                         : congee_shared_compare_remove(map, key, found, &now);
        if (code == 1)
            writes(worker, place, found, kind == 6 ? value : 0);
        else if (code == 2 && now == found)
            worker->wrong = "a comparison that fails with the expected value";
        else if (code == 2)
            sees(worker, place, now);
    }
}

/* Pairs of one moment: keys ascend, each in its place. Those that stay are among them, with their values. */
static void read_page(struct worker *worker, uint64_t place) {
    struct congee_pair page[PAGE] = {{0, 0}}, pair;
    uint64_t stay = 0, value = 0;
    size_t n = congee_shared_range_inclusive(worker->map, key_of(place), UINT64_MAX, page, PAGE);
    for (size_t i = 0; i < n; i++) {
        if (page[i].key < key_of(place) || (i > 0 && page[i].key <= page[i - 1].key))
            worker->wrong = "a page whose keys don't ascend";
        if (stays(page[i].key))
            stay += page[i].value == page[i].key;
        else
            sees(worker, place_of(page[i].key), page[i].value);
    }
    if (stay != (key_of(place) < staying(0) ? STAY : 0))
        worker->wrong = "a page without a key that stays";
    if (congee_shared_get(worker->map, staying(place % STAY), &value) != 1 || value != staying(place % STAY))
        worker->wrong = "a key that stays and isn't there";
    if (congee_shared_ceiling(worker->map, key_of(place), &pair) == 1 && !stays(pair.key))
        sees(worker, place_of(pair.key), pair.value);
}

/* A pop is a removal of the key that it returns: one below those that stay, or above them. */
static void pop(struct worker *worker, bool is_first) {
    struct congee_pair pair;
    if ((is_first ? congee_shared_pop_first_to(worker->map, staying(0) - 1, &pair)
                  : congee_shared_pop_last_from(worker->map, staying(STAY), &pair)) == 1)
        writes(worker, place_of(pair.key), pair.value, 0);
}

static void *together(void *at) {
    struct worker *worker = at;
    uint64_t seed = first_seed * MOST + worker->id;
    for (uint64_t i = 0; i < calls && !worker->wrong; i++) {
        uint64_t kind = next(&seed) % 64, place = next(&seed) % KEYS;
        if (kind < 62)
            call(worker, place, kind % 8);
        else if (kind == 62)
            read_page(worker, place);
        else
            pop(worker, place % 2);
    }
    return NULL;
}

/* Keys that no other thread has. */
static void *apart(void *at) {
    struct worker *worker = at;
    struct congee_shared *map = worker->map;
    uint64_t seed = first_seed * MOST + worker->id + 99, value = 0;
    for (uint64_t i = 0; i < calls / 8; i++) {
        uint64_t key = 4096 + next(&seed) % 4096 * MOST + worker->id;
        if (congee_shared_insert(map, key, i, NULL) != 0 || congee_shared_get(map, key, &value) != 1 || value != i ||
            congee_shared_add(map, key, 1, &value) != 1 || value != i ||
            congee_shared_compare_exchange(map, key, i + 1, ~i, &value) != 1 ||
            congee_shared_remove(map, key, &value) != 1 || value != ~i || congee_shared_get(map, key, NULL) != 0) {
            worker->wrong = "a reply at a key of one's own";
            break;
        }
    }
    return NULL;
}

static int by_key_and_value(const void *a, const void *b) {
    const uint64_t *one = a, *other = b;
    return one[0] != other[0] ? (one[0] < other[0] ? -1 : 1) : (one[1] > other[1]) - (one[1] < other[1]);
}

/* Whether at each key each value that was stored is replaced or removed once, or is there at the end, and so each gap. */
static bool is_chain(struct worker *workers, struct congee_shared *map) {
    uint64_t count = 0, at = 0;
    for (uint64_t i = 0; i < threads; i++)
        count += workers[i].count;
    uint64_t(*stored)[2] = malloc((count + KEYS) * sizeof *stored), (*ended)[2] = malloc((count + KEYS) * sizeof *ended);
    if (!stored || !ended)
        return false;
    for (uint64_t i = 0; i < threads; i++)
        for (uint64_t j = 0; j < workers[i].count; j++, at++) {
            const struct write *write = &workers[i].writes[j];
            stored[at][0] = ended[at][0] = write->key;
            stored[at][1] = write->after;
            ended[at][1] = write->before;
        }
    /* (a key is absent at first, and at the end it is what the map has) */
    for (uint64_t place = 0; place < KEYS; place++, at++) {
        uint64_t value = 0;
        congee_shared_get(map, key_of(place), &value);
        stored[at][0] = ended[at][0] = place;
        stored[at][1] = 0;
        ended[at][1] = value;
    }
    qsort(stored, at, sizeof *stored, by_key_and_value);
    qsort(ended, at, sizeof *ended, by_key_and_value);
    bool is_so = memcmp(stored, ended, at * sizeof *stored) == 0;
    free(stored);
    free(ended);
    return is_so;
}

static bool all(struct worker *workers, void *(*work)(void *)) {
    for (uint64_t i = 0; i < threads; i++)
        if (pthread_create(&workers[i].thread, NULL, work, &workers[i]))
            return false;
    for (uint64_t i = 0; i < threads; i++)
        pthread_join(workers[i].thread, NULL);
    for (uint64_t i = 0; i < threads; i++)
        if (workers[i].wrong) {
            fprintf(stderr, "shared_load: wrong: %s\n", workers[i].wrong);
            return false;
        }
    return true;
}

/* How many of the keys there is room for, in their order. They are removed again. */
static uint64_t room(struct congee_shared *map) {
    uint64_t stored = 0, removed = 0;
    for (uint64_t place = 0; place < KEYS; place++)
        stored += congee_shared_insert(map, key_of(place), place, NULL) == 0;
    for (uint64_t place = 0; place < KEYS; place++)
        removed += congee_shared_remove(map, key_of(place), NULL) == 1;
    return removed == stored ? stored : 0;
}

/* Whether the pairs are as many as the keys, and the emptied map has all room that it had. */
static bool is_whole(struct congee_shared *map, uint64_t charged, uint64_t keys) {
    struct congee_pair page[PAGE + 1] = {{0, 0}};
    if (congee_shared_range_inclusive(map, 0, UINT64_MAX, page, PAGE + 1) != congee_shared_count(map))
        return false;
    for (uint64_t place = 0; place < KEYS; place++)
        congee_shared_remove(map, key_of(place), NULL);
    for (uint64_t i = 0; i < STAY; i++)
        congee_shared_remove(map, staying(i), NULL);
    return congee_shared_is_empty(map) && congee_shared_charged(map) == charged && room(map) == keys;
}

static int load(int (*make)(uint64_t, struct congee_shared **), uint64_t limit, const char *kind) {
    static struct worker workers[MOST];
    struct congee_shared *first;
    memset(workers, 0, sizeof workers);
    if (threads == 0 || threads >= MOST || make(limit, &first))
        return 1;
    uint64_t charged = congee_shared_charged(first), keys = room(first), count = 0, refused = 0;
    for (uint64_t i = 0; i < STAY; i++)
        if (congee_shared_insert(first, staying(i), staying(i), NULL) != 0)
            return 1;
    for (uint64_t i = 0; i < threads; i++) {
        workers[i].id = i + 1;
        workers[i].writes = malloc((calls + 1) * sizeof *workers[i].writes);
        if (!workers[i].writes || congee_shared_another(first, &workers[i].map))
            return 2;
    }
    if ((limit == UINT64_MAX && !all(workers, apart)) || congee_shared_count(first) != STAY || !all(workers, together))
        return 3;
    if (!is_chain(workers, first)) {
        fprintf(stderr, "shared_load: wrong: the writes of a key aren't one chain, of a map %s\n", kind);
        return 4;
    }
    for (uint64_t i = 0; i < threads; i++) {
        count += workers[i].count;
        refused += workers[i].refused;
        free(workers[i].writes);
        congee_shared_free(workers[i].map);
    }
    if ((keys < KEYS) != (limit < UINT64_MAX) || (refused > 0) != (limit < UINT64_MAX) || !is_whole(first, charged, keys)) {
        fprintf(stderr, "shared_load: wrong: what is refused, or there at the end, of a map %s\n", kind);
        return 5;
    }
    congee_shared_free(first);
    printf("%" PRIu64 " threads, the %" PRIu64 " writes of %d keys are chains, %" PRIu64 " refused, of a map %s\n", threads, count,
           KEYS, refused, kind);
    return 0;
}

int main(int words, char **word) {
    calls = words > 1 ? strtoull(word[1], NULL, 10) : calls;
    threads = words > 2 ? strtoull(word[2], NULL, 10) : threads;
    first_seed = words > 3 ? strtoull(word[3], NULL, 10) : first_seed;
    int failed = load(congee_shared_new, UINT64_MAX, "under one lock");
    failed = failed ? failed : load(congee_shared_new, 4200, "under one lock, with a limit");
    failed = failed ? failed : load(congee_shared_new_sharded, UINT64_MAX, "in shards");
    return failed ? failed : load(congee_shared_new_sharded, 64 * 2200, "in shards, with a limit");
}

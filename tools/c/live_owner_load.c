/* Threads share one map of owners, each by a handle of its own. An object counts its references, and is freed with its last one:
 * the address sanitizer sees who reads it afterwards, and the thread sanitizer who reads it beside that. In the end as many objects
 * are freed as were made.
 *   - churn: all calls at 16 keys. A look-up finds an object of its key. No thread sees an object of another thread at a key after
 *     it has seen a later one of that thread there. Some references outlive their keys, and some loans do
 *   - counters that are raised by exchanges lose nothing
 *   - one key that all threads look up, while one of them replaces its owner
 *   - maps whose handles end on several threads at once, none of which knows that it is the last
 *   - more threads than a map has handles: who finds no handle waits until another one is freed
 *
 *     live_owner_load [TURNS] [THREADS] [SEED]     so many calls a thread, drawn by this number */
#include "congee.h"
#include <inttypes.h>
#include <pthread.h>
#include <stdatomic.h>
#include <stdio.h>
#include <stdlib.h>

enum { MOST = 32, KEYS = 16, HELD = 4, MAPS = 200, CROWD = 100, MAGIC = 0x5eed };

static uint64_t turns = 50000, threads = 4, first_seed;
static atomic_uint_fast64_t made_objects, freed_objects;

struct object {
    atomic_long references;
    uint64_t key, number, magic;
};

struct worker {
    pthread_t thread;
    struct congee_live_owners *map;
    uint64_t id, number;
    uint64_t seen[KEYS][MOST]; /* of each key and thread the last number seen */
    struct object *held[HELD];
};

static void need(bool holds, const char *what) {
    if (!holds) {
        fprintf(stderr, "live_owner_load: wrong: %s\n", what);
        exit(1);
    }
}

static uint64_t next(uint64_t *state) { /* splitmix64 */
    uint64_t z = (*state += 0x9e3779b97f4a7c15u);
    z = (z ^ (z >> 30)) * 0xbf58476d1ce4e5b9u;
    z = (z ^ (z >> 27)) * 0x94d049bb133111ebu;
    return z ^ (z >> 31);
}

/* Keys of one leaf, and far away. */
static uint64_t key_of(uint64_t i) {
    return i < 8 ? 250 + i : i == 15 ? UINT64_MAX : i << 40;
}

static struct object *new_object(uint64_t key, uint64_t number) {
    struct object *object = malloc(sizeof *object);
    need(object != NULL, "memory");
    atomic_init(&object->references, 1);
    object->key = key;
    object->number = number;
    object->magic = MAGIC;
    atomic_fetch_add(&made_objects, 1);
    return object;
}

static void retain(void *owner, void *with) {
    struct object *object = owner;
    (void)with;
    need(atomic_fetch_add(&object->references, 1) > 0 && object->magic == MAGIC, "an object that is retained is there");
}

static void release(void *owner, void *with) {
    struct object *object = owner;
    (void)with;
    need(object->magic == MAGIC, "an object that is released is there");
    long before = atomic_fetch_sub(&object->references, 1);
    need(before > 0, "an object that is released has a reference");
    if (before == 1) {
        object->magic = 0;
        atomic_fetch_add(&freed_objects, 1);
        free(object);
    }
}

static void all_are_freed(const char *what) {
    need(atomic_load(&made_objects) == atomic_load(&freed_objects), what);
}

static struct congee_live_owners *made(void) {
    struct congee_live_owners *map;
    need(congee_live_owners_new(&map, retain, release, NULL) == CONGEE_DONE, "a map");
    return map;
}

/* Runs `work` on so many threads, each with a handle, the last of which is that by which the others were made. */
static void run(struct congee_live_owners *map, void *(*work)(void *)) {
    static struct worker workers[MOST];
    for (uint64_t i = 0; i < threads; i++) {
        workers[i] = (struct worker){.id = i, .map = map};
        if (i + 1 < threads)
            need(congee_live_owners_another(map, &workers[i].map) == CONGEE_DONE, "a handle");
    }
    for (uint64_t i = 0; i < threads; i++)
        need(pthread_create(&workers[i].thread, NULL, work, &workers[i]) == 0, "a thread");
    for (uint64_t i = 0; i < threads; i++)
        pthread_join(workers[i].thread, NULL);
}

/* -- Churn -- */

/* Reads an object that a key has or had. */
static void reads(struct worker *worker, uint64_t place, const struct object *object, bool is_current) {
    uint64_t *last = &worker->seen[place][object->number % MOST];
    need(object->magic == MAGIC && object->key == key_of(place), "an object of the key");
    if (!is_current)
        return;
    need(object->number >= *last, "an object that isn't older than one that was seen");
    *last = object->number;
}

static struct object *fresh(struct worker *worker, uint64_t place) {
    return new_object(key_of(place), ++worker->number * MOST + worker->id);
}

/* What a call that inserts has returned: whoever wasn't taken is the caller's. */
static void after(struct object *mine, bool is_stored, int code) {
    need(code != CONGEE_OOM && code != CONGEE_KEPT, "memory");
    if (!is_stored)
        release(mine, NULL);
}

static void exchange(struct worker *worker, uint64_t place, bool waits) {
    struct congee_live_owners *map = worker->map;
    void *lent = NULL;
    uint64_t ticket = 0;
    if (congee_live_owners_borrow(map, key_of(place), &lent, &ticket) != CONGEE_PRESENT)
        return;
    reads(worker, place, lent, true);
    struct object *mine = fresh(worker, place);
    int code = waits ? congee_live_owners_compare_exchange(map, key_of(place), ticket, mine)
                     : congee_live_owners_try_compare_exchange(map, key_of(place), ticket, mine);
    after(mine, code == CONGEE_PRESENT, code);
}

/* A removal by a ticket, which another thread may have replaced meanwhile. */
static void take(struct worker *worker, uint64_t place) {
    struct congee_live_owners *map = worker->map;
    void *lent = NULL, *taken = NULL;
    uint64_t ticket = 0;
    if (congee_live_owners_borrow(map, key_of(place), &lent, &ticket) != CONGEE_PRESENT)
        return;
    reads(worker, place, lent, true);
    if (congee_live_owners_compare_remove(map, key_of(place), ticket, &taken) == CONGEE_PRESENT)
        need(taken == lent, "the object of the ticket");
}

/* One reference is held until it is replaced by another one. */
static void hold(struct worker *worker, uint64_t place, uint64_t at, bool waits) {
    void *owner = NULL;
    int code = waits ? congee_live_owners_get(worker->map, key_of(place), &owner)
                     : congee_live_owners_try_get(worker->map, key_of(place), &owner);
    if (code != CONGEE_PRESENT)
        return;
    reads(worker, place, owner, true);
    if (worker->held[at]) {
        need(worker->held[at]->magic == MAGIC, "an object that is held");
        release(worker->held[at], NULL);
    }
    worker->held[at] = owner;
}

static uint64_t place_of(uint64_t key) {
    uint64_t place = 0;
    while (place < KEYS && key_of(place) != key)
        place++;
    need(place < KEYS, "a key that was inserted");
    return place;
}

static int visits(uint64_t key, void *owner, void *with) {
    reads(with, place_of(key), owner, true);
    return 0;
}

/* The next key from this one on, or the one before. */
static void search(struct worker *worker, uint64_t key, bool up, bool waits) {
    void *owner = NULL;
    uint64_t found = 0;
    int code = up ? (waits ? congee_live_owners_ceiling : congee_live_owners_try_ceiling)(worker->map, key, &found, &owner, NULL)
                  : (waits ? congee_live_owners_floor : congee_live_owners_try_floor)(worker->map, key, &found, &owner, NULL);
    if (code != CONGEE_PRESENT)
        return;
    need(up ? found >= key : found <= key, "a key in the direction of the search");
    reads(worker, place_of(found), owner, true);
}

static void call(struct worker *worker, uint64_t place, uint64_t kind, uint64_t at) {
    struct congee_live_owners *map = worker->map;
    uint64_t key = key_of(place);
    struct object *mine;
    void *other = NULL;
    int code;
    switch (kind) {
    case 0:
    case 1:
        mine = fresh(worker, place);
        code = kind ? congee_live_owners_try_insert(map, key, mine, &other) : congee_live_owners_insert(map, key, mine, &other);
        after(mine, code >= 0, code);
        if (other)
            reads(worker, place, other, true);
        break;
    case 2:
    case 3:
        code = kind == 2 ? congee_live_owners_remove(map, key, &other) : congee_live_owners_try_remove(map, key, &other);
        need((code == CONGEE_PRESENT) == (other != NULL), "a removed owner");
        if (other)
            reads(worker, place, other, true);
        break;
    case 4:
    case 5:
        hold(worker, place, at, kind == 4);
        break;
    case 6:
    case 7:
        exchange(worker, place, kind == 6);
        break;
    case 8:
        mine = fresh(worker, place);
        code = congee_live_owners_get_or_insert(map, key, mine, &other);
        after(mine, code == CONGEE_ABSENT, code);
        if (other)
            reads(worker, place, other, true);
        break;
    case 9:
        search(worker, key, at % 2, at < 2);
        break;
    case 11:
        take(worker, place);
        break;
    case 10:
        if (at == 0)
            congee_live_owners_each(map, 0, UINT64_MAX, visits, worker);
        else if (at == 1)
            congee_live_owners_each_descending(map, 0, key, visits, worker);
        else
            need(congee_live_owners_count(map) <= KEYS, "a count");
        break;
    default:
        if (congee_live_owners_borrow(map, key, &other, NULL) != CONGEE_PRESENT)
            return;
        reads(worker, place, other, true);
        if (at == 0)
            CONGEE_YIELD();
        /* (the key may be gone by now) */
        reads(worker, place, other, false);
        if (at < 2)
            congee_live_owners_return(map);
    }
}

static void *churn(void *at) {
    struct worker *worker = at;
    uint64_t seed = first_seed * MOST + worker->id;
    for (uint64_t i = 0; i < turns; i++) {
        uint64_t kind = next(&seed) % 15, place = next(&seed) % KEYS;
        call(worker, place, kind, next(&seed) % HELD);
    }
    congee_live_owners_free(worker->map);
    for (int i = 0; i < HELD; i++)
        if (worker->held[i]) {
            need(worker->held[i]->magic == MAGIC, "a reference that outlives its handle");
            release(worker->held[i], NULL);
        }
    return NULL;
}

/* -- Counters -- */

static void *raise(void *at) {
    struct worker *worker = at;
    for (uint64_t i = 0; i < turns / 4; i++) {
        uint64_t key = key_of(i % KEYS), ticket = 0;
        for (;;) {
            void *lent = NULL;
            need(congee_live_owners_borrow(worker->map, key, &lent, &ticket) == CONGEE_PRESENT, "a counter");
            struct object *mine = new_object(key, ((struct object *)lent)->number + 1);
            if (congee_live_owners_compare_exchange(worker->map, key, ticket, mine) == CONGEE_PRESENT)
                break;
            release(mine, NULL);
        }
    }
    congee_live_owners_free(worker->map);
    return NULL;
}

static void counters(void) {
    struct congee_live_owners *map = made(), *own;
    uint64_t sum = 0;
    need(congee_live_owners_another(map, &own) == CONGEE_DONE, "a handle");
    for (uint64_t i = 0; i < KEYS; i++)
        need(congee_live_owners_insert(own, key_of(i), new_object(key_of(i), 0), NULL) == CONGEE_ABSENT, "a counter");
    run(map, raise);
    for (uint64_t i = 0; i < KEYS; i++) {
        void *lent = NULL;
        need(congee_live_owners_borrow(own, key_of(i), &lent, NULL) == CONGEE_PRESENT, "a counter at the end");
        sum += ((struct object *)lent)->number;
    }
    need(sum == threads * (turns / 4), "no step is lost");
    congee_live_owners_free(own);
    all_are_freed("counters are freed");
}

/* -- A hot key -- */

static void *look_at_one(void *at) {
    struct worker *worker = at;
    uint64_t last = 0;
    for (uint64_t i = 0; i < turns; i++) {
        void *owner = NULL;
        if (worker->id == 0) {
            need(congee_live_owners_insert(worker->map, 7, new_object(7, i + 1), NULL) == CONGEE_PRESENT, "a replacement");
            continue;
        }
        need((i % 2 ? congee_live_owners_get(worker->map, 7, &owner)
                    : congee_live_owners_borrow(worker->map, 7, &owner, NULL)) == CONGEE_PRESENT, "the hot key");
        struct object *object = owner;
        need(object->magic == MAGIC && object->key == 7 && object->number >= last, "an object of the hot key");
        last = object->number;
        if (i % 2)
            release(owner, NULL);
    }
    congee_live_owners_free(worker->map);
    return NULL;
}

static void hot_key(void) {
    struct congee_live_owners *map = made();
    need(congee_live_owners_insert(map, 7, new_object(7, 0), NULL) == CONGEE_ABSENT, "a key");
    run(map, look_at_one);
    all_are_freed("the owners of a hot key are freed");
}

/* -- Ends -- */

static void *insert_and_end(void *at) {
    struct worker *worker = at;
    for (uint64_t i = 0; i < 40; i++) {
        struct object *mine = new_object(i, worker->id);
        void *lent;
        need(congee_live_owners_insert(worker->map, i, mine, NULL) >= 0, "an insertion before the end");
        need(congee_live_owners_borrow(worker->map, i, &lent, NULL) == CONGEE_PRESENT, "a loan before the end");
    }
    congee_live_owners_free(worker->map);
    return NULL;
}

static void ends(void) {
    for (int i = 0; i < MAPS; i++) {
        run(made(), insert_and_end);
        all_are_freed("the owners of a map are freed with its last handle");
    }
}

/* -- More threads than handles -- */

static pthread_mutex_t first_lock = PTHREAD_MUTEX_INITIALIZER;
static struct congee_live_owners *first;
static atomic_uint_fast64_t refused;

static void *come_and_go(void *at) {
    uint64_t id = (uint64_t)(uintptr_t)at;
    struct congee_live_owners *map;
    int code;
    for (;;) {
        pthread_mutex_lock(&first_lock);
        code = congee_live_owners_another(first, &map);
        pthread_mutex_unlock(&first_lock);
        if (code == CONGEE_DONE)
            break;
        need(code == CONGEE_FULL && !map, "no handle is left");
        atomic_fetch_add(&refused, 1);
        CONGEE_YIELD();
    }
    for (uint64_t i = 0; i < 8; i++) {
        struct object *mine = new_object(i, id);
        void *old = NULL;
        need(congee_live_owners_insert(map, i, mine, &old) >= 0, "an insertion by one of many");
        need(!old || ((struct object *)old)->key == i, "the owner before");
        CONGEE_YIELD();
    }
    congee_live_owners_free(map);
    return NULL;
}

static void crowd(void) {
    pthread_t all[CROWD];
    struct congee_live_owners *others[63];
    first = made();
    /* (so many are in use that most have to wait) */
    for (int i = 0; i < 60; i++)
        need(congee_live_owners_another(first, &others[i]) == CONGEE_DONE, "a handle");
    for (uint64_t i = 0; i < CROWD; i++)
        need(pthread_create(&all[i], NULL, come_and_go, (void *)(uintptr_t)i) == 0, "a thread");
    for (int i = 0; i < CROWD; i++)
        pthread_join(all[i], NULL);
    for (int i = 60; i < 63; i++)
        need(congee_live_owners_another(first, &others[i]) == CONGEE_DONE, "room once others have gone");
    need(congee_live_owners_another(first, &(struct congee_live_owners *){NULL}) == CONGEE_FULL, "and no more");
    for (int i = 0; i < 63; i++)
        congee_live_owners_free(others[i]);
    congee_live_owners_free(first);
    all_are_freed("the owners of a crowd are freed");
}

int main(int words, char **word) {
    turns = words > 1 ? strtoull(word[1], NULL, 10) : turns;
    threads = words > 2 ? strtoull(word[2], NULL, 10) : threads;
    first_seed = words > 3 ? strtoull(word[3], NULL, 10) : first_seed;
    if (threads == 0 || threads > MOST)
        return 1;
    run(made(), churn);
    all_are_freed("the owners of a churn are freed");
    counters();
    hot_key();
    ends();
    crowd();
    printf("%" PRIu64 " threads, as many objects freed as made\n", threads);
    return 0;
}

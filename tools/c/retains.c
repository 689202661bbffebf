/* Calls that search a pair and then remove it, retain and pops with a bound, by one table of keys and answers for a map with
 * one owner, a map under one lock, a map in shards, and a live map. For each of the last three also:
 *
 *   - Another handle changes, removes or inserts a key between the search and the removal, or the library is busy there.
 *   - Four threads pop with a bound, beside two that insert: each pair goes to one of them, and none is lost.
 *   - A pop with a bound beside writers passes no key that is there throughout, and always finds one then.
 *   - One thread removes full counters by retain, beside three that raise them: no step is lost.
 *   - Four threads retain nothing at once: each pair counts for one of them. Beside writers each key that stays is asked about.
 *
 * A removal by a value begins late now and then, so that other threads come in after the search before it.
 *
 *     retains [STEPS] */
#define _POSIX_C_SOURCE 200112L
#include "congee_exports.h"
#include <sched.h>

/* What comes between the search and the removal, once, and how often the library is busy before each of the two. */
static void (*meanwhile)(void);
static int busy_searches, busy_removals;

/* (both are of the calls that are tried by hand, before any thread is there) */
static void before_removal(void) {
    static _Thread_local unsigned calls;
    void (*f)(void) = meanwhile;
    if (f) {
        meanwhile = 0;
        f();
    } else if (++calls % 4 == 0) {
        sched_yield();
    }
}

static int32_t late_shared_remove(struct congee_shared_handle *map, uint64_t key, uint64_t expected, uint64_t *found) {
    before_removal();
    return busy_removals > 0 && busy_removals-- ? -2 : congee_c_shared_compare_remove(map, key, expected, found);
}

static int32_t late_live_remove(struct congee_live_handle *map, uint64_t key, uint64_t expected, uint64_t *found) {
    before_removal();
    return busy_removals > 0 && busy_removals-- ? -2 : congee_c_live_compare_remove(map, key, expected, found);
}

static int32_t busy_first(struct congee_const_shared_handle *map, struct congee_pair *pair) {
    return busy_searches > 0 && busy_searches-- ? -2 : congee_c_shared_first(map, pair);
}

static int32_t busy_last(struct congee_const_shared_handle *map, struct congee_pair *pair) {
    return busy_searches > 0 && busy_searches-- ? -2 : congee_c_shared_last(map, pair);
}

#define congee_c_shared_compare_remove late_shared_remove
#define congee_c_live_compare_remove late_live_remove
#define congee_c_shared_first busy_first
#define congee_c_shared_last busy_last
#include "congee.h"
#include <inttypes.h>
#include <pthread.h>
#include <stdatomic.h>
#include <stdio.h>
#include <stdlib.h>

enum { NOTHING = 99, TAKERS = 4, MAKERS = 2, RAISERS = 3, KEYS = 8, STAY = 64, MANY = 600, FULL = 3 };

/* -- Forms -- */

/* The calls of a form. A map with one owner lacks those with `try`, and further handles. */
struct form {
    const char *name;
    void *(*make)(void);
    void *(*another)(void *map);
    void (*free)(void *map);
    int (*get)(void *map, uint64_t key, uint64_t *value);
    int (*insert)(void *map, uint64_t key, uint64_t value, uint64_t *old);
    int (*remove)(void *map, uint64_t key, uint64_t *old);
    int (*add)(void *map, uint64_t key, uint64_t number, uint64_t *old);
    int (*get_or_insert)(void *map, uint64_t key, uint64_t value, uint64_t *found);
    int (*each)(void *map, uint64_t start, uint64_t last, congee_visitor *f, void *with);
    uint64_t (*count)(void *map);
    uint64_t (*retain)(void *map, congee_predicate *keep, void *with);
    int (*pops[2])(void *map, uint64_t key, struct congee_pair *pair);
    int (*try_pops[2])(void *map, uint64_t key, struct congee_pair *pair);
    bool searches; /* whether its pops are a search and a removal of the header's */
};

#define owned_is(name) congee_##name
#define shared_is(name) congee_shared_##name
#define live_is(name) congee_live_##name
#define CALL(form, type, name, parameters, ...)                                                                             \
    static type form##_##name parameters {                                                                                  \
        return form##_is(name)(__VA_ARGS__);                                                                                \
    }
#define POP(form, name) CALL(form, int, name, (void *it, uint64_t key, struct congee_pair *pair), it, key, pair)
#define CALLS_OF_ALL(form)                                                                                                  \
    static void form##_free(void *it) {                                                                                     \
        form##_is(free)(it);                                                                                                \
    }                                                                                                                       \
    CALL(form, int, get, (void *it, uint64_t key, uint64_t *value), it, key, value)                                         \
    CALL(form, int, insert, (void *it, uint64_t key, uint64_t value, uint64_t *old), it, key, value, old)                   \
    CALL(form, int, remove, (void *it, uint64_t key, uint64_t *old), it, key, old)                                          \
    CALL(form, int, add, (void *it, uint64_t key, uint64_t number, uint64_t *old), it, key, number, old)                    \
    CALL(form, int, get_or_insert, (void *it, uint64_t key, uint64_t value, uint64_t *found), it, key, value, found)        \
    CALL(form, int, each, (void *it, uint64_t from, uint64_t last, congee_visitor *f, void *with), it, from, last, f, with) \
    CALL(form, uint64_t, count, (void *it), it)                                                                             \
    CALL(form, uint64_t, retain, (void *it, congee_predicate *keep, void *with), it, keep, with)                            \
    POP(form, pop_first_to)                                                                                                 \
    POP(form, pop_last_from)
CALLS_OF_ALL(owned)
CALLS_OF_ALL(shared)
CALLS_OF_ALL(live)
POP(shared, try_pop_first_to)
POP(shared, try_pop_last_from)
POP(live, try_pop_first_to)
POP(live, try_pop_last_from)

#define MAKE(form, type, name, parameters, code)                                                                            \
    static void *form##_##name parameters {                                                                                 \
        type *it = NULL;                                                                                                    \
        return code == CONGEE_DONE ? it : NULL;                                                                             \
    }
MAKE(owned, struct congee, make, (void), congee_new(&it))
MAKE(shared, struct congee_shared, make, (void), congee_shared_new(UINT64_MAX, &it))
MAKE(sharded, struct congee_shared, make, (void), congee_shared_new_sharded(UINT64_MAX, &it))
MAKE(live, struct congee_live, make, (void), congee_live_new(&it))
MAKE(shared, struct congee_shared, another, (void *of), congee_shared_another(of, &it))
MAKE(live, struct congee_live, another, (void *of), congee_live_another(of, &it))

#define ENTRIES(form)                                                                                                       \
    .free = form##_free, .get = form##_get, .insert = form##_insert, .remove = form##_remove, .add = form##_add,            \
    .get_or_insert = form##_get_or_insert, .each = form##_each, .count = form##_count, .retain = form##_retain,             \
    .pops = {form##_pop_first_to, form##_pop_last_from}
#define OF_THREADS(form) .another = form##_another, .try_pops = {form##_try_pop_first_to, form##_try_pop_last_from}
static const struct form forms[] = {
    {"a map with one owner", .make = owned_make, ENTRIES(owned)},
    {"a map under one lock", .make = shared_make, ENTRIES(shared), OF_THREADS(shared), .searches = true},
    {"a map in shards", .make = sharded_make, ENTRIES(shared), OF_THREADS(shared), .searches = true},
    {"a live map", .make = live_make, ENTRIES(live), OF_THREADS(live)},
};
enum { FORMS = sizeof forms / sizeof *forms };
static const struct form *form;
static uint64_t steps = 4000;
static atomic_bool going;

static void need(bool holds, const char *what) {
    if (!holds) {
        fprintf(stderr, "retains: wrong: %s: %s\n", form->name, what);
        exit(1);
    }
}

static void *made(void) {
    void *map = form->make();
    need(map != NULL, "a map");
    return map;
}

static uint64_t next(uint64_t *state) { /* splitmix64 */
    uint64_t z = (*state += 0x9e3779b97f4a7c15u);
    z = (z ^ (z >> 30)) * 0xbf58476d1ce4e5b9u;
    z = (z ^ (z >> 27)) * 0x94d049bb133111ebu;
    return z ^ (z >> 31);
}

/* -- Pops with a bound, by hand -- */

/* These keys are there, each with its tenfold as value. */
static const uint64_t there[] = {5, 7, 0x105, 0x1ff, 0x200, 1ull << 40};
enum { THERE = sizeof there / sizeof *there };

/* Which key a pop with a bound finds, among all of them: the first up to the bound, and the last from the bound on. */
static const struct bound {
    uint64_t key;
    size_t found[2];
} bounds[] = {
    {0, {THERE, 5}},     {4, {THERE, 5}},           {5, {0, 5}},
    {6, {0, 5}},         {1ull << 40, {0, 5}},      {(1ull << 40) + 1, {0, THERE}},
    {0x200, {0, 5}},     {UINT64_MAX, {0, THERE}},  {(1ull << 40) - 1, {0, 5}},
};

static void insert_all(void *map) {
    for (size_t i = 0; i < THERE; i++)
        need(form->insert(map, there[i], 10 * there[i], NULL) != CONGEE_OOM, "a key");
}

typedef int pop_call(void *map, uint64_t key, struct congee_pair *pair);

/* One pop: the place has the pair, or is as it was. */
static void pops(pop_call *pop, void *map, uint64_t bound, size_t found, bool has_place) {
    struct congee_pair pair = {1, 2};
    uint64_t count = form->count(map), key = found < THERE ? there[found] : 1, value = found < THERE ? 10 * key : 2;
    need(pop(map, bound, has_place ? &pair : NULL) == (found < THERE ? CONGEE_PRESENT : CONGEE_ABSENT), "a pop with a bound");
    need(has_place ? pair.key == key && pair.value == value : pair.key == 1 && pair.value == 2, "the pair of such a pop");
    need(form->count(map) == count - (found < THERE), "how many pairs a pop with a bound removes");
    if (found < THERE)
        need(form->get(map, key, NULL) == CONGEE_ABSENT, "a popped key is gone");
}

static void call_pops(pop_call *const two[2]) {
    void *map = made();
    pops(two[0], map, UINT64_MAX, THERE, true);
    pops(two[1], map, 0, THERE, true);
    for (int end = 0; end < 2; end++)
        for (size_t i = 0; i < sizeof bounds / sizeof *bounds; i++) {
            insert_all(map);
            pops(two[end], map, bounds[i].key, bounds[i].found[end], i % 2);
        }
    /* one after another, up to the third key, and down to the second one */
    insert_all(map);
    for (size_t i = 0; i < 3; i++)
        pops(two[0], map, there[2], i, true);
    pops(two[0], map, there[2], THERE, true);
    insert_all(map);
    for (size_t i = THERE; i > 1; i--)
        pops(two[1], map, there[1], i - 1, true);
    pops(two[1], map, there[1], THERE, true);
    need(form->count(map) == 1 && form->get(map, 5, NULL) == CONGEE_PRESENT, "what pops with a bound leave");
    /* the greatest number and the least one as keys */
    need(form->insert(map, 0, 3, NULL) == CONGEE_ABSENT && form->insert(map, UINT64_MAX, 4, NULL) == CONGEE_ABSENT, "ends");
    struct congee_pair pair = {1, 2};
    need(two[1](map, UINT64_MAX, &pair) == CONGEE_PRESENT && pair.key == UINT64_MAX && pair.value == 4, "the greatest key");
    need(two[0](map, 0, &pair) == CONGEE_PRESENT && pair.key == 0 && pair.value == 3, "the least key");
    form->free(map);
}

/* -- Between the search and the removal -- */

static void *between; /* by which handle */

static void change_it(void) {
    need(form->insert(between, 5, 51, NULL) == CONGEE_PRESENT && form->insert(between, 9, 91, NULL) == CONGEE_PRESENT, "changes");
}

static void remove_it(void) {
    need(form->remove(between, 5, NULL) == CONGEE_PRESENT && form->remove(between, 9, NULL) == CONGEE_PRESENT, "removals");
}

static void insert_before_it(void) {
    need(form->insert(between, 4, 40, NULL) == CONGEE_ABSENT && form->insert(between, 10, 100, NULL) == CONGEE_ABSENT, "new keys");
}

/* What comes between, and what a pop of each end with the bound 7 leads to, with `try` and without. */
static const struct {
    void (*meanwhile)(void);
    int busy_searches, busy_removals, tried;
    struct congee_pair pairs[2];
} meetings[] = {
    {change_it, 0, 0, CONGEE_BUSY, {{5, 51}, {9, 91}}},          {remove_it, 0, 0, CONGEE_BUSY, {{7, 70}, {7, 70}}},
    {insert_before_it, 0, 0, CONGEE_PRESENT, {{5, 50}, {9, 90}}}, {NULL, 1, 0, CONGEE_BUSY, {{5, 50}, {9, 90}}},
    {NULL, 0, 1, CONGEE_BUSY, {{5, 50}, {9, 90}}},               {NULL, 3, 0, CONGEE_BUSY, {{5, 50}, {9, 90}}},
    {NULL, 2, 3, CONGEE_BUSY, {{5, 50}, {9, 90}}},
};

static void call_meetings(void) {
    for (size_t i = 0; i < sizeof meetings / sizeof *meetings; i++)
        for (int kind = 0; kind < 4; kind++) {
            int end = kind / 2, is_tried = kind % 2;
            struct congee_pair pair = {1, 2}, wanted = meetings[i].pairs[end];
            void *map = made();
            between = form->another(map);
            for (uint64_t key = 5; key <= 9; key += 2)
                need(form->insert(map, key, 10 * key, NULL) == CONGEE_ABSENT, "a key");
            meanwhile = meetings[i].meanwhile;
            busy_searches = meetings[i].busy_searches;
            busy_removals = meetings[i].busy_removals;
            int code = (is_tried ? form->try_pops : form->pops)[end](map, 7, &pair);
            need(meanwhile == NULL, "something came in between");
            busy_searches = busy_removals = 0;
            if (is_tried && meetings[i].tried == CONGEE_BUSY) {
                need(code == CONGEE_BUSY && pair.key == 1 && pair.value == 2, "a busy pop with a bound");
                need(form->count(map) == (meetings[i].meanwhile == remove_it ? 1 : 3), "such a pop removes nothing");
            } else {
                need(code == CONGEE_PRESENT && pair.key == wanted.key && pair.value == wanted.value, "a pop that searches again");
                need(form->get(map, pair.key, NULL) == CONGEE_ABSENT, "what such a pop removes");
            }
            form->free(between);
            form->free(map);
        }
}

/* -- Retain, by hand -- */

/* The keys of a map of more than a page: 0, 3, 4, 7, 8 and so on, and the greatest key. */
static uint64_t key_of(uint64_t i, uint64_t n) {
    return i + 1 < n ? 4 * ((i + 1) / 2) - i % 2 : UINT64_MAX;
}

struct walk {
    uint64_t calls, n, every; /* how many pairs there are, and which of them stay: each such one, all for 1, or none for 0 */
};

static bool stays(uint64_t i, uint64_t every) {
    return every > 0 && i % every == 0;
}

static bool keeps(struct congee_pair pair, void *with) {
    struct walk *walk = with;
    uint64_t i = walk->calls++;
    need(i < walk->n && pair.key == key_of(i, walk->n) && pair.value == i, "the next pair that is asked about");
    return stays(i, walk->every);
}

/* Lengths at and beside the ends of pages. */
static const uint64_t lengths[] = {0, 1, 2, 63, 64, 65, 127, 128, 129, 192, MANY};

static void call_retain(uint64_t n, uint64_t every) {
    struct walk walk = {0, n, every};
    void *map = made();
    uint64_t left = 0;
    for (uint64_t i = 0; i < n; i++)
        need(form->insert(map, key_of(i, n), i, NULL) == CONGEE_ABSENT, "a new key");
    for (uint64_t i = 0; i < n; i++)
        left += stays(i, every);
    need(form->retain(map, keeps, &walk) == n - left, "how many pairs are removed");
    need(walk.calls == n, "each pair is asked about once");
    need(form->count(map) == left, "how many pairs stay");
    for (uint64_t i = 0; i < n; i++) {
        uint64_t value = NOTHING;
        need(form->get(map, key_of(i, n), &value) == stays(i, every), "which pairs stay");
        need(value == (stays(i, every) ? i : NOTHING), "with which value");
    }
    form->free(map);
}

/* What is asked about in turn, what another handle does meanwhile (an insertion of a value, or a removal for 0), and the answer. */
static const struct asked {
    uint64_t key, value, changed;
    bool stays;
} asked[] = {
    {5, 50, 51, false},  {5, 51, NOTHING, true},                          /* the new value stays */
    {7, 70, 0, false},                                                    /* is gone, and isn't this call's */
    {9, 90, 91, false},  {9, 91, 92, false},    {9, 92, NOTHING, false},  /* is removed with the third value */
    {11, 110, 111, true},                                                 /* was to stay as it was asked about */
    {13, 130, 130, false},                                                /* has the same value again */
    {15, 150, NOTHING, false}, {17, 170, NOTHING, true},
};
enum { ASKED = sizeof asked / sizeof *asked };

static bool meddles(struct congee_pair pair, void *with) {
    size_t *calls = with;
    const struct asked *it = &asked[*calls];
    need(*calls < ASKED && pair.key == it->key && pair.value == it->value, "what is asked about, once it is changed");
    ++*calls;
    if (it->changed == 0 || (it->changed == it->value))
        need(form->remove(between, it->key, NULL) == CONGEE_PRESENT, "a removal meanwhile");
    if (it->changed != 0 && it->changed != NOTHING)
        need(form->insert(between, it->key, it->changed, NULL) != CONGEE_OOM, "a change meanwhile");
    return it->stays;
}

/* Once by another handle, and once by the one that retains. */
static void call_meddled(bool by_another) {
    static const struct congee_pair left[] = {{5, 51}, {11, 111}, {17, 170}};
    void *map = made(), *other = form->another(map);
    size_t calls = 0;
    between = by_another ? other : map;
    for (uint64_t key = 5; key <= 17; key += 2)
        need(form->insert(map, key, 10 * key, NULL) == CONGEE_ABSENT, "a key");
    busy_removals = 2;
    need(form->retain(map, meddles, &calls) == 3 && calls == ASKED, "a call that asks again");
    need(busy_removals == 0, "the library was busy meanwhile");
    need(form->count(map) == 3, "how many pairs it leaves");
    for (int i = 0; i < 3; i++) {
        uint64_t value = NOTHING;
        need(form->get(map, left[i].key, &value) == CONGEE_PRESENT && value == left[i].value, "which pairs it leaves");
    }
    form->free(other);
    form->free(map);
}

/* -- Threads -- */

struct worker {
    pthread_t thread;
    void *map;
    uint64_t id, count;
    unsigned char *got;
};

static void begin(struct worker *worker, void *map, uint64_t id, void *(*work)(void *)) {
    worker->id = id;
    worker->count = 0;
    worker->map = form->another(map);
    need(worker->map != NULL, "a handle");
    need(pthread_create(&worker->thread, NULL, work, worker) == 0, "a thread");
}

static uint64_t end(struct worker *worker) {
    need(pthread_join(worker->thread, NULL) == 0, "the end of a thread");
    form->free(worker->map);
    return worker->count;
}

/* Dense keys, and some that lie far apart. */
static uint64_t spread(uint64_t i) {
    return i % 4 ? i : i * 0x0010010010010010u;
}

enum { MIDDLE = 5 }; /* of the keys from 0 to 7, three are above it */

/* Inserts keys that are absent, each with a value of its own. A key that was popped comes again. */
static void *make(void *at) {
    struct worker *worker = at;
    uint64_t seed = worker->id;
    while (worker->count < steps) {
        uint64_t key = spread(next(&seed) % KEYS), value = worker->count * MAKERS + worker->id;
        if (form->get_or_insert(worker->map, key, value, NULL) == CONGEE_ABSENT)
            worker->count++;
        else
            CONGEE_YIELD();
    }
    return NULL;
}

/* Pops from one end up to the middle, until no pair is found and no thread inserts any more. */
static void *take(void *at) {
    struct worker *worker = at;
    int up = worker->id % 2;
    for (;;) {
        struct congee_pair pair = {MIDDLE, 0};
        /* (asked first: what was inserted before is there) */
        bool may_come = atomic_load(&going);
        int code = (worker->count % 2 ? form->try_pops : form->pops)[up](worker->map, MIDDLE, &pair);
        need(up ? pair.key >= MIDDLE : pair.key <= MIDDLE, "a pop keeps its bound");
        if (code == CONGEE_PRESENT) {
            need(pair.value < steps * MAKERS && !worker->got[pair.value], "a thread pops a pair once");
            worker->got[pair.value] = 1;
            worker->count++;
        } else if (code == CONGEE_ABSENT && !may_come) {
            return NULL;
        } else {
            CONGEE_YIELD();
        }
    }
}

static uint64_t each_pair_to_one(void) {
    static struct worker takers[TAKERS], makers[MAKERS];
    void *map = made();
    uint64_t inserted = 0, popped = 0;
    atomic_store(&going, true);
    for (uint64_t i = 0; i < TAKERS; i++) {
        takers[i].got = calloc(steps * MAKERS, 1);
        need(takers[i].got != NULL, "memory");
        begin(&takers[i], map, i, take);
    }
    for (uint64_t i = 0; i < MAKERS; i++)
        begin(&makers[i], map, i, make);
    for (uint64_t i = 0; i < MAKERS; i++)
        inserted += end(&makers[i]);
    atomic_store(&going, false);
    for (uint64_t i = 0; i < TAKERS; i++)
        popped += end(&takers[i]);
    for (uint64_t value = 0; value < steps * MAKERS; value++) {
        int takes = 0;
        for (int i = 0; i < TAKERS; i++)
            takes += takers[i].got[value];
        need(takes <= 1, "a pair goes to one thread");
    }
    need(popped == inserted, "no pair is lost");
    need(form->count(map) == 0, "all pairs are popped");
    for (int i = 0; i < TAKERS; i++)
        free(takers[i].got);
    form->free(map);
    return popped;
}

/* Stores and removes keys below and above the middle one. */
static void *stir(void *at) {
    struct worker *worker = at;
    uint64_t seed = worker->id;
    while (atomic_load(&going)) {
        uint64_t key = next(&seed) % 2 ? next(&seed) % 512 : 513 + (next(&seed) % 1024 << 40);
        form->insert(worker->map, key, worker->id, NULL);
        form->remove(worker->map, key, NULL);
        /* (a thread that is stopped in a call would keep the lock) */
        CONGEE_YIELD();
    }
    return NULL;
}

static void none_is_passed(void) {
    static struct worker writers[2];
    void *map = made();
    atomic_store(&going, true);
    for (uint64_t i = 0; i < 2; i++)
        begin(&writers[i], map, i, stir);
    for (uint64_t i = 0; i < steps / 4; i++) {
        struct congee_pair pair = {0, 0};
        need(form->insert(map, 512, 512, NULL) != CONGEE_OOM, "memory");
        need(form->pops[i % 2](map, 512, &pair) == CONGEE_PRESENT, "a pop finds a key that is there throughout, or one before it");
        need(i % 2 ? pair.key >= 512 : pair.key <= 512, "a pop doesn't pass a key that is there throughout");
    }
    atomic_store(&going, false);
    for (uint64_t i = 0; i < 2; i++)
        end(&writers[i]);
    form->free(map);
}

static pthread_barrier_t rounds;

/* Raises counters, so many in each round. A counter that was removed begins again. A round ends with a wait, too: by then each
 * thread has read whether it goes on. */
static void *raise(void *at) {
    struct worker *worker = at;
    uint64_t seed = worker->id;
    while (pthread_barrier_wait(&rounds), atomic_load(&going)) {
        for (int i = 0; i < 16; i++, worker->count++)
            need(form->add(worker->map, spread(next(&seed) % KEYS), 1, NULL) != CONGEE_OOM, "memory");
        pthread_barrier_wait(&rounds);
    }
    return NULL;
}

/* What was removed by one that retains alone: the answers up to the one about the last key, and that one. */
struct sums {
    uint64_t keys, values, key, value;
    bool goes;
};

static void closes(struct sums *sums) {
    sums->keys += sums->goes;
    sums->values += sums->goes ? sums->value : 0;
    sums->goes = false;
}

static bool is_below_full(struct congee_pair pair, void *with) {
    struct sums *sums = with;
    /* (a key is asked about again where it has another value by then) */
    if (pair.key != sums->key)
        closes(sums);
    sums->key = pair.key;
    sums->value = pair.value;
    sums->goes = pair.value >= FULL;
    return !sums->goes;
}

static int add_value(struct congee_pair pair, void *with) {
    *(uint64_t *)with += pair.value;
    return 0;
}

static void no_step_is_lost(void) {
    static struct worker raisers[RAISERS];
    void *map = made();
    uint64_t left = 0, raised = 0, removed = 0;
    struct sums sums = {0, 0, 0, 0, false};
    atomic_store(&going, true);
    need(pthread_barrier_init(&rounds, NULL, RAISERS + 1) == 0, "a barrier");
    for (uint64_t i = 0; i < RAISERS; i++)
        begin(&raisers[i], map, i, raise);
    while (removed < steps / 4) {
        pthread_barrier_wait(&rounds);
        removed += form->retain(map, is_below_full, &sums);
        closes(&sums);
        need(removed == sums.keys, "each pair that isn't to stay is removed");
        pthread_barrier_wait(&rounds);
    }
    atomic_store(&going, false);
    pthread_barrier_wait(&rounds);
    for (uint64_t i = 0; i < RAISERS; i++)
        raised += end(&raisers[i]);
    pthread_barrier_destroy(&rounds);
    need(form->each(map, 0, UINT64_MAX, add_value, &left) == 0, "all values");
    need(sums.values + left == raised, "no step is lost");
    form->free(map);
}

static bool keeps_none(struct congee_pair pair, void *with) {
    (void)pair;
    (void)with;
    return false;
}

static void *remove_all(void *at) {
    struct worker *worker = at;
    worker->count = form->retain(worker->map, keeps_none, NULL);
    return NULL;
}

static void each_counts_for_one(void) {
    static struct worker removers[TAKERS];
    void *map = made();
    for (uint64_t round = 0; round < steps / 800; round++) {
        uint64_t removed = 0;
        for (uint64_t i = 0; i < 4 * MANY; i++)
            need(form->insert(map, spread(i), i, NULL) == CONGEE_ABSENT, "a new key");
        for (uint64_t i = 0; i < TAKERS; i++)
            begin(&removers[i], map, i, remove_all);
        for (uint64_t i = 0; i < TAKERS; i++)
            removed += end(&removers[i]);
        need(removed == 4 * MANY && form->count(map) == 0, "each pair counts for one thread");
    }
    form->free(map);
}

/* Stores and removes keys between those that stay, which are multiples of 256. */
static void *disturb(void *at) {
    struct worker *worker = at;
    uint64_t seed = worker->id;
    while (atomic_load(&going)) {
        uint64_t key = next(&seed) % STAY * 256 + 1 + next(&seed) % 3;
        form->insert(worker->map, key, key, NULL);
        form->remove(worker->map, key, NULL);
        CONGEE_YIELD();
    }
    return NULL;
}

struct round {
    uint64_t asked, number;
    bool stay;
};

static bool of_round(struct congee_pair pair, void *with) {
    struct round *round = with;
    if (pair.key % 256 > 0)
        return pair.key % 2;
    need(pair.value == round->number, "a key that stays has its value");
    round->asked++;
    return round->stay;
}

static void beside_writers(void) {
    static struct worker writers[2];
    void *map = made();
    atomic_store(&going, true);
    for (uint64_t i = 0; i < 2; i++)
        begin(&writers[i], map, i, disturb);
    for (uint64_t number = 0; number < steps / 100; number++) {
        struct round kept = {0, number, true}, gone = {0, number, false};
        for (uint64_t i = 0; i < STAY; i++)
            need(form->insert(map, i * 256, number, NULL) == CONGEE_ABSENT, "keys that stay");
        form->retain(map, of_round, &kept);
        need(kept.asked == STAY, "each key that stays is asked about");
        for (uint64_t i = 0; i < STAY; i++)
            need(form->get(map, i * 256, NULL) == CONGEE_PRESENT, "each key that is to stay stays");
        need(form->retain(map, of_round, &gone) >= STAY && gone.asked == STAY, "each key that isn't to stay is removed");
        for (uint64_t i = 0; i < STAY; i++)
            need(form->get(map, i * 256, NULL) == CONGEE_ABSENT, "no key that stayed is left");
    }
    atomic_store(&going, false);
    for (uint64_t i = 0; i < 2; i++)
        end(&writers[i]);
    form->free(map);
}

int main(int count_of, char **words) {
    uint64_t popped = 0;
    if (count_of > 1)
        steps = strtoull(words[1], NULL, 10);
    for (form = forms; form < forms + FORMS; form++) {
        call_pops(form->pops);
        for (size_t i = 0; i < sizeof lengths / sizeof *lengths; i++)
            for (uint64_t every = 0; every < 4; every++)
                call_retain(lengths[i], every);
        if (!form->another)
            continue;
        call_pops(form->try_pops);
        if (form->searches)
            call_meetings();
        call_meddled(true);
        call_meddled(false);
        popped += each_pair_to_one();
        none_is_passed();
        no_step_is_lost();
        each_counts_for_one();
        beside_writers();
    }
    printf("%d forms, %" PRIu64 " pairs popped by %d threads beside %d, each by one\n", FORMS, popped, TAKERS, MAKERS);
    return 0;
}

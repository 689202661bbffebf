/* What calls cost of a live map, of the map with one owner in a mutex and alone, and a bare hold of the mutex, in the columns
 * of tools/dev/bench-threads. A line for each form and round has the kind of the keys, the form, and then, in hundredths of a
 * nanosecond of wall time for a call of a thread:
 *   - the first seven tenths of the keys, inserted by one thread
 *   - a tenth of new keys each by one, two and four threads
 *   - get of all keys, overwriting insert of all, and removal of four, three and three tenths, likewise
 *
 *     form_times [KEYS] [ROUNDS] */
#define _POSIX_C_SOURCE 200112L
#include "congee.h"
#include <inttypes.h>
#include <pthread.h>
#include <stdio.h>
#include <stdlib.h>
#include <string.h>
#include <time.h>

enum { MOST = 4, TRIES = 64, COLUMNS = 13 };
enum form { LIVE, HAND, OWNED, HOLD, FORMS };
enum call { INSERT, GET, OVERWRITE, REMOVE, CALLS };

static const char *const names[FORMS] = {"live", "hand", "owned", "hold"};

/* The map of a round, and what a thread does with it. */
struct work {
    pthread_t thread;
    enum form form;
    enum call call;
    const uint64_t *keys;
    size_t count;
    struct congee_live *live;
    struct congee *owned;
    uint64_t sum;
};

static pthread_mutex_t lock = PTHREAD_MUTEX_INITIALIZER;
static uint64_t held, sums;

static void need(bool holds, const char *what) {
    if (!holds) {
        fprintf(stderr, "form_times: there is no %s\n", what);
        exit(1);
    }
}

static uint64_t next(uint64_t *state) { /* splitmix64 */
    uint64_t z = (*state += 0x9e3779b97f4a7c15u);
    z = (z ^ (z >> 30)) * 0xbf58476d1ce4e5b9u;
    z = (z ^ (z >> 27)) * 0x94d049bb133111ebu;
    return z ^ (z >> 31);
}

static double now(void) {
    struct timespec t;
    clock_gettime(CLOCK_MONOTONIC, &t);
    return 1e9 * (double)t.tv_sec + (double)t.tv_nsec;
}

/* Tries and pauses before it waits, as the maps of Rattle under a lock do. */
static void hold(void) {
    for (int i = 0; i < TRIES; i++) {
        if (pthread_mutex_trylock(&lock) == 0)
            return;
        if (i > 6)
            CONGEE_YIELD();
        for (int left = i > 6 ? 0 : 1 << i; left > 0; left--)
            __builtin_ia32_pause();
    }
    pthread_mutex_lock(&lock);
}

static uint64_t call_live(struct congee_live *map, enum call call, uint64_t key) {
    uint64_t value = 0;
    int code = call == GET      ? congee_live_get(map, key, &value)
               : call == REMOVE ? congee_live_remove(map, key, &value)
                                : congee_live_insert(map, key, key ^ (call == INSERT), &value);
    return (uint64_t)code + value;
}

static uint64_t call_owned(struct congee *map, enum call call, uint64_t key) {
    uint64_t value = 0;
    int code = call == GET      ? congee_get(map, key, &value)
               : call == REMOVE ? congee_remove(map, key, &value)
                                : congee_insert(map, key, key ^ (call == INSERT), &value);
    return (uint64_t)code + value;
}

static void *part(void *at) {
    struct work *work = at;
    for (size_t i = 0; i < work->count; i++) {
        uint64_t key = work->keys[i];
        if (work->form == LIVE) {
            work->sum += call_live(work->live, work->call, key);
        } else if (work->form == OWNED) {
            work->sum += call_owned(work->owned, work->call, key);
        } else {
            hold();
            if (work->form == HAND)
                work->sum += call_owned(work->owned, work->call, key);
            else
                held += key;
            pthread_mutex_unlock(&lock);
        }
    }
    return NULL;
}

/* The time of these calls by so many threads, each with a part of the keys. */
static uint64_t wall(struct work *all, enum call call, size_t threads, const uint64_t *keys, size_t count) {
    double start = now();
    for (size_t i = 0; i < threads; i++) {
        all[i].call = call;
        all[i].keys = keys + i * count / threads;
        all[i].count = (i + 1) * count / threads - i * count / threads;
        need(pthread_create(&all[i].thread, NULL, part, &all[i]) == 0, "thread");
    }
    for (size_t i = 0; i < threads; i++)
        pthread_join(all[i].thread, NULL);
    return (uint64_t)((now() - start) * 100 * (double)threads / (double)count);
}

/* Whether a form has this call by so many threads. A bare hold has the place of a get. */
static bool has(enum form form, enum call call, size_t threads) {
    return form == HOLD ? call == GET : form != OWNED || threads == 1;
}

/* All times of a map: a column each, or 0. Where a form lacks a call by some threads, one makes it in their place. */
static void times(struct work *all, const uint64_t *keys, const uint64_t *order, size_t count, uint64_t *column) {
    static const size_t tenths[CALLS][4] = {[INSERT] = {7, 8, 9, 10}, [REMOVE] = {0, 4, 7, 10}};
    size_t tenth = count / 10;
    if (all->form != HOLD)
        column[0] = wall(all, INSERT, 1, keys, 7 * tenth);
    column++;
    for (enum call call = INSERT; call < CALLS; call++)
        for (size_t i = 0; i < 3 && has(all->form, call, 1); i++) {
            size_t threads = (size_t)1 << i, first = tenths[call][i] * tenth, end = tenths[call][i + 1] * tenth;
            const uint64_t *from = (call == INSERT ? keys : order) + first;
            bool is_had = has(all->form, call, threads);
            uint64_t time = wall(all, call, is_had ? threads : 1, from, end ? end - first : count);
            column[3 * call + i] = is_had ? time : 0;
        }
}

static void time_round(enum form form, const char *kind, const uint64_t *keys, const uint64_t *order, size_t count) {
    struct work all[MOST];
    struct congee_live *live = NULL;
    struct congee *owned = NULL;
    uint64_t column[COLUMNS] = {0};
    memset(all, 0, sizeof all);
    need(congee_live_new(&live) == CONGEE_DONE && congee_new(&owned) == CONGEE_DONE, "map");
    for (size_t i = 0; i < MOST; i++) {
        all[i].form = form;
        all[i].owned = owned;
        need(congee_live_another(live, &all[i].live) == CONGEE_DONE, "handle");
    }
    times(all, keys, order, count, column);
    for (size_t i = 0; i < MOST; i++) {
        sums += all[i].sum;
        congee_live_free(all[i].live);
    }
    congee_live_free(live);
    congee_free(owned);
    printf("%s %s", kind, names[form]);
    for (size_t i = 0; i < COLUMNS; i++)
        printf(" %" PRIu64, column[i]);
    printf("\n");
}

int main(int words, char **word) {
    size_t count = words > 1 ? strtoull(word[1], NULL, 10) : 1000000, rounds = words > 2 ? strtoull(word[2], NULL, 10) : 5;
    uint64_t *keys = malloc(count * sizeof *keys), *order = malloc(count * sizeof *order);
    need(count >= 40 && keys && order, "memory for the keys");
    for (int is_random = 0; is_random < 2; is_random++) {
        uint64_t seed = 42, turn = 7;
        for (size_t i = 0; i < count; i++)
            keys[i] = order[i] = is_random ? next(&seed) : i;
        for (size_t i = count - 1; i > 0; i--) {
            size_t j = next(&turn) % (i + 1);
            uint64_t key = order[i];
            order[i] = order[j];
            order[j] = key;
        }
        for (size_t round = 0; round < rounds; round++)
            for (enum form form = LIVE; form < FORMS; form++)
                time_round(form, is_random ? "random" : "dense", keys, order, count);
    }
    need(sums + held != 0, "sum of the answers");
    free(keys);
    free(order);
    return 0;
}

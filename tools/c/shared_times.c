/* What calls cost on a map that threads share, under one lock and in shards, beside a map in a pthread_mutex_t: nanoseconds of wall time for each call of all
 * threads together, the least of so many rounds, and of a thousand calls how many answers were CONGEE_BUSY.
 *
 *     shared_times [KEYS]... */
#define _GNU_SOURCE
#include "congee.h"
#include <inttypes.h>
#include <pthread.h>
#include <stdio.h>
#include <stdlib.h>
#include <time.h>

enum { MOST = 4, ROUNDS = 5, CALLS = 200000 };

/* The maps: in a mutex, under one lock, and in shards. */
enum { MUTEX, SHARED, SHARDED, KINDS };

struct worker {
    pthread_t thread;
    int number, kind;
    bool writes;
    struct congee_shared *shared[KINDS];
    uint64_t busy, sum;
    double began, ended;
};

static uint64_t *keys, key_count;
static struct congee *map;
static pthread_mutex_t lock = PTHREAD_MUTEX_INITIALIZER;
static pthread_barrier_t start;

static uint64_t next(uint64_t *state) { /* splitmix64 */
    uint64_t z = (*state += 0x9e3779b97f4a7c15u);
    z = (z ^ (z >> 30)) * 0xbf58476d1ce4e5b9u;
    z = (z ^ (z >> 27)) * 0x94d049bb133111ebu;
    return z ^ (z >> 31);
}

static double now(void) {
    struct timespec t;
    clock_gettime(CLOCK_MONOTONIC, &t);
    return 1e9 * (double)t.tv_sec + (double)t.tv_nsec;
}

static void call_shared(struct worker *worker, uint64_t key, bool writes) {
    uint64_t value = 0;
    struct congee_shared *shared = worker->shared[worker->kind];
    while ((writes ? congee_shared_try_insert(shared, key, key, &value) : congee_shared_try_get(shared, key, &value)) ==
           CONGEE_BUSY) {
        worker->busy++;
        CONGEE_YIELD();
    }
    worker->sum += value;
}

static void call_locked(struct worker *worker, uint64_t key, bool writes) {
    uint64_t value = 0;
    pthread_mutex_lock(&lock);
    if (writes)
        congee_insert(map, key, key, &value);
    else
        congee_get(map, key, &value);
    pthread_mutex_unlock(&lock);
    worker->sum += value;
}

static void *work(void *at) {
    struct worker *worker = at;
    uint64_t seed = (uint64_t)worker->number;
    pthread_barrier_wait(&start);
    worker->began = now();
    for (int i = 0; i < CALLS; i++) {
        uint64_t number = next(&seed), key = keys[number % key_count];
        bool writes = worker->writes && number >> 63;
        if (worker->kind == MUTEX)
            call_locked(worker, key, writes);
        else
            call_shared(worker, key, writes);
    }
    worker->ended = now();
    return NULL;
}

/* The time for each call of so many threads, thread i on processor i, from the first one's start to the last one's end. */
static double run(struct worker *workers, int threads, int kind, bool writes, uint64_t *busy) {
    cpu_set_t processor;
    double began = 1e18, ended = 0;
    pthread_barrier_init(&start, NULL, (unsigned)threads);
    for (int i = 0; i < threads; i++) {
        workers[i].kind = kind;
        workers[i].writes = writes;
        workers[i].busy = 0;
        if (pthread_create(&workers[i].thread, NULL, work, &workers[i]))
            exit(1);
        CPU_ZERO(&processor);
        CPU_SET(i, &processor);
        pthread_setaffinity_np(workers[i].thread, sizeof processor, &processor);
    }
    *busy = 0;
    for (int i = 0; i < threads; i++) {
        pthread_join(workers[i].thread, NULL);
        *busy += workers[i].busy;
        began = workers[i].began < began ? workers[i].began : began;
        ended = workers[i].ended > ended ? workers[i].ended : ended;
    }
    pthread_barrier_destroy(&start);
    return (ended - began) / CALLS / threads;
}

static int times(bool is_dense) {
    struct worker workers[MOST] = {{0}};
    struct congee_shared *first[KINDS] = {NULL};
    uint64_t seed = 1;
    if (congee_new(&map) || congee_shared_new(UINT64_MAX, &first[SHARED]) ||
        congee_shared_new_sharded(UINT64_MAX, &first[SHARDED]))
        return 1;
    for (uint64_t i = 0; i < key_count; i++) {
        keys[i] = is_dense ? i : next(&seed);
        if (congee_insert(map, keys[i], i, NULL) < 0)
            return 1;
        for (int kind = SHARED; kind < KINDS; kind++)
            if (congee_shared_insert(first[kind], keys[i], i, NULL) < 0)
                return 1;
    }
    for (int i = 0; i < MOST; i++) {
        workers[i].number = i;
        for (int kind = SHARED; kind < KINDS; kind++)
            if (congee_shared_another(first[kind], &workers[i].shared[kind]))
                return 1;
    }
    for (int writes = 0; writes < 2; writes++)
        for (int threads = 1; threads <= MOST; threads *= 2) {
            double least[KINDS] = {1e18, 1e18, 1e18};
            uint64_t busy = 0, most[KINDS] = {0};
            for (int round = 0; round < KINDS * ROUNDS; round++) {
                int kind = round % KINDS;
                double time = run(workers, threads, kind, writes, &busy);
                least[kind] = time < least[kind] ? time : least[kind];
                most[kind] = busy > most[kind] ? busy : most[kind];
            }
            printf("C     %8" PRIu64 " %-6s  %-11s by %d: mutex %7.1f  shared %7.1f  in shards %7.1f  busy at most %.2f and %.2f of "
                   "1000\n",
                   key_count, is_dense ? "dense" : "random", writes ? "half writes" : "look-ups", threads, least[MUTEX],
                   least[SHARED], least[SHARDED], 1000.0 * (double)most[SHARED] / CALLS / threads,
                   1000.0 * (double)most[SHARDED] / CALLS / threads);
        }
    for (int kind = SHARED; kind < KINDS; kind++) {
        for (int i = 0; i < MOST; i++)
            congee_shared_free(workers[i].shared[kind]);
        congee_shared_free(first[kind]);
    }
    congee_free(map);
    return 0;
}

int main(int words, char **word) {
    static char *some[] = {"", "10000", "1000000"};
    if (words < 2) {
        words = 3;
        word = some;
    }
    for (int i = 1; i < words; i++) {
        key_count = strtoull(word[i], NULL, 10);
        keys = malloc(key_count * sizeof *keys);
        if (key_count == 0 || !keys || times(true) || times(false))
            return 1;
        free(keys);
    }
    return 0;
}

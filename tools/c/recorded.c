/* Threads call one map at random, each by a handle of its own, and write down what they called. After each round the history
 * has to be explained by one order (histories.h). Rounds go through sets of keys (history_maps.c): keys that share a leaf,
 * that part at each depth, and nodes at the border of each form, from 4 children to 256.
 *
 *     recorded MAP [ROUNDS] [THREADS] [CALLS]     so many rounds of each set of keys, and calls a thread in each
 *     recorded stand-in faults                    each fault of stand_in.h has to be found within 400 rounds
 *
 * MAP is live, locked, sharded, stand-in or all. */
#include "history_maps.h"
#include "pauses.h"
#include "stand_in.h"
#include <inttypes.h>
#include <pthread.h>
#include <sched.h>
#include <stdatomic.h>
#include <stdlib.h>
#include <string.h>

static uint64_t rounds = 4, threads = 4, calls = 1000;
static uint64_t beside, undecided; /* how many calls weren't alone, and how many searches were given up */
static _Atomic uint64_t waiting;

void pause_here(void) {
    sched_yield();
}

struct worker {
    pthread_t thread;
    struct caller caller;
};

static struct worker workers[MOST_THREADS];
static struct history history;

/* (begins with the others) */
static void *work(void *at) {
    struct worker *worker = at;
    waiting--;
    while (waiting > 0)
        sched_yield();
    for (uint64_t i = 0; i < calls && !worker->caller.wrong; i++)
        call_at_random(&worker->caller);
    return NULL;
}

/* One round. Returns whether its history is explained. */
static bool is_right(const struct map_kind *kind, const struct key_set *set, void *map, FILE *out) {
    begin_history(&history, kind, set, map);
    waiting = threads;
    for (uint64_t i = 0; i < threads; i++)
        if (pthread_create(&workers[i].thread, NULL, work, &workers[i]))
            return false;
    for (uint64_t i = 0; i < threads; i++)
        pthread_join(workers[i].thread, NULL);
    look_up_all(&workers[0].caller);
    for (uint64_t i = 0; i < threads; i++)
        if (workers[i].caller.wrong) {
            fprintf(out, "%s\n", workers[i].caller.wrong);
            print_calls(&history, UINT64_MAX, 24, out);
            return false;
        }
    enum verdict verdict = is_small(set) ? explain(&history, out) : explain_by_key(&history, out);
    undecided += verdict == UNDECIDED;
    return verdict != UNEXPLAINED;
}

/* How many calls of the round weren't alone: a call of another thread began or ended meanwhile. */
static uint64_t calls_beside(void) {
    uint64_t count = 0;
    for (uint64_t i = 0; i < threads; i++)
        for (size_t j = 0; j < history.records[i].count; j++)
            count += history.records[i].calls[j].end > history.records[i].calls[j].start + 1;
    return count;
}

/* Rounds with one set of keys, on one map. Returns how many were right. */
static uint64_t right_rounds(const struct map_kind *kind, size_t number, uint64_t most, FILE *out) {
    struct key_set set;
    void *map;
    uint64_t right = 0;
    make_key_set(number, &set);
    if (kind->make(UINT64_MAX, &map) || !fill_map(kind, &set, map))
        abort();
    for (uint64_t i = 0; i < threads; i++) {
        struct caller *caller = &workers[i].caller;
        *caller =
            (struct caller){.kind = kind, .set = &set, .record = &history.records[i], .id = i, .random = number << 8 | i};
        if (kind->another(map, &caller->map))
            abort();
    }
    for (; right < most && is_right(kind, &set, map, out); right++)
        beside += calls_beside();
    if (right < most)
        fprintf(out, "recorded: wrong: a %s map, keys: %s\n", kind->name, set.name);
    for (uint64_t i = 0; i < threads; i++)
        kind->free(workers[i].caller.map);
    kind->free(map);
    return right;
}

/* Whether the fault is found, by what is searched of this kind. The calls that show it aren't printed. */
static bool is_found(const struct map_kind *kind) {
    FILE *out = fopen("/dev/null", "w");
    if (!out)
        abort();
    for (uint64_t round = 0; round < 400; round++)
        if (right_rounds(kind, round % KEY_SETS, 1, out) == 0) {
            printf("%s, %s: found in round %" PRIu64 "\n", kind->name, stand_in_faults[stand_in_fault], round + 1);
            fclose(out);
            return true;
        }
    fclose(out);
    fprintf(stderr, "recorded: not found: %s, %s\n", kind->name, stand_in_faults[stand_in_fault]);
    return false;
}

static bool are_faults_found(void) {
    bool are = true;
    for (int fault = NO_FAULT + 1; fault < FAULTS; fault++) {
        stand_in_fault = fault;
        are = is_found(&stand_in_map) && are;
        are = (!is_fault_by_leaf(fault) || is_found(&stand_in_by_leaf)) && are;
    }
    stand_in_fault = NO_FAULT;
    return are;
}

static bool is_all_right(const struct map_kind *kind) {
    uint64_t busy = 0, all = 0;
    beside = undecided = 0;
    for (size_t number = 0; number < KEY_SETS; number++) {
        if (right_rounds(kind, number, rounds, stderr) < rounds)
            return false;
        for (uint64_t i = 0; i < threads; i++)
            busy += workers[i].caller.busy;
        all += rounds * threads * calls;
    }
    printf("%" PRIu64 " threads, a %s map: %" PRIu64 " histories of %" PRIu64 " calls are explained, %" PRIu64
           " beside others, %" PRIu64 " busy. %" PRIu64 " histories are too much to search\n",
           threads, kind->name, rounds * KEY_SETS - undecided, all, beside, busy, undecided);
    return true;
}

static const struct map_kind *const kinds[] = {&live_map, &locked_map, &sharded_map, &stand_in_map, &stand_in_by_leaf};
enum { KINDS = sizeof kinds / sizeof kinds[0] };

static bool is_meant(const struct map_kind *kind, const char *word) {
    return strcmp(word, kind->name) == 0 || strcmp(word, "all") == 0;
}

static bool are_known(const char *word) {
    bool are = false;
    for (size_t i = 0; i < KINDS; i++)
        are = are || is_meant(kinds[i], word);
    return are;
}

static bool are_all_right(const char *word) {
    bool are = true;
    for (size_t i = 0; i < KINDS; i++)
        are = are && (!is_meant(kinds[i], word) || is_all_right(kinds[i]));
    return are;
}

int main(int words, char **word) {
    bool is_known = words > 1 && are_known(word[1]);
    bool is_fault = words > 2 && strcmp(word[2], "faults") == 0;
    rounds = words > 2 && !is_fault ? strtoull(word[2], NULL, 10) : rounds;
    threads = words > 3 ? strtoull(word[3], NULL, 10) : threads;
    calls = words > 4 ? strtoull(word[4], NULL, 10) : calls;
    if (!is_known || rounds == 0 || threads == 0 || threads > MOST_THREADS || calls == 0) {
        fprintf(stderr, "usage: recorded live|locked|sharded|stand-in|all [ROUNDS|faults] [THREADS] [CALLS]\n");
        return 2;
    }
    history.threads = threads;
    for (uint64_t i = 0; i < threads; i++)
        if (!make_record(&history.records[i], calls + MOST_KEYS, (calls + MOST_KEYS) * MOST_KEYS))
            return 3;
    bool is_right = is_fault ? are_faults_found() : are_all_right(word[1]);
    for (uint64_t i = 0; i < threads; i++)
        free_record(&history.records[i]);
    return is_right ? 0 : 1;
}

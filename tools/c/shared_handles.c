/* Handles of a map that threads share, and how they move and end:
 *   - a handle goes round between threads by a lock, with calls at each
 *   - handles are made and freed while other threads call, and the map is freed with the last one, on any thread
 *   - a thread that is stopped between two calls keeps nobody, with the handle that it has
 *   - an atomic that is sequentially consistent hands a handle over, and what was stored before is seen
 *   - handles that meet, and notes that are learned, change no pair, and a note keeps the map
 *   - beside a long call others are busy: they write nothing, or they yield as this program defines it, and see what was there
 *     before it, or after */
#define _POSIX_C_SOURCE 200112L
#include <sched.h>
static _Thread_local unsigned long yields;
#define CONGEE_YIELD() (yields++, sched_yield())
#include "congee.h"
#include <inttypes.h>
#include <pthread.h>
#include <stdatomic.h>
#include <stdio.h>
#include <stdlib.h>
#include <time.h>

enum { THREADS = 4, ROUNDS = 2000, MAPS = 300, PAIRS = 50, MANY = 100000 };

static void need(bool holds, const char *what) {
    if (!holds) {
        fprintf(stderr, "shared_handles: wrong: %s\n", what);
        exit(1);
    }
}

static void run(pthread_t *thread, void *(*work)(void *), void *with) {
    need(pthread_create(thread, NULL, work, with) == 0, "a thread");
}

/* One handle that all threads take in turn. */
static pthread_mutex_t turn = PTHREAD_MUTEX_INITIALIZER;
static struct congee_shared *passed;

static void *take_turns(void *unused) {
    for (int i = 0; i < ROUNDS; i++) {
        pthread_mutex_lock(&turn);
        need(congee_shared_add(passed, 7, 1, NULL) >= 0, "a call by a handle that is passed on");
        pthread_mutex_unlock(&turn);
    }
    return unused;
}

static void pass_on(void) {
    pthread_t threads[THREADS];
    uint64_t value = 0;
    need(congee_shared_new(UINT64_MAX, &passed) == 0, "a map");
    for (int i = 0; i < THREADS; i++)
        run(&threads[i], take_turns, NULL);
    for (int i = 0; i < THREADS; i++)
        pthread_join(threads[i], NULL);
    need(congee_shared_get(passed, 7, &value) == 1 && value == THREADS * ROUNDS, "the calls of a handle that was passed on");
    congee_shared_free(passed);
}

/* Looks all pairs up, makes handles, and frees its own: none of the threads knows which is the last. */
static void *look_up(void *at) {
    struct congee_shared *map = at, *other;
    uint64_t value;
    for (uint64_t key = 0; key < PAIRS; key++) {
        need(congee_shared_get(map, key, &value) == 1 && value == 10 * key, "a pair of a map whose handles end");
        if (key % 16 == 0) {
            need(congee_shared_another(map, &other) == 0, "a handle beside others' calls");
            need(congee_shared_get(other, key, &value) == 1 && value == 10 * key, "a pair by a new handle");
            congee_shared_free(key % 32 ? other : map);
            map = key % 32 ? map : other;
        }
    }
    congee_shared_free(map);
    return NULL;
}

static void end_beside_others(void) {
    for (int round = 0; round < MAPS; round++) {
        struct congee_shared *map, *other;
        pthread_t threads[THREADS];
        need(congee_shared_new(UINT64_MAX, &map) == 0, "a map");
        for (uint64_t key = 0; key < PAIRS; key++)
            need(congee_shared_insert(map, key, 10 * key, NULL) == 0, "a pair");
        for (int i = 1; i < THREADS; i++) {
            need(congee_shared_another(map, &other) == 0, "a handle");
            run(&threads[i], look_up, other);
        }
        run(&threads[0], look_up, map);
        for (int i = 0; i < THREADS; i++)
            pthread_join(threads[i], NULL);
    }
}

/* Waits between two calls until it is let on. */
static atomic_bool is_stopped, goes_on;

static void *stop(void *at) {
    struct congee_shared *map = at;
    need(congee_shared_insert(map, 1, 1, NULL) == 0, "a call before the stop");
    atomic_store(&is_stopped, true);
    while (!atomic_load(&goes_on))
        nanosleep(&(struct timespec){0, 1000000}, NULL);
    need(congee_shared_remove(map, 1, NULL) == 1, "a call after the stop");
    congee_shared_free(map);
    return NULL;
}

static void stop_between_calls(void) {
    struct congee_shared *map, *other;
    pthread_t thread;
    need(congee_shared_new(UINT64_MAX, &map) == 0, "a map");
    need(congee_shared_another(map, &other) == 0, "a handle");
    run(&thread, stop, other);
    while (!atomic_load(&is_stopped))
        nanosleep(&(struct timespec){0, 1000000}, NULL);
    /* (nobody else calls, so not even a call that doesn't wait is busy) */
    for (uint64_t key = 2; key < 10000; key++)
        need(congee_shared_try_insert(map, key, key, NULL) == 0, "a call beside a thread that is stopped");
    atomic_store(&goes_on, true);
    pthread_join(thread, NULL);
    need(congee_shared_count(map) == 9998, "what both stored");
    congee_shared_free(map);
}

/* A handle goes over by an atomic. */
static _Atomic(struct congee_shared *) handed;

static void *take_over(void *unused) {
    struct congee_shared *map;
    uint64_t value;
    while (!(map = atomic_exchange(&handed, NULL)))
        sched_yield();
    for (uint64_t key = 0; key < PAIRS; key++)
        need(congee_shared_get(map, key, &value) == 1 && value == key, "what was stored before the handle went over");
    congee_shared_free(map);
    return unused;
}

static void hand_over(void) {
    for (int round = 0; round < MAPS; round++) {
        struct congee_shared *map;
        pthread_t thread;
        run(&thread, take_over, NULL);
        need(congee_shared_new(UINT64_MAX, &map) == 0, "a map");
        for (uint64_t key = 0; key < PAIRS; key++)
            need(congee_shared_insert(map, key, key, NULL) == 0, "a pair");
        atomic_store(&handed, map);
        pthread_join(thread, NULL);
    }
}

/* A long call: the removal of all pairs. */
static void *clear(void *at) {
    struct congee_shared *map = at;
    atomic_store(&goes_on, true);
    congee_shared_clear(map);
    congee_shared_free(map);
    return NULL;
}

/* Makes calls that don't wait until the long one is over. Returns how many were busy. */
static int call_beside(struct congee_shared *map) {
    for (int busy = 0;;) {
        uint64_t value = 99, count = 99;
        int code = congee_shared_try_get(map, 7, &value), other = congee_shared_try_count(map, &count);
        busy += (code == CONGEE_BUSY) + (other == CONGEE_BUSY);
        need(code == CONGEE_BUSY || code == 0 || code == 1, "what a look-up returns beside a long call");
        need(value == (code == 1 ? 70 : 99), "the place of a look-up that is busy");
        need(other == CONGEE_BUSY ? count == 99 : count == 0 || count == MANY, "a count beside a long call");
        if (other == 0 && count == 0)
            return busy;
    }
}

static void call_beside_a_long_call(void) {
    int busy = 0;
    for (int round = 0; round < 1000 && (busy == 0 || yields == 0); round++) {
        struct congee_shared *map, *other;
        pthread_t thread;
        need(congee_shared_new(UINT64_MAX, &map) == 0, "a map");
        need(congee_shared_another(map, &other) == 0, "a handle");
        for (uint64_t key = 0; key < MANY; key++)
            need(congee_shared_insert(map, key, 10 * key, NULL) == 0, "a pair");
        atomic_store(&goes_on, false);
        run(&thread, clear, other);
        while (!atomic_load(&goes_on))
            sched_yield();
        if (busy == 0) {
            busy = call_beside(map);
        } else {
            uint64_t count = congee_shared_count(map);
            need(count == 0 || count == MANY, "a count that waits for a long call");
        }
        pthread_join(thread, NULL);
        need(congee_shared_count(map) == 0, "a count after a long call");
        congee_shared_free(map);
    }
    need(busy > 0 && yields > 0, "a call beside a long one is busy");
}

/* Two handles meet, and one learns what another thread's handle noted, which has ended by then. A note keeps the map, and what
 * meets itself, or is freed as null, does nothing. */
static void *insert_and_note(void *at) {
    struct congee_shared *map = at;
    struct congee_shared_note *note;
    for (uint64_t i = 0; i < PAIRS; i++)
        need(congee_shared_insert(map, i << 8, i, NULL) == 0, "a pair before a note");
    need(congee_shared_note(map, &note) == 0, "a note");
    congee_shared_free(map);
    return note;
}

static void meet_and_learn(void) {
    struct congee_shared *map, *other;
    struct congee_pair page[PAIRS];
    uint64_t value = 0;
    for (int round = 0; round < MAPS; round++) {
        pthread_t thread;
        void *note;
        need(congee_shared_new(UINT64_MAX, &map) == 0 && congee_shared_another(map, &other) == 0, "a map");
        run(&thread, insert_and_note, other);
        pthread_join(thread, &note);
        congee_shared_learn(map, note);
        need(congee_shared_range(map, 0, UINT64_MAX, page, PAIRS) == PAIRS, "a page after a note was learned");
        need(congee_shared_another(map, &other) == 0 && congee_shared_remove(other, 0, NULL) == 1, "a removal by another handle");
        congee_shared_meet(map, other);
        congee_shared_meet(map, map);
        need(congee_shared_get(map, 0, &value) == 0 && congee_shared_count(map) == PAIRS - 1, "what a handle that was met removed");
        congee_shared_free(map);
        congee_shared_free(other);
        congee_shared_note_free(note);
    }
    congee_shared_note_free(NULL);
}

int main(void) {
    pass_on();
    end_beside_others();
    stop_between_calls();
    hand_over();
    meet_and_learn();
    call_beside_a_long_call();
    printf("%d threads, %d maps that ended beside look-ups\n", THREADS, MAPS);
    return 0;
}

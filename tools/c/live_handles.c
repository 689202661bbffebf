/* Handles of a map that is read without a lock, and how they move and end:
 *   - a handle goes round between threads by a lock, with calls at each
 *   - handles are made and freed while other threads call, and the map is freed with the last one, on any thread
 *   - an atomic that is sequentially consistent hands a handle over, and what was stored before is seen
 *   - handles that meet, and notes that are learned, change no pair, and a note keeps the map
 *   - handles that only look up leave nothing behind: a million of them in turn, and a hundred thousand at once
 *   - handles that insert leave their room for nodes to the next: a million in turn have one, and a hundred at once a
 *     hundred, however often they come again */
#define _POSIX_C_SOURCE 200809L
#include "congee.h"
#include <malloc.h>
#include <pthread.h>
#include <sched.h>
#include <stdatomic.h>
#include <stdio.h>
#include <stdlib.h>

enum { THREADS = 4, ROUNDS = 2000, MAPS = 300, PAIRS = 50, IN_TURN = 1000000, AT_ONCE = 100000, SLACK = 1 << 16,
       ROOMS = 100, ROOM = 600 << 10 };

static void need(bool holds, const char *what) {
    if (!holds) {
        fprintf(stderr, "live_handles: wrong: %s\n", what);
        exit(1);
    }
}

static void run(pthread_t *thread, void *(*work)(void *), void *with) {
    need(pthread_create(thread, NULL, work, with) == 0, "a thread");
}

/* A map with so many pairs, in leaves of their own. */
static struct congee_live *filled(void) {
    struct congee_live *map;
    need(congee_live_new(&map) == 0, "a map");
    for (uint64_t i = 0; i < PAIRS; i++)
        need(congee_live_insert(map, i << 8, 10 * i, NULL) == 0, "a pair");
    return map;
}

/* One handle that all threads take in turn. */
static pthread_mutex_t turn = PTHREAD_MUTEX_INITIALIZER;
static struct congee_live *passed;

static void *take_turns(void *unused) {
    for (int i = 0; i < ROUNDS; i++) {
        pthread_mutex_lock(&turn);
        need(congee_live_add(passed, 7, 1, NULL) >= 0, "a call by a handle that is passed on");
        pthread_mutex_unlock(&turn);
    }
    return unused;
}

static void pass_on(void) {
    pthread_t threads[THREADS];
    uint64_t value = 0;
    need(congee_live_new(&passed) == 0, "a map");
    for (int i = 0; i < THREADS; i++)
        run(&threads[i], take_turns, NULL);
    for (int i = 0; i < THREADS; i++)
        pthread_join(threads[i], NULL);
    need(congee_live_get(passed, 7, &value) == 1 && value == THREADS * ROUNDS, "the calls of a handle that was passed on");
    congee_live_free(passed);
}

/* Looks all pairs up, inserts some, makes handles, and frees its own: none of the threads knows which is the last. */
static void *look_up(void *at) {
    struct congee_live *map = at, *other;
    uint64_t value;
    for (uint64_t i = 0; i < PAIRS; i++) {
        need(congee_live_get(map, i << 8, &value) == 1 && value == 10 * i, "a pair of a map whose handles end");
        if (i % 16 == 0) {
            need(congee_live_another(map, &other) == 0, "a handle beside others' calls");
            need(congee_live_get(other, i << 8, &value) == 1 && value == 10 * i, "a pair by a new handle");
            need(congee_live_insert(other, (i << 8) + 1, i, NULL) >= 0, "an insertion by a new handle");
            congee_live_free(i % 32 ? other : map);
            map = i % 32 ? map : other;
        }
    }
    congee_live_free(map);
    return NULL;
}

static void end_beside_others(void) {
    for (int round = 0; round < MAPS; round++) {
        struct congee_live *map = filled(), *other;
        pthread_t threads[THREADS];
        for (int i = 1; i < THREADS; i++) {
            need(congee_live_another(map, &other) == 0, "a handle");
            run(&threads[i], look_up, other);
        }
        run(&threads[0], look_up, map);
        for (int i = 0; i < THREADS; i++)
            pthread_join(threads[i], NULL);
    }
}

/* A handle goes over by an atomic. */
static _Atomic(struct congee_live *) handed;

static void *take_over(void *unused) {
    struct congee_live *map;
    uint64_t value;
    while (!(map = atomic_exchange(&handed, NULL)))
        sched_yield();
    for (uint64_t i = 0; i < PAIRS; i++)
        need(congee_live_try_get(map, i << 8, &value) == 1 && value == 10 * i, "what was stored before the handle went over");
    congee_live_free(map);
    return unused;
}

static void hand_over(void) {
    for (int round = 0; round < MAPS; round++) {
        pthread_t thread;
        run(&thread, take_over, NULL);
        atomic_store(&handed, filled());
        pthread_join(thread, NULL);
    }
}

/* The bytes that malloc has lent, by mmap too. (Under a sanitizer it isn't asked, and 0 each time.) */
static size_t lent(void) {
    struct mallinfo2 now = mallinfo2();
    return now.uordblks + now.hblkhd;
}

static void leave_nothing_behind(void) {
    static struct congee_live *others[AT_ONCE];
    struct congee_live *map = filled();
    uint64_t value;
    size_t before = lent();
    for (uint64_t i = 0; i < IN_TURN; i++) {
        struct congee_live *other;
        need(congee_live_another(map, &other) == 0, "one of a million handles");
        need(congee_live_try_get(other, i % PAIRS << 8, &value) == 1 && value == 10 * (i % PAIRS), "a pair by it");
        congee_live_free(other);
    }
    need(lent() < before + SLACK, "what a million handles in turn leave behind");
    for (uint64_t i = 0; i < AT_ONCE; i++) {
        /* (each is made by one that was made before) */
        need(congee_live_another(i == 0 ? map : others[i / 2], &others[i]) == 0, "one of many handles");
        need(congee_live_try_get(others[i], i % PAIRS << 8, &value) == 1 && value == 10 * (i % PAIRS), "a pair by it");
    }
    congee_live_free(map);
    for (uint64_t i = 0; i < AT_ONCE; i++) {
        uint64_t at = i * 7919 % AT_ONCE;
        need(congee_live_try_get(others[at], 0, &value) == 1 && value == 0, "a pair beside handles that end");
        if (i + 1 < AT_ONCE)
            congee_live_free(others[at]);
        else
            map = others[at];
    }
    need(lent() < before + SLACK, "what many handles at once leave behind");
    congee_live_free(map);
}

/* So many handles at once, each of which inserts. */
static void insert_at_once(struct congee_live *map) {
    struct congee_live *others[ROOMS];
    for (uint64_t i = 0; i < ROOMS; i++) {
        need(congee_live_another(map, &others[i]) == 0, "one of many handles that insert");
        need(congee_live_insert(others[i], i << 8, i, NULL) >= 0, "an insertion by it");
    }
    for (uint64_t i = 0; i < ROOMS; i++)
        congee_live_free(others[i]);
}

/* Handles that come and go on their own. */
static void *insert_in_turn(void *at) {
    struct congee_live *map = at, *other;
    for (uint64_t i = 0; i < IN_TURN / 10; i++) {
        need(congee_live_another(map, &other) == 0, "one of many handles beside others");
        need(congee_live_insert(other, i % PAIRS << 8, i, NULL) >= 0, "an insertion by it");
        congee_live_free(other);
    }
    congee_live_free(map);
    return NULL;
}

static void leave_their_room(void) {
    struct congee_live *map = filled(), *other;
    size_t before = lent();
    for (uint64_t i = 0; i < IN_TURN; i++) {
        need(congee_live_another(map, &other) == 0, "one of a million handles that insert");
        need(congee_live_insert(other, i % PAIRS << 8, i, NULL) == 1, "an insertion by it");
        congee_live_free(other);
    }
    need(lent() < before + ROOM, "what a million handles that insert leave behind");
    insert_at_once(map);
    before = lent();
    for (int round = 0; round < ROOMS; round++)
        insert_at_once(map);
    need(lent() < before + SLACK, "what handles leave behind that come again");
    congee_live_free(map);

    pthread_t threads[THREADS];
    map = filled();
    before = lent();
    for (int i = 0; i < THREADS; i++) {
        need(congee_live_another(map, &other) == 0, "a handle");
        run(&threads[i], insert_in_turn, other);
    }
    for (int i = 0; i < THREADS; i++)
        pthread_join(threads[i], NULL);
    /* (one that finds the others at the list of rooms now and then goes without) */
    need(lent() < before + (size_t)ROOMS * ROOM, "what handles of several threads leave behind");
    congee_live_free(map);
}

/* Two handles meet, and one learns what another thread's handle noted, which has ended by then. A note keeps the map, and what
 * meets itself, or is freed as null, does nothing. */
static void *insert_and_note(void *at) {
    struct congee_live *map = at;
    struct congee_live_note *note;
    for (uint64_t i = 0; i < PAIRS; i++)
        need(congee_live_insert(map, i << 8, i, NULL) == 0, "a pair before a note");
    need(congee_live_note(map, &note) == 0, "a note");
    congee_live_free(map);
    return note;
}

static void meet_and_learn(void) {
    struct congee_live *map, *other;
    struct congee_pair page[PAIRS];
    uint64_t value = 0;
    for (int round = 0; round < MAPS; round++) {
        pthread_t thread;
        void *note;
        need(congee_live_new(&map) == 0 && congee_live_another(map, &other) == 0, "a map");
        run(&thread, insert_and_note, other);
        pthread_join(thread, &note);
        congee_live_learn(map, note);
        need(congee_live_range(map, 0, UINT64_MAX, page, PAIRS) == PAIRS, "a page after a note was learned");
        need(congee_live_another(map, &other) == 0 && congee_live_remove(other, 0, NULL) == 1, "a removal by another handle");
        congee_live_meet(map, other);
        congee_live_meet(map, map);
        need(congee_live_get(map, 0, &value) == 0 && congee_live_count(map) == PAIRS - 1, "what a handle that was met removed");
        congee_live_free(map);
        congee_live_free(other);
        congee_live_note_free(note);
    }
    congee_live_note_free(NULL);
}

int main(void) {
    pass_on();
    end_beside_others();
    hand_over();
    meet_and_learn();
    leave_nothing_behind();
    leave_their_room();
    printf("%d threads, %d maps that ended beside look-ups, %d handles in turn and %d at once\n", THREADS, MAPS, IN_TURN, AT_ONCE);
    return 0;
}

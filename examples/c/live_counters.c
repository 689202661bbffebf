/* Four threads count hits of pages in one map, whose look-ups take no lock. A fifth reads the counters meanwhile, and sees none
 * fall. No hit is lost.
 *
 *     cc -Iinclude examples/c/live_counters.c out/c-library/libcongee.a -pthread -o live_counters */
#include "congee.h"
#include <inttypes.h>
#include <pthread.h>
#include <stdio.h>

enum { THREADS = 4, PAGES = 1000, HITS = 50000 };

/* What a thread has: a handle of its own, and whether it found what it had to. */
struct task {
    struct congee_live *hits; /* from page to counter */
    uint64_t state;
    bool is_done;
};

static uint64_t page_of(uint64_t i) {
    return i * 0x10000;
}

static void *count(void *at) {
    struct task *task = at;
    for (int i = 0; i < HITS; i++) {
        task->state = task->state * 6364136223846793005u + 1442695040888963407u;
        uint64_t page = page_of((task->state >> 33) % PAGES), hits;
        if (!congee_live_get(task->hits, page, &hits))
            return NULL;
        /* Another thread may count in between: then its counter is the one to raise. */
        while (congee_live_compare_exchange(task->hits, page, hits, hits + 1, &hits) == 2)
            ;
    }
    task->is_done = true;
    return NULL;
}

static void *watch(void *at) {
    static uint64_t last[PAGES];
    struct task *task = at;
    for (int turn = 0; turn < 100; turn++)
        for (uint64_t i = 0; i < PAGES; i++) {
            uint64_t hits;
            if (!congee_live_get(task->hits, page_of(i), &hits) || hits < last[i])
                return NULL;
            last[i] = hits;
        }
    task->is_done = true;
    return NULL;
}

int main(void) {
    struct task tasks[THREADS + 1] = {{NULL, 0, false}};
    pthread_t threads[THREADS + 1];
    struct congee_live *hits;
    uint64_t all = 0, counter;
    bool is_done = true;
    if (congee_live_new(&hits))
        return 1;
    for (uint64_t i = 0; i < PAGES; i++)
        if (congee_live_insert(hits, page_of(i), 0, NULL))
            return 1;
    for (int i = 0; i <= THREADS; i++) {
        tasks[i].state = i + 1;
        if (congee_live_another(hits, &tasks[i].hits) ||
            pthread_create(&threads[i], NULL, i < THREADS ? count : watch, &tasks[i]))
            return 1;
    }
    for (int i = 0; i <= THREADS; i++) {
        pthread_join(threads[i], NULL);
        is_done = is_done && tasks[i].is_done;
        congee_live_free(tasks[i].hits);
    }
    for (uint64_t i = 0; i < PAGES; i++)
        if (congee_live_get(hits, page_of(i), &counter))
            all += counter;
    congee_live_free(hits);
    printf("%" PRIu64 " hits of %d pages%s\n", all, PAGES, is_done ? "" : ", and a counter was lost or fell");
    return !is_done || all != (uint64_t)THREADS * HITS;
}

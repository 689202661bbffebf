/* The page table of shared_page_table.c, which threads now read without a lock. The free frames stay in a map under a lock, where
 * a pop finds a frame whenever one is free. What is mapped is counted by a range, while nobody writes.
 *
 *     cc -Iinclude examples/c/live_page_table.c out/c-library/libcongee.a -pthread -o live_page_table */
#include "congee.h"
#include <inttypes.h>
#include <pthread.h>
#include <stdio.h>

enum { THREADS = 4, PAGES = 2000, FRAMES = 2048, TOUCHES = 40000, BATCH = 16 };

/* What a thread has: a handle of each map, and what it counts. */
struct task {
    struct congee_live *table;    /* from page to frame */
    struct congee_shared *frames; /* those that are free */
    uint64_t state;
    uint64_t unmapped;
    bool is_done;
};

/* Returns a frame to those that are free. Whether there was memory for that. */
static bool give_back(struct task *task, uint64_t frame) {
    return congee_shared_insert(task->frames, frame, 0, NULL) != CONGEE_OOM;
}

/* Touches a page, and writes its frame. Whether there was memory and a frame for it. */
static bool touch(struct task *task, uint64_t page, uint64_t *frame) {
    struct congee_pair spare;
    if (congee_live_get(task->table, page, frame))
        return true;
    if (!congee_shared_pop_first(task->frames, &spare))
        return false;
    int code = congee_live_get_or_insert(task->table, page, spare.key, frame);
    if (code == 0) {
        *frame = spare.key;
        return true;
    }
    /* Another thread came first, or there is no memory. */
    return give_back(task, spare.key) && code == 1;
}

/* Unmaps the pages from one to another, as all threads do at once, and counts those that this one unmapped. The pairs of a range
 * aren't of one moment. So a page counts where its frame is still the one that was read. */
static bool unmap(struct task *task, uint64_t first, uint64_t last) {
    struct congee_pair mapped[BATCH] = {{0, 0}};
    size_t n;
    while ((n = congee_live_range_inclusive(task->table, first, last, mapped, BATCH)) > 0)
        for (size_t i = 0; i < n; i++)
            if (congee_live_compare_remove(task->table, mapped[i].key, mapped[i].value, NULL) == 1) {
                task->unmapped++;
                if (!give_back(task, mapped[i].value))
                    return false;
            }
    return true;
}

/* How many pages are mapped. Exact, as nobody maps or unmaps meanwhile. */
static uint64_t count_mapped(struct congee_live *table) {
    struct congee_pair mapped[BATCH] = {{0, 0}};
    uint64_t count = 0, from = 0;
    size_t n;
    while ((n = congee_live_range(table, from, UINT64_MAX, mapped, BATCH)) > 0) {
        count += n;
        from = mapped[n - 1].key + 1;
    }
    return count;
}

static void *work(void *at) {
    struct task *task = at;
    uint64_t frame, again;
    for (int i = 0; i < TOUCHES; i++) {
        task->state = task->state * 6364136223846793005u + 1442695040888963407u;
        uint64_t page = 0x400 + (task->state >> 33) % PAGES;
        if (!touch(task, page, &frame) || !touch(task, page, &again) || frame != again)
            return NULL;
    }
    task->is_done = true;
    return NULL;
}

static void *unmap_some(void *at) {
    struct task *task = at;
    task->is_done = unmap(task, 0x400, 0x400 + 499);
    return NULL;
}

/* Whether all threads did their work. */
static bool run(struct task *tasks, void *(*do_work)(void *)) {
    pthread_t threads[THREADS];
    bool are_done = true;
    for (int i = 0; i < THREADS; i++) {
        tasks[i].is_done = false;
        if (pthread_create(&threads[i], NULL, do_work, &tasks[i]))
            return false;
    }
    for (int i = 0; i < THREADS; i++) {
        pthread_join(threads[i], NULL);
        are_done = are_done && tasks[i].is_done;
    }
    return are_done;
}

int main(void) {
    struct task tasks[THREADS] = {{NULL, NULL, 0, 0, false}};
    if (congee_live_new(&tasks[0].table) || congee_shared_new(UINT64_MAX, &tasks[0].frames))
        return 1;
    for (uint64_t frame = 0; frame < FRAMES; frame++)
        if (!give_back(&tasks[0], frame))
            return 1;
    for (int i = 1; i < THREADS; i++) {
        tasks[i].state = (uint64_t)i;
        if (congee_live_another(tasks[0].table, &tasks[i].table) ||
            congee_shared_another(tasks[0].frames, &tasks[i].frames))
            return 1;
    }
    if (!run(tasks, work))
        return 1;
    printf("%" PRIu64 " pages are mapped, %" PRIu64 " frames are free\n", count_mapped(tasks[0].table),
           congee_shared_count(tasks[0].frames));
    if (!run(tasks, unmap_some))
        return 1;
    uint64_t unmapped = 0;
    for (int i = 0; i < THREADS; i++)
        unmapped += tasks[i].unmapped;
    printf("%" PRIu64 " pages are unmapped, %" PRIu64 " frames are free\n", unmapped, congee_shared_count(tasks[0].frames));
    for (int i = 0; i < THREADS; i++) {
        congee_live_free(tasks[i].table);
        congee_shared_free(tasks[i].frames);
    }
    return 0;
}

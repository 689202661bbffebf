/* Four threads look numbers up in one table that was filled before, at the same time and with no lock.
 *
 *     cc -Iinclude examples/c/readers.c out/c-library/libcongee.a -pthread -o readers */
#include "congee.h"
#include <inttypes.h>
#include <pthread.h>
#include <stdio.h>

enum { THREADS = 4, SQUARES = 10000 };

struct task {
    struct congee_frozen *reader;
    uint64_t first;
    uint64_t sum;
};

/* Adds up the roots of the squares from the thread's first number on, as many as its share has. */
static void *add_roots(void *at) {
    struct task *task = at;
    uint64_t root;
    for (uint64_t i = task->first; i < task->first + SQUARES / THREADS; i++)
        if (congee_frozen_get(task->reader, i * i, &root))
            task->sum += root;
    congee_frozen_free(task->reader);
    return NULL;
}

int main(void) {
    struct congee *roots;
    struct congee_frozen *frozen;
    struct task tasks[THREADS];
    pthread_t threads[THREADS];
    if (congee_new(&roots) == CONGEE_OOM)
        return 1;
    for (uint64_t i = 0; i < SQUARES; i++)
        if (congee_insert(roots, i * i, i, NULL) == CONGEE_OOM)
            return 1;
    if (congee_freeze(&roots, &frozen) == CONGEE_OOM)
        return 1;
    for (int i = 0; i < THREADS; i++) {
        tasks[i] = (struct task){NULL, (uint64_t)i * (SQUARES / THREADS), 0};
        if (congee_frozen_another(frozen, &tasks[i].reader) == CONGEE_OOM)
            return 1;
    }
    for (int i = 0; i < THREADS; i++)
        if (pthread_create(&threads[i], NULL, add_roots, &tasks[i]))
            return 1;
    uint64_t sum = 0;
    for (int i = 0; i < THREADS; i++) {
        pthread_join(threads[i], NULL);
        sum += tasks[i].sum;
    }
    printf("%d threads found roots that sum up to %" PRIu64 "\n", THREADS, sum);
    /* Each thread has freed its reader, so this is the last one. */
    if (congee_thaw(&frozen, &roots))
        printf("the table of %" PRIu64 " squares may change again\n", congee_count(roots));
    congee_free(roots);
    congee_frozen_free(frozen);
    return 0;
}

/* Four threads count words' numbers in one map, under a mutex of the program's own.
 *
 *     cc -Iinclude examples/c/mutex.c out/c-library/libcongee.a -pthread -o mutex */
#include "congee.h"
#include <inttypes.h>
#include <pthread.h>
#include <stdio.h>

enum { THREADS = 4, EACH = 10000, WORDS = 100 };

static pthread_mutex_t lock = PTHREAD_MUTEX_INITIALIZER;
static struct congee *counts;

/* Returns null where there was memory for all. */
static void *count_words(void *at) {
    for (uint64_t i = 0; i < EACH; i++) {
        pthread_mutex_lock(&lock);
        int code = congee_add(counts, i % WORDS, 1, NULL);
        pthread_mutex_unlock(&lock);
        if (code == CONGEE_OOM)
            return at;
    }
    return NULL;
}

int main(void) {
    pthread_t threads[THREADS];
    void *failed;
    if (congee_new(&counts) == CONGEE_OOM)
        return 1;
    for (int i = 0; i < THREADS; i++)
        if (pthread_create(&threads[i], NULL, count_words, counts))
            return 1;
    for (int i = 0; i < THREADS; i++)
        if (pthread_join(threads[i], &failed) || failed)
            return 1;
    /* The other threads are joined, so no lock is needed any more. */
    uint64_t of_the_last = 0;
    congee_get(counts, WORDS - 1, &of_the_last);
    printf("%" PRIu64 " words, the last of them %" PRIu64 " times\n", congee_count(counts), of_the_last);
    congee_free(counts);
    return 0;
}

/* A cache of answers that threads share, within a limit of memory. Where that is reached, the answers to the least numbers go.
 *
 *     cc -Iinclude examples/c/shared_cache.c out/c-library/libcongee.a -pthread -o shared_cache */
#include "congee.h"
#include <inttypes.h>
#include <pthread.h>
#include <stdio.h>

enum { THREADS = 4, QUESTIONS = 20000, NUMBERS = 5000, LIMIT = 20000 };

struct task {
    struct congee_shared *cache;
    uint64_t state;
    uint64_t sum;
};

/* The steps from a number down to 1, where an even one is halved, and an odd one is tripled and raised by 1. */
static uint64_t count_steps(uint64_t number) {
    uint64_t steps = 0;
    for (; number > 1; steps++)
        number = number % 2 ? 3 * number + 1 : number / 2;
    return steps;
}

/* The same, out of the cache where it is there. */
static uint64_t steps_of(struct congee_shared *cache, uint64_t number) {
    uint64_t steps;
    if (congee_shared_get(cache, number, &steps))
        return steps;
    steps = count_steps(number);
    while (congee_shared_insert(cache, number, steps, NULL) == CONGEE_OOM)
        if (!congee_shared_pop_first(cache, NULL))
            break;
    return steps;
}

static void *ask(void *at) {
    struct task *task = at;
    for (int i = 0; i < QUESTIONS; i++) {
        task->state = task->state * 6364136223846793005u + 1442695040888963407u;
        task->sum += steps_of(task->cache, 1 + (task->state >> 33) % NUMBERS);
    }
    return NULL;
}

int main(void) {
    struct task tasks[THREADS] = {{NULL, 0, 0}};
    pthread_t threads[THREADS];
    uint64_t sum = 0;
    if (congee_shared_new(LIMIT, &tasks[0].cache) == CONGEE_OOM)
        return 1;
    for (int i = 1; i < THREADS; i++) {
        tasks[i].state = (uint64_t)i;
        if (congee_shared_another(tasks[0].cache, &tasks[i].cache) == CONGEE_OOM)
            return 1;
    }
    for (int i = 0; i < THREADS; i++)
        if (pthread_create(&threads[i], NULL, ask, &tasks[i]))
            return 1;
    for (int i = 0; i < THREADS; i++) {
        pthread_join(threads[i], NULL);
        sum += tasks[i].sum;
    }
    printf("%d threads got %d answers, %" PRIu64 " steps in all\n", THREADS, THREADS * QUESTIONS, sum);
    bool is_within = congee_shared_charged(tasks[0].cache) <= LIMIT;
    printf("the cache is %s its %d bytes\n", is_within ? "within" : "past", LIMIT);
    for (int i = 0; i < THREADS; i++)
        congee_shared_free(tasks[i].cache);
    return 0;
}

/* A cache of objects that threads share. Who finds an object reads it by a loan, which counts no reference, or keeps one. Now and
 * then a thread removes an object that others may be reading. It is freed once nobody has it.
 *
 *     cc -Iinclude examples/c/object_cache.c out/c-library/libcongee.a -pthread -o object_cache */
#include "congee.h"
#include <inttypes.h>
#include <pthread.h>
#include <stdatomic.h>
#include <stdio.h>
#include <stdlib.h>

enum { THREADS = 4, QUESTIONS = 20000, NUMBERS = 2000 };

/* What the cache has for a number, with a count of references. */
struct answer {
    atomic_long references;
    uint64_t number, steps;
};

static atomic_long made, freed;

struct task {
    struct congee_live_owners *cache;
    uint64_t state;
    uint64_t sum;
    struct answer *longest; /* a reference of the task's own */
};

static void answer_retain(void *owner, void *with) {
    (void)with;
    atomic_fetch_add(&((struct answer *)owner)->references, 1);
}

static void answer_release(void *owner, void *with) {
    struct answer *answer = owner;
    (void)with;
    if (atomic_fetch_sub(&answer->references, 1) == 1) {
        free(answer);
        atomic_fetch_add(&freed, 1);
    }
}

/* The steps from a number down to 1, where an even one is halved, and an odd one is tripled and raised by 1. */
static struct answer *answer_new(uint64_t number) {
    struct answer *answer = malloc(sizeof *answer);
    if (!answer)
        exit(1);
    atomic_init(&answer->references, 1);
    answer->number = number;
    answer->steps = 0;
    for (uint64_t at = number; at > 1; answer->steps++)
        at = at % 2 ? 3 * at + 1 : at / 2;
    atomic_fetch_add(&made, 1);
    return answer;
}

/* The steps of a number, out of the cache where it is there. */
static uint64_t steps_of(struct congee_live_owners *cache, uint64_t number) {
    void *found = NULL;
    if (congee_live_owners_borrow(cache, number, &found, NULL) == CONGEE_PRESENT)
        return ((struct answer *)found)->steps;
    struct answer *answer = answer_new(number);
    uint64_t steps = answer->steps;
    if (congee_live_owners_get_or_insert(cache, number, answer, NULL) != CONGEE_ABSENT)
        answer_release(answer, NULL);
    return steps;
}

static bool is_longer(const struct answer *a, const struct answer *b) {
    return !b || a->steps > b->steps || (a->steps == b->steps && a->number < b->number);
}

/* Keeps a reference to the number's answer, if that is the longest so far. */
static void keep_longest(struct task *task, uint64_t number) {
    void *found = NULL;
    if (congee_live_owners_get(task->cache, number, &found) != CONGEE_PRESENT)
        found = answer_new(number);
    if (is_longer(found, task->longest)) {
        if (task->longest)
            answer_release(task->longest, NULL);
        task->longest = found;
    } else {
        answer_release(found, NULL);
    }
}

static void *ask(void *at) {
    struct task *task = at;
    for (int i = 0; i < QUESTIONS; i++) {
        task->state = task->state * 6364136223846793005u + 1442695040888963407u;
        uint64_t number = 1 + (task->state >> 33) % NUMBERS;
        task->sum += steps_of(task->cache, number);
        keep_longest(task, number);
        if (i % 16 == 0)
            congee_live_owners_remove(task->cache, number, NULL);
    }
    congee_live_owners_free(task->cache);
    return NULL;
}

int main(void) {
    struct task tasks[THREADS] = {{NULL, 0, 0, NULL}};
    pthread_t threads[THREADS];
    struct answer *longest = NULL;
    uint64_t sum = 0;
    if (congee_live_owners_new(&tasks[0].cache, answer_retain, answer_release, NULL) == CONGEE_OOM)
        return 1;
    for (int i = 1; i < THREADS; i++) {
        tasks[i].state = (uint64_t)i;
        if (congee_live_owners_another(tasks[0].cache, &tasks[i].cache))
            return 1;
    }
    for (int i = 0; i < THREADS; i++)
        if (pthread_create(&threads[i], NULL, ask, &tasks[i]))
            return 1;
    for (int i = 0; i < THREADS; i++) {
        pthread_join(threads[i], NULL);
        sum += tasks[i].sum;
        if (is_longer(tasks[i].longest, longest))
            longest = tasks[i].longest;
    }
    printf("%d threads got %d answers, %" PRIu64 " steps in all\n", THREADS, THREADS * QUESTIONS, sum);
    /* (the cache has ended with its last handle, and references outlive it) */
    printf("the longest is of %" PRIu64 ", with %" PRIu64 " steps\n", longest->number, longest->steps);
    for (int i = 0; i < THREADS; i++)
        answer_release(tasks[i].longest, NULL);
    printf("%s object is freed\n", made == freed ? "each" : "not each");
    return 0;
}

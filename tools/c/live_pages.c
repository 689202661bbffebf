/* Threads read pages of a live map beside two that write. Sparse keys stay. Between them the writers store and remove others,
 * so that nodes beside and above the readers grow, part and are taken out. Then
 *   - each page ascends, and has each key that stays from its first one on, with its value, up to where it ends
 *   - a page that isn't full has all of them
 *   - what else it has is a pair that a writer stores
 * At the end the keys that stay are there, and no others.
 *
 *     live_pages [PAGES] [READERS]     so many pages a reader */
#include "congee.h"
#include <inttypes.h>
#include <pthread.h>
#include <stdatomic.h>
#include <stdio.h>
#include <stdlib.h>

enum { STAY = 20000, MINE = 256, WRITERS = 2, MOST = 16, PAGE = 300, OTHER = 7 };

static uint64_t stay[STAY]; /* even keys, ascending. Writers' keys are odd */
static uint64_t pages = 1500, readers = 4;
static atomic_bool is_read;

struct worker {
    pthread_t thread;
    struct congee_live *map;
    uint64_t seed;
    const char *wrong;
};

static uint64_t next(uint64_t *state) { /* splitmix64 */
    uint64_t z = (*state += 0x9e3779b97f4a7c15u);
    z = (z ^ (z >> 30)) * 0xbf58476d1ce4e5b9u;
    z = (z ^ (z >> 27)) * 0x94d049bb133111ebu;
    return z ^ (z >> 31);
}

static int ascending(const void *a, const void *b) {
    uint64_t one = *(const uint64_t *)a, other = *(const uint64_t *)b;
    return (one > other) - (one < other);
}

/* An odd key that begins like one that stays, with another byte at a height from 1 to 7. */
static uint64_t key_beside(uint64_t *seed) {
    uint64_t key = stay[next(seed) % STAY], height = next(seed) % 7;
    return (key ^ (next(seed) % 256) << (8 * height)) | 1;
}

/* Stores keys, and removes them again, until all pages are read. */
static void *writes(void *at) {
    struct worker *worker = at;
    uint64_t mine[MINE];
    while (!is_read) {
        for (int i = 0; i < MINE; i++) {
            mine[i] = key_beside(&worker->seed);
            if (congee_live_insert(worker->map, mine[i], OTHER, NULL) < 0)
                worker->wrong = "an insertion that is refused";
        }
        for (int i = 0; i < MINE; i++)
            congee_live_remove(worker->map, mine[i], NULL);
    }
    return NULL;
}

/* What is wrong with a page of n pairs that begins at a key that stays. */
static const char *wrong_with(const struct congee_pair *page, size_t n, size_t first) {
    size_t at = first;
    for (size_t i = 0; i < n; i++) {
        if (page[i].key < stay[first] || (i > 0 && page[i].key <= page[i - 1].key))
            return "a page that doesn't ascend";
        if (at < STAY && page[i].key > stay[at])
            return "a page without a key that stays";
        if (page[i].key % 2 ? page[i].value != OTHER : at == STAY || page[i].key != stay[at] || page[i].value != page[i].key)
            return "a pair that nobody stores";
        at += page[i].key % 2 == 0;
    }
    return n < PAGE && at < STAY ? "a page that ends before it is full" : NULL;
}

static void *reads(void *at) {
    struct worker *worker = at;
    struct congee_pair page[PAGE];
    for (uint64_t i = 0; i < pages && !worker->wrong; i++) {
        size_t first = next(&worker->seed) % STAY;
        size_t n = congee_live_range_inclusive(worker->map, stay[first], UINT64_MAX, page, PAGE);
        worker->wrong = wrong_with(page, n, first);
    }
    return NULL;
}

/* Stores keys that are far from one another, and sorts them. */
static bool stores_all(struct congee_live *map) {
    uint64_t seed = 1;
    for (int i = 0; i < STAY; i++) {
        stay[i] = next(&seed) & ~UINT64_C(1);
        if (congee_live_insert(map, stay[i], stay[i], NULL) != 0)
            return false;
    }
    qsort(stay, STAY, sizeof *stay, ascending);
    return true;
}

static bool runs(struct worker *workers, struct congee_live *first) {
    uint64_t all = WRITERS + readers;
    for (uint64_t i = 0; i < all; i++) {
        workers[i].seed = i + 2;
        if (congee_live_another(first, &workers[i].map) ||
            pthread_create(&workers[i].thread, NULL, i < WRITERS ? writes : reads, &workers[i]))
            return false;
    }
    for (uint64_t i = WRITERS; i < all; i++)
        pthread_join(workers[i].thread, NULL);
    is_read = true;
    for (uint64_t i = 0; i < WRITERS; i++)
        pthread_join(workers[i].thread, NULL);
    for (uint64_t i = 0; i < all; i++) {
        congee_live_free(workers[i].map);
        if (workers[i].wrong) {
            fprintf(stderr, "live_pages: wrong: %s\n", workers[i].wrong);
            return false;
        }
    }
    return true;
}

int main(int words, char **word) {
    static struct worker workers[WRITERS + MOST];
    struct congee_live *first;
    pages = words > 1 ? strtoull(word[1], NULL, 10) : pages;
    readers = words > 2 ? strtoull(word[2], NULL, 10) : readers;
    if (readers == 0 || readers > MOST || congee_live_new(&first))
        return 1;
    if (!stores_all(first))
        return 2;
    if (!runs(workers, first))
        return 3;
    if (congee_live_count(first) != STAY) {
        fprintf(stderr, "live_pages: wrong: keys that are left, or lost\n");
        return 4;
    }
    congee_live_free(first);
    printf("%" PRIu64 " readers of %" PRIu64 " pages beside %d writers\n", readers, pages, WRITERS);
    return 0;
}

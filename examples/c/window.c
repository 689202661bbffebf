/* The last requests that a server has seen: a window of keys that moves on, with a count of requests for each sender.
 *
 *     cc -Iinclude examples/c/window.c out/c-library/libcongee.a -o window */
#include "congee.h"
#include <inttypes.h>
#include <stdio.h>

enum { WINDOW = 100, REQUESTS = 100000, SENDERS = 7, PAGE = 4 };

/* Takes a request out of its sender's count, and the sender out with its last one. */
static void leave(struct congee *counts, uint64_t sender) {
    congee_add(counts, sender, (uint64_t)0 - 1, NULL);
    congee_compare_remove(counts, sender, 0, NULL);
}

/* Enters a request under its number, and takes those out that are WINDOW older. Where memory is missing, nothing changes. */
static bool enter(struct congee *requests, struct congee *counts, uint64_t number, uint64_t sender) {
    uint64_t old;
    if (congee_add(counts, sender, 1, NULL) == CONGEE_OOM)
        return false;
    if (congee_insert(requests, number, sender, NULL) == CONGEE_OOM) {
        leave(counts, sender);
        return false;
    }
    if (number >= WINDOW && congee_remove(requests, number - WINDOW, &old))
        leave(counts, old);
    return true;
}

static void show(struct congee *requests, struct congee *counts) {
    struct congee_pair page[PAGE] = {{0, 0}};
    size_t n = congee_range(requests, 0, UINT64_MAX, page, PAGE);
    printf("%" PRIu64 " requests, the oldest", congee_count(requests));
    for (size_t i = 0; i < n; i++)
        printf(" %" PRIu64 " from %" PRIu64, page[i].key, page[i].value);
    printf("\n");
    uint64_t start = 0;
    while ((n = congee_range(counts, start, UINT64_MAX, page, PAGE)) > 0) {
        for (size_t i = 0; i < n; i++)
            printf("sender %" PRIu64 ": %" PRIu64 "\n", page[i].key, page[i].value);
        start = page[n - 1].key + 1;
    }
}

int main(void) {
    struct congee *requests, *counts;
    if (congee_new(&requests) == CONGEE_OOM)
        return 1;
    if (congee_new(&counts) == CONGEE_OOM) {
        congee_free(requests);
        return 1;
    }
    uint64_t most = 0, state = 1;
    for (uint64_t number = 0; number < REQUESTS; number++) {
        state = state * 6364136223846793005u + 1442695040888963407u;
        if (!enter(requests, counts, number, (state >> 33) % SENDERS))
            return 1;
        if (congee_charged(requests) > most)
            most = congee_charged(requests);
    }
    show(requests, counts);
    printf("never more than %" PRIu64 " bytes of nodes for a window of %d\n", most, WINDOW);
    congee_free(counts);
    congee_free(requests);
    return 0;
}

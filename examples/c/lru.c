/* A cache that forgets what was used longest ago: a map from each id to the time of its last use, and one back.
 *
 *     cc -Iinclude examples/c/lru.c out/c-library/libcongee.a -o lru */
#include "congee.h"
#include <inttypes.h>
#include <stdio.h>

enum { ROOM = 1000, USES = 1000000, IDS = 2000 };

struct cache {
    struct congee *times; /* by id */
    struct congee *ids;   /* by time */
    uint64_t now;
};

/* Forgets the id that was used longest ago. Whether there was one. */
static bool forget(struct cache *cache) {
    struct congee_pair oldest;
    if (!congee_pop_first(cache->ids, &oldest))
        return false;
    congee_remove(cache->times, oldest.value, NULL);
    return true;
}

/* Uses an id. Returns 1 if it was there, 0 if it is new, or CONGEE_OOM where there is no memory even after forgetting all. */
static int use(struct cache *cache, uint64_t id) {
    uint64_t before;
    int found;
    cache->now++;
    while ((found = congee_insert(cache->times, id, cache->now, &before)) == CONGEE_OOM)
        if (!forget(cache))
            return CONGEE_OOM;
    if (found == 1)
        congee_remove(cache->ids, before, NULL);
    while (congee_insert(cache->ids, cache->now, id, NULL) == CONGEE_OOM)
        if (!forget(cache)) {
            congee_remove(cache->times, id, NULL);
            return CONGEE_OOM;
        }
    while (congee_count(cache->ids) > ROOM && forget(cache))
        ;
    return found;
}

int main(void) {
    struct cache cache = {NULL, NULL, 0};
    if (congee_new(&cache.times) == CONGEE_OOM || congee_new(&cache.ids) == CONGEE_OOM)
        return 1;
    uint64_t hits = 0, state = 1;
    for (int i = 0; i < USES; i++) {
        state = state * 6364136223846793005u + 1442695040888963407u;
        hits += use(&cache, (state >> 33) % IDS) == 1;
    }
    printf("%" PRIu64 " hits, %" PRIu64 " ids kept\n", hits, congee_count(cache.times));
    struct congee_pair oldest;
    if (congee_first(cache.ids, &oldest))
        printf("the id %" PRIu64 " was used longest ago\n", oldest.value);
    congee_free(cache.times);
    congee_free(cache.ids);
    return 0;
}

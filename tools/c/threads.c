/* Maps that are made on one thread, filled on another, read on the first again and freed on a third. */
#include "congee.h"
#include <pthread.h>
#include <stdio.h>

enum { MAPS = 4 };
static const uint64_t PAIRS = 20000;

static void *fill(void *map) {
    for (uint64_t i = 0; i < PAIRS; i++)
        if (congee_insert(map, i * 7, i, NULL))
            return map;
    return NULL;
}

static void *end(void *map) {
    congee_free(map);
    return NULL;
}

int main(void) {
    struct congee *maps[MAPS];
    pthread_t threads[MAPS];
    uint64_t value, sum = 0;
    for (int i = 0; i < MAPS; i++)
        if (congee_new(&maps[i]) || pthread_create(&threads[i], NULL, fill, maps[i]))
            return 1;
    for (int i = 0; i < MAPS; i++) {
        void *failed;
        if (pthread_join(threads[i], &failed) || failed)
            return 2;
    }
    for (int i = 0; i < MAPS; i++)
        for (uint64_t key = 0; key < PAIRS * 7; key++)
            if (congee_get(maps[i], key, &value))
                sum += value;
    for (int i = 0; i < MAPS; i++)
        if (pthread_create(&threads[i], NULL, end, maps[i]))
            return 3;
    for (int i = 0; i < MAPS; i++)
        pthread_join(threads[i], NULL);
    if (sum != MAPS * (PAIRS * (PAIRS - 1) / 2))
        return 4;
    printf("%d maps on %d threads\n", MAPS, 2 * MAPS);
    return 0;
}

/* What a program must not do: one thread looks up while another inserts. The thread sanitizer has to report it, in the
 * code of the archive. */
#include "congee.h"
#include <pthread.h>

static struct congee *map;

static void *look_up(void *at) {
    uint64_t value;
    for (uint64_t i = 0; i < 1000; i++)
        congee_get(map, i, &value);
    return at;
}

static void *insert(void *at) {
    for (uint64_t i = 0; i < 1000; i++)
        congee_insert(map, i, i, NULL);
    return at;
}

int main(void) {
    pthread_t one, other;
    if (congee_new(&map))
        return 1;
    if (pthread_create(&one, NULL, insert, NULL) || pthread_create(&other, NULL, look_up, NULL))
        return 2;
    pthread_join(one, NULL);
    pthread_join(other, NULL);
    congee_free(map);
    return 0;
}

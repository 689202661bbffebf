/* What a call costs from C, in nanoseconds of the processor: the least of so many rounds; and a window of keys that moves on. */
#define _POSIX_C_SOURCE 199309L
#include "congee.h"
#include <inttypes.h>
#include <stdio.h>
#include <stdlib.h>
#include <time.h>

enum { INSERT, GET, READER, ADD, OVERWRITE, RANGE, REMOVE, KINDS, ROUNDS = 7, PAGE = 100 };

static uint64_t next(uint64_t *state) { /* splitmix64 */
    uint64_t z = (*state += 0x9e3779b97f4a7c15u);
    z = (z ^ (z >> 30)) * 0xbf58476d1ce4e5b9u;
    z = (z ^ (z >> 27)) * 0x94d049bb133111ebu;
    return z ^ (z >> 31);
}

static double now(void) {
    struct timespec t;
    clock_gettime(CLOCK_PROCESS_CPUTIME_ID, &t);
    return 1e9 * (double)t.tv_sec + (double)t.tv_nsec;
}

/* Look-ups on a reader of the map, which is frozen for them. */
static uint64_t look_up_frozen(struct congee **map, const uint64_t *keys, uint64_t n) {
    struct congee_frozen *frozen;
    uint64_t sum = 0, value = 0;
    if (congee_freeze(map, &frozen))
        exit(1);
    for (uint64_t i = 0; i < n; i++)
        sum += (uint64_t)congee_frozen_get(frozen, keys[i], &value) + value;
    if (!congee_thaw(&frozen, map))
        exit(1);
    return sum;
}

static uint64_t make(struct congee *map, int kind, const uint64_t *keys, uint64_t n) {
    static struct congee_pair page[PAGE];
    uint64_t sum = 0, value = 0;
    for (uint64_t i = 0; i < n; i++)
        switch (kind) {
        case INSERT:
        case OVERWRITE: sum += (uint64_t)congee_insert(map, keys[i], i, &value); break;
        case ADD: sum += (uint64_t)congee_add(map, keys[i], 1, &value) + value; break;
        case GET: sum += (uint64_t)congee_get(map, keys[i], &value) + value; break;
        case RANGE: sum += congee_range(map, keys[i], UINT64_MAX, page, PAGE); break;
        default: sum += (uint64_t)congee_remove(map, keys[i], &value) + value;
        }
    return sum;
}

static int times(uint64_t n, bool is_dense) {
    uint64_t *keys = malloc(n * sizeof *keys), seed = 1, sum = 0;
    double least[KINDS];
    if (!keys)
        return 1;
    for (uint64_t i = 0; i < n; i++)
        keys[i] = is_dense ? i : next(&seed);
    for (int kind = 0; kind < KINDS; kind++)
        least[kind] = 1e18;
    for (int round = 0; round < ROUNDS; round++) {
        struct congee *map;
        if (congee_new(&map))
            return 1;
        for (int kind = 0; kind < KINDS; kind++) {
            uint64_t calls = kind == RANGE && n > 20000 ? 20000 : n;
            double start = now();
            sum += kind == READER ? look_up_frozen(&map, keys, calls) : make(map, kind, keys, calls);
            double time = (now() - start) / (double)calls;
            least[kind] = time < least[kind] ? time : least[kind];
        }
        congee_free(map);
    }
    printf("C     %8" PRIu64 " %-6s  insert %6.1f  get %6.1f  by a reader %6.1f  add %6.1f  overwrite %6.1f  range of 100 %8.1f  remove %6.1f  (%" PRIx64 ")\n", n,
           is_dense ? "dense" : "random", least[INSERT], least[GET], least[READER], least[ADD],
           least[OVERWRITE], least[RANGE], least[REMOVE], sum);
    free(keys);
    return 0;
}

/* A window of keys moves on: what it is charged in the end, and what its first range costs. */
static int move_window(uint64_t apart) {
    enum { WINDOW = 1000, STEPS = 4000000 };
    static struct congee_pair page[PAGE];
    struct congee *map;
    uint64_t sum = 0;
    double least = 1e18, start = now();
    if (congee_new(&map))
        return 1;
    for (uint64_t i = 0; i < STEPS; i++) {
        sum += (uint64_t)congee_insert(map, i * apart, i, NULL);
        if (i >= WINDOW)
            sum += (uint64_t)congee_remove(map, (i - WINDOW) * apart, NULL);
    }
    double step = (now() - start) / STEPS;
    for (int round = 0; round < ROUNDS; round++) {
        start = now();
        sum += congee_range(map, 0, UINT64_MAX, page, PAGE);
        double time = now() - start;
        least = time < least ? time : least;
    }
    printf("C     window of %d keys %5" PRIu64 " apart, moved %d times: charged %" PRIu64 ", range of 100 %8.1f, insert and remove %6.1f  (%" PRIx64 ")\n",
           WINDOW, apart, STEPS, congee_charged(map), least, step, sum);
    congee_free(map);
    return 0;
}

int main(void) {
    return times(10000, true) || times(10000, false) || times(1000000, true) || times(1000000, false) || move_window(1) ||
           move_window(256) || move_window(65536);
}

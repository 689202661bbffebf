/* Makes one kind of call on each key of a map, for a program that counts what the processor does (tools/dev/count-misses). */
#include "congee.h"
#include <inttypes.h>
#include <stdio.h>
#include <stdlib.h>
#include <string.h>

static uint64_t next(uint64_t *state) { /* splitmix64 */
    uint64_t z = (*state += 0x9e3779b97f4a7c15u);
    z = (z ^ (z >> 30)) * 0xbf58476d1ce4e5b9u;
    z = (z ^ (z >> 27)) * 0x94d049bb133111ebu;
    return z ^ (z >> 31);
}

static void shuffle(uint64_t *keys, uint64_t n) {
    uint64_t seed = 7;
    for (uint64_t i = n; i > 1; i--) {
        uint64_t other = next(&seed) % i, key = keys[i - 1];
        keys[i - 1] = keys[other];
        keys[other] = key;
    }
}

static uint64_t get_all(struct congee *map, const uint64_t *keys, uint64_t n) {
    uint64_t sum = 0, value = 0;
    for (uint64_t i = 0; i < n; i++)
        sum += (uint64_t)congee_get(map, keys[i], &value) + value;
    return sum;
}

static uint64_t add_all(struct congee *map, const uint64_t *keys, uint64_t n) {
    uint64_t sum = 0, value = 0;
    for (uint64_t i = 0; i < n; i++)
        sum += (uint64_t)congee_add(map, keys[i], 1, &value) + value;
    return sum;
}

static uint64_t remove_all(struct congee *map, const uint64_t *keys, uint64_t n) {
    uint64_t sum = 0, value = 0;
    for (uint64_t i = 0; i < n; i++)
        sum += (uint64_t)congee_remove(map, keys[i], &value) + value;
    return sum;
}

/* misses dense|random KEYS keys|none|get|add|remove: "keys" inserts nothing, "none" all keys, and the others call the map, too. */
int main(int count, char **words) {
    if (count != 4)
        return 2;
    uint64_t n = strtoull(words[2], NULL, 10), seed = 1, sum = 0;
    uint64_t *keys = malloc((n + 1) * sizeof *keys);
    struct congee *map;
    if (!keys || congee_new(&map))
        return 1;
    bool is_dense = !strcmp(words[1], "dense");
    for (uint64_t i = 0; i < n; i++)
        keys[i] = is_dense ? i : next(&seed);
    if (strcmp(words[3], "keys"))
        for (uint64_t i = 0; i < n; i++)
            sum += (uint64_t)congee_insert(map, keys[i], i, NULL);
    shuffle(keys, n);
    if (!strcmp(words[3], "get"))
        sum += get_all(map, keys, n);
    else if (!strcmp(words[3], "add"))
        sum += add_all(map, keys, n);
    else if (!strcmp(words[3], "remove"))
        sum += remove_all(map, keys, n / 2);
    printf("%" PRIx64 "\n", sum);
    return 0; /* (the map stays: what it takes to free it isn't counted) */
}

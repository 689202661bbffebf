/* Maps, keys and random calls for recorded histories: what recorded.c does by threads, and interleaved.c by fibers. */
#ifndef HISTORY_MAPS_H
#define HISTORY_MAPS_H

/* (calls that wait let others go on as the program does) */
#include "pauses.h"
#define CONGEE_YIELD() pause_here()
#include "congee.h"
#include "histories.h"

/* The calls that the maps share, each in the form that may be busy. Where a map lacks one it is null. */
struct map_kind {
    const char *name;
    bool is_of_one_moment; /* each range, end, count and pop without a bound is */
    int (*make)(uint64_t limit, void **out);
    int (*another)(void *map, void **out);
    void (*free)(void *map);
    int (*get)(void *map, uint64_t key, uint64_t *value);
    int (*insert)(void *map, uint64_t key, uint64_t value, uint64_t *old);
    int (*remove)(void *map, uint64_t key, uint64_t *old);
    int (*compare_exchange)(void *map, uint64_t key, uint64_t expected, uint64_t desired, uint64_t *found);
    int (*compare_remove)(void *map, uint64_t key, uint64_t expected, uint64_t *found);
    int (*add)(void *map, uint64_t key, uint64_t number, uint64_t *old);
    int (*get_or_insert)(void *map, uint64_t key, uint64_t value, uint64_t *found);
    int (*compute)(void *map, uint64_t key, congee_updater *f, void *with, uint64_t *old);
    int (*range)(void *map, uint64_t start, uint64_t end, struct congee_pair *buffer, size_t n, size_t *written);
    int (*range_inclusive)(void *map, uint64_t start, uint64_t last, struct congee_pair *buffer, size_t n, size_t *written);
    int (*range_descending)(void *map, uint64_t start, uint64_t last, struct congee_pair *buffer, size_t n, size_t *written);
    int (*first)(void *map, struct congee_pair *pair);
    int (*last)(void *map, struct congee_pair *pair);
    int (*floor)(void *map, uint64_t key, struct congee_pair *pair);
    int (*ceiling)(void *map, uint64_t key, struct congee_pair *pair);
    int (*below)(void *map, uint64_t key, struct congee_pair *pair);
    int (*above)(void *map, uint64_t key, struct congee_pair *pair);
    int (*pop_first)(void *map, struct congee_pair *pair);
    int (*pop_last)(void *map, struct congee_pair *pair);
    int (*pop_first_to)(void *map, uint64_t key, struct congee_pair *pair);
    int (*pop_last_from)(void *map, uint64_t key, struct congee_pair *pair);
    /* forms that wait, where these are loops of their own, or the map has no other */
    int (*waits_compute)(void *map, uint64_t key, congee_updater *f, void *with, uint64_t *old);
    int (*waits_pop_first)(void *map, struct congee_pair *pair);
    int (*waits_pop_last)(void *map, struct congee_pair *pair);
    int (*waits_pop_first_to)(void *map, uint64_t key, struct congee_pair *pair);
    int (*waits_pop_last_from)(void *map, uint64_t key, struct congee_pair *pair);
    int (*waits_remove_range_inclusive)(void *map, uint64_t start, uint64_t last);
    int (*clear)(void *map);
    int (*is_empty)(void *map);
    int (*count)(void *map, uint64_t *count);
};

extern const struct map_kind live_map, locked_map, sharded_map, stand_in_map;

/* The stand-in, searched as a live map is: its ends and pops needn't be of one moment. */
extern const struct map_kind stand_in_by_leaf;

/* Whether the stand-in is to be searched so with this fault. */
bool is_fault_by_leaf(int fault);

/* Keys that come and go, and keys beside them that stay, with values of their own. Both ascend. */
enum { MOST_STAYING = 256, KEY_SETS = 26 };

struct key_set {
    char name[64];
    uint64_t keys[MOST_KEYS], staying[MOST_STAYING];
    size_t count, stays;
};

/* The set of this number, below KEY_SETS. */
void make_key_set(size_t number, struct key_set *set);

/* Whether a history of these keys is explained as a whole. Else it is by key. */
bool is_small(const struct key_set *set);

/* One that calls a map, and writes down what it called. */
struct caller {
    const struct map_kind *kind;
    const struct key_set *set;
    void *map;
    struct record *record;
    uint64_t id, number, random;
    uint64_t from, few;         /* calls of one key are at so many keys from this one on. 0: at all */
    uint64_t first_call, kinds; /* it makes so many kinds of calls from this one on. 0: all */
    uint64_t seen[MOST_KEYS];   /* the last value that it saw at each key */
    uint64_t busy, refused;     /* how many calls were busy, and how many found no memory */
    const char *wrong;
};

uint64_t next_random(uint64_t *state);

/* The keys that stay, and each second one of those that come and go. Returns whether there was memory for it. */
bool fill_map(const struct map_kind *kind, const struct key_set *set, void *map);

/* A history of these keys, of so many callers, that begins with what the map has. Nobody calls it meanwhile. */
void begin_history(struct history *history, const struct map_kind *kind, const struct key_set *set, void *map);

/* Makes one call at random, and writes it down. A wrong answer that needs no search is noted in `wrong`. */
void call_at_random(struct caller *caller);

/* Looks up each key. */
void look_up_all(struct caller *caller);

#endif

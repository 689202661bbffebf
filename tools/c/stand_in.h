/* A tiny map that threads share, with the calls of congee_shared.h, and faults that are switched on one at a time: by them
 * the search of histories.h is tried. Without a fault each call is one hold of a lock. With one, some calls of a kind are
 * two holds, with a pause in between, or give what was so before. */
#ifndef STAND_IN_H
#define STAND_IN_H

#include "congee.h"

enum fault {
    NO_FAULT,
    TORN_LEAF,           /* a range reads half of its pairs, lets others come in, and reads the rest */
    LOST_INSERTION,      /* an insertion writes back the leaf as it was before, with its own pair */
    STALE_LOOK_UP,       /* a look-up returns what the handle had seen at the key before */
    EXCHANGE_IN_TWO,     /* an exchange compares in one hold, and stores in another */
    REMOVAL_IN_TWO,      /* a removal looks in one hold, and removes in another */
    ADDITION_IN_TWO,     /* an addition reads in one hold, and stores in another */
    INSERTION_IN_TWO,    /* an insertion of an absent key alone looks in one hold, and stores in another */
    SKIPPED_PAIR,        /* a range lacks a pair in its middle */
    NEIGHBOUR_TOO_FAR,   /* the next pair is that behind it */
    COUNT_OF_BEFORE,     /* a count is that before the handle's last change */
    POPPED_TWICE,        /* a pop looks in one hold, and removes in another */
    POPPED_BEHIND,       /* a pop removes the pair behind the end */
    CHANGE_IN_TWO,       /* a change by a function looks in one hold, and stores in another */
    BOUND_LEFT_OUT,      /* a pop with a bound finds none where the pair at its bound is the first */
    TAKEN_IN_TWO,        /* a removal of a range looks and counts in one hold, and removes in another */
    LEFT_IN_RANGE,       /* a removal of a range leaves a pair */
    KEPT_AFTER_CLEAR,    /* a clear leaves the last pair */
    BUSY_BUT_MADE,       /* a call says that it was busy, and was made */
    REFUSED_BUT_PRESENT, /* an insertion at a present key is refused for memory */
    FAULTS
};

extern enum fault stand_in_fault;
extern const char *const stand_in_faults[FAULTS];

struct stand_in;

/* A map has place for so many keys. */
enum { STAND_IN_KEYS = 320 };

int stand_in_new(uint64_t limit, struct stand_in **out);
int stand_in_another(struct stand_in *map, struct stand_in **out);
void stand_in_free(struct stand_in *map);
int stand_in_try_get(const struct stand_in *map, uint64_t key, uint64_t *value);
int stand_in_try_insert(struct stand_in *map, uint64_t key, uint64_t value, uint64_t *old);
int stand_in_try_remove(struct stand_in *map, uint64_t key, uint64_t *old);
int stand_in_try_compare_exchange(struct stand_in *map, uint64_t key, uint64_t expected, uint64_t desired, uint64_t *found);
int stand_in_try_compare_remove(struct stand_in *map, uint64_t key, uint64_t expected, uint64_t *found);
int stand_in_try_add(struct stand_in *map, uint64_t key, uint64_t number, uint64_t *old);
int stand_in_try_get_or_insert(struct stand_in *map, uint64_t key, uint64_t value, uint64_t *found);
int stand_in_try_compute(struct stand_in *map, uint64_t key, congee_updater *f, void *with, uint64_t *old);
int stand_in_try_range(const struct stand_in *map, uint64_t start, uint64_t end, struct congee_pair *buffer, size_t n,
                       size_t *written);
int stand_in_try_range_inclusive(const struct stand_in *map, uint64_t start, uint64_t last, struct congee_pair *buffer,
                                 size_t n, size_t *written);
int stand_in_try_range_descending(const struct stand_in *map, uint64_t start, uint64_t last, struct congee_pair *buffer,
                                  size_t n, size_t *written);
int stand_in_try_first(const struct stand_in *map, struct congee_pair *pair);
int stand_in_try_last(const struct stand_in *map, struct congee_pair *pair);
int stand_in_try_floor(const struct stand_in *map, uint64_t key, struct congee_pair *pair);
int stand_in_try_ceiling(const struct stand_in *map, uint64_t key, struct congee_pair *pair);
int stand_in_try_below(const struct stand_in *map, uint64_t key, struct congee_pair *pair);
int stand_in_try_above(const struct stand_in *map, uint64_t key, struct congee_pair *pair);
int stand_in_try_pop_first(struct stand_in *map, struct congee_pair *pair);
int stand_in_try_pop_last(struct stand_in *map, struct congee_pair *pair);
int stand_in_try_clear(struct stand_in *map);
int stand_in_try_pop_first_to(struct stand_in *map, uint64_t key, struct congee_pair *pair);
int stand_in_try_pop_last_from(struct stand_in *map, uint64_t key, struct congee_pair *pair);
uint64_t stand_in_remove_range_inclusive(struct stand_in *map, uint64_t start, uint64_t last);
int stand_in_try_is_empty(const struct stand_in *map);
int stand_in_try_count(const struct stand_in *map, uint64_t *count);

#endif

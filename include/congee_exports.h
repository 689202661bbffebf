/* congee_exports.h: the functions that libcongee.a exports. Programs use the functions of congee.h, congee_shared.h,
 * congee_live.h and congee_owners.h, plain C around these. MIT license.
 *
 * What each exported function returns and leaves is proved of its code. The contracts are in crates/congee_c,
 * crates/congee_shared_c and crates/congee_live_c. A function takes a map, a reader or a handle by the place of its
 * address. A call that only reads takes a const place. A place for a value, a pair, a number or an owner isn't
 * null and is initialised, and so are the n pairs of a buffer. */
#ifndef CONGEE_EXPORTS_H
#define CONGEE_EXPORTS_H

#include <stdbool.h>
#include <stddef.h>
#include <stdint.h>

#ifdef __cplusplus
extern "C" {
#endif

struct congee;
struct congee_frozen;
struct congee_shared;
struct congee_live;
struct congee_owners_guard;
struct congee_pair;

struct congee_handle {
    struct congee *map;
};

struct congee_const_handle {
    const struct congee *map;
};

struct congee_frozen_handle {
    struct congee_frozen *reader;
};

struct congee_const_frozen_handle {
    const struct congee_frozen *reader;
};

struct congee_shared_handle {
    struct congee_shared *guard;
};

struct congee_const_shared_handle {
    const struct congee_shared *guard;
};

struct congee_live_handle {
    struct congee_live *guard;
};

struct congee_const_live_handle {
    const struct congee_live *guard;
};

struct congee_live_owners_handle {
    struct congee_owners_guard *owners;
};

struct congee_lent {
    uint64_t ticket;
    uint64_t owner;
};

uint32_t congee_c_version(void);
int32_t congee_c_new(uint64_t limit, struct congee_handle *out);
void congee_c_free(struct congee_handle handle);
int32_t congee_c_get(struct congee_const_handle *handle, uint64_t key, uint64_t *value);
int32_t congee_c_insert(struct congee_handle *handle, uint64_t key, uint64_t value, uint64_t *before);
int32_t congee_c_remove(struct congee_handle *handle, uint64_t key, uint64_t *before);
int32_t congee_c_compare_exchange(struct congee_handle *handle, uint64_t key, uint64_t expected, uint64_t desired,
                                  uint64_t *found);
int32_t congee_c_compare_remove(struct congee_handle *handle, uint64_t key, uint64_t expected, uint64_t *found);
int32_t congee_c_add(struct congee_handle *handle, uint64_t key, uint64_t number, uint64_t *before);
int32_t congee_c_get_or_insert(struct congee_handle *handle, uint64_t key, uint64_t value, uint64_t *found);
size_t congee_c_range(struct congee_const_handle *handle, uint64_t start, uint64_t end, struct congee_pair *buffer,
                      size_t n);
int32_t congee_c_first(struct congee_const_handle *handle, struct congee_pair *pair);
int32_t congee_c_last(struct congee_const_handle *handle, struct congee_pair *pair);
int32_t congee_c_floor(struct congee_const_handle *handle, uint64_t key, struct congee_pair *pair);
int32_t congee_c_ceiling(struct congee_const_handle *handle, uint64_t key, struct congee_pair *pair);
int32_t congee_c_below(struct congee_const_handle *handle, uint64_t key, struct congee_pair *pair);
int32_t congee_c_above(struct congee_const_handle *handle, uint64_t key, struct congee_pair *pair);
int32_t congee_c_pop_first(struct congee_handle *handle, struct congee_pair *pair);
int32_t congee_c_pop_last(struct congee_handle *handle, struct congee_pair *pair);
void congee_c_clear(struct congee_handle *handle);
void congee_c_shrink_to_fit(struct congee_handle *handle);
size_t congee_c_range_inclusive(struct congee_const_handle *handle, uint64_t start, uint64_t last,
                                struct congee_pair *buffer, size_t n);
size_t congee_c_range_descending(struct congee_const_handle *handle, uint64_t start, uint64_t last,
                                 struct congee_pair *buffer, size_t n);
uint64_t congee_c_remove_range_inclusive(struct congee_handle *handle, uint64_t start, uint64_t last);
bool congee_c_is_empty(struct congee_const_handle *handle);
uint64_t congee_c_count(struct congee_const_handle *handle);
uint64_t congee_c_charged(struct congee_const_handle *handle);
uint64_t congee_c_limit(struct congee_const_handle *handle);
int32_t congee_c_freeze(struct congee_handle handle, struct congee_frozen_handle *out, struct congee_handle *back);
int32_t congee_c_thaw(struct congee_frozen_handle frozen, struct congee_handle *out,
                      struct congee_frozen_handle *back);
int32_t congee_c_frozen_another(struct congee_const_frozen_handle *frozen, struct congee_frozen_handle *out);
void congee_c_frozen_free(struct congee_frozen_handle frozen);
int32_t congee_c_frozen_get(struct congee_const_frozen_handle *frozen, uint64_t key, uint64_t *value);
size_t congee_c_frozen_range(struct congee_const_frozen_handle *frozen, uint64_t start, uint64_t end,
                             struct congee_pair *buffer, size_t n);
size_t congee_c_frozen_range_inclusive(struct congee_const_frozen_handle *frozen, uint64_t start, uint64_t last,
                                       struct congee_pair *buffer, size_t n);
size_t congee_c_frozen_range_descending(struct congee_const_frozen_handle *frozen, uint64_t start, uint64_t last,
                                        struct congee_pair *buffer, size_t n);
uint64_t congee_c_frozen_count(struct congee_const_frozen_handle *frozen);

int32_t congee_c_shared_new(uint64_t limit, struct congee_shared_handle *out);
int32_t congee_c_shared_new_sharded(uint64_t limit, struct congee_shared_handle *out);
int32_t congee_c_shared_another(struct congee_shared_handle *handle, struct congee_shared_handle *out);
void congee_c_shared_meet(struct congee_shared_handle *handle, struct congee_shared_handle *other);
void congee_c_shared_free(struct congee_shared_handle handle);
int32_t congee_c_shared_get(struct congee_const_shared_handle *handle, uint64_t key, uint64_t *value);
int32_t congee_c_shared_insert(struct congee_shared_handle *handle, uint64_t key, uint64_t value, uint64_t *before);
int32_t congee_c_shared_remove(struct congee_shared_handle *handle, uint64_t key, uint64_t *before);
int32_t congee_c_shared_compare_exchange(struct congee_shared_handle *handle, uint64_t key, uint64_t expected,
                                         uint64_t desired, uint64_t *found);
int32_t congee_c_shared_compare_remove(struct congee_shared_handle *handle, uint64_t key, uint64_t expected,
                                       uint64_t *found);
int32_t congee_c_shared_add(struct congee_shared_handle *handle, uint64_t key, uint64_t number, uint64_t *before);
int32_t congee_c_shared_get_or_insert(struct congee_shared_handle *handle, uint64_t key, uint64_t value,
                                      uint64_t *found);
int32_t congee_c_shared_range(struct congee_const_shared_handle *handle, uint64_t start, uint64_t end,
                              struct congee_pair *buffer, size_t n, uint64_t *out);
int32_t congee_c_shared_range_inclusive(struct congee_const_shared_handle *handle, uint64_t start, uint64_t last,
                                        struct congee_pair *buffer, size_t n, uint64_t *out);
int32_t congee_c_shared_range_descending(struct congee_const_shared_handle *handle, uint64_t start, uint64_t last,
                                         struct congee_pair *buffer, size_t n, uint64_t *out);
int32_t congee_c_shared_first(struct congee_const_shared_handle *handle, struct congee_pair *pair);
int32_t congee_c_shared_last(struct congee_const_shared_handle *handle, struct congee_pair *pair);
int32_t congee_c_shared_floor(struct congee_const_shared_handle *handle, uint64_t key, struct congee_pair *pair);
int32_t congee_c_shared_ceiling(struct congee_const_shared_handle *handle, uint64_t key, struct congee_pair *pair);
int32_t congee_c_shared_below(struct congee_const_shared_handle *handle, uint64_t key, struct congee_pair *pair);
int32_t congee_c_shared_above(struct congee_const_shared_handle *handle, uint64_t key, struct congee_pair *pair);
int32_t congee_c_shared_pop_first(struct congee_shared_handle *handle, struct congee_pair *pair);
int32_t congee_c_shared_pop_last(struct congee_shared_handle *handle, struct congee_pair *pair);
int32_t congee_c_shared_clear(struct congee_shared_handle *handle);
int32_t congee_c_shared_is_empty(struct congee_const_shared_handle *handle, uint64_t *out);
int32_t congee_c_shared_count(struct congee_const_shared_handle *handle, uint64_t *out);
int32_t congee_c_shared_usage(struct congee_const_shared_handle *handle, uint64_t *charged, uint64_t *limit);

int32_t congee_c_live_new(uint64_t limit, struct congee_live_handle *out);
uint64_t congee_c_live_limit(struct congee_const_live_handle *handle);
uint64_t congee_c_live_charged(struct congee_const_live_handle *handle);
void congee_c_live_usage(struct congee_const_live_handle *handle, uint64_t *charged, uint64_t *limit);
int32_t congee_c_live_another(struct congee_live_handle *handle, struct congee_live_handle *out);
void congee_c_live_meet(struct congee_live_handle *handle, struct congee_live_handle *other);
int32_t congee_c_live_note(struct congee_live_handle *handle, struct congee_live_handle *out);
void congee_c_live_free(struct congee_live_handle handle);
int32_t congee_c_live_get(struct congee_const_live_handle *handle, uint64_t key, uint64_t *value);
int32_t congee_c_live_insert(struct congee_live_handle *handle, uint64_t key, uint64_t value, uint64_t *before);
int32_t congee_c_live_remove(struct congee_live_handle *handle, uint64_t key, uint64_t *before);
int32_t congee_c_live_compare_exchange(struct congee_live_handle *handle, uint64_t key, uint64_t expected,
                                       uint64_t desired, uint64_t *found);
int32_t congee_c_live_compare_remove(struct congee_live_handle *handle, uint64_t key, uint64_t expected,
                                     uint64_t *found);
int32_t congee_c_live_add(struct congee_live_handle *handle, uint64_t key, uint64_t number, uint64_t *before);
int32_t congee_c_live_get_or_insert(struct congee_live_handle *handle, uint64_t key, uint64_t value, uint64_t *found);
int32_t congee_c_live_range(struct congee_const_live_handle *handle, uint64_t start, uint64_t end,
                            struct congee_pair *buffer, size_t n, uint64_t *out);
int32_t congee_c_live_range_inclusive(struct congee_const_live_handle *handle, uint64_t start, uint64_t last,
                                      struct congee_pair *buffer, size_t n, uint64_t *out);
int32_t congee_c_live_range_descending(struct congee_const_live_handle *handle, uint64_t start, uint64_t last,
                                       struct congee_pair *buffer, size_t n, uint64_t *out);
int32_t congee_c_live_first(struct congee_const_live_handle *handle, struct congee_pair *pair);
int32_t congee_c_live_ceiling(struct congee_const_live_handle *handle, uint64_t key, struct congee_pair *pair);
int32_t congee_c_live_above(struct congee_const_live_handle *handle, uint64_t key, struct congee_pair *pair);
int32_t congee_c_live_floor(struct congee_const_live_handle *handle, uint64_t key, struct congee_pair *pair);
int32_t congee_c_live_below(struct congee_const_live_handle *handle, uint64_t key, struct congee_pair *pair);
int32_t congee_c_live_last(struct congee_const_live_handle *handle, struct congee_pair *pair);
int32_t congee_c_live_pop_first_to(struct congee_live_handle *handle, uint64_t key, struct congee_pair *pair);
int32_t congee_c_live_pop_last_from(struct congee_live_handle *handle, uint64_t key, struct congee_pair *pair);
int32_t congee_c_live_remove_some(struct congee_live_handle *handle, uint64_t start, uint64_t last, uint64_t *count,
                                  uint64_t *reached);
int32_t congee_c_live_count(struct congee_const_live_handle *handle, uint64_t *out);

/* Maps of owners. */
int32_t congee_c_live_owners_new(uint64_t limit, struct congee_live_owners_handle *out);
int32_t congee_c_live_owners_another(struct congee_live_owners_handle *handle, struct congee_live_owners_handle *out);
uint64_t congee_c_live_owners_limit(struct congee_live_owners_handle *handle);
void congee_c_live_owners_usage(struct congee_live_owners_handle *handle, uint64_t *charged, uint64_t *limit);
void congee_c_live_owners_meet(struct congee_live_owners_handle *handle, struct congee_live_owners_handle *other);
void congee_c_live_owners_free(struct congee_live_owners_handle handle);
int32_t congee_c_live_owners_get(struct congee_live_owners_handle *handle, uint64_t key, struct congee_lent *lent);
void congee_c_live_owners_end(struct congee_live_owners_handle *handle);
int32_t congee_c_live_owners_lend(struct congee_live_owners_handle *handle, uint64_t ticket, uint64_t *owner);
int32_t congee_c_live_owners_ceiling(struct congee_live_owners_handle *handle, uint64_t key, struct congee_pair *pair);
int32_t congee_c_live_owners_floor(struct congee_live_owners_handle *handle, uint64_t key, struct congee_pair *pair);
int32_t congee_c_live_owners_range_inclusive(struct congee_live_owners_handle *handle, uint64_t start, uint64_t last,
                                             struct congee_pair *buffer, size_t n, uint64_t *out);
int32_t congee_c_live_owners_range_descending(struct congee_live_owners_handle *handle, uint64_t start, uint64_t last,
                                              struct congee_pair *buffer, size_t n, uint64_t *out);
int32_t congee_c_live_owners_count(struct congee_live_owners_handle *handle, uint64_t *out);
int32_t congee_c_live_owners_insert(struct congee_live_owners_handle *handle, uint64_t key, uint64_t owner,
                                    struct congee_lent *before);
int32_t congee_c_live_owners_remove(struct congee_live_owners_handle *handle, uint64_t key, struct congee_lent *before);
int32_t congee_c_live_owners_compare_exchange(struct congee_live_owners_handle *handle, uint64_t key, uint64_t ticket,
                                              uint64_t owner, struct congee_lent *before);
int32_t congee_c_live_owners_compare_remove(struct congee_live_owners_handle *handle, uint64_t key, uint64_t ticket,
                                            struct congee_lent *before);
int32_t congee_c_live_owners_get_or_insert(struct congee_live_owners_handle *handle, uint64_t key, uint64_t owner,
                                           struct congee_lent *found);
int32_t congee_c_live_owners_reclaim(struct congee_live_owners_handle *handle, struct congee_lent *back);
uint64_t congee_c_live_owners_pending(struct congee_live_owners_handle *handle);
int32_t congee_c_live_owners_drain(struct congee_live_owners_handle *handle, struct congee_lent *back);

#ifdef __cplusplus
}
#endif
#endif

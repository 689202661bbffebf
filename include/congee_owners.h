/* congee_owners.h: a map from uint64_t to objects that threads share, and look up without a lock. C11 and C++11. MIT
 * license.
 *
 * congee.h includes this header. A key has an owner, which is the address of an object. The map has a reference of its
 * own to each object, such as one of a count. Each thread calls the map by a handle of its own. A look-up takes no
 * lock, and writes one word, which belongs to the handle. The library stores and returns addresses, and reads no memory
 * behind them. congee_live.h has a map of numbers.
 *
 * The references of the map:
 *
 *   - An insertion that stores the owner takes the caller's reference. With each code that means that the owner isn't
 *     stored, the reference is the caller's still. CONGEE_KEPT is the exception, for maps without `retain`.
 *   - congee_live_owners_get returns a further reference, which the map's `retain` has made.
 *   - congee_live_owners_borrow lends the owner to the handle, without a further reference. The object isn't released
 *     until the loan ends, whoever removes the key.
 *   - The map releases its reference to a removed or replaced owner once no handle has the owner lent. Then `release`
 *     is called, once for each insertion that had stored the owner.
 *
 * A loan lasts until congee_live_owners_return, or until the handle's next call that looks up or changes a key. A
 * handle has one owner lent at a time. What a removal or an insertion writes to *old is lent, too.
 *
 * An owner that was removed or replaced first waits with the handle that made the call. Once 64 wait, the handle's next
 * insertion or removal calls `release` for each of them that nobody has lent. congee_live_owners_reclaim does so at any
 * time. The last handle of a map removes all keys when it is freed, and calls `release` for each owner that is left.
 *
 * `retain` and `release` run within a call, on its thread, outside of any lock. Neither uses the handle that is in the
 * call. Both may use other handles. If the map has `retain`, an insertion calls `retain` once before and `release` once
 * afterwards. So the caller still has a reference, whatever the library does with the other one.
 *
 * Calls without `try` in their name yield and try again, where the same call with `try` returns CONGEE_BUSY
 * (congee_live.h). Nothing bounds how long such a call takes. No test of the library has met CONGEE_KEPT, and none has
 * met a removed or replaced owner that the library can't lend (null in *old).
 *
 * What the library's own functions return is proved of their code (congee_exports.h). The values of the library's map
 * are tickets: numbers that are issued once, each for one owner. Proved is:
 *
 *   - The calls of tickets have one legal history, as the calls of congee_live.h have.
 *   - Searches, pages and counts read keys and their tickets as those of congee_live.h read pairs.
 *   - The owner that comes with a ticket is the owner that the ticket was issued for.
 *   - A ticket comes back for release to a handle once at most. Of two handles that meet, one at most gets it back.
 *   - The owner of a ticket that came back to a handle is lent neither to that handle, nor to a handle that meets it.
 *
 * No theorem states that an owner ever comes back, that a call is busy or out of memory only when it has to be, or that
 * a refused owner is returned at once. Tests show how owners come back. The functions for use, which call `retain` and
 * `release`, are plain C around the library's own, and are tested.
 *
 * What a program owes, beside the rules of congee.h and congee_live.h. Nothing checks these rules:
 *
 *   - An owner isn't null, since null in *old means that the library has no owner to lend.
 *   - The program has a reference to each owner that it hands to an insertion. A map without `retain` has each owner
 *     under one key at a time.
 *   - A program reads a lent owner during the loan alone.
 *   - `release` isn't null. A map that was made with a null `retain` has no congee_live_owners_get.
 *
 * tools/dev/make-pages makes the manual page from this file: from this comment, the headings and each function's
 * comment.
 */
#ifndef CONGEE_OWNERS_H
#define CONGEE_OWNERS_H

#include "congee.h"

#include <stdlib.h>

/* A count that handles of several threads have in common. (Its calls have one name in both languages.) */
#ifdef __cplusplus
#include <atomic>
#define CONGEE_OWNERS_COUNT std::atomic<uint64_t>
#else
#include <stdatomic.h>
#define CONGEE_OWNERS_COUNT _Atomic(uint64_t)
#endif

#ifdef __cplusplus
extern "C" {
#endif

/* A function that adds a reference to an owner. `with` is what the map was made with. */
typedef void congee_owner_retain(void *owner, void *with);

/* A function that gives up a reference to an owner, and frees the object with its last one. `with` is what the map was
 * made with. */
typedef void congee_owner_release(void *owner, void *with);

/* A function that is called for a key and its owner. Something else than 0 ends the calls. `with` is what the caller
 * handed in. */
typedef int congee_owner_visitor(uint64_t key, void *owner, void *with);

/* What the handles of one map have in common. */
struct congee_owners_block {
    congee_owner_retain *retain;
    congee_owner_release *release;
    void *with;
    /* The handles that aren't freed, and those that the library still has. */
    CONGEE_OWNERS_COUNT handles, open;
};

/* A handle: one caller of a map of owners. A program reads and writes no member. */
struct congee_live_owners {
    struct congee_live_owners_handle handle;
    struct congee_owners_block *block;
};

/* (Functions for the functions below, in no list of calls.) */

/* Before an owner is handed to the library: makes a reference for the caller, whatever becomes of the one that is
 * handed in. */
static inline
void congee_owners_offer(struct congee_live_owners *map, void *owner) {
    if (map->block->retain)
        map->block->retain(owner, map->block->with);
}

/* Afterwards: one of two references is left over, unless the library keeps one for a while. Its release comes with a
 * later call then, by whatever handle. Returns the code for the caller. */
static inline
int congee_owners_settle(struct congee_live_owners *map, void *owner, int code) {
    bool is_kept = code == 3 || code == -4 || code == -5;
    if (is_kept && !map->block->retain)
        return CONGEE_KEPT;
    if (!is_kept && map->block->retain)
        map->block->release(owner, map->block->with);
    return code == 3 ? 0 : code == -4 ? CONGEE_OOM : code == -5 ? CONGEE_BUSY : code;
}

/* The owner before, which is lent. Without a place for it the loan ends. */
static inline
void congee_owners_lend(struct congee_live_owners *map, const struct congee_lent *before, void **old) {
    if (old)
        *old = (void *)(uintptr_t)before->owner;
    else
        congee_c_live_owners_end(&map->handle);
}

/* A search upwards for the first key from this one on, or downwards for the first key from this one down. The owner is
 * lent. The ticket that a search finds may be retired by the time that its owner is asked for: then the call searches
 * again. */
static inline
int congee_owners_find(struct congee_live_owners *map, bool up, uint64_t from, uint64_t *key, void **owner,
                       uint64_t *ticket) {
    struct congee_pair at = {0, 0};
    uint64_t lent = 0;
    int code = CONGEE_ABSENT;
    for (int tries = 0; tries < 1000; tries++) {
        code = up ? congee_c_live_owners_ceiling(&map->handle, from, &at)
                  : congee_c_live_owners_floor(&map->handle, from, &at);
        if (code != CONGEE_PRESENT)
            return code;
        if (owner && !congee_c_live_owners_lend(&map->handle, at.value, &lent))
            continue;
        if (key)
            *key = at.key;
        if (owner)
            *owner = (void *)(uintptr_t)lent;
        if (ticket)
            *ticket = at.value;
        return CONGEE_PRESENT;
    }
    return CONGEE_BUSY;
}

/* -- Maps of owners -- */

/* Makes an empty map whose nodes take at most `bytes` bytes together, and the map's first handle. Returns CONGEE_DONE
 * with the handle in *out, or CONGEE_OOM with null there. UINT64_MAX is no limit.
 *
 * The limit counts the segments of nodes, as congee_live_new_with_limit has it. The owners lie in slots beside them, 32
 * bytes for each, which the limit doesn't count. Slots are used again, and are freed with the map.
 *
 * `retain` adds a reference to an owner, and `release` gives one up. Both get `with` as their second argument. With a
 * null `retain` the map lends owners alone: for objects that have one owner, and no count. */
static inline int congee_live_owners_new_with_limit(struct congee_live_owners **out, uint64_t bytes,
                                                    congee_owner_retain *retain, congee_owner_release *release,
                                                    void *with) {
    struct congee_live_owners *map = (struct congee_live_owners *)malloc(sizeof *map);
    struct congee_owners_block *block = (struct congee_owners_block *)malloc(sizeof *block);
    *out = NULL;
    if (!map || !block || congee_c_live_owners_new(bytes, &map->handle) != CONGEE_DONE) {
        free(map);
        free(block);
        return CONGEE_OOM;
    }
    block->retain = retain;
    block->release = release;
    block->with = with;
    atomic_init(&block->handles, (uint64_t)1);
    atomic_init(&block->open, (uint64_t)1);
    map->block = block;
    *out = map;
    return CONGEE_DONE;
}

/* Makes an empty map without a limit, and its first handle. Returns CONGEE_DONE with the handle in *out, or CONGEE_OOM
 * with null there.
 *
 * `retain` adds a reference to an owner, and `release` gives one up. Both get `with` as their second argument. With a
 * null `retain` the map lends owners alone: for objects that have one owner, and no count. */
static inline int congee_live_owners_new(struct congee_live_owners **out, congee_owner_retain *retain,
                                         congee_owner_release *release, void *with) {
    return congee_live_owners_new_with_limit(out, UINT64_MAX, retain, release, with);
}

/* Returns the limit in bytes that the map was made with, UINT64_MAX for none. Takes constant time. */
static inline uint64_t congee_live_owners_limit(const struct congee_live_owners *map) {
    struct congee_live_owners_handle handle = map->handle;
    return congee_c_live_owners_limit(&handle);
}

/* Writes the bytes of all segments of nodes that the map has so far to *charged, and the map's limit to *limit, in
 * constant time. Neither place is null. The charged bytes are at most the limit, which is proved. The slots of owners
 * don't count. */
static inline void congee_live_owners_usage(const struct congee_live_owners *map, uint64_t *charged, uint64_t *limit) {
    struct congee_live_owners_handle handle = map->handle;
    uint64_t bytes = 0, most = 0;
    congee_c_live_owners_usage(&handle, &bytes, &most);
    *charged = bytes;
    *limit = most;
}

/* Makes one more handle of the map, for another thread. Returns CONGEE_DONE with the handle in *out. Returns CONGEE_OOM
 * if malloc finds no memory, and CONGEE_FULL if the map has 64 handles. Then null is in *out, and nothing has changed.
 * The new handle begins with the history that `map` has seen. */
static inline int congee_live_owners_another(struct congee_live_owners *map, struct congee_live_owners **out) {
    struct congee_live_owners *other = (struct congee_live_owners *)malloc(sizeof *other);
    int code = other ? congee_c_live_owners_another(&map->handle, &other->handle) : CONGEE_OOM;
    *out = NULL;
    if (code != CONGEE_DONE) {
        free(other);
        return code;
    }
    other->block = map->block;
    atomic_fetch_add(&map->block->open, (uint64_t)1);
    atomic_fetch_add(&map->block->handles, (uint64_t)1);
    *out = other;
    return CONGEE_DONE;
}

/* Removes all keys, one by one, and calls `release` for each owner that left the map and that no handle has lent. Keys
 * that other handles insert meanwhile are removed, too, so the call ends once no handle inserts any more. The handle's
 * loan ends. An owner that another handle has lent is released by a later call. While other threads are in the way, the
 * call yields and tries again. The call is never out of memory. */
static inline void congee_live_owners_clear(struct congee_live_owners *map) {
    struct congee_lent back = {0, 0};
    int code;
    while ((code = congee_c_live_owners_drain(&map->handle, &back)) != CONGEE_DONE)
        if (code == CONGEE_BUSY)
            CONGEE_YIELD();
        else
            map->block->release((void *)(uintptr_t)back.owner, map->block->with);
}

/* Frees the handle, and ends its loan. The last handle of a map first removes all keys and calls `release` for each
 * owner that is left. Then the map is freed. Handles may be freed on several threads at once. For null the call does
 * nothing. */
static inline void congee_live_owners_free(struct congee_live_owners *map) {
    struct congee_owners_block *block = map ? map->block : NULL;
    bool is_last;
    if (!map)
        return;
    is_last = atomic_fetch_sub(&block->handles, (uint64_t)1) == 1;
    if (is_last) {
        /* (what other handles have retired is this handle's once they have left the library) */
        while (atomic_load(&block->open) != 1)
            CONGEE_YIELD();
        congee_live_owners_clear(map);
    }
    congee_c_live_owners_free(map->handle);
    free(map);
    if (is_last)
        free(block);
    else
        atomic_fetch_sub(&block->open, (uint64_t)1);
}

/* Orders two handles of one map in time: calls that either handle had made, or had learned of, come before all later
 * calls of both. Both handles have then seen one history. An owner that came back to one of them is lent to neither,
 * which is proved. The program makes sure that both handles are of one map. A handle may meet itself, without effect.
 * The call never fails, and takes no memory. */
static inline void congee_live_owners_meet(struct congee_live_owners *map, struct congee_live_owners *other) {
    if (map != other)
        congee_c_live_owners_meet(&map->handle, &other->handle);
}

/* -- Look-ups -- */

/* Lends the key's owner to the handle, without a lock and without memory. Returns CONGEE_PRESENT with the owner in
 * *owner and the owner's ticket in *ticket, or CONGEE_ABSENT, which leaves both places unchanged. The owner isn't
 * released until the loan ends: by congee_live_owners_return, or by the handle's next call that looks up or changes a
 * key. Returns CONGEE_BUSY, which leaves both places unchanged, if other threads were in the way at each of the call's
 * tries.
 *
 * A ticket is issued once, for one insertion. congee_live_owners_compare_exchange takes one. Either place may be null.
 */
static inline int congee_live_owners_try_borrow(struct congee_live_owners *map, uint64_t key, void **owner,
                                                uint64_t *ticket) {
    struct congee_lent lent = {0, 0};
    int code = congee_c_live_owners_get(&map->handle, key, &lent);
    if (code == CONGEE_PRESENT && owner)
        *owner = (void *)(uintptr_t)lent.owner;
    if (code == CONGEE_PRESENT && ticket)
        *ticket = lent.ticket;
    return code;
}

/* Lends the key's owner to the handle, without a lock and without memory. Returns CONGEE_PRESENT with the owner in
 * *owner and the owner's ticket in *ticket, or CONGEE_ABSENT, which leaves both places unchanged. The owner isn't
 * released until the loan ends: by congee_live_owners_return, or by the handle's next call that looks up or changes a
 * key. While other threads are in the way, the call yields and tries again.
 *
 * A ticket is issued once, for one insertion. congee_live_owners_compare_exchange takes one. Either place may be null.
 */
static inline int congee_live_owners_borrow(struct congee_live_owners *map, uint64_t key, void **owner,
                                            uint64_t *ticket) {
    int code;
    while ((code = congee_live_owners_try_borrow(map, key, owner, ticket)) == CONGEE_BUSY)
        CONGEE_YIELD();
    return code;
}

/* Ends the handle's loan. Without a loan the call does nothing. */
static inline void congee_live_owners_return(struct congee_live_owners *map) {
    congee_c_live_owners_end(&map->handle);
}

/* Looks the key up, without a lock and without memory of the library's own. Returns CONGEE_PRESENT with the owner in
 * *owner, and a further reference, which `retain` has made and which the caller releases. Returns CONGEE_ABSENT, which
 * leaves *owner unchanged. For a null `owner` the call only looks the key up, and makes no reference. Returns
 * CONGEE_BUSY, with nothing changed, if other threads were in the way at each of the call's tries. */
static inline int congee_live_owners_try_get(struct congee_live_owners *map, uint64_t key, void **owner) {
    void *lent = NULL;
    int code = congee_live_owners_try_borrow(map, key, &lent, NULL);
    if (code != CONGEE_PRESENT)
        return code;
    if (owner) {
        map->block->retain(lent, map->block->with);
        *owner = lent;
    }
    congee_live_owners_return(map);
    return CONGEE_PRESENT;
}

/* Looks the key up, without a lock and without memory of the library's own. Returns CONGEE_PRESENT with the owner in
 * *owner, and a further reference, which `retain` has made and which the caller releases. Returns CONGEE_ABSENT, which
 * leaves *owner unchanged. For a null `owner` the call only looks the key up, and makes no reference. While other
 * threads are in the way, the call yields and tries again. */
static inline int congee_live_owners_get(struct congee_live_owners *map, uint64_t key, void **owner) {
    int code;
    while ((code = congee_live_owners_try_get(map, key, owner)) == CONGEE_BUSY)
        CONGEE_YIELD();
    return code;
}

/* -- Ends and neighbours -- */

/* Finds the least key. Returns CONGEE_PRESENT with the key in *key, the key's owner in *owner and the owner's ticket in
 * *ticket, or CONGEE_ABSENT if the call found no such key, which leaves the places unchanged. The owner is lent to the
 * handle, as by congee_live_owners_borrow. The key had that ticket at a moment of the call, and no lesser key was
 * present throughout the call. Any place may be null. For a null `owner` nothing is lent. Returns CONGEE_BUSY, which
 * leaves the places unchanged, if other threads were in the way at each of the call's tries. The call takes no lock and
 * no memory. */
static inline int congee_live_owners_try_first(struct congee_live_owners *map, uint64_t *key, void **owner,
                                               uint64_t *ticket) {
    return congee_owners_find(map, true, 0, key, owner, ticket);
}

/* Finds the least key. Returns CONGEE_PRESENT with the key in *key, the key's owner in *owner and the owner's ticket in
 * *ticket, or CONGEE_ABSENT if the call found no such key, which leaves the places unchanged. The owner is lent to the
 * handle, as by congee_live_owners_borrow. The key had that ticket at a moment of the call, and no lesser key was
 * present throughout the call. Any place may be null. For a null `owner` nothing is lent. While other threads are in
 * the way, the call yields and tries again. The call takes no lock and no memory. */
static inline int congee_live_owners_first(struct congee_live_owners *map, uint64_t *key, void **owner,
                                           uint64_t *ticket) {
    int code;
    while ((code = congee_live_owners_try_first(map, key, owner, ticket)) == CONGEE_BUSY)
        CONGEE_YIELD();
    return code;
}

/* Finds the least key that is at least `key`. Returns CONGEE_PRESENT with the key in *found, the key's owner in *owner
 * and the owner's ticket in *ticket, or CONGEE_ABSENT if the call found no such key, which leaves the places unchanged.
 * The owner is lent to the handle, as by congee_live_owners_borrow. The key had that ticket at a moment of the call,
 * and no key between the two was present throughout the call. Any place may be null. For a null `owner` nothing is
 * lent. Returns CONGEE_BUSY, which leaves the places unchanged, if other threads were in the way at each of the call's
 * tries. The call takes no lock and no memory. */
static inline int congee_live_owners_try_ceiling(struct congee_live_owners *map, uint64_t key, uint64_t *found,
                                                 void **owner, uint64_t *ticket) {
    return congee_owners_find(map, true, key, found, owner, ticket);
}

/* Finds the least key that is at least `key`. Returns CONGEE_PRESENT with the key in *found, the key's owner in *owner
 * and the owner's ticket in *ticket, or CONGEE_ABSENT if the call found no such key, which leaves the places unchanged.
 * The owner is lent to the handle, as by congee_live_owners_borrow. The key had that ticket at a moment of the call,
 * and no key between the two was present throughout the call. Any place may be null. For a null `owner` nothing is
 * lent. While other threads are in the way, the call yields and tries again. The call takes no lock and no memory. */
static inline int congee_live_owners_ceiling(struct congee_live_owners *map, uint64_t key, uint64_t *found,
                                             void **owner, uint64_t *ticket) {
    int code;
    while ((code = congee_live_owners_try_ceiling(map, key, found, owner, ticket)) == CONGEE_BUSY)
        CONGEE_YIELD();
    return code;
}

/* Finds the least key above `key`. Returns CONGEE_PRESENT with the key in *found, the key's owner in *owner and the
 * owner's ticket in *ticket, or CONGEE_ABSENT if the call found no such key, which leaves the places unchanged. The
 * owner is lent to the handle, as by congee_live_owners_borrow. The key had that ticket at a moment of the call, and no
 * key between the two was present throughout the call. Any place may be null. For a null `owner` nothing is lent.
 * Returns CONGEE_BUSY, which leaves the places unchanged, if other threads were in the way at each of the call's tries.
 * The call takes no lock and no memory. */
static inline int congee_live_owners_try_above(struct congee_live_owners *map, uint64_t key, uint64_t *found,
                                               void **owner, uint64_t *ticket) {
    return key == UINT64_MAX ? CONGEE_ABSENT : congee_owners_find(map, true, key + 1, found, owner, ticket);
}

/* Finds the least key above `key`. Returns CONGEE_PRESENT with the key in *found, the key's owner in *owner and the
 * owner's ticket in *ticket, or CONGEE_ABSENT if the call found no such key, which leaves the places unchanged. The
 * owner is lent to the handle, as by congee_live_owners_borrow. The key had that ticket at a moment of the call, and no
 * key between the two was present throughout the call. Any place may be null. For a null `owner` nothing is lent. While
 * other threads are in the way, the call yields and tries again. The call takes no lock and no memory. */
static inline int congee_live_owners_above(struct congee_live_owners *map, uint64_t key, uint64_t *found, void **owner,
                                           uint64_t *ticket) {
    int code;
    while ((code = congee_live_owners_try_above(map, key, found, owner, ticket)) == CONGEE_BUSY)
        CONGEE_YIELD();
    return code;
}

/* Finds the greatest key. Returns CONGEE_PRESENT with the key in *key, the key's owner in *owner and the owner's ticket
 * in *ticket, or CONGEE_ABSENT if the call found no such key, which leaves the places unchanged. The owner is lent to
 * the handle, as by congee_live_owners_borrow. The key had that ticket at a moment of the call, and no greater key was
 * present throughout the call. Any place may be null. For a null `owner` nothing is lent. Returns CONGEE_BUSY, which
 * leaves the places unchanged, if other threads were in the way at each of the call's tries. The call takes no lock and
 * no memory. */
static inline int congee_live_owners_try_last(struct congee_live_owners *map, uint64_t *key, void **owner,
                                              uint64_t *ticket) {
    return congee_owners_find(map, false, UINT64_MAX, key, owner, ticket);
}

/* Finds the greatest key. Returns CONGEE_PRESENT with the key in *key, the key's owner in *owner and the owner's ticket
 * in *ticket, or CONGEE_ABSENT if the call found no such key, which leaves the places unchanged. The owner is lent to
 * the handle, as by congee_live_owners_borrow. The key had that ticket at a moment of the call, and no greater key was
 * present throughout the call. Any place may be null. For a null `owner` nothing is lent. While other threads are in
 * the way, the call yields and tries again. The call takes no lock and no memory. */
static inline int congee_live_owners_last(struct congee_live_owners *map, uint64_t *key, void **owner,
                                          uint64_t *ticket) {
    int code;
    while ((code = congee_live_owners_try_last(map, key, owner, ticket)) == CONGEE_BUSY)
        CONGEE_YIELD();
    return code;
}

/* Finds the greatest key that is at most `key`. Returns CONGEE_PRESENT with the key in *found, the key's owner in
 * *owner and the owner's ticket in *ticket, or CONGEE_ABSENT if the call found no such key, which leaves the places
 * unchanged. The owner is lent to the handle, as by congee_live_owners_borrow. The key had that ticket at a moment of
 * the call, and no key between the two was present throughout the call. Any place may be null. For a null `owner`
 * nothing is lent. Returns CONGEE_BUSY, which leaves the places unchanged, if other threads were in the way at each of
 * the call's tries. The call takes no lock and no memory. */
static inline int congee_live_owners_try_floor(struct congee_live_owners *map, uint64_t key, uint64_t *found,
                                               void **owner, uint64_t *ticket) {
    return congee_owners_find(map, false, key, found, owner, ticket);
}

/* Finds the greatest key that is at most `key`. Returns CONGEE_PRESENT with the key in *found, the key's owner in
 * *owner and the owner's ticket in *ticket, or CONGEE_ABSENT if the call found no such key, which leaves the places
 * unchanged. The owner is lent to the handle, as by congee_live_owners_borrow. The key had that ticket at a moment of
 * the call, and no key between the two was present throughout the call. Any place may be null. For a null `owner`
 * nothing is lent. While other threads are in the way, the call yields and tries again. The call takes no lock and no
 * memory. */
static inline int congee_live_owners_floor(struct congee_live_owners *map, uint64_t key, uint64_t *found, void **owner,
                                           uint64_t *ticket) {
    int code;
    while ((code = congee_live_owners_try_floor(map, key, found, owner, ticket)) == CONGEE_BUSY)
        CONGEE_YIELD();
    return code;
}

/* Finds the greatest key below `key`. Returns CONGEE_PRESENT with the key in *found, the key's owner in *owner and the
 * owner's ticket in *ticket, or CONGEE_ABSENT if the call found no such key, which leaves the places unchanged. The
 * owner is lent to the handle, as by congee_live_owners_borrow. The key had that ticket at a moment of the call, and no
 * key between the two was present throughout the call. Any place may be null. For a null `owner` nothing is lent.
 * Returns CONGEE_BUSY, which leaves the places unchanged, if other threads were in the way at each of the call's tries.
 * The call takes no lock and no memory. */
static inline int congee_live_owners_try_below(struct congee_live_owners *map, uint64_t key, uint64_t *found,
                                               void **owner, uint64_t *ticket) {
    return key == 0 ? CONGEE_ABSENT : congee_owners_find(map, false, key - 1, found, owner, ticket);
}

/* Finds the greatest key below `key`. Returns CONGEE_PRESENT with the key in *found, the key's owner in *owner and the
 * owner's ticket in *ticket, or CONGEE_ABSENT if the call found no such key, which leaves the places unchanged. The
 * owner is lent to the handle, as by congee_live_owners_borrow. The key had that ticket at a moment of the call, and no
 * key between the two was present throughout the call. Any place may be null. For a null `owner` nothing is lent. While
 * other threads are in the way, the call yields and tries again. The call takes no lock and no memory. */
static inline int congee_live_owners_below(struct congee_live_owners *map, uint64_t key, uint64_t *found, void **owner,
                                           uint64_t *ticket) {
    int code;
    while ((code = congee_live_owners_try_below(map, key, found, owner, ticket)) == CONGEE_BUSY)
        CONGEE_YIELD();
    return code;
}

/* -- Many keys -- */

/* (the pages of the calls below) */
static inline
size_t congee_owners_page(struct congee_live_owners *map, bool up, uint64_t start, uint64_t last,
                          struct congee_pair *page, size_t room) {
    uint64_t n = 0;
    while ((up ? congee_c_live_owners_range_inclusive(&map->handle, start, last, page, room, &n)
               : congee_c_live_owners_range_descending(&map->handle, start, last, page, room, &n)) == CONGEE_BUSY)
        CONGEE_YIELD();
    return n;
}

/* (one key of a page: its owner is lent while f runs. A key whose ticket is retired by then is looked up) */
static inline
int congee_owners_visit(struct congee_live_owners *map, struct congee_pair at, congee_owner_visitor *f, void *with) {
    uint64_t lent = 0;
    void *owner = NULL;
    int code = 0;
    if (congee_c_live_owners_lend(&map->handle, at.value, &lent))
        owner = (void *)(uintptr_t)lent;
    else if (congee_live_owners_borrow(map, at.key, &owner, NULL) != CONGEE_PRESENT)
        return 0;
    code = f(at.key, owner, with);
    congee_live_owners_return(map);
    return code;
}

/* Calls f(key, owner, with) for each key with start <= key <= last, keys ascending, until a call returns something else
 * than 0. Returns what the last call of f returned, or 0 without a call. Reads pages of 16 keys, then 256 each. So each
 * key is read at a moment of its own, and each key that is present throughout the call is among them. Other keys may be
 * among them, too.
 *
 * The owner is lent to the handle while f runs, until f itself calls the map by this handle. Afterwards the handle has
 * no loan. Nothing is locked while f runs. While other threads are in the way, the call yields and tries again. The
 * call takes no memory. */
static inline int congee_live_owners_each(struct congee_live_owners *map, uint64_t start, uint64_t last,
                                          congee_owner_visitor *f, void *with) {
    struct congee_pair page[CONGEE_PAGE];
    size_t room = CONGEE_FIRST_PAGE, ready = 0, n;
    for (;;) {
        for (; ready < room; ready++)
            page[ready].key = page[ready].value = 0;
        n = congee_owners_page(map, true, start, last, page, room);
        for (size_t i = 0; i < n; i++) {
            int code = congee_owners_visit(map, page[i], f, with);
            if (code != 0)
                return code;
        }
        if (n < room || page[n - 1].key == last)
            return 0;
        start = page[n - 1].key + 1;
        room = CONGEE_PAGE;
    }
}

/* Calls f(key, owner, with) for each key with start <= key <= last, keys descending, until a call returns something
 * else than 0. Returns what the last call of f returned, or 0 without a call. Reads pages of 16 keys, then 256 each. So
 * each key is read at a moment of its own, and each key that is present throughout the call is among them. Other keys
 * may be among them, too.
 *
 * The owner is lent to the handle while f runs, until f itself calls the map by this handle. Afterwards the handle has
 * no loan. Nothing is locked while f runs. While other threads are in the way, the call yields and tries again. The
 * call takes no memory. */
static inline int congee_live_owners_each_descending(struct congee_live_owners *map, uint64_t start, uint64_t last,
                                                     congee_owner_visitor *f, void *with) {
    struct congee_pair page[CONGEE_PAGE];
    size_t room = CONGEE_FIRST_PAGE, ready = 0, n;
    for (;;) {
        for (; ready < room; ready++)
            page[ready].key = page[ready].value = 0;
        n = congee_owners_page(map, false, start, last, page, room);
        for (size_t i = 0; i < n; i++) {
            int code = congee_owners_visit(map, page[i], f, with);
            if (code != 0)
                return code;
        }
        if (n < room || page[n - 1].key == start)
            return 0;
        last = page[n - 1].key - 1;
        room = CONGEE_PAGE;
    }
}

/* Writes to *count how many keys the map has, and returns CONGEE_DONE. The count is exact where no other thread writes.
 * Otherwise each key was counted or not, as it was at a moment of the call. Returns CONGEE_BUSY, which leaves *count
 * unchanged, if other threads were in the way at each of the call's tries. The call reads all nodes that have tickets,
 * and takes no lock and no memory. `count` isn't null. */
static inline int congee_live_owners_try_count(struct congee_live_owners *map, uint64_t *count) {
    return congee_c_live_owners_count(&map->handle, count);
}

/* Returns how many keys the map has. The count is exact where no other thread writes. Otherwise each key was counted or
 * not, as it was at a moment of the call. The call reads all nodes that have tickets, and takes no lock and no memory.
 * While other threads are in the way, the call yields and tries again. */
static inline uint64_t congee_live_owners_count(struct congee_live_owners *map) {
    uint64_t count = 0;
    while (congee_live_owners_try_count(map, &count) == CONGEE_BUSY)
        CONGEE_YIELD();
    return count;
}

/* Returns whether the map has no key, by a search for the first key. With true no key was present throughout the call.
 * The call takes no lock and no memory. While other threads are in the way, the call yields and tries again. */
static inline bool congee_live_owners_is_empty(struct congee_live_owners *map) {
    return congee_live_owners_first(map, NULL, NULL, NULL) == CONGEE_ABSENT;
}

/* -- Owners that come back -- */

/* Calls `release` for each owner that left the map by this handle, or by a handle that was freed, and that no handle
 * has lent. Returns how many owners were released. The call reads the loans of all 64 handles that a map may have,
 * takes no lock and no memory, and never waits. Insertions and removals make this call, once 64 owners wait. */
static inline uint64_t congee_live_owners_reclaim(struct congee_live_owners *map) {
    struct congee_lent back = {0, 0};
    uint64_t count = 0;
    for (; congee_c_live_owners_reclaim(&map->handle, &back) == 1; count++)
        map->block->release((void *)(uintptr_t)back.owner, map->block->with);
    return count;
}

/* (before an insertion or a removal) */
static inline
void congee_owners_tidy(struct congee_live_owners *map) {
    if (congee_c_live_owners_pending(&map->handle) >= 64)
        congee_live_owners_reclaim(map);
}

/* -- Changes -- */

/* Stores the owner at the key, and takes the caller's reference. Returns CONGEE_ABSENT for a new key, which leaves *old
 * unchanged. Returns CONGEE_PRESENT for a present key, with the previous owner in *old, which is lent to the handle.
 * Null in *old is no owner. For a null `old` nothing is lent.
 *
 * In all other cases the owner isn't stored, and all keys are unchanged. Returns CONGEE_OOM if malloc finds no memory
 * or the map's limit is reached, and CONGEE_BUSY if other threads were in the way at each of the call's tries: the
 * reference is the caller's still. A map without `retain` may return CONGEE_KEPT: the map has the reference, and
 * releases it by a later call. */
static inline int congee_live_owners_try_insert(struct congee_live_owners *map, uint64_t key, void *owner, void **old) {
    struct congee_lent before = {0, 0};
    int code;
    congee_owners_tidy(map);
    congee_owners_offer(map, owner);
    code = congee_c_live_owners_insert(&map->handle, key, (uint64_t)(uintptr_t)owner, &before);
    code = congee_owners_settle(map, owner, code);
    if (code <= 0)
        return code;
    congee_owners_lend(map, &before, old);
    return CONGEE_PRESENT;
}

/* Stores the owner at the key, and takes the caller's reference. Returns CONGEE_ABSENT for a new key, which leaves *old
 * unchanged. Returns CONGEE_PRESENT for a present key, with the previous owner in *old, which is lent to the handle.
 * Null in *old is no owner. For a null `old` nothing is lent.
 *
 * In all other cases the owner isn't stored, and all keys are unchanged. Returns CONGEE_OOM if malloc finds no memory
 * or the map's limit is reached: the reference is the caller's still. A map without `retain` may return CONGEE_KEPT:
 * the map has the reference, and releases it by a later call. While other threads are in the way, the call yields and
 * tries again. */
static inline int congee_live_owners_insert(struct congee_live_owners *map, uint64_t key, void *owner, void **old) {
    int code;
    while ((code = congee_live_owners_try_insert(map, key, owner, old)) == CONGEE_BUSY)
        CONGEE_YIELD();
    return code;
}

/* Removes the key. Returns CONGEE_PRESENT with the removed owner in *old, which is lent to the handle, or
 * CONGEE_ABSENT, which leaves *old unchanged. Null in *old is no owner. For a null `old` nothing is lent. A removal is
 * never out of memory. Returns CONGEE_BUSY, with nothing changed, if other threads were in the way at each of the
 * call's tries. */
static inline int congee_live_owners_try_remove(struct congee_live_owners *map, uint64_t key, void **old) {
    struct congee_lent before = {0, 0};
    int code;
    congee_owners_tidy(map);
    code = congee_c_live_owners_remove(&map->handle, key, &before);
    if (code <= 0)
        return code;
    congee_owners_lend(map, &before, old);
    return CONGEE_PRESENT;
}

/* Removes the key. Returns CONGEE_PRESENT with the removed owner in *old, which is lent to the handle, or
 * CONGEE_ABSENT, which leaves *old unchanged. Null in *old is no owner. For a null `old` nothing is lent. A removal is
 * never out of memory. While other threads are in the way, the call yields and tries again. */
static inline int congee_live_owners_remove(struct congee_live_owners *map, uint64_t key, void **old) {
    int code;
    while ((code = congee_live_owners_try_remove(map, key, old)) == CONGEE_BUSY)
        CONGEE_YIELD();
    return code;
}

/* Replaces the key's owner by `owner`, if the key still has this ticket (congee_live_owners_borrow), and takes the
 * caller's reference. The ticket decides, and not the address: after a removal and an insertion of one object the key
 * has another ticket. Returns CONGEE_PRESENT after the exchange, and CONGEE_OTHER if the key has another ticket or is
 * absent. The handle's loan ends with CONGEE_PRESENT.
 *
 * Without CONGEE_PRESENT the owner isn't stored, and all keys are unchanged. The reference is the caller's still with
 * CONGEE_OTHER, with CONGEE_OOM, if malloc finds no memory for a slot, and with CONGEE_BUSY, if other threads were in
 * the way at each of the call's tries. A map without `retain` may return CONGEE_KEPT: the map has the reference, and
 * releases it by a later call. */
static inline int congee_live_owners_try_compare_exchange(struct congee_live_owners *map, uint64_t key, uint64_t ticket,
                                                          void *owner) {
    struct congee_lent before = {0, 0};
    int code;
    congee_owners_tidy(map);
    congee_owners_offer(map, owner);
    code = congee_c_live_owners_compare_exchange(&map->handle, key, ticket, (uint64_t)(uintptr_t)owner, &before);
    code = congee_owners_settle(map, owner, code);
    if (code <= 0)
        return code == 0 ? CONGEE_OTHER : code;
    congee_live_owners_return(map);
    return CONGEE_PRESENT;
}

/* Replaces the key's owner by `owner`, if the key still has this ticket (congee_live_owners_borrow), and takes the
 * caller's reference. The ticket decides, and not the address: after a removal and an insertion of one object the key
 * has another ticket. Returns CONGEE_PRESENT after the exchange, and CONGEE_OTHER if the key has another ticket or is
 * absent. The handle's loan ends with CONGEE_PRESENT.
 *
 * Without CONGEE_PRESENT the owner isn't stored, and all keys are unchanged. The reference is the caller's still with
 * CONGEE_OTHER, and with CONGEE_OOM, if malloc finds no memory for a slot. A map without `retain` may return
 * CONGEE_KEPT: the map has the reference, and releases it by a later call. While other threads are in the way, the call
 * yields and tries again. */
static inline int congee_live_owners_compare_exchange(struct congee_live_owners *map, uint64_t key, uint64_t ticket,
                                                      void *owner) {
    int code;
    while ((code = congee_live_owners_try_compare_exchange(map, key, ticket, owner)) == CONGEE_BUSY)
        CONGEE_YIELD();
    return code;
}

/* Removes the key, if the key still has this ticket (congee_live_owners_borrow). The ticket decides, and not the
 * address: after a removal and an insertion of one object the key has another ticket. Returns CONGEE_PRESENT with the
 * removed owner in *old, which is lent to the handle, or CONGEE_OTHER if the key has another ticket or is absent, which
 * leaves *old unchanged. Null in *old is no owner. For a null `old` nothing is lent. A removal is never out of memory.
 * Returns CONGEE_BUSY, with nothing changed, if other threads were in the way at each of the call's tries. */
static inline int congee_live_owners_try_compare_remove(struct congee_live_owners *map, uint64_t key, uint64_t ticket,
                                                        void **old) {
    struct congee_lent before = {0, 0};
    int code;
    congee_owners_tidy(map);
    code = congee_c_live_owners_compare_remove(&map->handle, key, ticket, &before);
    if (code <= 0)
        return code == 0 ? CONGEE_OTHER : code;
    congee_owners_lend(map, &before, old);
    return CONGEE_PRESENT;
}

/* Removes the key, if the key still has this ticket (congee_live_owners_borrow). The ticket decides, and not the
 * address: after a removal and an insertion of one object the key has another ticket. Returns CONGEE_PRESENT with the
 * removed owner in *old, which is lent to the handle, or CONGEE_OTHER if the key has another ticket or is absent, which
 * leaves *old unchanged. Null in *old is no owner. For a null `old` nothing is lent. A removal is never out of memory.
 * While other threads are in the way, the call yields and tries again. */
static inline int congee_live_owners_compare_remove(struct congee_live_owners *map, uint64_t key, uint64_t ticket,
                                                    void **old) {
    int code;
    while ((code = congee_live_owners_try_compare_remove(map, key, ticket, old)) == CONGEE_BUSY)
        CONGEE_YIELD();
    return code;
}

/* Stores the owner if the key is absent, and keeps the owner of a present key. Returns CONGEE_ABSENT for a new key,
 * which leaves *found unchanged: the map has the caller's reference. Returns CONGEE_PRESENT for a present key, with the
 * present owner in *found, which is lent to the handle: the reference to `owner` is the caller's still. For a null
 * `found` nothing is lent.
 *
 * In all other cases the owner isn't stored, and all keys are unchanged. Returns CONGEE_OOM if malloc finds no memory
 * or the map's limit is reached, and CONGEE_BUSY if other threads were in the way at each of the call's tries: the
 * reference is the caller's still. A map without `retain` may return CONGEE_KEPT: the map has the reference, and
 * releases it by a later call. */
static inline int congee_live_owners_try_get_or_insert(struct congee_live_owners *map, uint64_t key, void *owner,
                                                       void **found) {
    struct congee_lent present = {0, 0};
    int code;
    congee_owners_tidy(map);
    congee_owners_offer(map, owner);
    code = congee_c_live_owners_get_or_insert(&map->handle, key, (uint64_t)(uintptr_t)owner, &present);
    code = congee_owners_settle(map, owner, code);
    if (code <= 0)
        return code;
    congee_owners_lend(map, &present, found);
    return CONGEE_PRESENT;
}

/* Stores the owner if the key is absent, and keeps the owner of a present key. Returns CONGEE_ABSENT for a new key,
 * which leaves *found unchanged: the map has the caller's reference. Returns CONGEE_PRESENT for a present key, with the
 * present owner in *found, which is lent to the handle: the reference to `owner` is the caller's still. For a null
 * `found` nothing is lent.
 *
 * In all other cases the owner isn't stored, and all keys are unchanged. Returns CONGEE_OOM if malloc finds no memory
 * or the map's limit is reached: the reference is the caller's still. A map without `retain` may return CONGEE_KEPT:
 * the map has the reference, and releases it by a later call. While other threads are in the way, the call yields and
 * tries again. */
static inline int congee_live_owners_get_or_insert(struct congee_live_owners *map, uint64_t key, void *owner,
                                                   void **found) {
    int code;
    while ((code = congee_live_owners_try_get_or_insert(map, key, owner, found)) == CONGEE_BUSY)
        CONGEE_YIELD();
    return code;
}

#ifdef __cplusplus
}
#endif
#endif

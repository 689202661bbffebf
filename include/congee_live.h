/* congee_live.h: a map from uint64_t to uint64_t that threads share, and read without a lock. C11 and C++11. MIT
 * license.
 *
 * congee.h includes this header. Each thread calls the map by a handle of its own. A look-up takes no lock, and writes
 * nothing that other threads read. A writer locks one or two nodes at a time, and calls nothing of the program
 * meanwhile. An empty node leaves the tree, and is used again. congee_shared.h has a map under locks, for consistent
 * pages, and for pops and counts of one moment.
 *
 * A call tries a bounded number of times. A try fails if a writer has locked or changed a node that the call reads or
 * writes.
 *
 *   - congee_live_try_get and all calls with `try` return CONGEE_BUSY after the last try. Such a call ends whatever
 *     other threads do with the map.
 *   - congee_live_get and all calls without `try` yield after the last try and begin again. Nothing bounds how long a
 *     call takes. CONGEE_YIELD() yields: sched_yield, unless the program defines the macro before including congee.h.
 *
 * What the library's own functions return is proved of their code (congee_exports.h): calls of one key are sequentially
 * consistent. Each handle has seen a history of the map, which is a legal run of one ordered map. The history explains
 * each reply of the handle, and has the handle's own calls in their order. Any two handles can meet at any time, which
 * never fails, and have one history from then on. So no two handles have seen histories that contradict each other. A
 * new handle begins with the history of the handle that made it. Handles that meet are in order of time from then on,
 * and so are a handle that makes a note and a handle that learns the note (congee_live_meet, congee_live_note). A call
 * also comes after all calls that had ended before, by whatever handle. For handles that never met, only tests show
 * that.
 *
 * A call of one key that returns CONGEE_BUSY isn't in the history. An insertion that returns CONGEE_OOM is in the
 * history as a look-up of the key that found no value. Ranges, next pairs and counts are in the history by their
 * beginning alone, also where they return CONGEE_BUSY after it. Each key that such a call passes or returns has its
 * value at a moment after the beginning. The moments follow the keys upwards, and downwards for congee_live_last,
 * congee_live_floor, congee_live_below and ranges downwards.
 *
 * A pop is in the history by the beginning of each search, and by the removal of the pair that the last search found.
 * If another handle removed or changed a found pair first, a comparison that failed is in the history. Each pair
 * of a removed range is in the history as by a pop, keys ascending.
 *
 * congee_live_compute and calls of many pairs make several of the library's calls. Each of those is in the history by
 * itself, and calls of other handles come in between. What such a function does by them is tested, and no theorem
 * states it.
 *
 * The functions for use are plain C around the library's own, and are tested. Tested, and not proved, are also the
 * costs that a comment names, the locks and the memory that a call takes, and that congee_live_charged counts each
 * segment. Proved are that its number is at most congee_live_limit, and that this limit is the number that the map was
 * made with. No theorem states that a call is busy or out of memory only when it has to be.
 *
 * A program moves here from congee_shared.h call by call. A call that both headers have takes the same arguments and
 * returns the same codes. Calls of one key promise the same. The differences:
 *
 *   - congee_live_new has no limit, and congee_live_new_with_limit counts segments of nodes. Shards have no use, since
 *     nodes are locked one by one.
 *   - Ranges, ends and neighbours aren't of one moment. congee_live_count isn't, and takes time by the number of pairs.
 *   - congee_live_pop_first searches the pair, and then removes it. No key that was present throughout the call is
 *     less, but a lesser key may have been inserted meanwhile. congee_shared_pop_first removes the least key of one
 *     moment.
 *   - congee_live_clear isn't of one moment, and has no form with `try`.
 *   - congee_shared_charged becomes congee_live_charged, which counts segments of nodes.
 *
 * What a program owes, beside the rules of congee.h on places, buffers, stack and malloc. Nothing checks these rules:
 *
 *   - A handle is used from when it was made until it is freed. One call at a time uses a handle, calls with a const
 *     handle included. Different handles, also of one map, may be in calls at once.
 *   - A handle goes to another thread by a lock, by the start or the join of a thread, or by a sequentially consistent
 *     atomic.
 *   - No thread ends inside a call, so no thread with asynchronous cancellation (PTHREAD_CANCEL_ASYNCHRONOUS) makes
 *     calls. Nodes that it had locked would stay locked. A thread that is stopped inside a call that writes keeps the
 *     locked nodes busy until it goes on. Calls that need none of these nodes go on meanwhile. A thread that is stopped
 *     inside a look-up, or between two calls, blocks nobody.
 *   - No call is made in a signal handler, or in the forked child of a process with threads. A node may be locked in
 *     the child for ever, and a call that waits for such a node doesn't end. If all other threads were between two
 *     calls at the fork, no node is.
 *
 * tools/dev/make-pages makes the manual page from this file: from this comment, the headings and each function's
 * comment.
 */
#ifndef CONGEE_LIVE_H
#define CONGEE_LIVE_H

#include "congee.h"

#ifdef __cplusplus
extern "C" {
#endif

/* A handle: one caller of a map that threads read without a lock. */
struct congee_live;

/* A note of what a handle had seen. */
struct congee_live_note;

/* -- Live maps -- */

/* Makes an empty map whose nodes take at most `bytes` bytes together, and the map's first handle. Returns CONGEE_DONE
 * with the handle in *out, or CONGEE_OOM with null there. UINT64_MAX is no limit.
 *
 * Nodes lie in segments. The first 32 have 4,096 bytes each, the next 32 twice as many, and so on up to 524,288. Each
 * handle that inserts owns a segment, and the first handle has the rest of the first one. A limit below 4,096 bytes
 * makes no map. malloc lends some 20 KB more than the segments.
 *
 * A call that needs a segment beyond the limit returns CONGEE_OOM, and changes no pair. A call that needs no new node
 * goes on as before. Nodes that removals took out are used again for nodes of their size. So a program at the limit
 * removes keys until an insertion succeeds. Nodes are never cut: a map that was emptied of dense keys at its limit may
 * refuse most random keys, where a new map takes them. Several handles that need the next segment at once may each ask
 * malloc for one, and all but one free theirs.
 *
 * Proved: the limit of the map is `bytes` (congee_live_limit), and the bytes of the segments are at most the limit at
 * any time (congee_live_usage). */
static inline int congee_live_new_with_limit(struct congee_live **out, uint64_t bytes) {
    struct congee_live_handle made = {NULL};
    int code = congee_c_live_new(bytes, &made);
    *out = made.guard;
    return code;
}

/* Makes an empty map without a limit, and its first handle. Returns CONGEE_DONE with the handle in *out, or
 * CONGEE_OOM with null there. */
static inline int congee_live_new(struct congee_live **out) {
    return congee_live_new_with_limit(out, UINT64_MAX);
}

/* Returns the limit in bytes that the map was made with, UINT64_MAX for none. Takes constant time. */
static inline uint64_t congee_live_limit(const struct congee_live *map) {
    struct congee_const_live_handle handle = {map};
    return congee_c_live_limit(&handle);
}

/* Returns the bytes of all segments of nodes that the map has so far, in constant time. Removals return no segment to
 * malloc, so the number never falls while the map lasts. */
static inline uint64_t congee_live_charged(const struct congee_live *map) {
    struct congee_const_live_handle handle = {map};
    return congee_c_live_charged(&handle);
}

/* Writes the bytes of all segments of nodes that the map has so far to *charged, and the map's limit to *limit, in
 * constant time. Neither place is null. The charged bytes are at most the limit, which is proved. */
static inline void congee_live_usage(const struct congee_live *map, uint64_t *charged, uint64_t *limit) {
    struct congee_const_live_handle handle = {map};
    uint64_t bytes = 0, most = 0;
    congee_c_live_usage(&handle, &bytes, &most);
    *charged = bytes;
    *limit = most;
}

/* Makes one more handle of the map, for another thread. Returns CONGEE_DONE with the handle in *out, or CONGEE_OOM with
 * null there and nothing changed. The new handle begins with the history that `map` has seen. A handle takes a small
 * block, so a thread keeps one for many calls. A handle that has inserted owns free nodes of one segment at most,
 * which a later handle gets once the handle is freed. */
static inline int congee_live_another(struct congee_live *map, struct congee_live **out) {
    struct congee_live_handle handle = {map}, made = {NULL};
    int code = congee_c_live_another(&handle, &made);
    *out = made.guard;
    return code;
}

/* Frees the handle, and the map with its last handle or note. For null the call does nothing. */
static inline void congee_live_free(struct congee_live *map) {
    struct congee_live_handle handle = {map};
    if (map)
        congee_c_live_free(handle);
}

/* -- Order in time -- */

/* Orders two handles of one map in time: calls that either handle had made, or had learned of, come before all later
 * calls of both. Both handles have then seen one history. The program makes sure that both handles are of one map. A
 * handle may meet itself, without effect. The call never fails, takes no memory, and touches no memory that other
 * handles use. */
static inline void congee_live_meet(struct congee_live *map, struct congee_live *other) {
    struct congee_live_handle handle = {map}, second = {other};
    if (map != other)
        congee_c_live_meet(&handle, &second);
}

/* Makes a note of the history that the handle has seen, for a handle on another thread. All calls that the handle has
 * made come before the calls that a handle makes once it has learned the note (congee_live_learn). Returns CONGEE_DONE
 * with the note in *out, or CONGEE_OOM with null there and nothing changed. A note takes a small block, and no nodes. A
 * note goes to another thread as a handle does, and the map lasts as long as its last note. */
static inline int congee_live_note(struct congee_live *map, struct congee_live_note **out) {
    struct congee_live_handle handle = {map}, made = {NULL};
    int code = congee_c_live_note(&handle, &made);
    *out = (struct congee_live_note *)made.guard;
    return code;
}

/* Orders the handle after a note: all calls that the note has seen come before the handle's later calls. The handle and
 * the note have then seen one history. The program makes sure that the note is of the handle's map, and that one call
 * at a time uses the note. The call never fails, takes no memory, and touches no memory that other handles use. */
static inline void congee_live_learn(struct congee_live *map, struct congee_live_note *note) {
    struct congee_live_handle handle = {map}, noted = {(struct congee_live *)note};
    congee_c_live_meet(&handle, &noted);
}

/* Frees the note, and the map with its last handle or note. For null the call does nothing. */
static inline void congee_live_note_free(struct congee_live_note *note) {
    congee_live_free((struct congee_live *)note);
}

/* -- One key -- */

/* Looks the key up, without a lock and without memory. Returns CONGEE_PRESENT with the key's value in *value, or
 * CONGEE_ABSENT, which leaves *value unchanged. Returns CONGEE_BUSY, with nothing changed, if writers locked or changed
 * the key's nodes at each of the call's tries. */
static inline int congee_live_try_get(const struct congee_live *map, uint64_t key, uint64_t *value) {
    struct congee_const_live_handle handle = {map};
    uint64_t it = 0;
    int code = congee_c_live_get(&handle, key, &it);
    if (code == 1 && value)
        *value = it;
    return code;
}

/* Looks the key up, without a lock and without memory. Returns CONGEE_PRESENT with the key's value in *value, or
 * CONGEE_ABSENT, which leaves *value unchanged. While writers lock or change the key's nodes, the call yields and tries
 * again. */
static inline int congee_live_get(const struct congee_live *map, uint64_t key, uint64_t *value) {
    uint64_t it = 0;
    int code;
    while ((code = congee_live_try_get(map, key, &it)) == CONGEE_BUSY)
        CONGEE_YIELD();
    if (code != 1)
        return 0;
    if (value)
        *value = it;
    return 1;
}

/* Sets the key's value. Returns CONGEE_ABSENT for a new key, which leaves *old unchanged. Returns CONGEE_PRESENT for a
 * present key, with the previous value in *old. A present key needs no memory. Returns CONGEE_OOM for a new key if
 * malloc finds no memory or the map's limit is reached: the key was absent, and all pairs are unchanged. Returns
 * CONGEE_BUSY, with nothing changed, if writers locked or changed the key's nodes at each of the call's tries. */
static inline int congee_live_try_insert(struct congee_live *map, uint64_t key, uint64_t value, uint64_t *old) {
    struct congee_live_handle handle = {map};
    uint64_t it = 0;
    int code = congee_c_live_insert(&handle, key, value, &it);
    if (code == 1 && old)
        *old = it;
    return code;
}

/* Sets the key's value. Returns CONGEE_ABSENT for a new key, which leaves *old unchanged. Returns CONGEE_PRESENT for a
 * present key, with the previous value in *old. A present key needs no memory. Returns CONGEE_OOM for a new key if
 * malloc finds no memory or the map's limit is reached: the key was absent, and all pairs are unchanged. While writers
 * lock or change the key's nodes, the call yields and tries again. */
static inline int congee_live_insert(struct congee_live *map, uint64_t key, uint64_t value, uint64_t *old) {
    int code;
    while ((code = congee_live_try_insert(map, key, value, old)) == CONGEE_BUSY)
        CONGEE_YIELD();
    return code;
}

/* Removes the key. Returns CONGEE_PRESENT with the removed value in *old, or CONGEE_ABSENT, which leaves *old
 * unchanged. A removal is never out of memory. Returns CONGEE_BUSY, with nothing changed, if writers locked or changed
 * the key's nodes at each of the call's tries. */
static inline int congee_live_try_remove(struct congee_live *map, uint64_t key, uint64_t *old) {
    struct congee_live_handle handle = {map};
    uint64_t it = 0;
    int code = congee_c_live_remove(&handle, key, &it);
    if (code == 1 && old)
        *old = it;
    return code;
}

/* Removes the key. Returns CONGEE_PRESENT with the removed value in *old, or CONGEE_ABSENT, which leaves *old
 * unchanged. A removal is never out of memory. While writers lock or change the key's nodes, the call yields and tries
 * again. */
static inline int congee_live_remove(struct congee_live *map, uint64_t key, uint64_t *old) {
    uint64_t it = 0;
    int code;
    while ((code = congee_live_try_remove(map, key, &it)) == CONGEE_BUSY)
        CONGEE_YIELD();
    if (code != 1)
        return 0;
    if (old)
        *old = it;
    return 1;
}

/* Replaces the key's value by `desired` if the value is `expected`. Returns CONGEE_PRESENT after the exchange,
 * CONGEE_ABSENT if the key is absent, and CONGEE_OTHER if the key has a value that isn't `expected`. *found gets that
 * value with CONGEE_OTHER, and is unchanged with all other codes. Without CONGEE_PRESENT the call has changed no pair.
 * The call needs no memory. Returns CONGEE_BUSY, with nothing changed, if writers locked or changed the key's nodes at
 * each of the call's tries. */
static inline int congee_live_try_compare_exchange(struct congee_live *map, uint64_t key, uint64_t expected,
                                                   uint64_t desired, uint64_t *found) {
    struct congee_live_handle handle = {map};
    uint64_t it = 0;
    int code = congee_c_live_compare_exchange(&handle, key, expected, desired, &it);
    if (code == 2 && found)
        *found = it;
    return code;
}

/* Replaces the key's value by `desired` if the value is `expected`. Returns CONGEE_PRESENT after the exchange,
 * CONGEE_ABSENT if the key is absent, and CONGEE_OTHER if the key has a value that isn't `expected`. *found gets that
 * value with CONGEE_OTHER, and is unchanged with all other codes. Without CONGEE_PRESENT the call has changed no pair.
 * The call needs no memory. While writers lock or change the key's nodes, the call yields and tries again. */
static inline int congee_live_compare_exchange(struct congee_live *map, uint64_t key, uint64_t expected,
                                               uint64_t desired, uint64_t *found) {
    int code;
    while ((code = congee_live_try_compare_exchange(map, key, expected, desired, found)) == CONGEE_BUSY)
        CONGEE_YIELD();
    return code;
}

/* Removes the key if the key's value is `expected`. Returns CONGEE_PRESENT after the removal, CONGEE_ABSENT if the key
 * is absent, and CONGEE_OTHER if the key has a value that isn't `expected`. *found gets that value with CONGEE_OTHER,
 * and is unchanged with all other codes. Without CONGEE_PRESENT the call has changed no pair. The call is never out of
 * memory. Returns CONGEE_BUSY, with nothing changed, if writers locked or changed the key's nodes at each of the call's
 * tries. */
static inline int congee_live_try_compare_remove(struct congee_live *map, uint64_t key, uint64_t expected,
                                                 uint64_t *found) {
    struct congee_live_handle handle = {map};
    uint64_t it = 0;
    int code = congee_c_live_compare_remove(&handle, key, expected, &it);
    if (code == 2 && found)
        *found = it;
    return code;
}

/* Removes the key if the key's value is `expected`. Returns CONGEE_PRESENT after the removal, CONGEE_ABSENT if the key
 * is absent, and CONGEE_OTHER if the key has a value that isn't `expected`. *found gets that value with CONGEE_OTHER,
 * and is unchanged with all other codes. Without CONGEE_PRESENT the call has changed no pair. The call is never out of
 * memory. While writers lock or change the key's nodes, the call yields and tries again. */
static inline int congee_live_compare_remove(struct congee_live *map, uint64_t key, uint64_t expected, uint64_t *found) {
    int code;
    while ((code = congee_live_try_compare_remove(map, key, expected, found)) == CONGEE_BUSY)
        CONGEE_YIELD();
    return code;
}

/* Adds `number` to the key's value, modulo 2^64. A new key gets `number` as value. To subtract, add -(uint64_t)number.
 * Returns CONGEE_ABSENT for a new key, which leaves *old unchanged. Returns CONGEE_PRESENT for a present key, with the
 * value before the addition in *old. A present key needs no memory. Returns CONGEE_OOM for a new key if malloc finds no
 * memory or the map's limit is reached: the key was absent, and all pairs are unchanged. Returns CONGEE_BUSY, with
 * nothing changed, if writers locked or changed the key's nodes at each of the call's tries. */
static inline int congee_live_try_add(struct congee_live *map, uint64_t key, uint64_t number, uint64_t *old) {
    struct congee_live_handle handle = {map};
    uint64_t it = 0;
    int code = congee_c_live_add(&handle, key, number, &it);
    if (code == 1 && old)
        *old = it;
    return code;
}

/* Adds `number` to the key's value, modulo 2^64. A new key gets `number` as value. To subtract, add -(uint64_t)number.
 * Returns CONGEE_ABSENT for a new key, which leaves *old unchanged. Returns CONGEE_PRESENT for a present key, with the
 * value before the addition in *old. A present key needs no memory. Returns CONGEE_OOM for a new key if malloc finds no
 * memory or the map's limit is reached: the key was absent, and all pairs are unchanged. While writers lock or change
 * the key's nodes, the call yields and tries again. */
static inline int congee_live_add(struct congee_live *map, uint64_t key, uint64_t number, uint64_t *old) {
    int code;
    while ((code = congee_live_try_add(map, key, number, old)) == CONGEE_BUSY)
        CONGEE_YIELD();
    return code;
}

/* Inserts the value if the key is absent, and keeps the value of a present key. Returns CONGEE_ABSENT for a new key,
 * which leaves *found unchanged. Returns CONGEE_PRESENT for a present key, with the present value in *found. Of several
 * handles that insert one absent key at once, the first gets CONGEE_ABSENT. A present key needs neither a lock nor
 * memory. Returns CONGEE_OOM for a new key if malloc finds no memory or the map's limit is reached: the key was absent,
 * and all pairs are unchanged. Returns CONGEE_BUSY, with nothing changed, if writers locked or changed the key's nodes
 * at each of the call's tries. */
static inline int congee_live_try_get_or_insert(struct congee_live *map, uint64_t key, uint64_t value, uint64_t *found) {
    struct congee_live_handle handle = {map};
    uint64_t it = 0;
    int code = congee_c_live_get_or_insert(&handle, key, value, &it);
    if (code == 1 && found)
        *found = it;
    return code;
}

/* Inserts the value if the key is absent, and keeps the value of a present key. Returns CONGEE_ABSENT for a new key,
 * which leaves *found unchanged. Returns CONGEE_PRESENT for a present key, with the present value in *found. Of several
 * handles that insert one absent key at once, the first gets CONGEE_ABSENT. A present key needs neither a lock nor
 * memory. Returns CONGEE_OOM for a new key if malloc finds no memory or the map's limit is reached: the key was absent,
 * and all pairs are unchanged. While writers lock or change the key's nodes, the call yields and tries again. */
static inline int congee_live_get_or_insert(struct congee_live *map, uint64_t key, uint64_t value, uint64_t *found) {
    int code;
    while ((code = congee_live_try_get_or_insert(map, key, value, found)) == CONGEE_BUSY)
        CONGEE_YIELD();
    return code;
}

/* Changes the key's value by a function. Looks the key up, calls f(found, &value, with) with what it found, and gives
 * the key the value that f leaves, or removes the key (congee_updater). Returns CONGEE_ABSENT if the key was absent
 * before, which leaves *old unchanged. Returns CONGEE_PRESENT for a key that was present, with the previous value in
 * *old. Nothing is locked while f runs, so f may take long, or call the map, by this handle too.
 *
 * Returns CONGEE_BUSY, with no pair changed, if writers locked or changed the key's nodes at each of the call's tries,
 * or if another handle changed the key between the look-up and the change. So f is called once, or not at all. Returns
 * CONGEE_OOM if f asks for a new key, and malloc finds no memory or the map's limit is reached: the key was absent, and
 * all pairs are unchanged. */
static inline int congee_live_try_compute(struct congee_live *map, uint64_t key, congee_updater *f, void *with,
                                          uint64_t *old) {
    uint64_t before = 0, value;
    int found = congee_live_try_get(map, key, &before), wanted, code;
    if (found == CONGEE_BUSY)
        return CONGEE_BUSY;
    value = before;
    wanted = f(found, &value, with);
    if (found == CONGEE_ABSENT) {
        code = wanted == CONGEE_ABSENT ? CONGEE_ABSENT : congee_live_try_get_or_insert(map, key, value, NULL);
        return code == CONGEE_PRESENT ? CONGEE_BUSY : code;
    }
    code = wanted == CONGEE_ABSENT ? congee_live_try_compare_remove(map, key, before, NULL)
                                   : congee_live_try_compare_exchange(map, key, before, value, NULL);
    if (code != CONGEE_PRESENT)
        return CONGEE_BUSY;
    if (old)
        *old = before;
    return CONGEE_PRESENT;
}

/* Changes the key's value by a function. Looks the key up, calls f(found, &value, with) with what it found, and gives
 * the key the value that f leaves, or removes the key (congee_updater). If another handle changes the key meanwhile, f
 * is called again with the new value, so no change is lost. Returns CONGEE_ABSENT if the key was absent before, which
 * leaves *old unchanged. Returns CONGEE_PRESENT for a key that was present, with the previous value in *old. Nothing is
 * locked while f runs, so f may take long, or call the map, by this handle too.
 *
 * Returns CONGEE_OOM if f asks for a new key, and malloc finds no memory or the map's limit is reached: the key was
 * absent, and all pairs are unchanged. While writers lock or change the key's nodes, the call yields and tries again.
 */
static inline int congee_live_compute(struct congee_live *map, uint64_t key, congee_updater *f, void *with,
                                      uint64_t *old) {
    uint64_t before = 0, value;
    int found = congee_live_get(map, key, &before), wanted, code;
    for (;;) {
        value = found == CONGEE_PRESENT ? before : 0;
        wanted = f(found, &value, with);
        if (found == CONGEE_ABSENT) {
            code = wanted == CONGEE_ABSENT ? CONGEE_ABSENT : congee_live_get_or_insert(map, key, value, &before);
            if (code != CONGEE_PRESENT)
                return code;
            found = CONGEE_PRESENT;
        } else {
            code = wanted == CONGEE_ABSENT ? congee_live_compare_remove(map, key, before, &before)
                                           : congee_live_compare_exchange(map, key, before, value, &before);
            if (code == CONGEE_PRESENT)
                break;
            found = code == CONGEE_OTHER ? CONGEE_PRESENT : CONGEE_ABSENT;
        }
    }
    if (old)
        *old = before;
    return CONGEE_PRESENT;
}

/* -- Ranges -- */

/* Writes the first pairs with start <= key < end to the buffer, keys ascending, n pairs at most. Returns CONGEE_DONE
 * with the number of pairs in *written, which isn't null. Returns CONGEE_BUSY if writers locked or changed nodes of the
 * range at each of the call's tries: *written is unchanged, and all of the buffer is unspecified. UINT64_MAX is in no
 * such range: congee_live_range_inclusive has a last key. A full buffer is continued by a call that begins at the
 * buffer's last key plus 1.
 *
 * The page is no snapshot. Each key is read at a moment of the call, and no moment is before the moment of a lower key.
 * Up to the page's last key, and in the whole range if the buffer isn't full, each key that is present throughout the
 * call is in the page. Keys that differ in the last byte alone are read at one moment. The buffer's pairs behind the
 * written ones are unspecified. The call takes no lock and no memory. */
static inline int congee_live_try_range(const struct congee_live *map, uint64_t start, uint64_t end,
                                        struct congee_pair *buffer, size_t n, size_t *written) {
    struct congee_const_live_handle handle = {map};
    uint64_t it = 0;
    int code = n == 0 ? 0 : congee_c_live_range(&handle, start, end, buffer, n, &it);
    if (code == 0)
        *written = it;
    return code;
}

/* Writes the first pairs with start <= key < end to the buffer, keys ascending, n pairs at most, and returns the number
 * of pairs. While writers lock or change nodes of the range, the call yields and tries again. UINT64_MAX is in no such
 * range: congee_live_range_inclusive has a last key. A full buffer is continued by a call that begins at the buffer's
 * last key plus 1.
 *
 * The page is no snapshot. Each key is read at a moment of the call, and no moment is before the moment of a lower key.
 * Up to the page's last key, and in the whole range if the buffer isn't full, each key that is present throughout the
 * call is in the page. Keys that differ in the last byte alone are read at one moment. The buffer's pairs behind the
 * written ones are unspecified. The call takes no lock and no memory. */
static inline size_t congee_live_range(const struct congee_live *map, uint64_t start, uint64_t end,
                                       struct congee_pair *buffer, size_t n) {
    size_t written = 0;
    while (congee_live_try_range(map, start, end, buffer, n, &written) == CONGEE_BUSY)
        CONGEE_YIELD();
    return written;
}

/* Writes the first pairs with start <= key <= last to the buffer, keys ascending, n pairs at most. Returns CONGEE_DONE
 * with the number of pairs in *written, which isn't null. Returns CONGEE_BUSY if writers locked or changed nodes of the
 * range at each of the call's tries: *written is unchanged, and all of the buffer is unspecified. A full buffer is
 * continued by a call that begins at the buffer's last key plus 1, unless that key is `last`.
 *
 * The page is no snapshot. Each key is read at a moment of the call, and no moment is before the moment of a lower key.
 * Up to the page's last key, and in the whole range if the buffer isn't full, each key that is present throughout the
 * call is in the page. Keys that differ in the last byte alone are read at one moment. The buffer's pairs behind the
 * written ones are unspecified. The call takes no lock and no memory. */
static inline int congee_live_try_range_inclusive(const struct congee_live *map, uint64_t start, uint64_t last,
                                                  struct congee_pair *buffer, size_t n, size_t *written) {
    struct congee_const_live_handle handle = {map};
    uint64_t it = 0;
    int code = n == 0 ? 0 : congee_c_live_range_inclusive(&handle, start, last, buffer, n, &it);
    if (code == 0)
        *written = it;
    return code;
}

/* Writes the first pairs with start <= key <= last to the buffer, keys ascending, n pairs at most, and returns the
 * number of pairs. While writers lock or change nodes of the range, the call yields and tries again. A full buffer is
 * continued by a call that begins at the buffer's last key plus 1, unless that key is `last`.
 *
 * The page is no snapshot. Each key is read at a moment of the call, and no moment is before the moment of a lower key.
 * Up to the page's last key, and in the whole range if the buffer isn't full, each key that is present throughout the
 * call is in the page. Keys that differ in the last byte alone are read at one moment. The buffer's pairs behind the
 * written ones are unspecified. The call takes no lock and no memory. */
static inline size_t congee_live_range_inclusive(const struct congee_live *map, uint64_t start, uint64_t last,
                                                 struct congee_pair *buffer, size_t n) {
    size_t written = 0;
    while (congee_live_try_range_inclusive(map, start, last, buffer, n, &written) == CONGEE_BUSY)
        CONGEE_YIELD();
    return written;
}

/* -- Ends and neighbours -- */

/* Finds the pair with the least key. Returns CONGEE_PRESENT with the pair in *pair, or CONGEE_ABSENT if the call found
 * no such pair, which leaves *pair unchanged. A returned pair was present at a moment of the call, and no lesser key
 * was present throughout the call. Returns CONGEE_BUSY, which leaves *pair unchanged, if writers locked or changed
 * nodes on the way at each of the call's tries. The call takes no lock and no memory. */
static inline int congee_live_try_first(const struct congee_live *map, struct congee_pair *pair) {
    struct congee_const_live_handle handle = {map};
    struct congee_pair it = {0, 0};
    int code = congee_c_live_first(&handle, &it);
    if (code == 1 && pair)
        *pair = it;
    return code;
}

/* Finds the pair with the least key. Returns CONGEE_PRESENT with the pair in *pair, or CONGEE_ABSENT if the call found
 * no such pair, which leaves *pair unchanged. A returned pair was present at a moment of the call, and no lesser key
 * was present throughout the call. While writers lock or change nodes on the way, the call yields and tries again. The
 * call takes no lock and no memory. */
static inline int congee_live_first(const struct congee_live *map, struct congee_pair *pair) {
    struct congee_pair it = {0, 0};
    int code;
    while ((code = congee_live_try_first(map, &it)) == CONGEE_BUSY)
        CONGEE_YIELD();
    if (code != 1)
        return 0;
    if (pair)
        *pair = it;
    return 1;
}

/* Finds the pair with the least key that is at least `key`. Returns CONGEE_PRESENT with the pair in *pair, or
 * CONGEE_ABSENT if the call found no such pair, which leaves *pair unchanged. A returned pair was present at a moment
 * of the call, and no key between the two was present throughout the call. Returns CONGEE_BUSY, which leaves *pair
 * unchanged, if writers locked or changed nodes on the way at each of the call's tries. The call takes no lock and no
 * memory. */
static inline int congee_live_try_ceiling(const struct congee_live *map, uint64_t key, struct congee_pair *pair) {
    struct congee_const_live_handle handle = {map};
    struct congee_pair it = {0, 0};
    int code = congee_c_live_ceiling(&handle, key, &it);
    if (code == 1 && pair)
        *pair = it;
    return code;
}

/* Finds the pair with the least key that is at least `key`. Returns CONGEE_PRESENT with the pair in *pair, or
 * CONGEE_ABSENT if the call found no such pair, which leaves *pair unchanged. A returned pair was present at a moment
 * of the call, and no key between the two was present throughout the call. While writers lock or change nodes on the
 * way, the call yields and tries again. The call takes no lock and no memory. */
static inline int congee_live_ceiling(const struct congee_live *map, uint64_t key, struct congee_pair *pair) {
    struct congee_pair it = {0, 0};
    int code;
    while ((code = congee_live_try_ceiling(map, key, &it)) == CONGEE_BUSY)
        CONGEE_YIELD();
    if (code != 1)
        return 0;
    if (pair)
        *pair = it;
    return 1;
}

/* Finds the pair with the least key above `key`. Returns CONGEE_PRESENT with the pair in *pair, or CONGEE_ABSENT if the
 * call found no such pair, which leaves *pair unchanged. A returned pair was present at a moment of the call, and no
 * key between the two was present throughout the call. Returns CONGEE_BUSY, which leaves *pair unchanged, if writers
 * locked or changed nodes on the way at each of the call's tries. The call takes no lock and no memory. */
static inline int congee_live_try_above(const struct congee_live *map, uint64_t key, struct congee_pair *pair) {
    struct congee_const_live_handle handle = {map};
    struct congee_pair it = {0, 0};
    int code = congee_c_live_above(&handle, key, &it);
    if (code == 1 && pair)
        *pair = it;
    return code;
}

/* Finds the pair with the least key above `key`. Returns CONGEE_PRESENT with the pair in *pair, or CONGEE_ABSENT if the
 * call found no such pair, which leaves *pair unchanged. A returned pair was present at a moment of the call, and no
 * key between the two was present throughout the call. While writers lock or change nodes on the way, the call yields
 * and tries again. The call takes no lock and no memory. */
static inline int congee_live_above(const struct congee_live *map, uint64_t key, struct congee_pair *pair) {
    struct congee_pair it = {0, 0};
    int code;
    while ((code = congee_live_try_above(map, key, &it)) == CONGEE_BUSY)
        CONGEE_YIELD();
    if (code != 1)
        return 0;
    if (pair)
        *pair = it;
    return 1;
}

/* Finds the pair with the greatest key. Returns CONGEE_PRESENT with the pair in *pair, or CONGEE_ABSENT if the call
 * found no such pair, which leaves *pair unchanged. A returned pair was present at a moment of the call, and no greater
 * key was present throughout the call. Returns CONGEE_BUSY, which leaves *pair unchanged, if writers locked or changed
 * nodes on the way at each of the call's tries. The call takes no lock and no memory. */
static inline int congee_live_try_last(const struct congee_live *map, struct congee_pair *pair) {
    struct congee_const_live_handle handle = {map};
    struct congee_pair it = {0, 0};
    int code = congee_c_live_last(&handle, &it);
    if (code == 1 && pair)
        *pair = it;
    return code;
}

/* Finds the pair with the greatest key. Returns CONGEE_PRESENT with the pair in *pair, or CONGEE_ABSENT if the call
 * found no such pair, which leaves *pair unchanged. A returned pair was present at a moment of the call, and no greater
 * key was present throughout the call. While writers lock or change nodes on the way, the call yields and tries again.
 * The call takes no lock and no memory. */
static inline int congee_live_last(const struct congee_live *map, struct congee_pair *pair) {
    struct congee_pair it = {0, 0};
    int code;
    while ((code = congee_live_try_last(map, &it)) == CONGEE_BUSY)
        CONGEE_YIELD();
    if (code != 1)
        return 0;
    if (pair)
        *pair = it;
    return 1;
}

/* Finds the pair with the greatest key that is at most `key`. Returns CONGEE_PRESENT with the pair in *pair, or
 * CONGEE_ABSENT if the call found no such pair, which leaves *pair unchanged. A returned pair was present at a moment
 * of the call, and no key between the two was present throughout the call. Returns CONGEE_BUSY, which leaves *pair
 * unchanged, if writers locked or changed nodes on the way at each of the call's tries. The call takes no lock and no
 * memory. */
static inline int congee_live_try_floor(const struct congee_live *map, uint64_t key, struct congee_pair *pair) {
    struct congee_const_live_handle handle = {map};
    struct congee_pair it = {0, 0};
    int code = congee_c_live_floor(&handle, key, &it);
    if (code == 1 && pair)
        *pair = it;
    return code;
}

/* Finds the pair with the greatest key that is at most `key`. Returns CONGEE_PRESENT with the pair in *pair, or
 * CONGEE_ABSENT if the call found no such pair, which leaves *pair unchanged. A returned pair was present at a moment
 * of the call, and no key between the two was present throughout the call. While writers lock or change nodes on the
 * way, the call yields and tries again. The call takes no lock and no memory. */
static inline int congee_live_floor(const struct congee_live *map, uint64_t key, struct congee_pair *pair) {
    struct congee_pair it = {0, 0};
    int code;
    while ((code = congee_live_try_floor(map, key, &it)) == CONGEE_BUSY)
        CONGEE_YIELD();
    if (code != 1)
        return 0;
    if (pair)
        *pair = it;
    return 1;
}

/* Finds the pair with the greatest key below `key`. Returns CONGEE_PRESENT with the pair in *pair, or CONGEE_ABSENT if
 * the call found no such pair, which leaves *pair unchanged. A returned pair was present at a moment of the call, and
 * no key between the two was present throughout the call. Returns CONGEE_BUSY, which leaves *pair unchanged, if writers
 * locked or changed nodes on the way at each of the call's tries. The call takes no lock and no memory. */
static inline int congee_live_try_below(const struct congee_live *map, uint64_t key, struct congee_pair *pair) {
    struct congee_const_live_handle handle = {map};
    struct congee_pair it = {0, 0};
    int code = congee_c_live_below(&handle, key, &it);
    if (code == 1 && pair)
        *pair = it;
    return code;
}

/* Finds the pair with the greatest key below `key`. Returns CONGEE_PRESENT with the pair in *pair, or CONGEE_ABSENT if
 * the call found no such pair, which leaves *pair unchanged. A returned pair was present at a moment of the call, and
 * no key between the two was present throughout the call. While writers lock or change nodes on the way, the call
 * yields and tries again. The call takes no lock and no memory. */
static inline int congee_live_below(const struct congee_live *map, uint64_t key, struct congee_pair *pair) {
    struct congee_pair it = {0, 0};
    int code;
    while ((code = congee_live_try_below(map, key, &it)) == CONGEE_BUSY)
        CONGEE_YIELD();
    if (code != 1)
        return 0;
    if (pair)
        *pair = it;
    return 1;
}

/* -- Ranges downwards -- */

/* Writes the last pairs with start <= key <= last to the buffer, keys descending, n pairs at most. Returns CONGEE_DONE
 * with the number of pairs in *written, which isn't null. Returns CONGEE_BUSY if writers locked or changed nodes of the
 * range at each of the call's tries: *written is unchanged, and all of the buffer is unspecified. A full buffer is
 * continued by a call that ends at the buffer's last key minus 1, unless that key is `start`.
 *
 * The page is no snapshot. Each key is read at a moment of the call, and no moment is before the moment of a greater
 * key. Down to the page's last key, and in the whole range if the buffer isn't full, each key that is present
 * throughout the call is in the page. The buffer's pairs behind the written ones are unspecified. The call takes no
 * lock and no memory. */
static inline int congee_live_try_range_descending(const struct congee_live *map, uint64_t start, uint64_t last,
                                                   struct congee_pair *buffer, size_t n, size_t *written) {
    struct congee_const_live_handle handle = {map};
    uint64_t it = 0;
    int code = n == 0 ? 0 : congee_c_live_range_descending(&handle, start, last, buffer, n, &it);
    if (code == 0)
        *written = it;
    return code;
}

/* Writes the last pairs with start <= key <= last to the buffer, keys descending, n pairs at most, and returns the
 * number of pairs. While writers lock or change nodes of the range, the call yields and tries again. A full buffer is
 * continued by a call that ends at the buffer's last key minus 1, unless that key is `start`.
 *
 * The page is no snapshot. Each key is read at a moment of the call, and no moment is before the moment of a greater
 * key. Down to the page's last key, and in the whole range if the buffer isn't full, each key that is present
 * throughout the call is in the page. The buffer's pairs behind the written ones are unspecified. The call takes no
 * lock and no memory. */
static inline size_t congee_live_range_descending(const struct congee_live *map, uint64_t start, uint64_t last,
                                                  struct congee_pair *buffer, size_t n) {
    size_t written = 0;
    while (congee_live_try_range_descending(map, start, last, buffer, n, &written) == CONGEE_BUSY)
        CONGEE_YIELD();
    return written;
}

/* -- Pops -- */

/* Removes the pair with the least key, if that key is at most `key`: finds the pair as congee_live_first does, and
 * removes the key if its value is still the one found. Returns CONGEE_PRESENT with the removed pair in *pair, or
 * CONGEE_ABSENT if the call found no such pair, which leaves *pair unchanged. Each pair goes to one caller. No lesser
 * key was present throughout the call, and with CONGEE_ABSENT no key that is at most `key` was. A lesser key that
 * another handle inserts meanwhile stays. A pop is never out of memory. If another handle removes or changes the found
 * pair first, the call searches again. Returns CONGEE_BUSY, which leaves all pairs and *pair unchanged, if writers
 * locked or changed nodes on the way at each of the call's tries, or after a thousand searches. */
static inline int congee_live_try_pop_first_to(struct congee_live *map, uint64_t key, struct congee_pair *pair) {
    struct congee_live_handle handle = {map};
    struct congee_pair it = {0, 0};
    int code = congee_c_live_pop_first_to(&handle, key, &it);
    if (code == 1 && pair)
        *pair = it;
    return code;
}

/* Removes the pair with the least key, if that key is at most `key`: finds the pair as congee_live_first does, and
 * removes the key if its value is still the one found. Returns CONGEE_PRESENT with the removed pair in *pair, or
 * CONGEE_ABSENT if the call found no such pair, which leaves *pair unchanged. Each pair goes to one caller. No lesser
 * key was present throughout the call, and with CONGEE_ABSENT no key that is at most `key` was. A lesser key that
 * another handle inserts meanwhile stays. A pop is never out of memory. While writers lock or change nodes on the way,
 * the call yields and tries again. If another handle removes or changes the found pair first, the call searches
 * again. */
static inline int congee_live_pop_first_to(struct congee_live *map, uint64_t key, struct congee_pair *pair) {
    struct congee_pair it = {0, 0};
    int code;
    while ((code = congee_live_try_pop_first_to(map, key, &it)) == CONGEE_BUSY)
        CONGEE_YIELD();
    if (code != 1)
        return 0;
    if (pair)
        *pair = it;
    return 1;
}

/* Removes the pair with the least key: finds the pair as congee_live_first does, and removes the key if its value is
 * still the one found. Returns CONGEE_PRESENT with the removed pair in *pair, or CONGEE_ABSENT if the call found no
 * pair, which leaves *pair unchanged. Each pair goes to one caller. No lesser key was present throughout the call, and
 * with CONGEE_ABSENT no key was. A lesser key that another handle inserts meanwhile stays. A pop is never out of
 * memory. If another handle removes or changes the found pair first, the call searches again. Returns CONGEE_BUSY,
 * which leaves all pairs and *pair unchanged, if writers locked or changed nodes on the way at each of the call's
 * tries, or after a thousand searches. */
static inline int congee_live_try_pop_first(struct congee_live *map, struct congee_pair *pair) {
    return congee_live_try_pop_first_to(map, UINT64_MAX, pair);
}

/* Removes the pair with the least key: finds the pair as congee_live_first does, and removes the key if its value is
 * still the one found. Returns CONGEE_PRESENT with the removed pair in *pair, or CONGEE_ABSENT if the call found no
 * pair, which leaves *pair unchanged. Each pair goes to one caller. No lesser key was present throughout the call, and
 * with CONGEE_ABSENT no key was. A lesser key that another handle inserts meanwhile stays. A pop is never out of
 * memory. While writers lock or change nodes on the way, the call yields and tries again. If another handle removes or
 * changes the found pair first, the call searches again. */
static inline int congee_live_pop_first(struct congee_live *map, struct congee_pair *pair) {
    return congee_live_pop_first_to(map, UINT64_MAX, pair);
}

/* Removes the pair with the greatest key, if that key is at least `key`: finds the pair as congee_live_last does, and
 * removes the key if its value is still the one found. Returns CONGEE_PRESENT with the removed pair in *pair, or
 * CONGEE_ABSENT if the call found no such pair, which leaves *pair unchanged. Each pair goes to one caller. No greater
 * key was present throughout the call, and with CONGEE_ABSENT no key that is at least `key` was. A greater key that
 * another handle inserts meanwhile stays. A pop is never out of memory. If another handle removes or changes the found
 * pair first, the call searches again. Returns CONGEE_BUSY, which leaves all pairs and *pair unchanged, if writers
 * locked or changed nodes on the way at each of the call's tries, or after a thousand searches. */
static inline int congee_live_try_pop_last_from(struct congee_live *map, uint64_t key, struct congee_pair *pair) {
    struct congee_live_handle handle = {map};
    struct congee_pair it = {0, 0};
    int code = congee_c_live_pop_last_from(&handle, key, &it);
    if (code == 1 && pair)
        *pair = it;
    return code;
}

/* Removes the pair with the greatest key, if that key is at least `key`: finds the pair as congee_live_last does, and
 * removes the key if its value is still the one found. Returns CONGEE_PRESENT with the removed pair in *pair, or
 * CONGEE_ABSENT if the call found no such pair, which leaves *pair unchanged. Each pair goes to one caller. No greater
 * key was present throughout the call, and with CONGEE_ABSENT no key that is at least `key` was. A greater key that
 * another handle inserts meanwhile stays. A pop is never out of memory. While writers lock or change nodes on the way,
 * the call yields and tries again. If another handle removes or changes the found pair first, the call searches
 * again. */
static inline int congee_live_pop_last_from(struct congee_live *map, uint64_t key, struct congee_pair *pair) {
    struct congee_pair it = {0, 0};
    int code;
    while ((code = congee_live_try_pop_last_from(map, key, &it)) == CONGEE_BUSY)
        CONGEE_YIELD();
    if (code != 1)
        return 0;
    if (pair)
        *pair = it;
    return 1;
}

/* Removes the pair with the greatest key: finds the pair as congee_live_last does, and removes the key if its value is
 * still the one found. Returns CONGEE_PRESENT with the removed pair in *pair, or CONGEE_ABSENT if the call found no
 * pair, which leaves *pair unchanged. Each pair goes to one caller. No greater key was present throughout the call, and
 * with CONGEE_ABSENT no key was. A greater key that another handle inserts meanwhile stays. A pop is never out of
 * memory. If another handle removes or changes the found pair first, the call searches again. Returns CONGEE_BUSY,
 * which leaves all pairs and *pair unchanged, if writers locked or changed nodes on the way at each of the call's
 * tries, or after a thousand searches. */
static inline int congee_live_try_pop_last(struct congee_live *map, struct congee_pair *pair) {
    return congee_live_try_pop_last_from(map, 0, pair);
}

/* Removes the pair with the greatest key: finds the pair as congee_live_last does, and removes the key if its value is
 * still the one found. Returns CONGEE_PRESENT with the removed pair in *pair, or CONGEE_ABSENT if the call found no
 * pair, which leaves *pair unchanged. Each pair goes to one caller. No greater key was present throughout the call, and
 * with CONGEE_ABSENT no key was. A greater key that another handle inserts meanwhile stays. A pop is never out of
 * memory. While writers lock or change nodes on the way, the call yields and tries again. If another handle removes or
 * changes the found pair first, the call searches again. */
static inline int congee_live_pop_last(struct congee_live *map, struct congee_pair *pair) {
    return congee_live_pop_last_from(map, 0, pair);
}

/* -- Many pairs -- */

/* Calls f(pair, with) for each pair with start <= key <= last, keys ascending, until a call returns something else than
 * 0. Returns what the last call of f returned, or 0 without a call. Reads pages by congee_live_range_inclusive: 16
 * pairs, then 256 each. So each key is read at a moment of its own, and each key that is present throughout the call is
 * among them. Nothing is locked while f runs, so f may call the map, by this handle too. While writers lock or change
 * nodes on the way, the call yields and tries again. */
static inline int congee_live_each(const struct congee_live *map, uint64_t start, uint64_t last, congee_visitor *f,
                                   void *with) {
    struct congee_pair page[CONGEE_PAGE];
    size_t room = CONGEE_FIRST_PAGE, ready = 0, n;
    for (;;) {
        for (; ready < room; ready++)
            page[ready].key = page[ready].value = 0;
        n = congee_live_range_inclusive(map, start, last, page, room);
        for (size_t i = 0; i < n; i++) {
            int code = f(page[i], with);
            if (code != 0)
                return code;
        }
        if (n < room || page[n - 1].key == last)
            return 0;
        start = page[n - 1].key + 1;
        room = CONGEE_PAGE;
    }
}

/* Calls f(pair, with) for each pair with start <= key <= last, keys descending, until a call returns something else
 * than 0. Returns what the last call of f returned, or 0 without a call. Reads pages by congee_live_range_descending:
 * 16 pairs, then 256 each. So each key is read at a moment of its own, and each key that is present throughout the call
 * is among them. Nothing is locked while f runs, so f may call the map, by this handle too. While writers lock or change
 * nodes on the way, the call yields and tries again. */
static inline int congee_live_each_descending(const struct congee_live *map, uint64_t start, uint64_t last,
                                              congee_visitor *f, void *with) {
    struct congee_pair page[CONGEE_PAGE];
    size_t room = CONGEE_FIRST_PAGE, ready = 0, n;
    for (;;) {
        for (; ready < room; ready++)
            page[ready].key = page[ready].value = 0;
        n = congee_live_range_descending(map, start, last, page, room);
        for (size_t i = 0; i < n; i++) {
            int code = f(page[i], with);
            if (code != 0)
                return code;
        }
        if (n < room || page[n - 1].key == start)
            return 0;
        last = page[n - 1].key - 1;
        room = CONGEE_PAGE;
    }
}

/* Inserts n pairs in their order, by a call of congee_live_insert for each. Between two of them calls of other handles
 * come in. Returns how many pairs were inserted: n, or fewer if the next insertion was out of memory. The pairs before
 * it are in the map. While writers lock or change nodes on the way, the call yields and tries again. */
static inline size_t congee_live_insert_many(struct congee_live *map, const struct congee_pair *pairs, size_t n) {
    size_t done = 0;
    while (done < n && congee_live_insert(map, pairs[done].key, pairs[done].value, NULL) != CONGEE_OOM)
        done++;
    return done;
}

/* Removes the pairs with start <= key <= last. Returns how many pairs this call removed. Each pair is in the history as
 * by a pop, keys ascending. Each key of the range that is present when the call begins is removed meanwhile, by this
 * call or by another handle. A key that another handle inserts meanwhile may stay. While writers lock or change nodes
 * on the way, the call yields and tries again. The call is never out of memory. */
static inline uint64_t congee_live_remove_range_inclusive(struct congee_live *map, uint64_t start, uint64_t last) {
    struct congee_live_handle handle = {map};
    uint64_t removed = 0, count = 0, reached = 0;
    int code;
    while ((code = congee_c_live_remove_some(&handle, start, last, &count, &reached)) != CONGEE_ABSENT) {
        if (code == CONGEE_BUSY) {
            CONGEE_YIELD();
            continue;
        }
        removed += count;
        if (reached == last)
            break;
        start = reached + 1;
    }
    return removed;
}

/* Calls keep(pair, with) for each pair, keys ascending, and removes the pairs for which `keep` returns false, each at a
 * moment of its own. Returns how many pairs this call removed. A pair is removed only with a value for which `keep`
 * returned false: if another handle changes the value in between, `keep` is called again with the new value. So each
 * key that is present throughout the call, and stays, had a value meanwhile for which `keep` returned true. A key that
 * another handle inserts meanwhile may stay unasked. Nothing is locked while `keep` runs, so `keep` may take long, or
 * call the map, by this handle too. The call is never out of memory. Reads pages of 64 pairs, and calls
 * congee_live_compare_remove. While writers lock or change nodes on the way, the call yields and tries again. */
static inline uint64_t congee_live_retain(struct congee_live *map, congee_predicate *keep, void *with) {
    struct congee_pair page[64] = {{0, 0}};
    uint64_t start = 0, removed = 0;
    size_t n;
    while ((n = congee_live_range_inclusive(map, start, UINT64_MAX, page, 64)) > 0) {
        for (size_t i = 0; i < n; i++) {
            int code = CONGEE_OTHER;
            while (code == CONGEE_OTHER && !keep(page[i], with))
                code = congee_live_compare_remove(map, page[i].key, page[i].value, &page[i].value);
            removed += code == CONGEE_PRESENT;
        }
        if (n < 64 || page[63].key == UINT64_MAX)
            break;
        start = page[63].key + 1;
    }
    return removed;
}

/* Removes all pairs. Each pair is in the history as by a pop, keys ascending. Each key that is present when the call
 * begins is removed meanwhile, by this call or by another handle. A key that another handle inserts meanwhile may stay.
 * While writers lock or change nodes on the way, the call yields and tries again. The call is never out of memory. The
 * map keeps its segments. */
static inline void congee_live_clear(struct congee_live *map) {
    congee_live_remove_range_inclusive(map, 0, UINT64_MAX);
}

/* Copies the pairs into a new map with one owner and without a limit (congee.h). Returns CONGEE_DONE with the copy in
 * *out, or CONGEE_OOM with null there. The live map is unchanged. congee_freeze makes readers of the copy, for threads
 * that look at it side by side.
 *
 * The copy is of no single moment. The call reads pages of 64 pairs by congee_live_range_inclusive. Each key is read at
 * a moment of the call, and no moment is before the moment of a lower key. A key of the copy had its value at the key's
 * moment, and a key that the copy lacks was absent at its moment. So each key that is present throughout the call is in
 * the copy, and a map that nobody changes meanwhile is copied exactly. If other handles write, the map may never have
 * had just these pairs. The copy may have a change of a greater key, and lack an earlier change of a lower key. Keys
 * that differ in the last byte alone are read at one moment if they are in one page.
 *
 * Nothing is locked, and writers go on. While writers lock or change nodes on the way, the call yields and tries again.
 */
static inline int congee_live_snapshot(const struct congee_live *map, struct congee **out) {
    struct congee_pair page[64] = {{0, 0}};
    uint64_t start = 0;
    size_t n;
    if (congee_new(out) == CONGEE_OOM)
        return CONGEE_OOM;
    for (;;) {
        n = congee_live_range_inclusive(map, start, UINT64_MAX, page, 64);
        if (congee_insert_many(*out, page, n) < n) {
            congee_free(*out);
            *out = NULL;
            return CONGEE_OOM;
        }
        if (n < 64 || page[63].key == UINT64_MAX)
            return CONGEE_DONE;
        start = page[63].key + 1;
    }
}

/* Copies the pairs, and freezes the copy: threads look at it side by side, each by a reader of its own (congee.h).
 * Returns CONGEE_DONE with the first reader in *out, or CONGEE_OOM with null there and no copy left. The live map is
 * unchanged. congee_thaw makes a map with one owner of the copy, by its last reader.
 *
 * The copy is of no single moment: each key is read at a moment of the call, and no moment is before the moment of a
 * lower key (congee_live_snapshot). While writers lock or change nodes on the way, the call yields and tries again. */
static inline int congee_live_snapshot_frozen(const struct congee_live *map, struct congee_frozen **out) {
    struct congee *copy;
    int code = congee_live_snapshot(map, &copy);
    *out = NULL;
    if (code == CONGEE_DONE)
        code = congee_freeze(&copy, out);
    congee_free(copy);
    return code;
}

/* -- Counts -- */

/* Tests whether the map has no pair, by a search for the first pair. Returns 1 if the call found no pair, so no key was
 * present throughout the call. Returns 0 if the call found a pair, which was present at a moment of the call. Returns
 * CONGEE_BUSY if writers locked or changed nodes on the way at each of the call's tries. The call takes no lock and no
 * memory. */
static inline int congee_live_try_is_empty(const struct congee_live *map) {
    int code = congee_live_try_first(map, NULL);
    return code == CONGEE_BUSY ? code : code == 0;
}

/* Tests whether the map has no pair, by a search for the first pair. Returns true if the call found no pair, so no key
 * was present throughout the call. Returns false if the call found a pair, which was present at a moment of the call.
 * While writers lock or change nodes on the way, the call yields and tries again. The call takes no lock and no memory.
 */
static inline bool congee_live_is_empty(const struct congee_live *map) {
    int code;
    while ((code = congee_live_try_is_empty(map)) == CONGEE_BUSY)
        CONGEE_YIELD();
    return code == 1;
}

/* Counts the pairs. Returns CONGEE_DONE with the number in *count, which isn't null. The number saturates at
 * UINT64_MAX. Returns CONGEE_BUSY, which leaves *count unchanged, if writers locked or changed nodes on the way at each
 * of the call's tries. The count is exact if no handle writes meanwhile. Otherwise each key counts, or not, as of a
 * moment of the call, and a key that is present throughout the call counts. The call reads all nodes that have values,
 * so the time grows with the number of pairs. The call takes no lock and no memory. */
static inline int congee_live_try_count(const struct congee_live *map, uint64_t *count) {
    struct congee_const_live_handle handle = {map};
    uint64_t it = 0;
    int code = congee_c_live_count(&handle, &it);
    if (code == 0)
        *count = it;
    return code;
}

/* Counts the pairs, and returns the number, which saturates at UINT64_MAX. While writers lock or change nodes on the
 * way, the call yields and tries again. The count is exact if no handle writes meanwhile. Otherwise each key counts, or
 * not, as of a moment of the call, and a key that is present throughout the call counts. The call reads all nodes that
 * have values, so the time grows with the number of pairs. The call takes no lock and no memory. */
static inline uint64_t congee_live_count(const struct congee_live *map) {
    uint64_t count = 0;
    while (congee_live_try_count(map, &count) == CONGEE_BUSY)
        CONGEE_YIELD();
    return count;
}

#ifdef __cplusplus
}
#endif
#endif

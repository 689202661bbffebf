/* congee_shared.h: a map from uint64_t to uint64_t that threads share, under locks. C11 and C++11. MIT license.
 *
 * congee.h includes this header. Each thread calls the map by a handle of its own. A map is under one lock, or in 64
 * shards with a lock each. A call of one key takes the lock of the key's shard, and every other call takes all locks. A
 * call holds its locks only while it works. Meanwhile it waits for no other call, and calls nothing of the program but
 * malloc, realloc and free. A map that is read without a lock is in congee_live.h, which lists what differs there.
 *
 * A call tries each lock a bounded number of times. If a lock is taken at each try, the call releases the locks that it
 * has.
 *
 *   - congee_shared_try_get and all calls with `try` return CONGEE_BUSY then, and nothing has changed. Such a call ends
 *     whatever other threads do with the map.
 *   - congee_shared_get and all calls without `try` yield and begin again, until the locks are theirs. A free lock goes
 *     to whoever tries next, so nothing bounds how long a call takes. CONGEE_YIELD() yields: sched_yield, unless the
 *     program defines the macro before including congee.h. A thread with a real-time priority has to sleep there.
 *
 * What the library's own functions return is proved of their code (congee_exports.h): calls are sequentially
 * consistent. Each handle has seen a history of the map, which is a legal run of one ordered map. The history explains
 * each reply of the handle, and has the handle's own calls in their order. Any two handles can meet at any time, which
 * never fails, and have one history from then on. So no two handles have seen histories that contradict each other. A
 * new handle begins with the history of the handle that made it. Handles that meet are in order of time from then on,
 * and so are a handle that makes a note and a handle that learns the note (congee_shared_meet, congee_shared_note). A
 * call also comes after all calls that had ended before, by whatever handle. For handles that never met, only tests
 * show that. A call that returns CONGEE_BUSY or CONGEE_OOM isn't in the history.
 *
 * congee_shared_compute, pops with a bound and calls of many pairs make several of the library's calls. Each of those
 * is in the history by itself, also where the function returns CONGEE_BUSY after it, and calls of other handles come in
 * between. What such a function does by them is tested, and no theorem states it.
 *
 * The functions for use are plain C around the library's own, and are tested. Tested, and not proved, are also the
 * costs that a comment names, the locks and the memory that a call takes, and that the limit is the number that the map
 * was made with. No theorem states that a call is busy or out of memory only when it has to be.
 *
 * What a program owes, beside the rules of congee.h on places, buffers, stack and malloc. Nothing checks these rules:
 *
 *   - A handle is used from when it was made until it is freed. One call at a time uses a handle, calls with a const
 *     handle included. Different handles, also of one map, may be in calls at once.
 *   - A handle goes to another thread by a lock, by the start or the join of a thread, or by a sequentially consistent
 *     atomic.
 *   - No thread ends inside a call, so no thread with asynchronous cancellation (PTHREAD_CANCEL_ASYNCHRONOUS) makes
 *     calls. The map would stay busy for all others. A thread that is stopped inside a call keeps the map busy until it
 *     goes on. A thread that is stopped between two calls blocks nobody.
 *   - No call is made in a signal handler. Inside a call that the signal interrupts the map is busy, so a call that
 *     waits would wait for ever.
 *   - No call is made in the forked child of a process with threads. If another thread was in a call at the fork, the
 *     map is busy in the child for ever.
 *
 * tools/dev/make-pages makes the manual page from this file: from this comment, the headings and each function's
 * comment.
 */
#ifndef CONGEE_SHARED_H
#define CONGEE_SHARED_H

#include "congee.h"

#ifndef CONGEE_YIELD
#include <sched.h>
#define CONGEE_YIELD() sched_yield()
#endif

#ifdef __cplusplus
extern "C" {
#endif

/* A handle: one caller of a map that threads share. */
struct congee_shared;

/* A note of what a handle had seen. */
struct congee_shared_note;

/* -- Shared maps -- */

/* Makes an empty map under one lock whose nodes may take so many bytes by their stated sizes, and its first handle.
 * UINT64_MAX is no limit. The sizes are 64, 168, 672 or 2104 bytes for a node of up to 4, 16, 48 or 256 entries. The
 * first node is of the largest size, so a smaller limit fails. The sizes are at most the limit at any time, which is
 * proved (congee_shared_usage). That it is the number of bytes handed over here is tested, and no theorem for C states
 * it. Returns CONGEE_DONE with the handle in *out, or CONGEE_OOM with null there. */
static inline int congee_shared_new(uint64_t limit, struct congee_shared **out) {
    struct congee_shared_handle made = {NULL};
    int code = congee_c_shared_new(limit, &made);
    *out = made.guard;
    return code;
}

/* Makes an empty map under one lock whose nodes take at most `bytes` bytes together by their stated sizes, and its
 * first handle. The place of the handle is the first argument, as of congee_new_with_limit. UINT64_MAX is no limit, and
 * a limit below 2104 bytes fails at once. Returns CONGEE_DONE with the handle in *out, or CONGEE_OOM with null there.
 */
static inline int congee_shared_new_with_limit(struct congee_shared **out, uint64_t bytes) {
    return congee_shared_new(bytes, out);
}

/* Makes an empty map in 64 shards, for many threads, and its first handle. Keys that differ in their last eight bits
 * alone are of one shard. Calls of keys of different shards go on side by side. A call that is not of one key takes
 * 64 locks, and looks into 64 trees. Each shard has a 64th of the limit, rounded down, so a call may be out of memory
 * while other shards have room. The 64 first nodes take 134,656 bytes. Returns CONGEE_DONE with the handle in *out,
 * or CONGEE_OOM with null there. */
static inline int congee_shared_new_sharded(uint64_t limit, struct congee_shared **out) {
    struct congee_shared_handle made = {NULL};
    int code = congee_c_shared_new_sharded(limit, &made);
    *out = made.guard;
    return code;
}

/* Makes one more handle of the map, for another thread. Returns CONGEE_DONE with the handle in *out, or CONGEE_OOM with
 * null there, and no pair has changed. The new handle begins with the history that `map` has seen. A handle takes a
 * small block, so a thread keeps one for many calls. */
static inline int congee_shared_another(struct congee_shared *map, struct congee_shared **out) {
    struct congee_shared_handle handle = {map}, made = {NULL};
    int code = congee_c_shared_another(&handle, &made);
    *out = made.guard;
    return code;
}

/* Frees the handle, and the map with its last handle or note. For null the call does nothing. */
static inline void congee_shared_free(struct congee_shared *map) {
    struct congee_shared_handle handle = {map};
    if (map)
        congee_c_shared_free(handle);
}

/* -- Order in time -- */

/* Orders two handles of one map in time: calls that either handle had made, or had learned of, come before all later
 * calls of both. Both handles have then seen one history. The program makes sure that both handles are of one map. A
 * handle may meet itself, without effect. The call never fails, and takes no lock and no memory. */
static inline void congee_shared_meet(struct congee_shared *map, struct congee_shared *other) {
    struct congee_shared_handle handle = {map}, second = {other};
    if (map != other)
        congee_c_shared_meet(&handle, &second);
}

/* Makes a note of the history that the handle has seen, for a handle on another thread. All calls that the handle has
 * made come before the calls that a handle makes once it has learned the note (congee_shared_learn). Returns
 * CONGEE_DONE with the note in *out, or CONGEE_OOM with null there, and no pair has changed. A note takes a small
 * block. A note goes to another thread as a handle does, and the map lasts as long as its last note. */
static inline int congee_shared_note(struct congee_shared *map, struct congee_shared_note **out) {
    struct congee_shared *made;
    int code = congee_shared_another(map, &made);
    *out = (struct congee_shared_note *)made;
    return code;
}

/* Orders the handle after a note: all calls that the note has seen come before the handle's later calls. The handle and
 * the note have then seen one history. The program makes sure that the note is of the handle's map, and that one call
 * at a time uses the note. The call never fails, and takes no lock and no memory. */
static inline void congee_shared_learn(struct congee_shared *map, struct congee_shared_note *note) {
    congee_shared_meet(map, (struct congee_shared *)note);
}

/* Frees the note, and the map with its last handle or note. For null the call does nothing. */
static inline void congee_shared_note_free(struct congee_shared_note *note) {
    congee_shared_free((struct congee_shared *)note);
}

/* -- One key -- */

/* Looks the key up, without memory. Returns CONGEE_PRESENT with the key's value in *value, or CONGEE_ABSENT, which
 * leaves *value unchanged. Returns CONGEE_BUSY, with nothing changed, if a lock of the call was taken at each of its
 * tries. */
static inline int congee_shared_try_get(const struct congee_shared *map, uint64_t key, uint64_t *value) {
    struct congee_const_shared_handle handle = {map};
    uint64_t it = 0;
    int code = congee_c_shared_get(&handle, key, &it);
    if (code == 1 && value)
        *value = it;
    return code;
}

/* Looks the key up, without memory. Returns CONGEE_PRESENT with the key's value in *value, or CONGEE_ABSENT, which
 * leaves *value unchanged. While a lock of the call is taken, the call yields and tries again. */
static inline int congee_shared_get(const struct congee_shared *map, uint64_t key, uint64_t *value) {
    uint64_t it = 0;
    int code;
    while ((code = congee_shared_try_get(map, key, &it)) == CONGEE_BUSY)
        CONGEE_YIELD();
    if (code != 1)
        return 0;
    if (value)
        *value = it;
    return 1;
}

/* Sets the key's value. Returns CONGEE_ABSENT for a new key, which leaves *old unchanged. Returns CONGEE_PRESENT for a
 * present key, with the previous value in *old. Returns CONGEE_OOM, with nothing changed, if malloc finds no memory or
 * the map's limit is reached. A present key needs no memory. Returns CONGEE_BUSY, with nothing changed, if a lock of
 * the call was taken at each of its tries. */
static inline int congee_shared_try_insert(struct congee_shared *map, uint64_t key, uint64_t value, uint64_t *old) {
    struct congee_shared_handle handle = {map};
    uint64_t it = 0;
    int code = congee_c_shared_insert(&handle, key, value, &it);
    if (code == 1 && old)
        *old = it;
    return code;
}

/* Sets the key's value. Returns CONGEE_ABSENT for a new key, which leaves *old unchanged. Returns CONGEE_PRESENT for a
 * present key, with the previous value in *old. Returns CONGEE_OOM, with nothing changed, if malloc finds no memory or
 * the map's limit is reached. A present key needs no memory. While a lock of the call is taken, the call yields and
 * tries again. */
static inline int congee_shared_insert(struct congee_shared *map, uint64_t key, uint64_t value, uint64_t *old) {
    int code;
    while ((code = congee_shared_try_insert(map, key, value, old)) == CONGEE_BUSY)
        CONGEE_YIELD();
    return code;
}

/* Removes the key. Returns CONGEE_PRESENT with the removed value in *old, or CONGEE_ABSENT, which leaves *old
 * unchanged. A removal is never out of memory. Returns CONGEE_BUSY, with nothing changed, if a lock of the call was
 * taken at each of its tries. */
static inline int congee_shared_try_remove(struct congee_shared *map, uint64_t key, uint64_t *old) {
    struct congee_shared_handle handle = {map};
    uint64_t it = 0;
    int code = congee_c_shared_remove(&handle, key, &it);
    if (code == 1 && old)
        *old = it;
    return code;
}

/* Removes the key. Returns CONGEE_PRESENT with the removed value in *old, or CONGEE_ABSENT, which leaves *old
 * unchanged. A removal is never out of memory. While a lock of the call is taken, the call yields and tries again. */
static inline int congee_shared_remove(struct congee_shared *map, uint64_t key, uint64_t *old) {
    uint64_t it = 0;
    int code;
    while ((code = congee_shared_try_remove(map, key, &it)) == CONGEE_BUSY)
        CONGEE_YIELD();
    if (code != 1)
        return 0;
    if (old)
        *old = it;
    return 1;
}

/* Replaces the key's value by `desired` if the value is `expected`. Returns CONGEE_PRESENT after the exchange,
 * CONGEE_ABSENT if the key is absent, and CONGEE_OTHER if the key has a value that isn't `expected`. *found gets that
 * value with CONGEE_OTHER, and is unchanged with all other codes. Without CONGEE_PRESENT the call has changed nothing.
 * The call needs no memory. Returns CONGEE_BUSY, with nothing changed, if a lock of the call was taken at each of its
 * tries. */
static inline int congee_shared_try_compare_exchange(struct congee_shared *map, uint64_t key, uint64_t expected,
                                                     uint64_t desired, uint64_t *found) {
    struct congee_shared_handle handle = {map};
    uint64_t it = 0;
    int code = congee_c_shared_compare_exchange(&handle, key, expected, desired, &it);
    if (code == 2 && found)
        *found = it;
    return code;
}

/* Replaces the key's value by `desired` if the value is `expected`. Returns CONGEE_PRESENT after the exchange,
 * CONGEE_ABSENT if the key is absent, and CONGEE_OTHER if the key has a value that isn't `expected`. *found gets that
 * value with CONGEE_OTHER, and is unchanged with all other codes. Without CONGEE_PRESENT the call has changed nothing.
 * The call needs no memory. While a lock of the call is taken, the call yields and tries again. */
static inline int congee_shared_compare_exchange(struct congee_shared *map, uint64_t key, uint64_t expected,
                                                 uint64_t desired, uint64_t *found) {
    int code;
    while ((code = congee_shared_try_compare_exchange(map, key, expected, desired, found)) == CONGEE_BUSY)
        CONGEE_YIELD();
    return code;
}

/* Removes the key if the key's value is `expected`. Returns CONGEE_PRESENT after the removal, CONGEE_ABSENT if the key
 * is absent, and CONGEE_OTHER if the key has a value that isn't `expected`. *found gets that value with CONGEE_OTHER,
 * and is unchanged with all other codes. Without CONGEE_PRESENT the call has changed nothing. The call is never out of
 * memory. Returns CONGEE_BUSY, with nothing changed, if a lock of the call was taken at each of its tries. */
static inline int congee_shared_try_compare_remove(struct congee_shared *map, uint64_t key, uint64_t expected,
                                                   uint64_t *found) {
    struct congee_shared_handle handle = {map};
    uint64_t it = 0;
    int code = congee_c_shared_compare_remove(&handle, key, expected, &it);
    if (code == 2 && found)
        *found = it;
    return code;
}

/* Removes the key if the key's value is `expected`. Returns CONGEE_PRESENT after the removal, CONGEE_ABSENT if the key
 * is absent, and CONGEE_OTHER if the key has a value that isn't `expected`. *found gets that value with CONGEE_OTHER,
 * and is unchanged with all other codes. Without CONGEE_PRESENT the call has changed nothing. The call is never out of
 * memory. While a lock of the call is taken, the call yields and tries again. */
static inline int congee_shared_compare_remove(struct congee_shared *map, uint64_t key, uint64_t expected,
                                               uint64_t *found) {
    int code;
    while ((code = congee_shared_try_compare_remove(map, key, expected, found)) == CONGEE_BUSY)
        CONGEE_YIELD();
    return code;
}

/* Adds `number` to the key's value, modulo 2^64. A new key gets `number` as value. To subtract, add -(uint64_t)number.
 * Returns CONGEE_ABSENT for a new key, which leaves *old unchanged. Returns CONGEE_PRESENT for a present key, with the
 * value before the addition in *old. Returns CONGEE_OOM, with nothing changed, if malloc finds no memory or the map's
 * limit is reached. A present key needs no memory. Returns CONGEE_BUSY, with nothing changed, if a lock of the call was
 * taken at each of its tries. */
static inline int congee_shared_try_add(struct congee_shared *map, uint64_t key, uint64_t number, uint64_t *old) {
    struct congee_shared_handle handle = {map};
    uint64_t it = 0;
    int code = congee_c_shared_add(&handle, key, number, &it);
    if (code == 1 && old)
        *old = it;
    return code;
}

/* Adds `number` to the key's value, modulo 2^64. A new key gets `number` as value. To subtract, add -(uint64_t)number.
 * Returns CONGEE_ABSENT for a new key, which leaves *old unchanged. Returns CONGEE_PRESENT for a present key, with the
 * value before the addition in *old. Returns CONGEE_OOM, with nothing changed, if malloc finds no memory or the map's
 * limit is reached. A present key needs no memory. While a lock of the call is taken, the call yields and tries again.
 */
static inline int congee_shared_add(struct congee_shared *map, uint64_t key, uint64_t number, uint64_t *old) {
    int code;
    while ((code = congee_shared_try_add(map, key, number, old)) == CONGEE_BUSY)
        CONGEE_YIELD();
    return code;
}

/* Inserts the value if the key is absent, and keeps the value of a present key. Returns CONGEE_ABSENT for a new key,
 * which leaves *found unchanged. Returns CONGEE_PRESENT for a present key, with the present value in *found. Of several
 * handles that insert one absent key at once, the first gets CONGEE_ABSENT. Returns CONGEE_OOM, with nothing changed,
 * if malloc finds no memory or the map's limit is reached. A present key needs no memory. Returns CONGEE_BUSY, with
 * nothing changed, if a lock of the call was taken at each of its tries. */
static inline int congee_shared_try_get_or_insert(struct congee_shared *map, uint64_t key, uint64_t value,
                                                  uint64_t *found) {
    struct congee_shared_handle handle = {map};
    uint64_t it = 0;
    int code = congee_c_shared_get_or_insert(&handle, key, value, &it);
    if (code == 1 && found)
        *found = it;
    return code;
}

/* Inserts the value if the key is absent, and keeps the value of a present key. Returns CONGEE_ABSENT for a new key,
 * which leaves *found unchanged. Returns CONGEE_PRESENT for a present key, with the present value in *found. Of several
 * handles that insert one absent key at once, the first gets CONGEE_ABSENT. Returns CONGEE_OOM, with nothing changed,
 * if malloc finds no memory or the map's limit is reached. A present key needs no memory. While a lock of the call is
 * taken, the call yields and tries again. */
static inline int congee_shared_get_or_insert(struct congee_shared *map, uint64_t key, uint64_t value, uint64_t *found) {
    int code;
    while ((code = congee_shared_try_get_or_insert(map, key, value, found)) == CONGEE_BUSY)
        CONGEE_YIELD();
    return code;
}

/* Changes the key's value by a function. Looks the key up, calls f(found, &value, with) with what it found, and gives
 * the key the value that f leaves, or removes the key (congee_updater). Returns CONGEE_ABSENT if the key was absent
 * before, which leaves *old unchanged. Returns CONGEE_PRESENT for a key that was present, with the previous value in
 * *old. No lock is held while f runs, so f may take long, or call the map, by this handle too.
 *
 * Returns CONGEE_BUSY, with no pair changed, if a lock of the key was taken at each of the call's tries, or if another
 * handle changed the key between the look-up and the change. So f is called once, or not at all. Returns CONGEE_OOM,
 * with no pair changed, if f asks for a new key, and malloc finds no memory or the map's limit is reached. */
static inline int congee_shared_try_compute(struct congee_shared *map, uint64_t key, congee_updater *f, void *with,
                                            uint64_t *old) {
    uint64_t before = 0, value;
    int found = congee_shared_try_get(map, key, &before), wanted, code;
    if (found == CONGEE_BUSY)
        return CONGEE_BUSY;
    value = before;
    wanted = f(found, &value, with);
    if (found == CONGEE_ABSENT) {
        code = wanted == CONGEE_ABSENT ? CONGEE_ABSENT : congee_shared_try_get_or_insert(map, key, value, NULL);
        return code == CONGEE_PRESENT ? CONGEE_BUSY : code;
    }
    code = wanted == CONGEE_ABSENT ? congee_shared_try_compare_remove(map, key, before, NULL)
                                   : congee_shared_try_compare_exchange(map, key, before, value, NULL);
    if (code != CONGEE_PRESENT)
        return CONGEE_BUSY;
    if (old)
        *old = before;
    return CONGEE_PRESENT;
}

/* Changes the key's value by a function. Looks the key up, calls f(found, &value, with) with what it found, and gives
 * the key the value that f leaves, or removes the key (congee_updater). If another handle changes the key meanwhile, f
 * is called again with the new value, so no change is lost. Returns CONGEE_ABSENT if the key was absent before, which
 * leaves *old unchanged. Returns CONGEE_PRESENT for a key that was present, with the previous value in *old. No lock is
 * held while f runs, so f may take long, or call the map, by this handle too.
 *
 * Returns CONGEE_OOM, with no pair changed, if f asks for a new key, and malloc finds no memory or the map's limit is
 * reached. While a lock of the key is taken, the call yields and tries again. */
static inline int congee_shared_compute(struct congee_shared *map, uint64_t key, congee_updater *f, void *with,
                                        uint64_t *old) {
    uint64_t before = 0, value;
    int found = congee_shared_get(map, key, &before), wanted, code;
    for (;;) {
        value = found == CONGEE_PRESENT ? before : 0;
        wanted = f(found, &value, with);
        if (found == CONGEE_ABSENT) {
            code = wanted == CONGEE_ABSENT ? CONGEE_ABSENT : congee_shared_get_or_insert(map, key, value, &before);
            if (code != CONGEE_PRESENT)
                return code;
            found = CONGEE_PRESENT;
        } else {
            code = wanted == CONGEE_ABSENT ? congee_shared_compare_remove(map, key, before, &before)
                                           : congee_shared_compare_exchange(map, key, before, value, &before);
            if (code == CONGEE_PRESENT)
                break;
            found = code == CONGEE_OTHER ? CONGEE_PRESENT : CONGEE_ABSENT;
        }
    }
    if (old)
        *old = before;
    return CONGEE_PRESENT;
}

/* -- Ranges -- */

/* Writes the first pairs with start <= key < end to the buffer, keys ascending, n pairs at most. Returns CONGEE_DONE
 * with the number of pairs in *written, which isn't null. Returns CONGEE_BUSY, which leaves *written and the buffer
 * unchanged, if a lock of the call was taken at each of its tries. All pairs of the page are of one moment, and a
 * further page is of a later moment. The rest of the buffer is unchanged. UINT64_MAX is in no such range:
 * congee_shared_range_inclusive has a last key. A full buffer is continued by a call that begins at the buffer's last
 * key plus 1. The call takes no memory. */
static inline int congee_shared_try_range(const struct congee_shared *map, uint64_t start, uint64_t end,
                                          struct congee_pair *buffer, size_t n, size_t *written) {
    struct congee_const_shared_handle handle = {map};
    uint64_t it = 0;
    int code = n == 0 ? 0 : congee_c_shared_range(&handle, start, end, buffer, n, &it);
    if (code == 0)
        *written = it;
    return code;
}

/* Writes the first pairs with start <= key < end to the buffer, keys ascending, n pairs at most, and returns the number
 * of pairs. While a lock of the call is taken, the call yields and tries again. All pairs of the page are of one
 * moment, and a further page is of a later moment. The rest of the buffer is unchanged. UINT64_MAX is in no such range:
 * congee_shared_range_inclusive has a last key. A full buffer is continued by a call that begins at the buffer's last
 * key plus 1. The call takes no memory. */
static inline size_t congee_shared_range(const struct congee_shared *map, uint64_t start, uint64_t end,
                                         struct congee_pair *buffer, size_t n) {
    size_t written = 0;
    while (congee_shared_try_range(map, start, end, buffer, n, &written) == CONGEE_BUSY)
        CONGEE_YIELD();
    return written;
}

/* Writes the first pairs with start <= key <= last to the buffer, keys ascending, n pairs at most. Returns CONGEE_DONE
 * with the number of pairs in *written, which isn't null. Returns CONGEE_BUSY, which leaves *written and the buffer
 * unchanged, if a lock of the call was taken at each of its tries. All pairs of the page are of one moment, and a
 * further page is of a later moment. The rest of the buffer is unchanged. A full buffer is continued by a call that
 * begins at the buffer's last key plus 1, unless that key is `last`. The call takes no memory. */
static inline int congee_shared_try_range_inclusive(const struct congee_shared *map, uint64_t start, uint64_t last,
                                                    struct congee_pair *buffer, size_t n, size_t *written) {
    struct congee_const_shared_handle handle = {map};
    uint64_t it = 0;
    int code = n == 0 ? 0 : congee_c_shared_range_inclusive(&handle, start, last, buffer, n, &it);
    if (code == 0)
        *written = it;
    return code;
}

/* Writes the first pairs with start <= key <= last to the buffer, keys ascending, n pairs at most, and returns the
 * number of pairs. While a lock of the call is taken, the call yields and tries again. All pairs of the page are of one
 * moment, and a further page is of a later moment. The rest of the buffer is unchanged. A full buffer is continued by a
 * call that begins at the buffer's last key plus 1, unless that key is `last`. The call takes no memory. */
static inline size_t congee_shared_range_inclusive(const struct congee_shared *map, uint64_t start, uint64_t last,
                                                   struct congee_pair *buffer, size_t n) {
    size_t written = 0;
    while (congee_shared_try_range_inclusive(map, start, last, buffer, n, &written) == CONGEE_BUSY)
        CONGEE_YIELD();
    return written;
}

/* Writes the last pairs with start <= key <= last to the buffer, keys descending, n pairs at most. Returns CONGEE_DONE
 * with the number of pairs in *written, which isn't null. Returns CONGEE_BUSY, which leaves *written and the buffer
 * unchanged, if a lock of the call was taken at each of its tries. All pairs of the page are of one moment, and a
 * further page is of a later moment. The rest of the buffer is unchanged. A full buffer is continued by a call that
 * ends at the buffer's last key minus 1, unless that key is `start`. The call takes no memory. */
static inline int congee_shared_try_range_descending(const struct congee_shared *map, uint64_t start, uint64_t last,
                                                     struct congee_pair *buffer, size_t n, size_t *written) {
    struct congee_const_shared_handle handle = {map};
    uint64_t it = 0;
    int code = n == 0 ? 0 : congee_c_shared_range_descending(&handle, start, last, buffer, n, &it);
    if (code == 0)
        *written = it;
    return code;
}

/* Writes the last pairs with start <= key <= last to the buffer, keys descending, n pairs at most, and returns the
 * number of pairs. While a lock of the call is taken, the call yields and tries again. All pairs of the page are of one
 * moment, and a further page is of a later moment. The rest of the buffer is unchanged. A full buffer is continued by a
 * call that ends at the buffer's last key minus 1, unless that key is `start`. The call takes no memory. */
static inline size_t congee_shared_range_descending(const struct congee_shared *map, uint64_t start, uint64_t last,
                                                    struct congee_pair *buffer, size_t n) {
    size_t written = 0;
    while (congee_shared_try_range_descending(map, start, last, buffer, n, &written) == CONGEE_BUSY)
        CONGEE_YIELD();
    return written;
}

/* -- Ends and neighbours -- */

/* Finds the pair with the least key. Returns CONGEE_PRESENT with the pair in *pair, or CONGEE_ABSENT if the map has no
 * such pair, which leaves *pair unchanged. Returns CONGEE_BUSY, which leaves the map and *pair unchanged, if a lock of
 * the call was taken at each of its tries. The call takes no memory. */
static inline int congee_shared_try_first(const struct congee_shared *map, struct congee_pair *pair) {
    struct congee_const_shared_handle handle = {map};
    struct congee_pair it = {0, 0};
    int code = congee_c_shared_first(&handle, &it);
    if (code == 1 && pair)
        *pair = it;
    return code;
}

/* Finds the pair with the least key. Returns CONGEE_PRESENT with the pair in *pair, or CONGEE_ABSENT if the map has no
 * such pair, which leaves *pair unchanged. While a lock of the call is taken, the call yields and tries again. The call
 * takes no memory. */
static inline int congee_shared_first(const struct congee_shared *map, struct congee_pair *pair) {
    struct congee_pair it = {0, 0};
    int code;
    while ((code = congee_shared_try_first(map, &it)) == CONGEE_BUSY)
        CONGEE_YIELD();
    if (code != 1)
        return 0;
    if (pair)
        *pair = it;
    return 1;
}

/* Finds the pair with the greatest key. Returns CONGEE_PRESENT with the pair in *pair, or CONGEE_ABSENT if the map has
 * no such pair, which leaves *pair unchanged. Returns CONGEE_BUSY, which leaves the map and *pair unchanged, if a lock
 * of the call was taken at each of its tries. The call takes no memory. */
static inline int congee_shared_try_last(const struct congee_shared *map, struct congee_pair *pair) {
    struct congee_const_shared_handle handle = {map};
    struct congee_pair it = {0, 0};
    int code = congee_c_shared_last(&handle, &it);
    if (code == 1 && pair)
        *pair = it;
    return code;
}

/* Finds the pair with the greatest key. Returns CONGEE_PRESENT with the pair in *pair, or CONGEE_ABSENT if the map has
 * no such pair, which leaves *pair unchanged. While a lock of the call is taken, the call yields and tries again. The
 * call takes no memory. */
static inline int congee_shared_last(const struct congee_shared *map, struct congee_pair *pair) {
    struct congee_pair it = {0, 0};
    int code;
    while ((code = congee_shared_try_last(map, &it)) == CONGEE_BUSY)
        CONGEE_YIELD();
    if (code != 1)
        return 0;
    if (pair)
        *pair = it;
    return 1;
}

/* Finds the pair with the greatest key that is at most `key`. Returns CONGEE_PRESENT with the pair in *pair, or
 * CONGEE_ABSENT if the map has no such pair, which leaves *pair unchanged. Returns CONGEE_BUSY, which leaves the map
 * and *pair unchanged, if a lock of the call was taken at each of its tries. The call takes no memory. */
static inline int congee_shared_try_floor(const struct congee_shared *map, uint64_t key, struct congee_pair *pair) {
    struct congee_const_shared_handle handle = {map};
    struct congee_pair it = {0, 0};
    int code = congee_c_shared_floor(&handle, key, &it);
    if (code == 1 && pair)
        *pair = it;
    return code;
}

/* Finds the pair with the greatest key that is at most `key`. Returns CONGEE_PRESENT with the pair in *pair, or
 * CONGEE_ABSENT if the map has no such pair, which leaves *pair unchanged. While a lock of the call is taken, the call
 * yields and tries again. The call takes no memory. */
static inline int congee_shared_floor(const struct congee_shared *map, uint64_t key, struct congee_pair *pair) {
    struct congee_pair it = {0, 0};
    int code;
    while ((code = congee_shared_try_floor(map, key, &it)) == CONGEE_BUSY)
        CONGEE_YIELD();
    if (code != 1)
        return 0;
    if (pair)
        *pair = it;
    return 1;
}

/* Finds the pair with the least key that is at least `key`. Returns CONGEE_PRESENT with the pair in *pair, or
 * CONGEE_ABSENT if the map has no such pair, which leaves *pair unchanged. Returns CONGEE_BUSY, which leaves the map
 * and *pair unchanged, if a lock of the call was taken at each of its tries. The call takes no memory. */
static inline int congee_shared_try_ceiling(const struct congee_shared *map, uint64_t key, struct congee_pair *pair) {
    struct congee_const_shared_handle handle = {map};
    struct congee_pair it = {0, 0};
    int code = congee_c_shared_ceiling(&handle, key, &it);
    if (code == 1 && pair)
        *pair = it;
    return code;
}

/* Finds the pair with the least key that is at least `key`. Returns CONGEE_PRESENT with the pair in *pair, or
 * CONGEE_ABSENT if the map has no such pair, which leaves *pair unchanged. While a lock of the call is taken, the call
 * yields and tries again. The call takes no memory. */
static inline int congee_shared_ceiling(const struct congee_shared *map, uint64_t key, struct congee_pair *pair) {
    struct congee_pair it = {0, 0};
    int code;
    while ((code = congee_shared_try_ceiling(map, key, &it)) == CONGEE_BUSY)
        CONGEE_YIELD();
    if (code != 1)
        return 0;
    if (pair)
        *pair = it;
    return 1;
}

/* Finds the pair with the greatest key below `key`. Returns CONGEE_PRESENT with the pair in *pair, or CONGEE_ABSENT if
 * the map has no such pair, which leaves *pair unchanged. Returns CONGEE_BUSY, which leaves the map and *pair
 * unchanged, if a lock of the call was taken at each of its tries. The call takes no memory. */
static inline int congee_shared_try_below(const struct congee_shared *map, uint64_t key, struct congee_pair *pair) {
    struct congee_const_shared_handle handle = {map};
    struct congee_pair it = {0, 0};
    int code = congee_c_shared_below(&handle, key, &it);
    if (code == 1 && pair)
        *pair = it;
    return code;
}

/* Finds the pair with the greatest key below `key`. Returns CONGEE_PRESENT with the pair in *pair, or CONGEE_ABSENT if
 * the map has no such pair, which leaves *pair unchanged. While a lock of the call is taken, the call yields and tries
 * again. The call takes no memory. */
static inline int congee_shared_below(const struct congee_shared *map, uint64_t key, struct congee_pair *pair) {
    struct congee_pair it = {0, 0};
    int code;
    while ((code = congee_shared_try_below(map, key, &it)) == CONGEE_BUSY)
        CONGEE_YIELD();
    if (code != 1)
        return 0;
    if (pair)
        *pair = it;
    return 1;
}

/* Finds the pair with the least key above `key`. Returns CONGEE_PRESENT with the pair in *pair, or CONGEE_ABSENT if the
 * map has no such pair, which leaves *pair unchanged. Returns CONGEE_BUSY, which leaves the map and *pair unchanged, if
 * a lock of the call was taken at each of its tries. The call takes no memory. */
static inline int congee_shared_try_above(const struct congee_shared *map, uint64_t key, struct congee_pair *pair) {
    struct congee_const_shared_handle handle = {map};
    struct congee_pair it = {0, 0};
    int code = congee_c_shared_above(&handle, key, &it);
    if (code == 1 && pair)
        *pair = it;
    return code;
}

/* Finds the pair with the least key above `key`. Returns CONGEE_PRESENT with the pair in *pair, or CONGEE_ABSENT if the
 * map has no such pair, which leaves *pair unchanged. While a lock of the call is taken, the call yields and tries
 * again. The call takes no memory. */
static inline int congee_shared_above(const struct congee_shared *map, uint64_t key, struct congee_pair *pair) {
    struct congee_pair it = {0, 0};
    int code;
    while ((code = congee_shared_try_above(map, key, &it)) == CONGEE_BUSY)
        CONGEE_YIELD();
    if (code != 1)
        return 0;
    if (pair)
        *pair = it;
    return 1;
}

/* Removes the pair with the least key. Returns CONGEE_PRESENT with the removed pair in *pair, or CONGEE_ABSENT for an
 * empty map, which leaves *pair unchanged. Returns CONGEE_BUSY, which leaves the map and *pair unchanged, if a lock of
 * the call was taken at each of its tries. A pop is never out of memory. */
static inline int congee_shared_try_pop_first(struct congee_shared *map, struct congee_pair *pair) {
    struct congee_shared_handle handle = {map};
    struct congee_pair it = {0, 0};
    int code = congee_c_shared_pop_first(&handle, &it);
    if (code == 1 && pair)
        *pair = it;
    return code;
}

/* Removes the pair with the least key. Returns CONGEE_PRESENT with the removed pair in *pair, or CONGEE_ABSENT for an
 * empty map, which leaves *pair unchanged. While a lock of the call is taken, the call yields and tries again. A pop is
 * never out of memory. */
static inline int congee_shared_pop_first(struct congee_shared *map, struct congee_pair *pair) {
    struct congee_pair it = {0, 0};
    int code;
    while ((code = congee_shared_try_pop_first(map, &it)) == CONGEE_BUSY)
        CONGEE_YIELD();
    if (code != 1)
        return 0;
    if (pair)
        *pair = it;
    return 1;
}

/* Removes the pair with the greatest key. Returns CONGEE_PRESENT with the removed pair in *pair, or CONGEE_ABSENT for
 * an empty map, which leaves *pair unchanged. Returns CONGEE_BUSY, which leaves the map and *pair unchanged, if a lock
 * of the call was taken at each of its tries. A pop is never out of memory. */
static inline int congee_shared_try_pop_last(struct congee_shared *map, struct congee_pair *pair) {
    struct congee_shared_handle handle = {map};
    struct congee_pair it = {0, 0};
    int code = congee_c_shared_pop_last(&handle, &it);
    if (code == 1 && pair)
        *pair = it;
    return code;
}

/* Removes the pair with the greatest key. Returns CONGEE_PRESENT with the removed pair in *pair, or CONGEE_ABSENT for
 * an empty map, which leaves *pair unchanged. While a lock of the call is taken, the call yields and tries again. A pop
 * is never out of memory. */
static inline int congee_shared_pop_last(struct congee_shared *map, struct congee_pair *pair) {
    struct congee_pair it = {0, 0};
    int code;
    while ((code = congee_shared_try_pop_last(map, &it)) == CONGEE_BUSY)
        CONGEE_YIELD();
    if (code != 1)
        return 0;
    if (pair)
        *pair = it;
    return 1;
}

/* Removes the pair with the least key, if that key is at most `key`: finds the pair as congee_shared_first does, and
 * removes the key if its value is still the one found. Returns CONGEE_PRESENT with the removed pair in *pair. Returns
 * CONGEE_ABSENT, which leaves *pair unchanged, if at one moment no key was at most `key`. Each pair goes to one caller.
 * The search and the removal are two calls, each at a moment of its own and in the history by itself. So no lesser key
 * was present throughout the call, but a lesser key that another handle inserts in between stays. A pop is never out of
 * memory. Returns CONGEE_BUSY, which leaves all pairs and *pair unchanged, if a lock of the call was taken at each of
 * its tries, or if another handle removed or changed the found pair first. */
static inline int congee_shared_try_pop_first_to(struct congee_shared *map, uint64_t key, struct congee_pair *pair) {
    struct congee_pair it = {0, 0};
    int code = congee_shared_try_first(map, &it);
    if (code != CONGEE_PRESENT)
        return code;
    if (it.key > key)
        return CONGEE_ABSENT;
    if (congee_shared_try_compare_remove(map, it.key, it.value, NULL) != CONGEE_PRESENT)
        return CONGEE_BUSY;
    if (pair)
        *pair = it;
    return CONGEE_PRESENT;
}

/* Removes the pair with the least key, if that key is at most `key`: finds the pair as congee_shared_first does, and
 * removes the key if its value is still the one found. Returns CONGEE_PRESENT with the removed pair in *pair. Returns
 * CONGEE_ABSENT, which leaves *pair unchanged, if at one moment no key was at most `key`. Each pair goes to one caller.
 * The search and the removal are two calls, each at a moment of its own and in the history by itself. So no lesser key
 * was present throughout the call, but a lesser key that another handle inserts in between stays. A pop is never out of
 * memory. While a lock of the call is taken, the call yields and tries again. If another handle removes or changes the
 * found pair first, the call searches again. */
static inline int congee_shared_pop_first_to(struct congee_shared *map, uint64_t key, struct congee_pair *pair) {
    struct congee_pair it = {0, 0};
    do {
        if (congee_shared_first(map, &it) == CONGEE_ABSENT || it.key > key)
            return CONGEE_ABSENT;
    } while (congee_shared_compare_remove(map, it.key, it.value, NULL) != CONGEE_PRESENT);
    if (pair)
        *pair = it;
    return CONGEE_PRESENT;
}

/* Removes the pair with the greatest key, if that key is at least `key`: finds the pair as congee_shared_last does, and
 * removes the key if its value is still the one found. Returns CONGEE_PRESENT with the removed pair in *pair. Returns
 * CONGEE_ABSENT, which leaves *pair unchanged, if at one moment no key was at least `key`. Each pair goes to one
 * caller. The search and the removal are two calls, each at a moment of its own and in the history by itself. So no
 * greater key was present throughout the call, but a greater key that another handle inserts in between stays. A pop is
 * never out of memory. Returns CONGEE_BUSY, which leaves all pairs and *pair unchanged, if a lock of the call was taken
 * at each of its tries, or if another handle removed or changed the found pair first. */
static inline int congee_shared_try_pop_last_from(struct congee_shared *map, uint64_t key, struct congee_pair *pair) {
    struct congee_pair it = {0, 0};
    int code = congee_shared_try_last(map, &it);
    if (code != CONGEE_PRESENT)
        return code;
    if (it.key < key)
        return CONGEE_ABSENT;
    if (congee_shared_try_compare_remove(map, it.key, it.value, NULL) != CONGEE_PRESENT)
        return CONGEE_BUSY;
    if (pair)
        *pair = it;
    return CONGEE_PRESENT;
}

/* Removes the pair with the greatest key, if that key is at least `key`: finds the pair as congee_shared_last does, and
 * removes the key if its value is still the one found. Returns CONGEE_PRESENT with the removed pair in *pair. Returns
 * CONGEE_ABSENT, which leaves *pair unchanged, if at one moment no key was at least `key`. Each pair goes to one
 * caller. The search and the removal are two calls, each at a moment of its own and in the history by itself. So no
 * greater key was present throughout the call, but a greater key that another handle inserts in between stays. A pop is
 * never out of memory. While a lock of the call is taken, the call yields and tries again. If another handle removes or
 * changes the found pair first, the call searches again. */
static inline int congee_shared_pop_last_from(struct congee_shared *map, uint64_t key, struct congee_pair *pair) {
    struct congee_pair it = {0, 0};
    do {
        if (congee_shared_last(map, &it) == CONGEE_ABSENT || it.key < key)
            return CONGEE_ABSENT;
    } while (congee_shared_compare_remove(map, it.key, it.value, NULL) != CONGEE_PRESENT);
    if (pair)
        *pair = it;
    return CONGEE_PRESENT;
}

/* -- Counts -- */

/* Tests whether the map has no pair. Returns 1 for an empty map, and 0 for a map with a pair. Returns CONGEE_BUSY if a
 * lock of the call was taken at each of its tries. The call takes no memory. */
static inline int congee_shared_try_is_empty(const struct congee_shared *map) {
    struct congee_const_shared_handle handle = {map};
    uint64_t it = 0;
    int code = congee_c_shared_is_empty(&handle, &it);
    return code == 0 ? it != 0 : code;
}

/* Tests whether the map has no pair. Returns true for an empty map, and false for a map with a pair. While a lock of
 * the call is taken, the call yields and tries again. The call takes no memory. */
static inline bool congee_shared_is_empty(const struct congee_shared *map) {
    int code;
    while ((code = congee_shared_try_is_empty(map)) == CONGEE_BUSY)
        CONGEE_YIELD();
    return code == 1;
}

/* Counts the pairs, in constant time for each shard. Returns CONGEE_DONE with the number in *count, which isn't null.
 * The number is exact, and saturates at UINT64_MAX. Returns CONGEE_BUSY, which leaves *count unchanged, if a lock of
 * the call was taken at each of its tries. The call takes no memory. */
static inline int congee_shared_try_count(const struct congee_shared *map, uint64_t *count) {
    struct congee_const_shared_handle handle = {map};
    uint64_t it = 0;
    int code = congee_c_shared_count(&handle, &it);
    if (code == 0)
        *count = it;
    return code;
}

/* Counts the pairs, in constant time for each shard, and returns the number, which is exact and saturates at
 * UINT64_MAX. While a lock of the call is taken, the call yields and tries again. The call takes no memory. */
static inline uint64_t congee_shared_count(const struct congee_shared *map) {
    uint64_t count = 0;
    while (congee_shared_try_count(map, &count) == CONGEE_BUSY)
        CONGEE_YIELD();
    return count;
}

/* Adds up the stated sizes in bytes of the map's nodes, which count against the limit. Returns CONGEE_DONE with the sum
 * in *bytes, which isn't null. The sum saturates at UINT64_MAX. Returns CONGEE_BUSY, which leaves *bytes unchanged, if
 * a lock of the call was taken at each of its tries. Proved: a tree with as many pairs as the map had at one moment is
 * charged the sum, in shards a tree for each shard. */
static inline int congee_shared_try_charged(const struct congee_shared *map, uint64_t *bytes) {
    struct congee_const_shared_handle handle = {map};
    uint64_t it = 0, limit = 0;
    int code = congee_c_shared_usage(&handle, &it, &limit);
    if (code == 0)
        *bytes = it;
    return code;
}

/* Adds up the stated sizes in bytes of the map's nodes, which count against the limit, and returns the sum, which
 * saturates at UINT64_MAX. While a lock of the call is taken, the call yields and tries again. Proved: a tree with as
 * many pairs as the map had at one moment is charged the sum, in shards a tree for each shard. */
static inline uint64_t congee_shared_charged(const struct congee_shared *map) {
    uint64_t bytes = 0;
    while (congee_shared_try_charged(map, &bytes) == CONGEE_BUSY)
        CONGEE_YIELD();
    return bytes;
}

/* Adds up the stated sizes in bytes of the map's nodes, which count against the limit. Returns CONGEE_DONE with the sum
 * in *charged and the map's limit in *limit. In shards the limit is the sum of the shards' limits. The sum is at most
 * the limit, which is proved. Both pointers are to places, never null. Returns CONGEE_BUSY, which leaves both
 * unchanged, if a lock of the call was taken at each of its tries. */
static inline int congee_shared_try_usage(const struct congee_shared *map, uint64_t *charged, uint64_t *limit) {
    struct congee_const_shared_handle handle = {map};
    uint64_t bytes = 0, most = 0;
    int code = congee_c_shared_usage(&handle, &bytes, &most);
    if (code == 0) {
        *charged = bytes;
        *limit = most;
    }
    return code;
}

/* Adds up the stated sizes in bytes of the map's nodes, which count against the limit, with the sum in *charged and the
 * map's limit in *limit. In shards the limit is the sum of the shards' limits. The sum is at most the limit, which is
 * proved. Both pointers are to places, never null. While a lock of the call is taken, the call yields and tries again.
 */
static inline void congee_shared_usage(const struct congee_shared *map, uint64_t *charged, uint64_t *limit) {
    uint64_t bytes = 0, most = 0;
    while (congee_shared_try_usage(map, &bytes, &most) == CONGEE_BUSY)
        CONGEE_YIELD();
    *charged = bytes;
    *limit = most;
}

/* Reads the map's limit in bytes, UINT64_MAX for none. In shards it is the sum of the shards' limits, which are rounded
 * down. Returns CONGEE_DONE with the limit in *bytes, which isn't null. Returns CONGEE_BUSY, which leaves *bytes
 * unchanged, if a lock of the call was taken at each of its tries. */
static inline int congee_shared_try_limit(const struct congee_shared *map, uint64_t *bytes) {
    uint64_t charged = 0;
    return congee_shared_try_usage(map, &charged, bytes);
}

/* Returns the map's limit in bytes, UINT64_MAX for none. In shards it is the sum of the shards' limits, which are
 * rounded down. While a lock of the call is taken, the call yields and tries again. */
static inline uint64_t congee_shared_limit(const struct congee_shared *map) {
    uint64_t charged = 0, limit = 0;
    congee_shared_usage(map, &charged, &limit);
    return limit;
}

/* -- Many pairs -- */

/* Removes all pairs at one moment. Returns CONGEE_DONE, or CONGEE_BUSY, with nothing changed, if a lock of the call was
 * taken at each of its tries. Other calls are busy meanwhile. The call is never out of memory. */
static inline int congee_shared_try_clear(struct congee_shared *map) {
    struct congee_shared_handle handle = {map};
    return congee_c_shared_clear(&handle);
}

/* Removes all pairs at one moment. While a lock of the call is taken, the call yields and tries again. Other calls are
 * busy meanwhile. The call is never out of memory. */
static inline void congee_shared_clear(struct congee_shared *map) {
    while (congee_shared_try_clear(map) == CONGEE_BUSY)
        CONGEE_YIELD();
}

/* Calls f(pair, with) for each pair with start <= key <= last, keys ascending, until a call returns something else than
 * 0. Returns what the last call of f returned, or 0 without a call. Reads pages of one moment each: 16 pairs, then 256
 * each. Between two pages calls of other handles come in. No lock is held while f runs, so f may call the map, by this
 * handle too. While a lock is taken, the call yields and tries again. */
static inline int congee_shared_each(const struct congee_shared *map, uint64_t start, uint64_t last, congee_visitor *f,
                                     void *with) {
    struct congee_pair page[CONGEE_PAGE];
    size_t room = CONGEE_FIRST_PAGE, ready = 0, n;
    for (;;) {
        for (; ready < room; ready++)
            page[ready].key = page[ready].value = 0;
        n = congee_shared_range_inclusive(map, start, last, page, room);
        for (size_t i = 0; i < n; i++) {
            int code = f(page[i], with);
            if (code != 0)
                return code;
        }
        if (n < room || page[n - 1].key == last)
            return 0;
        start = page[n - 1].key + 1;
        room = CONGEE_PAGE;
    }
}

/* Calls f(pair, with) for each pair with start <= key <= last, keys descending, until a call returns something else
 * than 0. Returns what the last call of f returned, or 0 without a call. Reads pages of one moment each: 16 pairs, then
 * 256 each. Between two pages calls of other handles come in. No lock is held while f runs, so f may call the map, by
 * this handle too. While a lock is taken, the call yields and tries again. */
static inline int congee_shared_each_descending(const struct congee_shared *map, uint64_t start, uint64_t last,
                                                congee_visitor *f, void *with) {
    struct congee_pair page[CONGEE_PAGE];
    size_t room = CONGEE_FIRST_PAGE, ready = 0, n;
    for (;;) {
        for (; ready < room; ready++)
            page[ready].key = page[ready].value = 0;
        n = congee_shared_range_descending(map, start, last, page, room);
        for (size_t i = 0; i < n; i++) {
            int code = f(page[i], with);
            if (code != 0)
                return code;
        }
        if (n < room || page[n - 1].key == start)
            return 0;
        last = page[n - 1].key - 1;
        room = CONGEE_PAGE;
    }
}

/* Inserts n pairs in their order, by a call of congee_shared_insert for each. Between two of them calls of other
 * handles come in. Returns how many pairs were inserted: n, or fewer if the next insertion was out of memory. The pairs
 * before it are in the map. While a lock is taken, the call yields and tries again. */
static inline size_t congee_shared_insert_many(struct congee_shared *map, const struct congee_pair *pairs, size_t n) {
    size_t done = 0;
    while (done < n && congee_shared_insert(map, pairs[done].key, pairs[done].value, NULL) != CONGEE_OOM)
        done++;
    return done;
}

/* Removes the pairs with start <= key <= last, one by one, keys ascending, each at a moment of its own. Returns how
 * many pairs this call removed. Each key of the range that is present when the call begins is removed meanwhile, by
 * this call or by another handle. A key that another handle inserts meanwhile may stay. The call is never out of
 * memory. Reads pages of 64 pairs of one moment each, and calls congee_shared_remove for each key. While a lock is
 * taken, the call yields and tries again. */
static inline uint64_t congee_shared_remove_range_inclusive(struct congee_shared *map, uint64_t start, uint64_t last) {
    struct congee_pair page[64] = {{0, 0}};
    uint64_t removed = 0;
    size_t n;
    while ((n = congee_shared_range_inclusive(map, start, last, page, 64)) > 0) {
        for (size_t i = 0; i < n; i++)
            removed += (uint64_t)congee_shared_remove(map, page[i].key, NULL);
        if (n < 64 || page[63].key == last)
            break;
        start = page[63].key + 1;
    }
    return removed;
}

/* Calls keep(pair, with) for each pair, keys ascending, and removes the pairs for which `keep` returns false, each at a
 * moment of its own. Returns how many pairs this call removed. A pair is removed only with a value for which `keep`
 * returned false: if another handle changes the value in between, `keep` is called again with the new value. So each
 * key that is present throughout the call, and stays, had a value meanwhile for which `keep` returned true. A key that
 * another handle inserts meanwhile may stay unasked. No lock is held while `keep` runs, so `keep` may take long, or
 * call the map, by this handle too. The call is never out of memory. Reads pages of 64 pairs of one moment each, and
 * calls congee_shared_compare_remove. While a lock is taken, the call yields and tries again. */
static inline uint64_t congee_shared_retain(struct congee_shared *map, congee_predicate *keep, void *with) {
    struct congee_pair page[64] = {{0, 0}};
    uint64_t start = 0, removed = 0;
    size_t n;
    while ((n = congee_shared_range_inclusive(map, start, UINT64_MAX, page, 64)) > 0) {
        for (size_t i = 0; i < n; i++) {
            int code = CONGEE_OTHER;
            while (code == CONGEE_OTHER && !keep(page[i], with))
                code = congee_shared_compare_remove(map, page[i].key, page[i].value, &page[i].value);
            removed += code == CONGEE_PRESENT;
        }
        if (n < 64 || page[63].key == UINT64_MAX)
            break;
        start = page[63].key + 1;
    }
    return removed;
}

/* Copies the pairs into a new map with one owner and without a limit (congee.h). Returns CONGEE_DONE with the copy in
 * *out, or CONGEE_OOM with null there. The shared map is unchanged. congee_freeze makes readers of the copy, for
 * threads that look at it side by side.
 *
 * The copy is made of pages of 64 pairs, and each page is of one moment. Between two pages calls of other handles come
 * in. So a map of more than 63 pairs that other handles change may never have had just these pairs. A key that is
 * present throughout the call is in the copy, with a value that it had meanwhile. While a lock is taken, the call
 * yields and tries again. */
static inline int congee_shared_snapshot(const struct congee_shared *map, struct congee **out) {
    struct congee_pair page[64] = {{0, 0}};
    uint64_t start = 0;
    size_t n;
    if (congee_new(out) == CONGEE_OOM)
        return CONGEE_OOM;
    for (;;) {
        n = congee_shared_range_inclusive(map, start, UINT64_MAX, page, 64);
        if (congee_insert_many(*out, page, n) < n) {
            congee_free(*out);
            *out = NULL;
            return CONGEE_OOM;
        }
        if (n < 64 || page[63].key == UINT64_MAX)
            return CONGEE_DONE;
        start = page[63].key + 1;
    }
}

/* Copies the pairs, and freezes the copy: threads look at it side by side, each by a reader of its own (congee.h).
 * Returns CONGEE_DONE with the first reader in *out, or CONGEE_OOM with null there and no copy left. The shared map is
 * unchanged. congee_thaw makes a map with one owner of the copy, by its last reader.
 *
 * The copy is made of pages of one moment each, and calls of other handles come in between two pages
 * (congee_shared_snapshot). While a lock is taken, the call yields and tries again. */
static inline int congee_shared_snapshot_frozen(const struct congee_shared *map, struct congee_frozen **out) {
    struct congee *copy;
    int code = congee_shared_snapshot(map, &copy);
    *out = NULL;
    if (code == CONGEE_DONE)
        code = congee_freeze(&copy, out);
    congee_free(copy);
    return code;
}

#ifdef __cplusplus
}
#endif

#include "congee_live.h"
#include "congee_owners.h"

#endif

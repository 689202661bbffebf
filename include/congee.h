/* congee.h: an ordered map from uint64_t to uint64_t, in an adaptive radix tree. C11 and C++11. MIT license.
 *
 * A map has pairs of a key and a value, each key once, in the order of the keys. Each call reads one path of at most
 * eight nodes, unless its comment names another cost. A node that a removal empties is kept for later insertions. Once
 * three quarters of the held memory are free, a removal moves the nodes into less memory. For threads there are
 * congee_live.h, congee_shared.h and congee_owners.h, which this header includes.
 *
 * What the library's own functions return, and what the map is afterwards, is proved of their code. They are the
 * exports (congee_exports.h), whose names begin with congee_c_. The functions for use are plain C around the exports,
 * and are tested. Tested, and not proved, are also the costs and the use of memory that a comment names. The theorem
 * holds for a program that keeps the rules below. Nothing checks these rules.
 *
 *   - A map is used from when it was made or thawed until it is freed or frozen. A reader is used from when it was made
 *     until it is freed or thawed. The program doesn't read, copy or change what these pointers point to.
 *   - One call at a time uses a map, and one call a reader, calls that read included. Different maps may be in calls at
 *     once, and so may different readers, also of one frozen map. A const map is a map that the call leaves unchanged.
 *     Two threads may not read a const map at once.
 *   - A map or a reader goes to another thread by a lock, by the start or the join of a thread, or by a sequentially
 *     consistent atomic.
 *   - A place for a value or a pair (value, old, found, pair) is null, if the caller doesn't want it, or aligned, and
 *     nothing else uses the place during the call. The place of a new map or reader isn't null.
 *   - The buffer of a range is an array of at least n pairs, which nothing else uses during the call. For n == 0 the
 *     buffer may be null. The call only writes to the buffer. The proof assumes that the buffer was initialised.
 *   - No call is made in a signal handler, or in the forked child of a process with threads.
 *   - The stack has room for a call, which goes some eight levels deep and takes a few kilobytes.
 *   - malloc, realloc and free, which the library calls, are of one allocator and align blocks as C asks.
 *   - Names that begin with congee_c_ or rattle_ are the archive's, and this header is of the archive's version
 *     (CONGEE_VERSION == congee_version()).
 *
 * A call fails with CONGEE_OOM if malloc finds no memory or the map's limit is reached. Then nothing has changed: not
 * the map, its charge or the places. The call leaves no information in errno. A place is written only in the cases that
 * a function's comment lists.
 *
 * tools/dev/make-pages makes the manual page from this file: from this comment, the headings and each function's
 * comment.
 */
#ifndef CONGEE_H
#define CONGEE_H

#include <stdbool.h>
#include <stddef.h>
#include <stdint.h>

#include "congee_exports.h"

#ifdef __cplusplus
extern "C" {
#endif

/* The version of this header: 100 for 0.1.0. */
#define CONGEE_VERSION_MAJOR 0
#define CONGEE_VERSION_MINOR 1
#define CONGEE_VERSION_PATCH 0
#define CONGEE_VERSION (CONGEE_VERSION_MAJOR * 10000 + CONGEE_VERSION_MINOR * 100 + CONGEE_VERSION_PATCH)

/* The codes that calls of all headers return. A function's comment names the codes that it may return. Calls that
 * insert return CONGEE_ABSENT for a new key, since the key was absent before the call. */

/* The call is done. Calls return this code that make or clear something, or write a number to a place. */
#define CONGEE_DONE 0
/* The key was absent, or the map has no such pair. */
#define CONGEE_ABSENT 0
/* The key was present, or the map has such a pair. */
#define CONGEE_PRESENT 1
/* The key has another value than the expected value. */
#define CONGEE_OTHER 2
/* malloc finds no memory, or the map's limit is reached. */
#define CONGEE_OOM (-1)
/* Other threads were in the way at each of the call's tries (congee_live.h, congee_shared.h). */
#define CONGEE_BUSY (-2)
/* The map has as many handles as it can have (congee_owners.h). */
#define CONGEE_FULL (-3)
/* The owner isn't stored, and the caller's reference is released by a later call (congee_owners.h). */
#define CONGEE_KEPT (-4)

/* A map. */
struct congee;

/* A reader of a map that nobody changes. */
struct congee_frozen;

/* A key and its value. */
struct congee_pair {
    uint64_t key;
    uint64_t value;
};

/* -- Version -- */

/* Returns the version of the archive as a number: 100 for 0.1.0. CONGEE_VERSION is the number of the header. */
static inline uint32_t congee_version(void) {
    return congee_c_version();
}

/* -- Maps -- */

/* Makes an empty map whose nodes take at most `bytes` bytes together by their stated sizes. Returns CONGEE_DONE with
 * the map in *out, or CONGEE_OOM with null there. The sizes are 64, 168, 672 or 2104 bytes for nodes of up to 4, 16, 48
 * and 256 entries. The first node has the largest size, so a limit below 2104 fails.
 *
 * The limit bounds the stated sizes, not the memory that malloc lends. With a million random keys 88 bytes a key are
 * charged, and 129 lent. When a node grows, the larger node is charged while the smaller one still is. So a map near
 * its limit may refuse a key that would fit afterwards. */
static inline int congee_new_with_limit(struct congee **out, uint64_t bytes) {
    struct congee_handle made = {NULL};
    int code = congee_c_new(bytes, &made);
    *out = made.map;
    return code;
}

/* Makes an empty map without a limit. Returns CONGEE_DONE with the map in *out, or CONGEE_OOM with null there if malloc
 * finds no memory. */
static inline int congee_new(struct congee **out) {
    return congee_new_with_limit(out, UINT64_MAX);
}

/* Frees all memory of the map, each node once. For null the call does nothing. */
static inline void congee_free(struct congee *map) {
    struct congee_handle handle = {map};
    if (map)
        congee_c_free(handle);
}

/* -- One key -- */

/* Looks the key up. Returns CONGEE_PRESENT with the key's value in *value, or CONGEE_ABSENT, which leaves *value
 * unchanged. The call takes no memory. */
static inline int congee_get(const struct congee *map, uint64_t key, uint64_t *value) {
    struct congee_const_handle handle = {map};
    uint64_t it = 0;
    if (congee_c_get(&handle, key, &it) == 0)
        return 0;
    if (value)
        *value = it;
    return 1;
}

/* Sets the key's value. Returns CONGEE_ABSENT for a new key, which leaves *old unchanged. Returns CONGEE_PRESENT for a
 * present key, with the previous value in *old. Returns CONGEE_OOM, with nothing changed, only for a new key that needs
 * a new node or a larger one. */
static inline int congee_insert(struct congee *map, uint64_t key, uint64_t value, uint64_t *old) {
    struct congee_handle handle = {map};
    uint64_t it = 0;
    int code = congee_c_insert(&handle, key, value, &it);
    if (code != 1)
        return code == 0 ? 0 : CONGEE_OOM;
    if (old)
        *old = it;
    return 1;
}

/* Removes the key. Returns CONGEE_PRESENT with the removed value in *old, or CONGEE_ABSENT, which leaves *old
 * unchanged. A removal never fails. Empty nodes are freed, and a node with few entries left gets a smaller form if
 * there is memory for one. */
static inline int congee_remove(struct congee *map, uint64_t key, uint64_t *old) {
    struct congee_handle handle = {map};
    uint64_t it = 0;
    if (congee_c_remove(&handle, key, &it) == 0)
        return 0;
    if (old)
        *old = it;
    return 1;
}

/* Replaces the key's value by `desired` if the value is `expected`. Returns CONGEE_PRESENT after the exchange,
 * CONGEE_ABSENT if the key is absent, and CONGEE_OTHER if the key has a value that isn't `expected`. *found gets that
 * value with CONGEE_OTHER, and is unchanged with all other codes. Without CONGEE_PRESENT the map is unchanged. The call
 * takes no memory. */
static inline int congee_compare_exchange(struct congee *map, uint64_t key, uint64_t expected, uint64_t desired,
                                          uint64_t *found) {
    struct congee_handle handle = {map};
    uint64_t it = 0;
    int code = congee_c_compare_exchange(&handle, key, expected, desired, &it);
    if (code != 2)
        return code == 1;
    if (found)
        *found = it;
    return 2;
}

/* Removes the key if the key's value is `expected`. Returns CONGEE_PRESENT after the removal, CONGEE_ABSENT if the key
 * is absent, and CONGEE_OTHER if the key has a value that isn't `expected`. *found gets that value with CONGEE_OTHER,
 * and is unchanged with all other codes. Without CONGEE_PRESENT the map is unchanged. The call never fails. */
static inline int congee_compare_remove(struct congee *map, uint64_t key, uint64_t expected, uint64_t *found) {
    struct congee_handle handle = {map};
    uint64_t it = 0;
    int code = congee_c_compare_remove(&handle, key, expected, &it);
    if (code != 2)
        return code == 1;
    if (found)
        *found = it;
    return 2;
}

/* Adds `number` to the key's value, modulo 2^64, so a sum past UINT64_MAX wraps. A new key gets `number` as value. To
 * subtract, add -(uint64_t)number. Returns CONGEE_ABSENT for a new key, which leaves *old unchanged. Returns
 * CONGEE_PRESENT for a present key, with the value before the addition in *old. Returns CONGEE_OOM, with nothing
 * changed, only for a new key that needs a new node or a larger one. */
static inline int congee_add(struct congee *map, uint64_t key, uint64_t number, uint64_t *old) {
    struct congee_handle handle = {map};
    uint64_t it = 0;
    int code = congee_c_add(&handle, key, number, &it);
    if (code != 1)
        return code == 0 ? 0 : CONGEE_OOM;
    if (old)
        *old = it;
    return 1;
}

/* Inserts the value if the key is absent, and keeps the value of a present key. Returns CONGEE_ABSENT for a new key,
 * which leaves *found unchanged. Returns CONGEE_PRESENT for a present key, with the present value in *found. Returns
 * CONGEE_OOM, with nothing changed, only for a new key that needs a new node or a larger one. */
static inline int congee_get_or_insert(struct congee *map, uint64_t key, uint64_t value, uint64_t *found) {
    struct congee_handle handle = {map};
    uint64_t it = 0;
    int code = congee_c_get_or_insert(&handle, key, value, &it);
    if (code != 1)
        return code == 0 ? 0 : CONGEE_OOM;
    if (found)
        *found = it;
    return 1;
}

/* A function that congee_compute and the like calls call with a key's value. `found` is CONGEE_PRESENT with the value
 * in *value, or CONGEE_ABSENT with 0 there. The function returns CONGEE_PRESENT for a key with the number that it
 * leaves in *value, or CONGEE_ABSENT for no such key. */
typedef int congee_updater(int found, uint64_t *value, void *with);

/* Changes the key's value by a function. Looks the key up, calls f(found, &value, with) once with what it found, and
 * gives the key the value that f leaves, or removes the key (congee_updater). Returns CONGEE_ABSENT if the key was
 * absent before, which leaves *old unchanged. Returns CONGEE_PRESENT for a key that was present, with the previous
 * value in *old. Returns CONGEE_OOM, with nothing changed, only for a new key that needs a new node or a larger one.
 * The call reads two paths. f may read the map, and changes no key of the map. */
static inline int congee_compute(struct congee *map, uint64_t key, congee_updater *f, void *with, uint64_t *old) {
    uint64_t before = 0, value;
    int found = congee_get(map, key, &before);
    value = before;
    if (f(found, &value, with) == CONGEE_ABSENT)
        congee_remove(map, key, NULL);
    else if (congee_insert(map, key, value, NULL) == CONGEE_OOM)
        return CONGEE_OOM;
    if (found == CONGEE_PRESENT && old)
        *old = before;
    return found;
}

/* -- Ranges -- */

/* Writes the first pairs with start <= key < end to the buffer, keys ascending, n pairs at most, and returns the number
 * of written pairs. The rest of the buffer is unchanged. UINT64_MAX is in no such range: congee_range_inclusive has a
 * last key. A full buffer is continued by a call that begins at the buffer's last key plus 1. The call takes no memory,
 * and reads the nodes that hold the written pairs and two paths. */
static inline size_t congee_range(const struct congee *map, uint64_t start, uint64_t end, struct congee_pair *buffer,
                                  size_t n) {
    struct congee_const_handle handle = {map};
    return n == 0 ? 0 : congee_c_range(&handle, start, end, buffer, n);
}

/* Writes the first pairs with start <= key <= last to the buffer, keys ascending, n pairs at most, and returns the
 * number of written pairs. The rest of the buffer is unchanged. UINT64_MAX may be the last key. A full buffer is
 * continued by a call that begins at the buffer's last key plus 1, unless that key is `last`. The call takes no memory,
 * and reads the nodes that hold the written pairs and two paths. */
static inline size_t congee_range_inclusive(const struct congee *map, uint64_t start, uint64_t last,
                                            struct congee_pair *buffer, size_t n) {
    struct congee_const_handle handle = {map};
    return n == 0 ? 0 : congee_c_range_inclusive(&handle, start, last, buffer, n);
}

/* Writes the last pairs with start <= key <= last to the buffer, keys descending, n pairs at most, and returns the
 * number of written pairs. The rest of the buffer is unchanged. UINT64_MAX may be the last key. A full buffer is
 * continued by a call that ends at the buffer's last key minus 1, unless that key is `start`. The call takes no memory,
 * and reads the nodes that hold the written pairs and two paths. */
static inline size_t congee_range_descending(const struct congee *map, uint64_t start, uint64_t last,
                                             struct congee_pair *buffer, size_t n) {
    struct congee_const_handle handle = {map};
    return n == 0 ? 0 : congee_c_range_descending(&handle, start, last, buffer, n);
}

/* -- Ends and neighbours -- */

/* Finds the pair with the least key. Returns CONGEE_PRESENT with the pair in *pair, or CONGEE_ABSENT for an empty map,
 * which leaves *pair unchanged. The call takes no memory. */
static inline int congee_first(const struct congee *map, struct congee_pair *pair) {
    struct congee_const_handle handle = {map};
    struct congee_pair it = {0, 0};
    if (congee_c_first(&handle, &it) == 0)
        return 0;
    if (pair)
        *pair = it;
    return 1;
}

/* Finds the pair with the greatest key. Returns CONGEE_PRESENT with the pair in *pair, or CONGEE_ABSENT for an empty
 * map, which leaves *pair unchanged. The call takes no memory. */
static inline int congee_last(const struct congee *map, struct congee_pair *pair) {
    struct congee_const_handle handle = {map};
    struct congee_pair it = {0, 0};
    if (congee_c_last(&handle, &it) == 0)
        return 0;
    if (pair)
        *pair = it;
    return 1;
}

/* Finds the pair with the greatest key that is at most `key`. Returns CONGEE_PRESENT with the pair in *pair, or
 * CONGEE_ABSENT if the map has no such pair, which leaves *pair unchanged. The call takes no memory. The call reads the
 * key's path, and at most one more. */
static inline int congee_floor(const struct congee *map, uint64_t key, struct congee_pair *pair) {
    struct congee_const_handle handle = {map};
    struct congee_pair it = {0, 0};
    if (congee_c_floor(&handle, key, &it) == 0)
        return 0;
    if (pair)
        *pair = it;
    return 1;
}

/* Finds the pair with the least key that is at least `key`. Returns CONGEE_PRESENT with the pair in *pair, or
 * CONGEE_ABSENT if the map has no such pair, which leaves *pair unchanged. The call takes no memory. The call reads the
 * key's path, and at most one more. */
static inline int congee_ceiling(const struct congee *map, uint64_t key, struct congee_pair *pair) {
    struct congee_const_handle handle = {map};
    struct congee_pair it = {0, 0};
    if (congee_c_ceiling(&handle, key, &it) == 0)
        return 0;
    if (pair)
        *pair = it;
    return 1;
}

/* Finds the pair with the greatest key below `key`. Returns CONGEE_PRESENT with the pair in *pair, or CONGEE_ABSENT if
 * the map has no such pair, which leaves *pair unchanged. The call takes no memory. The call reads the key's path, and
 * at most one more. */
static inline int congee_below(const struct congee *map, uint64_t key, struct congee_pair *pair) {
    struct congee_const_handle handle = {map};
    struct congee_pair it = {0, 0};
    if (congee_c_below(&handle, key, &it) == 0)
        return 0;
    if (pair)
        *pair = it;
    return 1;
}

/* Finds the pair with the least key above `key`. Returns CONGEE_PRESENT with the pair in *pair, or CONGEE_ABSENT if the
 * map has no such pair, which leaves *pair unchanged. The call takes no memory. The call reads the key's path, and at
 * most one more. */
static inline int congee_above(const struct congee *map, uint64_t key, struct congee_pair *pair) {
    struct congee_const_handle handle = {map};
    struct congee_pair it = {0, 0};
    if (congee_c_above(&handle, key, &it) == 0)
        return 0;
    if (pair)
        *pair = it;
    return 1;
}

/* Removes the pair with the least key. Returns CONGEE_PRESENT with the removed pair in *pair, or CONGEE_ABSENT for an
 * empty map, which leaves *pair unchanged. A pop never fails. */
static inline int congee_pop_first(struct congee *map, struct congee_pair *pair) {
    struct congee_handle handle = {map};
    struct congee_pair it = {0, 0};
    if (congee_c_pop_first(&handle, &it) == 0)
        return 0;
    if (pair)
        *pair = it;
    return 1;
}

/* Removes the pair with the greatest key. Returns CONGEE_PRESENT with the removed pair in *pair, or CONGEE_ABSENT for
 * an empty map, which leaves *pair unchanged. A pop never fails. */
static inline int congee_pop_last(struct congee *map, struct congee_pair *pair) {
    struct congee_handle handle = {map};
    struct congee_pair it = {0, 0};
    if (congee_c_pop_last(&handle, &it) == 0)
        return 0;
    if (pair)
        *pair = it;
    return 1;
}

/* Removes the pair with the least key, if that key is at most `key`. Returns CONGEE_PRESENT with the removed pair in
 * *pair, or CONGEE_ABSENT if the map has no such pair, which leaves *pair unchanged. A pop never fails. The call reads
 * two paths. */
static inline int congee_pop_first_to(struct congee *map, uint64_t key, struct congee_pair *pair) {
    struct congee_pair it = {0, 0};
    if (congee_first(map, &it) == CONGEE_ABSENT || it.key > key)
        return CONGEE_ABSENT;
    return congee_pop_first(map, pair);
}

/* Removes the pair with the greatest key, if that key is at least `key`. Returns CONGEE_PRESENT with the removed pair
 * in *pair, or CONGEE_ABSENT if the map has no such pair, which leaves *pair unchanged. A pop never fails. The call
 * reads two paths. */
static inline int congee_pop_last_from(struct congee *map, uint64_t key, struct congee_pair *pair) {
    struct congee_pair it = {0, 0};
    if (congee_last(map, &it) == CONGEE_ABSENT || it.key < key)
        return CONGEE_ABSENT;
    return congee_pop_last(map, pair);
}

/* -- Many pairs -- */

/* How many pairs congee_each and the like calls read at once: at first, and then. */
enum { CONGEE_FIRST_PAGE = 16, CONGEE_PAGE = 256 };

/* A function that congee_each calls with each pair. It returns 0 to go on. */
typedef int congee_visitor(struct congee_pair pair, void *with);

/* Calls f(pair, with) for each pair with start <= key <= last, keys ascending, until a call returns something else than
 * 0. Returns what the last call of f returned, or 0 without a call. The pairs are read in pages: 16 pairs, then 256
 * each. So f may change the map, and is called with a page's pairs as they were when the page was read. The call takes
 * no memory. */
static inline int congee_each(const struct congee *map, uint64_t start, uint64_t last, congee_visitor *f, void *with) {
    struct congee_pair page[CONGEE_PAGE];
    size_t room = CONGEE_FIRST_PAGE, ready = 0, n;
    for (;;) {
        for (; ready < room; ready++)
            page[ready].key = page[ready].value = 0;
        n = congee_range_inclusive(map, start, last, page, room);
        for (size_t i = 0; i < n; i++) {
            int code = f(page[i], with);
            if (code != 0)
                return code;
        }
        if (n < room || page[n - 1].key == last)
            return 0;
        start = page[n - 1].key + 1;
        room = CONGEE_PAGE;
    }
}

/* Calls f(pair, with) for each pair with start <= key <= last, keys descending, until a call returns something else
 * than 0. Returns what the last call of f returned, or 0 without a call. The pairs are read in pages: 16 pairs, then
 * 256 each. So f may change the map, and is called with a page's pairs as they were when the page was read. The call
 * takes no memory. */
static inline int congee_each_descending(const struct congee *map, uint64_t start, uint64_t last, congee_visitor *f,
                                         void *with) {
    struct congee_pair page[CONGEE_PAGE];
    size_t room = CONGEE_FIRST_PAGE, ready = 0, n;
    for (;;) {
        for (; ready < room; ready++)
            page[ready].key = page[ready].value = 0;
        n = congee_range_descending(map, start, last, page, room);
        for (size_t i = 0; i < n; i++) {
            int code = f(page[i], with);
            if (code != 0)
                return code;
        }
        if (n < room || page[n - 1].key == start)
            return 0;
        last = page[n - 1].key - 1;
        room = CONGEE_PAGE;
    }
}

/* Inserts n pairs in their order, by a call of congee_insert for each, so of two pairs with one key the later value
 * remains. Returns how many pairs were inserted: n, or fewer if the next insertion was out of memory. The pairs before
 * that one are in the map. */
static inline size_t congee_insert_many(struct congee *map, const struct congee_pair *pairs, size_t n) {
    size_t done = 0;
    while (done < n && congee_insert(map, pairs[done].key, pairs[done].value, NULL) != CONGEE_OOM)
        done++;
    return done;
}

/* A function that congee_retain and the like calls call with each pair. It returns whether the pair stays. */
typedef bool congee_predicate(struct congee_pair pair, void *with);

/* Calls keep(pair, with) once for each pair, keys ascending, and removes the pairs for which `keep` returns false.
 * Returns how many pairs were removed. `keep` may read the map, and changes no key of the map. The pairs are read in
 * pages of 64, and removed one by one. The call takes no memory of its own, and never fails. */
static inline uint64_t congee_retain(struct congee *map, congee_predicate *keep, void *with) {
    struct congee_pair page[64] = {{0, 0}};
    uint64_t start = 0, removed = 0;
    size_t n;
    while ((n = congee_range_inclusive(map, start, UINT64_MAX, page, 64)) > 0) {
        for (size_t i = 0; i < n; i++)
            if (!keep(page[i], with))
                removed += (uint64_t)congee_remove(map, page[i].key, NULL);
        if (n < 64 || page[63].key == UINT64_MAX)
            break;
        start = page[63].key + 1;
    }
    return removed;
}

/* Removes all pairs, and returns their memory to malloc. The call never fails. If malloc has 2104 bytes for a new root,
 * which aren't charged, the call frees the map node by node. Otherwise it reads one path for each pair. */
static inline void congee_clear(struct congee *map) {
    struct congee_handle handle = {map};
    congee_c_clear(&handle);
}

/* Returns memory to malloc that is held for removed nodes, by a move of the remaining nodes into a smaller table. A
 * removal does the same once three quarters of a table are free. Without memory for the smaller table the call changes
 * nothing. Pairs and charge stay the same, and the call never fails. The cost is that of reading each node once. */
static inline void congee_shrink_to_fit(struct congee *map) {
    struct congee_handle handle = {map};
    congee_c_shrink_to_fit(&handle);
}

/* Copies the pairs into a new map with the same limit. Returns CONGEE_DONE with the copy in *out, or CONGEE_OOM with
 * null there and no copy left. The map is unchanged. A map near its limit may have no copy: while a node of the copy
 * grows, both sizes are charged. The cost is that of reading each pair, and of an insertion for each. */
static inline int congee_snapshot(const struct congee *map, struct congee **out) {
    struct congee_const_handle handle = {map};
    struct congee_pair page[64] = {{0, 0}};
    uint64_t start = 0;
    size_t n;
    if (congee_new_with_limit(out, congee_c_limit(&handle)) == CONGEE_OOM)
        return CONGEE_OOM;
    for (;;) {
        n = congee_range_inclusive(map, start, UINT64_MAX, page, 64);
        if (congee_insert_many(*out, page, n) < n) {
            congee_free(*out);
            *out = NULL;
            return CONGEE_OOM;
        }
        if (n < 64 || page[63].key == UINT64_MAX)
            return CONGEE_DONE;
        start = page[63].key + 1;
    }
}

/* Removes the pairs with start <= key <= last, and returns how many pairs were removed, which saturates at UINT64_MAX.
 * The call reads two paths for each leaf of the range, and never fails. */
static inline uint64_t congee_remove_range_inclusive(struct congee *map, uint64_t start, uint64_t last) {
    struct congee_handle handle = {map};
    return congee_c_remove_range_inclusive(&handle, start, last);
}

/* -- Counts -- */

/* Returns whether the map has no pair, in constant time. */
static inline bool congee_is_empty(const struct congee *map) {
    struct congee_const_handle handle = {map};
    return congee_c_is_empty(&handle);
}

/* Returns how many pairs the map has, in constant time. The number saturates at UINT64_MAX. */
static inline uint64_t congee_count(const struct congee *map) {
    struct congee_const_handle handle = {map};
    return congee_c_count(&handle);
}

/* Returns the sum in bytes of the stated sizes of the map's nodes, in constant time: 2104 for an empty map. */
static inline uint64_t congee_charged(const struct congee *map) {
    struct congee_const_handle handle = {map};
    return congee_c_charged(&handle);
}

/* Returns the limit in bytes that the map was made with, or UINT64_MAX for a map without a limit, in constant time. The
 * charged bytes are at most the limit. */
static inline uint64_t congee_limit(const struct congee *map) {
    struct congee_const_handle handle = {map};
    return congee_c_limit(&handle);
}

/* Writes the sum in bytes of the stated sizes of the map's nodes to *charged, and the map's limit to *limit, in
 * constant time. Neither place is null. The charged bytes are at most the limit, which is proved. */
static inline void congee_usage(const struct congee *map, uint64_t *charged, uint64_t *limit) {
    *charged = congee_charged(map);
    *limit = congee_limit(map);
}

/* -- Readers on several threads -- */

/* Freezes a map: nobody changes it from then on, and threads may look keys up at once, each by a reader of its own.
 * Returns CONGEE_DONE with the first reader in *out and null in *map. Returns CONGEE_OOM with null in *out and *map as
 * it was. The call takes two small blocks, and leaves the map's nodes where they are. */
static inline int congee_freeze(struct congee **map, struct congee_frozen **out) {
    struct congee_handle handle = {*map}, back = {NULL};
    struct congee_frozen_handle made = {NULL};
    int code = congee_c_freeze(handle, &made, &back);
    *map = back.map;
    *out = made.reader;
    return code;
}

/* Makes one more reader of a frozen map, for another thread. Returns CONGEE_DONE with the reader in *out, or CONGEE_OOM
 * with null there. A reader takes a small block. */
static inline int congee_frozen_another(const struct congee_frozen *frozen, struct congee_frozen **out) {
    struct congee_const_frozen_handle handle = {frozen};
    struct congee_frozen_handle made = {NULL};
    int code = congee_c_frozen_another(&handle, &made);
    *out = made.reader;
    return code;
}

/* Makes a frozen map changeable again, by its last reader. Returns 1 with the map in *out and null in *frozen. If the
 * map has further readers, returns 0 with null in *out and *frozen as it was. The call takes no memory. */
static inline int congee_thaw(struct congee_frozen **frozen, struct congee **out) {
    struct congee_frozen_handle handle = {*frozen}, back = {NULL};
    struct congee_handle made = {NULL};
    int code = congee_c_thaw(handle, &made, &back);
    *frozen = back.reader;
    *out = made.map;
    return code;
}

/* Frees the reader, and the map's memory with its last reader. For null the call does nothing. */
static inline void congee_frozen_free(struct congee_frozen *frozen) {
    struct congee_frozen_handle handle = {frozen};
    if (frozen)
        congee_c_frozen_free(handle);
}

/* Looks the key up in a frozen map. Returns CONGEE_PRESENT with the key's value in *value, or CONGEE_ABSENT, which
 * leaves *value unchanged. The call takes no memory. */
static inline int congee_frozen_get(const struct congee_frozen *frozen, uint64_t key, uint64_t *value) {
    struct congee_const_frozen_handle handle = {frozen};
    uint64_t it = 0;
    if (congee_c_frozen_get(&handle, key, &it) == 0)
        return 0;
    if (value)
        *value = it;
    return 1;
}

/* Writes the first pairs with start <= key < end to the buffer, keys ascending, n pairs at most, and returns the number
 * of written pairs. The rest of the buffer is unchanged. UINT64_MAX is in no such range: congee_frozen_range_inclusive
 * has a last key. A full buffer is continued by a call that begins at the buffer's last key plus 1. The call takes no
 * memory, and reads the nodes that hold the written pairs and two paths. */
static inline size_t congee_frozen_range(const struct congee_frozen *frozen, uint64_t start, uint64_t end,
                                         struct congee_pair *buffer, size_t n) {
    struct congee_const_frozen_handle handle = {frozen};
    return n == 0 ? 0 : congee_c_frozen_range(&handle, start, end, buffer, n);
}

/* Writes the first pairs with start <= key <= last to the buffer, keys ascending, n pairs at most, and returns the
 * number of written pairs. The rest of the buffer is unchanged. UINT64_MAX may be the last key. A full buffer is
 * continued by a call that begins at the buffer's last key plus 1, unless that key is `last`. The call takes no memory,
 * and reads the nodes that hold the written pairs and two paths. */
static inline size_t congee_frozen_range_inclusive(const struct congee_frozen *frozen, uint64_t start, uint64_t last,
                                                   struct congee_pair *buffer, size_t n) {
    struct congee_const_frozen_handle handle = {frozen};
    return n == 0 ? 0 : congee_c_frozen_range_inclusive(&handle, start, last, buffer, n);
}

/* Writes the last pairs with start <= key <= last to the buffer, keys descending, n pairs at most, and returns the
 * number of written pairs. The rest of the buffer is unchanged. UINT64_MAX may be the last key. A full buffer is
 * continued by a call that ends at the buffer's last key minus 1, unless that key is `start`. The call takes no memory,
 * and reads the nodes that hold the written pairs and two paths. */
static inline size_t congee_frozen_range_descending(const struct congee_frozen *frozen, uint64_t start, uint64_t last,
                                                    struct congee_pair *buffer, size_t n) {
    struct congee_const_frozen_handle handle = {frozen};
    return n == 0 ? 0 : congee_c_frozen_range_descending(&handle, start, last, buffer, n);
}

/* Calls f(pair, with) for each pair with start <= key <= last, keys ascending, until a call returns something else than
 * 0. Returns what the last call of f returned, or 0 without a call. The pairs are read in pages: 16 pairs, then 256
 * each. The call takes no memory. */
static inline int congee_frozen_each(const struct congee_frozen *frozen, uint64_t start, uint64_t last, congee_visitor *f,
                                     void *with) {
    struct congee_pair page[CONGEE_PAGE];
    size_t room = CONGEE_FIRST_PAGE, ready = 0, n;
    for (;;) {
        for (; ready < room; ready++)
            page[ready].key = page[ready].value = 0;
        n = congee_frozen_range_inclusive(frozen, start, last, page, room);
        for (size_t i = 0; i < n; i++) {
            int code = f(page[i], with);
            if (code != 0)
                return code;
        }
        if (n < room || page[n - 1].key == last)
            return 0;
        start = page[n - 1].key + 1;
        room = CONGEE_PAGE;
    }
}

/* Calls f(pair, with) for each pair with start <= key <= last, keys descending, until a call returns something else
 * than 0. Returns what the last call of f returned, or 0 without a call. The pairs are read in pages: 16 pairs, then
 * 256 each. The call takes no memory. */
static inline int congee_frozen_each_descending(const struct congee_frozen *frozen, uint64_t start, uint64_t last,
                                                congee_visitor *f, void *with) {
    struct congee_pair page[CONGEE_PAGE];
    size_t room = CONGEE_FIRST_PAGE, ready = 0, n;
    for (;;) {
        for (; ready < room; ready++)
            page[ready].key = page[ready].value = 0;
        n = congee_frozen_range_descending(frozen, start, last, page, room);
        for (size_t i = 0; i < n; i++) {
            int code = f(page[i], with);
            if (code != 0)
                return code;
        }
        if (n < room || page[n - 1].key == start)
            return 0;
        last = page[n - 1].key - 1;
        room = CONGEE_PAGE;
    }
}

/* Copies the pairs of a frozen map into a new map with one owner and without a limit. Returns CONGEE_DONE with the copy
 * in *out, or CONGEE_OOM with null there and no copy left. Readers of the frozen map go on. The cost is that of reading
 * each pair, and of an insertion for each. */
static inline int congee_frozen_snapshot(const struct congee_frozen *frozen, struct congee **out) {
    struct congee_pair page[64] = {{0, 0}};
    uint64_t start = 0;
    size_t n;
    if (congee_new(out) == CONGEE_OOM)
        return CONGEE_OOM;
    for (;;) {
        n = congee_frozen_range_inclusive(frozen, start, UINT64_MAX, page, 64);
        if (congee_insert_many(*out, page, n) < n) {
            congee_free(*out);
            *out = NULL;
            return CONGEE_OOM;
        }
        if (n < 64 || page[63].key == UINT64_MAX)
            return CONGEE_DONE;
        start = page[63].key + 1;
    }
}

/* Finds the pair with the least key that is at least `key`, by a range of one pair. Returns CONGEE_PRESENT with the
 * pair in *pair, or CONGEE_ABSENT if the map has no such pair, which leaves *pair unchanged. The call takes no memory.
 */
static inline int congee_frozen_ceiling(const struct congee_frozen *frozen, uint64_t key, struct congee_pair *pair) {
    struct congee_pair it = {0, 0};
    if (congee_frozen_range_inclusive(frozen, key, UINT64_MAX, &it, 1) == 0)
        return 0;
    if (pair)
        *pair = it;
    return 1;
}

/* Finds the pair with the greatest key that is at most `key`, by a range of one pair. Returns CONGEE_PRESENT with the
 * pair in *pair, or CONGEE_ABSENT if the map has no such pair, which leaves *pair unchanged. The call takes no memory.
 */
static inline int congee_frozen_floor(const struct congee_frozen *frozen, uint64_t key, struct congee_pair *pair) {
    struct congee_pair it = {0, 0};
    if (congee_frozen_range_descending(frozen, 0, key, &it, 1) == 0)
        return 0;
    if (pair)
        *pair = it;
    return 1;
}

/* Finds the pair with the least key above `key`, by a range of one pair. Returns CONGEE_PRESENT with the pair in *pair,
 * or CONGEE_ABSENT if the map has no such pair, which leaves *pair unchanged. The call takes no memory. */
static inline int congee_frozen_above(const struct congee_frozen *frozen, uint64_t key, struct congee_pair *pair) {
    return key == UINT64_MAX ? 0 : congee_frozen_ceiling(frozen, key + 1, pair);
}

/* Finds the pair with the greatest key below `key`, by a range of one pair. Returns CONGEE_PRESENT with the pair in
 * *pair, or CONGEE_ABSENT if the map has no such pair, which leaves *pair unchanged. The call takes no memory. */
static inline int congee_frozen_below(const struct congee_frozen *frozen, uint64_t key, struct congee_pair *pair) {
    return key == 0 ? 0 : congee_frozen_floor(frozen, key - 1, pair);
}

/* Finds the pair with the least key, by a range of one pair. Returns CONGEE_PRESENT with the pair in *pair, or
 * CONGEE_ABSENT for an empty map, which leaves *pair unchanged. The call takes no memory. */
static inline int congee_frozen_first(const struct congee_frozen *frozen, struct congee_pair *pair) {
    return congee_frozen_ceiling(frozen, 0, pair);
}

/* Finds the pair with the greatest key, by a range of one pair. Returns CONGEE_PRESENT with the pair in *pair, or
 * CONGEE_ABSENT for an empty map, which leaves *pair unchanged. The call takes no memory. */
static inline int congee_frozen_last(const struct congee_frozen *frozen, struct congee_pair *pair) {
    return congee_frozen_floor(frozen, UINT64_MAX, pair);
}

/* Returns how many pairs the frozen map has, in constant time. The number saturates at UINT64_MAX. */
static inline uint64_t congee_frozen_count(const struct congee_frozen *frozen) {
    struct congee_const_frozen_handle handle = {frozen};
    return congee_c_frozen_count(&handle);
}

/* Returns whether the frozen map has no pair, in constant time. */
static inline bool congee_frozen_is_empty(const struct congee_frozen *frozen) {
    return congee_frozen_count(frozen) == 0;
}

#ifdef __cplusplus
}
#endif

#include "congee_shared.h"

#endif

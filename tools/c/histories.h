/* Recorded histories of a map that threads share, and a search for one order of the calls that explains each answer.
 *
 * Each thread writes down the calls that it made: start, end, arguments and answer. The clock is one counter that all
 * threads raise by atomic additions. So a call whose end has a smaller number than the start of another one had ended before
 * that one began. A call that was busy isn't written down.
 *
 * A history is explained if each call has a moment between its start and its end (its linearization point), such that the
 * calls in the order of these moments have the answers of a map with one owner. There are two searches:
 *
 *   - explain, for few keys: the map as a whole. A range, an end, a pop or a count has one moment. Where the map's aren't of
 *     one moment, it has one for all keys that share a leaf, in the order in which it reads, and a pop one more, at which it
 *     removes the pair that it found. A removal of a range has a moment for each key, in any order, at which it removes the
 *     key if that is there
 *   - explain_by_key, for many keys: each key by itself. A range is a look-up of each key that it passed, and a pop is that
 *     and a removal of its pair. Counts, and how many pairs a removal of a range removed, aren't searched, and clears neither.
 *     Objects are linearizable together where each one is (Herlihy and Wing, Linearizability, 1990)
 *
 * The search goes through starts and ends by their numbers. It keeps each pair of a content and the calls that are made by
 * then (Wing and Gong, Testing and Verifying Concurrent Objects, 1993). A call is put in order only when a call's end
 * demands it, and no pair is kept twice (Lowe, Testing for Linearizability, 2017). Horn and Kroening (Faster Linearizability
 * Checking via P-Compositionality, 2015) search key by key. */
#ifndef HISTORIES_H
#define HISTORIES_H

#include <stdbool.h>
#include <stddef.h>
#include <stdint.h>
#include <stdio.h>

enum { MOST_KEYS = 64, MOST_WHOLE = 8, MOST_THREADS = 8 };

/* COMPUTE is a change by a function: what it found, and what the function left, at one moment. REFUSED is a call that found no
 * memory to insert its key, so the key was absent at a moment. FIND and FIND_DOWN are ranges and ends, IS_FILLED is a test for
 * none that found a pair. */
enum kind {
    GET,
    INSERT,
    REMOVE,
    EXCHANGE,
    COMPARE_REMOVE,
    ADD,
    GET_OR_INSERT,
    COMPUTE,
    REFUSED,
    FIND,
    FIND_DOWN,
    COUNT,
    IS_FILLED,
    POP,
    POP_DOWN,
    CLEAR,
    REMOVE_RANGE
};

/* Keys go by their numbers, in ascending order of keys. Sets of keys have a bit for each. */
struct call {
    uint64_t start, end;
    enum kind kind;
    int code;
    uint64_t key, argument, expected, answer;
    int left;               /* of COMPUTE: whether the key is there afterwards, with the argument as its value */
    bool is_by_key;         /* of FIND_DOWN: keys that share a leaf have a moment each where ranges aren't of one moment */
    bool is_in_two;         /* of pops: the pair is removed at a moment of its own, also where ranges are of one moment */
    uint64_t passed, found; /* of FIND, FIND_DOWN, pops and REMOVE_RANGE: which keys it passed, and which of them it found */
    const uint64_t *values; /* what was found at these, in ascending order of keys */
};

/* What a thread writes down. */
struct record {
    struct call *calls;
    uint64_t *values;
    size_t count, valued, most, most_values;
};

struct content {
    uint64_t value[MOST_KEYS]; /* 0 where the key is absent */
    uint64_t present;
};

struct history {
    struct record records[MOST_THREADS];
    size_t threads, keys;
    uint64_t leaf[MOST_KEYS]; /* of each key, which leaf it is in */
    bool is_of_one_moment;    /* each range, end and count is */
    struct content first;     /* what was there before all calls */
};

/* The next number of the clock. */
uint64_t clock_now(void);

/* Whether there is memory for so many calls and values that ranges found. */
bool make_record(struct record *record, size_t calls, size_t values);
void free_record(struct record *record);

/* UNDECIDED is a search that was given up, as it found too much to go through. */
enum verdict { EXPLAINED, UNEXPLAINED, UNDECIDED };

/* Whether an order explains all calls. If none does, prints the calls that lead to the first end that isn't explained. */
enum verdict explain(const struct history *history, FILE *out);
enum verdict explain_by_key(const struct history *history, FILE *out);

/* Prints the calls of all threads in the order of their starts, the last so many of those that began up to a number of the
 * clock. */
void print_calls(const struct history *history, uint64_t until, size_t most, FILE *out);

#endif

/* Fibers of one thread in place of threads. They change where the program allows it, and at atomic accesses of code that a
 * compiler instrumented for the thread sanitizer: fibers.c has the functions which such code calls. A seed chooses the run,
 * and repeats it. A run is one order of all atomic accesses. So it shows what sequentially consistent ones may do. It shows
 * no race of other accesses and no weaker order.
 *
 * A load is a point of choice where its word was written at least twice since forget_writes, and each store is one. Most of
 * what a call loads are tables that are written once. There are three ways of choosing:
 *
 *   - at each point another fiber goes on with some likelihood
 *   - one fiber is stopped within its calls so, and the others make some whole calls meanwhile
 *   - the fiber of the highest priority goes on, and loses it at a few points that are drawn before (Burckhardt, Kothari,
 *     Musuvathi and Nagarakatte, A Randomized Scheduler with Probabilistic Guarantees of Finding Bugs, 2010) */
#ifndef FIBERS_H
#define FIBERS_H

#include <stdbool.h>
#include <stddef.h>
#include <stdint.h>

enum { MOST_FIBERS = 8, MOST_CHANGES = 8 };

/* How fibers are chosen. */
struct choice {
    uint64_t random;                /* the state of its random numbers */
    bool is_by_priority;            /* else by these: */
    uint64_t one_in[MOST_FIBERS];   /* of each fiber: another goes on at one of its points in so many. 0: at none */
    uint64_t changes[MOST_CHANGES]; /* the points at which the fiber that is running loses its priority */
    uint64_t most;                  /* the run is given up behind so many points */
};

/* Makes the stacks of so many fibers. Returns whether there was memory. */
bool make_fibers(size_t count);
void free_fibers(void);

/* Runs the work of each fiber, with its number, to its end. Returns how many points of choice were met. 0: it was given up. */
uint64_t run_fibers(size_t count, void (*work)(size_t fiber), struct choice *choice);

/* Begins anew with what was written, before a map is made. */
void forget_writes(void);

/* What a fiber does between two calls: often another one goes on. */
void end_call(void);

/* A module may ask at numbered places whether a test has passed. At this place it has, whatever the test says. 0: at none. */
extern uint32_t left_out;

/* How often it hadn't passed there. */
extern uint64_t times_left_out;

#endif

/* The fibers of fibers.h, for x86-64. In place of the thread sanitizer's runtime, the functions that instrumented code
 * calls. */
#include "fibers.h"
#include "history_maps.h"
#include "pauses.h"
#include <stdlib.h>
#include <string.h>

enum { STACK_BYTES = 1 << 18 };

struct fiber {
    void *top; /* of the stack of one that isn't running */
    char *stack;
    uint64_t priority;
    uint64_t rests; /* how many calls others end before it goes on, if it was stopped within one */
    bool is_over;
};

static struct fiber fibers[MOST_FIBERS];
static struct fiber *current; /* NULL outside of all */
static size_t made, running;
static void *outside; /* the top of the stack of who runs the fibers */
static void (*the_work)(size_t fiber);
static struct choice *choice;
static uint64_t points, lowest;

/* Keeps the registers that a call has to keep on the stack, notes its top, and goes on by another stack. */
void switch_stacks(void **from, void *to);
__asm__(".text\n"
        ".type switch_stacks, @function\n"
        "switch_stacks:\n"
        "    pushq %rbp\n"
        "    pushq %rbx\n"
        "    pushq %r12\n"
        "    pushq %r13\n"
        "    pushq %r14\n"
        "    pushq %r15\n"
        "    movq %rsp, (%rdi)\n"
        "    movq %rsi, %rsp\n"
        "    popq %r15\n"
        "    popq %r14\n"
        "    popq %r13\n"
        "    popq %r12\n"
        "    popq %rbx\n"
        "    popq %rbp\n"
        "    ret\n"
        ".size switch_stacks, . - switch_stacks\n");

bool make_fibers(size_t count) {
    for (; made < count; made++)
        if (!(fibers[made].stack = malloc(STACK_BYTES)))
            return false;
    return true;
}

void free_fibers(void) {
    while (made > 0)
        free(fibers[--made].stack);
}

static void go_to(struct fiber *to) {
    struct fiber *from = current;
    if (to == from)
        return;
    current = to;
    switch_stacks(from ? &from->top : &outside, to ? to->top : outside);
}

/* Another fiber that goes on in place of the one that is running, whether or not it rests. NULL: there is none. */
static struct fiber *another(bool whether_or_not) {
    struct fiber *found = NULL;
    size_t others = 0;
    for (size_t i = 0; i < running; i++) {
        struct fiber *it = &fibers[i];
        if (it->is_over || it == current || (it->rests && !whether_or_not))
            continue;
        others++;
        if (!found || next_random(&choice->random) % others == 0)
            found = it;
    }
    return found;
}

static struct fiber *of_highest_priority(void) {
    struct fiber *found = NULL;
    for (size_t i = 0; i < running; i++)
        if (!fibers[i].is_over && (!found || fibers[i].priority > found->priority))
            found = &fibers[i];
    return found;
}

/* The fiber that goes on. NULL: all are over. */
static struct fiber *chosen(void) {
    struct fiber *found = choice->is_by_priority ? of_highest_priority() : another(false);
    found = found ? found : another(true);
    return found ? found : current && !current->is_over ? current : NULL;
}

/* An end in the midst of calls: what the fibers had is lost. */
static void give_up(void) {
    points = 0;
    go_to(NULL);
}

/* How often words were written: a table by their addresses. What has no place in it counts as written often. */
static struct {
    volatile uint64_t *at;
    uint64_t round, count;
} written[1 << 14];
static uint64_t the_round = 1;

void forget_writes(void) {
    the_round++;
}

static uint64_t *writes_of(volatile uint64_t *at) {
    static uint64_t often;
    size_t mask = sizeof written / sizeof written[0] - 1, slot = (uintptr_t)at / 8 * 0x9e3779b97f4a7c15u >> 50;
    for (size_t tries = 0; tries < 64; tries++, slot = (slot + 1) & mask) {
        if (written[slot].round != the_round) {
            written[slot].at = at;
            written[slot].round = the_round;
            written[slot].count = 0;
        }
        if (written[slot].at == at)
            return &written[slot].count;
    }
    often = 2;
    return &often;
}

static void choose(void) {
    if (!current)
        return;
    if (++points == choice->most)
        give_up();
    uint64_t one_in = choice->one_in[current - fibers];
    if (!choice->is_by_priority && one_in && next_random(&choice->random) % one_in == 0) {
        current->rests = next_random(&choice->random) % 8;
        go_to(chosen());
    }
    for (size_t i = 0; choice->is_by_priority && i < MOST_CHANGES; i++)
        if (choice->changes[i] == points) {
            current->priority = --lowest;
            go_to(chosen());
        }
}

/* Before a word is written. */
static void choose_and_write(volatile uint64_t *at) {
    choose();
    ++*writes_of(at);
}

static void rest_less(void) {
    for (size_t i = 0; i < running; i++)
        fibers[i].rests -= fibers[i].rests > 0;
}

void pause_here(void) {
    if (!current)
        return;
    rest_less();
    if (++points == choice->most)
        give_up();
    current->priority = --lowest;
    go_to(chosen());
}

void end_call(void) {
    rest_less();
    if (current && !choice->is_by_priority && next_random(&choice->random) % 2)
        go_to(chosen());
}

/* Where a fiber begins. */
static void begin(void) {
    the_work(current - fibers);
    current->is_over = true;
    go_to(chosen());
    abort();
}

/* (the top has six registers, and where to begin, so that the stack is as a call leaves it) */
static void prepare(struct fiber *fiber) {
    void **top = (void **)((uintptr_t)(fiber->stack + STACK_BYTES) & ~(uintptr_t)15) - 2;
    void (*first)(void) = begin;
    memset(top - 6, 0, 8 * sizeof *top);
    memcpy(top, &first, sizeof first);
    fiber->top = top - 6;
    fiber->is_over = false;
    fiber->rests = 0;
}

uint64_t run_fibers(size_t count, void (*work)(size_t fiber), struct choice *by) {
    the_work = work;
    choice = by;
    running = count;
    points = 1;
    lowest = 1 << 20;
    for (size_t i = 0; i < count; i++) {
        prepare(&fibers[i]);
        fibers[i].priority = lowest + 1 + next_random(&choice->random) % 1000;
    }
    go_to(chosen());
    return points;
}

/* -- What instrumented code calls -- */

uint32_t left_out;
uint64_t times_left_out;

/* (no header declares these functions) */
#define INSTEAD(result, name, parameters)                                                                                      \
    result name parameters;                                                                                                    \
    result name parameters

INSTEAD(uint32_t, has_passed, (uint32_t place, uint32_t passed)) {
    times_left_out += place == left_out && !passed;
    return passed || place == left_out;
}

/* Other accesses, and the borders of functions, are passed over. */
#define PASSED(name)                                                                                                           \
    INSTEAD(void, __tsan_##name, (void *it)) {                                                                                 \
        (void)it;                                                                                                              \
    }
PASSED(func_entry)
PASSED(read1)
PASSED(read2)
PASSED(read4)
PASSED(read8)
PASSED(read16)
PASSED(write1)
PASSED(write2)
PASSED(write4)
PASSED(write8)
PASSED(write16)
PASSED(unaligned_read2)
PASSED(unaligned_read4)
PASSED(unaligned_read8)
PASSED(unaligned_read16)
PASSED(unaligned_write2)
PASSED(unaligned_write4)
PASSED(unaligned_write8)
PASSED(unaligned_write16)

INSTEAD(void, __tsan_func_exit, (void)) {
}

INSTEAD(void, __tsan_init, (void)) {
}

INSTEAD(uint64_t, __tsan_atomic64_load, (volatile uint64_t * at, int order)) {
    (void)order;
    if (current && *writes_of(at) >= 2)
        choose();
    return *at;
}

INSTEAD(void, __tsan_atomic64_store, (volatile uint64_t * at, uint64_t value, int order)) {
    (void)order;
    choose_and_write(at);
    *at = value;
}

INSTEAD(uint64_t, __tsan_atomic64_exchange, (volatile uint64_t * at, uint64_t value, int order)) {
    (void)order;
    choose_and_write(at);
    uint64_t before = *at;
    *at = value;
    return before;
}

INSTEAD(uint64_t, __tsan_atomic64_fetch_add, (volatile uint64_t * at, uint64_t value, int order)) {
    (void)order;
    choose_and_write(at);
    *at += value;
    return *at - value;
}

INSTEAD(uint64_t, __tsan_atomic64_fetch_sub, (volatile uint64_t * at, uint64_t value, int order)) {
    (void)order;
    choose_and_write(at);
    *at -= value;
    return *at + value;
}

INSTEAD(uint64_t, __tsan_atomic64_compare_exchange_val,
        (volatile uint64_t * at, uint64_t expected, uint64_t desired, int order, int failed)) {
    (void)order;
    (void)failed;
    choose_and_write(at);
    uint64_t before = *at;
    if (before == expected)
        *at = desired;
    return before;
}

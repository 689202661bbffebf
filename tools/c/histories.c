/* The recorder and the search of histories.h. */
#include "histories.h"
#include <inttypes.h>
#include <stdatomic.h>
#include <stdlib.h>
#include <string.h>

/* A search that comes to so many configurations at one end (a power of two), or to so many in all, is given up: many threads
 * were stopped within calls there. */
enum { MOST_CONFIGURATIONS = 1 << 16, MOST_WORK = 3000000 };

static _Atomic uint64_t the_clock = 1;

uint64_t clock_now(void) {
    return atomic_fetch_add(&the_clock, 1);
}

bool make_record(struct record *record, size_t calls, size_t values) {
    *record =
        (struct record){malloc(calls * sizeof *record->calls), malloc(values * sizeof *record->values), 0, 0, calls, values};
    return record->calls && record->values;
}

void free_record(struct record *record) {
    free(record->calls);
    free(record->values);
}

/* What may be so at an end: the content, and how many steps of its open call each thread has made. Of a count, which numbers
 * it may have come to after so many steps: a bit each. Of a removal of a range, which keys had their moments, a bit each, and
 * first in `counted` how many it removed. */
struct configuration {
    uint64_t value[MOST_WHOLE];
    uint64_t present;
    uint8_t made[MOST_THREADS];
    uint16_t counted[MOST_THREADS][MOST_WHOLE + 1];
};

/* Configurations, each once: an array, where each is in the table, and the table of their numbers and one more by their
 * hashes.
 */
struct configurations {
    struct configuration *all;
    uint32_t *slots, *table;
    size_t count;
};

struct search {
    const struct call *calls[MOST_THREADS];
    size_t count[MOST_THREADS], at[MOST_THREADS], threads, keys;
    bool is_open[MOST_THREADS], is_of_one_moment, fits;
    const uint64_t *leaf;
    size_t work; /* how many configurations were met */
    const struct call *failed;
};

/* Those that may be so behind the last end, those that are reached from there, and those in which the next call is made. */
static struct configurations now, reached, ended;

static uint64_t hash_of(const struct configuration *it) {
    uint64_t words[sizeof *it / 8], hash = 0;
    memcpy(words, it, sizeof words);
    for (size_t i = 0; i < sizeof words / 8; i++)
        hash = (hash ^ words[i]) * 0x9e3779b97f4a7c15u ^ hash >> 29;
    return hash ^ hash >> 32;
}

/* Adds it, unless it is there. Returns false where there are too many. */
static bool add(struct configurations *to, const struct configuration *it) {
    size_t mask = 2 * MOST_CONFIGURATIONS - 1, slot = hash_of(it) & mask;
    for (; to->table[slot]; slot = (slot + 1) & mask)
        if (memcmp(&to->all[to->table[slot] - 1], it, sizeof *it) == 0)
            return true;
    if (to->count == MOST_CONFIGURATIONS)
        return false;
    to->all[to->count] = *it;
    to->slots[to->count] = slot;
    to->table[slot] = ++to->count;
    return true;
}

static void empty(struct configurations *it) {
    for (size_t i = 0; i < it->count; i++)
        it->table[it->slots[i]] = 0;
    it->count = 0;
}

/* (once: searches come one after another, and most are short) */
static bool make(struct configurations *it) {
    if (!it->all)
        it->all = malloc(MOST_CONFIGURATIONS * sizeof *it->all);
    if (!it->slots)
        it->slots = malloc(MOST_CONFIGURATIONS * sizeof *it->slots);
    if (!it->table)
        it->table = calloc(2 * MOST_CONFIGURATIONS, sizeof *it->table);
    if (!it->all || !it->slots || !it->table)
        return false;
    empty(it);
    return true;
}

/* Whether a call of one key may have its answer where the key has this value, or is absent. Leaves what is there then. */
static bool has_answer(const struct call *call, uint64_t *value, bool *is_present) {
    bool was_present = *is_present, is_expected = was_present && *value == call->expected;
    uint64_t before = *value;
    switch (call->kind) {
    case INSERT:
        *value = call->argument;
        *is_present = true;
        break;
    case GET_OR_INSERT:
        *value = was_present ? before : call->argument;
        *is_present = true;
        break;
    case ADD:
        *value = (was_present ? before : 0) + call->argument;
        *is_present = true;
        break;
    case REMOVE:
        *is_present = false;
        break;
    case COMPUTE:
        *value = call->left ? call->argument : 0;
        *is_present = call->left;
        break;
    case EXCHANGE:
    case COMPARE_REMOVE:
        if (is_expected && call->kind == EXCHANGE)
            *value = call->argument;
        *is_present = was_present && !(is_expected && call->kind == COMPARE_REMOVE);
        return call->code == (was_present ? is_expected ? 1 : 2 : 0) && (call->code != 2 || call->answer == before);
    case REFUSED:
        return !was_present;
    default:
        break;
    }
    return call->code == was_present && (!was_present || call->answer == before);
}

/* Whether what was found at these keys is what is there. */
static bool has_found(const struct call *call, uint64_t keys, const struct configuration *it) {
    size_t rank = 0;
    if (((call->found ^ it->present) & keys) != 0)
        return false;
    for (size_t i = 0; i < MOST_WHOLE; i++)
        if (call->found >> i & 1) {
            if ((keys >> i & 1) && it->value[i] != call->values[rank])
                return false;
            rank++;
        }
    return true;
}

static void remove_keys(struct configuration *it, uint64_t keys) {
    for (size_t i = 0; i < MOST_WHOLE; i++)
        if (keys >> i & 1)
            it->value[i] = 0;
    it->present &= ~keys;
}

/* The keys that a call reads in its step of this number, of those that it passes: all, or those of one leaf. 0 behind its
 * last step. */
static uint64_t keys_of_step(const struct search *search, const struct call *call, size_t step) {
    bool is_down = call->kind == FIND_DOWN || call->kind == POP_DOWN;
    uint64_t keys = 0, passed = call->passed;
    if (search->is_of_one_moment)
        return step == 0 ? passed : 0;
    for (size_t i = 0; i < search->keys; i++) {
        size_t key = is_down ? search->keys - 1 - i : i;
        if (!(passed >> key & 1))
            continue;
        for (size_t other = 0; other < search->keys; other++)
            if (other == key || (search->leaf[other] == search->leaf[key] && !call->is_by_key))
                keys |= passed & (uint64_t)1 << other;
        if (step-- == 0)
            return keys;
        passed &= ~keys;
        keys = 0;
    }
    return 0;
}

static bool is_pop(const struct call *call) {
    return call->kind == POP || call->kind == POP_DOWN;
}

/* Whether a pop finds its pair in some steps, and removes the pair in one more. */
static bool is_pop_by_steps(const struct search *search, const struct call *call) {
    return is_pop(call) && (!search->is_of_one_moment || call->is_in_two);
}

/* How many steps a call has. Of a removal of a range, which keys. */
static size_t steps_of(const struct search *search, const struct call *call) {
    size_t steps = 0;
    if (call->kind == REMOVE_RANGE)
        return call->passed;
    if (call->kind != FIND && call->kind != FIND_DOWN && call->kind != COUNT && !is_pop_by_steps(search, call))
        return 1;
    while (keys_of_step(search, call, steps))
        steps++;
    return steps + (is_pop_by_steps(search, call) && call->code == 1);
}

/* Makes the moment of this key in a thread's removal of a range. Returns whether it may be made there. */
static bool take(const struct search *search, size_t thread, size_t key, struct configuration *it) {
    const struct call *call = &search->calls[thread][search->at[thread]];
    uint64_t bit = (uint64_t)1 << key;
    uint16_t *removed = it->counted[thread];
    if (!(call->passed & bit & ~it->made[thread]))
        return false;
    it->made[thread] |= bit;
    *removed += it->present >> key & 1;
    remove_keys(it, bit);
    if (it->made[thread] != call->passed)
        return *removed <= call->answer;
    bool may = *removed == call->answer;
    *removed = 0;
    return may;
}

/* Makes the next step of a thread's open call, or of a removal of a range the one at this key. Returns whether it may be made
 * there. */
static bool advance(const struct search *search, size_t thread, size_t at_key, struct configuration *it) {
    const struct call *call = &search->calls[thread][search->at[thread]];
    if (call->kind == REMOVE_RANGE)
        return take(search, thread, at_key, it);
    size_t step = it->made[thread]++;
    uint64_t keys;
    bool is_present, may;
    switch (call->kind) {
    case FIND:
    case FIND_DOWN:
        return has_found(call, keys_of_step(search, call, step), it);
    case IS_FILLED:
        return it->present != 0;
    case POP:
    case POP_DOWN:
        keys = keys_of_step(search, call, step);
        if (is_pop_by_steps(search, call) && keys)
            return has_found(call, keys, it);
        may = has_found(call, keys ? keys : call->found, it);
        remove_keys(it, call->found);
        return may;
    case CLEAR:
        remove_keys(it, UINT64_MAX);
        return true;
    default:
        keys = (uint64_t)1 << call->key;
        is_present = it->present & keys;
        may = has_answer(call, &it->value[call->key], &is_present);
        it->present |= keys;
        if (!is_present)
            remove_keys(it, keys);
        return may;
    }
}

/* Whether a call changes nothing, by its answer. */
static bool is_reading(const struct call *call) {
    switch (call->kind) {
    case GET:
    case REFUSED:
    case FIND:
    case FIND_DOWN:
    case COUNT:
    case IS_FILLED:
        return true;
    case REMOVE:
    case POP:
    case POP_DOWN:
        return call->code == 0;
    case COMPUTE:
        return call->code == call->left && (!call->left || call->argument == call->answer);
    case EXCHANGE:
    case COMPARE_REMOVE:
        return call->code != 1;
    case GET_OR_INSERT:
        return call->code == 1;
    default:
        return false;
    }
}

/* How many of a call's steps change nothing: those up to so many. */
static size_t reading_steps(const struct search *search, const struct call *call, size_t steps) {
    return is_reading(call) ? steps : is_pop_by_steps(search, call) ? steps - 1 : 0;
}

/* Notes what a thread's count may have come to. It is made where that may be its answer. */
static void count_on(const struct search *search, size_t thread, size_t steps, struct configuration *it) {
    const struct call *call = &search->calls[thread][search->at[thread]];
    uint16_t *counted = it->counted[thread];
    counted[0] = 1;
    for (size_t step = 0; step < steps; step++)
        counted[step + 1] |= counted[step] << __builtin_popcountll(it->present & keys_of_step(search, call, step));
    if (counted[steps] >> call->answer & 1) {
        memset(counted, 0, sizeof it->counted[thread]);
        it->made[thread] = steps;
    }
}

/* Makes all steps that open calls may make there and that change nothing. What is explained without them is so with them, as
 * these calls ask nothing of what comes then but their further steps. */
static void read_on(const struct search *search, const size_t *steps, struct configuration *it) {
    for (size_t i = 0; i < search->threads; i++) {
        const struct call *call = &search->calls[i][search->at[i]];
        struct configuration next = *it;
        if (it->made[i] == steps[i])
            continue;
        size_t reads = reading_steps(search, call, steps[i]);
        if (call->kind == COUNT)
            count_on(search, i, steps[i], it);
        else
            while (it->made[i] < reads && advance(search, i, 0, &next))
                *it = next;
    }
}

/* Adds what is reached from there by a step of a thread's open call that changes something. */
static void step_on(struct search *search, size_t thread, const size_t *steps, const struct configuration *it) {
    const struct call *call = &search->calls[thread][search->at[thread]];
    size_t ways = call->kind == REMOVE_RANGE ? search->keys : 1;
    if (it->made[thread] == steps[thread] || it->made[thread] < reading_steps(search, call, steps[thread]))
        return;
    for (size_t way = 0; way < ways; way++) {
        struct configuration next = *it;
        if (!advance(search, thread, way, &next))
            continue;
        read_on(search, steps, &next);
        search->fits = add(&reached, &next) && search->fits;
    }
}

/* Goes on to the end of a thread's call. Returns whether there is a configuration in which it is made. */
static bool ends(struct search *search, size_t thread) {
    struct configurations swapped;
    size_t steps[MOST_THREADS] = {0};
    for (size_t i = 0; i < search->threads; i++)
        steps[i] = search->is_open[i] ? steps_of(search, &search->calls[i][search->at[i]]) : 0;
    for (size_t i = 0; i < now.count; i++) {
        read_on(search, steps, &now.all[i]);
        search->fits = add(&reached, &now.all[i]) && search->fits;
    }
    for (size_t i = 0; i < reached.count && search->fits; i++) {
        struct configuration it = reached.all[i];
        if (it.made[thread] == steps[thread]) {
            it.made[thread] = 0;
            search->fits = add(&ended, &it);
            continue;
        }
        search->work++;
        for (size_t other = 0; other < search->threads; other++)
            step_on(search, other, steps, &it);
    }
    empty(&reached);
    empty(&now);
    swapped = now;
    now = ended;
    ended = swapped;
    search->work += now.count;
    search->fits = search->fits && search->work < MOST_WORK;
    return search->fits && now.count > 0;
}

/* The thread of the next start or end, or the number of threads. */
static size_t next_thread(const struct search *search) {
    size_t thread = search->threads;
    uint64_t least = UINT64_MAX;
    for (size_t i = 0; i < search->threads; i++) {
        const struct call *call = &search->calls[i][search->at[i]];
        uint64_t number = search->at[i] == search->count[i] ? UINT64_MAX : search->is_open[i] ? call->end : call->start;
        if (number < least) {
            least = number;
            thread = i;
        }
    }
    return thread;
}

/* Goes through the search. If no order explains all calls, notes the call whose end isn't explained. */
static enum verdict run(struct search *search, const struct configuration *first) {
    size_t thread;
    bool is_made = make(&now) && make(&reached) && make(&ended) && add(&now, first);
    search->fits = is_made;
    while (is_made && (thread = next_thread(search)) < search->threads) {
        if (!search->is_open[thread]) {
            search->is_open[thread] = true;
            continue;
        }
        is_made = ends(search, thread);
        search->is_open[thread] = false;
        search->failed = &search->calls[thread][search->at[thread]++];
    }
    return is_made ? EXPLAINED : search->fits ? UNEXPLAINED : UNDECIDED;
}

static const char *const names[] = {"get",           "insert",  "remove",    "compare_exchange", "compare_remove", "add",
                                    "get_or_insert", "compute", "refused",   "find",             "find downwards", "count",
                                    "is filled",     "pop",     "pop last",  "clear",            "remove range"};

static void print_call(const struct call *call, size_t thread, FILE *out) {
    fprintf(out, "  %" PRIu64 " to %" PRIu64 ", thread %zu: %s", call->start, call->end, thread, names[call->kind]);
    if (call->kind <= REFUSED) {
        fprintf(out, " key %" PRIu64, call->key);
        if (call->kind == EXCHANGE || call->kind == COMPARE_REMOVE)
            fprintf(out, " expected %" PRIu64, call->expected);
        if (call->kind == COMPUTE && !call->left)
            fprintf(out, " with none");
        else if (call->kind != GET && call->kind != REMOVE && call->kind != COMPARE_REMOVE)
            fprintf(out, " with %" PRIu64, call->argument);
    }
    fprintf(out, " -> %d", call->code);
    if (call->code > 0 || call->kind == COUNT || call->kind == REMOVE_RANGE)
        fprintf(out, ", %" PRIu64, call->answer);
    size_t rank = 0;
    for (size_t i = 0; i < MOST_KEYS; i++)
        if (call->passed >> i & 1) {
            fprintf(out, " %zu:", i);
            if (call->found >> i & 1)
                fprintf(out, "%" PRIu64, call->values[rank++]);
        }
    fprintf(out, "\n");
}

static uint64_t start_of(const struct history *history, size_t thread, size_t number) {
    return history->records[thread].calls[number].start;
}

/* Of the calls before these numbers, the thread of the one that began last, or the number of threads. */
static size_t thread_of_last(const struct history *history, const size_t *before) {
    size_t thread = history->threads;
    for (size_t i = 0; i < history->threads; i++)
        if (before[i] > 0 && (thread == history->threads ||
                              start_of(history, i, before[i] - 1) > start_of(history, thread, before[thread] - 1)))
            thread = i;
    return thread;
}

/* Of the calls from these numbers up to those, the thread of the one that began first, or the number of threads. */
static size_t thread_of_first(const struct history *history, const size_t *from, const size_t *to) {
    size_t thread = history->threads;
    for (size_t i = 0; i < history->threads; i++)
        if (from[i] < to[i] &&
            (thread == history->threads || start_of(history, i, from[i]) < start_of(history, thread, from[thread])))
            thread = i;
    return thread;
}

void print_calls(const struct history *history, uint64_t until, size_t most, FILE *out) {
    size_t from[MOST_THREADS], to[MOST_THREADS], thread;
    for (size_t i = 0; i < history->threads; i++) {
        for (to[i] = history->records[i].count; to[i] > 0 && start_of(history, i, to[i] - 1) > until;)
            to[i]--;
        from[i] = to[i];
    }
    for (size_t n = 0; n < most && (thread = thread_of_last(history, from)) < history->threads; n++)
        from[thread]--;
    while ((thread = thread_of_first(history, from, to)) < history->threads)
        print_call(&history->records[thread].calls[from[thread]++], thread, out);
}

static enum verdict report(const struct history *history, const struct search *search, enum verdict verdict,
                           const char *what, FILE *out) {
    if (verdict == UNEXPLAINED) {
        fprintf(out, "no order explains the call from %" PRIu64 " to %" PRIu64 "%s. What came before:\n",
                search->failed->start, search->failed->end, what);
        print_calls(history, search->failed->end, 24, out);
    }
    return verdict;
}

enum verdict explain(const struct history *history, FILE *out) {
    struct search search = {.threads = history->threads,
                            .keys = history->keys,
                            .leaf = history->leaf,
                            .is_of_one_moment = history->is_of_one_moment};
    struct configuration first = {.present = history->first.present};
    memcpy(first.value, history->first.value, sizeof first.value);
    for (size_t i = 0; i < history->threads; i++) {
        search.calls[i] = history->records[i].calls;
        search.count[i] = history->records[i].count;
    }
    enum verdict verdict = run(&search, &first);
    return report(history, &search, verdict, "", out);
}

/* The call as one of a key alone. Returns false where it isn't of that key. */
static bool is_of_key(const struct call *call, uint64_t key, struct call *alone) {
    *alone = *call;
    alone->key = alone->passed = alone->found = 0;
    if (call->kind <= REFUSED)
        return call->key == key;
    if (!(call->passed >> key & 1))
        return false;
    alone->code = call->found >> key & 1;
    alone->answer = alone->code ? call->values[__builtin_popcountll(call->found & (((uint64_t)1 << key) - 1))] : 0;
    alone->kind = call->kind == REMOVE_RANGE ? CLEAR : is_pop(call) && alone->code ? REMOVE : GET;
    return true;
}

/* The same of the calls of a key, which are put into these arrays. */
static enum verdict explain_key(const struct history *history, uint64_t key, struct call *alone[MOST_THREADS], FILE *out) {
    struct search search = {.threads = history->threads, .keys = 1, .leaf = history->leaf, .is_of_one_moment = true};
    struct configuration first = {.present = history->first.present >> key & 1};
    char what[40];
    first.value[0] = history->first.value[key];
    for (size_t i = 0; i < history->threads; i++) {
        const struct record *record = &history->records[i];
        for (size_t j = 0; j < record->count; j++)
            search.count[i] += is_of_key(&record->calls[j], key, &alone[i][search.count[i]]);
        search.calls[i] = alone[i];
    }
    snprintf(what, sizeof what, " at key %" PRIu64, key);
    enum verdict verdict = run(&search, &first);
    return report(history, &search, verdict, what, out);
}

enum verdict explain_by_key(const struct history *history, FILE *out) {
    struct call *alone[MOST_THREADS];
    enum verdict verdict = EXPLAINED;
    for (size_t i = 0; i < history->threads; i++) {
        alone[i] = malloc((history->records[i].count + 1) * sizeof *alone[i]);
        verdict = alone[i] ? verdict : UNDECIDED;
    }
    for (uint64_t key = 0; verdict == EXPLAINED && key < history->keys; key++)
        verdict = explain_key(history, key, alone, out);
    for (size_t i = 0; i < history->threads; i++)
        free(alone[i]);
    return verdict;
}

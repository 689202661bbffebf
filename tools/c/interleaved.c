/* Chosen interleavings of the archive's own code: fibers call one map at random, and change at its atomic accesses as a seed
 * says (fibers.h). Each history has to be explained by one order (histories.h). A seed draws a set of keys, how many fibers
 * there are and what they call, how they are chosen, and for a live map whether its memory is tight.
 *
 *     interleaved MAP [SEEDS [FIRST]]     so many seeds, from the first
 *     interleaved MAP seed NUMBER         one seed, with all its calls
 *     interleaved MAP found SEEDS         until one isn't explained. The status is 0 where one wasn't
 *     interleaved stand-in faults         each fault of stand_in.h has to be found by 20,000 seeds
 *     interleaved live without PLACE SEEDS
 *     interleaved live without 0 SEEDS PLACES
 *                                         where the code of live maps asks at places (ask_places.awk): by which seed it is
 *                                         found that the test at this place is left out, or at each of so many
 *
 * MAP is live, locked, sharded or stand-in. */
#include "fibers.h"
#include "history_maps.h"
#include "stand_in.h"
#include <inttypes.h>
#include <stdlib.h>
#include <string.h>
#include <sys/resource.h>
#include <sys/wait.h>
#include <unistd.h>

enum { MOST_CALLS = 24, MOST_POINTS = 4000000, MOST_SECONDS = 200 };

static struct history history;
static struct caller callers[MOST_THREADS];
static uint64_t calls[MOST_THREADS];
static bool is_first_stopped,
    is_first_over; /* whether the first fiber alone is stopped within calls, and has made all of its own */
static uint64_t all_calls, all_points, all_busy, all_refused, undecided;

static void work(size_t fiber) {
    struct caller *caller = &callers[fiber];
    for (uint64_t i = 0; i < calls[fiber] && !caller->wrong && !(is_first_stopped && is_first_over); i++) {
        call_at_random(caller);
        end_call();
    }
    is_first_over = is_first_over || fiber == 0;
    caller->kind->free(caller->map);
}

/* Draws how so many fibers are chosen. */
static struct choice draw_choice(size_t fibers, uint64_t *random) {
    static const uint64_t one_in[] = {3, 6, 10, 16, 30};
    struct choice choice = {.random = next_random(random), .most = MOST_POINTS};
    uint64_t way = next_random(random) % 6, often = one_in[next_random(random) % 5];
    is_first_stopped = way >= 3;
    is_first_over = false;
    choice.is_by_priority = way == 0;
    for (size_t i = 0; i < fibers; i++)
        choice.one_in[i] = i == 0 || way == 1 ? often : way == 2 ? 10 * often : 0;
    for (uint64_t i = 0, changes = 1 + next_random(random) % MOST_CHANGES; i < changes; i++)
        choice.changes[i] = 2 + next_random(random) % (fibers * 100);
    return choice;
}

/* Draws what a caller calls: all kinds of calls, or a few. One that is stopped within calls makes few. */
static void draw_calls(struct caller *caller, uint64_t *random) {
    static const uint64_t kinds[] = {0, 4, 8, 12, 16, 20, 24, 28, 48, 50, 52, 54, 56, 58, 61, 62};
    bool is_stopped = is_first_stopped && caller->id == 0;
    caller->first_call = is_stopped ? kinds[next_random(random) % 16] : next_random(random) % 64;
    caller->kinds = is_stopped ? 2 : next_random(random) % 3 ? 8 : 64;
    calls[caller->id] = 1 + next_random(random) % (is_stopped ? 3 : is_first_stopped ? MOST_CALLS : MOST_CALLS / 3);
}

/* Bytes for a live map: no limit, or few segments. */
static uint64_t draw_limit(const struct map_kind *kind, uint64_t *random) {
    static const uint64_t few[] = {8192, 20480, 49152};
    uint64_t number = next_random(random) % 6;
    return kind == &live_map && number < 3 ? few[number] : UINT64_MAX;
}

/* Makes the callers. Returns false where the limit has no place for what they begin with. */
static bool make_callers(const struct map_kind *kind, const struct key_set *set, void *map, size_t fibers,
                         uint64_t *random) {
    size_t few = 1 + next_random(random) % (next_random(random) % 4 ? 3 : set->count),
           from = next_random(random) % set->count;
    for (size_t i = 0; i <= fibers; i++) {
        struct caller *caller = &callers[i];
        *caller = (struct caller){.kind = kind, .set = set, .map = map, .record = &history.records[i], .id = i};
        caller->random = next_random(random);
        caller->from = from;
        caller->few = few;
        draw_calls(caller, random);
    }
    for (size_t i = 0; i < fibers; i++)
        if (kind->another(map, &callers[i].map)) {
            while (i > 0)
                kind->free(callers[--i].map);
            return false;
        }
    return true;
}

/* Runs the fibers on a map, and searches their history. */
static enum verdict run_on(const struct map_kind *kind, const struct key_set *set, void *map, bool is_tight,
                           uint64_t *random, FILE *out) {
    size_t fibers = 2 + next_random(random) % 3;
    struct choice choice = draw_choice(fibers, random);
    if (!fill_map(kind, set, map) || !make_callers(kind, set, map, fibers, random))
        return is_tight ? EXPLAINED : UNEXPLAINED;
    history.threads = fibers + 1;
    begin_history(&history, kind, set, map);
    uint64_t points = run_fibers(fibers, work, &choice);
    if (points == 0) {
        fprintf(out, "no end\n");
        return UNEXPLAINED;
    }
    look_up_all(&callers[fibers]);
    all_points += points;
    for (size_t i = 0; i <= fibers; i++) {
        all_calls += history.records[i].count;
        all_busy += callers[i].busy;
        all_refused += callers[i].refused;
        if (callers[i].wrong) {
            fprintf(out, "%s\n", callers[i].wrong);
            return UNEXPLAINED;
        }
    }
    return is_small(set) ? explain(&history, out) : explain_by_key(&history, out);
}

/* The history of a seed. */
static enum verdict verdict_of(const struct map_kind *kind, uint64_t seed, FILE *out) {
    struct key_set set;
    uint64_t random = seed * 0x9e3779b97f4a7c15u, limit;
    void *map;
    do
        make_key_set(next_random(&random) % KEY_SETS, &set);
    while (set.stays > 40 && next_random(&random) % 8);
    limit = draw_limit(kind, &random);
    forget_writes();
    if (kind->make(limit, &map))
        abort();
    enum verdict verdict = run_on(kind, &set, map, limit != UINT64_MAX, &random, out);
    kind->free(map);
    undecided += verdict == UNDECIDED;
    if (verdict == UNEXPLAINED)
        fprintf(out, "a %s map, keys: %s, limit: %" PRIu64 "\n", kind->name, set.name, limit);
    return verdict;
}

static bool are_right(const struct map_kind *kind, uint64_t seeds, uint64_t first) {
    for (uint64_t seed = first; seed < first + seeds; seed++)
        if (verdict_of(kind, seed, stderr) == UNEXPLAINED) {
            fprintf(stderr, "interleaved: wrong. To see it again: interleaved %s seed %" PRIu64 "\n", kind->name, seed);
            return false;
        }
    printf("a %s map: %" PRIu64 " chosen interleavings of %" PRIu64 " calls, by %" PRIu64
           " points of choice, are explained, %" PRIu64 " busy, %" PRIu64 " without memory. %" PRIu64
           " are too much to search\n",
           kind->name, seeds - undecided, all_calls, all_points, all_busy, all_refused, undecided);
    return true;
}

static bool show(const struct map_kind *kind, uint64_t seed) {
    bool is_right = verdict_of(kind, seed, stdout) != UNEXPLAINED;
    printf("all calls of seed %" PRIu64 ":\n", seed);
    print_calls(&history, UINT64_MAX, SIZE_MAX, stdout);
    return is_right;
}

/* By which seed the first history comes that isn't explained, or 0. The calls that show it aren't printed. */
static uint64_t first_found(const struct map_kind *kind, uint64_t seeds) {
    FILE *out = fopen("/dev/null", "w");
    uint64_t seed = 1;
    if (!out)
        abort();
    while (seed <= seeds && verdict_of(kind, seed, out) != UNEXPLAINED)
        seed++;
    fclose(out);
    return seed <= seeds ? seed : 0;
}

static bool is_found(const struct map_kind *kind, uint64_t seeds, const char *what) {
    uint64_t seed = first_found(kind, seeds);
    if (seed)
        printf("%s, %s: found by seed %" PRIu64 "\n", kind->name, what, seed);
    else
        printf("%s, %s: not found by %" PRIu64 " seeds\n", kind->name, what, seeds);
    return seed;
}

static bool are_faults_found(void) {
    bool are = true;
    for (int fault = NO_FAULT + 1; fault < FAULTS; fault++) {
        stand_in_fault = fault;
        are = is_found(&stand_in_map, 20000, stand_in_faults[fault]) && are;
        are = (!is_fault_by_leaf(fault) || is_found(&stand_in_by_leaf, 20000, stand_in_faults[fault])) && are;
    }
    return are;
}

/* Whether a process that leaves out the test at this place finds it, or ends by a signal: by SIGXCPU, where a call doesn't
 * end. */
static bool is_found_without(const struct map_kind *kind, uint32_t place, uint64_t seeds) {
    int status = 0;
    fflush(stdout);
    pid_t child = fork();
    if (child == 0) {
        left_out = place;
        setrlimit(RLIMIT_CPU, &(struct rlimit){MOST_SECONDS, MOST_SECONDS + 1});
        uint64_t seed = first_found(kind, seeds);
        if (seed)
            printf("place %" PRIu32 ": found by seed %" PRIu64 ", left out %" PRIu64 " times\n", place, seed,
                   times_left_out);
        else if (times_left_out)
            printf("place %" PRIu32 ": not found by %" PRIu64 " seeds, left out %" PRIu64 " times\n", place, seeds,
                   times_left_out);
        else
            printf("place %" PRIu32 ": it never failed by %" PRIu64 " seeds\n", place, seeds);
        fflush(stdout);
        _exit(!seed);
    }
    if (child < 0 || waitpid(child, &status, 0) != child)
        abort();
    if (WIFSIGNALED(status))
        printf("place %" PRIu32 ": found by signal %d\n", place, WTERMSIG(status));
    return WIFSIGNALED(status) || WEXITSTATUS(status) == 0;
}

/* The test at this place, or where it is 0 at each of so many. Returns whether one is found. */
static bool leaves_out(const struct map_kind *kind, uint32_t place, uint64_t seeds, uint32_t places) {
    uint32_t found = 0;
    if (place)
        return is_found_without(kind, place, seeds);
    while (place < places)
        found += is_found_without(kind, ++place, seeds);
    printf("%" PRIu32 " of %" PRIu32 " are found\n", found, places);
    return found;
}

/* What the words ask for, of this map: 0 where it is so. */
static int answer(const struct map_kind *kind, int words, char **word) {
    uint64_t number = words > 3 ? strtoull(word[3], NULL, 10) : 1;
    if (words > 2 && strcmp(word[2], "faults") == 0)
        return !are_faults_found();
    if (words > 2 && strcmp(word[2], "seed") == 0)
        return !show(kind, number);
    if (words > 2 && strcmp(word[2], "found") == 0)
        return !is_found(kind, number, "as it is");
    if (words > 4 && strcmp(word[2], "without") == 0)
        return !leaves_out(kind, number, strtoull(word[4], NULL, 10), words > 5 ? strtoull(word[5], NULL, 10) : 0);
    return !are_right(kind, words > 2 ? strtoull(word[2], NULL, 10) : 2000, number);
}

int main(int words, char **word) {
    static const struct map_kind *const kinds[] = {&live_map, &locked_map, &sharded_map, &stand_in_map};
    for (size_t i = 0; i < MOST_THREADS; i++)
        if (!make_record(&history.records[i], MOST_CALLS + MOST_KEYS, (MOST_CALLS + MOST_KEYS) * MOST_KEYS))
            return 3;
    if (!make_fibers(MOST_FIBERS))
        return 3;
    int status = 2;
    for (size_t i = 0; words > 1 && i < 4; i++)
        if (strcmp(word[1], kinds[i]->name) == 0)
            status = answer(kinds[i], words, word);
    if (status == 2)
        fprintf(stderr,
                "usage: interleaved live|locked|sharded|stand-in [SEEDS [FIRST] | seed NUMBER | found SEEDS | faults]\n");
    for (size_t i = 0; i < MOST_THREADS; i++)
        free_record(&history.records[i]);
    free_fibers();
    return status;
}

// Times maps with one owner, by the same calls, in one process and in turns.
//
//     owned times SET N ROUNDS    lines of a map, a call, and nanoseconds of processor time a call, for each round
//     owned bytes SET N MAP       bytes a key of a map in a process of its own: resident, and lent by malloc
//     owned maps                  the names of the maps
//
// Sums of all answers are compared, and the status is 1 where two maps differ. tools/dev/compare-peers builds and calls
// this program.
#include "keys.hpp"
#include "maps.hpp"
#include <malloc.h>
#include <memory>
#include <time.h>
#include <unistd.h>

namespace {

struct Plan {
    Keys keys, shuffled, near;
    Plan(const Set &set, size_t n)
        : keys(set.make(n)), shuffled(::shuffled(keys, 8)), near(near_keys(shuffled, set.near)) {}
    size_t half() const { return keys.size() / 2; }
    size_t ranges() const { return std::max<size_t>(keys.size() / 100, 1000); }
};

// What a load did: so many calls, and the sum of their answers.
struct Done {
    size_t calls;
    uint64_t sum;
};

// (read at each call, so that no compiler knows that a key doesn't depend on the value before)
volatile uint64_t zero = 0;

// The loads, in their order.
template <class Map> struct Loads {
    template <class Call> static Done each(const Keys &keys, size_t from, size_t to, Call call) {
        uint64_t sum = 0;
        for (size_t at = from; at < to; at++)
            sum += call(keys[at]);
        return {to - from, sum};
    }
    static Done insert(Map &map, const Plan &plan) {
        return each(plan.keys, 0, plan.keys.size(), [&](uint64_t key) { return map.insert(key, value_of(key, 0)); });
    }
    static Done get(Map &map, const Plan &plan) {
        return each(plan.shuffled, 0, plan.keys.size(), [&](uint64_t key) { return map.get(key); });
    }
    static Done waiting(Map &map, const Plan &plan) {
        uint64_t last = 0;
        return each(plan.shuffled, 0, plan.keys.size(),
                    [&](uint64_t key) { return last = map.get(key ^ (last & zero)); });
    }
    static Done overwrite(Map &map, const Plan &plan) {
        return each(plan.shuffled, 0, plan.keys.size(),
                    [&](uint64_t key) { return map.insert(key, value_of(key, 1)); });
    }
    static Done floor(Map &map, const Plan &plan) {
        return each(plan.near, 0, plan.half(), [&](uint64_t key) { return map.floor(key); });
    }
    static Done ceiling(Map &map, const Plan &plan) {
        return each(plan.near, plan.half(), plan.keys.size(), [&](uint64_t key) { return map.ceiling(key); });
    }
    template <size_t MOST> static Done range(Map &map, const Plan &plan) {
        uint64_t sum = 0;
        for (size_t at = 0; at < plan.ranges(); at++)
            sum += map.range(plan.near[(at + MOST * 31) % plan.near.size()], MOST);
        return {plan.ranges(), sum};
    }
    static Done iterate(Map &map, const Plan &plan) { return {plan.keys.size(), map.iterate()}; }
    static Done remove(Map &map, const Plan &plan) {
        return each(plan.shuffled, 0, plan.half(), [&](uint64_t key) { return map.remove(key); });
    }
    // (back for the pops, and not timed)
    static Done again(Map &map, const Plan &plan) {
        return each(plan.shuffled, 0, plan.half(), [&](uint64_t key) { return map.insert(key, value_of(key, 2)); });
    }
    static Done pop_first(Map &map, const Plan &plan) {
        return each(plan.keys, 0, plan.half(), [&](uint64_t) { return map.pop_first(); });
    }
    static Done pop_last(Map &map, const Plan &plan) {
        return each(plan.keys, plan.half(), plan.keys.size(), [&](uint64_t) { return map.pop_last(); });
    }
};

template <class Map> struct Load {
    const char *name;
    Done (*run)(Map &, const Plan &);
};

template <class Map>
constexpr Load<Map> LOADS[] = {
    {"insert", Loads<Map>::insert},
    {"get", Loads<Map>::get},
    {"waiting", Loads<Map>::waiting},
    {"overwrite", Loads<Map>::overwrite},
    {"floor", Loads<Map>::floor},
    {"ceiling", Loads<Map>::ceiling},
    {"range10", Loads<Map>::template range<10>},
    {"range100", Loads<Map>::template range<100>},
    {"iterate", Loads<Map>::iterate},
    {"remove", Loads<Map>::remove},
    {"again", Loads<Map>::again},
    {"pop_first", Loads<Map>::pop_first},
    {"pop_last", Loads<Map>::pop_last},
};

double processor_time() {
    timespec now;
    clock_gettime(CLOCK_PROCESS_CPUTIME_ID, &now);
    return 1e9 * static_cast<double>(now.tv_sec) + static_cast<double>(now.tv_nsec);
}

// Runs all loads over a fresh map, prints their times, and returns the sum of each load.
template <class Map> std::vector<uint64_t> take(const Plan &plan) {
    std::vector<uint64_t> sums;
    malloc_trim(0);
    auto map = std::make_unique<Map>();
    for (auto &load : LOADS<Map>) {
        double start = processor_time();
        Done done = load.run(*map, plan);
        double time = (processor_time() - start) / static_cast<double>(done.calls);
        printf("%s %s %.3f\n", Map::NAME, load.name, time);
        sums.push_back(done.sum);
    }
    return sums;
}

size_t resident() {
    size_t all = 0, pages = 0;
    FILE *file = fopen("/proc/self/statm", "r");
    if (!file || fscanf(file, "%zu %zu", &all, &pages) != 2)
        exit(1);
    fclose(file);
    return pages * static_cast<size_t>(sysconf(_SC_PAGESIZE));
}

size_t lent() {
    struct mallinfo2 all = mallinfo2();
    return all.uordblks + all.hblkhd;
}

template <class Map> void bytes(const Keys &keys) {
    malloc_trim(0);
    size_t resident_before = resident(), lent_before = lent();
    auto map = std::make_unique<Map>();
    for (uint64_t key : keys)
        map->insert(key, value_of(key, 0));
    auto count = static_cast<double>(keys.size());
    printf("resident %.2f\n", static_cast<double>(resident() - resident_before) / count);
    printf("lent %.2f\n", static_cast<double>(lent() - lent_before) / count);
}

struct Entry {
    const char *name;
    std::vector<uint64_t> (*take)(const Plan &);
    void (*bytes)(const Keys &);
};

template <class Map> constexpr Entry ENTRY = {Map::NAME, take<Map>, bytes<Map>};

constexpr Entry MAPS[] = {
    ENTRY<Owned>,
#ifdef HAS_JUDY
    ENTRY<Judy>,
#endif
#ifdef HAS_ABSL
    ENTRY<Absl>,
#endif
#ifdef HAS_BTREE
    ENTRY<BTree>,
#endif
};

int times(const Set &set, size_t n, size_t rounds) {
    const Plan plan(set, n);
    constexpr size_t count = sizeof MAPS / sizeof *MAPS;
    std::vector<uint64_t> first;
    for (size_t round = 0; round < rounds; round++) {
        for (size_t at = 0; at < count; at++) {
            // (each round begins with another map)
            const Entry &map = MAPS[(at + round) % count];
            auto sums = map.take(plan);
            if (first.empty())
                first = sums;
            if (sums != first) {
                fprintf(stderr, "owned: wrong: %s returns something else over %s keys\n", map.name, set.name);
                return 1;
            }
        }
    }
    return 0;
}

int usage() {
    fputs("usage: owned times SET N ROUNDS | owned bytes SET N MAP | owned maps\n", stderr);
    return 2;
}

} // namespace

int main(int count, char **words) {
    if (count == 2 && !strcmp(words[1], "maps")) {
        for (const Entry &map : MAPS)
            puts(map.name);
        return 0;
    }
    const Set *set = count == 5 ? set_named(words[2]) : nullptr;
    size_t n = count == 5 ? strtoul(words[3], nullptr, 10) : 0;
    if (!set || n < 100)
        return usage();
    if (!strcmp(words[1], "times"))
        return times(*set, n, strtoul(words[4], nullptr, 10));
    for (const Entry &map : MAPS)
        if (!strcmp(words[1], "bytes") && !strcmp(words[4], map.name)) {
            map.bytes(set->make(n));
            return 0;
        }
    return usage();
}

// Times maps that threads share, by the same calls, in one process and in turns.
//
//     threads SET N TAKES THREADS    lines of a map, a load, and for each call of all threads together nanoseconds of
//                                    wall time, and of the processors, for each take
//     threads maps                   the names of the maps
//
// A take is a fresh map with seven tenths of the keys. Each thread keeps its caller throughout, and has an equal part
// of each load. Sums of all answers are compared, and the status is 1 where two maps differ. tools/dev/compare-peers
// builds and calls this program.
#include "keys.hpp"
#include "shared_maps.hpp"
#include <malloc.h>
#include <memory>
#include <sched.h>
#include <thread>
#include <time.h>

namespace {

struct Plan {
    Keys keys, shuffled, zipf;
    Plan(const Set &set, size_t n) : keys(set.make(n)), shuffled(::shuffled(keys, 8)), zipf(zipf_of(shuffled, MANY)) {}
    size_t first() const { return keys.size() * 7 / 10; }
    // So many calls of one load, by all threads together.
    static constexpr size_t MANY = 100000;
};

// The loads. Those of many shuffled keys are of other keys each, as long as there are any. The sum of a load's answers
// doesn't depend on the order of the threads' calls.
template <class Map> struct Loads {
    using Caller = typename Map::Caller;
    template <class Call> static uint64_t each(const Keys &keys, size_t from, size_t to, Call call) {
        uint64_t sum = 0;
        size_t place = from % keys.size();
        for (size_t left = to - from; left > 0; left--) {
            sum += call(keys[place], place);
            place = place + 1 == keys.size() ? 0 : place + 1;
        }
        return sum;
    }
    static uint64_t fresh(Caller &map, const Plan &plan, size_t from, size_t to) {
        size_t first = plan.first();
        return each(plan.keys, first + from, first + to,
                    [&](uint64_t key, size_t) { return map.insert(key, value_of(key, 0)); });
    }
    static uint64_t get(Caller &map, const Plan &plan, size_t from, size_t to) {
        return each(plan.shuffled, from, to, [&](uint64_t key, size_t) { return map.get(key); });
    }
    static uint64_t zipf(Caller &map, const Plan &plan, size_t from, size_t to) {
        return each(plan.zipf, from, to, [&](uint64_t key, size_t) { return map.get(key); });
    }
    static uint64_t overwrite(Caller &map, const Plan &plan, size_t from, size_t to) {
        from += Plan::MANY, to += Plan::MANY;
        return each(plan.shuffled, from, to, [&](uint64_t key, size_t) { return map.insert(key, value_of(key, 1)); });
    }
    // (no look-up is of a key that is written, so that what it returns doesn't depend on the order of calls)
    template <size_t NTH> static uint64_t mixed(Caller &map, const Plan &plan, size_t from, size_t to) {
        size_t after = (NTH == 2 ? 3 : 2) * Plan::MANY;
        return each(plan.shuffled, after + from, after + to, [&](uint64_t key, size_t place) {
            return place % NTH == 0 ? map.insert(key, value_of(key, NTH)) : map.get(key);
        });
    }
    static uint64_t range(Caller &map, const Plan &plan, size_t from, size_t to) {
        return each(plan.shuffled, from, to, [&](uint64_t key, size_t) { return map.range(key); });
    }
    static uint64_t remove(Caller &map, const Plan &plan, size_t from, size_t to) {
        return each(plan.shuffled, from, to, [&](uint64_t key, size_t) { return map.remove(key); });
    }
};

template <class Map> struct Load {
    const char *name;
    uint64_t (*run)(typename Map::Caller &, const Plan &, size_t from, size_t to);
    size_t (*calls)(size_t n);
    bool is_there;
};

size_t three_tenths(size_t n) { return n - n * 7 / 10; }
size_t many(size_t) { return Plan::MANY; }
size_t few(size_t) { return 3000; }

template <class Map>
constexpr Load<Map> LOADS[] = {
    {"new", Loads<Map>::fresh, three_tenths, true},
    {"get", Loads<Map>::get, many, true},
    {"zipf", Loads<Map>::zipf, many, true},
    {"overwrite", Loads<Map>::overwrite, many, true},
    {"tenth", Loads<Map>::template mixed<10>, many, true},
    {"half", Loads<Map>::template mixed<2>, many, true},
    {"range", Loads<Map>::range, few, Map::HAS_RANGES},
    {"remove", Loads<Map>::remove, three_tenths, Map::HAS_REMOVALS},
};
constexpr size_t LOAD_COUNT = 8;

double time_of(clockid_t clock) {
    timespec now;
    clock_gettime(clock, &now);
    return 1e9 * static_cast<double>(now.tv_sec) + static_cast<double>(now.tv_nsec);
}

// What one thread did in a load.
struct alignas(128) Part {
    double start = 0, end = 0, processor = 0;
    uint64_t sum = 0;
};

// Threads that wait for one another without a system call, so that all begin a load at once.
class Team {
  public:
    explicit Team(size_t size) : size(size) {}
    void meet() {
        size_t turn = turns.load();
        if (here.fetch_add(1) + 1 == size) {
            here = 0;
            turns++;
        }
        while (turns.load() == turn)
            sched_yield();
    }
    const size_t size;

  private:
    std::atomic<size_t> here{0}, turns{0};
};

template <class Map>
void work(typename Map::Caller &caller, const Plan &plan, Team &team, size_t number, std::vector<Part> *parts) {
    for (size_t load = 0; load < LOAD_COUNT; load++) {
        const Load<Map> &it = LOADS<Map>[load];
        Part &part = parts[load][number];
        size_t calls = it.calls(plan.keys.size());
        team.meet();
        if (!it.is_there)
            continue;
        double processor = time_of(CLOCK_THREAD_CPUTIME_ID);
        part.start = time_of(CLOCK_MONOTONIC);
        part.sum = it.run(caller, plan, calls * number / team.size, calls * (number + 1) / team.size);
        part.end = time_of(CLOCK_MONOTONIC);
        part.processor = time_of(CLOCK_THREAD_CPUTIME_ID) - processor;
    }
}

// The sum of a load whose times it prints.
uint64_t report(const char *map, const char *load, const std::vector<Part> &parts, size_t calls) {
    Part all = parts[0];
    for (size_t number = 1; number < parts.size(); number++) {
        all.start = std::min(all.start, parts[number].start);
        all.end = std::max(all.end, parts[number].end);
        all.processor += parts[number].processor;
        all.sum += parts[number].sum;
    }
    auto count = static_cast<double>(calls);
    printf("%s %s %.3f %.3f\n", map, load, (all.end - all.start) / count, all.processor / count);
    return all.sum;
}

// Runs all loads over a fresh map, prints their times, and returns the sum of each. A load that the map hasn't is left
// out.
template <class Map> std::vector<uint64_t> take(const Plan &plan, size_t threads) {
    malloc_trim(0);
    Map map;
    // (all are made by this thread, since one call at a time may use a handle)
    std::vector<std::unique_ptr<typename Map::Caller>> callers;
    for (size_t number = 0; number < threads; number++)
        callers.push_back(std::make_unique<typename Map::Caller>(map));
    for (size_t at = 0; at < plan.first(); at++)
        callers[0]->insert(plan.keys[at], value_of(plan.keys[at], 0));
    std::vector<Part> parts[LOAD_COUNT];
    for (auto &it : parts)
        it.resize(threads);
    Team team(threads);
    std::vector<std::thread> others;
    for (size_t number = 1; number < threads; number++)
        others.emplace_back([&, number] { work<Map>(*callers[number], plan, team, number, parts); });
    work<Map>(*callers[0], plan, team, 0, parts);
    for (auto &it : others)
        it.join();
    std::vector<uint64_t> sums(LOAD_COUNT);
    for (size_t load = 0; load < LOAD_COUNT; load++) {
        const Load<Map> &it = LOADS<Map>[load];
        if (it.is_there)
            sums[load] = report(Map::NAME, it.name, parts[load], it.calls(plan.keys.size()));
    }
    return sums;
}

struct Entry {
    const char *name;
    std::vector<uint64_t> (*take)(const Plan &, size_t threads);
};

template <class Map> constexpr Entry ENTRY = {Map::NAME, take<Map>};

constexpr Entry MAPS[] = {
    ENTRY<Live>,       ENTRY<Shared<false>>, ENTRY<Shared<true>>,
#ifdef HAS_TBB
    ENTRY<Tbb>,
#endif
#ifdef HAS_JUDY
    ENTRY<JudyShards>,
#endif
};

// Whether the sums are those of the first map, which has all loads.
bool agree(const std::vector<uint64_t> &sums, const std::vector<uint64_t> &first) {
    for (size_t load = 0; load < LOAD_COUNT; load++)
        if (sums[load] != first[load] && sums[load] != 0)
            return false;
    return true;
}

int times(const Set &set, size_t n, size_t takes, size_t threads) {
    const Plan plan(set, n);
    constexpr size_t count = sizeof MAPS / sizeof *MAPS;
    std::vector<uint64_t> first;
    for (size_t turn = 0; turn < takes; turn++) {
        for (size_t at = 0; at < count; at++) {
            // (the first turn begins with the map that has all loads, and each later one with another)
            const Entry &map = MAPS[(at + turn) % count];
            auto sums = map.take(plan, threads);
            if (first.empty())
                first = sums;
            if (!agree(sums, first)) {
                fprintf(stderr, "threads: wrong: %s returns something else over %s keys, by %zu threads\n", map.name,
                        set.name, threads);
                return 1;
            }
        }
    }
    return 0;
}

} // namespace

int main(int count, char **words) {
    if (count == 2 && !strcmp(words[1], "maps")) {
        for (const Entry &map : MAPS)
            puts(map.name);
        return 0;
    }
    const Set *set = count == 5 ? set_named(words[1]) : nullptr;
    size_t n = count == 5 ? strtoul(words[2], nullptr, 10) : 0;
    size_t threads = count == 5 ? strtoul(words[4], nullptr, 10) : 0;
    if (!set || n < 100 || threads < 1 || threads > 64) {
        fputs("usage: threads SET N TAKES THREADS | threads maps\n", stderr);
        return 2;
    }
    return times(*set, n, strtoul(words[3], nullptr, 10), threads);
}

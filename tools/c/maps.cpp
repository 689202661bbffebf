// congee.hpp beside std::map: the same lines over both have to return the same, by calls at random and by what a user writes.
// Then handles in threads, what a map is after a move, and refusals.
//
//     c++ -std=c++17 -Iinclude tools/c/maps.cpp out/c-library/libcongee.a -pthread -o maps && ./maps
#include "congee.hpp"
#include <algorithm>
#include <atomic>
#include <cstdio>
#include <cstdlib>
#include <map>
#include <random>
#include <thread>
#include <type_traits>
#include <vector>

using std_map = std::map<std::uint64_t, std::uint64_t>;
using congee_cpp::live_map;
using congee_cpp::map;
using congee_cpp::shared_map;

#define CHECK(is_so)                                                                                                   \
    do {                                                                                                               \
        if (!(is_so)) {                                                                                                \
            std::fprintf(stderr, "%s:%d: %s\n", __FILE__, __LINE__, #is_so);                                           \
            std::exit(1);                                                                                              \
        }                                                                                                              \
    } while (0)

static_assert(std::is_nothrow_move_constructible_v<map> && !std::is_copy_constructible_v<map>);
static_assert(std::is_nothrow_move_constructible_v<live_map> && std::is_copy_constructible_v<live_map>);
static_assert(std::is_nothrow_move_assignable_v<live_map> && !std::is_nothrow_copy_assignable_v<live_map>);
#if __cplusplus >= 202002L
static_assert(std::bidirectional_iterator<map::const_iterator> && std::ranges::bidirectional_range<map>);
#endif

// What a user of std::map writes, as a sum of all that is returned.
template <class M> static std::uint64_t lines(M &m) {
    std::uint64_t sum = 0;
    auto add = [&sum](std::uint64_t n) { sum = sum * 31 + n; };
    for (std::uint64_t k = 0; k < 100; k += 7)
        m[k] = k * k;
    m[7] += 1;
    ++m[3];
    m[200] = m[7];
    add(m.erase(14));
    add(m.erase(14));
    add(m.find(14) == m.end());
    add(m.find(7)->second);
    add(m.count(3));
    for (auto it = m.lower_bound(20); it != m.end(); ++it)
        add((*it).first ^ it->second);
    for (auto [k, v] : m)
        add(k + v);
    for (auto it = m.end(); it != m.begin();)
        add((--it)->first);
    auto both = m.equal_range(21);
    add(both.first->first + both.second->first);
    add(m.erase(m.find(21))->first);
    add(m.erase(m.lower_bound(60), m.lower_bound(80))->first);
    add(m.upper_bound(14)->first + m.size());
    add(m.insert({7, 1}).second);
    add(m.insert({8, 1}).second);
    add(m.emplace(8, 2).first->second);
    add(m.try_emplace(9, 5).first->second);
    add(m.insert_or_assign(9, 6).second);
    m.insert({{1, 2}, {3, 4}, {500, 6}});
    add(m.at(500));
    try {
        m.at(501);
    } catch (const std::out_of_range &) {
        add(1);
    }
    return sum;
}

// Calls at random over both.
static void at_random(map &ours, std_map &theirs, unsigned calls) {
    std::mt19937_64 dice(7);
    for (unsigned i = 0; i < calls; i++) {
        std::uint64_t shift = dice() % 60, k = (dice() % 512) << shift, v = dice();
        switch (dice() % 9) {
        case 0:
            CHECK(ours.insert_or_assign(k, v).second == theirs.insert_or_assign(k, v).second);
            break;
        case 1: {
            // (changes by a function, sums and comparisons)
            auto it = theirs.find(k);
            const bool was = it != theirs.end();
            const std::uint64_t before = was ? it->second : 0;
            auto is_before = [was, before](const std::optional<std::uint64_t> &found) {
                return found.has_value() == was && found.value_or(0) == before;
            };
            std::uint64_t expected = v % 2 && was ? before : v;
            if (v % 8 < 2) {
                using value = std::optional<std::uint64_t>;
                CHECK(is_before(ours.compute(k, [](value half) { return half.value_or(0) > 1 ? value(*half / 2) : value(); })));
                before > 1 ? void(it->second /= 2) : void(theirs.erase(k));
            } else if (v % 8 < 4) {
                CHECK(ours.fetch_add(k, v) == before);
                theirs[k] += v;
            } else if (v % 8 < 6) {
                const bool is_expected = was && before == expected;
                CHECK(ours.compare_erase(k, expected) == is_expected && (!was || expected == before));
                is_expected ? void(theirs.erase(k)) : void();
            } else {
                CHECK(is_before(ours.take(k)));
                theirs.erase(k);
            }
            break;
        }
        case 2:
            CHECK(ours.try_emplace(k, v).first->second == theirs.try_emplace(k, v).first->second);
            break;
        case 3:
            CHECK(ours.erase(k) == theirs.erase(k));
            break;
        case 4: {
            auto a = ours.lower_bound(k);
            auto b = theirs.lower_bound(k);
            for (int n = 0; n < 5 && b != theirs.end(); n++, ++a, ++b)
                CHECK(*a == congee_cpp::pair(*b));
            CHECK((a == ours.end()) == (b == theirs.end()));
            break;
        }
        case 5: {
            auto a = ours.upper_bound(k);
            auto b = theirs.upper_bound(k);
            for (int n = 0; n < 5 && b != theirs.begin(); n++)
                CHECK(*--a == congee_cpp::pair(*--b));
            CHECK((a == ours.begin()) == (b == theirs.begin()));
            break;
        }
        case 6: {
            std::uint64_t high = k + (dice() % 64 << shift), sum = 0, sum_theirs = 0, down = 0, down_theirs = 0;
            ours.each(k, high, [&](std::uint64_t key, std::uint64_t value) { sum = sum * 3 + (key ^ value); });
            ours.each_descending(k, high, [&](std::uint64_t key, std::uint64_t value) { down = down * 3 + (key ^ value); });
            for (auto it = theirs.lower_bound(k); it != theirs.end() && it->first <= high; ++it)
                sum_theirs = sum_theirs * 3 + (it->first ^ it->second);
            for (auto it = high < k ? theirs.begin() : theirs.upper_bound(high); it != theirs.begin() && (--it)->first >= k;)
                down_theirs = down_theirs * 3 + (it->first ^ it->second);
            CHECK(sum == sum_theirs && down == down_theirs);
            break;
        }
        case 7: {
            // (pops with a bound, and now and then copies of keys and values, and a removal by a function)
            const std::uint64_t high = k + (dice() % 64 << shift);
            auto up = theirs.begin();
            if (v % 16 == 0) {
                const bool is_there = up != theirs.end() && up->first <= k;
                CHECK(ours.pop_first_to(k) == (is_there ? std::optional<congee_cpp::pair>(*up) : std::nullopt));
                is_there ? void(theirs.erase(up)) : void();
            } else if (v % 16 == 1) {
                auto down = theirs.empty() ? theirs.end() : std::prev(theirs.end());
                const bool is_there = down != theirs.end() && down->first >= k;
                CHECK(ours.pop_last_from(k) == (is_there ? std::optional<congee_cpp::pair>(*down) : std::nullopt));
                is_there ? void(theirs.erase(down)) : void();
            } else if (v % 16 < 4) {
                std::vector<std::uint64_t> keys, values;
                for (auto it = theirs.lower_bound(k); it != theirs.end() && it->first <= high; ++it) {
                    keys.push_back(it->first);
                    values.push_back(it->second);
                }
                CHECK(ours.keys(k, high) == keys && ours.values(k, high) == values);
                CHECK(ours.keys().size() == theirs.size() && ours.values(high).size() >= ours.keys(high, high).size());
            } else if (v % 16 < 6) {
                auto at = theirs.lower_bound(k);
                CHECK((ours.below(k) == ours.end()) == (at == theirs.begin()));
                CHECK(at == theirs.begin() || *ours.below(k) == congee_cpp::pair(*std::prev(at)));
                CHECK(theirs.empty() ? ours.last() == ours.end() : *ours.last() == congee_cpp::pair(*theirs.rbegin()));
            } else if (i % 512 == 0) {
                std::size_t asked = 0, before = theirs.size();
                for (auto it = theirs.begin(); it != theirs.end();)
                    it = (it->first ^ it->second) % 8 ? std::next(it) : theirs.erase(it);
                auto keep = [&asked](std::uint64_t key, std::uint64_t value) { return ++asked, (key ^ value) % 8 > 0; };
                CHECK(ours.retain(keep) == before - theirs.size() && asked == before);
            }
            break;
        }
        default: {
            auto it = theirs.find(k);
            CHECK(ours.contains(k) == (it != theirs.end()));
            CHECK(ours.get(k).value_or(1) == (it == theirs.end() ? 1 : it->second));
            if (i % 64 == 0 && !theirs.empty()) {
                auto last = std::prev(theirs.end());
                CHECK(ours.pop_last() == congee_cpp::pair(*last));
                theirs.erase(last);
            }
        }
        }
        CHECK(ours.size() == theirs.size());
    }
    CHECK(std::equal(theirs.begin(), theirs.end(), ours.begin(), ours.end(),
                     [](const congee_cpp::pair &a, const congee_cpp::pair &b) { return a == b; }));
}

// No change of a map leaves an iterator dangling: it goes on from its key.
static void changes() {
    map m{{1, 10}, {2, 20}, {3, 30}};
    auto it = m.find(2);
    m.erase(2);
    CHECK((++it)->first == 3);
    m.clear();
    CHECK(++it == m.end());
    m[7] = 70;
    CHECK((--it)->second == 70);
    for (auto at = m.begin(); at != m.end() && m.size() < 50; ++at)
        m[at->first + 1] = 0;
    CHECK(m.size() == 50);
}

// Ranges that are erased, what is charged, and the limit.
static void ranges() {
    map m;
    for (std::uint64_t key = 0; key < 300; key++)
        m[key * 3] = key;
    m[UINT64_MAX] = 1;
    CHECK(m.erase_range(1, 2) == 0 && m.erase_range(9, 6) == 0 && m.erase_range(3, 6) == 2 && m.size() == 299);
    CHECK(m.erase_range(0, 0) == 1 && m.erase_range(897, UINT64_MAX) == 2 && m.find(894)->second == 298);
    CHECK(m.limit() == UINT64_MAX && m.charged() > 2104 && m.erase_range(0, UINT64_MAX) == 296 && m.empty());
    map tight = map::with_limit(5000), moved = std::move(tight);
    CHECK(moved.usage() == congee_cpp::pair(2104, 5000));
    CHECK(moved.limit() == 5000 && moved.charged() == 2104 && tight.charged() == 0 && tight.erase_range(0, 9) == 0);
    CHECK(!tight.pop_first_to(9) && !tight.pop_last_from(0) && tight.retain([](auto, auto) { return false; }) == 0);
    CHECK(tight.keys().empty() && tight.values().empty() && tight.last() == tight.end() && tight.below(9) == tight.end());
    tight.shrink_to_fit();
    CHECK(!tight.take(1) && !tight.compute(1, [](auto it) { return it; }) && tight.empty());
    std::uint64_t expected = 7;
    CHECK(!tight.compare_erase(1, expected) && expected == 7 && tight.fetch_add(1, 2) == 0 && tight.at(1) == 2);
}

// Keys, values, pops with a bound and a removal by a function, by hand.
static void removals() {
    map m{{5, 50}, {7, 70}, {9, 90}, {UINT64_MAX, 1}};
    using numbers = std::vector<std::uint64_t>;
    CHECK(m.keys() == (numbers{5, 7, 9, UINT64_MAX}) && m.values() == (numbers{50, 70, 90, 1}));
    CHECK(m.keys(6, 9) == (numbers{7, 9}) && m.values(0, 5) == numbers{50} && m.keys(9, 6).empty());
    CHECK(m.last()->first == UINT64_MAX && m.below(9)->second == 70 && m.below(5) == m.end());
    CHECK(!m.pop_first_to(4) && m.pop_first_to(5) == congee_cpp::pair(5, 50) && !m.pop_first_to(6));
    CHECK(m.pop_last_from(UINT64_MAX) == congee_cpp::pair(UINT64_MAX, 1) && !m.pop_last_from(10));
    CHECK(m.pop_last_from(9) == congee_cpp::pair(9, 90) && m.size() == 1);
    for (std::uint64_t key = 0; key < 1000; key++)
        m[key] = key % 3;
    std::uint64_t asked = 0;
    CHECK(m.retain([&asked](std::uint64_t key, std::uint64_t value) {
        CHECK(key == asked++ && value == key % 3);
        return value == 1;
    }) == 667);
    CHECK(asked == 1000 && m.size() == 333 && m.keys(0, 9) == (numbers{1, 4, 7}));
    auto none = [](auto) { return std::optional<std::uint64_t>(); };
    CHECK(m.compute(4, none) == 1u && !m.compute(4, none) && m.keys(0, 9) == (numbers{1, 7}));
    m.insert({{4, 1}, {UINT64_MAX, 2}});
    CHECK(m.retain([](auto, std::uint64_t value) { return value == 1; }) == 1 && m.size() == 333);
    m.erase_range(100, UINT64_MAX);
    const std::uint64_t charged = m.charged();
    m.shrink_to_fit();
    CHECK(m.charged() == charged && m.size() == 33 && m.at(97) == 1);
    const std::size_t most = m.keys().size();
    bool is_thrown = false;
    try {
        m.retain([](std::uint64_t key, std::uint64_t) -> bool { return key < 50 ? false : throw std::out_of_range("50"); });
    } catch (const std::out_of_range &) {
        is_thrown = true;
    }
    CHECK(is_thrown && most == 33 && m.begin()->first == 52 && m.size() == 16);
}

static void moves() {
    map m{{1, 10}};
    map other = std::move(m);
    CHECK(m.empty() && m.begin() == m.end() && !m.contains(1) && m.erase(1) == 0 && m.size() == 0 && !m.get(1));
    m[5] = 50;
    CHECK(m.at(5) == 50 && other.at(1) == 10);
    other = std::move(m);
    CHECK(other.at(5) == 50 && m.empty());
    swap(m, other);
    map copy = m.copy();
    CHECK(copy == m && copy != other && copy.limit() == UINT64_MAX && map::with_limit(5000).copy().limit() == 5000);
    copy.clear();
    CHECK(copy.empty() && m.at(5) == 50);
    std::vector<map> maps;
    for (std::uint64_t i = 0; i < 20; i++)
        maps.push_back(map{{i, i}});
    CHECK(maps[13].at(13) == 13);
    std_map std_pairs{{1, 2}, {3, 4}};
    CHECK(map(std_pairs.begin(), std_pairs.end()).at(3) == 4);
}

static void refusals() {
    map m = map::with_limit(2104 + 64);
    m[1] = 10;
    bool is_refused = false;
    try {
        m[UINT64_MAX] = 1;
    } catch (const std::bad_alloc &) {
        is_refused = true;
    }
    CHECK(is_refused && m.size() == 1);
    CHECK(m.try_insert_or_assign(UINT64_MAX, 1) == CONGEE_OOM && m.try_insert_or_assign(1, 11) == 1);
    CHECK(!map::try_new(100) && map::try_new().value().empty());
    std::uint64_t expected = 7, old = 9;
    map gone{{1, 1}}, kept = std::move(gone);
    CHECK(gone.try_insert_or_assign(1, 20, &old) == 0 && old == 9 && gone.try_insert_or_assign(1, 21, &old) == 1 && old == 20);
    CHECK(gone.at(1) == 21 && kept.at(1) == 1);
    CHECK(!m.compare_exchange(1, expected, 12) && expected == 11 && m.compare_exchange(1, expected, 12));
    is_refused = false;
    try {
        shared_map tight(2104 + 64);
        CHECK(tight.insert_or_assign(1, 10) && tight.try_insert_or_assign(UINT64_MAX, 1) == CONGEE_OOM && tight.size() == 1);
        live_map none(100);
    } catch (const std::bad_alloc &) {
        is_refused = true;
    }
    CHECK(is_refused);
}

// What is changed while it is asked about is asked about again. So are the bounds of pops met.
template <class M> static void asked_again(M &map) {
    using numbers = std::vector<std::uint64_t>;
    const std::uint64_t size = map.size();
    M other = map;
    numbers asked;
    map.insert({{20, 1}, {21, 1}, {22, 1}, {23, 1}});
    auto keep = [&](std::uint64_t key, std::uint64_t value) {
        if (key < 20 || key > 23)
            return true;
        asked.push_back(10 * key + value);
        if (value == 1 && key < 22)
            other.insert_or_assign(key, 2);
        if (key == 22)
            CHECK(other.erase(22));
        return key == 20 && value == 2;
    };
    CHECK(map.retain(keep) == 2 && map.get(20) == 2u && map.size() == size + 1);
    CHECK(asked == (numbers{201, 202, 211, 212, 221, 231}));
    CHECK(map.take(20) == 2u && map.size() == size);
    // (a change by a function begins again where another handle came first: at a removal, an exchange, an insertion, a removal)
    numbers found;
    auto change = [&](std::optional<std::uint64_t> it) {
        found.push_back(it.value_or(0));
        if (found.size() == 5)
            CHECK(other.erase(20));
        else if (found.size() % 3 > 0)
            other.insert_or_assign(20, found.size());
        return found.size() % 2 ? std::optional<std::uint64_t>() : std::optional<std::uint64_t>(7);
    };
    map.insert_or_assign(20, 9);
    CHECK(map.compute(20, change) == 2u && !map.contains(20) && !map.compute(20, change) && map.take(20) == 7u);
    CHECK(found == (numbers{9, 1, 2, 0, 4, 0}));
    const auto least = map.pop_first_to(0);
    const std::uint64_t second = map.first()->first, most = map.last()->first;
    CHECK(least->first == 0 && second > 0 && !map.pop_first_to(second - 1) && !map.pop_last_from(most + 1));
    const auto first = map.pop_first_to(second), last = map.pop_last_from(most);
    CHECK(first->first == second && last->first == most && map.size() == size - 3);
    map.insert({*least, *first, *last});
    std::uint64_t old = 9;
    CHECK(map.try_insert_or_assign(UINT64_MAX, 5, &old) == 0 && old == 9);
    CHECK(map.try_insert_or_assign(UINT64_MAX, 6, &old) == 1 && old == 5);
    CHECK(map.keys().back() == UINT64_MAX && map.values().back() == 6);
    const congee_cpp::map copy = map.snapshot();
    CHECK(copy.at(UINT64_MAX) == 6 && copy.contains(0) && copy.size() == size + 1);
    CHECK(map.retain([](std::uint64_t key, std::uint64_t) { return key < UINT64_MAX; }) == 1 && map.size() == size);
}

// Counts of four threads, each with a handle of its own, and what one handle returns.
template <class M> static void in_threads(M counts) {
    std::vector<std::thread> threads;
    for (int t = 0; t < 4; t++)
        threads.emplace_back([own = counts]() mutable {
            for (std::uint64_t i = 0; i < 10000; i++)
                own.fetch_add(i % 10 << 40, 1);
        });
    for (std::thread &it : threads)
        it.join();
    CHECK(counts.size() == 10 && counts.get(std::uint64_t{7} << 40) == 4000u && !counts.contains(7));
    CHECK(counts.first() == congee_cpp::pair(0, 4000) && counts.last()->first == std::uint64_t{9} << 40);
    CHECK(counts.above(0)->first == std::uint64_t{1} << 40 && counts.ceiling(1) == counts.above(0));
    CHECK(counts.floor(1)->first == 0 && !counts.below(0));
    std::uint64_t sum = 0, expected = 1;
    counts.each([&](std::uint64_t, std::uint64_t value) { sum += value; });
    CHECK(sum == 40000);
    CHECK(!counts.compare_exchange(0, expected, 2) && expected == 4000 && counts.compare_exchange(0, expected, 2));
    CHECK(!counts.compare_erase(0, expected) && expected == 2 && counts.compare_erase(0, expected));
    CHECK((counts.try_emplace(0, 5) == std::pair<std::uint64_t, bool>(5, true)) && !counts.try_emplace(0, 6).second);
    CHECK(!counts.insert_or_assign(0, 6) && counts.take(0) == 6u && !counts.erase(0));
    CHECK(counts.compute(0, [](std::optional<std::uint64_t> it) { return it; }) == std::nullopt && !counts.contains(0));
    CHECK(!counts.compute(0, [](auto it) { return std::optional<std::uint64_t>(it.value_or(7) + 1); }) && counts.get(0) == 8u);
    CHECK(counts.compute(0, [](auto it) { return std::optional<std::uint64_t>(*it * 2); }) == 8u && counts.get(0) == 16u);
    CHECK(counts.compute(0, [](auto) { return std::optional<std::uint64_t>(); }) == 16u && !counts.contains(0));
    std::vector<std::uint64_t> keys, down;
    for (std::uint64_t key = 0; key < 300; key++)
        counts.insert_or_assign(key, key);
    counts.each(1, 200, [&](std::uint64_t key, std::uint64_t) { keys.push_back(key); });
    counts.each_descending(1, 200, [&](std::uint64_t key, std::uint64_t) { down.push_back(key); });
    CHECK(keys.size() == 200 && std::equal(keys.begin(), keys.end(), down.rbegin(), down.rend()));
    down.clear();
    counts.each_descending([&](std::uint64_t key, std::uint64_t) { down.push_back(key); });
    CHECK(down.size() == 309 && down.front() == std::uint64_t{9} << 40 && down.back() == 0);
    counts.each_descending(7, 6, [](std::uint64_t, std::uint64_t) { CHECK(false); });
    CHECK(counts.erase_range(10, 299) == 290 && counts.erase_range(10, 309) == 0 && counts.erase_range(9, 8) == 0);
    CHECK(counts.keys(3, 5) == (std::vector<std::uint64_t>{3, 4, 5}) && counts.values(3, 5) == counts.keys(3, 5));
    CHECK(counts.keys().size() == 19 && counts.values().back() == 4000 && counts.keys(5, 3).empty());
    counts.insert({{10, 10}, {11, 11}});
    CHECK(!counts.pop_last_from(std::uint64_t{10} << 40) && counts.size() == 21);
    counts.retain([](std::uint64_t key, std::uint64_t) { return key != 10; });
    CHECK(counts.retain([](std::uint64_t key, std::uint64_t value) { return key != 11 || value != 11; }) == 1);
    CHECK(counts.size() == 19 && !counts.contains(10) && !counts.contains(11));
    asked_again(counts);
    CHECK(counts.pop_first() == congee_cpp::pair(0, 0) && counts.pop_last()->first == std::uint64_t{9} << 40);
    CHECK(counts.size() == 17);
    map copy = counts.snapshot();
    CHECK(copy.size() == 17 && copy.limit() == UINT64_MAX && copy.begin()->first == 1);
    counts.each([&](std::uint64_t key, std::uint64_t value) { CHECK(copy.get(key) == value); });
    copy.clear();
    CHECK(counts.size() == 17);
    counts.insert({{1, 100}, {11, 110}});
    CHECK(counts.get(1) == 1u && counts.get(11) == 110u && counts.take(11) == 110u);
    const std_map more{{2, 200}, {12, 120}};
    counts.insert(more.begin(), more.end());
    CHECK(counts.get(2) == 2u && counts.take(12) == 120u);
    CHECK(counts.charged() > 0 && counts.charged() <= counts.limit());
    CHECK(counts.usage() == congee_cpp::pair(counts.charged(), counts.limit()));
    M third = counts;
    auto noted = counts.note();
    std::thread learner([&third, &noted] {
        auto own = std::move(noted);
        third.learn(own);
        CHECK(third.get(1) == 1u);
    });
    learner.join();
    third.meet(counts);
    M other = counts, moved = std::move(counts);
    counts = other;
    moved.insert_or_assign(3, 30);
    CHECK(counts.get(3) == 30u && other.get(3) == 30u);
    other.clear();
    CHECK(counts.empty() && !counts.pop_first() && !counts.pop_last());
}

// Ranges that begin at 3, and their rests up to the greatest key. 256 of the keys below 600 are in each of the first two leaves of a
// live map, and 64 are erased at once.
template <class M> static void erased_by_hand(M map) {
    for (std::uint64_t last : {19, 63, 64, 66, 67, 261, 520}) {
        for (std::uint64_t key = 0; key < 600; key++)
            map.insert_or_assign(key, key);
        map.insert_or_assign(UINT64_MAX, 1);
        CHECK(map.erase_range(last, last - 1) == 0 && map.erase_range(3, last) == last - 2 && map.size() == 603 - last);
        CHECK(map.contains(2) && !map.contains(3) && !map.contains(last) && map.contains(last + 1));
        CHECK(map.erase_range(last, UINT64_MAX) == 600 - last && map.size() == 3);
        map.clear();
        CHECK(map.empty() && map.erase_range(0, UINT64_MAX) == 0);
    }
}

// Threads erase one range at once: each pair counts for one of them.
template <class M> static void erased_in_threads(M map) {
    std::atomic<std::uint64_t> erased{0}, waiting{4};
    std::vector<std::thread> threads;
    for (std::uint64_t key = 0; key < 40000; key++)
        map.insert_or_assign(key, key);
    for (int t = 0; t < 4; t++)
        threads.emplace_back([&erased, &waiting, own = map]() mutable {
            for (waiting--; waiting > 0;)
                std::this_thread::yield();
            erased += own.erase_range(0, 39999);
        });
    for (std::thread &it : threads)
        it.join();
    CHECK(erased == 40000 && map.empty());
}

// Threads pop what others insert, and change values by a function: each pair goes to one thread, and no step is lost.
template <class M> static void pops_in_threads(M jobs, M counts) {
    std::vector<std::thread> threads;
    std::atomic<std::uint64_t> popped{0}, sum{0};
    for (std::uint64_t t = 0; t < 4; t++)
        threads.emplace_back([t, &popped, &sum, own = jobs, steps = counts]() mutable {
            for (std::uint64_t i = 0; i < 5000; i++) {
                own.insert_or_assign(t << 40 | i, i);
                steps.compute(7, [](auto it) { return std::optional<std::uint64_t>(it.value_or(0) + 1); });
                // (a live map may pass a pair that comes meanwhile)
                std::optional<congee_cpp::pair> job;
                for (unsigned tries = 0; !job; tries++)
                    job = tries % 2  ? own.pop_first()
                          : i % 4 == 0 ? own.pop_first_to(t << 40 | i)
                          : i % 4 == 1 ? own.pop_last_from(t << 40)
                          : i % 4 == 2 ? own.pop_first()
                                       : own.pop_last();
                popped++;
                sum += job->second;
            }
        });
    for (std::thread &it : threads)
        it.join();
    CHECK(popped == 20000 && sum == 4 * (4999 * 5000 / 2));
    CHECK(jobs.empty() && counts.get(7) == 20000u);
}

int main() {
    map ours;
    std_map theirs;
    CHECK(lines(ours) == lines(theirs));
    at_random(ours, theirs, 200000);
    changes();
    ranges();
    removals();
    moves();
    refusals();
    in_threads(live_map());
    in_threads(live_map(8 << 20));
    CHECK(live_map(8 << 20).limit() == 8 << 20 && shared_map(8000).limit() == 8000);
    CHECK(live_map().limit() == UINT64_MAX && shared_map::sharded(64 * 9000).limit() == 64 * 9000);
    CHECK(shared_map().charged() == 2104 && shared_map::sharded().charged() == 64 * 2104);
    in_threads(shared_map());
    in_threads(shared_map::sharded());
    erased_by_hand(live_map());
    erased_by_hand(shared_map());
    erased_in_threads(live_map());
    erased_in_threads(shared_map());
    pops_in_threads(live_map(), live_map());
    pops_in_threads(shared_map(), shared_map());
    pops_in_threads(shared_map::sharded(), shared_map::sharded());
    shared_map pops;
    pops.insert_or_assign(1, 10);
    pops.insert_or_assign(2, 20);
    CHECK(pops.pop_last() == congee_cpp::pair(2, 20) && pops.pop_first()->second == 10 && !pops.pop_first());
    pops.clear();
    CHECK(pops.empty());
#if __cplusplus >= 202002L
    CHECK(std::ranges::is_sorted(ours) && std::ranges::distance(ours) == std::ranges::distance(theirs));
#endif
    std::puts("all return what std::map returns");
}

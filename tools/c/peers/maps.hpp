// Maps with one owner, all behind the same calls. No value is 0: a call returns 0 for no value. A call that finds a
// pair returns the sum of key and value, and one that finds many the sum of all.
//
// What isn't there is left out: HAS_JUDY, HAS_ABSL and HAS_BTREE name what is.
#pragma once
#include "congee.h"
#include <cstdio>
#include <cstdlib>
#ifdef HAS_JUDY
#include <Judy.h>
#endif
#ifdef HAS_ABSL
#include <absl/container/btree_map.h>
#endif

inline uint64_t sum_of(const congee_pair &pair) { return pair.key + pair.value; }

inline uint64_t sum_of(const congee_pair *pairs, size_t count) {
    uint64_t sum = 0;
    for (size_t at = 0; at < count; at++)
        sum += sum_of(pairs[at]);
    return sum;
}

[[noreturn]] inline void no_memory() {
    fputs("peers: there is no memory\n", stderr);
    exit(1);
}

// The map of this library.
class Owned {
  public:
    static constexpr const char *NAME = "congee";
    Owned() {
        if (congee_new(&map) != CONGEE_DONE)
            no_memory();
    }
    ~Owned() { congee_free(map); }
    Owned(const Owned &) = delete;
    uint64_t insert(uint64_t key, uint64_t value) {
        uint64_t old = 0;
        if (congee_insert(map, key, value, &old) == CONGEE_OOM)
            no_memory();
        return old;
    }
    uint64_t get(uint64_t key) {
        uint64_t value = 0;
        congee_get(map, key, &value);
        return value;
    }
    uint64_t remove(uint64_t key) {
        uint64_t old = 0;
        congee_remove(map, key, &old);
        return old;
    }
    uint64_t range(uint64_t start, size_t most) {
        return sum_of(page, congee_range_inclusive(map, start, UINT64_MAX, page, most));
    }
    uint64_t iterate() {
        uint64_t sum = 0, start = 0;
        for (;;) {
            size_t found = congee_range_inclusive(map, start, UINT64_MAX, page, 256);
            sum += sum_of(page, found);
            if (found < 256 || page[255].key == UINT64_MAX)
                return sum;
            start = page[255].key + 1;
        }
    }
    uint64_t floor(uint64_t key) {
        return found_by([&](congee_pair *pair) { congee_floor(map, key, pair); });
    }
    uint64_t ceiling(uint64_t key) {
        return found_by([&](congee_pair *pair) { congee_ceiling(map, key, pair); });
    }
    uint64_t pop_first() {
        return found_by([&](congee_pair *pair) { congee_pop_first(map, pair); });
    }
    uint64_t pop_last() {
        return found_by([&](congee_pair *pair) { congee_pop_last(map, pair); });
    }

  private:
    template <class Call> static uint64_t found_by(Call call) {
        congee_pair pair = {0, 0};
        call(&pair);
        return sum_of(pair);
    }
    congee *map = nullptr;
    // (not in the map, whose bytes are counted)
    static inline congee_pair page[256] = {};
};

#ifdef HAS_JUDY
class Judy {
  public:
    static constexpr const char *NAME = "JudyL";
    Judy() = default;
    ~Judy() { JudyLFreeArray(&map, PJE0); }
    Judy(const Judy &) = delete;
    uint64_t insert(uint64_t key, uint64_t value) {
        PPvoid_t place = JudyLIns(&map, key, PJE0);
        if (place == PPJERR)
            no_memory();
        uint64_t old = value_at(place);
        *place = reinterpret_cast<void *>(value);
        return old;
    }
    uint64_t get(uint64_t key) {
        PPvoid_t place = JudyLGet(map, key, PJE0);
        return place ? value_at(place) : 0;
    }
    // (a removal doesn't return the value, so a look-up comes first)
    uint64_t remove(uint64_t key) {
        uint64_t old = get(key);
        JudyLDel(&map, key, PJE0);
        return old;
    }
    uint64_t range(uint64_t start, size_t most) {
        Word_t key = start;
        uint64_t sum = 0;
        PPvoid_t place = JudyLFirst(map, &key, PJE0);
        for (; place && most > 0; most--, place = JudyLNext(map, &key, PJE0))
            sum += pair_at(key, place);
        return sum;
    }
    uint64_t iterate() { return range(0, SIZE_MAX); }
    uint64_t floor(uint64_t key) {
        Word_t found = key;
        PPvoid_t place = JudyLLast(map, &found, PJE0);
        return pair_at(found, place);
    }
    uint64_t ceiling(uint64_t key) {
        Word_t found = key;
        PPvoid_t place = JudyLFirst(map, &found, PJE0);
        return pair_at(found, place);
    }
    uint64_t pop_first() {
        Word_t key = 0;
        PPvoid_t place = JudyLFirst(map, &key, PJE0);
        return taken(key, place);
    }
    uint64_t pop_last() {
        Word_t key = UINT64_MAX;
        PPvoid_t place = JudyLLast(map, &key, PJE0);
        return taken(key, place);
    }

  private:
    static uint64_t value_at(PPvoid_t place) { return reinterpret_cast<uint64_t>(*place); }
    static uint64_t pair_at(Word_t key, PPvoid_t place) { return place ? key + value_at(place) : 0; }
    uint64_t taken(Word_t key, PPvoid_t place) {
        uint64_t sum = pair_at(key, place);
        if (place)
            JudyLDel(&map, key, PJE0);
        return sum;
    }
    Pvoid_t map = nullptr;
};
#endif

#ifdef HAS_ABSL
class Absl {
  public:
    static constexpr const char *NAME = "absl::btree_map";
    uint64_t insert(uint64_t key, uint64_t value) {
        auto [at, is_new] = map.try_emplace(key, value);
        if (is_new)
            return 0;
        uint64_t old = at->second;
        at->second = value;
        return old;
    }
    uint64_t get(uint64_t key) {
        auto at = map.find(key);
        return at == map.end() ? 0 : at->second;
    }
    uint64_t remove(uint64_t key) {
        auto at = map.find(key);
        if (at == map.end())
            return 0;
        uint64_t old = at->second;
        map.erase(at);
        return old;
    }
    uint64_t range(uint64_t start, size_t most) {
        uint64_t sum = 0;
        for (auto at = map.lower_bound(start); at != map.end() && most > 0; ++at, most--)
            sum += at->first + at->second;
        return sum;
    }
    uint64_t iterate() {
        uint64_t sum = 0;
        for (auto &[key, value] : map)
            sum += key + value;
        return sum;
    }
    uint64_t floor(uint64_t key) {
        auto above = map.upper_bound(key);
        return above == map.begin() ? 0 : pair_at(--above);
    }
    uint64_t ceiling(uint64_t key) {
        auto at = map.lower_bound(key);
        return at == map.end() ? 0 : pair_at(at);
    }
    uint64_t pop_first() { return map.empty() ? 0 : taken(map.begin()); }
    uint64_t pop_last() { return map.empty() ? 0 : taken(--map.end()); }

  private:
    using Map = absl::btree_map<uint64_t, uint64_t>;
    static uint64_t pair_at(Map::iterator at) { return at->first + at->second; }
    uint64_t taken(Map::iterator at) {
        uint64_t sum = pair_at(at);
        map.erase(at);
        return sum;
    }
    Map map;
};
#endif

#ifdef HAS_BTREE
// tools/rust/peers.rs.
extern "C" {
struct rust_map;
rust_map *btree_new();
void btree_free(rust_map *);
uint64_t btree_insert(rust_map *, uint64_t key, uint64_t value);
uint64_t btree_get(const rust_map *, uint64_t key);
uint64_t btree_remove(rust_map *, uint64_t key);
uint64_t btree_range(const rust_map *, uint64_t start, size_t most);
uint64_t btree_iterate(const rust_map *);
uint64_t btree_floor(const rust_map *, uint64_t key);
uint64_t btree_ceiling(const rust_map *, uint64_t key);
uint64_t btree_pop_first(rust_map *);
uint64_t btree_pop_last(rust_map *);
}

class BTree {
  public:
    static constexpr const char *NAME = "BTreeMap";
    BTree() : map(btree_new()) {}
    ~BTree() { btree_free(map); }
    BTree(const BTree &) = delete;
    uint64_t insert(uint64_t key, uint64_t value) { return btree_insert(map, key, value); }
    uint64_t get(uint64_t key) { return btree_get(map, key); }
    uint64_t remove(uint64_t key) { return btree_remove(map, key); }
    uint64_t range(uint64_t start, size_t most) { return btree_range(map, start, most); }
    uint64_t iterate() { return btree_iterate(map); }
    uint64_t floor(uint64_t key) { return btree_floor(map, key); }
    uint64_t ceiling(uint64_t key) { return btree_ceiling(map, key); }
    uint64_t pop_first() { return btree_pop_first(map); }
    uint64_t pop_last() { return btree_pop_last(map); }

  private:
    rust_map *map;
};
#endif

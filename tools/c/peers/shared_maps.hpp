// Maps that threads share, all behind the same calls, each thread by a caller of its own. No value is 0: a call returns
// 0 for no value. A range returns the sum of its keys and values.
//
// What isn't there is left out: HAS_JUDY and HAS_TBB name what is.
#pragma once
#include "maps.hpp"
#include <atomic>
#include <mutex>
#ifdef HAS_TBB
#include <tbb/concurrent_map.h>
#endif

// The map that is read without a lock.
class Live {
  public:
    static constexpr const char *NAME = "live";
    static constexpr bool HAS_RANGES = true, HAS_REMOVALS = true;
    Live() {
        if (congee_live_new(&first) != CONGEE_DONE)
            no_memory();
    }
    ~Live() { congee_live_free(first); }
    Live(const Live &) = delete;

    class Caller {
      public:
        explicit Caller(Live &live) {
            if (congee_live_another(live.first, &map) != CONGEE_DONE)
                no_memory();
        }
        ~Caller() { congee_live_free(map); }
        Caller(const Caller &) = delete;
        uint64_t insert(uint64_t key, uint64_t value) {
            uint64_t old = 0;
            if (congee_live_insert(map, key, value, &old) == CONGEE_OOM)
                no_memory();
            return old;
        }
        uint64_t get(uint64_t key) {
            uint64_t value = 0;
            congee_live_get(map, key, &value);
            return value;
        }
        uint64_t remove(uint64_t key) {
            uint64_t old = 0;
            congee_live_remove(map, key, &old);
            return old;
        }
        uint64_t range(uint64_t start) {
            return sum_of(page, congee_live_range_inclusive(map, start, UINT64_MAX, page, 100));
        }

      private:
        congee_live *map = nullptr;
        congee_pair page[100] = {};
    };

  private:
    congee_live *first = nullptr;
};

// The map under one lock, or in 64 shards with a lock each.
template <bool IS_SHARDED> class Shared {
  public:
    static constexpr const char *NAME = IS_SHARDED ? "shards" : "lock";
    static constexpr bool HAS_RANGES = true, HAS_REMOVALS = true;
    Shared() {
        auto make = IS_SHARDED ? congee_shared_new_sharded : congee_shared_new;
        if (make(UINT64_MAX, &first) != CONGEE_DONE)
            no_memory();
    }
    ~Shared() { congee_shared_free(first); }
    Shared(const Shared &) = delete;

    class Caller {
      public:
        explicit Caller(Shared &shared) {
            if (congee_shared_another(shared.first, &map) != CONGEE_DONE)
                no_memory();
        }
        ~Caller() { congee_shared_free(map); }
        Caller(const Caller &) = delete;
        uint64_t insert(uint64_t key, uint64_t value) {
            uint64_t old = 0;
            if (congee_shared_insert(map, key, value, &old) == CONGEE_OOM)
                no_memory();
            return old;
        }
        uint64_t get(uint64_t key) {
            uint64_t value = 0;
            congee_shared_get(map, key, &value);
            return value;
        }
        uint64_t remove(uint64_t key) {
            uint64_t old = 0;
            congee_shared_remove(map, key, &old);
            return old;
        }
        uint64_t range(uint64_t start) {
            return sum_of(page, congee_shared_range_inclusive(map, start, UINT64_MAX, page, 100));
        }

      private:
        congee_shared *map = nullptr;
        congee_pair page[100] = {};
    };

  private:
    congee_shared *first = nullptr;
};

#ifdef HAS_TBB
// (a removal isn't safe beside other calls)
class Tbb {
  public:
    static constexpr const char *NAME = "tbb";
    static constexpr bool HAS_RANGES = true, HAS_REMOVALS = false;

    class Caller {
      public:
        explicit Caller(Tbb &tbb) : map(tbb.map) {}
        // (emplace makes its node before it searches, so a present key is looked up first)
        uint64_t insert(uint64_t key, uint64_t value) {
            auto at = map.find(key);
            if (at != map.end())
                return at->second.exchange(value);
            auto [place, is_new] = map.emplace(key, value);
            return is_new ? 0 : place->second.exchange(value);
        }
        uint64_t get(uint64_t key) {
            auto at = map.find(key);
            return at == map.end() ? 0 : at->second.load();
        }
        uint64_t remove(uint64_t) { return 0; }
        uint64_t range(uint64_t start) {
            uint64_t sum = 0;
            size_t left = 100;
            for (auto at = map.lower_bound(start); at != map.end() && left > 0; ++at, left--)
                sum += at->first + at->second.load();
            return sum;
        }

      private:
        tbb::concurrent_map<uint64_t, std::atomic<uint64_t>> &map;
    };

  private:
    tbb::concurrent_map<uint64_t, std::atomic<uint64_t>> map;
};
#endif

#ifdef HAS_JUDY
// 64 JudyL arrays, each in a mutex. A hash of the key decides which, so dense keys spread, and ranges aren't in order.
class JudyShards {
    // (two cache lines, which a processor loads together)
    struct alignas(128) Shard {
        std::mutex lock;
        Judy map;
    };
    Shard shards[64];

  public:
    static constexpr const char *NAME = "judy";
    static constexpr bool HAS_RANGES = false, HAS_REMOVALS = true;

    class Caller {
      public:
        explicit Caller(JudyShards &all) : shards(all.shards) {}
        uint64_t insert(uint64_t key, uint64_t value) {
            Shard &shard = of(key);
            std::lock_guard<std::mutex> hold(shard.lock);
            return shard.map.insert(key, value);
        }
        uint64_t get(uint64_t key) {
            Shard &shard = of(key);
            std::lock_guard<std::mutex> hold(shard.lock);
            return shard.map.get(key);
        }
        uint64_t remove(uint64_t key) {
            Shard &shard = of(key);
            std::lock_guard<std::mutex> hold(shard.lock);
            return shard.map.remove(key);
        }
        uint64_t range(uint64_t) { return 0; }

      private:
        Shard &of(uint64_t key) { return shards[(key * 0x9e3779b97f4a7c15) >> 58]; }
        Shard *shards;
    };
};
#endif

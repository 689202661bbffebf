// Sets of keys, each in the order in which a program of that kind inserts them. They depend on the count alone.
#pragma once
#include <algorithm>
#include <cmath>
#include <cstddef>
#include <cstdint>
#include <cstring>
#include <vector>

using Keys = std::vector<uint64_t>;

// Splitmix64.
struct Random {
    uint64_t state;
    uint64_t next() {
        state += 0x9e3779b97f4a7c15;
        uint64_t z = state;
        z = (z ^ (z >> 30)) * 0xbf58476d1ce4e5b9;
        z = (z ^ (z >> 27)) * 0x94d049bb133111eb;
        return z ^ (z >> 31);
    }
    // (the bias is below 2^-32, since no bound here is above 2^32)
    uint64_t below(uint64_t bound) { return next() % bound; }
};

inline Keys shuffled(Keys keys, uint64_t seed) {
    Random random{seed};
    for (size_t at = keys.size(); at > 1; at--)
        std::swap(keys[at - 1], keys[random.below(at)]);
    return keys;
}

// No keys, with memory for so many, so that making them leaves no free memory behind.
inline Keys memory_for(size_t n) {
    Keys keys;
    keys.reserve(n);
    return keys;
}

// 0 to n - 1.
inline Keys dense(size_t n) {
    Keys keys = memory_for(n);
    for (uint64_t key = 0; key < n; key++)
        keys.push_back(key);
    return keys;
}

// Spread over 64 bits.
inline Keys random_keys(size_t n) {
    Random random{1};
    Keys keys = memory_for(n);
    while (keys.size() < n)
        keys.push_back(random.next());
    return keys;
}

// Runs of 256 numbers, each from any number on.
inline Keys clustered(size_t n) {
    Random random{2};
    Keys keys = memory_for(n);
    while (keys.size() < n) {
        uint64_t key = random.next() & ~(uint64_t{1} << 63);
        for (int left = 256; left > 0 && keys.size() < n; left--)
            keys.push_back(key++);
    }
    return keys;
}

// Microseconds since 1970, ascending, 1 to 1,000 apart.
inline Keys timestamps(size_t n) {
    Random random{3};
    uint64_t key = 1764381600000000;
    Keys keys = memory_for(n);
    while (keys.size() < n)
        keys.push_back(key += 1 + random.below(1000));
    return keys;
}

// 41 bits of milliseconds, 10 of a node, 12 of a sequence. Each of 64 nodes gives up to six ids a millisecond.
inline Keys snowflakes(size_t n) {
    Random random{4};
    Keys keys = memory_for(n);
    for (uint64_t time = 200000000000; keys.size() < n; time++)
        for (uint64_t node = 0; node < 64; node++)
            for (uint64_t sequence = 0, given = random.below(7); sequence < given && keys.size() < n; sequence++)
                keys.push_back(time << 22 | node << 12 | sequence);
    return keys;
}

// Pages of 4,096 bytes in six regions, in turns. Most follow the one before.
inline Keys addresses(size_t n) {
    Random random{5};
    uint64_t next[6] = {0x400000, 0x55d0c2a00000, 0x7f3a10000000, 0x7f8c42000000, 0x7ffd11000000, 0xffff888000000000};
    Keys keys = memory_for(n);
    while (keys.size() < n) {
        uint64_t &address = next[random.below(6)];
        if (random.below(64) == 0)
            address += 4096 * random.below(512);
        for (uint64_t left = 1 + random.below(32); left > 0 && keys.size() < n; left--, address += 4096)
            keys.push_back(address);
    }
    return keys;
}

// A set, and the low bits in which a key that is asked for near another one differs.
struct Set {
    const char *name;
    Keys (*make)(size_t);
    uint64_t near;
};

inline constexpr Set SETS[] = {
    {"dense", dense, 0xff},
    {"random", random_keys, UINT64_MAX},
    {"clustered", clustered, 0xfff},
    {"timestamps", timestamps, 0xffff},
    {"snowflakes", snowflakes, 0xffff},
    {"addresses", addresses, 0x3fffff},
};

inline const Set *set_named(const char *name) {
    for (const Set &set : SETS)
        if (!strcmp(set.name, name))
            return &set;
    return nullptr;
}

// For each key one near it, present or not.
inline Keys near_keys(const Keys &keys, uint64_t bits) {
    Random random{6};
    Keys near = memory_for(keys.size());
    for (uint64_t key : keys)
        near.push_back(key ^ (random.next() & bits));
    return near;
}

// Places below n by Zipf's law with exponent 0.99 (Gray et al., Quickly Generating Billion-Record Synthetic Databases).
class Zipf {
  public:
    explicit Zipf(uint64_t n) : n(static_cast<double>(n)) {
        for (uint64_t rank = 1; rank <= n; rank++)
            sum += 1 / std::pow(static_cast<double>(rank), THETA);
        eta = (1 - std::pow(2 / this->n, 1 - THETA)) / (1 - (1 + std::pow(0.5, THETA)) / sum);
    }
    size_t place(Random &random) const {
        double share = static_cast<double>(random.next() >> 11) * 0x1p-53;
        if (share * sum < 1)
            return 0;
        if (share * sum < 1 + std::pow(0.5, THETA))
            return 1;
        double rank = n * std::pow(eta * share - eta + 1, 1 / (1 - THETA));
        return static_cast<size_t>(std::min(rank, n - 1));
    }

  private:
    static constexpr double THETA = 0.99;
    double n, sum = 0, eta;
};

// As many of the keys, by Zipf's law over their places.
inline Keys zipf_of(const Keys &keys, size_t count) {
    Zipf law(keys.size());
    Random random{7};
    Keys asked = memory_for(count);
    while (asked.size() < count)
        asked.push_back(keys[law.place(random)]);
    return asked;
}

// A value, which is never 0.
inline uint64_t value_of(uint64_t key, uint64_t turn) { return (key * 8 + turn) | uint64_t{1} << 40; }

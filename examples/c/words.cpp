// How often each word is in a text, by an owner that frees its map (C++11).
//
//     c++ -std=c++11 -Iinclude examples/c/words.cpp out/c-library/libcongee.a -o words
#include "congee.h"
#include <cstdint>
#include <cstdio>
#include <new>
#include <sstream>
#include <string>
#include <utility>
#include <vector>

// A map that is freed with its owner. It can be moved and not copied.
class Map {
public:
    Map() {
        if (congee_new(&map_) == CONGEE_OOM)
            throw std::bad_alloc();
    }
    ~Map() { congee_free(map_); }
    Map(Map &&other) noexcept : map_(other.map_) { other.map_ = nullptr; }
    Map &operator=(Map &&other) noexcept {
        std::swap(map_, other.map_);
        return *this;
    }
    Map(const Map &) = delete;
    Map &operator=(const Map &) = delete;

    // Adds a number to the key's value, and returns the value before, 0 for a new key.
    std::uint64_t add(std::uint64_t key, std::uint64_t number) {
        std::uint64_t before = 0;
        if (congee_add(map_, key, number, &before) == CONGEE_OOM)
            throw std::bad_alloc();
        return before;
    }

    std::uint64_t size() const { return congee_count(map_); }

    // Calls `f` with each key below `UINT64_MAX` and its value, keys ascending. It must not change the map.
    template <class F> void for_each(F f) const {
        congee_pair page[16] = {};
        std::uint64_t start = 0;
        for (;;) {
            std::size_t n = congee_range(map_, start, UINT64_MAX, page, 16);
            for (std::size_t i = 0; i < n; i++)
                f(page[i].key, page[i].value);
            if (n < 16)
                return;
            start = page[n - 1].key + 1;
        }
    }

private:
    congee *map_ = nullptr;
};

// The first eight letters of a word as a number, so that keys ascend as the words do.
static std::uint64_t key_of(const std::string &word) {
    std::uint64_t key = 0;
    for (std::size_t i = 0; i < 8; i++)
        key = key << 8 | (i < word.size() ? static_cast<unsigned char>(word[i]) : 0);
    return key;
}

static std::string word_of(std::uint64_t key) {
    std::string word;
    for (int i = 7; i >= 0; i--)
        if (char letter = static_cast<char>(key >> 8 * i & 0xff))
            word += letter;
    return word;
}

int main() {
    std::istringstream text("the cat sat on the mat and the dog sat on the cat");
    Map counts;
    std::string word;
    while (text >> word)
        counts.add(key_of(word), 1);
    std::vector<Map> owners;
    owners.push_back(std::move(counts));
    std::printf("%llu words\n", static_cast<unsigned long long>(owners[0].size()));
    owners[0].for_each([](std::uint64_t key, std::uint64_t count) {
        std::printf("%s %llu\n", word_of(key).c_str(), static_cast<unsigned long long>(count));
    });
    return 0;
}

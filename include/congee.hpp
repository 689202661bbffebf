/* congee.hpp: the maps of congee.h as C++ classes, C++17. MIT license.
 *
 *   - congee_cpp::map: a map for one thread. The calls are those of std::map<std::uint64_t, std::uint64_t>, but return values
 *     and no references.
 *   - congee_cpp::live_map: a map that threads share and read without a lock, by an object for each thread.
 *   - congee_cpp::shared_map: a map that threads share under one lock or in 64 shards, by an object for each thread.
 *   - congee_cpp::live_owners<T>, congee_cpp::live_boxes<T>: maps from keys to objects that threads share and look up without
 *     a lock, by a handle for each thread. The map owns an object by a std::shared_ptr<T>, or by a std::unique_ptr<T>.
 *
 * What the library's own functions return is proved (congee.h). The classes are C++ around the functions of the headers in C,
 * and are tested.
 *
 * The rules of congee.h hold. An object is in one call at a time, calls that read included. So two threads may not call one
 * const map at once. An object goes to another thread by a lock, or by the thread's start or join.
 *
 * If malloc finds no memory or the limit is reached, a call throws std::bad_alloc, and no pair has changed. In programs
 * without exceptions (-fno-exceptions) the call ends the program by std::abort. try_new and try_insert_or_assign don't
 * throw: without memory the first returns none, and the second CONGEE_OOM. The copy of a handle throws std::length_error
 * if a map of objects has 64 handles. */
#ifndef CONGEE_HPP
#define CONGEE_HPP

#include "congee.h"
#include "congee_live.h"
#include "congee_owners.h"
#include "congee_shared.h"

#include <cstddef>
#include <cstdint>
#include <cstdlib>
#include <initializer_list>
#include <iterator>
#include <memory>
#include <new>
#include <optional>
#include <stdexcept>
#include <utility>
#include <vector>

namespace congee_cpp {

using pair = std::pair<std::uint64_t, std::uint64_t>;

namespace inner {

/* Returns the code of a call, or throws std::bad_alloc for CONGEE_OOM. */
inline int made(int code) {
    if (code == CONGEE_OOM) {
#ifdef __cpp_exceptions
        throw std::bad_alloc();
#else
        std::abort();
#endif
    }
    return code;
}

[[noreturn]] inline void no_key() {
#ifdef __cpp_exceptions
    throw std::out_of_range("congee_cpp: there is no such key");
#else
    std::abort();
#endif
}

[[noreturn]] inline void full() {
#ifdef __cpp_exceptions
    throw std::length_error("congee_cpp: the map has 64 handles");
#else
    std::abort();
#endif
}

inline std::optional<pair> pair_if(int code, const congee_pair &at) {
    return code ? std::optional<pair>(std::in_place, at.key, at.value) : std::nullopt;
}

/* Calls the function with all pairs from first to last, and reads them by `read`, in pages of 256 pairs. */
template <class R, class F> void each(std::uint64_t first, std::uint64_t last, R read, F f) {
    congee_pair pairs[CONGEE_PAGE] = {};
    for (std::size_t n; (n = read(first, last, pairs, CONGEE_PAGE)) > 0; first = pairs[n - 1].key + 1) {
        for (std::size_t i = 0; i < n; i++)
            f(pairs[i].key, pairs[i].value);
        if (n < CONGEE_PAGE || pairs[n - 1].key >= last)
            return;
    }
}

/* Calls the function with all pairs from last down to first, and reads them by `read`, in pages of 256 pairs. */
template <class R, class F> void each_down(std::uint64_t first, std::uint64_t last, R read, F f) {
    congee_pair pairs[CONGEE_PAGE] = {};
    for (std::size_t n; (n = read(first, last, pairs, CONGEE_PAGE)) > 0; last = pairs[n - 1].key - 1) {
        for (std::size_t i = 0; i < n; i++)
            f(pairs[i].key, pairs[i].value);
        if (n < CONGEE_PAGE || pairs[n - 1].key <= first)
            return;
    }
}

} // namespace inner

/* An ordered map from std::uint64_t to std::uint64_t for one thread. A map can be moved, and a map that was moved from is
 * empty and can be used again. copy() copies a map, and may throw. */
class map {
public:
    using key_type = std::uint64_t;
    using mapped_type = std::uint64_t;
    using value_type = pair;
    using size_type = std::uint64_t;

    map() { inner::made(congee_new(&map_)); }
    /* Makes a map whose nodes take at most `bytes` bytes together by their stated sizes (congee_new_with_limit). Throws
     * std::bad_alloc if malloc finds no memory or the limit is below 2104 bytes. */
    static map with_limit(std::uint64_t bytes) {
        map made(nullptr);
        inner::made(congee_new_with_limit(&made.map_, bytes));
        return made;
    }
    map(std::initializer_list<pair> pairs) : map(pairs.begin(), pairs.end()) {}
    template <class I, class = typename std::iterator_traits<I>::iterator_category> map(I first, I last) : map() {
        insert(first, last);
    }
    ~map() { congee_free(map_); }
    map(map &&other) noexcept : map_(std::exchange(other.map_, nullptr)) {}
    map &operator=(map &&other) noexcept {
        map taken(std::move(other));
        swap(taken);
        return *this;
    }
    map(const map &) = delete;
    map &operator=(const map &) = delete;
    /* Makes a map with a limit in bytes, or returns none if malloc finds no memory or the limit is below 2104 bytes. */
    static std::optional<map> try_new(std::uint64_t limit = UINT64_MAX) noexcept {
        map made(nullptr);
        if (congee_new_with_limit(&made.map_, limit) == CONGEE_OOM)
            return std::nullopt;
        return made;
    }
    /* Returns a copy of the map with the same limit, or throws std::bad_alloc. */
    map copy() const {
        map other = map_ ? with_limit(congee_limit(map_)) : map();
        each([&other](std::uint64_t key, std::uint64_t value) { other.insert_or_assign(key, value); });
        return other;
    }
    void swap(map &other) noexcept { std::swap(map_, other.map_); }
    friend void swap(map &a, map &b) noexcept { a.swap(b); }

    /* A pair of the map, or the end. An iterator copies the pair when it comes to the pair, and goes on from the pair's key,
     * also if the key was removed since. So no change of the map invalidates an iterator. An iterator is used only while
     * the map lasts. */
    class const_iterator {
    public:
        /* (an iterator that returns values is an input iterator in C++17, and bidirectional in C++20) */
        using iterator_category = std::input_iterator_tag;
        using iterator_concept = std::bidirectional_iterator_tag;
        using value_type = pair;
        using difference_type = std::ptrdiff_t;
        using reference = pair;
        /* The type of operator->, which holds a copy of the pair. */
        class pointer {
        public:
            const pair *operator->() const { return &at_; }

        private:
            friend class const_iterator;
            explicit pointer(const pair &at) : at_(at) {}
            pair at_;
        };

        const_iterator() = default;
        reference operator*() const { return {at_.key, at_.value}; }
        pointer operator->() const { return pointer(**this); }
        const_iterator &operator++() {
            there_ = congee_above(map_, at_.key, &at_) != 0;
            return *this;
        }
        const_iterator operator++(int) {
            const_iterator before = *this;
            ++*this;
            return before;
        }
        const_iterator &operator--() {
            there_ = (there_ ? congee_below(map_, at_.key, &at_) : congee_last(map_, &at_)) != 0;
            return *this;
        }
        const_iterator operator--(int) {
            const_iterator before = *this;
            --*this;
            return before;
        }
        friend bool operator==(const const_iterator &a, const const_iterator &b) {
            return a.there_ == b.there_ && (!a.there_ || a.at_.key == b.at_.key);
        }
        friend bool operator!=(const const_iterator &a, const const_iterator &b) { return !(a == b); }

    private:
        friend class map;
        const congee *map_ = nullptr;
        congee_pair at_ = {0, 0};
        bool there_ = false;
    };
    using iterator = const_iterator;

    const_iterator begin() const {
        return found([](const congee *of, congee_pair *at) { return congee_first(of, at); });
    }
    const_iterator end() const {
        return found([](const congee *, congee_pair *) { return 0; });
    }
    const_iterator cbegin() const { return begin(); }
    const_iterator cend() const { return end(); }
    const_iterator lower_bound(std::uint64_t key) const {
        return found([key](const congee *of, congee_pair *at) { return congee_ceiling(of, key, at); });
    }
    const_iterator upper_bound(std::uint64_t key) const {
        return found([key](const congee *of, congee_pair *at) { return congee_above(of, key, at); });
    }
    std::pair<const_iterator, const_iterator> equal_range(std::uint64_t key) const {
        return {lower_bound(key), upper_bound(key)};
    }
    const_iterator find(std::uint64_t key) const {
        return found([key](const congee *of, congee_pair *at) { return congee_get(of, at->key = key, &at->value); });
    }
    /* Returns the place of the greatest key that is at most `key` (floor) or below `key`, or of the greatest key (last), or
     * end(). */
    const_iterator floor(std::uint64_t key) const {
        return found([key](const congee *of, congee_pair *at) { return congee_floor(of, key, at); });
    }
    const_iterator below(std::uint64_t key) const {
        return found([key](const congee *of, congee_pair *at) { return congee_below(of, key, at); });
    }
    const_iterator last() const {
        return found([](const congee *of, congee_pair *at) { return congee_last(of, at); });
    }

    bool empty() const { return !map_ || congee_is_empty(map_); }
    size_type size() const { return map_ ? congee_count(map_) : 0; }
    bool contains(std::uint64_t key) const { return map_ && congee_get(map_, key, nullptr); }
    size_type count(std::uint64_t key) const { return contains(key); }
    std::optional<std::uint64_t> get(std::uint64_t key) const {
        std::uint64_t value = 0;
        return map_ && congee_get(map_, key, &value) ? std::optional<std::uint64_t>(value) : std::nullopt;
    }
    /* Returns the key's value, or throws std::out_of_range. */
    std::uint64_t at(std::uint64_t key) const {
        std::optional<std::uint64_t> value = get(key);
        if (!value)
            inner::no_key();
        return *value;
    }
    /* Calls the function with the key and the value of each pair from first to last, keys ascending. The call reads pages
     * of 256 pairs, so it is faster than iterators. The function may change the map, and gets a page's pairs as they were
     * when the page was read. */
    template <class F> void each(std::uint64_t first, std::uint64_t last, F f) const {
        const congee *of = map_;
        if (of && first <= last)
            inner::each(
                first, last,
                [of](std::uint64_t low, std::uint64_t high, congee_pair *pairs, std::size_t n) {
                    return congee_range_inclusive(of, low, high, pairs, n);
                },
                f);
    }
    template <class F> void each(F f) const { each(0, UINT64_MAX, f); }
    /* Calls the function with the key and the value of each pair from last down to first, keys descending. The call reads
     * pages of 256 pairs. The function may change the map, and gets a page's pairs as they were when the page was read. */
    template <class F> void each_descending(std::uint64_t first, std::uint64_t last, F f) const {
        const congee *of = map_;
        if (of && first <= last)
            inner::each_down(
                first, last,
                [of](std::uint64_t low, std::uint64_t high, congee_pair *pairs, std::size_t n) {
                    return congee_range_descending(of, low, high, pairs, n);
                },
                f);
    }
    template <class F> void each_descending(F f) const { each_descending(0, UINT64_MAX, f); }
    /* Returns the keys from first to last, or the values of these keys, keys ascending. */
    std::vector<std::uint64_t> keys(std::uint64_t first = 0, std::uint64_t last = UINT64_MAX) const {
        std::vector<std::uint64_t> all;
        each(first, last, [&all](std::uint64_t key, std::uint64_t) { all.push_back(key); });
        return all;
    }
    std::vector<std::uint64_t> values(std::uint64_t first = 0, std::uint64_t last = UINT64_MAX) const {
        std::vector<std::uint64_t> all;
        each(first, last, [&all](std::uint64_t, std::uint64_t value) { all.push_back(value); });
        return all;
    }

    /* Sets the key's value. Returns the key's place, and whether the key is new. */
    std::pair<const_iterator, bool> insert_or_assign(std::uint64_t key, std::uint64_t value) {
        bool is_new = inner::made(congee_insert(native(), key, value, nullptr)) == 0;
        return {at_pair(key, value), is_new};
    }
    /* Sets the key's value. Returns CONGEE_ABSENT for a new key, CONGEE_PRESENT for a present key, with the previous value
     * in *old, or CONGEE_OOM with nothing changed. `old` may be null. */
    int try_insert_or_assign(std::uint64_t key, std::uint64_t value, std::uint64_t *old = nullptr) noexcept {
        return map_ || congee_new(&map_) != CONGEE_OOM ? congee_insert(map_, key, value, old) : CONGEE_OOM;
    }
    /* Inserts the value if the key is absent. Returns the key's place, and whether the key is new. */
    std::pair<const_iterator, bool> try_emplace(std::uint64_t key, std::uint64_t value) {
        std::uint64_t current = value;
        bool is_new = inner::made(congee_get_or_insert(native(), key, value, &current)) == 0;
        return {at_pair(key, current), is_new};
    }
    std::pair<const_iterator, bool> emplace(std::uint64_t key, std::uint64_t value) { return try_emplace(key, value); }
    std::pair<const_iterator, bool> insert(const pair &it) { return try_emplace(it.first, it.second); }
    template <class I, class = typename std::iterator_traits<I>::iterator_category> void insert(I first, I last) {
        for (; first != last; ++first)
            insert(pair(*first));
    }
    void insert(std::initializer_list<pair> pairs) { insert(pairs.begin(), pairs.end()); }
    size_type erase(std::uint64_t key) { return map_ && congee_remove(map_, key, nullptr) ? 1 : 0; }
    const_iterator erase(const const_iterator &it) {
        if (!it.there_)
            return end();
        erase(it.at_.key);
        return upper_bound(it.at_.key);
    }
    /* Removes the keys from first to last, both included, and returns how many. */
    size_type erase_range(std::uint64_t first, std::uint64_t last) {
        return map_ ? congee_remove_range_inclusive(map_, first, last) : 0;
    }
    /* Removes the key. Returns the removed value, or none if the key was absent. */
    std::optional<std::uint64_t> take(std::uint64_t key) {
        std::uint64_t value = 0;
        return map_ && congee_remove(map_, key, &value) ? std::optional<std::uint64_t>(value) : std::nullopt;
    }
    /* Erases the keys from the place `first` on and below the place `last`, and returns `last`. */
    const_iterator erase(const const_iterator &first, const const_iterator &last) {
        if (first.there_ && !(last.there_ && last.at_.key <= first.at_.key))
            congee_remove_range_inclusive(map_, first.at_.key, last.there_ ? last.at_.key - 1 : UINT64_MAX);
        return last;
    }
    /* Removes the pair with the least key, or with the greatest key, and returns the pair. */
    std::optional<pair> pop_first() {
        congee_pair at = {0, 0};
        return inner::pair_if(map_ ? congee_pop_first(map_, &at) : 0, at);
    }
    std::optional<pair> pop_last() {
        congee_pair at = {0, 0};
        return inner::pair_if(map_ ? congee_pop_last(map_, &at) : 0, at);
    }
    /* Removes the pair with the least key, if that key is at most `key`, or the pair with the greatest key, if that key is at
     * least `key`, and returns the pair. */
    std::optional<pair> pop_first_to(std::uint64_t key) {
        congee_pair at = {0, 0};
        return inner::pair_if(map_ ? congee_pop_first_to(map_, key, &at) : 0, at);
    }
    std::optional<pair> pop_last_from(std::uint64_t key) {
        congee_pair at = {0, 0};
        return inner::pair_if(map_ ? congee_pop_last_from(map_, key, &at) : 0, at);
    }
    /* Calls the function once with the key and the value of each pair, keys ascending, and removes the pairs for which the
     * function returns false. Returns how many. The function may read the map, and doesn't change the map. */
    template <class F> size_type retain(F keep) {
        size_type removed = 0;
        each([&](std::uint64_t key, std::uint64_t value) { removed += keep(key, value) ? 0 : erase(key); });
        return removed;
    }
    /* Replaces the key's value by `desired` if the value is `expected`, and returns true. Otherwise returns false: a present
     * key's value is in `expected` then, and for an absent key `expected` is unchanged. */
    bool compare_exchange(std::uint64_t key, std::uint64_t &expected, std::uint64_t desired) {
        return map_ && congee_compare_exchange(map_, key, expected, desired, &expected) == 1;
    }
    /* Removes the key if its value is `expected`, and returns true. Otherwise returns false: a present key's value is in
     * `expected` then, and for an absent key `expected` is unchanged. */
    bool compare_erase(std::uint64_t key, std::uint64_t &expected) {
        return map_ && congee_compare_remove(map_, key, expected, &expected) == 1;
    }
    /* Adds n to the key's value, modulo 2^64, and returns the value before. A new key gets n as value, and 0 is returned. */
    std::uint64_t fetch_add(std::uint64_t key, std::uint64_t n) {
        std::uint64_t before = 0;
        inner::made(congee_add(native(), key, n, &before));
        return before;
    }
    /* Changes the key's value by a function of std::optional<std::uint64_t>: f gets the value, or none for an absent key, and
     * returns the value that the key gets, or none for no such key. Returns the value before, or none. */
    template <class F> std::optional<std::uint64_t> compute(std::uint64_t key, F f) {
        const std::optional<std::uint64_t> before = get(key), after = f(before);
        if (after)
            insert_or_assign(key, *after);
        else if (before)
            erase(key);
        return before;
    }
    void clear() {
        if (map_)
            congee_clear(map_);
    }
    /* Returns memory to malloc that is held for removed nodes (congee_shrink_to_fit). */
    void shrink_to_fit() {
        if (map_)
            congee_shrink_to_fit(map_);
    }

    /* The place of a key's value. `m[k]` reads the value, or 0 for an absent key, and inserts nothing. `m[k] = v`,
     * `m[k] += n` and `m[k] -= n` are one call each. */
    class place {
    public:
        operator std::uint64_t() const { return map_->get(key_).value_or(0); }
        place &operator=(std::uint64_t value) {
            map_->insert_or_assign(key_, value);
            return *this;
        }
        place &operator=(const place &other) { return *this = static_cast<std::uint64_t>(other); }
        place(const place &) = default;
        place &operator+=(std::uint64_t n) {
            inner::made(congee_add(map_->native(), key_, n, nullptr));
            return *this;
        }
        place &operator-=(std::uint64_t n) { return *this += 0 - n; }
        place &operator++() { return *this += 1; }
        place &operator--() { return *this -= 1; }

    private:
        friend class map;
        place(map *of, std::uint64_t key) : map_(of), key_(key) {}
        map *map_;
        std::uint64_t key_;
    };
    place operator[](std::uint64_t key) { return place(this, key); }

    friend bool operator==(const map &a, const map &b) {
        if (a.size() != b.size())
            return false;
        bool same = true;
        a.each([&](std::uint64_t key, std::uint64_t value) { same = same && b.get(key) == value; });
        return same;
    }
    friend bool operator!=(const map &a, const map &b) { return !(a == b); }

    /* The bytes that the nodes take by their stated sizes, and the limit, UINT64_MAX for none. */
    std::uint64_t charged() const { return map_ ? congee_charged(map_) : 0; }
    std::uint64_t limit() const { return map_ ? congee_limit(map_) : UINT64_MAX; }
    /* The bytes that the nodes take, and the limit, as a pair. */
    pair usage() const { return {charged(), limit()}; }

    /* Returns the map of congee.h, for calls that the class doesn't have. */
    congee *native() {
        if (!map_)
            inner::made(congee_new(&map_));
        return map_;
    }
    const congee *native() const { return map_; }

private:
    explicit map(std::nullptr_t) noexcept {}

    template <class F> const_iterator found(F f) const {
        const_iterator it;
        it.map_ = map_;
        it.there_ = map_ && f(map_, &it.at_);
        return it;
    }
    const_iterator at_pair(std::uint64_t key, std::uint64_t value) const {
        const_iterator it;
        it.map_ = map_;
        it.at_ = {key, value};
        it.there_ = true;
        return it;
    }

    congee *map_ = nullptr;
};

namespace inner {

/* The calls of a handle of each kind, by common names. */
struct live_calls {
    using native = congee_live;
    using native_note = struct congee_live_note;
    static constexpr auto note = congee_live_note;
    static constexpr auto learn = congee_live_learn;
    static constexpr auto note_free = congee_live_note_free;
    static constexpr auto meet = congee_live_meet;
    static constexpr auto charged = congee_live_charged;
    static constexpr auto limit = congee_live_limit;
    static constexpr auto usage = congee_live_usage;
    static constexpr auto another = congee_live_another;
    static constexpr auto free = congee_live_free;
    static constexpr auto get = congee_live_get;
    static constexpr auto insert = congee_live_insert;
    static constexpr auto remove = congee_live_remove;
    static constexpr auto compare_exchange = congee_live_compare_exchange;
    static constexpr auto compare_remove = congee_live_compare_remove;
    static constexpr auto add = congee_live_add;
    static constexpr auto get_or_insert = congee_live_get_or_insert;
    static constexpr auto range_inclusive = congee_live_range_inclusive;
    static constexpr auto range_descending = congee_live_range_descending;
    static constexpr auto first = congee_live_first;
    static constexpr auto last = congee_live_last;
    static constexpr auto ceiling = congee_live_ceiling;
    static constexpr auto above = congee_live_above;
    static constexpr auto floor = congee_live_floor;
    static constexpr auto below = congee_live_below;
    static constexpr auto pop_first = congee_live_pop_first;
    static constexpr auto pop_last = congee_live_pop_last;
    static constexpr auto pop_first_to = congee_live_pop_first_to;
    static constexpr auto pop_last_from = congee_live_pop_last_from;
    static constexpr auto remove_range_inclusive = congee_live_remove_range_inclusive;
    static constexpr auto clear = congee_live_clear;
    static constexpr auto is_empty = congee_live_is_empty;
    static constexpr auto count = congee_live_count;
};

struct shared_calls {
    using native = congee_shared;
    using native_note = struct congee_shared_note;
    static constexpr auto note = congee_shared_note;
    static constexpr auto learn = congee_shared_learn;
    static constexpr auto note_free = congee_shared_note_free;
    static constexpr auto meet = congee_shared_meet;
    static constexpr auto charged = congee_shared_charged;
    static constexpr auto limit = congee_shared_limit;
    static constexpr auto usage = congee_shared_usage;
    static constexpr auto another = congee_shared_another;
    static constexpr auto free = congee_shared_free;
    static constexpr auto get = congee_shared_get;
    static constexpr auto insert = congee_shared_insert;
    static constexpr auto remove = congee_shared_remove;
    static constexpr auto compare_exchange = congee_shared_compare_exchange;
    static constexpr auto compare_remove = congee_shared_compare_remove;
    static constexpr auto add = congee_shared_add;
    static constexpr auto get_or_insert = congee_shared_get_or_insert;
    static constexpr auto range_inclusive = congee_shared_range_inclusive;
    static constexpr auto range_descending = congee_shared_range_descending;
    static constexpr auto first = congee_shared_first;
    static constexpr auto last = congee_shared_last;
    static constexpr auto ceiling = congee_shared_ceiling;
    static constexpr auto above = congee_shared_above;
    static constexpr auto floor = congee_shared_floor;
    static constexpr auto below = congee_shared_below;
    static constexpr auto pop_first = congee_shared_pop_first;
    static constexpr auto pop_last = congee_shared_pop_last;
    static constexpr auto pop_first_to = congee_shared_pop_first_to;
    static constexpr auto pop_last_from = congee_shared_pop_last_from;
    static constexpr auto remove_range_inclusive = congee_shared_remove_range_inclusive;
    static constexpr auto clear = congee_shared_clear;
    static constexpr auto is_empty = congee_shared_is_empty;
    static constexpr auto count = congee_shared_count;
};

template <class C> class handle;

/* A note of the history that a handle has seen, for a handle on another thread (congee_live_note, congee_shared_note). */
template <class C> class note {
public:
    note(note &&other) noexcept : note_(std::exchange(other.note_, nullptr)) {}
    note &operator=(note &&other) noexcept {
        std::swap(note_, other.note_);
        return *this;
    }
    ~note() { C::note_free(note_); }

private:
    friend class handle<C>;
    explicit note(typename C::native_note *made) : note_(made) {}
    typename C::native_note *note_;
};

/* A handle of a map that threads share, an object for each thread. A copy is one more handle, which begins with the history
 * that the first has seen. Copying is a call of the first handle, so a thread's copy is made before the thread starts. Calls
 * wait while they are busy (congee_live.h, congee_shared.h). */
template <class C> class handle {
public:
    using key_type = std::uint64_t;
    using mapped_type = std::uint64_t;
    using native_type = typename C::native;

    handle(const handle &other) { made(C::another(other.map_, &map_)); }
    handle(handle &&other) noexcept : map_(std::exchange(other.map_, nullptr)) {}
    handle &operator=(const handle &other) { return *this = handle(other); }
    handle &operator=(handle &&other) noexcept {
        handle taken(std::move(other));
        std::swap(map_, taken.map_);
        return *this;
    }
    ~handle() { C::free(map_); }

    std::optional<std::uint64_t> get(std::uint64_t key) {
        std::uint64_t value = 0;
        return C::get(map_, key, &value) ? std::optional<std::uint64_t>(value) : std::nullopt;
    }
    bool contains(std::uint64_t key) { return C::get(map_, key, nullptr) != 0; }
    /* Sets the key's value. Returns whether the key is new. */
    bool insert_or_assign(std::uint64_t key, std::uint64_t value) { return made(C::insert(map_, key, value, nullptr)) == 0; }
    /* Sets the key's value. Returns CONGEE_ABSENT for a new key, CONGEE_PRESENT for a present key, with the previous value
     * in *old, or CONGEE_OOM with no pair changed. `old` may be null. */
    int try_insert_or_assign(std::uint64_t key, std::uint64_t value, std::uint64_t *old = nullptr) noexcept {
        return C::insert(map_, key, value, old);
    }
    /* Inserts the value if the key is absent. Returns the key's value after the call, and whether the key is new. */
    std::pair<std::uint64_t, bool> try_emplace(std::uint64_t key, std::uint64_t value) {
        std::uint64_t current = value;
        bool is_new = made(C::get_or_insert(map_, key, value, &current)) == 0;
        return {current, is_new};
    }
    /* Removes the key. Returns whether the key was present. */
    bool erase(std::uint64_t key) { return C::remove(map_, key, nullptr) != 0; }
    /* Removes the key. Returns the removed value, or none if the key was absent. */
    std::optional<std::uint64_t> take(std::uint64_t key) {
        std::uint64_t value = 0;
        return C::remove(map_, key, &value) ? std::optional<std::uint64_t>(value) : std::nullopt;
    }
    /* Adds n to the key's value, modulo 2^64, and returns the value before. A new key gets n as value, and 0 is returned. */
    std::uint64_t fetch_add(std::uint64_t key, std::uint64_t n) {
        std::uint64_t before = 0;
        made(C::add(map_, key, n, &before));
        return before;
    }
    /* Replaces the key's value by `desired` if the value is `expected`, and returns true. Otherwise returns false: a present
     * key's value is in `expected` then, and for an absent key `expected` is unchanged. */
    bool compare_exchange(std::uint64_t key, std::uint64_t &expected, std::uint64_t desired) {
        return C::compare_exchange(map_, key, expected, desired, &expected) == 1;
    }
    /* Removes the key if its value is `expected`, and returns true. Otherwise returns false: a present key's value is in
     * `expected` then, and for an absent key `expected` is unchanged. */
    bool compare_erase(std::uint64_t key, std::uint64_t &expected) {
        return C::compare_remove(map_, key, expected, &expected) == 1;
    }

    /* Changes the key's value by a function of std::optional<std::uint64_t>: f gets the value, or none for an absent key, and
     * returns the value that the key gets, or none for no such key. If another thread changes the key meanwhile, f is called
     * again with the new value, so no change is lost. No lock is held while f runs. Returns the value before, or none. */
    template <class F> std::optional<std::uint64_t> compute(std::uint64_t key, F f) {
        std::optional<std::uint64_t> before = get(key);
        for (;;) {
            const std::optional<std::uint64_t> after = f(before);
            std::uint64_t found = before.value_or(0);
            int code;
            if (!before && !after)
                return before;
            if (!before)
                code = made(C::get_or_insert(map_, key, *after, &found)) == CONGEE_ABSENT ? CONGEE_PRESENT : CONGEE_OTHER;
            else if (after)
                code = C::compare_exchange(map_, key, *before, *after, &found);
            else
                code = C::compare_remove(map_, key, *before, &found);
            if (code == CONGEE_PRESENT)
                return before;
            before = code == CONGEE_OTHER ? std::optional<std::uint64_t>(found) : std::nullopt;
        }
    }

    /* The pair with the least key, the greatest key, the least key from `key` on (ceiling) or above `key`, and the greatest
     * key up to `key` (floor) or below `key`, or none. */
    std::optional<pair> first() {
        congee_pair at = {0, 0};
        return pair_if(C::first(map_, &at), at);
    }
    std::optional<pair> last() {
        congee_pair at = {0, 0};
        return pair_if(C::last(map_, &at), at);
    }
    std::optional<pair> ceiling(std::uint64_t key) {
        congee_pair at = {0, 0};
        return pair_if(C::ceiling(map_, key, &at), at);
    }
    std::optional<pair> above(std::uint64_t key) {
        congee_pair at = {0, 0};
        return pair_if(C::above(map_, key, &at), at);
    }
    std::optional<pair> floor(std::uint64_t key) {
        congee_pair at = {0, 0};
        return pair_if(C::floor(map_, key, &at), at);
    }
    std::optional<pair> below(std::uint64_t key) {
        congee_pair at = {0, 0};
        return pair_if(C::below(map_, key, &at), at);
    }
    /* Removes the pair with the least key, or with the greatest key, and returns the pair, or none. Two threads never pop one
     * pair. In a live map a lesser or greater key may have been inserted during the call, and stays. */
    std::optional<pair> pop_first() {
        congee_pair at = {0, 0};
        return pair_if(C::pop_first(map_, &at), at);
    }
    std::optional<pair> pop_last() {
        congee_pair at = {0, 0};
        return pair_if(C::pop_last(map_, &at), at);
    }
    /* Removes the pair with the least key, if that key is at most `key`, or the pair with the greatest key, if that key is at
     * least `key`, and returns the pair, or none. Two threads never pop one pair. A lesser or greater key may have been
     * inserted during the call, and stays, in a shared map too: the search and the removal are of a moment each. */
    std::optional<pair> pop_first_to(std::uint64_t key) {
        congee_pair at = {0, 0};
        return pair_if(C::pop_first_to(map_, key, &at), at);
    }
    std::optional<pair> pop_last_from(std::uint64_t key) {
        congee_pair at = {0, 0};
        return pair_if(C::pop_last_from(map_, key, &at), at);
    }
    /* Removes the keys from first to last, and returns how many this call removed. Calls of other threads come in between
     * (congee_live_remove_range_inclusive, congee_shared_remove_range_inclusive). */
    std::uint64_t erase_range(std::uint64_t first, std::uint64_t last) {
        return C::remove_range_inclusive(map_, first, last);
    }
    /* Calls the function with the key and the value of each pair, keys ascending, and removes the pairs for which the function
     * returns false, one by one. If another thread changes the value in between, the function is called again with the new
     * value. Returns how many pairs this call removed. No lock is held while the function runs. */
    template <class F> std::uint64_t retain(F keep) {
        std::uint64_t removed = 0;
        each([&](std::uint64_t key, std::uint64_t value) {
            int code = CONGEE_OTHER;
            while (code == CONGEE_OTHER && !keep(key, value))
                code = C::compare_remove(map_, key, value, &value);
            removed += code == CONGEE_PRESENT;
        });
        return removed;
    }
    /* Removes all pairs: of a shared map at one moment, and of a live map as erase_range. */
    void clear() { C::clear(map_); }
    /* Calls the function with the key and the value of each pair from first to last, keys ascending. The call reads pages
     * of 256 pairs, and calls of other threads come in between. */
    template <class F> void each(std::uint64_t first, std::uint64_t last, F f) {
        native_type *of = map_;
        if (first <= last)
            inner::each(
                first, last,
                [of](std::uint64_t low, std::uint64_t high, congee_pair *pairs, std::size_t n) {
                    return C::range_inclusive(of, low, high, pairs, n);
                },
                f);
    }
    template <class F> void each(F f) { each(0, UINT64_MAX, f); }
    /* Calls the function with the key and the value of each pair from last down to first, keys descending. The call reads
     * pages of 256 pairs, and calls of other threads come in between. */
    template <class F> void each_descending(std::uint64_t first, std::uint64_t last, F f) {
        native_type *of = map_;
        if (first <= last)
            inner::each_down(
                first, last,
                [of](std::uint64_t low, std::uint64_t high, congee_pair *pairs, std::size_t n) {
                    return C::range_descending(of, low, high, pairs, n);
                },
                f);
    }
    template <class F> void each_descending(F f) { each_descending(0, UINT64_MAX, f); }
    /* Returns the keys from first to last, or the values of these keys, keys ascending. The call reads pages of 256 pairs, and
     * calls of other threads come in between. */
    std::vector<std::uint64_t> keys(std::uint64_t first = 0, std::uint64_t last = UINT64_MAX) {
        std::vector<std::uint64_t> all;
        each(first, last, [&all](std::uint64_t key, std::uint64_t) { all.push_back(key); });
        return all;
    }
    std::vector<std::uint64_t> values(std::uint64_t first = 0, std::uint64_t last = UINT64_MAX) {
        std::vector<std::uint64_t> all;
        each(first, last, [&all](std::uint64_t, std::uint64_t value) { all.push_back(value); });
        return all;
    }
    /* Inserts the pairs whose keys are absent, one by one. Calls of other threads come in between. */
    template <class I, class = typename std::iterator_traits<I>::iterator_category> void insert(I first, I last) {
        for (; first != last; ++first)
            try_emplace(std::get<0>(*first), std::get<1>(*first));
    }
    void insert(std::initializer_list<pair> pairs) { insert(pairs.begin(), pairs.end()); }
    /* Returns a copy of the pairs, made of pages of 256 pairs, without a limit. The copy has each key as of a moment of the
     * call, and each key that is present throughout is in the copy. Calls of other threads come in between two pages, and of a
     * live map within a page. So a map that others change may never have had just these pairs. */
    map snapshot() {
        map copy;
        each([&copy](std::uint64_t key, std::uint64_t value) { copy.insert_or_assign(key, value); });
        return copy;
    }
    bool empty() { return C::is_empty(map_); }
    std::uint64_t size() { return C::count(map_); }
    /* The bytes that count against the limit, and the limit: UINT64_MAX for none, and in shards the sum of the shards'. */
    std::uint64_t charged() { return C::charged(map_); }
    std::uint64_t limit() { return C::limit(map_); }
    /* The bytes that count against the limit, and the limit, as a pair: in a shared map at one moment. */
    pair usage() {
        pair it = {0, 0};
        C::usage(map_, &it.first, &it.second);
        return it;
    }
    /* Orders two handles of one map in time: both have then seen all that either had seen. */
    void meet(handle &other) { C::meet(map_, other.map_); }
    /* Returns a note of what this handle has seen, and orders this handle after a note of another handle of the map. */
    inner::note<C> note() {
        typename C::native_note *it = nullptr;
        made(C::note(map_, &it));
        return inner::note<C>(it);
    }
    void learn(inner::note<C> &of) { C::learn(map_, of.note_); }
    /* Returns the handle in C, for calls that the class doesn't have. */
    native_type *native() { return map_; }

protected:
    handle() = default;
    native_type *map_ = nullptr;
};

} // namespace inner

/* A map that threads share. Look-ups take no lock, and write nothing that other threads read (congee_live.h). */
class live_map : public inner::handle<inner::live_calls> {
public:
    live_map() { inner::made(congee_live_new(&map_)); }
    /* A map whose nodes take at most `limit` bytes together (congee_live_new_with_limit). */
    explicit live_map(std::uint64_t limit) {
        congee_live_handle made = {nullptr};
        inner::made(congee_c_live_new(limit, &made));
        map_ = made.guard;
    }
};

/* A map that threads share under one lock, or in 64 shards with a lock each (congee_shared.h). */
class shared_map : public inner::handle<inner::shared_calls> {
public:
    explicit shared_map(std::uint64_t limit = UINT64_MAX) { inner::made(congee_shared_new(limit, &map_)); }
    static shared_map sharded(std::uint64_t limit = UINT64_MAX) {
        shared_map made(nullptr);
        inner::made(congee_shared_new_sharded(limit, &made.map_));
        return made;
    }

private:
    explicit shared_map(std::nullptr_t) {}
};

namespace inner {

/* How a map stores a std::shared_ptr: by a copy in a block of its own, whose address the library has. */
template <class T> struct by_shared_ptr {
    using object = T;
    using pointer = std::shared_ptr<T>;
    /* Returns what the library is handed, or null if there is no memory. */
    static void *offered(const pointer &owner) noexcept { return new (std::nothrow) pointer(owner); }
    /* After an insertion: the library has stored what it was handed, has refused that, or keeps it for a while. */
    static void stored(pointer &owner) noexcept { owner.reset(); }
    static void refused(void *owner) noexcept { release(owner, nullptr); }
    static void kept(pointer &) noexcept {}
    static void release(void *owner, void *) noexcept { delete static_cast<pointer *>(owner); }
    static T *object_of(void *owner) noexcept { return owner ? static_cast<pointer *>(owner)->get() : nullptr; }
    static pointer shared(void *owner) noexcept { return owner ? *static_cast<pointer *>(owner) : pointer(); }
};

/* How a map stores a std::unique_ptr: by the address of the object. */
template <class T> struct by_unique_ptr {
    using object = T;
    using pointer = std::unique_ptr<T>;
    static void *offered(const pointer &owner) noexcept { return const_cast<std::remove_cv_t<T> *>(owner.get()); }
    static void stored(pointer &owner) noexcept { (void)owner.release(); }
    static void refused(void *) noexcept {}
    static void kept(pointer &owner) noexcept { (void)owner.release(); }
    static void release(void *owner, void *) noexcept { delete object_of(owner); }
    static T *object_of(void *owner) noexcept { return static_cast<T *>(owner); }
};

/* What a loan reaches its handle by, also after the handle was moved. */
struct lending_handle {
    congee_live_owners *map = nullptr;
    /* How many loans were made. */
    std::uint64_t loans = 0;
    lending_handle() = default;
    lending_handle(const lending_handle &) = delete;
    lending_handle &operator=(const lending_handle &) = delete;
    ~lending_handle() { congee_live_owners_free(map); }
};

/* A handle of a map of objects that threads share, an object for each thread. A copy is one more handle, of which a map has 64
 * at most. Copying is a call of the first handle, so a thread's copy is made before the thread starts. Calls wait while they
 * are busy (congee_owners.h).
 *
 * Several threads may read an object at once. The map destroys an object that was removed or replaced once no handle has the
 * object lent: within a call of any handle, on that call's thread, outside of any lock. The destructor may call the map by
 * other handles. The last handle of a map destroys all objects that are left. */
template <class P> class owner_handle {
public:
    using key_type = std::uint64_t;
    using mapped_type = typename P::pointer;
    using native_type = congee_live_owners;
    using object = typename P::object;
    using pointer = typename P::pointer;

    owner_handle() : owner_handle(UINT64_MAX) {}
    /* A map whose nodes take at most `limit` bytes together (congee_live_owners_new_with_limit). */
    explicit owner_handle(std::uint64_t limit) : handle_(new lending_handle) {
        made(congee_live_owners_new_with_limit(&handle_->map, limit, nullptr, P::release, nullptr));
    }
    /* Makes one more handle, or throws std::length_error if the map has 64 handles. */
    owner_handle(const owner_handle &other) : handle_(new lending_handle) {
        const int code = congee_live_owners_another(other.handle_->map, &handle_->map);
        code == CONGEE_FULL ? full() : void(made(code));
    }
    owner_handle(owner_handle &&other) noexcept = default;
    owner_handle &operator=(const owner_handle &other) { return *this = owner_handle(other); }
    owner_handle &operator=(owner_handle &&other) noexcept = default;

    /* An object that the handle has lent, or none. Nobody destroys the object until the loan ends, whoever removes the key. A
     * loan ends when it is destroyed, and with the handle's next call that looks up or changes a key. After that call the
     * object isn't read by the loan any more. A loan is used by the thread of its handle, and while the handle lasts. */
    class loan {
    public:
        loan() = default;
        loan(loan &&other) noexcept
            : from_(std::exchange(other.from_, nullptr)), number_(other.number_), key_(other.key_), ticket_(other.ticket_),
              owner_(std::exchange(other.owner_, nullptr)) {}
        loan &operator=(loan other) noexcept {
            std::swap(from_, other.from_);
            std::swap(number_, other.number_);
            std::swap(key_, other.key_);
            std::swap(ticket_, other.ticket_);
            std::swap(owner_, other.owner_);
            return *this;
        }
        ~loan() {
            /* (the next loan has ended this one, and isn't ended by it) */
            if (from_ && from_->loans == number_)
                congee_live_owners_return(from_->map);
        }
        /* Whether there is an object. */
        explicit operator bool() const { return owner_ != nullptr; }
        object &operator*() const { return *get(); }
        object *operator->() const { return get(); }
        object *get() const { return P::object_of(owner_); }
        std::uint64_t key() const { return key_; }
        /* The ticket of the insertion that stored the object, by which compare_exchange replaces the object. */
        std::uint64_t ticket() const { return ticket_; }
        /* Returns a further owner, which outlives the loan, or null if there is no object. live_owners alone has this call. */
        pointer shared() const { return P::shared(owner_); }

    private:
        friend class owner_handle;
        loan(lending_handle *from, std::uint64_t key, std::uint64_t ticket, void *owner)
            : from_(from), number_(++from->loans), key_(key), ticket_(ticket), owner_(owner) {}
        lending_handle *from_ = nullptr;
        std::uint64_t number_ = 0, key_ = 0, ticket_ = 0;
        void *owner_ = nullptr;
    };

    /* Lends the key's object, or returns none if the key is absent. Takes no lock and no memory. */
    loan borrow(std::uint64_t key) {
        void *owner = nullptr;
        std::uint64_t ticket = 0;
        if (congee_live_owners_borrow(handle_->map, key, &owner, &ticket) != CONGEE_PRESENT)
            return loan();
        return loan(handle_.get(), key, ticket, owner);
    }
    bool contains(std::uint64_t key) { return congee_live_owners_get(handle_->map, key, nullptr) != CONGEE_ABSENT; }
    /* Stores the object at the key, and returns whether the key is new. The owner that is handed in isn't null. The owner is
     * null afterwards, and unchanged if the call throws. (A std::unique_ptr may be null then, too: the library keeps the object
     * for a while, and a later call destroys the object. No test of the library has met that.) */
    bool insert_or_assign(std::uint64_t key, pointer &&owner) {
        return made(try_insert_or_assign(key, std::move(owner))) == CONGEE_ABSENT;
    }
    /* Stores the object at the key. Returns CONGEE_ABSENT for a new key, CONGEE_PRESENT for a present key, or CONGEE_OOM with
     * no key changed. If the object is stored, the owner that is handed in is null afterwards, and otherwise unchanged. */
    int try_insert_or_assign(std::uint64_t key, pointer &&owner) noexcept {
        congee_lent before = {0, 0};
        const int code = offer(
            owner, [](int returned) { return returned >= 0; },
            [key, &before](congee_live_owners_handle *handle, std::uint64_t offered) {
                return congee_c_live_owners_insert(handle, key, offered, &before);
            });
        if (code <= 0)
            return code;
        congee_live_owners_return(handle_->map);
        return CONGEE_PRESENT;
    }
    /* Lends the key's object, and leaves the owner that is handed in unchanged. If the key is absent, stores that owner, which
     * is null afterwards, and returns none. Of several handles that insert one absent key at once, the first gets none. */
    loan get_or_insert(std::uint64_t key, pointer &&owner) {
        congee_lent present = {0, 0};
        const int code = made(offer(
            owner, [](int returned) { return returned == CONGEE_ABSENT; },
            [key, &present](congee_live_owners_handle *handle, std::uint64_t offered) {
                return congee_c_live_owners_get_or_insert(handle, key, offered, &present);
            }));
        return lent(key, code, present);
    }
    /* Replaces the key's object and returns true, if the key still has this ticket (loan::ticket). The owner that is handed in
     * is null then. Otherwise returns false, and leaves the owner unchanged. The ticket decides, and not the address: after a
     * removal and an insertion of one object the key has another ticket. */
    bool compare_exchange(std::uint64_t key, std::uint64_t ticket, pointer &&owner) {
        congee_lent before = {0, 0};
        const int code = made(offer(
            owner, is_replaced,
            [key, ticket, &before](congee_live_owners_handle *handle, std::uint64_t offered) {
                return congee_c_live_owners_compare_exchange(handle, key, ticket, offered, &before);
            }));
        if (!is_replaced(code))
            return false;
        congee_live_owners_return(handle_->map);
        return true;
    }
    /* Removes the key. Returns whether the key was present. */
    bool erase(std::uint64_t key) { return congee_live_owners_remove(handle_->map, key, nullptr) != CONGEE_ABSENT; }
    /* Removes the key and returns true, if the key still has this ticket (loan::ticket). Otherwise returns false. */
    bool compare_erase(std::uint64_t key, std::uint64_t ticket) {
        return congee_live_owners_compare_remove(handle_->map, key, ticket, nullptr) == CONGEE_PRESENT;
    }
    /* Removes the key, and lends the removed object, or returns none if the key was absent. (None, too, if the library can't
     * lend the object, which no test has met.) */
    loan take(std::uint64_t key) {
        congee_live_owners *map = handle_->map;
        congee_lent before = {0, 0};
        int code;
        congee_owners_tidy(map);
        while ((code = congee_c_live_owners_remove(&map->handle, key, &before)) == CONGEE_BUSY)
            CONGEE_YIELD();
        return lent(key, code, before);
    }
    /* Finds the least key (first), the greatest key (last), the least key from `key` on (ceiling) or above `key`, or the
     * greatest key up to `key` (floor) or below `key`. Lends the key's object, or returns none if the call found no such key.
     * loan::key has the key. The key had that object at a moment of the call, and no key between the two was present
     * throughout the call. Takes no lock and no memory. */
    loan first() { return found(congee_live_owners_first); }
    loan last() { return found(congee_live_owners_last); }
    loan ceiling(std::uint64_t key) { return found(congee_live_owners_ceiling, key); }
    loan above(std::uint64_t key) { return found(congee_live_owners_above, key); }
    loan floor(std::uint64_t key) { return found(congee_live_owners_floor, key); }
    loan below(std::uint64_t key) { return found(congee_live_owners_below, key); }
    /* Calls the function with each key from first to last, keys ascending, and with a reference to the key's object. The call
     * reads pages of 16 keys, then 256 each. Each key is read at a moment of its own, and each key that is present throughout
     * the call is among them. The object is lent while the function runs, until the function calls the map by this handle. */
    template <class F> void each(std::uint64_t first, std::uint64_t last, F f) {
        const loan visited = of_visits();
        congee_live_owners_each(handle_->map, first, last, visit<F>, &f);
    }
    template <class F> void each(F f) { each(0, UINT64_MAX, f); }
    /* Calls the function with each key from last down to first, keys descending, and with a reference to the key's object. The
     * call is as `each` otherwise. */
    template <class F> void each_descending(std::uint64_t first, std::uint64_t last, F f) {
        const loan visited = of_visits();
        congee_live_owners_each_descending(handle_->map, first, last, visit<F>, &f);
    }
    template <class F> void each_descending(F f) { each_descending(0, UINT64_MAX, f); }
    /* Returns the keys from first to last, keys ascending. The call reads pages as `each` does. */
    std::vector<std::uint64_t> keys(std::uint64_t first = 0, std::uint64_t last = UINT64_MAX) {
        std::vector<std::uint64_t> all;
        each(first, last, [&all](std::uint64_t key, const object &) { all.push_back(key); });
        return all;
    }
    /* Returns whether the map has no key, and how many keys the map has. The count is exact where no other thread writes. */
    bool empty() { return congee_live_owners_is_empty(handle_->map); }
    std::uint64_t size() { return congee_live_owners_count(handle_->map); }
    /* Removes all keys, one by one, and destroys the objects that no handle has lent. */
    void clear() { congee_live_owners_clear(handle_->map); }
    /* Gives up the map's owner of each object that left the map by this handle, or by a handle that was freed, and that no
     * handle has lent. Returns how many owners. Insertions and removals make this call, once 64 owners wait. */
    std::uint64_t reclaim() { return congee_live_owners_reclaim(handle_->map); }
    /* The bytes that count against the limit, and the limit, UINT64_MAX for none. */
    std::uint64_t charged() { return usage().first; }
    std::uint64_t limit() { return congee_live_owners_limit(handle_->map); }
    /* The bytes that count against the limit, and the limit, as a pair. */
    pair usage() {
        pair it = {0, 0};
        congee_live_owners_usage(handle_->map, &it.first, &it.second);
        return it;
    }
    /* Orders two handles of one map in time: both have then seen all that either had seen. */
    void meet(owner_handle &other) { congee_live_owners_meet(handle_->map, other.handle_->map); }
    /* Returns the handle in C, for calls that the class doesn't have. A loan that was made before isn't used any more. */
    native_type *native() {
        handle_->loans++;
        return handle_->map;
    }

private:
    /* What the library returns beside the codes of congee.h: an owner was replaced, and isn't lent. Or an owner wasn't stored,
     * and the library keeps that owner for a while. */
    enum : int { unlent = 2, oom_kept = -4, busy_kept = -5, other_kept = 3 };
    static bool is_replaced(int code) noexcept { return code == CONGEE_PRESENT || code == unlent; }

    /* The loan of a search of the header, from `key` if it takes one. */
    template <class F, class... K> loan found(F search, K... key) {
        std::uint64_t at = 0, ticket = 0;
        void *owner = nullptr;
        if (search(handle_->map, key..., &at, &owner, &ticket) != CONGEE_PRESENT)
            return loan();
        return loan(handle_.get(), at, ticket, owner);
    }
    /* Ends the loan of a visit whose function throws. (The loan has no object itself.) */
    loan of_visits() { return loan(handle_.get(), 0, 0, nullptr); }
    template <class F> static int visit(std::uint64_t key, void *owner, void *f) {
        (*static_cast<F *>(f))(key, *P::object_of(owner));
        return 0;
    }
    /* The loan of a call that returned this code. */
    loan lent(std::uint64_t key, int code, const congee_lent &found) {
        if (code != CONGEE_PRESENT)
            return loan();
        return loan(handle_.get(), key, found.ticket, reinterpret_cast<void *>(static_cast<std::uintptr_t>(found.owner)));
    }
    /* Hands an owner to a call of the library, and again while the call is busy. `stores` decides by the code whether the owner
     * is stored. Returns the code. */
    template <class S, class F> int offer(pointer &owner, S stores, F call) noexcept {
        congee_live_owners *map = handle_->map;
        congee_owners_tidy(map);
        void *offered = P::offered(owner);
        while (offered) {
            const int code = call(&map->handle, static_cast<std::uint64_t>(reinterpret_cast<std::uintptr_t>(offered)));
            if (stores(code)) {
                P::stored(owner);
                return code;
            }
            if (code != CONGEE_BUSY) {
                code == oom_kept || code == busy_kept || code == other_kept ? P::kept(owner) : P::refused(offered);
                if (code != busy_kept)
                    return code == oom_kept ? CONGEE_OOM : code;
                offered = P::offered(owner);
            }
            CONGEE_YIELD();
        }
        return CONGEE_OOM;
    }

    std::unique_ptr<lending_handle> handle_;
};

} // namespace inner

/* A map from keys to objects that threads share. Look-ups take no lock (congee_owners.h). The map has a std::shared_ptr of its
 * own to each object, and each takes a block of memory. */
template <class T> class live_owners : public inner::owner_handle<inner::by_shared_ptr<T>> {
    using base = inner::owner_handle<inner::by_shared_ptr<T>>;

public:
    using base::base;
    using base::compare_exchange, base::get_or_insert, base::insert_or_assign, base::try_insert_or_assign;

    /* Returns a further owner of the key's object, or null if the key is absent. Takes no lock and no memory. */
    std::shared_ptr<T> get(std::uint64_t key) { return this->borrow(key).shared(); }
    /* These calls store a copy of the owner. */
    bool insert_or_assign(std::uint64_t key, const std::shared_ptr<T> &owner) {
        return insert_or_assign(key, std::shared_ptr<T>(owner));
    }
    int try_insert_or_assign(std::uint64_t key, const std::shared_ptr<T> &owner) noexcept {
        return try_insert_or_assign(key, std::shared_ptr<T>(owner));
    }
    typename base::loan get_or_insert(std::uint64_t key, const std::shared_ptr<T> &owner) {
        return get_or_insert(key, std::shared_ptr<T>(owner));
    }
    bool compare_exchange(std::uint64_t key, std::uint64_t ticket, const std::shared_ptr<T> &owner) {
        return compare_exchange(key, ticket, std::shared_ptr<T>(owner));
    }
};

/* A map from keys to objects that threads share. Look-ups take no lock (congee_owners.h). The map alone owns an object, which
 * is reached by loans. */
template <class T> class live_boxes : public inner::owner_handle<inner::by_unique_ptr<T>> {
    using base = inner::owner_handle<inner::by_unique_ptr<T>>;

public:
    using base::base;
};

} // namespace congee_cpp

#endif

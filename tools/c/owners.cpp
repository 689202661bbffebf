// The classes of maps of objects of congee.hpp, over objects that count how many were made and destroyed. After each part as many
// are destroyed as were made.
//   - each call by hand, of std::shared_ptr and of std::unique_ptr, and after each how many objects are left
//   - ends, neighbours and visits, and that what they lend isn't destroyed
//   - loans: they outlive a removal and a move of their handle, and end with the handle's next call. One that has ended by then
//     doesn't end the next one
//   - what a refused insertion was handed is the caller's still. 64 handles, and no more
//   - four threads make all calls at 16 keys. No thread sees an object of another thread at a key after a later one of that thread
//   - counters that are raised by exchanges lose nothing. Handles that end on several threads at once
//
//     c++ -std=c++17 -Iinclude tools/c/owners.cpp out/c-library/libcongee.a -pthread -o owners && ./owners
//
// Over the stand-in (tools/rust/standin.cpp) `owners stand-in` leaves out what that never refuses, `owners threads` makes the calls
// of the threads alone, each of which may be refused, and `owners kept` meets owners that the library keeps.
#include "congee.hpp"
#include <array>
#include <atomic>
#include <cstdio>
#include <cstdlib>
#include <cstring>
#include <memory>
#include <random>
#include <stdexcept>
#include <thread>
#include <type_traits>
#include <vector>

#define CHECK(is_so)                                                                                                   \
    do {                                                                                                               \
        if (!(is_so)) {                                                                                                \
            std::fprintf(stderr, "%s:%d: %s\n", __FILE__, __LINE__, #is_so);                                           \
            std::exit(1);                                                                                              \
        }                                                                                                              \
    } while (0)

static std::atomic<long> made{0}, destroyed{0};

// An object, which knows whether it is there.
struct counted {
    const std::uint64_t key, number;
    std::atomic<unsigned> mark{0x5eed};
    counted(std::uint64_t of, std::uint64_t n) : key(of), number(n) { made++; }
    counted(const counted &) = delete;
    counted &operator=(const counted &) = delete;
    virtual ~counted() {
        CHECK(mark.exchange(0) == 0x5eed);
        destroyed++;
    }
    // The number, of an object of this key.
    std::uint64_t read(std::uint64_t of) const {
        CHECK(mark == 0x5eed && key == of);
        return number;
    }
};

struct derived : counted {
    derived() : counted(7, 70) {}
};

using shared = congee_cpp::live_owners<counted>;
using boxes = congee_cpp::live_boxes<counted>;

template <class M> constexpr bool is_shared = std::is_same_v<typename M::pointer, std::shared_ptr<counted>>;
static_assert(is_shared<shared> && !is_shared<boxes>);
static_assert(std::is_nothrow_move_constructible_v<shared> && std::is_copy_constructible_v<boxes>);
static_assert(std::is_nothrow_move_assignable_v<shared> && !std::is_nothrow_copy_assignable_v<boxes>);
static_assert(std::is_nothrow_move_constructible_v<shared::loan> && !std::is_copy_constructible_v<boxes::loan>);

template <class M> static typename M::pointer fresh(std::uint64_t key, std::uint64_t number) {
    return typename M::pointer(new counted(key, number));
}

static long left() { return made - destroyed; }

// Whether a call throws, and nothing else than that.
template <class E, class F> static bool throws(F call) {
    try {
        call();
    } catch (const E &) {
        return true;
    }
    return false;
}

template <class M> static void by_hand() {
    M map;
    auto mine = fresh<M>(7, 1);
    CHECK(!map.borrow(7) && !map.contains(7) && !map.erase(7) && !map.take(7) && map.reclaim() == 0);
    CHECK(!map.compare_exchange(7, 0, std::move(mine)) && mine && !map.contains(7));
    CHECK(map.insert_or_assign(7, std::move(mine)) && !mine && map.contains(7) && left() == 1);
    const std::uint64_t first = map.borrow(7).ticket();
    CHECK(map.borrow(7)->read(7) == 1 && (*map.borrow(7)).number == 1 && map.borrow(7).get()->key == 7);
    CHECK(map.borrow(7).key() == 7 && map.borrow(7).ticket() == first);
    // (what was replaced goes with the map's next look, since nobody has it lent)
    CHECK(!map.insert_or_assign(7, fresh<M>(7, 2)) && map.reclaim() == 1 && left() == 1);
    mine = fresh<M>(7, 3);
    CHECK(!map.compare_exchange(7, first, std::move(mine)) && mine && map.borrow(7)->number == 2);
    {
        const auto present = map.get_or_insert(7, std::move(mine));
        CHECK(present && mine && present->number == 2 && present.ticket() != first && present.key() == 7);
        CHECK(map.compare_exchange(7, present.ticket(), std::move(mine)) && !mine);
    }
    CHECK(map.reclaim() == 1 && map.borrow(7)->number == 3 && left() == 1);
    CHECK(!map.get_or_insert(UINT64_MAX, fresh<M>(UINT64_MAX, 4)) && map.borrow(UINT64_MAX)->number == 4);
    CHECK(map.try_insert_or_assign(8, fresh<M>(8, 5)) == CONGEE_ABSENT);
    CHECK(map.try_insert_or_assign(8, fresh<M>(8, 6)) == CONGEE_PRESENT && map.reclaim() == 1 && left() == 3);
    {
        const auto gone = map.take(8);
        CHECK(gone->read(8) == 6 && map.reclaim() == 0 && gone->read(8) == 6);
    }
    CHECK(map.reclaim() == 1 && left() == 2 && !map.contains(8));
    const std::uint64_t last = map.borrow(7).ticket();
    CHECK(!map.compare_erase(7, first) && !map.compare_erase(8, last) && map.contains(7) && map.borrow(7).ticket() == last);
    CHECK(map.compare_erase(7, last) && !map.compare_erase(7, last) && !map.contains(7) && map.reclaim() == 1 && left() == 1);
    CHECK(map.insert_or_assign(7, fresh<M>(7, 7)) && left() == 2);
    CHECK(map.erase(7) && !map.erase(7) && map.reclaim() == 1 && left() == 1);
    CHECK(map.limit() == UINT64_MAX && map.charged() > 0 && map.usage() == congee_cpp::pair(map.charged(), UINT64_MAX));
    CHECK(congee_live_owners_get(map.native(), UINT64_MAX, nullptr) == CONGEE_PRESENT);
    map.clear();
    CHECK(left() == 0 && !map.contains(UINT64_MAX));
    CHECK(map.insert_or_assign(1, fresh<M>(1, 7)));
    const M other = map;
    map = M();
    CHECK(left() == 1 && !map.contains(1));
}

// Objects that were taken out wait until there are 64, and the next call takes them back. With `more` the call stores one, too.
template <class M, class F> static void waits(long more, F call) {
    M map;
    for (std::uint64_t key = 0; key < 65; key++)
        map.insert_or_assign(key, fresh<M>(key, 0));
    for (std::uint64_t key = 0; key < 64; key++)
        call(map, key);
    CHECK(left() == 65 + 64 * more);
    call(map, 64);
    CHECK(left() == 65 + 65 * more - 64);
}

template <class M> static void waiting() {
    waits<M>(1, [](M &map, std::uint64_t key) { map.insert_or_assign(key, fresh<M>(key, 1)); });
    waits<M>(1, [](M &map, std::uint64_t key) { map.compare_exchange(key, map.borrow(key).ticket(), fresh<M>(key, 1)); });
    waits<M>(0, [](M &map, std::uint64_t key) { map.take(key); });
    waits<M>(0, [](M &map, std::uint64_t key) { map.erase(key); });
    waits<M>(0, [](M &map, std::uint64_t key) { map.compare_erase(key, map.borrow(key).ticket()); });
}

template <class M> static void loans() {
    M one, other = one;
    for (std::uint64_t key = 1; key <= 3; key++)
        CHECK(one.insert_or_assign(key, fresh<M>(key, 10 * key)));
    // A loan outlives a removal, and a move of itself and of its handle.
    auto loan = one.borrow(1);
    CHECK(other.erase(1) && other.reclaim() == 0 && !other.contains(1) && loan->read(1) == 10);
    auto taken = std::move(loan);
    M moved = std::move(one);
    CHECK(!loan && taken && other.reclaim() == 0 && taken->read(1) == 10);
    taken = typename M::loan();
    CHECK(other.reclaim() == 1 && left() == 2);
    // A loan that ends after the next one was made doesn't end that.
    loan = moved.borrow(2);
    loan = moved.borrow(3);
    CHECK(loan.key() == 3 && loan.ticket() == other.borrow(3).ticket());
    CHECK(other.erase(3) && other.reclaim() == 0 && loan->read(3) == 30);
    CHECK(other.erase(2) && other.reclaim() == 1 && left() == 1);
    // After a look-up that finds nothing the end of a loan is still an end.
    CHECK(!moved.contains(9) && other.reclaim() == 0);
    loan = typename M::loan();
    CHECK(other.reclaim() == 1 && left() == 0);
    // A loan of the class doesn't end one that is made in C.
    CHECK(moved.insert_or_assign(1, fresh<M>(1, 1)) && moved.insert_or_assign(2, fresh<M>(2, 2)));
    loan = moved.borrow(1);
    CHECK(congee_live_owners_borrow(moved.native(), 2, nullptr, nullptr) == CONGEE_PRESENT);
    loan = typename M::loan();
    CHECK(other.erase(2) && other.reclaim() == 0);
    congee_live_owners_return(moved.native());
    CHECK(other.reclaim() == 1 && other.erase(1) && other.reclaim() == 1 && left() == 0);
    // A loan ends with the handle's next call that finds a key.
    for (int call = 0; call < 8; call++) {
        CHECK(moved.insert_or_assign(1, fresh<M>(1, 1)) && moved.insert_or_assign(2, fresh<M>(2, 2)));
        const std::uint64_t ticket = other.borrow(2).ticket();
        loan = moved.borrow(1);
        CHECK(other.erase(1) && other.reclaim() == 0);
        call == 0   ? void(moved.borrow(2))
        : call == 1 ? void(moved.contains(2))
        : call == 2 ? void(moved.erase(2))
        : call == 3 ? void(moved.take(2))
        : call == 4 ? void(moved.get_or_insert(2, fresh<M>(2, 3)))
        : call == 5 ? void(moved.compare_exchange(2, ticket, fresh<M>(2, 3)))
        : call == 6 ? void(moved.insert_or_assign(2, fresh<M>(2, 3)))
                    : void(moved.clear());
        CHECK(other.reclaim() == (call < 7) && moved.reclaim() == (call == 2 || call == 3 || call == 5 || call == 6));
        CHECK(other.contains(2) == (call != 2 && call != 3 && call != 7));
        other.clear();
        CHECK(left() == 0);
    }
    other.meet(moved);
    other.meet(other);
    CHECK(moved.insert_or_assign(2, fresh<M>(2, 2)) && other.borrow(2)->read(2) == 2);
    loan = typename M::loan();
}

// Keys in their order, and their objects.
template <class M> static void in_order() {
    M map, other = map;
    using numbers = std::vector<std::uint64_t>;
    CHECK(!map.first() && !map.last() && !map.ceiling(0) && !map.floor(UINT64_MAX) && map.empty() && map.size() == 0);
    for (const std::uint64_t key : {9u, 5u, 7u})
        map.insert_or_assign(key, fresh<M>(key, 10 * key));
    map.insert_or_assign(UINT64_MAX, fresh<M>(UINT64_MAX, 1));
    CHECK(map.first().key() == 5 && map.first()->read(5) == 50 && map.last()->read(UINT64_MAX) == 1);
    CHECK(map.last().key() == UINT64_MAX);
    CHECK(map.ceiling(6)->read(7) == 70 && map.ceiling(7).key() == 7 && map.above(7)->read(9) == 90 && !map.above(UINT64_MAX));
    CHECK(map.floor(8)->read(7) == 70 && map.floor(7).key() == 7 && map.below(7)->read(5) == 50 && !map.below(5) && !map.floor(4));
    CHECK(map.ceiling(6).ticket() == map.borrow(7).ticket() && !map.empty() && map.size() == 4);
    CHECK(map.keys() == (numbers{5, 7, 9, UINT64_MAX}) && map.keys(6, 9) == (numbers{7, 9}) && map.keys(9, 6).empty());
    {
        // (a search lends)
        const auto loan = map.above(5);
        CHECK(other.erase(7) && other.reclaim() == 0 && loan->read(7) == 70);
    }
    CHECK(other.reclaim() == 1 && left() == 3);
    for (std::uint64_t key = 0; key < 300; key++)
        map.insert_or_assign(key << 30, fresh<M>(key << 30, key));
    std::uint64_t next = 10, count = 0;
    map.each(std::uint64_t{10} << 30, std::uint64_t{209} << 30, [&](std::uint64_t key, counted &it) {
        CHECK(key == next << 30 && it.read(key) == next);
        next++;
        // (what is lent isn't destroyed, and what is gone isn't visited)
        if (next % 2)
            CHECK(other.erase(key) && other.reclaim() == (count > 0));
        count++;
    });
    CHECK(next == 210 && count == 200 && other.reclaim() == 1 && map.size() == 203);
    next = UINT64_MAX;
    map.each_descending([&next](std::uint64_t key, const counted &it) {
        CHECK((next == UINT64_MAX || key < next) && it.read(key) <= 300);
        next = key;
    });
    CHECK(next == 0 && map.keys().size() == 203);
    map.each_descending(7, 6, [](std::uint64_t, counted &) { CHECK(false); });
    // (no loan is left of a function that throws, and one that was made before isn't that of a visit)
    auto before = map.first();
    CHECK(throws<std::out_of_range>([&] { map.each([](std::uint64_t, counted &) { throw std::out_of_range("first"); }); }));
    CHECK(other.erase(0) && other.reclaim() == 1 && map.size() == 202);
    map.each([&](std::uint64_t key, counted &it) {
        before = typename M::loan();
        CHECK(key >= 5);
        if (key == 5)
            CHECK(other.erase(5) && other.reclaim() == 0 && it.read(5) == 50);
    });
    CHECK(other.reclaim() == 1);
}

// Counts of references, and what only a std::shared_ptr can do.
static void references() {
    std::shared_ptr<counted> held = std::make_shared<derived>(), more;
    {
        shared map, other = map;
        CHECK(!map.get(7) && map.insert_or_assign(7, held) && held.use_count() == 2);
        more = other.get(7);
        CHECK(more == held && held.use_count() == 3 && other.borrow(7).shared() == held && !other.borrow(8).shared());
        // (one object at several keys)
        CHECK(map.insert_or_assign(8, held) && map.try_insert_or_assign(9, held) == CONGEE_ABSENT && held.use_count() == 5);
        {
            const auto present = other.get_or_insert(8, held);
            CHECK(present.get() == held.get() && held.use_count() == 5);
            // (a ticket is of one insertion, also of an object that is stored again)
            CHECK(map.erase(8) && map.insert_or_assign(8, held) && !map.compare_exchange(8, present.ticket(), held));
            CHECK(map.compare_exchange(8, map.borrow(8).ticket(), held) && held.use_count() == 7);
            CHECK(map.reclaim() == 1 && held.use_count() == 6);
        }
        CHECK(map.reclaim() == 1 && held.use_count() == 5 && left() == 1);
        CHECK(map.insert_or_assign(6, std::make_shared<derived>()) && map.take(6).shared()->number == 70);
        map.clear();
        CHECK(held.use_count() == 2 && map.insert_or_assign(7, std::move(held)) && !held);
    }
    CHECK(more.use_count() == 1 && more->read(7) == 70);
    more.reset();
    congee_cpp::live_owners<const int> numbers;
    CHECK(numbers.insert_or_assign(1, std::make_shared<int>(10)) && *numbers.get(1) == 10);
    congee_cpp::live_boxes<const int> boxed;
    CHECK(boxed.insert_or_assign(1, std::make_unique<int>(10)) && *boxed.borrow(1) == 10);
}

// A destructor calls the map by another handle, but not within that handle's own call.
struct calls_back {
    static congee_cpp::live_boxes<calls_back> *by;
    static bool is_within;
    counted it;
    explicit calls_back(std::uint64_t key) : it(key, 0) {}
    ~calls_back() {
        if (!by || is_within)
            return;
        is_within = true;
        by->erase(it.key ^ 1);
        is_within = false;
    }
};
congee_cpp::live_boxes<calls_back> *calls_back::by;
bool calls_back::is_within;

static void destructors() {
    congee_cpp::live_boxes<calls_back> map, other = map;
    for (std::uint64_t key = 0; key < 200; key++)
        CHECK(map.insert_or_assign(key, std::make_unique<calls_back>(key)));
    calls_back::by = &other;
    for (std::uint64_t key = 0; key < 200; key += 2)
        CHECK(map.erase(key));
    map.reclaim();
    // (most took their neighbour with them, but those that were destroyed within the other handle's calls)
    int stayed = 0;
    for (std::uint64_t key = 0; key < 200; key++)
        stayed += map.contains(key);
    CHECK(stayed < 80);
    calls_back::by = nullptr;
}

// An object that has a map of its own kind.
struct node {
    congee_cpp::live_owners<node> below;
    counted it{0, 0};
};

static void nodes() {
    congee_cpp::live_owners<node> root;
    auto inner = std::make_shared<node>();
    inner->below.insert_or_assign(8, std::make_shared<node>());
    root.insert_or_assign(7, std::move(inner));
    CHECK(root.get(7)->below.borrow(8)->below.empty() && left() == 2);
}

template <class M> static void refusals() {
    CHECK(throws<std::bad_alloc>([] { M(4095); }));
    // (the first handle has what is left of the one segment)
    M first(4096), map(first);
    auto mine = fresh<M>(7, 70);
    const counted *address = mine.get();
    CHECK(throws<std::bad_alloc>([&] { map.insert_or_assign(7, std::move(mine)); }) && mine.get() == address);
    CHECK(throws<std::bad_alloc>([&] { map.get_or_insert(7, std::move(mine)); }) && mine.get() == address);
    CHECK(map.try_insert_or_assign(7, std::move(mine)) == CONGEE_OOM && mine.get() == address && !map.contains(7));
    CHECK(map.limit() == 4096 && map.charged() <= 4096 && mine->read(7) == 70 && left() == 1);
}

// Over the stand-in that keeps each owner that isn't stored: a std::shared_ptr is the caller's still, also where the call is busy
// and is made again. What a std::unique_ptr had is the library's.
template <class M> static void kept() {
    M map, tight(4096);
    typename M::pointer mine;
    bool is_replaced = true;
    auto until_made = [&mine](auto call) {
        do
            mine = fresh<M>(7, 1);
        while (throws<std::bad_alloc>(call) && !mine && !is_shared<M>);
    };
    until_made([&] { map.insert_or_assign(7, std::move(mine)); });
    CHECK(!mine && map.contains(7));
    until_made([&] { is_replaced = map.compare_exchange(7, UINT64_MAX, std::move(mine)); });
    CHECK(!is_replaced && (mine != nullptr) == is_shared<M>);
    mine = fresh<M>(7, 2);
    CHECK(throws<std::bad_alloc>([&] { tight.insert_or_assign(7, std::move(mine)); }) && (mine != nullptr) == is_shared<M>);
}

template <class M> static void at_a_limit() {
    M map(100000);
    std::uint64_t stored = 0;
    auto next = fresh<M>(0, 0);
    while (stored < 5000 && map.try_insert_or_assign(stored << 40, std::move(next)) == CONGEE_ABSENT) {
        stored++;
        next = fresh<M>(stored << 40, stored);
    }
    CHECK(stored > 10 && stored < 5000 && next->number == stored && left() == static_cast<long>(stored) + 1);
    CHECK(throws<std::bad_alloc>([&] { map.insert_or_assign(stored << 40, std::move(next)); }) && next->number == stored);
    CHECK(map.charged() <= 100000 && map.charged() > 25000 && map.limit() == 100000);
    // (a present key needs no node)
    CHECK(!map.insert_or_assign(0, std::move(next)) && map.borrow(0)->number == stored && map.erase(std::uint64_t{1} << 40));
    CHECK(map.insert_or_assign(std::uint64_t{1} << 40, fresh<M>(std::uint64_t{1} << 40, 1)));
}

template <class M> static void handles() {
    std::vector<M> all(1);
    for (int i = 1; i < 64; i++) {
        const M &of = all[i / 2];
        M one = of;
        all.push_back(std::move(one));
    }
    CHECK(throws<std::length_error>([&] { M more = all[7]; }) && throws<std::length_error>([&] { all[3] = all[7]; }));
    for (std::uint64_t i = 0; i < 64; i++)
        CHECK(all[i].insert_or_assign(i, fresh<M>(i, i)));
    std::vector<typename M::loan> lent;
    for (std::uint64_t i = 0; i < 64; i++)
        lent.push_back(all[i].borrow(i * 7 % 64));
    for (std::uint64_t i = 0; i < 64; i++)
        CHECK(lent[i]->read(i * 7 % 64) == i * 7 % 64);
    CHECK(all[3].erase(5) && all[3].reclaim() == 0);
    lent.clear();
    CHECK(all[3].reclaim() == 1 && left() == 63);
    all.pop_back();
    M again = all[1];
    CHECK(again.borrow(6)->read(6) == 6 && throws<std::length_error>([&] { M more = again; }));
}

constexpr int THREADS = 4, KEYS = 16;
static std::uint64_t turns = 20000;

// Keys of one leaf, and far away.
static std::uint64_t key_of(std::uint64_t place) { return place < 8 ? 250 + place : place == 15 ? UINT64_MAX : place << 40; }

// Runs the function on each thread, with a handle of its own.
template <class M, class F> static void on_threads(M map, F work) {
    std::vector<std::thread> threads;
    for (int id = 0; id < THREADS; id++)
        threads.emplace_back([id, &work, own = map]() mutable { work(own, static_cast<std::uint64_t>(id)); });
    // (another thread's handle is the last one)
    { const M gone = std::move(map); }
    for (std::thread &it : threads)
        it.join();
}

// A thread's calls at a few keys, and of each key and thread the last number that was seen.
template <class M> class caller {
public:
    caller(M &map, std::uint64_t id) : map_(map), id_(id), dice_(id) {}

    void call() {
        const std::uint64_t place = dice_() % KEYS, key = key_of(place);
        try {
            one_of(dice_() % 12, place, key);
        } catch (const std::bad_alloc &) {
            refused_++;
        }
    }
    std::uint64_t refused() const { return refused_; }

private:
    void one_of(std::uint64_t kind, std::uint64_t place, std::uint64_t key) {
        typename M::pointer mine;
        switch (kind) {
        case 0:
            map_.insert_or_assign(key, next(key));
            break;
        case 1:
            mine = next(key);
            // (what isn't stored is the caller's, but for what the library keeps)
            CHECK(map_.try_insert_or_assign(key, std::move(mine)) == CONGEE_OOM || !mine);
            break;
        case 2:
            map_.erase(key);
            break;
        case 3:
            sees(place, map_.take(key));
            break;
        case 4:
            sees(place, map_.get_or_insert(key, next(key)));
            break;
        case 5:
            exchange(place, key);
            break;
        case 6:
            hold(place, key);
            break;
        case 8:
            map_.each([](std::uint64_t found, const counted &it) { CHECK(it.read(found) > 0); });
            break;
        case 9: {
            const auto loan = number_ % 2 ? map_.ceiling(key) : map_.floor(key);
            CHECK(!loan || loan->read(loan.key()) > 0);
            break;
        }
        default: {
            const auto loan = map_.borrow(key);
            sees(place, loan);
            if (kind == 7)
                std::this_thread::yield();
            // (the key may be gone by now)
            CHECK(!loan || loan->mark == 0x5eed);
        }
        }
    }
    typename M::pointer next(std::uint64_t key) { return fresh<M>(key, ++number_ * THREADS + id_); }
    void sees(std::uint64_t place, const typename M::loan &loan) {
        if (!loan)
            return;
        const std::uint64_t number = loan->read(key_of(place));
        CHECK(number >= seen_[place][number % THREADS]);
        seen_[place][number % THREADS] = number;
    }
    void exchange(std::uint64_t place, std::uint64_t key) {
        const auto loan = map_.borrow(key);
        sees(place, loan);
        if (loan)
            map_.compare_exchange(key, loan.ticket(), next(key));
    }
    // An owner is held until the next one is.
    void hold(std::uint64_t place, std::uint64_t key) {
        if constexpr (is_shared<M>) {
            CHECK(!held_ || held_->mark == 0x5eed);
            held_ = map_.get(key);
            CHECK(!held_ || held_->read(key_of(place)) > 0);
        } else {
            kept_ = map_.borrow(key);
            CHECK(!kept_ || kept_->read(key_of(place)) > 0);
        }
    }

    M &map_;
    const std::uint64_t id_;
    std::mt19937_64 dice_;
    std::uint64_t number_ = 0, refused_ = 0;
    std::array<std::array<std::uint64_t, THREADS>, KEYS> seen_{};
    std::shared_ptr<counted> held_;
    typename M::loan kept_;
};

template <class M> static void churn(bool may_be_refused) {
    on_threads(M(), [may_be_refused](M &map, std::uint64_t id) {
        caller<M> it(map, id);
        for (std::uint64_t turn = 0; turn < turns; turn++)
            it.call();
        CHECK(may_be_refused || it.refused() == 0);
    });
    CHECK(left() == 0);
}

template <class M> static void counters() {
    M map;
    for (std::uint64_t key = 0; key < KEYS; key++)
        map.insert_or_assign(key, fresh<M>(key, 0));
    on_threads(map, [](M &own, std::uint64_t) {
        for (std::uint64_t turn = 0; turn < turns / 4; turn++)
            for (bool is_raised = false; !is_raised;) {
                const std::uint64_t key = turn % KEYS;
                const auto loan = own.borrow(key);
                is_raised = own.compare_exchange(key, loan.ticket(), fresh<M>(key, loan->read(key) + 1));
            }
    });
    std::uint64_t sum = 0;
    for (std::uint64_t key = 0; key < KEYS; key++)
        sum += map.borrow(key)->read(key);
    CHECK(sum == THREADS * (turns / 4));
}

// One thread replaces the object of a key that all look up.
template <class M> static void hot_key() {
    M map;
    map.insert_or_assign(7, fresh<M>(7, 0));
    on_threads(map, [](M &own, std::uint64_t id) {
        std::uint64_t last = 0;
        for (std::uint64_t turn = 1; turn <= turns; turn++) {
            if (id == 0)
                CHECK(!own.insert_or_assign(7, fresh<M>(7, turn)));
            const auto loan = own.borrow(7);
            CHECK(loan->read(7) >= last);
            last = loan->number;
        }
        CHECK(id > 0 || last == turns);
    });
    CHECK(map.borrow(7)->number == turns);
}

template <class M> static void ends() {
    for (int i = 0; i < 100; i++) {
        on_threads(M(), [](M &map, std::uint64_t id) {
            for (std::uint64_t key = 0; key < 20; key++) {
                map.insert_or_assign(key, fresh<M>(key, id));
                CHECK(map.borrow(key)->read(key) < THREADS);
            }
        });
        CHECK(left() == 0);
    }
}

template <class F> static void part(F call) {
    call();
    CHECK(left() == 0);
}

template <class M> static void all_of(bool is_stand_in) {
    part(by_hand<M>);
    part(waiting<M>);
    part(loans<M>);
    part(in_order<M>);
    part(refusals<M>);
    if (!is_stand_in)
        part(at_a_limit<M>);
    part(handles<M>);
    churn<M>(false);
    part(counters<M>);
    part(hot_key<M>);
    part(ends<M>);
}

int main(int count, char **words) {
    const char *word = count > 1 ? words[1] : "";
    if (std::strcmp(word, "threads") == 0) {
        churn<shared>(true);
        churn<boxes>(true);
    } else if (std::strcmp(word, "kept") == 0) {
        part(kept<shared>);
        part(kept<boxes>);
    } else {
        const bool is_stand_in = std::strcmp(word, "stand-in") == 0;
        all_of<shared>(is_stand_in);
        all_of<boxes>(is_stand_in);
        part(references);
        part(destructors);
        part(nodes);
    }
    std::printf("%ld objects, each destroyed once\n", made.load());
}

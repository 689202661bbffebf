// A stand-in for libcongee.a over std::map, so that wrappers are tried where each call may be busy or refused, and where it is
// seen that each handle is in one call at a time.
//
//     c++ -std=c++17 -O2 -fPIC -Iinclude -c tools/rust/standin.cpp -o standin.o && ar rcs libcongee.a standin.o
//
// STANDIN_BUSY=N makes each N-th call of a map that threads share busy. STANDIN_OOM=N refuses each N-th call that would make a
// new pair. STANDIN_SLOW=N lets each N-th call return late, so that others come in between what it found and what its caller does
// with that. A handle that is in two calls at once, or is used after it was freed, ends the program by abort. At exit it is an
// error (status 3) if more than STANDIN_LEFT maps or handles are left, or any where that isn't set.
#include "congee.h"
#include "congee_live.h"
#include "congee_shared.h"
#include <atomic>
#include <cstdio>
#include <cstdlib>
#include <map>
#include <memory>
#include <mutex>
#include <unistd.h>

namespace {

using Pairs = std::map<uint64_t, uint64_t>;

std::atomic<long> maps{0}, handles{0};
std::atomic<unsigned long> calls{0}, grown{0}, returned{0};

unsigned long number_of(const char *name) {
    const char *word = getenv(name);
    return word ? strtoul(word, nullptr, 10) : 0;
}

const unsigned long busy_every = number_of("STANDIN_BUSY"), oom_every = number_of("STANDIN_OOM");
const unsigned long slow_every = number_of("STANDIN_SLOW");
const long may_be_left = static_cast<long>(number_of("STANDIN_LEFT"));

struct AtExit {
    ~AtExit() {
        if (maps > may_be_left || handles > may_be_left) {
            fprintf(stderr, "standin: %ld maps and %ld handles are left\n", maps.load(), handles.load());
            _exit(3);
        }
    }
} at_exit;

bool is_busy() { return busy_every && ++calls % busy_every == 0; }
bool is_refused() { return oom_every && ++grown % oom_every == 0; }

[[noreturn]] void broken(const char *what) {
    fprintf(stderr, "standin: %s\n", what);
    abort();
}

// A map, and its limit. It is counted as long as it is there.
struct Store {
    Pairs pairs;
    std::mutex lock;
    const uint64_t limit;
    explicit Store(uint64_t bytes) : limit(bytes) { maps++; }
    ~Store() { maps--; }
};

// What a handle's address points to, of each kind.
struct Held {
    std::shared_ptr<Store> of;
    std::atomic<int> inside{0};
    unsigned mark = 0xA11CE;
    explicit Held(std::shared_ptr<Store> store) : of(std::move(store)) { handles++; }
    ~Held() {
        mark = 0;
        handles--;
    }
};

// A call by a handle. Whoever shares the map comes in one after another.
struct Inside {
    Held &held;
    std::unique_lock<std::mutex> lock;
    explicit Inside(const Held &it) : held(const_cast<Held &>(it)) {
        if (held.mark != 0xA11CE)
            broken("a handle that was freed");
        if (held.inside++ != 0)
            broken("a handle in two calls at once");
        lock = std::unique_lock<std::mutex>(held.of->lock);
    }
    ~Inside() {
        lock.unlock();
        if (slow_every && ++returned % slow_every == 0)
            usleep(20);
        held.inside--;
    }
    Pairs &pairs() { return held.of->pairs; }
};

} // namespace

struct congee : Held {
    using Held::Held;
};
struct congee_frozen : Held {
    using Held::Held;
};
struct congee_shared : Held {
    using Held::Held;
};
struct congee_live : Held {
    using Held::Held;
};

namespace {

// The calls of a map.

int give(const Pairs &pairs, Pairs::const_iterator at, congee_pair *out) {
    if (at == pairs.end())
        return 0;
    *out = {at->first, at->second};
    return 1;
}

int before(const Pairs &pairs, Pairs::const_iterator at, congee_pair *out) {
    return at == pairs.begin() ? 0 : give(pairs, --at, out);
}

int get(const Pairs &p, uint64_t key, uint64_t *out) {
    auto at = p.find(key);
    if (at == p.end())
        return 0;
    *out = at->second;
    return 1;
}

int insert(Pairs &p, uint64_t key, uint64_t value, uint64_t *out) {
    auto at = p.find(key);
    if (at != p.end()) {
        *out = at->second;
        at->second = value;
        return 1;
    }
    if (is_refused())
        return CONGEE_OOM;
    p[key] = value;
    return 0;
}

int take(Pairs &p, uint64_t key, uint64_t *out) {
    auto at = p.find(key);
    if (at == p.end())
        return 0;
    *out = at->second;
    p.erase(at);
    return 1;
}

int compare(Pairs &p, uint64_t key, uint64_t expected, const uint64_t *desired, uint64_t *out) {
    auto at = p.find(key);
    if (at == p.end())
        return 0;
    if (at->second != expected) {
        *out = at->second;
        return 2;
    }
    if (desired)
        at->second = *desired;
    else
        p.erase(at);
    return 1;
}

int add(Pairs &p, uint64_t key, uint64_t n, uint64_t *out) {
    uint64_t it;
    return get(p, key, &it) ? insert(p, key, it + n, out) : insert(p, key, n, out);
}

int get_or_insert(Pairs &p, uint64_t key, uint64_t value, uint64_t *out) {
    return get(p, key, out) ? 1 : insert(p, key, value, out);
}

size_t up(const Pairs &p, uint64_t start, uint64_t last, congee_pair *buffer, size_t n) {
    size_t i = 0;
    for (auto at = p.lower_bound(start); i < n && at != p.end() && at->first <= last; ++at)
        buffer[i++] = {at->first, at->second};
    return i;
}

size_t below_end(const Pairs &p, uint64_t start, uint64_t end, congee_pair *buffer, size_t n) {
    return end == 0 ? 0 : up(p, start, end - 1, buffer, n);
}

size_t down(const Pairs &p, uint64_t start, uint64_t last, congee_pair *buffer, size_t n) {
    size_t i = 0;
    for (auto at = p.upper_bound(last); i < n && at != p.begin() && (--at)->first >= start;)
        buffer[i++] = {at->first, at->second};
    return i;
}

int pop_first(Pairs &p, congee_pair *out) {
    int code = give(p, p.begin(), out);
    if (code)
        p.erase(p.begin());
    return code;
}

int pop_last(Pairs &p, congee_pair *out) {
    int code = before(p, p.end(), out);
    if (code)
        p.erase(out->key);
    return code;
}

int pop_first_to(Pairs &p, uint64_t key, congee_pair *out) {
    return p.empty() || p.begin()->first > key ? 0 : pop_first(p, out);
}

int pop_last_from(Pairs &p, uint64_t key, congee_pair *out) {
    return p.empty() || p.rbegin()->first < key ? 0 : pop_last(p, out);
}

uint64_t remove_range(Pairs &p, uint64_t start, uint64_t last) {
    uint64_t n = p.size();
    if (start <= last)
        p.erase(p.lower_bound(start), p.upper_bound(last));
    return n - p.size();
}

// (a leaf has the keys that differ in the last byte alone)
int remove_some(Pairs &p, uint64_t start, uint64_t last, uint64_t *count, uint64_t *reached) {
    auto at = p.lower_bound(start);
    if (at == p.end() || at->first > last)
        return 0;
    uint64_t leaf = at->first / 256, removed = 0;
    for (; removed < 64 && at != p.end() && at->first <= last && at->first / 256 == leaf; removed++) {
        *reached = at->first;
        at = p.erase(at);
    }
    *count = removed;
    return 1;
}

uint64_t charged(const Pairs &p) { return 2104 + 16 * p.size(); }

} // namespace

// PLAIN and SHARED make a call of a handle's: the second may be busy.
#define PLAIN(handle, field, call)                                                                                     \
    Inside in(*handle->field);                                                                                         \
    Pairs &p = in.pairs();                                                                                             \
    (void)p;                                                                                                           \
    return call;
#define SHARED(handle, call)                                                                                           \
    if (is_busy())                                                                                                     \
        return CONGEE_BUSY;                                                                                            \
    PLAIN(handle, guard, call)

#define KEY uint64_t key
#define OUT uint64_t *out
#define AT congee_pair *out
#define ENDS uint64_t start, uint64_t last, congee_pair *buffer, size_t n

extern "C" {

uint32_t congee_c_version(void) { return CONGEE_VERSION; }

// A map of one thread.

int32_t congee_c_new(uint64_t limit, congee_handle *out) {
    if (limit < 2104)
        return CONGEE_OOM;
    out->map = new congee(std::make_shared<Store>(limit));
    return 0;
}
void congee_c_free(congee_handle h) {
    { Inside in(*h.map); }
    delete h.map;
}
#define MAP(call) PLAIN(h, map, call)
int32_t congee_c_get(congee_const_handle *h, KEY, OUT) { MAP(get(p, key, out)) }
int32_t congee_c_insert(congee_handle *h, KEY, uint64_t value, OUT) { MAP(insert(p, key, value, out)) }
int32_t congee_c_remove(congee_handle *h, KEY, OUT) { MAP(take(p, key, out)) }
int32_t congee_c_compare_exchange(congee_handle *h, KEY, uint64_t expected, uint64_t desired, OUT) {
    MAP(compare(p, key, expected, &desired, out))
}
int32_t congee_c_compare_remove(congee_handle *h, KEY, uint64_t expected, OUT) {
    MAP(compare(p, key, expected, nullptr, out))
}
int32_t congee_c_add(congee_handle *h, KEY, uint64_t number, OUT) { MAP(add(p, key, number, out)) }
int32_t congee_c_get_or_insert(congee_handle *h, KEY, uint64_t value, OUT) { MAP(get_or_insert(p, key, value, out)) }
size_t congee_c_range(congee_const_handle *h, ENDS) { MAP(below_end(p, start, last, buffer, n)) }
size_t congee_c_range_inclusive(congee_const_handle *h, ENDS) { MAP(up(p, start, last, buffer, n)) }
size_t congee_c_range_descending(congee_const_handle *h, ENDS) { MAP(down(p, start, last, buffer, n)) }
int32_t congee_c_first(congee_const_handle *h, AT) { MAP(give(p, p.begin(), out)) }
int32_t congee_c_last(congee_const_handle *h, AT) { MAP(before(p, p.end(), out)) }
int32_t congee_c_floor(congee_const_handle *h, KEY, AT) { MAP(before(p, p.upper_bound(key), out)) }
int32_t congee_c_below(congee_const_handle *h, KEY, AT) { MAP(before(p, p.lower_bound(key), out)) }
int32_t congee_c_ceiling(congee_const_handle *h, KEY, AT) { MAP(give(p, p.lower_bound(key), out)) }
int32_t congee_c_above(congee_const_handle *h, KEY, AT) { MAP(give(p, p.upper_bound(key), out)) }
int32_t congee_c_pop_first(congee_handle *h, AT) { MAP(pop_first(p, out)) }
int32_t congee_c_pop_last(congee_handle *h, AT) { MAP(pop_last(p, out)) }
void congee_c_clear(congee_handle *h) { MAP(p.clear()) }
void congee_c_shrink_to_fit(congee_handle *h) { MAP((void)0) }
uint64_t congee_c_remove_range_inclusive(congee_handle *h, uint64_t start, uint64_t last) {
    MAP(remove_range(p, start, last))
}
bool congee_c_is_empty(congee_const_handle *h) { MAP(p.empty()) }
uint64_t congee_c_count(congee_const_handle *h) { MAP(p.size()) }
uint64_t congee_c_charged(congee_const_handle *h) { MAP(charged(p)) }
uint64_t congee_c_limit(congee_const_handle *h) { MAP(in.held.of->limit) }

// Readers of a frozen map.

int32_t congee_c_freeze(congee_handle h, congee_frozen_handle *out, congee_handle *) {
    out->reader = new congee_frozen(h.map->of);
    congee_c_free(h);
    return 0;
}
void congee_c_frozen_free(congee_frozen_handle h) {
    { Inside in(*h.reader); }
    delete h.reader;
}
int32_t congee_c_thaw(congee_frozen_handle h, congee_handle *out, congee_frozen_handle *back) {
    if (h.reader->of.use_count() > 1) {
        *back = h;
        return 0;
    }
    out->map = new congee(h.reader->of);
    congee_c_frozen_free(h);
    return 1;
}
#define FROZEN(call) PLAIN(h, reader, call)
static int32_t another_reader(const std::shared_ptr<Store> &of, congee_frozen_handle *out) {
    out->reader = new congee_frozen(of);
    return 0;
}
int32_t congee_c_frozen_another(congee_const_frozen_handle *h, congee_frozen_handle *out) {
    FROZEN(another_reader(in.held.of, out))
}
int32_t congee_c_frozen_get(congee_const_frozen_handle *h, KEY, OUT) { FROZEN(get(p, key, out)) }
size_t congee_c_frozen_range(congee_const_frozen_handle *h, ENDS) { FROZEN(below_end(p, start, last, buffer, n)) }
size_t congee_c_frozen_range_inclusive(congee_const_frozen_handle *h, ENDS) { FROZEN(up(p, start, last, buffer, n)) }
size_t congee_c_frozen_range_descending(congee_const_frozen_handle *h, ENDS) { FROZEN(down(p, start, last, buffer, n)) }
uint64_t congee_c_frozen_count(congee_const_frozen_handle *h) { FROZEN(p.size()) }

// A map that threads share, under locks or without.

int32_t congee_c_shared_new(uint64_t limit, congee_shared_handle *out) {
    if (limit < 2104)
        return CONGEE_OOM;
    out->guard = new congee_shared(std::make_shared<Store>(limit));
    return 0;
}
int32_t congee_c_shared_new_sharded(uint64_t limit, congee_shared_handle *out) {
    return limit / 64 < 2104 ? CONGEE_OOM : congee_c_shared_new(limit, out);
}
int32_t congee_c_live_new(uint64_t limit, congee_live_handle *out) {
    if (limit < 4096)
        return CONGEE_OOM;
    out->guard = new congee_live(std::make_shared<Store>(limit));
    return 0;
}
int32_t congee_c_shared_another(congee_shared_handle *h, congee_shared_handle *out) {
    Inside in(*h->guard);
    out->guard = new congee_shared(h->guard->of);
    return 0;
}
int32_t congee_c_live_another(congee_live_handle *h, congee_live_handle *out) {
    Inside in(*h->guard);
    out->guard = new congee_live(h->guard->of);
    return 0;
}
void congee_c_shared_free(congee_shared_handle h) {
    { Inside in(*h.guard); }
    delete h.guard;
}
void congee_c_live_free(congee_live_handle h) {
    { Inside in(*h.guard); }
    delete h.guard;
}
#define BOTH(name, reads, arguments, call)                                                                             \
    int32_t congee_c_shared_##name(congee_##reads##shared_handle *h, arguments) { SHARED(h, call) }                    \
    int32_t congee_c_live_##name(congee_##reads##live_handle *h, arguments) { SHARED(h, call) }
#define TWO(a, b) a, b
#define THREE(a, b, c) a, b, c
#define FOUR(a, b, c, d) a, b, c, d
BOTH(get, const_, TWO(KEY, OUT), get(p, key, out))
BOTH(insert, , THREE(KEY, uint64_t value, OUT), insert(p, key, value, out))
BOTH(remove, , TWO(KEY, OUT), take(p, key, out))
BOTH(compare_exchange, , FOUR(KEY, uint64_t expected, uint64_t desired, OUT), compare(p, key, expected, &desired, out))
BOTH(compare_remove, , THREE(KEY, uint64_t expected, OUT), compare(p, key, expected, nullptr, out))
BOTH(add, , THREE(KEY, uint64_t number, OUT), add(p, key, number, out))
BOTH(get_or_insert, , THREE(KEY, uint64_t value, OUT), get_or_insert(p, key, value, out))
BOTH(range, const_, TWO(ENDS, OUT), (*out = below_end(p, start, last, buffer, n), 0))
BOTH(range_inclusive, const_, TWO(ENDS, OUT), (*out = up(p, start, last, buffer, n), 0))
BOTH(range_descending, const_, TWO(ENDS, OUT), (*out = down(p, start, last, buffer, n), 0))
BOTH(first, const_, AT, give(p, p.begin(), out))
BOTH(last, const_, AT, before(p, p.end(), out))
BOTH(floor, const_, TWO(KEY, AT), before(p, p.upper_bound(key), out))
BOTH(below, const_, TWO(KEY, AT), before(p, p.lower_bound(key), out))
BOTH(ceiling, const_, TWO(KEY, AT), give(p, p.lower_bound(key), out))
BOTH(above, const_, TWO(KEY, AT), give(p, p.upper_bound(key), out))
BOTH(count, const_, OUT, (*out = p.size(), 0))
int32_t congee_c_shared_pop_first(congee_shared_handle *h, AT) { SHARED(h, pop_first(p, out)) }
int32_t congee_c_shared_pop_last(congee_shared_handle *h, AT) { SHARED(h, pop_last(p, out)) }
int32_t congee_c_live_pop_first_to(congee_live_handle *h, TWO(KEY, AT)) { SHARED(h, pop_first_to(p, key, out)) }
int32_t congee_c_live_pop_last_from(congee_live_handle *h, TWO(KEY, AT)) { SHARED(h, pop_last_from(p, key, out)) }
int32_t congee_c_live_remove_some(congee_live_handle *h, uint64_t start, uint64_t last, uint64_t *count, uint64_t *reached) {
    SHARED(h, remove_some(p, start, last, count, reached))
}
int32_t congee_c_shared_clear(congee_shared_handle *h) { SHARED(h, (p.clear(), 0)) }
int32_t congee_c_shared_is_empty(congee_const_shared_handle *h, OUT) { SHARED(h, (*out = p.empty(), 0)) }
int32_t congee_c_shared_usage(congee_const_shared_handle *h, uint64_t *bytes, uint64_t *limit) {
    SHARED(h, (*bytes = charged(p), *limit = in.held.of->limit, 0))
}
uint64_t congee_c_live_limit(congee_const_live_handle *h) { PLAIN(h, guard, in.held.of->limit) }
uint64_t congee_c_live_charged(congee_const_live_handle *h) { PLAIN(h, guard, 4096) }
void congee_c_live_usage(congee_const_live_handle *h, uint64_t *charged, uint64_t *limit) {
    PLAIN(h, guard, (void)(*charged = 4096, *limit = in.held.of->limit))
}
// (who shares a map here sees all that is in it at once, so a meeting and a note have nothing to hand on)
void congee_c_shared_meet(congee_shared_handle *h, congee_shared_handle *other) {
    { Inside in(*h->guard); }
    { Inside in(*other->guard); }
}
void congee_c_live_meet(congee_live_handle *h, congee_live_handle *other) {
    { Inside in(*h->guard); }
    { Inside in(*other->guard); }
}
int32_t congee_c_live_note(congee_live_handle *h, congee_live_handle *out) { return congee_c_live_another(h, out); }

} // extern "C"

#include "standin_owners.hpp"

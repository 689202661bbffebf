// A cache of objects that threads share. Who finds an object reads it by a loan, which counts no reference, or keeps one. Now and
// then a thread removes an object that others may be reading. It is destroyed once nobody has it. This prints what
// examples/c/object_cache.c prints.
//
//     c++ -std=c++17 -Iinclude examples/cpp/object_cache.cpp out/c-library/libcongee.a -pthread -o object_cache
#include "congee.hpp"
#include <atomic>
#include <cstdint>
#include <iostream>
#include <memory>
#include <thread>
#include <vector>

namespace {

constexpr int threads = 4, questions = 20000, numbers = 2000;

std::atomic<long> made{0}, destroyed{0};

// What the cache has for a number: the steps down to 1, where an even number is halved, and an odd one is tripled and raised by 1.
class answer {
public:
    explicit answer(std::uint64_t of) : number(of), steps(steps_from(of)) { made++; }
    answer(const answer &) = delete;
    answer &operator=(const answer &) = delete;
    ~answer() { destroyed++; }

    bool is_longer_than(const answer &other) const {
        return steps > other.steps || (steps == other.steps && number < other.number);
    }

    const std::uint64_t number, steps;

private:
    static std::uint64_t steps_from(std::uint64_t at) {
        std::uint64_t count = 0;
        for (; at > 1; count++)
            at = at % 2 ? 3 * at + 1 : at / 2;
        return count;
    }
};

using cache = congee_cpp::live_owners<const answer>;

class task {
public:
    // (the copy is a handle of the thread's own)
    task(const cache &of, std::uint64_t state) : answers_(of), state_(state) {}

    void ask() {
        for (int i = 0; i < questions; i++) {
            state_ = state_ * 6364136223846793005u + 1442695040888963407u;
            const std::uint64_t number = 1 + (state_ >> 33) % numbers;
            sum_ += steps_of(number);
            keep_longest(number);
            if (i % 16 == 0)
                answers_.erase(number);
        }
    }
    std::uint64_t sum() const { return sum_; }
    const std::shared_ptr<const answer> &longest() const { return longest_; }

private:
    // The steps of a number, out of the cache where it is there.
    std::uint64_t steps_of(std::uint64_t number) {
        if (const auto found = answers_.borrow(number))
            return found->steps;
        const auto own = std::make_shared<const answer>(number);
        answers_.get_or_insert(number, own);
        return own->steps;
    }
    void keep_longest(std::uint64_t number) {
        std::shared_ptr<const answer> found = answers_.get(number);
        if (!found)
            found = std::make_shared<const answer>(number);
        if (!longest_ || found->is_longer_than(*longest_))
            longest_ = std::move(found);
    }

    cache answers_;
    std::uint64_t state_, sum_ = 0;
    std::shared_ptr<const answer> longest_;
};

} // namespace

int main() {
    std::vector<std::shared_ptr<const answer>> longest;
    std::uint64_t sum = 0;
    {
        const cache answers;
        std::vector<task> tasks;
        std::vector<std::thread> running;
        for (std::uint64_t i = 0; i < threads; i++)
            tasks.emplace_back(answers, i);
        for (task &it : tasks)
            running.emplace_back(&task::ask, &it);
        for (std::thread &it : running)
            it.join();
        for (const task &it : tasks) {
            sum += it.sum();
            longest.push_back(it.longest());
        }
    }
    std::cout << threads << " threads got " << threads * questions << " answers, " << sum << " steps in all\n";
    // (the cache has ended with its last handle, and owners outlive it)
    const answer *most = longest.front().get();
    for (const auto &it : longest)
        most = it->is_longer_than(*most) ? it.get() : most;
    std::cout << "the longest is of " << most->number << ", with " << most->steps << " steps\n";
    longest.clear();
    std::cout << (made == destroyed ? "each" : "not each") << " object is freed\n";
}

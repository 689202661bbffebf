// An order book: for each price how much is asked and how much is bid. An order takes what the other side has, the best
// price first, and what is left of it stays.
//
//     c++ -std=c++17 -Iinclude examples/cpp/order_book.cpp out/c-library/libcongee.a -o order_book
#include "congee.hpp"
#include <algorithm>
#include <cstdint>
#include <iostream>

namespace {

class order_book {
public:
    // Buys up to `amount` for at most `price` each, bids for the rest, and returns how much was bought.
    std::uint64_t buy(std::uint64_t price, std::uint64_t amount) {
        std::uint64_t left = amount;
        // (the least price first)
        for (auto it = asks_.begin(); left > 0 && it != asks_.end() && it->first <= price; ++it)
            left -= take(asks_, it->first, it->second, left);
        if (left > 0)
            bids_[price] += left;
        return amount - left;
    }

    // Sells up to `amount` for at least `price` each, asks for the rest, and returns how much was sold.
    std::uint64_t sell(std::uint64_t price, std::uint64_t amount) {
        std::uint64_t left = amount;
        // (the greatest price first)
        for (auto it = bids_.end(); left > 0 && it != bids_.begin() && (--it)->first >= price;)
            left -= take(bids_, it->first, it->second, left);
        if (left > 0)
            asks_[price] += left;
        return amount - left;
    }

    void show() const {
        std::cout << "asked:";
        asks_.each([](std::uint64_t price, std::uint64_t amount) { std::cout << ' ' << amount << " for " << price; });
        std::cout << "\nbid:";
        bids_.each([](std::uint64_t price, std::uint64_t amount) { std::cout << ' ' << amount << " for " << price; });
        std::cout << '\n';
    }

private:
    // Takes up to `wanted` of what one price has. The iterator at that price goes on from it, also where it is gone.
    static std::uint64_t take(congee_cpp::map &side, std::uint64_t price, std::uint64_t has, std::uint64_t wanted) {
        std::uint64_t taken = std::min(has, wanted);
        if (taken == has)
            side.erase(price);
        else
            side[price] -= taken;
        return taken;
    }

    congee_cpp::map asks_, bids_;
};

} // namespace

int main() {
    order_book book;
    book.sell(105, 10);
    book.sell(103, 5);
    book.sell(104, 7);
    book.buy(100, 20);
    book.buy(101, 3);
    book.show();
    std::cout << book.buy(104, 15) << " are bought for up to 104\n";
    book.show();
    std::cout << book.sell(100, 10) << " are sold for at least 100\n";
    book.show();
}

// A page table: it takes the pages of an address space to frames of memory.
//
//     c++ -std=c++17 -Iinclude examples/cpp/page_table.cpp out/c-library/libcongee.a -o page_table
#include "congee.hpp"
#include <cstdint>
#include <iostream>
#include <optional>

namespace {

constexpr std::uint64_t page_size = 4096;

class page_table {
public:
    // Maps so many pages, from the first on, to frames from the first on. Where memory is missing, nothing stays mapped.
    void map(std::uint64_t page, std::uint64_t frame, std::uint64_t count) {
        for (std::uint64_t i = 0; i < count; i++) {
            if (frames_.try_insert_or_assign(page + i, frame + i) == CONGEE_OOM) {
                unmap(page, page + i);
                throw std::bad_alloc();
            }
        }
    }

    // Unmaps the pages from the first on and below the last, and returns how many were mapped.
    std::uint64_t unmap(std::uint64_t first, std::uint64_t last) {
        std::uint64_t before = frames_.size();
        frames_.erase(frames_.lower_bound(first), frames_.lower_bound(last));
        return before - frames_.size();
    }

    std::optional<std::uint64_t> translate(std::uint64_t address) const {
        std::optional<std::uint64_t> frame = frames_.get(address / page_size);
        return frame ? std::optional(*frame * page_size + address % page_size) : std::nullopt;
    }

    // The first page from this one on that isn't mapped.
    std::uint64_t first_free(std::uint64_t page) const {
        for (auto it = frames_.lower_bound(page); it != frames_.end() && it->first == page; ++it)
            page++;
        return page;
    }

    const congee_cpp::map &frames() const { return frames_; }

private:
    congee_cpp::map frames_;
};

void show(const page_table &table, std::uint64_t address) {
    std::cout << std::hex << std::showbase << address;
    if (std::optional<std::uint64_t> at = table.translate(address))
        std::cout << " is at " << *at << '\n';
    else
        std::cout << " is not mapped\n";
    std::cout << std::dec << std::noshowbase;
}

} // namespace

int main() {
    page_table table;
    table.map(0x400, 0x9000, 16);
    table.map(0x7fff0, 0x100, 4);
    show(table, 0x401234);
    show(table, 0x7fff3abc);
    std::cout << "the first free page from 0x400 on is " << std::hex << std::showbase << table.first_free(0x400) << '\n'
              << std::dec;
    std::cout << table.unmap(0x404, 0x7fff2) << " pages are unmapped\n";
    show(table, 0x404000);
    std::cout << table.frames().size() << " pages stay:";
    for (auto [page, frame] : table.frames())
        std::cout << ' ' << page << ':' << frame;
    std::cout << '\n';
}

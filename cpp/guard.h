// Lent tables that touch a page that can't be touched: a read or write past their end, or before their front, stops the program.
// Sanitizers see the C++ side alone; this sees what the library does.
#pragma once
#include <cstddef>
#include <cstdint>
#include <cstring>
#include <span>
#include <sys/mman.h>
#include <unistd.h>
#include <vector>

// Which side of the table touches the page. There is one on either side, but a table is seldom as long as its pages.
enum class Touching { back, front };

template <class T> class GuardedTable {
public:
    explicit GuardedTable(std::span<const T> entries, Touching side = Touching::back)
        : page_(static_cast<size_t>(sysconf(_SC_PAGESIZE))), entries_(entries.size()),
          inner_((entries.size_bytes() + page_ - 1) / page_ * page_), side_(side) {
        base_ = static_cast<unsigned char *>(
            mmap(nullptr, inner_ + 2 * page_, PROT_NONE, MAP_PRIVATE | MAP_ANONYMOUS, -1, 0));
        if (inner_ > 0) {
            mprotect(base_ + page_, inner_, PROT_READ | PROT_WRITE);
            std::memcpy(data(), entries.data(), entries.size_bytes());
        }
    }
    GuardedTable(const GuardedTable &) = delete;
    GuardedTable &operator=(const GuardedTable &) = delete;
    ~GuardedTable() { munmap(base_, inner_ + 2 * page_); }

    // From now on a write stops the program too: for what is lent to be read only.
    void seal() {
        if (inner_ > 0) mprotect(base_ + page_, inner_, PROT_READ);
    }
    T *data() {
        const size_t before = side_ == Touching::front ? 0 : inner_ - entries_ * sizeof(T);
        return reinterpret_cast<T *>(base_ + page_ + before);
    }
    size_t size() const { return entries_; }
    std::vector<T> held() { return {data(), data() + entries_}; }

private:
    size_t page_, entries_, inner_;
    Touching side_;
    unsigned char *base_;
};

using Guarded = GuardedTable<uint32_t>;

// What a buffer holds before a call: each entry another number, so that none can change or move unseen.
inline std::vector<uint32_t> filled(size_t entries, uint32_t from) {
    std::vector<uint32_t> buffer(entries);
    for (size_t i = 0; i < entries; i++) buffer[i] = static_cast<uint32_t>(from + i);
    return buffer;
}

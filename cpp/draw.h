// Numbers drawn at random. The same seed gives the same numbers everywhere: no distribution of the standard library is
// used. Compilers differ in the order in which they work out arguments, so no call has two that draw.
#pragma once
#include <cstdint>
#include <random>
#include <vector>

class Draw {
public:
    explicit Draw(uint32_t seed) : engine_(seed) {}
    // A number below n; n is small, so that the remainder does not matter.
    uint32_t below(uint32_t n) { return static_cast<uint32_t>(engine_() % n); }
    uint32_t between(uint32_t low, uint32_t high) { return low + below(high - low + 1); }
    bool one_in(uint32_t n) { return below(n) == 0; }
    template <class T> const T &of(const std::vector<T> &list) {
        return list[below(static_cast<uint32_t>(list.size()))];
    }

private:
    std::mt19937 engine_;
};

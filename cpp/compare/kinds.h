// The kinds of case and how often each comes up. A yard, or a file, has a number; it depends on that and on the run's
// seed alone.
#pragma once
#include "files.h"
#include "lessons.h"
#include "loopy.h"
#include "odd.h"
#include "realistic.h"
#include "tiny.h"

// Of so many yards in a row, each kind has a share. A kind is told how many of its yards came before.
struct Kind {
    uint64_t share;
    void (*cases)(Run &, Draw &, uint64_t turn);
};

inline constexpr std::array<Kind, 11> kinds{{
    {20, loopy_yard},
    {12, damaged_yard},
    {14, next_tiny_yard},
    {3, next_odd_row},
    {6, drawn_file},
    {1, next_odd_byte},
    {1, long_file},
    {4, realistic_yard},
    {2, pull_out_yard},
    {4, lesson_yard},
    {1, largest_yard},
}};

inline constexpr uint64_t all_shares = [] {
    uint64_t sum = 0;
    for (const Kind &kind : kinds) sum += kind.share;
    return sum;
}();

// Seeds of neighbouring numbers have nothing in common (the mixing steps of splitmix64).
inline uint32_t seed_of(uint64_t seed, uint64_t number) {
    uint64_t z = seed * 0x9e3779b97f4a7c15u + number * 0xd1b54a32d192ed03u;
    z = (z ^ (z >> 30)) * 0xbf58476d1ce4e5b9u;
    z = (z ^ (z >> 27)) * 0x94d049bb133111ebu;
    return static_cast<uint32_t>(z >> 32);
}

// The kinds take turns with a stride through the shares, so that short runs meet all of them.
inline void yard_cases(Run &run, uint64_t seed, uint64_t number) {
    static_assert(all_shares % 29 != 0);
    uint64_t place = number % all_shares * 29 % all_shares;
    Draw draw(seed_of(seed, number));
    for (const Kind &kind : kinds) {
        if (place < kind.share) return kind.cases(run, draw, number / all_shares * kind.share + place);
        place -= kind.share;
    }
}

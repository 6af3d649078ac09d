// A plan's numbers as the library takes them, and ways to write one down.
#pragma once
#include <cstdint>
#include <functional>
#include <initializer_list>
#include <vector>

struct Plan {
    uint32_t points = 0;
    std::vector<uint32_t> sections, turns;

    uint32_t count() const { return static_cast<uint32_t>(sections.size() / 6); }

    // A section between a and b on which nothing stands; its number.
    uint32_t join(uint32_t a, uint32_t b, uint32_t length, uint32_t kind = 0) {
        sections.insert(sections.end(), {a, b, length, kind, length, length});
        return count() - 1;
    }

    void forbid(uint32_t c, uint32_t s) { turns.insert(turns.end(), {c, s}); }

    // Stock on a section: what it leaves free from end A and from end B.
    void occupy(uint32_t section, uint32_t from_a, uint32_t from_b) {
        sections[6 * section + 4] = from_a;
        sections[6 * section + 5] = from_b;
    }
};

inline Plan with(Plan plan, const std::function<void(Plan &)> &change) {
    change(plan);
    return plan;
}

inline const Plan yard_y{6,
                         {0, 1, 3000, 1, 3000, 3000, //
                          1, 2, 400,  0, 400,  400,  //
                          1, 3, 500,  0, 500,  500,  //
                          2, 4, 2000, 1, 100,  1300, //
                          3, 5, 2500, 1, 2500, 2500},
                         {1, 2}};

// Document 01's loop.
inline const Plan loop{4,
                       {0, 1, 300, 1, 300, 300, //
                        0, 3, 100, 0, 100, 100, //
                        0, 2, 200, 0, 200, 200, //
                        1, 2, 300, 1, 300, 300},
                       {1, 2}};

// Document 01's plan of three points, on which a walk needs no steps.
inline const Plan three_points{3, {0, 1, 1000, 1, 700, 100, 1, 2, 900, 1, 900, 900}, {}};

// The loop with a track at each side: a train comes from section 4 over 1 and has to leave by 2 and 5 for section 6.
inline const Plan loop_between_tracks{7,
                                      {0, 1, 300, 1, 300, 300, //
                                       0, 3, 100, 0, 100, 100, //
                                       0, 2, 200, 0, 200, 200, //
                                       1, 2, 300, 0, 300, 300, //
                                       3, 4, 900, 1, 0,   0,   //
                                       2, 5, 10,  0, 10,  10,  //
                                       5, 6, 700, 1, 700, 700},
                                      {1, 2, 3, 5}};

// Two ways of equal length from the start, section 0, to section 5: over section 2, or over 1, 3 and 4.
inline const Plan equal_ways = with(Plan{6, {}, {}}, [](Plan &plan) {
    plan.join(0, 1, 500, 1);
    plan.join(1, 2, 10);
    plan.join(1, 4, 30);
    plan.join(2, 3, 10);
    plan.join(3, 4, 10);
    plan.join(4, 5, 500, 1);
    plan.occupy(0, 0, 0);
});

// The short way from the start, section 0, to point 2 goes over section 1 and arrives where the turn onto section 4 is forbidden; the
// long way, over 2 and 3, runs on.
inline const Plan short_way_turned = with(Plan{6, {}, {}}, [](Plan &plan) {
    plan.join(0, 1, 1000, 1);
    plan.join(1, 2, 100);
    plan.join(1, 3, 300);
    plan.join(3, 2, 100);
    plan.join(2, 4, 50);
    plan.join(4, 5, 1000, 1);
    plan.occupy(0, 0, 0);
    plan.forbid(1, 4);
});

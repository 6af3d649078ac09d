// Small plans full of loops, drawn at random, and the damage that the plan check has to find in them.
#pragma once
#include "draw.h"
#include "plan.h"
#include <utility>

// Nothing on most sections, stock on some, others locked.
inline void draw_stock(Draw &draw, Plan &plan, uint32_t section) {
    const uint32_t length = plan.sections[6 * section + 2];
    if (!draw.one_in(5)) return;
    const uint32_t from_a = draw.below(length);
    plan.occupy(section, from_a, draw.below(length - from_a));
}

// Sections between points drawn at random, at most three at each and no two between the same points.
inline void draw_sections(Draw &draw, Plan &plan, uint32_t tries) {
    std::vector<uint32_t> degree(plan.points, 0);
    std::vector<std::pair<uint32_t, uint32_t>> joined;
    const auto join = [&](uint32_t a, uint32_t b) {
        for (const auto &[c, d] : joined)
            if ((a == c && b == d) || (a == d && b == c)) return;
        if (a == b || degree[a] == 3 || degree[b] == 3) return;
        joined.emplace_back(a, b);
        degree[a]++;
        degree[b]++;
        const uint32_t length = 1 + draw.below(6), kind = draw.one_in(4);
        draw_stock(draw, plan, plan.join(a, b, length, kind));
    };
    join(0, 1);
    join(1, 2);
    for (uint32_t i = 0; i < tries; i++) {
        const uint32_t a = draw.below(plan.points), b = draw.below(plan.points);
        join(a, b);
    }
}

// Two connecting sections at most points where two meet.
inline void draw_turns(Draw &draw, Plan &plan) {
    for (uint32_t p = 0; p < plan.points; p++) {
        std::vector<uint32_t> here;
        for (uint32_t s = 0; s < plan.count(); s++) {
            const bool ends_here = plan.sections[6 * s] == p || plan.sections[6 * s + 1] == p;
            if (ends_here && plan.sections[6 * s + 3] == 0) here.push_back(s);
        }
        if (here.size() < 2 || draw.one_in(4)) continue;
        const uint32_t c = draw.of(here), s = draw.of(here);
        if (c != s) plan.forbid(c, s);
    }
}

// Passes the plan check, but for points without a section, which are few.
inline Plan draw_plan(Draw &draw, uint32_t points) {
    Plan plan{points, {}, {}};
    draw_sections(draw, plan, points + draw.below(4 * points));
    draw_turns(draw, plan);
    return plan;
}

// One fault, or what looks like one.
inline void damage(Draw &draw, Plan &plan) {
    const std::vector<uint32_t> numbers{0,   1,   2,   3,      4,      5,           6,          7,
                                        767, 768, 769, 200000, 200001, 2147483648u, 4294967295u};
    const uint32_t sections = plan.count();
    const uint32_t any_section = draw.below(sections + 1), other_section = draw.below(sections + 1);
    const uint32_t a = draw.below(8), b = draw.below(8), length = draw.below(9), kind = draw.below(2);
    switch (draw.below(8)) {
    case 0: plan.points = draw.of(numbers); break;
    case 1: plan.sections.pop_back(); break;
    case 2: plan.turns.push_back(any_section); break;
    case 3: plan.sections[draw.below(static_cast<uint32_t>(plan.sections.size()))] = draw.of(numbers); break;
    case 4: plan.join(a, b, length, kind); break;
    case 5: plan.forbid(any_section, other_section); break;
    case 6:
        if (!plan.turns.empty()) plan.turns[draw.below(static_cast<uint32_t>(plan.turns.size()))] = any_section;
        break;
    default: plan.occupy(draw.below(sections), a, b);
    }
}

// Queries over plans drawn at random: yards small enough for the second search, in which walks exist, and plans as large as
// there can be.
#pragma once
#include "random_plans.h"
#include "second_search.h"

// A plan and two destination sections of it, one with stock, the other mostly without, both longer than the rest.
struct Drawn {
    Plan plan;
    uint32_t x, y;

    uint32_t stock() const {
        const uint32_t *section = &plan.sections[6 * x];
        return section[2] - section[4] - section[5];
    }
};

// The two destinations and the turns of a plan that has its sections.
inline Drawn draw_rest(Draw &draw, Plan plan) {
    const uint32_t x = draw.below(plan.count()), y = draw.below(plan.count());
    for (uint32_t s : {x, y}) {
        const uint32_t length = 1 + draw.below(30);
        plan.sections[6 * s + 2] = length;
        plan.sections[6 * s + 3] = 1;
        plan.occupy(s, length, length);
        draw_stock(draw, plan, s);
    }
    const uint32_t length = plan.sections[6 * x + 2], from_a = draw.below(length);
    plan.occupy(x, from_a, draw.below(length - from_a));
    draw_turns(draw, plan);
    return {plan, x, y};
}

// In two of three plans nothing stands anywhere else, and what is connecting is 1 or 2 long: many walks are equally short.
inline Drawn draw_yard(Draw &draw, uint32_t points) {
    Plan plan{points, {}, {}};
    draw_sections(draw, plan, points + draw.below(4 * points));
    const bool level = !draw.one_in(3);
    for (uint32_t s = 0; s < plan.count() && level; s++) {
        uint32_t *section = &plan.sections[6 * s];
        section[2] = section[4] = section[5] = 1 + section[2] % 2;
        section[3] = draw.one_in(8);
    }
    return draw_rest(draw, plan);
}

// A ring of 768 points and 256 chords: as many points and sections as there can be, and a forbidden turn at most points that
// have a chord; at the others there is nothing to pull out over.
inline Drawn draw_largest(Draw &draw) {
    Plan plan{768, {}, {}};
    const auto join = [&](uint32_t a, uint32_t b) {
        const uint32_t length = 1 + draw.below(6), kind = draw.one_in(8), section = plan.join(a, b, length, kind);
        if (draw.one_in(4)) draw_stock(draw, plan, section);
    };
    for (uint32_t p = 0; p < 768; p++) join(p, (p + 1) % 768);
    for (uint32_t p = 0; p < 256; p++) join(p, p + 384);
    Drawn drawn = draw_rest(draw, plan);
    const second::List turns = std::exchange(drawn.plan.turns, {});
    for (size_t i = 0; i < turns.size(); i += 2) {
        const uint32_t c = turns[i], s = turns[i + 1], p = s == (c + 1) % 768 ? s : c;
        if (c >= 768 || s >= 768 || p % 384 < 256) drawn.plan.forbid(c, s);
    }
    return drawn;
}

// Mostly from x to y, or to the other end of x, by a train that stands there; one in eight with a number of any kind.
inline second::Query draw_query(Draw &draw, const Drawn &drawn) {
    const uint32_t stock = drawn.stock(), any = draw.below(drawn.plan.count() + 2);
    second::Query query{draw.one_in(2) ? stock : 1 + draw.below(stock), drawn.x, draw.below(2), drawn.y, draw.below(2)};
    if (draw.one_in(4)) {
        query.finish = drawn.x;
        query.finish_end = 1 - query.start_end;
    }
    if (!draw.one_in(8)) return query;
    switch (draw.below(6)) {
    case 0: query.length = 0; break;
    case 1: query.length = any; break;
    case 2: query.start = any; break;
    case 3: query.start_end = any; break;
    case 4: query.finish = any; break;
    default: query.finish_end = any;
    }
    return query;
}

// One in eight: the first turn again, the other way round, which the other faults hardly ever give.
inline void damage_plan(Draw &draw, Plan &plan) {
    if (draw.one_in(8) && !plan.turns.empty()) return plan.forbid(plan.turns[1], plan.turns[0]);
    for (uint32_t faults = 1 + draw.below(3); faults > 0; faults--) damage(draw, plan);
}

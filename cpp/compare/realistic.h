// Yards as they are built, up to the limits of a plan, and the largest plans there can be.
#pragma once
#include "../../bench/families.h"
#include "../../bench/search_queries.h"
#include "../random_queries.h"
#include "queries.h"

// A length that at least two free destinations have, so that a start and a finish can be drawn for it.
inline uint32_t longest_train(const Plan &plan) {
    second::List free{0, 0};
    for (const second::Section &section : second::Yard(plan).sections)
        if (section.kind == 1 && section.free()) free.push_back(static_cast<uint32_t>(section.length));
    std::ranges::sort(free);
    return std::min(free[free.size() - 2], 20000u);
}

// Small sizes come more often than large ones. Half of the yards have stock on half of their destinations.
inline Plan draw_realistic(Draw &draw, const SearchFamily &family) {
    const uint32_t limit = draw.one_in(4) ? family.sizes.back() : family.sizes.back() / 6 + 4;
    Plan plan = family.yard(draw.between(std::min(limit, 4u), limit));
    if (draw.one_in(2)) occupy_half(plan, draw);
    return plan;
}

inline void realistic_yard(Run &run, Draw &draw, uint64_t turn) {
    const Plan plan = draw_realistic(draw, search_families[turn % search_families.size()]);
    const uint32_t longest = longest_train(plan);
    if (longest < 200) return;
    const std::optional<Query> drawn = draw_query(plan, draw.between(200, longest), draw);
    if (!drawn) return;
    const second::Query query{drawn->length, drawn->start, drawn->start_end, drawn->finish, drawn->finish_end};
    Site site(run, drawn->plan);
    site.plan_case();
    second::Sheet another{1, {}, second::List(2 * plan.count(), 0)};
    query_cases(draw, site, query, another, 8);
    const second::Query back{query.length, query.start, query.start_end, query.start, 1 - query.start_end};
    query_cases(draw, site, back, another, 4);
    pull_out_cases(draw, site, 2, 8000);
}

// The families in which a train has few ways to run on, so that the second program can write down all of them.
inline const std::vector<Family> &linear_families() {
    static const std::vector<Family> linear = [] {
        std::vector<Family> some = families;
        std::erase_if(some, [](const Family &family) { return family.growth != Growth::linear; });
        return some;
    }();
    return linear;
}

// Chains of loops, balloons, ladders and the like, small enough for trains as long as the longest run, or of any size
// for short trains.
inline void pull_out_yard(Run &run, Draw &draw, uint64_t turn) {
    const Family &family = linear_families()[turn % linear_families().size()];
    const bool large = draw.one_in(4);
    const YardCase yard = family.yard(large ? family.sizes.back() : 2 + draw.below(3));
    Site site(run, yard.plan);
    site.plan_case();
    const uint32_t longest = large ? 200 : yard.longest, length = 1 + draw.below(longest + 20);
    for (uint32_t asked : {longest, longest + 1, length}) turn_cases(draw, site, 0, asked);
    pull_out_cases(draw, site, 2, longest);
}

// 768 points and 1,024 sections, with short trains, so that lists stay short.
inline void largest_yard(Run &run, Draw &draw, uint64_t) {
    const Drawn drawn = draw_largest(draw);
    const uint32_t length = std::min(drawn.stock(), 1 + draw.below(6)), start_end = draw.below(2),
                   finish_end = draw.below(2);
    Site site(run, drawn.plan);
    site.plan_case();
    second::Sheet another{1, {}, second::List(2 * drawn.plan.count(), 0)};
    query_cases(draw, site, {length, drawn.x, start_end, drawn.y, finish_end}, another, 8);
    pull_out_cases(draw, site, 2, 8);
    Plan damaged = drawn.plan;
    damage_plan(draw, damaged);
    Site(run, damaged).plan_case();
}

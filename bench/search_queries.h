// Queries for measuring the search: trains of 20 m to 500 m, in yards that are empty or half occupied. All numbers are
// drawn with fixed seeds.
#pragma once
#include "search_yards.h"
#include <algorithm>
#include <array>
#include <iterator>
#include <map>
#include <optional>

constexpr std::array<uint32_t, 6> train_lengths{200, 500, 1000, 2000, 3500, 5000};

// A train, and a plan in which it stands where it starts.
struct Query {
    Plan plan;
    uint32_t length, start, start_end, finish, finish_end;
};

inline std::vector<uint32_t> destinations_of(const Plan &plan) {
    std::vector<uint32_t> all;
    for (uint32_t s = 0; s < plan.count(); s++)
        if (plan.sections[6 * s + 3] == 1) all.push_back(s);
    return all;
}

// Stock of this length on a section, anywhere on it.
inline void put_stock(Plan &plan, uint32_t section, uint32_t length, Draw &draw) {
    const uint32_t spare = plan.sections[6 * section + 2] - length, from_a = draw.below(spare + 1);
    plan.occupy(section, from_a, spare - from_a);
}

// Half of the destinations are occupied, drawn at random.
inline void occupy_half(Plan &plan, Draw &draw) {
    std::vector<uint32_t> left = destinations_of(plan);
    for (size_t i = left.size() / 2; i > 0; i--) {
        const auto at = std::next(left.begin(), draw.below(static_cast<uint32_t>(left.size())));
        put_stock(plan, *at, std::min(plan.sections[6 * *at + 2], draw.between(500, 2500)), draw);
        left.erase(at);
    }
}

// A train of this length on a section drawn at random, to another section with room for it; both ends drawn. None where
// many draws have not met such sections.
inline std::optional<Query> draw_query(const Plan &plan, uint32_t length, Draw &draw) {
    const std::vector<uint32_t> all = destinations_of(plan);
    const auto any = [&] { return all[draw.below(static_cast<uint32_t>(all.size()))]; };
    for (uint32_t tries = 0; tries < 1000; tries++) {
        const uint32_t start = any(), start_end = draw.below(2), finish = any(), finish_end = draw.below(2);
        if (finish == start || plan.sections[6 * start + 2] < length) continue;
        if (plan.sections[6 * finish + 4 + finish_end] < length) continue;
        Query query{plan, length, start, start_end, finish, finish_end};
        put_stock(query.plan, start, length, draw);
        return query;
    }
    return std::nullopt;
}

// The queries of one yard: so many of each length.
inline std::vector<Query> draw_queries(const Plan &yard, bool half_occupied, uint32_t each) {
    Draw draw(yard.count());
    Plan plan = yard;
    if (half_occupied) occupy_half(plan, draw);
    std::vector<Query> all;
    for (const uint32_t length : train_lengths)
        for (uint32_t i = 0; i < each; i++)
            if (const auto query = draw_query(plan, length, draw)) all.push_back(*query);
    return all;
}

// The finish point has no other section: no walk can end there, which is answered right after the plan check.
inline bool finishes_at_dead_end(const Query &query) {
    const std::vector<uint32_t> &sections = query.plan.sections;
    const uint32_t goal = sections[6 * query.finish + query.finish_end];
    uint32_t there = 0;
    for (size_t s = 0; s < sections.size(); s += 6) there += sections[s] == goal || sections[s + 1] == goal;
    return there == 1;
}

// So many queries of each length, none to a dead end: what these cost would hide what the others do.
inline std::vector<Query> draw_searches(const Plan &yard, bool half_occupied, uint32_t each) {
    std::vector<Query> all = draw_queries(yard, half_occupied, 10 * each), kept;
    std::map<uint32_t, uint32_t> by_length;
    for (const Query &query : all)
        if (!finishes_at_dead_end(query) && by_length[query.length]++ < each) kept.push_back(query);
    return kept;
}

// Small yards full of loops, drawn at random, and the same with faults.
#pragma once
#include "../random_queries.h"
#include "queries.h"

// A plan as it is, or damaged: queries, reversals and the plan check.
inline void drawn_cases(Run &run, Draw &draw, const Drawn &drawn, uint32_t queries) {
    Site site(run, drawn.plan);
    site.plan_case();
    second::Sheet another{1, {}, second::List(2 * drawn.plan.count(), 0)};
    for (uint32_t i = 0; i < queries; i++) {
        const second::Query query = draw_query(draw, drawn);
        query_cases(draw, site, query, another, 5);
        if (const auto judged = site.judge(query); judged && drawn.plan.count() <= 6)
            confirm_by_all_walks(run, *judged);
    }
    pull_out_cases(draw, site, 1, 2 * drawn.plan.count() + 6);
    if (drawn.plan.count() > 8 || drawn.plan.turns.size() < 2) return;
    const uint32_t length = 1 + draw.below(12), c = drawn.plan.turns[0], s = drawn.plan.turns[1];
    for (uint32_t end : {0, 1}) confirm_by_all_lists(site, run, {length, 2 * c + end, s});
}

inline void loopy_yard(Run &run, Draw &draw, uint64_t) {
    const bool tiny = draw.one_in(2);
    const Drawn drawn = draw_yard(draw, tiny ? 3 + draw.below(4) : 7 + draw.below(6));
    drawn_cases(run, draw, drawn, 3);
}

// Queries are drawn for the plan as it was before.
inline void damaged_yard(Run &run, Draw &draw, uint64_t) {
    Drawn drawn = draw_yard(draw, 3 + draw.below(6));
    const second::Query query = draw_query(draw, drawn);
    second::Sheet another{1, {}, second::List(2 * drawn.plan.count(), 0)};
    damage_plan(draw, drawn.plan);
    Site site(run, drawn.plan);
    site.plan_case();
    query_cases(draw, site, query, another, 1);
    pull_out_cases(draw, site, 1, 12);
}

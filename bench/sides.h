// The sides that are measured: the library's calls, and the programs that they are compared with. A side makes ready
// what it prepares before its call, and then answers a query into an outcome.
#pragma once
#include "../cpp/second_search.h"
#include "algorithm_1.h"
#include "finder.h"
#include "lemon_search.h"
#include "search_queries.h"
#include <functional>
#include <stdexcept>

// An answer and its buffers, which begin with numbers that no search writes.
struct Outcome {
    finder_answer answer{};
    std::vector<uint32_t> route, labels;

    explicit Outcome(const Query &query) : route(FINDER_STEPS_MOST, 7), labels(2 * query.plan.count(), 7) {}

    bool operator==(const Outcome &other) const {
        const finder_answer &x = answer, &y = other.answer;
        return x.refusal == y.refusal && x.place == y.place && x.total == y.total && x.reversals == y.reversals &&
               x.steps == y.steps && route == other.route && labels == other.labels;
    }
};

using Call = std::function<void(Outcome &)>;

inline Call search_ready(const Query &query, size_t turns_len) {
    return [&query, turns_len](Outcome &outcome) {
        const Plan &plan = query.plan;
        outcome.answer =
            finder_search(plan.points, plan.sections.data(), plan.sections.size(), plan.turns.data(), turns_len,
                          query.length, query.start, query.start_end, query.finish, query.finish_end,
                          outcome.route.data(), outcome.route.size(), outcome.labels.data(), outcome.labels.size());
    };
}

inline Call finder_ready(const Query &query) { return search_ready(query, query.plan.turns.size()); }
// Without forbidden turns nothing asks for a pull-out.
inline Call no_turns_ready(const Query &query) { return search_ready(query, 0); }

inline Outcome found(const Query &query) {
    Outcome outcome(query);
    finder_ready(query)(outcome);
    return outcome;
}

// The sheet of what the search has found: its walk, or that there is no route.
inline Call sheet_ready(const Query &query) {
    return [&query, sheet = found(query)](Outcome &outcome) {
        const Plan &plan = query.plan;
        const uint32_t claim = sheet.answer.refusal == FINDER_OK;
        outcome.answer = finder_check_sheet(plan.points, plan.sections.data(), plan.sections.size(), plan.turns.data(),
                                            plan.turns.size(), query.length, query.start, query.start_end, query.finish,
                                            query.finish_end, claim, sheet.route.data(), sheet.answer.steps,
                                            sheet.labels.data(), sheet.labels.size());
    };
}

inline Call check_ready(const Query &query) {
    return [&query](Outcome &outcome) {
        const Plan &plan = query.plan;
        outcome.answer = finder_check_plan(plan.points, plan.sections.data(), plan.sections.size(), plan.turns.data(),
                                           plan.turns.size());
    };
}

inline Call algorithm_1_ready(const Query &query) {
    return [&query](Outcome &outcome) { outcome.answer = baseline::algorithm_1(query, outcome.route, outcome.labels); };
}

inline Call lemon_ready(const Query &query) {
    return [&query](Outcome &outcome) {
        outcome.answer = baseline::LemonSearch(query, outcome.labels.size()).run(outcome.route, outcome.labels);
    };
}

// The best case of a graph that is kept: all of it stands before the call, that of this very query.
inline Call lemon_prebuilt_ready(const Query &query) {
    const auto search = std::make_shared<baseline::LemonSearch>(query, 2 * query.plan.count());
    return [search](Outcome &outcome) { outcome.answer = search->run(outcome.route, outcome.labels); };
}

inline Call second_ready(const Query &query) {
    return [&query](Outcome &outcome) {
        const second::Query asked{query.length, query.start, query.start_end, query.finish, query.finish_end};
        second::SearchAnswer answer = second::search(query.plan, asked, outcome.route, outcome.labels);
        outcome.answer = {answer.refusal, answer.place, answer.total, answer.reversals, answer.steps};
        outcome.route = std::move(answer.route);
        outcome.labels = std::move(answer.labels);
    };
}

struct Side {
    const char *name;
    Call (*ready)(const Query &);
    bool searches;                 // its outcome is to be that of finder_search
    uint32_t sections_most = 1024; // on larger yards it takes too long; 0 for what is counted and not timed
};

inline const std::vector<Side> sides{
    {"search", finder_ready, true},
    {"search, no turns", no_turns_ready, false, 0},
    {"sheet", sheet_ready, false},
    {"plan", check_ready, false},
    {"Algorithm 1", algorithm_1_ready, true},
    {"LEMON", lemon_ready, true},
    {"LEMON, prebuilt", lemon_prebuilt_ready, true},
    {"second program", second_ready, true, 30},
};

inline const Side &side_named(const std::string &name) {
    for (const Side &side : sides)
        if (name == side.name) return side;
    throw std::invalid_argument(name);
}

// Plans and queries with faults, and the refusal that each gets: refusals 1 to 6 for every function that checks a plan, 7 to 10 for
// those that check a query.
#pragma once
#include "plan.h"
#include "second_search.h"
#include <string>

struct FaultyPlan {
    std::string what;
    Plan plan;
    uint32_t number, place;
};

struct FaultyQuery {
    std::string what;
    Plan plan;
    second::Query query;
    uint32_t number, place;
};

// Each fault alone. The plan is one like yard Y or the Loop: section 3 is a destination, points 1 and 2 are joined, and the only
// forbidden turn is (1, 2).
inline std::vector<FaultyPlan> plan_faults(const Plan &good) {
    const uint32_t length = good.sections[6 * 3 + 2];
    return {
        {"a section cut short", with(good, [](Plan &plan) { plan.sections.pop_back(); }), 1, 0},
        {"a turn cut short", with(good, [](Plan &plan) { plan.turns.pop_back(); }), 1, 0},
        {"no points", with(good, [](Plan &plan) { plan.points = 0; }), 1, 0},
        {"769 points", with(good, [](Plan &plan) { plan.points = 769; }), 1, 0},
        {"free from one end only", with(good, [=](Plan &plan) { plan.occupy(3, length, 0); }), 2, 3},
        {"two points joined again", with(good, [](Plan &plan) { plan.join(2, 1, 50); }), 3, good.count()},
        {"a point without a section", with(good, [](Plan &plan) { plan.points++; }), 4, good.points},
        {"a turn onto a destination", with(good, [](Plan &plan) { plan.forbid(1, 3); }), 5, 1},
        {"the turn again", with(good, [](Plan &plan) { plan.forbid(2, 1); }), 6, 1},
    };
}

// The refusals from the last to the first: each fault is added to those before it, and its number takes over.
inline std::vector<FaultyPlan> added_plan_faults(Plan plan) {
    const uint32_t points = plan.points, sections = plan.count(), length = plan.sections[6 * 3 + 2];
    std::vector<FaultyPlan> faults;
    plan.forbid(2, 1);
    faults.push_back({"6 before 7", plan, 6, 1});
    plan.forbid(1, 1);
    faults.push_back({"5 before 6", plan, 5, 2});
    plan.points++;
    faults.push_back({"4 before 5", plan, 4, points});
    plan.join(2, 1, 50);
    faults.push_back({"3 before 4", plan, 3, sections});
    plan.occupy(3, length, 0);
    faults.push_back({"2 before 3", plan, 2, 3});
    plan.turns.push_back(0);
    faults.push_back({"1 before 2", plan, 1, 0});
    return faults;
}

// The query of document 01's first case, over yard Y, and the labels of its answer.
inline const second::Query asked{600, 3, 0, 4, 0};
inline const second::List labels_y{4294967295u, 3000, 3600,        4294967295u, 4294967295u,
                                   2500,        4000, 4294967295u, 4294967295u, 4294967295u};

inline void length_and_start_faults(std::vector<FaultyQuery> &faults) {
    const auto add = [&](const char *what, const second::Query &query, uint32_t number) {
        faults.push_back({what, yard_y, query, number, 0});
    };
    for (uint32_t length : {0u, 20001u, 4294967295u}) add("L out of range", {length, 3, 0, 4, 0}, 7);
    add("L = 601", {601, 3, 0, 4, 0}, 8);
    for (uint32_t section : {5u, 6u, 1024u, 2147483651u, 4294967295u})
        add("start section out of range", {600, section, 0, 4, 0}, 8);
    for (uint32_t end : {2u, 3u, 4294967295u}) add("start end out of range", {600, 3, end, 4, 0}, 8);
    for (uint32_t section : {0u, 1u, 4u}) add("a free start section", {1, section, 0, 3, 1}, 8);
    const Plan connecting = with(yard_y, [](Plan &plan) { plan.occupy(1, 0, 0); });
    faults.push_back({"stock on a connecting section", connecting, {400, 1, 0, 4, 0}, 8, 0});
}

inline void finish_faults(std::vector<FaultyQuery> &faults) {
    const auto add = [&](const char *what, const second::Query &query) {
        faults.push_back({what, yard_y, query, 9, 0});
    };
    for (uint32_t section : {5u, 6u, 1024u, 2147483652u, 4294967295u})
        add("finish section out of range", {600, 3, 0, section, 0});
    for (uint32_t end : {2u, 3u, 4294967295u}) add("finish end out of range", {600, 3, 0, 4, end});
    for (uint32_t end : {2u, 4294967294u}) add("no end of the start section", {600, 3, 0, 3, end});
    for (uint32_t section : {1u, 2u}) add("a connecting finish", {400, 3, 0, section, 0});
    for (uint32_t end : {0u, 1u}) add("the start's section and end", {600, 3, end, 3, end});
    const auto room = [&](const char *what, uint32_t from_a, uint32_t from_b) {
        faults.push_back({what, with(yard_y, [=](Plan &plan) { plan.occupy(4, from_a, from_b); }), asked, 10, 0});
    };
    room("599 free at the finish", 599, 0);
    room("room at the other end only", 0, 2499);
    room("a locked finish", 0, 0);
}

// Each fault of a query over yard Y, or of the yard, alone.
inline std::vector<FaultyQuery> query_faults() {
    std::vector<FaultyQuery> faults;
    for (const FaultyPlan &fault : plan_faults(yard_y))
        faults.push_back({fault.what, fault.plan, asked, fault.number, fault.place});
    length_and_start_faults(faults);
    finish_faults(faults);
    return faults;
}

// The refusals from 10 to 1, added one by one to a plan like yard Y.
inline std::vector<FaultyQuery> added_query_faults(Plan plan) {
    second::Query query = asked;
    std::vector<FaultyQuery> faults;
    plan.occupy(4, 599, 0);
    faults.push_back({"10 before 11", plan, query, 10, 0});
    query.finish = 2;
    faults.push_back({"9 before 10", plan, query, 9, 0});
    query.start_end = 2;
    faults.push_back({"8 before 9", plan, query, 8, 0});
    query.length = 20001;
    faults.push_back({"7 before 8", plan, query, 7, 0});
    for (const FaultyPlan &fault : added_plan_faults(plan))
        faults.push_back({fault.what, fault.plan, query, fault.number, fault.place});
    return faults;
}

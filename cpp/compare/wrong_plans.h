// Wrong plan checks.
#pragma once
#include "wrong_calls.h"

namespace wrong {

inline second::Refusal check_in_order(const Plan &plan, std::array<size_t, 5> order) {
    if (second::wrong_counts(plan)) return {1};
    const second::Yard yard(plan);
    for (size_t i : order) {
        const second::PlanRule &rule = second::plan_rules[i];
        for (size_t place = 0; place < rule.places(yard); place++)
            if (rule.broken(yard, place)) return {rule.number, static_cast<uint32_t>(place)};
    }
    return {};
}

inline second::Refusal three_before_two(const Plan &plan) { return check_in_order(plan, {1, 0, 2, 3, 4}); }

inline second::Refusal highest_place(const Plan &plan) {
    const second::Refusal right = second::check_plan(plan);
    if (right.number < 2) return right;
    const second::Yard yard(plan);
    const second::PlanRule &rule = second::plan_rules[right.number - 2];
    for (size_t place = rule.places(yard); place-- > 0;)
        if (rule.broken(yard, place)) return {right.number, static_cast<uint32_t>(place)};
    return right;
}

// The section that has the points first is named, not the one that has them again.
inline second::Refusal earlier_section(const Plan &plan) {
    const second::Refusal right = second::check_plan(plan);
    if (right.number != 3) return right;
    const second::Yard yard(plan);
    const second::Section &later = yard.sections[right.place];
    for (uint32_t s : yard.meeting.at(later.a))
        if (yard.sections[s].at(later.b)) return {3, s};
    return right;
}

// A sum of free lengths past 32 bits looks like a short one.
inline second::Refusal sum_wraps(Plan plan) {
    const second::Refusal right = second::check_plan(plan);
    if (right.number != 2) return right;
    uint32_t *section = &plan.sections[6 * right.place];
    const uint32_t sum = section[4] + section[5];
    if (sum >= section[2]) return right;
    plan.occupy(right.place, sum, 0);
    return second::check_plan(plan);
}

inline second::Refusal always_passes(const Plan &) { return {}; }

} // namespace wrong

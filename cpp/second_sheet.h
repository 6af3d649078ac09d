// A second program for the sheet check (1 to 11, 17, 18, 19), written from document 01 alone. It takes the second search's
// list of admissible steps and none of its walks or distances. Sums are taken in 64 bits: none of them wraps.
#pragma once
#include "second_search.h"

namespace second {

struct Sheet {
    uint32_t claim;
    List list, labels;
};

struct SheetAnswer {
    uint32_t refusal = 0, place = 0;
    uint64_t total = 0, reversals = 0, steps = 0;

    bool operator==(const SheetAnswer &) const = default;
};

// The total, reversals and steps of a list of arrivals, if it is an admissible walk.
inline std::optional<SheetAnswer> walk_of(const Rules &rules, const List &list) {
    SheetAnswer walk{0, 0, rules.first_distance() + rules.room(), 0, list.size()};
    uint32_t at = rules.start();
    for (uint32_t next : list) {
        const auto steps = rules.steps_from(at);
        const auto step = std::ranges::find(steps, next, &Step::to);
        if (step == steps.end()) return std::nullopt;
        walk.total += step->cost;
        walk.reversals += step->reverses;
        at = next;
    }
    if (!rules.ends(at)) return std::nullopt;
    return walk;
}

// Whether a label is at most a cost plus another label. "None" is above all numbers, and a cost plus "none" is "none".
inline bool at_most(uint64_t label, uint64_t cost, uint64_t after) {
    if (after == none) return true;
    return label != none && label <= cost + after;
}

// Rules of a sheet that can be left out, to see whether an answer hangs on them. Without "none is above" it is a number,
// and without "equal" the start label may be less than it should.
enum SheetRule { end_label, step_label, none_is_above, start_label_equal, no_sheet_rule };

// "At an arrival at the finish point over a section other than y, the label is at most the finish room; for each admissible
// step, the label before is at most the cost plus the label after."
inline bool breaks_a_label_rule(const Rules &rules, const List &labels, uint32_t arrival,
                                SheetRule left_out = no_sheet_rule) {
    const uint64_t label = labels[arrival];
    if (left_out != end_label && rules.ends(arrival) && !at_most(label, rules.room(), 0)) return true;
    return std::ranges::any_of(rules.steps_from(arrival), [&](const Step &step) {
        if (left_out == none_is_above) return label > step.cost + labels[step.to];
        return left_out != step_label && !at_most(label, step.cost, labels[step.to]);
    });
}

// Refusals 17 to 19, for a query that passes 1 to 11 with these labels.
inline SheetAnswer check_claim(const Rules &rules, const Sheet &sheet, SheetRule left_out = no_sheet_rule) {
    if (sheet.claim > 1 || (sheet.claim == 0 && !sheet.list.empty())) return {17};
    const auto walk = sheet.claim == 1 ? walk_of(rules, sheet.list) : SheetAnswer{};
    if (!walk) return {17};
    for (uint32_t arrival = 0; arrival < rules.arrivals(); arrival++)
        if (breaks_a_label_rule(rules, sheet.labels, arrival, left_out)) return {18, arrival};
    const uint64_t label = sheet.labels[rules.start()], from_start = rules.first_distance() + label;
    const bool less = left_out == start_label_equal && from_start < walk->total;
    const bool right = sheet.claim == 0 ? label == none : label != none && (from_start == walk->total || less);
    if (!right) return {19};
    return *walk;
}

inline SheetAnswer check_sheet(const Plan &plan, const Query &query, const Sheet &sheet, PullOuts &pull_outs) {
    const Refusal refusal = check_query(plan, query, sheet.labels.size());
    if (refusal.number != 0) return {refusal.number, refusal.place};
    return check_claim(Rules(plan, query, pull_outs), sheet);
}

inline SheetAnswer check_sheet(const Plan &plan, const Query &query, const Sheet &sheet) {
    PullOuts pull_outs(plan);
    return check_sheet(plan, query, sheet, pull_outs);
}

} // namespace second

// Sheets other than the search writes them: other shortest walks, longer walks, and what can be wrong with a sheet.
#pragma once
#include "draw.h"
#include "second_sheet.h"
#include <iterator>

namespace second {

constexpr auto no_number = static_cast<uint32_t>(none);

// Another shortest walk, or the same: each step is as much shorter than the last as it costs.
inline List draw_shortest(Draw &draw, const Rules &rules, const List &labels) {
    List list;
    for (uint32_t at = rules.start(); !rules.ends(at) || labels[at] != rules.room(); at = list.back()) {
        List next;
        for (const Step &step : rules.steps_from(at))
            if (labels[step.to] != none && labels[at] == step.cost + labels[step.to]) next.push_back(step.to);
        list.push_back(draw.of(next));
    }
    return list;
}

// An admissible walk, or the front of one: it may pass an end, and meet an arrival twice.
inline List draw_walk(Draw &draw, const Rules &rules) {
    List list;
    for (uint32_t at = rules.start(); list.size() < 30 && !(rules.ends(at) && draw.one_in(2)); at = list.back()) {
        List next;
        for (const Step &step : rules.steps_from(at)) next.push_back(step.to);
        if (next.empty()) break;
        list.push_back(draw.of(next));
    }
    return list;
}

// What can be wrong with a sheet, or only look so.
enum Damage : size_t {
    label_more,
    label_less,
    label_none,
    label_0,
    label_greatest,
    labels_of_another,
    labels_cut,
    arrivals_swapped,
    arrival_dropped,
    arrival_repeated,
    arrival_any,
    list_of_another,
    walk_at_random,
    claim_flipped,
    claim_any,
    damages
};

inline constexpr std::array<std::string_view, damages> damage_words{
    "a label one more",
    "a label one less",
    "a label none",
    "a label 0",
    "a label one below none",
    "the labels of another query",
    "a label too few or too many",
    "two arrivals swapped",
    "an arrival dropped",
    "an arrival repeated",
    "an arrival of any kind",
    "the list of another query",
    "a walk at random",
    "the other claim",
    "a claim of any kind",
};

// One damage to a sheet; half of the labels that change are those of the start or of the list.
inline void damage_sheet(Draw &draw, Damage damage, const Rules &rules, const Sheet &another, Sheet &sheet) {
    const uint32_t any = draw.below(rules.arrivals() + 2), steps = static_cast<uint32_t>(sheet.list.size());
    List walk{rules.start()};
    std::copy_if(sheet.list.begin(), sheet.list.end(), std::back_inserter(walk),
                 [&](uint32_t arrival) { return arrival < rules.arrivals(); });
    uint32_t &label = sheet.labels[draw.one_in(2) ? draw.of(walk) : draw.below(rules.arrivals())];
    const uint32_t at = steps == 0 ? 0 : draw.below(steps), other = steps == 0 ? 0 : draw.below(steps);
    const auto place = sheet.list.begin() + at;
    switch (damage) {
    case label_more: label++; break; // none becomes 0
    case label_less: label--; break; // 0 becomes none
    case label_none: label = no_number; break;
    case label_0: label = 0; break;
    case label_greatest: label = no_number - 1; break;
    case labels_of_another: sheet.labels = another.labels; break;
    case labels_cut:
        sheet.labels.resize(draw.one_in(2) ? draw.below(rules.arrivals()) : any + 1 + rules.arrivals());
        break;
    case arrivals_swapped:
        if (steps > 0) std::swap(*place, sheet.list[other]);
        break;
    case arrival_dropped:
        if (steps > 0) sheet.list.erase(place);
        break;
    case arrival_repeated:
        if (steps > 0) sheet.list.insert(place, sheet.list[at]);
        break;
    case arrival_any:
        if (steps > 0 && draw.one_in(2))
            sheet.list[at] = draw.one_in(8) ? no_number : any;
        else
            sheet.list.insert(place, any);
        break;
    case list_of_another: sheet.list = another.list; break;
    case walk_at_random: sheet.list = draw_walk(draw, rules); break;
    case claim_flipped:
        sheet.claim = 1 - sheet.claim;
        if (draw.one_in(2)) sheet.list.clear();
        break;
    default: sheet.claim = draw.one_in(4) ? no_number : draw.below(4);
    }
}

} // namespace second

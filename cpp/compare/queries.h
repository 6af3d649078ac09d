// The cases of one query and of one plan's reversals.
#pragma once
#include "site.h"

// The second program itself, on tiny yards: its label, and its walk from the start, are compared with all walks there
// are. A shortest walk meets no arrival twice, so it has no more steps than there are arrivals to step to.
inline void confirm_arrival(const Run &run, const Judged &judged, uint32_t arrival) {
    const second::Rules &rules = judged.rules;
    std::set<uint32_t> stepped_to;
    for (const second::Step &step : rules.steps) stepped_to.insert(step.to);
    const auto walks = second::all_walks(rules, arrival, stepped_to.size());
    const auto smallest = std::ranges::min_element(walks);
    const uint64_t least = walks.empty() ? second::none : smallest->cost + rules.room();
    run.confirm(judged.answer.labels[arrival] == least, "a label is not the least of all walks");
    if (arrival != rules.start()) return;
    const second::List list = walks.empty() ? second::List{} : smallest->arrivals;
    run.confirm(judged.sheet().list == list, "the walk is not the smallest of all");
}

inline void confirm_by_all_walks(const Run &run, const Judged &judged) {
    for (uint32_t arrival = 0; arrival < judged.rules.arrivals(); arrival++) confirm_arrival(run, judged, arrival);
}

// The search's own sheet is accepted with the same numbers, and so is any other shortest walk.
inline void right_sheets(Draw &draw, Site &site, const second::Query &query, const std::optional<Judged> &judged) {
    const second::SearchAnswer &answer = judged->answer;
    const second::SheetAnswer accepted{0, 0, answer.total, answer.reversals, answer.steps};
    second::Sheet sheet = judged->sheet();
    site.run().confirm(site.sheet_case(query, judged, sheet) == accepted, "the search's sheet is not accepted");
    if (answer.refusal != 0) return;
    const second::List first = std::exchange(sheet.list, second::draw_shortest(draw, judged->rules, sheet.labels));
    if (sheet.list == first) return;
    const second::SheetAnswer other = site.sheet_case(query, judged, sheet);
    site.run().confirm(other.refusal == 0 && other.total == answer.total, "another shortest walk is not accepted");
}

// So many damages drawn at random; after every second one another on top of it.
inline void wrong_sheets(Draw &draw, Site &site, const second::Query &query, const std::optional<Judged> &judged,
                         const second::Sheet &another, uint32_t count) {
    for (; count > 0; count--) {
        second::Sheet wrong = judged->sheet();
        second::damage_sheet(draw, static_cast<second::Damage>(draw.below(second::damages)), judged->rules, another,
                             wrong);
        if (wrong.labels.size() == judged->rules.arrivals() && draw.one_in(2))
            second::damage_sheet(draw, static_cast<second::Damage>(draw.below(second::damages)), judged->rules, another,
                                 wrong);
        site.sheet_case(query, judged, wrong);
    }
}

// A route buffer that is long enough, and at times one that just is, one that is not, and labels of another length.
inline void searches(Draw &draw, Site &site, const second::Query &query, const std::optional<Judged> &judged) {
    const uint32_t right = 2 * site.plan().count(), steps = judged ? judged->answer.steps : draw.below(3);
    site.search_case(query, judged, right + draw.below(3), right);
    if (draw.one_in(4)) site.search_case(query, judged, steps, right);
    if (draw.one_in(4) && steps > 0) site.search_case(query, judged, draw.below(steps), right);
    if (draw.one_in(16)) site.search_case(query, judged, steps, draw.below(2 * right));
}

// All cases of a query; another is a sheet to damage it with, and becomes its own.
inline void query_cases(Draw &draw, Site &site, const second::Query &query, second::Sheet &another, uint32_t wrong) {
    const std::optional<Judged> judged = site.judge(query);
    searches(draw, site, query, judged);
    if (!judged) {
        site.sheet_case(query, judged, another);
        return;
    }
    right_sheets(draw, site, query, judged);
    wrong_sheets(draw, site, query, judged, another, wrong);
    another = judged->sheet();
}

// One turn both ways, each at both ends of the section that the train came over, of which one is the turn's point.
inline void turn_cases(Draw &draw, Site &site, size_t turn, uint32_t length) {
    const uint32_t c = site.plan().turns[2 * turn], s = site.plan().turns[2 * turn + 1];
    for (const auto &[from, to] : {std::pair(c, s), std::pair(s, c)})
        for (uint32_t end : {0, 1}) {
            const uint32_t entries = draw.one_in(3) ? draw.below(3) : site.plan().count() + draw.below(3);
            site.pull_out_case({length, 2 * from + end, to}, entries);
        }
}

// The lists that grow find what is found among all chained lists.
inline void confirm_by_all_lists(const Site &site, const Run &run, const second::Question &question) {
    second::Turning turning{};
    if (!site.passes() || second::check_question(site.yard(), question, turning).number != 0) return;
    const auto lists = second::chained_lists(site.yard(), turning.p, second::Twice::left_out);
    run.confirm(second::grown_pull_out(site.yard(), turning) == second::first_pull_out(site.yard(), turning, lists),
                "lists that grow miss the smallest pull-out");
}

// Some turns, and a question that is mostly about none.
inline void pull_out_cases(Draw &draw, Site &site, uint32_t count, uint32_t longest) {
    const uint32_t sections = site.plan().count();
    const uint32_t arrival = draw.below(2 * sections + 2), section = draw.below(sections + 1),
                   any = draw.below(longest + 2);
    site.pull_out_case({any, arrival, section}, draw.below(4));
    const auto turns = static_cast<uint32_t>(site.plan().turns.size() / 2);
    for (; turns > 0 && count > 0; count--) {
        const uint32_t turn = draw.below(turns), length = 1 + draw.below(longest);
        turn_cases(draw, site, turn, length);
    }
}

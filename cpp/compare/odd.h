// Yards in which one number at a time is odd: every number of the plan, the query, the question and the sheet gets
// every value at a limit, and tables get entries too few and too many.
#pragma once
#include "../paper_yard.h"
#include "queries.h"

struct OddCase {
    Plan plan;
    second::Query query;
    second::Question question;
    second::Sheet sheet;
};

// What is asked again when a number changes.
enum Part : size_t { of_plan, of_query, of_question, of_sheet, parts };

inline std::vector<uint32_t *> numbers_of(OddCase &odd, Part part) {
    std::vector<uint32_t *> all;
    const auto add = [&](second::List &list) {
        for (uint32_t &number : list) all.push_back(&number);
    };
    second::Query &q = odd.query;
    switch (part) {
    case of_plan:
        all = {&odd.plan.points};
        add(odd.plan.sections);
        add(odd.plan.turns);
        break;
    case of_query: all = {&q.length, &q.start, &q.start_end, &q.finish, &q.finish_end}; break;
    case of_question: all = {&odd.question.length, &odd.question.arrival, &odd.question.section}; break;
    default:
        all = {&odd.sheet.claim};
        add(odd.sheet.list);
        add(odd.sheet.labels);
    }
    return all;
}

inline void ask_again(Run &run, const OddCase &odd, Part part) {
    Site site(run, odd.plan);
    const std::optional<Judged> judged = part == of_question ? std::nullopt : site.judge(odd.query);
    if (part == of_plan) site.plan_case();
    if (part == of_plan || part == of_query) site.search_case(odd.query, judged, 2048, odd.sheet.labels.size());
    if (part != of_question) site.sheet_case(odd.query, judged, odd.sheet);
    if (part == of_plan || part == of_question) site.pull_out_case(odd.question, 8);
}

inline second::List odd_values(uint32_t number) {
    return {0,           1,           2,          3,           4,          5,     6,      7,
            767,         768,         769,        1023,        1024,       2047,  2048,   20000,
            20001,       200000,      200001,     2147483648u, 65535,      65536, number, number - 1u,
            number + 1u, number ^ 1u, 2 * number, 4294967294u, 4294967295u};
}

inline void odd_number(Run &run, const OddCase &base, Part part, size_t position) {
    OddCase odd = base;
    uint32_t &number = *numbers_of(odd, part)[position];
    for (uint32_t value : odd_values(std::exchange(number, 0))) {
        number = value;
        ask_again(run, odd, part);
    }
}

// A section with the ends of another, and a turn that is another the other way round: one number alone hardly ever
// gives that.
inline void odd_twins(Run &run, const OddCase &base, uint32_t row) {
    for (uint32_t other = 0; other < base.plan.count(); other++) {
        OddCase odd = base;
        const uint32_t *from = &base.plan.sections[6 * other];
        odd.plan.sections[6 * row] = from[1];
        odd.plan.sections[6 * row + 1] = from[0];
        ask_again(run, odd, of_plan);
    }
    for (uint32_t other = 0; 2 * row < base.plan.turns.size() && 2 * other < base.plan.turns.size(); other++) {
        OddCase odd = base;
        odd.plan.turns[2 * row] = base.plan.turns[2 * other + 1];
        odd.plan.turns[2 * row + 1] = base.plan.turns[2 * other];
        ask_again(run, odd, of_plan);
    }
}

// Each table with its last entry gone, twice, and with one more.
inline void odd_tables(Run &run, const OddCase &base) {
    for (const auto &[table, part] : {std::pair(0, of_plan), {1, of_plan}, {2, of_sheet}, {3, of_sheet}})
        for (int change : {-2, -1, 1}) {
            OddCase odd = base;
            second::List *const tables[]{&odd.plan.sections, &odd.plan.turns, &odd.sheet.list, &odd.sheet.labels};
            second::List &changed = *tables[table];
            const size_t entries = changed.size();
            changed.resize(change < 0 && entries < 2 ? 0 : entries + static_cast<size_t>(change));
            ask_again(run, odd, part);
        }
}

// Yard Y; a loop round which a pull-out bends; document 003's yard with stock.
inline std::vector<OddCase> odd_bases() {
    const Plan paper = with(paper_yard, [](Plan &plan) {
        plan.occupy(3, 2600, 0);
        plan.occupy(4, 0, 1590);
        plan.occupy(9, 0, 1860);
    });
    std::vector<OddCase> bases{{yard_y, {600, 3, 0, 4, 0}, {600, 2, 2}, {}},
                               {loop_between_tracks, {600, 4, 0, 6, 0}, {600, 2, 2}, {}},
                               {paper, {500, 9, 0, 3, 0}, {500, 45, 23}, {}}};
    Run unused{Finder{}};
    for (OddCase &base : bases) base.sheet = Site(unused, base.plan).judge(base.query)->sheet();
    return bases;
}

// One row of changes at a time, those of all bases one after the other.
inline std::vector<std::function<void(Run &)>> odd_rows() {
    static std::vector<OddCase> bases = odd_bases();
    std::vector<std::function<void(Run &)>> rows;
    for (OddCase &base : bases) {
        rows.push_back([&](Run &run) { odd_tables(run, base); });
        for (uint32_t row = 0; row < base.plan.count(); row++)
            rows.push_back([&base, row](Run &run) { odd_twins(run, base, row); });
        for (size_t part = 0; part < parts; part++)
            for (size_t i = 0; i < numbers_of(base, static_cast<Part>(part)).size(); i++)
                rows.push_back([&base, part, i](Run &run) { odd_number(run, base, static_cast<Part>(part), i); });
    }
    return rows;
}

// Two numbers at once, drawn at random.
inline void draw_odd_numbers(Run &run, Draw &draw) {
    static const std::vector<OddCase> bases = odd_bases();
    for (uint32_t times = 0; times < 10; times++) {
        OddCase odd = draw.of(bases);
        for (uint32_t i = 0; i < 2; i++) {
            const auto part = static_cast<Part>(draw.below(parts));
            uint32_t &number = *draw.of(numbers_of(odd, part));
            number = draw.of(odd_values(number));
        }
        ask_again(run, odd, of_plan);
    }
}

// The stride has no common divisor with the number of rows, so that each comes up once.
inline void next_odd_row(Run &run, Draw &draw, uint64_t turn) {
    static const auto rows = odd_rows();
    if (turn < rows.size()) return rows[turn * 1009 % rows.size()](run);
    draw_odd_numbers(run, draw);
}

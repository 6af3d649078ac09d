// The C ABI, function by function: every refusal number that a function can give, every table empty or null, tables that touch a page
// that can't be touched at either side, read-only where they are lent as const. After each call every entry of every table is compared.
#include "lent.h"
#include "refusal_cases.h"
#include <cstddef>
#include <cstdio>
#include <map>
#include <set>
#include <string>

namespace {

using second::field_bytes;
using second::fields_with;
using second::joined;
using second::Query;
using second::Question;
using second::Sheet;

constexpr uint32_t none = FINDER_NONE;
int failed = 0;

// Callers see the structs as rows of 32-bit numbers.
static_assert(sizeof(finder_answer) == 20 && offsetof(finder_answer, place) == 4 &&
              offsetof(finder_answer, total) == 8 && offsetof(finder_answer, reversals) == 12 &&
              offsetof(finder_answer, steps) == 16);
static_assert(sizeof(finder_pull) == 12 && offsetof(finder_pull, place) == 4 && offsetof(finder_pull, count) == 8);
static_assert(sizeof(finder_yard) == 24 && offsetof(finder_yard, points) == 8 &&
              offsetof(finder_yard, sections) == 12 && offsetof(finder_yard, turns) == 16 &&
              offsetof(finder_yard, queries) == 20);
static_assert(FINDER_VERSION == 10000 * FINDER_VERSION_MAJOR + 100 * FINDER_VERSION_MINOR + FINDER_VERSION_PATCH);

// The numbers that each function gave.
std::map<std::string, std::set<uint32_t>> given;

void gives(const std::string &function, const std::string &what, const Call &call, const Left &expected) {
    given[function].insert(expected.numbers[0]);
    if (!leaves("abi_test: " + function + ", " + what, call, expected)) failed = 1;
}

Plan without_sections(const Plan &plan) {
    return with(plan, [](Plan &changed) { changed.sections.clear(); });
}
Plan without_turns(const Plan &plan) {
    return with(plan, [](Plan &changed) { changed.turns.clear(); });
}

void check_plan_calls() {
    const auto check = [](const std::string &what, const Plan &plan, uint32_t number, uint32_t place = 0) {
        gives("finder_check_plan", what, [&](Lending how) { return lend_check_plan(how, plan); },
              {{number, place, 0, 0, 0}, {plan.sections, plan.turns}, {}});
    };
    check("yard Y", yard_y, 0);
    check("no sections", without_sections(yard_y), 1);
    check("no turns", without_turns(yard_y), 0);
    check("no tables", {6, {}, {}}, 1);
    check("no points and no tables", {0, {}, {}}, 1);
    for (const FaultyPlan &fault : plan_faults(yard_y)) check(fault.what, fault.plan, fault.number, fault.place);
    for (const FaultyPlan &fault : added_plan_faults(yard_y)) check(fault.what, fault.plan, fault.number, fault.place);
}

// What the two buffers of the search hold before a call.
struct Buffers {
    List route, labels;

    Buffers(size_t route_entries, size_t label_entries)
        : route(filled(route_entries, 3000000000u)), labels(filled(label_entries, 4000000000u)) {}
};

const List labels_without_turns{none, 3000, 3000, none, none, 2500, 3400, none, none, none};
const List nones(10, none);

void searched(const std::string &what, const Plan &plan, const Query &query, const Buffers &before, const List &numbers,
              const List &route, const List &labels) {
    gives("finder_search", what,
          [&](Lending how) { return lend_search(how, plan, query, before.route, before.labels); },
          {numbers, {plan.sections, plan.turns, route, labels}, {}});
}

void search_refuses(const std::string &what, const Plan &plan, const Query &query, const Buffers &before,
                    uint32_t number, uint32_t place = 0) {
    searched(what, plan, query, before, {number, place, 0, 0, 0}, before.route, before.labels);
}

void search_calls() {
    for (size_t entries : {2, 3, 2048}) {
        const Buffers buffers(entries, 10);
        searched("yard Y", yard_y, asked, buffers, {0, 0, 4100, 1, 2}, in_front({2, 5}, buffers.route), labels_y);
    }
    for (size_t entries : {0, 2, 2048}) {
        const Buffers buffers(entries, 10);
        searched("no walk", yard_y, {600, 3, 0, 3, 1}, buffers, {12, 0, 0, 0, 0}, buffers.route, nones);
        search_refuses("no labels", yard_y, asked, Buffers(entries, 0), 11);
        for (size_t labels : {1, 9, 11, 2048})
            search_refuses("labels of another length", yard_y, asked, Buffers(entries, labels), 11);
    }
    search_refuses("no route buffer", yard_y, asked, Buffers(0, 10), 14);
    search_refuses("too short a route buffer", yard_y, asked, Buffers(1, 10), 14);
    search_refuses("no sections", without_sections(yard_y), asked, Buffers(2, 10), 1);
    search_refuses("no tables and no buffers", {6, {}, {}}, asked, Buffers(0, 0), 1);
    searched("no turns, no steps, no route buffer", three_points, {200, 0, 1, 1, 0}, Buffers(0, 4), {0, 0, 1000, 0, 0},
             {}, {none, 900, none, none});
    const Buffers both(2, 10);
    searched("no turns", without_turns(yard_y), asked, both, {0, 0, 3500, 0, 2}, {2, 5}, labels_without_turns);
    for (const auto &faults : {query_faults(), added_query_faults(yard_y)})
        for (const FaultyQuery &fault : faults)
            for (const Buffers &buffers : {Buffers(2, 10), Buffers(0, 10), Buffers(2048, 0), Buffers(0, 0)})
                search_refuses(fault.what, fault.plan, fault.query, buffers, fault.number, fault.place);
}

void pulled(const std::string &what, const Plan &plan, const Question &question, const List &before,
            const List &numbers, const List &after) {
    gives("finder_pull_out", what, [&](Lending how) { return lend_pull_out(how, plan, question, before); },
          {numbers, {plan.sections, plan.turns, after}, {}});
}

void pull_out_refuses(const std::string &what, const Plan &plan, const Question &question, uint32_t number,
                      uint32_t place = 0, std::initializer_list<size_t> sizes = {0, 1, 768}) {
    for (size_t entries : sizes) {
        const List list = filled(entries, 1000000);
        pulled(what, plan, question, list, {number, place, 0}, list);
    }
}

void pull_out_calls() {
    const Question question{600, 2, 2};
    for (size_t entries : {2, 3, 768}) {
        const List list = filled(entries, 1000000);
        pulled("the Loop", loop, question, list, {0, 0, 2}, in_front({0, 3}, list));
    }
    pull_out_refuses("too short a list, or none", loop, question, 14, 0, {0, 1});
    pull_out_refuses("no sections", without_sections(loop), question, 1);
    pull_out_refuses("no turns", without_turns(loop), question, 15);
    pull_out_refuses("no tables", {4, {}, {}}, question, 1);
    pull_out_refuses("no pull-out", loop, {601, 2, 2}, 16);
    pull_out_refuses("no forbidden turn", loop, {600, 2, 0}, 15);
    for (uint32_t arrival : {8u, none}) pull_out_refuses("no such arrival", loop, {600, arrival, 2}, 15);
    for (uint32_t section : {4u, none}) pull_out_refuses("no such section", loop, {600, 2, section}, 15);
    for (uint32_t length : {0u, 20001u, none}) pull_out_refuses("L out of range", loop, {length, 2, 2}, 7);
    for (const auto &faults : {plan_faults(loop), added_plan_faults(loop)})
        for (const FaultyPlan &fault : faults)
            pull_out_refuses(fault.what, fault.plan, question, fault.number, fault.place);
}

void sheet_gives(const std::string &what, const Plan &plan, const Query &query, const Sheet &sheet,
                 const List &numbers) {
    gives("finder_check_sheet", what, [&](Lending how) { return lend_check_sheet(how, plan, query, sheet); },
          {numbers, {plan.sections, plan.turns, sheet.list, sheet.labels}, {}});
}

void sheet_refuses(const std::string &what, const Plan &plan, const Query &query, const Sheet &sheet, uint32_t number,
                   uint32_t place = 0) {
    sheet_gives(what, plan, query, sheet, {number, place, 0, 0, 0});
}

void check_sheet_calls() {
    const Sheet sheet{1, {2, 5}, labels_y};
    sheet_gives("yard Y", yard_y, asked, sheet, {0, 0, 4100, 1, 2});
    sheet_gives("no route, no list", yard_y, {600, 3, 0, 3, 1}, {0, {}, nones}, {0, 0, 0, 0, 0});
    sheet_refuses("no sections", without_sections(yard_y), asked, sheet, 1);
    sheet_refuses("no turns: label 2 is too great", without_turns(yard_y), asked, sheet, 18, 2);
    sheet_gives("no turns", without_turns(yard_y), asked, {1, {2, 5}, labels_without_turns}, {0, 0, 3500, 0, 2});
    sheet_gives("no turns, no steps, no list", three_points, {200, 0, 1, 1, 0}, {1, {}, {none, 900, none, none}},
                {0, 0, 1000, 0, 0});
    sheet_refuses("no list with a walk", yard_y, asked, {1, {}, labels_y}, 17);
    sheet_refuses("no labels", yard_y, asked, {1, {2, 5}, {}}, 11);
    sheet_refuses("no tables and no sheet", {6, {}, {}}, asked, {1, {}, {}}, 1);
    for (size_t entries : {1, 9, 11, 2048})
        sheet_refuses("labels of another length", yard_y, asked, {1, {2, 5}, List(entries, none)}, 11);
    for (uint32_t claim : {2u, none}) sheet_refuses("no such claim", yard_y, asked, {claim, {2, 5}, labels_y}, 17);
    sheet_refuses("a list with no route", yard_y, {600, 3, 0, 3, 1}, {0, {2, 5}, nones}, 17);
    sheet_refuses("a list that is no walk", yard_y, asked, {1, {2, none}, labels_y}, 17);
    sheet_refuses("a label rule", yard_y, asked, {1, {2, 5}, nones}, 18, 5);
    sheet_refuses("the start label", yard_y, asked, {0, {}, labels_y}, 19);
    for (const auto &faults : {query_faults(), added_query_faults(yard_y)})
        for (const FaultyQuery &fault : faults)
            for (const Sheet &any : {sheet, Sheet{0, {}, {}}})
                sheet_refuses(fault.what, fault.plan, fault.query, any, fault.number, fault.place);
}

void read_gives(const std::string &what, const Bytes &file, const Tables &before, const List &numbers,
                const Tables &after) {
    gives("finder_read_yard", what, [&](Lending how) { return lend_read_yard(how, file, before); },
          {numbers, {after.sections, after.turns, after.queries}, file});
}

void read_yard_calls() {
    const Bytes file = joined(fields_with(yard_y, queries_y));
    const auto refuses = [](const std::string &what, const Bytes &bytes, const Tables &tables, uint32_t number,
                            uint32_t place) {
        read_gives(what, bytes, tables, {number, place, 0, 0, 0, 0}, tables);
    };
    for (size_t more : {0, 1, 500}) {
        const Tables tables = tables_of(30 + more, 2 + more, 10 + more);
        read_gives("yard Y", file, tables, {0, 0, 6, 5, 1, 2},
                   {in_front(yard_y.sections, tables.sections), in_front(yard_y.turns, tables.turns),
                    in_front(queries_y, tables.queries)});
        refuses("no file", {}, tables, 20, 0);
        refuses("a cut file", Bytes(file.begin(), file.end() - 1), tables, 20, 125);
    }
    refuses("no file and no tables", {}, tables_of(0, 0, 0), 20, 0);
    refuses("no tables", file, tables_of(0, 0, 0), 14, 0);
    refuses("no section table", file, tables_of(0, 2, 10), 14, 0);
    refuses("no turn table", file, tables_of(30, 0, 10), 14, 0);
    refuses("no query table", file, tables_of(30, 2, 0), 14, 0);
    read_gives("points only, no tables", field_bytes(1, {6}), {}, {0, 0, 6, 0, 0, 0}, {});
}

// Each function gave all the numbers that document 01 names for it, but for 13, which is never given.
void all_numbers() {
    const std::map<std::string, std::set<uint32_t>> named{
        {"finder_check_plan", {0, 1, 2, 3, 4, 5, 6}},
        {"finder_search", {0, 1, 2, 3, 4, 5, 6, 7, 8, 9, 10, 11, 12, 14}},
        {"finder_pull_out", {0, 1, 2, 3, 4, 5, 6, 7, 14, 15, 16}},
        {"finder_check_sheet", {0, 1, 2, 3, 4, 5, 6, 7, 8, 9, 10, 11, 17, 18, 19}},
        {"finder_read_yard", {0, 14, 20}},
    };
    if (given == named) return;
    failed = 1;
    std::puts("abi_test: a function did not give all of its numbers");
}

} // namespace

int main() {
    if (finder_version() != FINDER_VERSION) {
        failed = 1;
        std::printf("abi_test: the library has version %u, the header %u\n", finder_version(), FINDER_VERSION);
    }
    check_plan_calls();
    search_calls();
    pull_out_calls();
    check_sheet_calls();
    read_yard_calls();
    all_numbers();
    std::puts(failed ? "abi_test: failed" : "abi_test: good");
    return failed;
}

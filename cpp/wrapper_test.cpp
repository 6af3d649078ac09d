// finder.hpp: words for every refusal, descriptions that fit their buffer, sizes, accessors, and the same answers and buffers as the
// functions of finder.h give.
#include "finder.hpp"
#include "lent.h"
#include "refusal_cases.h"
#include <map>
#include <set>

namespace {

using finder::refusal;

int failed = 0;

void demand(bool holds, const std::string &what) {
    if (holds) return;
    failed = 1;
    std::printf("wrapper_test: %s\n", what.c_str());
}

static_assert(finder::sections_size() == 6144 && finder::turns_size() == 1536 && finder::queries_size() == 1280);
static_assert(finder::labels_size() == 2048 && finder::route_size() == 2048 && finder::pull_out_size() == 768);
static_assert(finder::labels_size(5) == 10 && finder::sections_size(5) == 30 && finder::turns_size(0) == 0);
static_assert(finder::section_of(7) == 3 && finder::end_of(7) == 1 && finder::arrival_at(3, 1) == 7);
static_assert(finder::verdict{}.ok() && !finder::verdict{refusal::train, 0}.ok());
static_assert(finder::walk{} && !finder::pulled{{refusal::no_pull_out, 0}, 0});

void words_for_all() {
    std::set<std::string_view> texts;
    for (uint32_t number = 0; number <= 20; number++) {
        const std::string_view words = finder::text(refusal{number});
        demand(!words.empty() && texts.insert(words).second, "words of its own for " + std::to_string(number));
    }
    for (uint32_t number : {21u, 255u, 4294967295u}) {
        demand(finder::text(refusal{number}).empty(), "no words for a number that is no refusal");
        demand(finder::place_word(refusal{number}).empty(), "no place for a number that is no refusal");
    }
}

// Places as document 01 names them.
void places() {
    const std::map<uint32_t, std::string_view> named{{2, "section"}, {3, "section"},  {4, "point"}, {5, "turn"},
                                                     {6, "turn"},    {18, "arrival"}, {20, "byte"}};
    for (uint32_t number = 0; number <= 20; number++) {
        const auto place = named.find(number);
        demand(finder::place_word(refusal{number}) == (place == named.end() ? "" : place->second),
               "the place of " + std::to_string(number));
    }
}

std::string described(refusal number, uint32_t place, size_t size) {
    std::string buffer(size + 8, '#');
    const size_t written = finder::describe(number, place, std::span(buffer).first(size));
    demand(written <= size && buffer.substr(written) == std::string(size + 8 - written, '#'),
           "what stands behind a description is kept");
    return buffer.substr(0, written);
}

// A buffer that is too short gets the front of the description.
void descriptions() {
    demand(described(refusal::point, 6, 100) == "refusal 4, point 6: a point has no section, or more than three",
           "a description with a place");
    demand(described(refusal::no_route, 0, 100) == "refusal 12: there is no route", "a description without a place");
    demand(described(refusal{4294967295u}, 7, 100) == "refusal 4294967295", "a description of no refusal");
    for (uint32_t number = 0; number <= 20; number++) {
        const std::string whole = described(refusal{number}, 4294967295u, 1000);
        demand(whole.size() <= finder::description_most, "description_most for " + std::to_string(number));
        for (size_t size = 0; size <= whole.size() + 1; size++)
            demand(described(refusal{number}, 4294967295u, size) == whole.substr(0, size), "a description cut short");
    }
    char buffer[finder::description_most];
    const finder::walk refused{{refusal::section, 3}, 0, 0, 0};
    const std::string_view said(buffer, finder::describe(refused, buffer));
    demand(said.starts_with("refusal 2, section 3: "), "the description of an answer");
}

finder::plan_view view(const Plan &plan) { return {plan.points, plan.sections, plan.turns}; }
finder::query asked_of(const second::Query &q) { return {q.length, q.start, q.start_end, q.finish, q.finish_end}; }

List numbers_of(const finder::verdict &a) { return {static_cast<uint32_t>(a.refused), a.place}; }
List numbers_of(const finder::walk &a) {
    return {static_cast<uint32_t>(a.refused), a.place, a.total, a.reversals, a.steps};
}
List numbers_of(const finder::pulled &a) { return {static_cast<uint32_t>(a.refused), a.place, a.count}; }
List numbers_of(const finder::yard &a) {
    return {static_cast<uint32_t>(a.refused), a.place, a.points, a.sections, a.turns, a.queries};
}

// Numbers and tables, read-only ones too, as the C function leaves them.
void same(const std::string &what, const List &numbers, const std::vector<List> &tables, const Left &expected) {
    demand(numbers == expected.numbers && tables == expected.tables, what + ": not what the C function gives");
}

void same_plan_check(const std::string &what, const Plan &plan) {
    List numbers = numbers_of(finder::check_plan(view(plan)));
    numbers.resize(5, 0);
    same("check_plan, " + what, numbers, {plan.sections, plan.turns}, lend_check_plan(Lending::back, plan));
}

void same_search(const std::string &what, const Plan &plan, const second::Query &query, size_t route_entries) {
    const List route_before = filled(route_entries, 3000000000u), labels_before = filled(10, 4000000000u);
    List route = route_before, labels = labels_before;
    const finder::walk found = finder::search(view(plan), asked_of(query), route, labels);
    same("search, " + what, numbers_of(found), {plan.sections, plan.turns, route, labels},
         lend_search(Lending::back, plan, query, route_before, labels_before));
    const second::Sheet sheet{found.ok(), List(route.begin(), route.begin() + found.steps), labels};
    const finder::walk judged =
        finder::check_sheet(view(plan), asked_of(query), finder::claim{sheet.claim}, sheet.list, sheet.labels);
    same("check_sheet, " + what, numbers_of(judged), {plan.sections, plan.turns, sheet.list, sheet.labels},
         lend_check_sheet(Lending::back, plan, query, sheet));
}

void same_pull_out(const Plan &plan, const second::Question &question, size_t entries) {
    const List before = filled(entries, 1000000);
    List list = before;
    const finder::pulled pulled =
        finder::pull_out(view(plan), question.length, question.arrival, question.section, list);
    same("pull_out", numbers_of(pulled), {plan.sections, plan.turns, list},
         lend_pull_out(Lending::back, plan, question, before));
}

void same_reading(const Bytes &file, const Tables &before) {
    Tables after = before;
    const finder::yard yard = finder::read_yard(file, after.sections, after.turns, after.queries);
    same("read_yard", numbers_of(yard), {after.sections, after.turns, after.queries},
         lend_read_yard(Lending::back, file, before));
}

void same_answers() {
    same_plan_check("yard Y", yard_y);
    for (const FaultyPlan &fault : plan_faults(yard_y)) same_plan_check(fault.what, fault.plan);
    for (size_t entries : {0, 1, 2, 3}) same_search("yard Y", yard_y, asked, entries);
    same_search("no walk", yard_y, {600, 3, 0, 3, 1}, 2);
    for (const FaultyQuery &fault : query_faults()) same_search(fault.what, fault.plan, fault.query, 2);
    for (size_t entries : {0, 2, 5}) same_pull_out(loop, {600, 2, 2}, entries);
    for (uint32_t length : {0u, 601u}) same_pull_out(loop, {length, 2, 2}, 2);
    const Bytes file = second::joined(second::fields_with(yard_y, queries_y));
    for (const Tables &tables : {tables_of(30, 2, 10), tables_of(40, 40, 40), tables_of(29, 2, 10)}) {
        same_reading(file, tables);
        same_reading({}, tables);
    }
    demand(finder::version() == finder::header_version, "the version of the library is that of the header");
}

void accessors() {
    const Bytes file = second::joined(second::fields_with(yard_y, queries_y));
    Tables tables = tables_of(40, 40, 40);
    const finder::yard yard = finder::read_yard(file, tables.sections, tables.turns, tables.queries);
    const finder::plan_view plan = yard.plan_in(tables.sections, tables.turns);
    demand(plan.points == 6 && plan.section_count() == 5 && plan.turn_count() == 1, "the plan of a yard");
    demand(plan.point(3, 0) == 2 && plan.point(3, 1) == 4 && plan.point_of(7) == 4, "the points of a section");
    demand(plan.length(3) == 2000 && plan.is_destination(3) && !plan.is_destination(1), "length and kind of a section");
    demand(plan.free_from(3, 0) == 100 && plan.free_from(3, 1) == 1300, "the free lengths of a section");
    const finder::query query = finder::yard::query_in(tables.queries, 1);
    demand(query.length == 601 && query.start == 3 && query.start_end == 0 && query.finish == 4 &&
               query.finish_end == 0,
           "a query of a yard");
}

} // namespace

int main() {
    words_for_all();
    places();
    descriptions();
    same_answers();
    accessors();
    std::puts(failed ? "wrapper_test: failed" : "wrapper_test: good");
    return failed;
}

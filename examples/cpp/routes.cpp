// Reads a yard file, searches each of its queries, and says in words what the train has to do, with the pull-out of every reversal. Then
// it hands what the search answered to the sheet checker.
//
//   routes [FILE]     standard input where there is no FILE
//
// Ends with status 1 where the file or the plan is refused or a sheet is not accepted, with 2 where the file can't be read.
#include "finder.hpp"
#include <fstream>
#include <iostream>
#include <string>
#include <vector>

namespace {

using Numbers = std::vector<std::uint32_t>;

// The tables that a yard file is read into.
struct Tables {
    Numbers sections = Numbers(finder::sections_size());
    Numbers turns = Numbers(finder::turns_size());
    Numbers queries = Numbers(finder::queries_size());
};

// What the search writes.
struct Buffers {
    Numbers route = Numbers(finder::route_size());
    Numbers labels;
};

std::string length_words(std::uint32_t decimetres) {
    const std::string metres = std::to_string(decimetres / 10) + "." + std::to_string(decimetres % 10);
    return std::to_string(decimetres) + " dm (" + metres + " m)";
}

std::string count_words(std::size_t count, const std::string &word) {
    return std::to_string(count) + " " + word + (count == 1 ? "" : "s");
}

// A query may name an end that there is not.
std::string end_words(std::uint32_t end) { return "end " + (end == 0 ? "A" : end == 1 ? "B" : std::to_string(end)); }

std::string refusal_words(const finder::verdict &answer) {
    std::string words(finder::description_most, ' ');
    words.resize(finder::describe(answer, words));
    return words;
}

std::string list_words(std::span<const std::uint32_t> sections) {
    std::string words = sections.size() == 1 ? "section " : "sections ";
    for (std::size_t i = 0; i < sections.size(); i++) words += (i == 0 ? "" : ", ") + std::to_string(sections[i]);
    return words;
}

// A line of what the train has to do. The lengths of all lines add up to the total.
void say_line(const std::string &words, std::uint32_t length) {
    std::cout << "  - " << words << ": " << length_words(length) << "\n";
}

// From one arrival to the next the train runs on, or it reverses where the turn is forbidden.
void say_step(const finder::plan_view &plan, std::uint32_t length, std::uint32_t from, std::uint32_t to) {
    const std::uint32_t section = finder::section_of(to);
    Numbers list(finder::pull_out_size(plan.points));
    const finder::pulled pulled = finder::pull_out(plan, length, from, section, list);
    const bool runs_on = pulled.refused == finder::refusal::no_turn;
    if (!runs_on)
        say_line("pull out over " + list_words(std::span(list).first(pulled.count)) + " until clear of point " +
                     std::to_string(plan.point_of(from)) + ", and reverse",
                 length);
    const std::string over = "over section " + std::to_string(section) + " to point ";
    say_line((runs_on ? "run on " : "go ") + over + std::to_string(plan.point_of(to)), plan.length(section));
}

void say_walk(const finder::plan_view &plan, const finder::query &query, const finder::walk &walk,
              const Buffers &buffers) {
    std::cout << "  Route: " << length_words(walk.total) << " in all, " << count_words(walk.reversals, "reversal")
              << ".\n";
    std::uint32_t at = finder::arrival_at(query.start, query.start_end);
    say_line("leave section " + std::to_string(query.start) + " by its " + end_words(query.start_end) + ", point " +
                 std::to_string(plan.point_of(at)),
             plan.free_from(query.start, query.start_end));
    for (std::size_t i = 0; i < walk.steps; i++) {
        say_step(plan, query.length, at, buffers.route[i]);
        at = buffers.route[i];
    }
    // Where the walk ends, the label is the finish room.
    say_line("enter section " + std::to_string(query.finish) + " by its " + end_words(query.finish_end) +
                 ", as far as there is room",
             buffers.labels[at]);
}

// What the search answered, as a sheet.
bool say_sheet(const finder::plan_view &plan, const finder::query &query, const finder::walk &walk,
               const Buffers &buffers) {
    const finder::walk judged = finder::check_sheet(plan, query, walk ? finder::claim::walk : finder::claim::no_route,
                                                    std::span(buffers.route).first(walk.steps), buffers.labels);
    std::cout << "  Sheet: " << (judged ? "accepted" : refusal_words(judged)) << ".\n";
    return judged.ok();
}

bool say_query(const finder::plan_view &plan, const finder::query &query, std::size_t number) {
    std::cout << "\nQuery " << number << ": a train of " << length_words(query.length) << ", from section "
              << query.start << " by its " << end_words(query.start_end) << " to section " << query.finish << " by its "
              << end_words(query.finish_end) << ".\n";
    Buffers buffers;
    buffers.labels.resize(finder::labels_size(plan.section_count()));
    const finder::walk walk = finder::search(plan, query, buffers.route, buffers.labels);
    if (walk)
        say_walk(plan, query, walk, buffers);
    else
        std::cout << "  " << refusal_words(walk) << ".\n";
    // "No route" can be checked too; the other refusals come with no labels.
    if (!walk && walk.refused != finder::refusal::no_route) return true;
    return say_sheet(plan, query, walk, buffers);
}

int say_yard(std::span<const std::uint8_t> file) {
    Tables tables;
    const finder::yard yard = finder::read_yard(file, tables.sections, tables.turns, tables.queries);
    if (!yard) {
        std::cout << refusal_words(yard) << ".\n";
        return 1;
    }
    const finder::plan_view plan = yard.plan_in(tables.sections, tables.turns);
    if (const finder::verdict checked = finder::check_plan(plan); !checked) {
        std::cout << refusal_words(checked) << ".\n";
        return 1;
    }
    std::cout << "A yard with " << count_words(plan.points, "point") << ", "
              << count_words(plan.section_count(), "section") << " and "
              << count_words(plan.turn_count(), "forbidden turn") << ".\n";
    bool accepted = true;
    for (std::size_t i = 0; i < yard.queries; i++)
        accepted = say_query(plan, finder::yard::query_in(tables.queries, i), i + 1) && accepted;
    return accepted ? 0 : 1;
}

// All bytes that can be read; the stream is bad where something hinders it.
std::vector<std::uint8_t> bytes_of(std::istream &in) {
    std::vector<std::uint8_t> bytes;
    char part[4096];
    while (in.read(part, sizeof part), in.gcount() > 0) bytes.insert(bytes.end(), part, part + in.gcount());
    return bytes;
}

} // namespace

int main(int words, char **word) {
    std::ifstream opened;
    if (words > 1) opened.open(word[1], std::ios::binary);
    std::istream &in = words > 1 ? opened : std::cin;
    const bool there = in.good();
    const std::vector<std::uint8_t> file = bytes_of(in);
    if (there && !in.bad()) return say_yard(file);
    std::cerr << "routes: can't read " << (words > 1 ? word[1] : "standard input") << "\n";
    return 2;
}

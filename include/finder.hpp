// finder.hpp: the route finder for C++20, over finder.h. Spans for tables and buffers, an enum for refusals, and words for them that a
// planner understands. Header-only. Nothing is allocated and nothing is thrown. What each function does, what it refuses in which order
// and what its buffers hold afterwards stands in finder.h, and so do the rules for threads, aliasing and lifetime.
#ifndef FINDER_HPP
#define FINDER_HPP

#include "finder.h"
#include <algorithm>
#include <array>
#include <charconv>
#include <cstddef>
#include <cstdint>
#include <span>
#include <string_view>

namespace finder {

// Limits; finder.h says of what.
inline constexpr std::size_t points_most = FINDER_POINTS_MOST;
inline constexpr std::size_t sections_most = FINDER_SECTIONS_MOST;
inline constexpr std::size_t turns_most = FINDER_TURNS_MOST;
inline constexpr std::size_t queries_most = FINDER_QUERIES_MOST;
inline constexpr std::uint32_t length_most = FINDER_LENGTH_MOST;
inline constexpr std::uint32_t train_most = FINDER_TRAIN_MOST;
// The label of an arrival from which no walk leads on.
inline constexpr std::uint32_t none = FINDER_NONE;
// No call takes more bytes of stack.
inline constexpr std::size_t stack_most = FINDER_STACK_MOST;

// How many entries tables have and buffers need. Called without an argument: for the largest plan, the largest file.
constexpr std::size_t sections_size(std::size_t sections = sections_most) noexcept {
    return FINDER_SECTIONS_LEN(sections);
}
constexpr std::size_t turns_size(std::size_t turns = turns_most) noexcept { return FINDER_TURNS_LEN(turns); }
constexpr std::size_t queries_size(std::size_t queries = queries_most) noexcept { return FINDER_QUERIES_LEN(queries); }
// Exactly so many labels.
constexpr std::size_t labels_size(std::size_t sections = sections_most) noexcept { return FINDER_LABELS_LEN(sections); }
// Always enough for a route, and for a pull-out.
constexpr std::size_t route_size(std::size_t sections = sections_most) noexcept { return FINDER_ROUTE_LEN(sections); }
constexpr std::size_t pull_out_size(std::size_t points = points_most) noexcept { return FINDER_PULL_OUT_LEN(points); }

// The version that this header belongs to, and that of the library that is linked.
inline constexpr std::uint32_t header_version = FINDER_VERSION;
inline std::uint32_t version() noexcept { return finder_version(); }

// Why a call is refused.
enum class refusal : std::uint32_t {
    ok = FINDER_OK,
    tables = FINDER_TABLES,
    section = FINDER_SECTION,
    same_points = FINDER_SAME_POINTS,
    point = FINDER_POINT,
    turn = FINDER_TURN,
    second_turn = FINDER_SECOND_TURN,
    train = FINDER_TRAIN,
    start = FINDER_START,
    finish = FINDER_FINISH,
    finish_room = FINDER_FINISH_ROOM,
    labels = FINDER_LABELS,
    no_route = FINDER_NO_ROUTE,
    steps = FINDER_STEPS,
    room = FINDER_ROOM,
    no_turn = FINDER_NO_TURN,
    no_pull_out = FINDER_NO_PULL_OUT,
    claim = FINDER_CLAIM,
    label_rule = FINDER_LABEL_RULE,
    start_label = FINDER_START_LABEL,
    file = FINDER_FILE
};

namespace detail {

// A refusal in words, and what its place counts, where it has one.
struct words {
    std::string_view text, place;
};

// By number.
inline constexpr std::array<words, 21> refusal_words{{
    {"not refused", ""},
    {"the plan has too few or too many points, sections or forbidden turns, or one of them is cut short", ""},
    {"a section breaks the rules: it joins two different points, is 0.1 m to 20,000 m long, connecting or a "
     "destination, and is free all along or keeps less than its length free",
     "section"},
    {"a section joins the same two points as an earlier one", "section"},
    {"a point has no section, or more than three", "point"},
    {"a forbidden turn is not between two different connecting sections that share a point", "turn"},
    {"a second forbidden turn at the same point", "turn"},
    {"the train's length is not 0.1 m to 2,000 m", ""},
    {"the train can't start there: no such section or end, no destination, or less stock than the train is long", ""},
    {"the train can't finish there: no such section or end, no destination, or the start itself", ""},
    {"the finish has less room than the train is long", ""},
    {"there is not one label for each arrival, two for each section", ""},
    {"there is no route", ""},
    {"the route has more than 2,048 steps", ""},
    {"the answer does not fit the space that was lent for it", ""},
    {"no such reversal: no such arrival or section, or no forbidden turn between them at the arrival's point", ""},
    {"there is nowhere to pull the train out for this reversal", ""},
    {"the sheet claims neither a route nor \"no route\", lists steps for \"no route\", or lists steps that are no "
     "admissible walk",
     ""},
    {"the sheet's label of an arrival is greater than a step or the finish allows", "arrival"},
    {"the sheet's label at the start does not fit the total of its route, or is a number though it claims \"no route\"",
     ""},
    {"the yard file is malformed: a field is cut short, unknown, of wrong length, out of order or too many", "byte"},
}};

constexpr words words_of(refusal number) noexcept {
    const auto i = static_cast<std::size_t>(number);
    return i < refusal_words.size() ? refusal_words[i] : words{};
}

} // namespace detail

// A refusal in words; empty for a number that is none.
constexpr std::string_view text(refusal number) noexcept { return detail::words_of(number).text; }

// What the place of a refusal counts: sections, points, turns, arrivals or bytes, from 0; empty where it has no place.
constexpr std::string_view place_word(refusal number) noexcept { return detail::words_of(number).place; }

namespace detail {

// A lent buffer that is filled from the front; what does not fit is dropped.
struct writer {
    std::span<char> left;

    constexpr void put(std::string_view words) noexcept {
        const std::size_t fits = std::min(words.size(), left.size());
        std::copy_n(words.begin(), fits, left.begin());
        left = left.subspan(fits);
    }
    void put(std::uint32_t number) noexcept {
        char digits[10];
        put(std::string_view(digits, std::to_chars(digits, digits + sizeof digits, number).ptr));
    }
};

} // namespace detail

// A buffer of so many characters holds every description.
inline constexpr std::size_t description_most = 256;

// Writes a refusal with its number and place, "refusal 4, point 6: a point has no section, or more than three", and gives how many
// characters it wrote. A buffer that is too short gets the front of it. There is no zero at the end.
inline std::size_t describe(refusal number, std::uint32_t place, std::span<char> buffer) noexcept {
    detail::writer out{buffer};
    out.put("refusal ");
    out.put(static_cast<std::uint32_t>(number));
    if (const std::string_view word = place_word(number); !word.empty()) {
        out.put(", ");
        out.put(word);
        out.put(" ");
        out.put(place);
    }
    if (const std::string_view words = text(number); !words.empty()) {
        out.put(": ");
        out.put(words);
    }
    return buffer.size() - out.left.size();
}

// What every call answers: whether it was refused, why and where.
struct verdict {
    refusal refused = refusal::ok;
    std::uint32_t place = 0;

    constexpr bool ok() const noexcept { return refused == refusal::ok; }
    constexpr explicit operator bool() const noexcept { return ok(); }
};

inline std::size_t describe(const verdict &answer, std::span<char> buffer) noexcept {
    return describe(answer.refused, answer.place, buffer);
}

// The numbers of a walk that was found, or of a sheet that was accepted.
struct walk : verdict {
    std::uint32_t total = 0, reversals = 0, steps = 0;
};

// How many sections a pull-out has.
struct pulled : verdict {
    std::uint32_t count = 0;
};

// The section of an arrival, and the end of it at which the train arrives: 0 for A, 1 for B.
constexpr std::uint32_t section_of(std::uint32_t arrival) noexcept { return arrival / 2; }
constexpr std::uint32_t end_of(std::uint32_t arrival) noexcept { return arrival % 2; }
constexpr std::uint32_t arrival_at(std::uint32_t section, std::uint32_t end) noexcept { return 2 * section + end; }

// A plan that stands in tables of the caller's. The accessors are for sections that it has, with ends 0 and 1.
struct plan_view {
    std::uint32_t points = 0;
    std::span<const std::uint32_t> sections, turns;

    constexpr std::size_t section_count() const noexcept { return sections.size() / FINDER_SECTION_WIDTH; }
    constexpr std::size_t turn_count() const noexcept { return turns.size() / FINDER_TURN_WIDTH; }
    constexpr std::uint32_t point(std::uint32_t section, std::uint32_t end) const noexcept { return row(section)[end]; }
    constexpr std::uint32_t length(std::uint32_t section) const noexcept { return row(section)[2]; }
    constexpr bool is_destination(std::uint32_t section) const noexcept { return row(section)[3] == 1; }
    constexpr std::uint32_t free_from(std::uint32_t section, std::uint32_t end) const noexcept {
        return row(section)[4 + end];
    }
    // The point to which an arrival comes.
    constexpr std::uint32_t point_of(std::uint32_t arrival) const noexcept {
        return point(section_of(arrival), end_of(arrival));
    }

private:
    constexpr std::span<const std::uint32_t> row(std::uint32_t section) const noexcept {
        return sections.subspan(FINDER_SECTION_WIDTH * std::size_t{section}, FINDER_SECTION_WIDTH);
    }
};

// A train of this length, from a section out by one of its ends, to a section in by one of its ends.
struct query {
    std::uint32_t length = 0, start = 0, start_end = 0, finish = 0, finish_end = 0;
};

// A yard file that was read: its numbers of points and of rows, and ways to look at the tables that it was read into.
struct yard : verdict {
    std::uint32_t points = 0, sections = 0, turns = 0, queries = 0;

    constexpr plan_view plan_in(std::span<const std::uint32_t> section_table,
                                std::span<const std::uint32_t> turn_table) const noexcept {
        return {points, section_table.first(sections_size(sections)), turn_table.first(turns_size(turns))};
    }
    // Query i, for i below queries.
    static constexpr query query_in(std::span<const std::uint32_t> query_table, std::size_t i) noexcept {
        const auto row = query_table.subspan(queries_size(i), FINDER_QUERY_WIDTH);
        return {row[0], row[1], row[2], row[3], row[4]};
    }
};

// What a sheet claims.
enum class claim : std::uint32_t { no_route = 0, walk = 1 };

namespace detail {

constexpr walk walk_of(const finder_answer &answer) noexcept {
    return {{refusal{answer.refusal}, answer.place}, answer.total, answer.reversals, answer.steps};
}

} // namespace detail

// finder_check_plan
inline verdict check_plan(const plan_view &plan) noexcept {
    return detail::walk_of(finder_check_plan(plan.points, plan.sections.data(), plan.sections.size(), plan.turns.data(),
                                             plan.turns.size()));
}

// finder_search
inline walk search(const plan_view &plan, const query &asked, std::span<std::uint32_t> route,
                   std::span<std::uint32_t> labels) noexcept {
    return detail::walk_of(finder_search(plan.points, plan.sections.data(), plan.sections.size(), plan.turns.data(),
                                         plan.turns.size(), asked.length, asked.start, asked.start_end, asked.finish,
                                         asked.finish_end, route.data(), route.size(), labels.data(), labels.size()));
}

// finder_pull_out
inline pulled pull_out(const plan_view &plan, std::uint32_t length, std::uint32_t arrival, std::uint32_t section,
                       std::span<std::uint32_t> list) noexcept {
    const finder_pull answer =
        finder_pull_out(plan.points, plan.sections.data(), plan.sections.size(), plan.turns.data(), plan.turns.size(),
                        length, arrival, section, list.data(), list.size());
    return {{refusal{answer.refusal}, answer.place}, answer.count};
}

// finder_check_sheet
inline walk check_sheet(const plan_view &plan, const query &asked, claim claimed, std::span<const std::uint32_t> list,
                        std::span<const std::uint32_t> labels) noexcept {
    return detail::walk_of(finder_check_sheet(
        plan.points, plan.sections.data(), plan.sections.size(), plan.turns.data(), plan.turns.size(), asked.length,
        asked.start, asked.start_end, asked.finish, asked.finish_end, static_cast<std::uint32_t>(claimed), list.data(),
        list.size(), labels.data(), labels.size()));
}

// finder_read_yard
inline yard read_yard(std::span<const std::uint8_t> file, std::span<std::uint32_t> sections,
                      std::span<std::uint32_t> turns, std::span<std::uint32_t> queries) noexcept {
    const finder_yard answer = finder_read_yard(file.data(), file.size(), sections.data(), sections.size(),
                                                turns.data(), turns.size(), queries.data(), queries.size());
    return {{refusal{answer.refusal}, answer.place}, answer.points, answer.sections, answer.turns, answer.queries};
}

} // namespace finder

#endif

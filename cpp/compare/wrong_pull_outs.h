// Wrong searches for a pull-out: the second program with clauses left out, or with another way to look.
#pragma once
#include "tiny.h"
#include "wrong_calls.h"

namespace wrong {

using second::Answer;

inline constexpr size_t no_forbidden_turn = 1, but_the_last_free = 2, none_is_c = 3, none_twice = 5, points_differ = 6;
static_assert(second::clauses[no_forbidden_turn].words == "no turn is forbidden");
static_assert(second::clauses[but_the_last_free].words == "all but the last are free");
static_assert(second::clauses[none_is_c].words == "none is c");
static_assert(second::clauses[none_twice].words == "none occurs twice");
static_assert(second::clauses[points_differ].words == "p and the points passed differ");

// What a wrong way to look for the list makes of a question.
template <class Look> Answer answered(const AskedPullOut &asked, Look look) {
    second::Turning turning{};
    const second::Refusal r = second::check_question(asked.plan, asked.question, turning);
    if (r.number != 0) return {r.number, r.place, 0, asked.list};
    return second::answer_with(look(second::Yard(asked.plan), turning), asked.list);
}

template <size_t... clause> Answer pull_out_without(const AskedPullOut &asked) {
    return answered(asked, [](const second::Yard &yard, const second::Turning &turning) {
        return second::grown_pull_out(yard, turning, {clause...});
    });
}

// Points whose numbers differ in one bit alone have one mark between them, so that no list passes both.
template <uint64_t bit>
bool passes_one(const second::Yard &yard, const second::Turning &turning, const second::List &list) {
    auto marks = second::entries(yard, turning.p, list);
    for (uint64_t &mark : marks) mark &= ~bit;
    return second::all_differ(marks);
}

template <uint64_t bit> Answer two_points_one_mark(const AskedPullOut &asked) {
    return answered(asked, [](const second::Yard &yard, const second::Turning &turning) {
        return second::grown_pull_out(yard, turning, {}, passes_one<bit>);
    });
}

// At each point the lowest section that may be entered is taken, and no other is tried where that leads to nothing.
inline std::optional<second::List> first_try(const second::Yard &yard, const second::Turning &turning) {
    second::List list;
    for (auto longer = second::grown(yard, turning, list); !longer.empty();
         longer = second::grown(yard, turning, list)) {
        list = longer.front();
        if (second::reaches_L(yard, turning, list)) return list;
    }
    return std::nullopt;
}

inline Answer stops_at_the_first(const AskedPullOut &asked) { return answered(asked, first_try); }

inline Answer turn_holds_one_way(const AskedPullOut &asked) {
    second::Turning turning{};
    if (second::check_question(asked.plan, asked.question, turning).number != 0) return pull_out_without<>(asked);
    const bool named = std::ranges::count(second::Yard(asked.plan).turns, std::pair(turning.c, turning.s)) > 0;
    return named ? pull_out_without<>(asked) : Answer{15, 0, 0, asked.list};
}

// A last section counts by what is free from its far end.
inline Answer free_from_the_far_end(AskedPullOut asked) {
    if (second::check_plan(asked.plan).number != 0) return pull_out_without<>(asked);
    for (uint32_t s = 0; s < asked.plan.count(); s++)
        std::swap(asked.plan.sections[6 * s + 4], asked.plan.sections[6 * s + 5]);
    return pull_out_without<>(asked);
}

// The first pull-out of the yard mirrored is the last one of the yard.
inline Answer highest_section_first_out(const AskedPullOut &asked) {
    const uint32_t sections = asked.plan.count();
    Answer right = pull_out_without<>(asked);
    if (right.refusal != 0) return right;
    AskedPullOut mirrored = asked;
    second::Query unused{};
    mirror(mirrored.plan, unused);
    mirrored.question.arrival = 2 * sections - 1 - asked.question.arrival;
    mirrored.question.section = sections - 1 - asked.question.section;
    Answer last = pull_out_without<>(mirrored);
    for (uint32_t i = 0; i < last.count; i++) last.buffer[i] = sections - 1 - last.buffer[i];
    return last;
}

} // namespace wrong

// Small yards on which tries for a pull-out fail for the same reasons again and again, with trains about as long as the
// longest run. A search that learns from its failures makes lessons there and uses them.
#pragma once
#include "../../bench/families.h"
#include "../random_plans.h"
#include "queries.h"
#include <numeric>

struct LessonYard {
    YardCase (*yard)(uint32_t size);
    uint32_t least, most; // sizes; the second program still writes down all lists of the largest
};

inline constexpr std::array<LessonYard, 9> lesson_yards{{
    {rungs, 3, 8},
    {crossovers_and_loop, 1, 3},
    {joined_without_turns, 1, 3},
    {ring_on_triangle, 2, 4},
    {shorter_first, 3, 6},
    {metro, 1, 2},
    {metro_crossing_in_stations, 1, 2},
    {three_tracks, 1, 2},
    {chords, 6, 12},
}};

// Of the ways round some are a little longer than others.
inline void draw_lengths(Draw &draw, Plan &plan) {
    for (uint32_t s = 0; s < plan.count(); s++) {
        uint32_t *section = &plan.sections[6 * s];
        section[2] = section[4] = section[5] = 1 + draw.below(6);
    }
}

inline second::List shuffled(Draw &draw, uint32_t count) {
    second::List numbers(count);
    std::iota(numbers.begin(), numbers.end(), 0);
    for (uint32_t i = count; i > 1; i--) std::swap(numbers[i - 1], numbers[draw.below(i)]);
    return numbers;
}

// The yard with other numbers and ends, among pairs of points that lie elsewhere: a set of its points is then one of any
// numbers. The turns keep their order.
inline Plan scattered(Draw &draw, Plan plan, uint32_t pairs) {
    for (; pairs > 0; pairs--, plan.points += 2) plan.join(plan.points, plan.points + 1, 20);
    const second::List points = shuffled(draw, plan.points), sections = shuffled(draw, plan.count());
    Plan result{plan.points, second::List(plan.sections.size()), {}};
    for (uint32_t s = 0; s < plan.count(); s++) {
        const uint32_t *from = &plan.sections[6 * s];
        uint32_t *to = &result.sections[6 * sections[s]];
        const uint32_t a = draw.below(2), b = 1 - a;
        to[a] = points[from[0]];
        to[b] = points[from[1]];
        to[2] = from[2];
        to[3] = from[3];
        to[4 + a] = from[4];
        to[4 + b] = from[5];
    }
    for (uint32_t s : plan.turns) result.turns.push_back(sections[s]);
    return result;
}

// How far a train can run on: the lists that break no clause for good where none is long enough, and the longest of them.
inline uint32_t longest_run(const second::Yard &yard, second::Turning turning) {
    turning.L = FINDER_TRAIN_MOST + 1;
    uint64_t most = 0;
    std::vector<second::List> longest{{}};
    while (!longest.empty()) {
        std::vector<second::List> longer;
        for (const second::List &list : longest)
            std::ranges::move(second::grown(yard, turning, list), back_inserter(longer));
        for (const second::List &list : longer) {
            const uint64_t entry = second::entries(yard, turning.p, list).back();
            const uint64_t last = yard.sections[list.back()].free_from(entry);
            most = std::max(most, second::lengths_but_the_last(yard, list) + last);
        }
        longest = std::move(longer);
    }
    return static_cast<uint32_t>(most);
}

// A turn one way or the other, by trains about as long as the longest run from there.
inline void longest_cases(Draw &draw, Site &site, size_t turn) {
    const uint32_t first = draw.below(2), c = site.plan().turns[2 * turn + first],
                   s = site.plan().turns[2 * turn + 1 - first];
    for (uint32_t end : {0, 1}) {
        second::Turning turning{};
        if (second::check_question(site.yard(), {1, 2 * c + end, s}, turning).number != 0) continue;
        const uint32_t longest = longest_run(site.yard(), turning), shorter = 1 + draw.below(longest + 1);
        if (longest == 0) continue;
        for (uint32_t length : {longest - 1, longest, longest + 1, shorter}) {
            const uint32_t entries = draw.one_in(8) ? draw.below(3) : site.plan().count();
            site.pull_out_case({length, 2 * c + end, s}, entries);
        }
    }
}

// Where no other turn is forbidden, a train can turn round in the yard. With a long way there, section 2, a reversal costs
// less.
inline void lengthen_the_way_in(Plan &plan) {
    uint32_t *section = &plan.sections[6 * 2];
    section[2] = section[4] = section[5] = 1000;
}

// A train on a track beyond the first turn's c, as long as the longest run or just longer, and a track beyond s for it to
// go to. Returns how long the train is.
inline uint32_t lay_tracks(Draw &draw, Plan &plan) {
    const uint32_t longest = longest_run(second::Yard(plan), {0, 0, 0, 1});
    const uint32_t train = std::max(1u, longest + draw.below(2));
    const uint32_t start = plan.join(1, plan.points, train + 2, 1);
    plan.join(2, plan.points + 1, train, 1);
    plan.occupy(start, 1, 1);
    plan.points += 2;
    return train;
}

// The track beyond a section of the first turn, and its end there.
inline std::pair<uint32_t, uint32_t> track_beyond(const second::Yard &yard, uint32_t section) {
    const uint64_t point = yard.shared(yard.turns[0].first, yard.turns[0].second).value();
    const uint64_t beyond = yard.sections[section].far(point);
    const second::List &here = yard.meeting.at(beyond);
    const uint32_t track = here[0] == section ? here[1] : here[0];
    return {track, yard.sections[track].a == beyond ? 0 : 1};
}

// What the search says hangs on the pull-out.
inline void search_over_turn(Draw &draw, Site &site, uint32_t train) {
    const auto [start, start_end] = track_beyond(site.yard(), site.plan().turns[0]);
    const auto [finish, finish_end] = track_beyond(site.yard(), site.plan().turns[1]);
    second::Sheet another{1, {}, second::List(2 * site.plan().count(), 0)};
    query_cases(draw, site, {train, start, start_end, finish, finish_end}, another, 2);
}

inline Plan draw_lesson_yard(Draw &draw, const LessonYard &drawn) {
    Plan plan = drawn.yard(draw.between(drawn.least, drawn.most)).plan;
    if (draw.one_in(2)) draw_lengths(draw, plan);
    if (plan.turns.size() == 2) lengthen_the_way_in(plan);
    for (uint32_t i = draw.below(6); i > 0; i--) draw_stock(draw, plan, draw.below(plan.count()));
    return plan;
}

// A search asks about every turn, both ways, so that there is one only where the first turn is alone.
inline void lesson_yard(Run &run, Draw &draw, uint64_t number) {
    Plan plan = draw_lesson_yard(draw, lesson_yards[number % lesson_yards.size()]);
    const auto turns = static_cast<uint32_t>(plan.turns.size() / 2), train = turns == 1 ? lay_tracks(draw, plan) : 0;
    if (draw.one_in(2)) plan = scattered(draw, plan, draw.one_in(2) ? (FINDER_POINTS_MOST - plan.points) / 2 : 0);
    Site site(run, plan);
    site.plan_case();
    longest_cases(draw, site, 0);
    if (turns == 1) return search_over_turn(draw, site, train);
    longest_cases(draw, site, draw.below(turns));
}

// Wrong searches: the second program with a rule left out, or the library's own answer changed.
#pragma once
#include "tiny.h"
#include "wrong_calls.h"

namespace wrong {

using second::SearchAnswer;

template <second::Rule rule> SearchAnswer search_without(const AskedSearch &asked) {
    second::PullOuts pull_outs(asked.plan, second::Lists::grown);
    return second::search(asked.plan, asked.query, asked.route, asked.labels, pull_outs, rule);
}

// Whether the second program gets as far as to a walk, or to none.
inline bool passes(const AskedSearch &asked) {
    return second::check_query(asked.plan, asked.query, asked.labels.size()).number == 0;
}

// Of the walks to one point only the shortest is kept, over whatever section it comes.
inline SearchAnswer one_distance_per_point(const AskedSearch &asked) {
    if (!passes(asked)) return true_search(asked);
    second::PullOuts pull_outs(asked.plan, second::Lists::grown);
    const second::Rules rules(asked.plan, asked.query, pull_outs);
    const auto walk =
        second::first_shortest(rules, [&](uint32_t arrival) { return second::point_of(rules.yard, arrival); });
    return second::answer_with(rules, walk, asked.route, asked.labels);
}

// The steps are those of the yard with the start section cleared.
inline SearchAnswer start_not_occupied(const AskedSearch &asked) {
    if (!passes(asked)) return true_search(asked);
    second::Yard cleared(asked.plan);
    second::Section &x = cleared.sections[asked.query.start];
    x.from_a = x.from_b = x.length;
    second::PullOuts pull_outs(asked.plan, second::Lists::grown);
    second::Rules rules(cleared, asked.query, pull_outs);
    rules.yard = second::Yard(asked.plan);
    return second::answer_by(rules, asked.route, asked.labels);
}

// The first walk of the yard mirrored is the last one of the yard.
inline SearchAnswer highest_section_first(const AskedSearch &asked) {
    SearchAnswer right = true_search(asked);
    if (right.refusal != 0) return right;
    AskedSearch mirrored = asked;
    mirror(mirrored.plan, mirrored.query);
    const SearchAnswer last = true_search(mirrored);
    if (last.refusal != 0) return last;
    for (size_t i = 0; i < last.steps; i++) right.route[i] = 2 * asked.plan.count() - 1 - last.route[i];
    right.reversals = last.reversals;
    right.steps = last.steps;
    return right;
}

inline SearchAnswer twelve_leaves_labels(const AskedSearch &asked) {
    SearchAnswer answer = true_search(asked);
    if (answer.refusal == 12) answer.labels = asked.labels;
    return answer;
}

inline SearchAnswer fourteen_writes_labels(const AskedSearch &asked) {
    SearchAnswer answer = true_search(asked);
    if (answer.refusal != 14) return answer;
    AskedSearch enough = asked;
    enough.route.resize(FINDER_STEPS_MOST);
    answer.labels = true_search(enough).labels;
    return answer;
}

// Where the train alone stands on the finish section, the room is what is free as it stands.
inline SearchAnswer room_as_it_stands(const AskedSearch &asked) {
    SearchAnswer answer = true_search(asked);
    if (!passes(asked) || asked.query.start != asked.query.finish) return answer;
    const second::Section y = second::Yard(asked.plan).sections[asked.query.finish];
    const uint64_t room = y.free_from(second::end_point(y, asked.query.finish_end));
    if (!second::alone(y, asked.query.length)) return answer;
    if (room < asked.query.length) return second::refused({10}, asked.route, asked.labels);
    if (answer.refusal == 0) answer.total -= static_cast<uint32_t>(y.length - room);
    return answer;
}

inline SearchAnswer makes_up_reversals(const AskedSearch &asked) {
    SearchAnswer answer = true_search(asked);
    answer.reversals = 0;
    return answer;
}

inline SearchAnswer copies_the_first_step(const AskedSearch &asked) {
    SearchAnswer answer = true_search(asked);
    for (uint32_t i = 1; i < answer.steps; i++) answer.route[i] = answer.route[0];
    return answer;
}

inline SearchAnswer clears_the_rest_of_the_route(const AskedSearch &asked) {
    SearchAnswer answer = true_search(asked);
    if (answer.refusal == 0) std::fill(answer.route.begin() + answer.steps, answer.route.end(), 0);
    return answer;
}

inline SearchAnswer leaves_the_buffers(const AskedSearch &asked) {
    SearchAnswer answer = true_search(asked);
    answer.route = asked.route;
    answer.labels = asked.labels;
    return answer;
}

inline SearchAnswer always_twelve(const AskedSearch &asked) {
    SearchAnswer answer = true_search(asked);
    return answer.refusal == 0 ? second::refused({12}, asked.route, answer.labels) : answer;
}

} // namespace wrong

// A second program for the search (1 to 14), written from document 01 alone. It lists every admissible step by the
// document's sentence, with pull-outs decided by their clauses; takes up walks from the start in the order of cost and list
// of sections; and finds the remaining distances over walks of no step, of one step at most, of two, and so on. For small
// plans, or short trains: a pull-out's time is exponential in E and in L. With lists that grow it is exponential in the number
// of ways to run on over a train's length, which is small on yards as they are built.
#pragma once
#include "second_pull_out.h"
#include <functional>

namespace second {

struct Query {
    uint32_t length, start, start_end, finish, finish_end;
};

inline uint64_t end_point(const Section &section, uint64_t end) { return end == 0 ? section.a : section.b; }

// Arrival 2s is over section s to its end A, 2s + 1 to its end B.
inline uint64_t point_of(const Yard &yard, uint32_t arrival) {
    return end_point(yard.sections[arrival / 2], arrival % 2);
}

// Decimetres of stock; below zero on a free section, where no train stands.
inline int64_t stock(const Section &x) {
    return static_cast<int64_t>(x.length) - static_cast<int64_t>(x.from_a) - static_cast<int64_t>(x.from_b);
}

inline bool alone(const Section &x, uint64_t L) { return stock(x) == static_cast<int64_t>(L) && !x.free(); }

inline uint64_t finish_room(const Yard &yard, const Query &query) {
    const Section &y = yard.sections[query.finish];
    if (query.finish == query.start && alone(y, query.length)) return y.length;
    return y.free_from(end_point(y, query.finish_end));
}

inline bool no_destination(const Yard &yard, uint32_t section, uint32_t end) {
    return section >= yard.sections.size() || end > 1 || yard.sections[section].kind == 0;
}

// Refusals 7 to 11, over a yard that passes 1 to 6.
inline Refusal check_query(const Yard &yard, const Query &query, size_t labels) {
    if (query.length < 1 || query.length > 20000) return {7};
    if (no_destination(yard, query.start, query.start_end)) return {8};
    if (stock(yard.sections[query.start]) < static_cast<int64_t>(query.length)) return {8};
    if (no_destination(yard, query.finish, query.finish_end)) return {9};
    if (query.finish == query.start && query.finish_end == query.start_end) return {9};
    if (finish_room(yard, query) < query.length) return {10};
    if (labels != 2 * yard.sections.size()) return {11};
    return {};
}

// Refusals 1 to 11.
inline Refusal check_query(const Plan &plan, const Query &query, size_t labels) {
    const Refusal refusal = check_plan(plan);
    return refusal.number != 0 ? refusal : check_query(Yard(plan), query, labels);
}

// Which reversals a plan has pull-outs for. The chained lists depend on the ends of sections alone, so they serve all stock.
enum class Lists { chained, grown };

class PullOuts {
public:
    explicit PullOuts(const Plan &plan, Lists lists = Lists::chained) : ends_(plan), lists_(lists) {}

    // A pull-out has at most L sections: the lengths of all but the last sum to less than L, and each is 1 or more.
    bool exist(const Yard &yard, const Turning &turning, size_t left_out = no_clause) {
        if (lists_ == Lists::grown) return grown_pull_out(yard, turning, {left_out}).has_value();
        const auto [lists, fresh] = chained_.try_emplace({turning.p, turning.L});
        if (fresh) lists->second = chained_lists(ends_, turning.p, Twice::left_out, turning.L);
        return first_pull_out(yard, turning, lists->second, left_out).has_value();
    }

private:
    Yard ends_;
    Lists lists_;
    std::map<std::pair<uint64_t, uint64_t>, std::vector<List>> chained_;
};

struct Step {
    uint32_t from, to;
    uint64_t cost;
    bool reverses;
};

// Rules of a step and of an end that can be left out, to see whether an answer hangs on them. That the start section counts
// as occupied is none of them: stock stands there, so it is not free.
enum Rule : size_t {
    another_section,
    free_section,
    not_y,
    reversal,
    with_pull_out,
    pull_out_not_over_s,
    costs_L,
    end_not_over_y,
    no_rule
};

inline constexpr std::array<std::string_view, no_rule> rule_words{
    "a step goes to another section",
    "a step goes to a free section",
    "no step goes to the finish section",
    "a forbidden turn is a reversal",
    "a reversal needs a pull-out",
    "a pull-out does not use s",
    "a reversal costs L",
    "no walk ends at an arrival over the finish section",
};

constexpr size_t none_is_s = 4;
static_assert(clauses[none_is_s].words == "none is s");

// The rules of one query that passes 1 to 11: its admissible steps, and where its walks begin and end.
struct Rules {
    Yard yard;
    Query query;
    Rule left_out;
    std::vector<Step> steps;

    Rules(const Plan &plan, const Query &asked, PullOuts &pull_outs, Rule without = no_rule)
        : Rules(Yard(plan), asked, pull_outs, without) {}

    Rules(Yard of, const Query &asked, PullOuts &pull_outs, Rule without = no_rule)
        : yard(std::move(of)), query(asked), left_out(without) {
        for (uint32_t from = 0; from < arrivals(); from++)
            for (uint32_t s : yard.meeting.at(point_of(yard, from)))
                if (const auto step = step_onto(from, s, pull_outs)) steps.push_back(*step);
    }

    uint32_t arrivals() const { return static_cast<uint32_t>(2 * yard.sections.size()); }
    // The steps stand in the order of the arrivals that they go from.
    std::span<const Step> steps_from(uint32_t arrival) const {
        const auto found = std::ranges::equal_range(steps, arrival, {}, &Step::from);
        return {found.begin(), found.end()};
    }
    uint32_t start() const { return 2 * query.start + query.start_end; }
    uint64_t room() const { return finish_room(yard, query); }
    uint64_t first_distance() const { return yard.sections[query.start].free_from(point_of(yard, start())); }

    // "An arrival at the finish point over a section other than y."
    bool ends(uint32_t arrival) const {
        if (point_of(yard, arrival) != end_point(yard.sections[query.finish], query.finish_end)) return false;
        return arrival / 2 != query.finish || left_out == end_not_over_y;
    }

private:
    // "A step goes from an arrival over section c at point p to another section s at p, and on to the far end of s. The
    // section s is free and is not y."
    std::optional<Step> step_onto(uint32_t from, uint32_t s, PullOuts &pull_outs) const {
        const uint64_t c = from / 2, p = point_of(yard, from);
        const Section &onto = yard.sections[s];
        if (!onto.at(p)) return std::nullopt;
        if (s == c && left_out != another_section) return std::nullopt;
        if (!onto.free() && left_out != free_section) return std::nullopt;
        if (s == query.finish && left_out != not_y) return std::nullopt;
        const uint32_t to = 2 * s + (onto.far(p) == onto.b ? 1 : 0);
        if (!yard.forbidden(c, s) || left_out == reversal) return Step{from, to, onto.length, false};
        const size_t clause = left_out == pull_out_not_over_s ? none_is_s : no_clause;
        if (left_out != with_pull_out && !pull_outs.exist(yard, {query.length, c, p, s}, clause)) return std::nullopt;
        return Step{from, to, (left_out == costs_L ? 0 : query.length) + onto.length, true};
    }
};

// A walk from some arrival on, and what its steps cost. Walks compare by cost, then by their list of sections.
struct Walk {
    uint64_t cost = 0;
    List sections, arrivals;
    uint32_t reversals = 0;

    auto operator<=>(const Walk &) const = default;

    uint32_t last(uint32_t from) const { return arrivals.empty() ? from : arrivals.back(); }
    Walk then(const Step &step) const {
        Walk longer = *this;
        longer.cost += step.cost;
        longer.sections.push_back(step.to / 2);
        longer.arrivals.push_back(step.to);
        longer.reversals += step.reverses;
        return longer;
    }
};

// The smallest walk from the start to an end. Walks are taken up in their order, so the first to come to an arrival is the
// smallest that does: a step costs more than nothing, and of two walks of one cost to one arrival neither is the front of
// the other, so that their order stays whatever both go on with. Another key than the arrival makes it a wrong search.
template <class Key = std::identity> std::optional<Walk> first_shortest(const Rules &rules, Key key = {}) {
    std::set<Walk> waiting{Walk{}};
    std::set<uint64_t> reached;
    while (!waiting.empty()) {
        const Walk walk = waiting.extract(waiting.begin()).value();
        const uint32_t arrival = walk.last(rules.start());
        if (!reached.insert(key(arrival)).second) continue;
        if (rules.ends(arrival)) return walk;
        for (const Step &step : rules.steps_from(arrival)) waiting.insert(walk.then(step));
    }
    return std::nullopt;
}

// Every walk from an arrival to an end that has at most so many steps, also one that was at an end or at the same arrival
// before. Exponential in the steps.
inline std::vector<Walk> all_walks(const Rules &rules, uint32_t from, size_t most_steps) {
    std::vector<Walk> ending, longest{Walk{}};
    for (size_t steps = 0; steps <= most_steps; steps++) {
        std::vector<Walk> longer;
        for (const Walk &walk : longest) {
            const uint32_t arrival = walk.last(from);
            if (rules.ends(arrival)) ending.push_back(walk);
            for (const Step &step : rules.steps_from(arrival)) longer.push_back(walk.then(step));
        }
        longest = std::move(longer);
    }
    return ending;
}

constexpr uint64_t none = 4294967295u;

// The remaining distance of each arrival. After k rounds it is that over walks of at most k steps; a round that changes
// nothing is the last, and there are fewer rounds than arrivals, since a shortest walk meets none twice.
inline std::vector<uint64_t> remaining_distances(const Rules &rules) {
    std::vector<uint64_t> before, now(rules.arrivals(), none);
    for (uint32_t arrival = 0; arrival < rules.arrivals(); arrival++)
        if (rules.ends(arrival)) now[arrival] = rules.room();
    while (now != before) {
        before = now;
        for (const Step &step : rules.steps)
            if (before[step.to] != none) now[step.from] = std::min(now[step.from], step.cost + before[step.to]);
    }
    return now;
}

// How many shortest walks there are from an arrival whose remaining distance is a number. Each further step has a smaller
// remaining distance, so this comes to an end.
inline uint64_t shortest_walks(const Rules &rules, const std::vector<uint64_t> &remaining, uint32_t arrival) {
    uint64_t walks = rules.ends(arrival) && remaining[arrival] == rules.room();
    for (const Step &step : rules.steps_from(arrival))
        if (remaining[step.to] != none && remaining[arrival] == step.cost + remaining[step.to])
            walks += shortest_walks(rules, remaining, step.to);
    return walks;
}

struct SearchAnswer {
    uint32_t refusal = 0, place = 0, total = 0, reversals = 0, steps = 0;
    List route, labels; // the lent buffers at exit

    bool operator==(const SearchAnswer &) const = default;
};

// The buffers are those at entry.
inline SearchAnswer refused(const Refusal &refusal, const List &route, const List &labels) {
    return {refusal.number, refusal.place, 0, 0, 0, route, labels};
}

// The answer where 1 to 11 do not apply.
inline SearchAnswer answer_with(const Rules &rules, const std::optional<Walk> &walk, List route, List labels) {
    const auto remaining = remaining_distances(rules);
    if (walk && walk->arrivals.size() > 2048) return refused({13}, route, labels);
    if (walk && walk->arrivals.size() > route.size()) return refused({14}, route, labels);
    std::copy(remaining.begin(), remaining.end(), labels.begin());
    if (!walk) return refused({12}, route, labels);
    std::copy(walk->arrivals.begin(), walk->arrivals.end(), route.begin());
    return {0,
            0,
            static_cast<uint32_t>(rules.first_distance() + walk->cost + rules.room()),
            walk->reversals,
            static_cast<uint32_t>(walk->arrivals.size()),
            route,
            labels};
}

inline SearchAnswer answer_by(const Rules &rules, List route, List labels) {
    return answer_with(rules, first_shortest(rules), std::move(route), std::move(labels));
}

inline SearchAnswer search(const Plan &plan, const Query &query, List route, List labels, PullOuts &pull_outs,
                           Rule left_out = no_rule) {
    const Refusal refusal = check_query(plan, query, labels.size());
    if (refusal.number != 0) return refused(refusal, route, labels);
    return answer_by(Rules(plan, query, pull_outs, left_out), std::move(route), std::move(labels));
}

inline SearchAnswer search(const Plan &plan, const Query &query, List route, List labels) {
    PullOuts pull_outs(plan);
    return search(plan, query, std::move(route), std::move(labels), pull_outs);
}

} // namespace second

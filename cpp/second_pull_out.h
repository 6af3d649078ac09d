// A second program for the plan check (1 to 6) and for pull-outs (1 to 7, 15, 16, 14), written from document 01 alone. It
// decides by the sentences of the document, not by a search with marks: it writes down every chained list of sections by
// length, keeps those that pass every clause, and takes the smallest. That is for small plans only: its time is exponential
// in E. Larger ones are decided by lists that are given up once a clause is broken for good.
#pragma once
#include "plan.h"
#include <algorithm>
#include <array>
#include <cstddef>
#include <iterator>
#include <map>
#include <optional>
#include <set>
#include <span>
#include <string_view>
#include <utility>

namespace second {

using List = std::vector<uint32_t>;

struct Refusal {
    uint32_t number = 0, place = 0;
};

// A plan read row by row; only for tables of whole rows.
struct Section {
    uint64_t a, b, length, kind, from_a, from_b;

    bool free() const { return from_a == length && from_b == length; }
    bool at(uint64_t point) const { return a == point || b == point; }
    uint64_t far(uint64_t point) const { return a == point ? b : a; }
    uint64_t free_from(uint64_t point) const { return a == point ? from_a : from_b; }
};

struct Yard {
    uint64_t points;
    std::vector<Section> sections;
    std::vector<std::pair<uint64_t, uint64_t>> turns;
    std::map<uint64_t, List> meeting; // the sections at each point

    explicit Yard(const Plan &plan) : points(plan.points) {
        const auto &n = plan.sections;
        for (size_t i = 0; i + 6 <= n.size(); i += 6) {
            for (uint32_t end : {n[i], n[i + 1]}) meeting[end].push_back(static_cast<uint32_t>(sections.size()));
            sections.push_back({n[i], n[i + 1], n[i + 2], n[i + 3], n[i + 4], n[i + 5]});
        }
        for (size_t i = 0; i + 2 <= plan.turns.size(); i += 2) turns.emplace_back(plan.turns[i], plan.turns[i + 1]);
    }

    // "It holds both ways."
    bool forbidden(uint64_t c, uint64_t s) const {
        return std::any_of(turns.begin(), turns.end(),
                           [&](auto turn) { return turn == std::pair(c, s) || turn == std::pair(s, c); });
    }

    // A point that two sections of the plan share. No two sections of a plan that is right share two.
    std::optional<uint64_t> shared(uint64_t c, uint64_t s) const {
        for (uint64_t point : {sections[c].a, sections[c].b})
            if (sections[s].at(point)) return point;
        return std::nullopt;
    }
};

inline bool breaks_its_rule(const Yard &yard, size_t section) {
    const Section &s = yard.sections[section];
    if (s.a >= yard.points || s.b >= yard.points || s.a == s.b) return true;
    if (s.length < 1 || s.length > 200000 || s.kind > 1) return true;
    return !s.free() && !(s.from_a + s.from_b < s.length);
}

inline bool same_points_as_earlier(const Yard &yard, size_t s) {
    const Section &later = yard.sections[s];
    return std::ranges::any_of(yard.meeting.at(later.a),
                               [&](size_t i) { return i < s && yard.sections[i].at(later.b); });
}

inline bool wrong_at_point(const Yard &yard, size_t point) {
    const auto here = yard.meeting.find(point);
    return here == yard.meeting.end() || here->second.size() > 3;
}

inline bool no_turn(const Yard &yard, size_t turn) {
    const auto [c, s] = yard.turns[turn];
    if (c >= yard.sections.size() || s >= yard.sections.size() || c == s) return true;
    return yard.sections[c].kind == 1 || yard.sections[s].kind == 1 || !yard.shared(c, s);
}

// No two sections join the same two points by now, so that two of them share one point at most.
inline bool second_at_its_point(const Yard &yard, size_t turn) {
    const auto point = [&](size_t i) { return yard.shared(yard.turns[i].first, yard.turns[i].second); };
    for (size_t i = 0; i < turn; i++)
        if (point(i) == point(turn)) return true;
    return false;
}

// Refusals 2 to 6 in their order: what has places, how many there are, and whether the rule is broken at one, the rules before
// it being kept.
struct PlanRule {
    uint32_t number;
    size_t (*places)(const Yard &);
    bool (*broken)(const Yard &, size_t);
};

inline constexpr std::array<PlanRule, 5> plan_rules{{
    {2, [](const Yard &yard) { return yard.sections.size(); }, breaks_its_rule},
    {3, [](const Yard &yard) { return yard.sections.size(); }, same_points_as_earlier},
    {4, [](const Yard &yard) { return static_cast<size_t>(yard.points); }, wrong_at_point},
    {5, [](const Yard &yard) { return yard.turns.size(); }, no_turn},
    {6, [](const Yard &yard) { return yard.turns.size(); }, second_at_its_point},
}};

// Refusal 1.
inline bool wrong_counts(const Plan &plan) {
    const size_t sections = plan.sections.size() / 6, turns = plan.turns.size() / 2;
    if (plan.points < 1 || plan.points > 768 || plan.sections.size() % 6 != 0 || plan.turns.size() % 2 != 0)
        return true;
    return sections < 1 || sections > 1024 || turns > 768;
}

// Refusals 1 to 6.
inline Refusal check_plan(const Plan &plan) {
    if (wrong_counts(plan)) return {1};
    const Yard yard(plan);
    for (const PlanRule &rule : plan_rules)
        for (size_t place = 0; place < rule.places(yard); place++)
            if (rule.broken(yard, place)) return {rule.number, static_cast<uint32_t>(place)};
    return {};
}

// A reversal from section c to section s at point p, by a train of length L.
struct Turning {
    uint64_t L, c, p, s;
};

// The points at which the sections of a list are entered: p and the points passed between sections.
inline std::vector<uint64_t> entries(const Yard &yard, uint64_t p, const List &list) {
    std::vector<uint64_t> points;
    for (uint32_t q : list) {
        points.push_back(p);
        p = yard.sections[q].far(p);
    }
    return points;
}

inline uint64_t end_of(const Yard &yard, uint64_t p, const List &list) {
    for (uint32_t q : list) p = yard.sections[q].far(p);
    return p;
}

template <class T> bool all_differ(const std::vector<T> &list) {
    return std::set<T>(list.begin(), list.end()).size() == list.size();
}

inline uint64_t lengths_but_the_last(const Yard &yard, const List &list) {
    uint64_t sum = 0;
    for (size_t i = 0; i + 1 < list.size(); i++) sum += yard.sections[list[i]].length;
    return sum;
}

// The clauses of the document's sentence for a chained list of one or more sections, in its order. On a checked plan three of
// them never decide an answer alone: of the sections at p only s can't be run onto from c; a point that is passed twice has
// three sections, so that one of them occurs twice; and a list that goes on after L is reached comes after its own front.
// Every clause but the last stays broken however the list goes on.
struct Clause {
    std::string_view words;
    bool decides;
    bool (*holds)(const Yard &, const Turning &, const List &);
};

inline constexpr std::array<Clause, 9> clauses{{
    {"the turn from c into the first is not forbidden", false,
     [](const Yard &yard, const Turning &t, const List &list) { return !yard.forbidden(t.c, list.front()); }},
    {"no turn is forbidden", true,
     [](const Yard &yard, const Turning &, const List &list) {
         return std::adjacent_find(list.begin(), list.end(), [&](auto q, auto r) { return yard.forbidden(q, r); }) ==
                list.end();
     }},
    {"all but the last are free", true,
     [](const Yard &yard, const Turning &, const List &list) {
         return std::all_of(list.begin(), list.end() - 1, [&](auto q) { return yard.sections[q].free(); });
     }},
    {"none is c", true,
     [](const Yard &, const Turning &t, const List &list) { return std::ranges::find(list, t.c) == list.end(); }},
    {"none is s", true,
     [](const Yard &, const Turning &t, const List &list) { return std::ranges::find(list, t.s) == list.end(); }},
    {"none occurs twice", true, [](const Yard &, const Turning &, const List &list) { return all_differ(list); }},
    {"p and the points passed differ", false,
     [](const Yard &yard, const Turning &t, const List &list) { return all_differ(entries(yard, t.p, list)); }},
    {"the lengths of all but the last sum to less than L", false,
     [](const Yard &yard, const Turning &t, const List &list) { return lengths_but_the_last(yard, list) < t.L; }},
    {"with the last one's free length from its entry they reach L", true,
     [](const Yard &yard, const Turning &t, const List &list) {
         const uint64_t free = yard.sections[list.back()].free_from(entries(yard, t.p, list).back());
         return lengths_but_the_last(yard, list) + free >= t.L;
     }},
}};
constexpr size_t no_clause = clauses.size();

// Every list of 1 to E sections of which the first is entered at p and each next at the far end of the one before; in a
// longer list some section occurs twice. Lists in which one does can be left out on the way: so does it however they go on.
// Lists of more sections than can matter can be left out too.
enum class Twice { listed, left_out };

inline std::vector<List> chained_lists(const Yard &yard, uint64_t p, Twice twice, size_t most = 1024) {
    struct Chained {
        List list;
        uint64_t end;
    };
    std::vector<List> all;
    std::vector<Chained> longest{{{}, p}};
    for (size_t length = 1; length <= std::min(most, yard.sections.size()); length++) {
        std::vector<Chained> longer;
        for (const auto &[list, end] : longest)
            for (uint32_t q = 0; q < yard.sections.size(); q++) {
                if (!yard.sections[q].at(end)) continue;
                if (twice == Twice::left_out && std::ranges::find(list, q) != list.end()) continue;
                longer.push_back({list, yard.sections[q].far(end)});
                longer.back().list.push_back(q);
                all.push_back(longer.back().list);
            }
        longest = std::move(longer);
    }
    return all;
}

// The smallest list that passes every clause, or every clause but one.
inline std::optional<List> first_pull_out(const Yard &yard, const Turning &turning, std::span<const List> chained,
                                          size_t left_out = no_clause) {
    std::optional<List> first;
    for (const List &list : chained) {
        if (first && *first <= list) continue;
        bool pull_out = true;
        for (size_t i = 0; i < clauses.size() && pull_out; i++)
            pull_out = i == left_out || clauses[i].holds(yard, turning, list);
        if (pull_out) first = list;
    }
    return first;
}

// Whether no clause is broken for good, of those that are not left out.
inline bool may_go_on(const Yard &yard, const Turning &turning, const List &list, const std::set<size_t> &left_out) {
    for (size_t i = 0; i + 1 < clauses.size(); i++)
        if (!left_out.contains(i) && !clauses[i].holds(yard, turning, list)) return false;
    return true;
}

// A list with one section more, in each way in which it may go on.
inline std::vector<List> grown(const Yard &yard, const Turning &turning, const List &list,
                               const std::set<size_t> &left_out = {}) {
    std::vector<List> longer;
    for (uint32_t q : yard.meeting.at(end_of(yard, turning.p, list))) {
        longer.push_back(list);
        longer.back().push_back(q);
        if (!may_go_on(yard, turning, longer.back(), left_out)) longer.pop_back();
    }
    return longer;
}

inline bool reaches_L(const Yard &yard, const Turning &turning, const List &list) {
    return clauses.back().holds(yard, turning, list);
}

inline bool any_list(const Yard &, const Turning &, const List &) { return true; }

// The smallest pull-out from lists that grow section by section, as far as no clause is broken for good. Lists can be given up
// for a reason that the document does not know, which makes a wrong finder.
inline std::optional<List> grown_pull_out(const Yard &yard, const Turning &turning,
                                          const std::set<size_t> &left_out = {},
                                          bool (*kept)(const Yard &, const Turning &, const List &) = any_list) {
    std::optional<List> first;
    std::vector<List> longest{{}};
    for (size_t length = 0; length < yard.sections.size() && !longest.empty(); length++) {
        std::vector<List> longer;
        for (const List &list : longest) std::ranges::move(grown(yard, turning, list, left_out), back_inserter(longer));
        std::erase_if(longer, [&](const List &list) { return !kept(yard, turning, list); });
        for (const List &list : longer)
            if (reaches_L(yard, turning, list) && (!first || list < *first)) first = list;
        longest = std::move(longer);
    }
    return first;
}

struct Question {
    uint32_t length, arrival, section;
};

// What is asked, where it passes 7 and 15, over a yard that passes 1 to 6.
inline Refusal check_question(const Yard &yard, const Question &question, Turning &turning) {
    if (question.length < 1 || question.length > 20000) return {7};
    if (question.arrival >= 2 * yard.sections.size() || question.section >= yard.sections.size()) return {15};
    const uint64_t c = question.arrival / 2;
    const uint64_t p = question.arrival % 2 == 0 ? yard.sections[c].a : yard.sections[c].b;
    if (!yard.forbidden(c, question.section) || yard.shared(c, question.section) != p) return {15};
    turning = {question.length, c, p, question.section};
    return {};
}

inline Refusal check_question(const Plan &plan, const Question &question, Turning &turning) {
    const Refusal refusal = check_plan(plan);
    return refusal.number != 0 ? refusal : check_question(Yard(plan), question, turning);
}

struct Answer {
    uint32_t refusal = 0, place = 0, count = 0;
    List buffer; // the lent list at exit
};

// The answer where 1 to 7 and 15 do not apply.
inline Answer answer_with(const std::optional<List> &list, List buffer) {
    if (!list) return {16, 0, 0, buffer};
    if (list->size() > buffer.size()) return {14, 0, 0, buffer};
    std::copy(list->begin(), list->end(), buffer.begin());
    return {0, 0, static_cast<uint32_t>(list->size()), buffer};
}

inline Answer pull_out(const Plan &plan, const Question &question, List buffer) {
    Turning turning{};
    if (const Refusal r = check_question(plan, question, turning); r.number != 0) return {r.number, r.place, 0, buffer};
    const Yard yard(plan);
    return answer_with(first_pull_out(yard, turning, chained_lists(yard, turning.p, Twice::left_out)),
                       std::move(buffer));
}

} // namespace second

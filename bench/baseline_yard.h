// What the baselines share: the plan check, the sections of each point, the check of the train, and pull-outs by
// depth-first search. Nothing is kept from one query to the next.
#pragma once
#include "finder.h"
#include "search_queries.h"
#include <utility>

namespace baseline {

constexpr uint32_t none = FINDER_NONE;

struct Section {
    uint32_t a, b, length, kind, free_a, free_b;

    bool is_free() const { return free_a == length && free_b == length; }
    uint32_t far(uint32_t p) const { return a == p ? b : a; }
    uint32_t free_from(uint32_t p) const { return a == p ? free_a : free_b; }
};

// The sections of a point in ascending order.
struct Point {
    std::array<uint32_t, 3> sections{none, none, none};
    uint32_t count = 0;
    uint32_t turn = none; // its forbidden turn
};

struct Refusal {
    uint32_t number = 0, place = 0;
};

// A plan that is read, checked and indexed by point.
class Yard {
  public:
    std::vector<Section> sections;
    std::vector<std::pair<uint32_t, uint32_t>> turns;
    std::vector<Point> points;

    Refusal read(const Plan &plan) {
        if (!read_tables(plan)) return {1, 0};
        for (uint32_t s = 0; s < sections.size(); s++)
            if (!keeps_rule(sections[s])) return {2, s};
        std::vector<uint32_t> degrees(points.size());
        for (uint32_t s = 0; s < sections.size(); s++) {
            if (is_double(s, degrees)) return {3, s};
            enter(sections[s].a, s, degrees);
            enter(sections[s].b, s, degrees);
        }
        for (uint32_t p = 0; p < points.size(); p++)
            if (degrees[p] < 1 || 3 < degrees[p]) return {4, p};
        for (uint32_t t = 0; t < turns.size(); t++)
            if (!is_turn(turns[t])) return {5, t};
        for (uint32_t t = 0; t < turns.size(); t++) {
            Point &point = points[shared_point(turns[t])];
            if (point.turn != none) return {6, t};
            point.turn = t;
        }
        return {};
    }

    bool is_forbidden(uint32_t p, uint32_t from, uint32_t to) const {
        if (points[p].turn == none) return false;
        const auto [x, y] = turns[points[p].turn];
        return (x == from && y == to) || (x == to && y == from);
    }

    uint32_t arrival_at(uint32_t section, uint32_t p) const { return 2 * section + (sections[section].b == p); }
    uint32_t point_of(uint32_t arrival) const {
        const Section &section = sections[arrival / 2];
        return arrival % 2 == 0 ? section.a : section.b;
    }

  private:
    bool read_tables(const Plan &plan) {
        const size_t count = plan.sections.size() / 6, turn_count = plan.turns.size() / 2;
        if (plan.points < 1 || 768 < plan.points || count < 1 || 1024 < count || 768 < turn_count) return false;
        if (plan.sections.size() % 6 != 0 || plan.turns.size() % 2 != 0) return false;
        points.resize(plan.points);
        sections.reserve(count);
        for (const uint32_t *row = plan.sections.data(); sections.size() < count; row += 6)
            sections.push_back({row[0], row[1], row[2], row[3], row[4], row[5]});
        turns.reserve(turn_count);
        for (const uint32_t *row = plan.turns.data(); turns.size() < turn_count; row += 2)
            turns.emplace_back(row[0], row[1]);
        return true;
    }

    bool keeps_rule(const Section &section) const {
        if (section.a >= points.size() || section.b >= points.size() || section.a == section.b) return false;
        if (section.length < 1 || 200000 < section.length || 1 < section.kind) return false;
        return section.is_free() || uint64_t{section.free_a} + section.free_b < section.length;
    }

    bool joins_same(uint32_t s, uint32_t r) const {
        return std::minmax(sections[s].a, sections[s].b) == std::minmax(sections[r].a, sections[r].b);
    }

    // A point with over three sections has not all of them in the index.
    bool is_double(uint32_t s, const std::vector<uint32_t> &degrees) const {
        const Point &point = points[sections[s].a];
        if (degrees[sections[s].a] <= 3)
            return std::any_of(point.sections.begin(), point.sections.begin() + point.count,
                               [&](uint32_t r) { return joins_same(s, r); });
        for (uint32_t r = 0; r < s; r++)
            if (joins_same(s, r)) return true;
        return false;
    }

    void enter(uint32_t p, uint32_t s, std::vector<uint32_t> &degrees) {
        degrees[p]++;
        if (points[p].count < 3) points[p].sections[points[p].count++] = s;
    }

    bool is_turn(std::pair<uint32_t, uint32_t> turn) const {
        const auto [x, y] = turn;
        if (x >= sections.size() || y >= sections.size() || x == y) return false;
        const Section &one = sections[x], &other = sections[y];
        if (one.kind != 0 || other.kind != 0) return false;
        return one.a == other.a || one.a == other.b || one.b == other.a || one.b == other.b;
    }

    uint32_t shared_point(std::pair<uint32_t, uint32_t> turn) const {
        const Section &one = sections[turn.first], &other = sections[turn.second];
        return one.a == other.a || one.a == other.b ? one.a : one.b;
    }
};

// Whether there is a pull-out: depth first, until the first is found.
class PullOuts {
  public:
    explicit PullOuts(const Yard &yard) : yard(yard), visited(yard.points.size()) {}

    // For the turn between sections c and s at p, in either direction.
    bool exists(uint32_t c, uint32_t p, uint32_t s, uint32_t length) {
        leave = c;
        onto = s;
        visited[p] = true;
        const bool found = runs_on(c, p, length);
        visited[p] = false;
        return found;
    }

  private:
    const Yard &yard;
    std::vector<char> visited;
    uint32_t leave = 0, onto = 0;

    bool runs_on(uint32_t over, uint32_t p, uint32_t left) {
        const Point &point = yard.points[p];
        for (uint32_t i = 0; i < point.count; i++) {
            const uint32_t e = point.sections[i];
            if (e == over || e == leave || e == onto || yard.is_forbidden(p, over, e)) continue;
            const Section &section = yard.sections[e];
            if (left <= section.free_from(p)) return true;
            const uint32_t q = section.far(p);
            if (!section.is_free() || visited[q]) continue;
            visited[q] = true;
            const bool found = runs_on(e, q, left - section.length);
            visited[q] = false;
            if (found) return true;
        }
        return false;
    }
};

// Refusals 7 to 10, and the finish room.
inline uint32_t check_train(const Yard &yard, const Query &query, uint32_t &room) {
    const auto is_destination_end = [&](uint32_t s, uint32_t end) {
        return s < yard.sections.size() && end <= 1 && yard.sections[s].kind == 1;
    };
    if (query.length < 1 || 20000 < query.length) return 7;
    if (!is_destination_end(query.start, query.start_end)) return 8;
    const Section &start = yard.sections[query.start];
    const uint64_t taken = uint64_t{query.length} + start.free_a + start.free_b;
    if (start.length < taken) return 8;
    if (!is_destination_end(query.finish, query.finish_end)) return 9;
    if (query.start == query.finish && query.start_end == query.finish_end) return 9;
    const Section &finish = yard.sections[query.finish];
    const bool clears = query.start == query.finish && taken == start.length;
    room = clears ? finish.length : query.finish_end == 0 ? finish.free_a : finish.free_b;
    return room < query.length ? 10 : 0;
}

// What the rules of one query say of sections and arrivals. Refusals 1 to 11 are found while it is made.
class Asked {
  public:
    Yard yard;
    const Query &query;
    finder_answer refused{};
    uint32_t room = 0, goal = 0;

    Asked(const Query &query, size_t labels) : query(query) {
        if (const Refusal refusal = yard.read(query.plan); refusal.number != 0)
            refused = {refusal.number, refusal.place, 0, 0, 0};
        else if (const uint32_t number = check_train(yard, query, room); number != 0)
            refused.refusal = number;
        else if (labels != 2 * yard.sections.size())
            refused.refusal = 11;
        else
            goal = yard.point_of(2 * query.finish + query.finish_end);
    }

    uint32_t arrivals() const { return static_cast<uint32_t>(2 * yard.sections.size()); }
    uint32_t from() const { return 2 * query.start + query.start_end; }
    uint32_t first_distance() const {
        const Section &start = yard.sections[query.start];
        return query.start_end == 0 ? start.free_a : start.free_b;
    }
    bool may_enter(uint32_t s) const { return s != query.finish && s != query.start && yard.sections[s].is_free(); }
    bool is_end(uint32_t arrival) const { return arrival / 2 != query.finish && yard.point_of(arrival) == goal; }

    std::vector<uint32_t> ends() const {
        std::vector<uint32_t> all;
        const Point &point = yard.points[goal];
        for (uint32_t i = 0; i < point.count; i++)
            if (point.sections[i] != query.finish) all.push_back(yard.arrival_at(point.sections[i], goal));
        return all;
    }

    // Labels and walk into the lent buffers, or what is refused then.
    finder_answer written(const std::vector<uint32_t> &distances, const std::vector<uint32_t> &walk, uint32_t reversals,
                          std::vector<uint32_t> &route, std::vector<uint32_t> &labels) const {
        const bool found = distances[from()] != none;
        if (found && route.size() < walk.size()) return {14, 0, 0, 0, 0};
        std::copy(distances.begin(), distances.end(), labels.begin());
        if (!found) return {12, 0, 0, 0, 0};
        std::copy(walk.begin(), walk.end(), route.begin());
        return {0, 0, first_distance() + distances[from()], reversals, static_cast<uint32_t>(walk.size())};
    }
};

} // namespace baseline

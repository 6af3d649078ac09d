// Document 003's Algorithm 1 for the work of finder_search. As there, Dijkstra's algorithm keeps a mark for each
// arrival, goes from point to point of the plan itself, and asks for a pull-out when a mark would fall by a reversal,
// once for each forbidden turn. What differs: it runs backwards from the finish and until no mark is left, since all
// remaining distances are wanted; its depth-first search tries everything; the heap is binary; the plan is checked, and
// of the shortest walks the first is taken.
#pragma once
#include "baseline_yard.h"
#include <queue>

namespace baseline {

class Algorithm1 {
  public:
    explicit Algorithm1(const Asked &asked)
        : asked(asked), yard(asked.yard), pull_outs(asked.yard), reversible(yard.points.size(), unknown),
          distances(asked.arrivals(), none) {}

    finder_answer run(std::vector<uint32_t> &route, std::vector<uint32_t> &labels) {
        mark_all();
        const std::vector<uint32_t> walk = distances[asked.from()] == none ? std::vector<uint32_t>{} : first_walk();
        return asked.written(distances, walk, reversals, route, labels);
    }

  private:
    using Mark = std::pair<uint32_t, uint32_t>; // distance, arrival
    enum Answer : char { no, yes, unknown };

    const Asked &asked;
    const Yard &yard;
    PullOuts pull_outs;
    std::vector<Answer> reversible; // by point: whether there is a pull-out for its forbidden turn
    std::vector<uint32_t> distances;
    std::priority_queue<Mark, std::vector<Mark>, std::greater<>> waiting;
    uint32_t reversals = 0;

    bool can_reverse(uint32_t p) {
        if (reversible[p] == unknown) {
            const auto [c, s] = yard.turns[yard.points[p].turn];
            reversible[p] = pull_outs.exists(c, p, s, asked.query.length) ? yes : no;
        }
        return reversible[p] == yes;
    }

    void mark(uint32_t arrival, uint32_t distance) {
        distances[arrival] = distance;
        waiting.push({distance, arrival});
    }

    void mark_all() {
        for (const uint32_t end : asked.ends()) mark(end, asked.room);
        while (!waiting.empty()) {
            const auto [distance, arrival] = waiting.top();
            waiting.pop();
            if (distance == distances[arrival] && asked.may_enter(arrival / 2)) mark_before(arrival, distance);
        }
    }

    // The arrivals from which a step leads to this one.
    void mark_before(uint32_t arrival, uint32_t distance) {
        const uint32_t s = arrival / 2, p = yard.sections[s].far(yard.point_of(arrival));
        const Point &point = yard.points[p];
        for (uint32_t i = 0; i < point.count; i++) {
            const uint32_t c = point.sections[i], before = yard.arrival_at(c, p);
            if (c == s) continue;
            const bool reversal = yard.is_forbidden(p, c, s);
            const uint32_t sum = distance + yard.sections[s].length + (reversal ? asked.query.length : 0);
            if (sum < distances[before] && (!reversal || can_reverse(p))) mark(before, sum);
        }
    }

    std::vector<uint32_t> first_walk() {
        std::vector<uint32_t> walk;
        for (uint32_t a = asked.from(); !asked.is_end(a);) walk.push_back(a = next(a));
        return walk;
    }

    // The first step by section numbers that the distances allow.
    uint32_t next(uint32_t a) {
        const uint32_t c = a / 2, p = yard.point_of(a);
        for (const uint32_t s : yard.points[p].sections) {
            if (s == none) break;
            if (s == c || !asked.may_enter(s)) continue;
            const bool reversal = yard.is_forbidden(p, c, s);
            const uint32_t b = yard.arrival_at(s, yard.sections[s].far(p));
            const uint32_t cost = yard.sections[s].length + (reversal ? asked.query.length : 0);
            if (distances[b] == none || distances[b] + cost != distances[a] || (reversal && !can_reverse(p))) continue;
            reversals += reversal;
            return b;
        }
        return none; // a distance above the finish room comes from a step
    }
};

inline finder_answer algorithm_1(const Query &query, std::vector<uint32_t> &route, std::vector<uint32_t> &labels) {
    const Asked asked(query, labels.size());
    return asked.refused.refusal != 0 ? asked.refused : Algorithm1(asked).run(route, labels);
}

} // namespace baseline

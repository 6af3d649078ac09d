// The graph has a node for each arrival and one behind the finish. Its arcs go against the steps, so that one run from
// the finish gives all remaining distances.
#include "lemon_search.h"
#include <lemon/dijkstra.h>
#include <lemon/smart_graph.h>

namespace baseline {

using Digraph = lemon::SmartDigraph;
using Costs = Digraph::ArcMap<uint32_t>;

struct LemonSearch::Graph {
    Digraph digraph;
    Costs costs{digraph};
    Digraph::Node finish;

    explicit Graph(uint32_t arrivals) {
        digraph.reserveNode(static_cast<int>(arrivals) + 1);
        digraph.reserveArc(static_cast<int>(2 * arrivals) + 2);
        for (uint32_t a = 0; a < arrivals; a++) digraph.addNode();
        finish = digraph.addNode();
    }
    static Digraph::Node node(uint32_t arrival) { return Digraph::nodeFromId(static_cast<int>(arrival)); }
    static uint32_t arrival(Digraph::Node node) { return static_cast<uint32_t>(Digraph::id(node)); }
    void arc(Digraph::Node from, Digraph::Node to, uint32_t cost) { costs[digraph.addArc(from, to)] = cost; }
};

LemonSearch::LemonSearch(const Query &query, size_t labels) : asked(query, labels) {
    if (asked.refused.refusal != 0) return;
    graph = std::make_unique<Graph>(asked.arrivals());
    const std::vector<char> reversible = reversible_points();
    for (uint32_t a = 0; a < asked.arrivals(); a++) add_steps(a, reversible);
    for (const uint32_t end : asked.ends()) graph->arc(graph->finish, Graph::node(end), asked.room);
}

LemonSearch::~LemonSearch() = default;

// One question for each forbidden turn that a step could take.
std::vector<char> LemonSearch::reversible_points() const {
    const Yard &yard = asked.yard;
    std::vector<char> reversible(yard.points.size());
    PullOuts pull_outs(yard);
    for (uint32_t p = 0; p < yard.points.size(); p++) {
        if (yard.points[p].turn == none) continue;
        const auto [c, s] = yard.turns[yard.points[p].turn];
        reversible[p] = (asked.may_enter(c) || asked.may_enter(s)) && pull_outs.exists(c, p, s, asked.query.length);
    }
    return reversible;
}

void LemonSearch::add_steps(uint32_t arrival, const std::vector<char> &reversible) {
    const Yard &yard = asked.yard;
    const uint32_t c = arrival / 2, p = yard.point_of(arrival);
    const Point &point = yard.points[p];
    for (uint32_t i = 0; i < point.count; i++) {
        const uint32_t s = point.sections[i];
        if (s == c || !asked.may_enter(s)) continue;
        const bool reversal = yard.is_forbidden(p, c, s);
        if (reversal && !reversible[p]) continue;
        const uint32_t after = yard.arrival_at(s, yard.sections[s].far(p));
        graph->arc(Graph::node(after), Graph::node(arrival),
                   yard.sections[s].length + (reversal ? asked.query.length : 0));
    }
}

// Of the steps that the distances allow, that onto the lowest section.
std::vector<uint32_t> LemonSearch::first_walk(const std::vector<uint32_t> &distances, uint32_t &reversals) const {
    std::vector<uint32_t> walk;
    for (uint32_t a = asked.from(); !asked.is_end(a); walk.push_back(a)) {
        uint32_t first = none;
        for (Digraph::InArcIt step(graph->digraph, Graph::node(a)); step != lemon::INVALID; ++step) {
            const uint32_t b = Graph::arrival(graph->digraph.source(step));
            if (distances[b] != none && distances[b] + graph->costs[step] == distances[a]) first = std::min(first, b);
        }
        reversals += asked.yard.is_forbidden(asked.yard.point_of(a), a / 2, first / 2);
        a = first;
    }
    return walk;
}

finder_answer LemonSearch::run(std::vector<uint32_t> &route, std::vector<uint32_t> &labels) const {
    if (asked.refused.refusal != 0) return asked.refused;
    lemon::Dijkstra<Digraph, Costs> dijkstra(graph->digraph, graph->costs);
    dijkstra.run(graph->finish);
    std::vector<uint32_t> distances(asked.arrivals(), none);
    for (uint32_t a = 0; a < asked.arrivals(); a++)
        if (dijkstra.reached(Graph::node(a))) distances[a] = dijkstra.dist(Graph::node(a));
    uint32_t reversals = 0;
    const bool found = distances[asked.from()] != none;
    const std::vector<uint32_t> walk = found ? first_walk(distances, reversals) : std::vector<uint32_t>{};
    return asked.written(distances, walk, reversals, route, labels);
}

} // namespace baseline

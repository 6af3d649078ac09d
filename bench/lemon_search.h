// A search with LEMON's Dijkstra over the graph of arrivals, for the work of finder_search. LEMON is older than C++20,
// so that bench/lemon_search.cpp is compiled on its own.
#pragma once
#include "baseline_yard.h"
#include <memory>

namespace baseline {

class LemonSearch {
  public:
    // The plan check, the pull-out of each forbidden turn, and the graph of the query.
    LemonSearch(const Query &query, size_t labels);
    ~LemonSearch();
    // The labels and the first shortest walk.
    finder_answer run(std::vector<uint32_t> &route, std::vector<uint32_t> &labels) const;

  private:
    struct Graph;
    Asked asked;
    std::unique_ptr<Graph> graph;

    std::vector<char> reversible_points() const;
    void add_steps(uint32_t arrival, const std::vector<char> &reversible);
    std::vector<uint32_t> first_walk(const std::vector<uint32_t> &distances, uint32_t &reversals) const;
};

} // namespace baseline

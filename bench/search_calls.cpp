// Calls of one side, for counting instructions.
//   search_calls SIDE YARD SIZE HALF EACH    queries of a yard, so many of each length, none to a dead end; prints the number of
//                                            calls
#include "count_marks.h"
#include "sides.h"
#include <cstdio>
#include <cstdlib>

namespace {

uint32_t number(const char *word) { return static_cast<uint32_t>(std::strtoul(word, nullptr, 10)); }

void call_all(const Side &side, const std::vector<Query> &queries) {
    std::vector<Outcome> outcomes;
    std::vector<Call> calls;
    for (const Query &query : queries) {
        outcomes.emplace_back(query);
        calls.push_back(side.ready(query));
    }
    count_begins();
    for (size_t i = 0; i < calls.size(); i++) calls[i](outcomes[i]);
    count_ends();
}

} // namespace

int main(int argc, char **argv) {
    if (argc != 6) return std::fputs("search_calls: SIDE YARD SIZE HALF EACH\n", stderr), 2;
    const Plan yard = family_named(argv[2]).yard(number(argv[3]));
    const std::vector<Query> queries = draw_searches(yard, number(argv[4]) != 0, number(argv[5]));
    call_all(side_named(argv[1]), queries);
    std::printf("%zu\n", queries.size());
}

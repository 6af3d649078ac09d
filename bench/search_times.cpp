// The time of every side on the largest yard of every family. Prints rows of fields:
//   yard, family, size, whether half is occupied, points, sections, turns: each yard, also those that are not timed
//   times, side, whether there is a route, queries, median and worst over these queries in nanoseconds: of the yard
//   before search_times            all of that search_times untimed    the yards only
// On every yard the answers are compared; ends with status 1 where that of a side that searches is not the library's,
// or the library refuses its own sheet.
#include "sides.h"
#include <cstdio>
#include <ctime>

namespace {

// The time that this program had the processor: a call takes long enough to be interrupted by other programs.
long long now() {
    timespec time{};
    clock_gettime(CLOCK_THREAD_CPUTIME_ID, &time);
    return time.tv_sec * 1'000'000'000ll + time.tv_nsec;
}

// A side's call and the least of its times.
struct Timed {
    Call call;
    long long least = -1;

    void once(const Query &query) {
        Outcome outcome(query);
        const long long start = now();
        call(outcome);
        const long long time = now() - start;
        if (least < 0 || time < least) least = time;
    }
};

// A side on the yard at hand, and its times by query: those with a route and those without.
struct Runner {
    const Side *side;
    std::array<std::vector<long long>, 2> times;

    void print(bool route) {
        std::vector<long long> &all = times[route];
        if (all.empty()) return;
        std::sort(all.begin(), all.end());
        std::printf("times\t%s\t%d\t%zu\t%lld\t%lld\n", side->name, route, all.size(), all[all.size() / 2], all.back());
    }
};

std::vector<Runner> runners_on(const Plan &yard) {
    std::vector<Runner> runners;
    for (const Side &side : sides)
        if (yard.count() <= side.sections_most) runners.push_back({&side, {}});
    return runners;
}

constexpr int calls_of_each_side = 7;
constexpr uint32_t queries_of_each_length = 10;

// Turn about, so that what else the machine does hits all sides alike.
void time_query(std::vector<Runner> &runners, const Query &query, bool route) {
    std::vector<Timed> all;
    for (const Runner &runner : runners) all.push_back({runner.side->ready(query)});
    for (int calls = 0; calls < calls_of_each_side; calls++)
        for (Timed &timed : all) timed.once(query);
    for (size_t i = 0; i < all.size(); i++) runners[i].times[route].push_back(all[i].least);
}

bool agrees(const Side &side, const Query &query, const Outcome &expected) {
    Outcome outcome(query);
    side.ready(query)(outcome);
    const bool agrees = side.searches ? outcome == expected : outcome.answer.refusal == FINDER_OK;
    if (!agrees)
        std::fprintf(
            stderr, "%s: %u sections, L = %u, from (%u, %u) to (%u, %u): refusal %u at %u, the search %u at %u\n",
            side.name, query.plan.count(), query.length, query.start, query.start_end, query.finish, query.finish_end,
            outcome.answer.refusal, outcome.answer.place, expected.answer.refusal, expected.answer.place);
    return agrees;
}

bool print_yard(const SearchFamily &family, uint32_t size, bool half_occupied, bool timed) {
    const Plan yard = family.yard(size);
    std::vector<Runner> runners = runners_on(yard);
    bool agree = true;
    for (const Query &query : draw_queries(yard, half_occupied, queries_of_each_length)) {
        const Outcome expected = found(query);
        for (const Runner &runner : runners) agree = agrees(*runner.side, query, expected) && agree;
        if (timed) time_query(runners, query, expected.answer.refusal == FINDER_OK);
    }
    std::printf("yard\t%s\t%u\t%d\t%u\t%u\t%zu\n", family.name, size, half_occupied, yard.points, yard.count(),
                yard.turns.size() / 2);
    for (const bool route : {true, false})
        for (Runner &runner : runners) runner.print(route);
    std::fflush(stdout);
    return agree;
}

} // namespace

int main(int argc, char **) {
    bool agree = true;
    for (const SearchFamily &family : search_families)
        for (const uint32_t size : family.sizes)
            for (const bool half_occupied : {false, true})
                agree = print_yard(family, size, half_occupied, argc == 1 && size == family.sizes.back()) && agree;
    return agree ? 0 : 1;
}

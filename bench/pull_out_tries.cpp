// What a pull-out costs, by kind and size of yard, for trains one decimetre below the longest that has a pull-out, at it and
// one above. bench/pull_out_table builds and runs this and prints the table.
//   pull_out_tries            every case in a process of its own: number, family, how its cost may grow, size, sections,
//                             length, answer, nanoseconds
//   pull_out_tries NUMBER     the case of this number, once, for counting instructions
#include "count_marks.h"
#include "families.h"
#include "finder.h"
#include <chrono>
#include <cstdio>
#include <cstdlib>
#include <sys/wait.h>
#include <unistd.h>

namespace {

struct Case {
    const Family *family;
    uint32_t size, length;
    Plan plan;
    std::vector<uint32_t> list = std::vector<uint32_t>(FINDER_POINTS_MOST);

    finder_pull call() {
        return finder_pull_out(plan.points, plan.sections.data(), plan.sections.size(), plan.turns.data(),
                               plan.turns.size(), length, 0, 1, list.data(), list.size());
    }
};

std::vector<Case> cases() {
    std::vector<Case> all;
    for (const Family &family : families)
        for (uint32_t size : family.sizes) {
            const YardCase yard = family.yard(size);
            for (uint32_t length : {yard.longest - 1, yard.longest, yard.longest + 1})
                all.push_back({&family, size, length, yard.plan});
        }
    return all;
}

// The least time of a few calls.
long long nanoseconds(Case &one, finder_pull &pull) {
    long long least = -1, spent = 0;
    for (int calls = 0; calls < 20 && spent < 100'000'000; calls++) {
        const auto start = std::chrono::steady_clock::now();
        pull = one.call();
        const auto time = std::chrono::nanoseconds(std::chrono::steady_clock::now() - start).count();
        spent += time;
        if (least < 0 || time < least) least = time;
    }
    return least;
}

void print(size_t number, const Case &one, const char *answer, long long time) {
    std::printf("%zu\t%s\t%s\t%u\t%u\t%u\t%s\t%lld\n", number, one.family->name, words(one.family->growth), one.size,
                one.plan.count(), one.length, answer, time);
    std::fflush(stdout);
}

// In a process of its own, so that a case that takes too long can be given up.
void time_one(size_t number, Case &one) {
    const unsigned seconds = 2;
    const pid_t child = fork();
    if (child == 0) {
        alarm(seconds);
        finder_pull pull{};
        const long long time = nanoseconds(one, pull);
        char answer[40];
        if (pull.refusal == 0)
            std::snprintf(answer, sizeof answer, "%u sections", pull.count);
        else
            std::snprintf(answer, sizeof answer, "refusal %u", pull.refusal);
        print(number, one, answer, time);
        _exit(0);
    }
    int status = 0;
    waitpid(child, &status, 0);
    if (!WIFEXITED(status)) print(number, one, "none in time", seconds * 1'000'000'000ll);
}

void count_one(Case &one) {
    count_begins();
    one.call();
    count_ends();
}

} // namespace

int main(int argc, char **argv) {
    std::vector<Case> all = cases();
    if (argc > 1) return count_one(all.at(std::strtoul(argv[1], nullptr, 10))), 0;
    for (size_t number = 0; number < all.size(); number++) time_one(number, all[number]);
}

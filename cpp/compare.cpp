// The comparison of the library with the second program, call by call.
//   compare --cases N [--seed S]     at least N cases; counts by function and refusal number
//   compare --only YARD [--seed S]   the cases of one yard again
//   compare --forever [--seed S]     until it is stopped, with a line every 10,000 cases
//   compare --tiny                   the search of every tiny yard
//   compare --mutants                the same cases with wrong finders, each of which has to be caught
// Ends with status 1 at the first difference, and prints the case in full.
#include "compare/kinds.h"
#include "compare/mutants.h"
#include <csignal>
#include <cstdlib>
#include <cstring>
#include <unistd.h>

namespace {

struct Options {
    const char *mode = "";
    uint64_t number = 0, seed = 1;
};

std::optional<Options> options_of(int count, char **words) {
    Options options;
    for (int i = 1; i < count; i++) {
        const std::string_view word = words[i];
        const bool numbered = word == "--cases" || word == "--only" || word == "--seed";
        if (numbered && ++i == count) return std::nullopt;
        const uint64_t number = numbered ? std::strtoull(words[i], nullptr, 10) : 0;
        if (word == "--seed") {
            options.seed = number;
            continue;
        }
        if (!numbered && word != "--forever" && word != "--tiny" && word != "--mutants") return std::nullopt;
        options.mode = words[numbered ? i - 1 : i];
        options.number = number;
    }
    return *options.mode == 0 ? std::nullopt : std::optional(options);
}

// Where a read or write outside the lent tables stops the program, so that the case can be found again.
uint64_t seed_under_way, yard_under_way;

void stopped(int) {
    char text[120];
    const int length =
        std::snprintf(text, sizeof text, "compare: memory outside the lent tables was touched: --only %ju --seed %ju\n",
                      static_cast<uintmax_t>(yard_under_way), static_cast<uintmax_t>(seed_under_way));
    const auto written = write(STDOUT_FILENO, text, static_cast<size_t>(length));
    _exit(written == length ? 1 : 2);
}

void yard(Run &run, uint64_t seed, uint64_t number) {
    seed_under_way = seed;
    yard_under_way = number;
    yard_cases(run, seed, number);
}

int reported(const Difference &d, const Options &options) {
    const std::string yard = " --only " + std::to_string(yard_under_way);
    std::printf("compare: case %ju, %s: %s\n%sAgain: cpp/run_compare%s --seed %ju\n", static_cast<uintmax_t>(d.number),
                d.where.c_str(), d.what.c_str(), d.text.c_str(),
                std::string_view(options.mode) == "--tiny" ? " --tiny" : yard.c_str(),
                static_cast<uintmax_t>(options.seed));
    return 1;
}

int concluded(const Run &run, const Options &options, uint64_t yards) {
    run.counts().print();
    if (!run.counts().complete()) return 1;
    std::printf("compare: %ju cases of %ju yards agree, seed %ju\n", static_cast<uintmax_t>(run.cases()),
                static_cast<uintmax_t>(yards), static_cast<uintmax_t>(options.seed));
    return 0;
}

int some_cases(const Options &options) {
    Run run{Finder{}};
    uint64_t number = 0;
    for (; run.cases() < options.number; number++) yard(run, options.seed, number);
    return concluded(run, options, number);
}

int one_yard(const Options &options) {
    Run run{Finder{}};
    yard(run, options.seed, options.number);
    run.counts().print();
    std::printf("compare: %ju cases agree\n", static_cast<uintmax_t>(run.cases()));
    return 0;
}

int forever(const Options &options) {
    Run run{Finder{}};
    uint64_t reports = 0;
    for (uint64_t number = 0;; number++) {
        yard(run, options.seed, number);
        if (run.cases() / 10000 == reports) continue;
        reports = run.cases() / 10000;
        std::printf("compare: %ju cases of %ju yards agree, seed %ju\n", static_cast<uintmax_t>(run.cases()),
                    static_cast<uintmax_t>(number + 1), static_cast<uintmax_t>(options.seed));
        std::fflush(stdout);
    }
}

int every_tiny_yard(const Options &options) {
    Run run{Finder{}};
    for (uint64_t number = 0; number < tiny_yards().count(); number++) {
        Draw draw(seed_of(options.seed, number));
        tiny_yard(run, draw, number, Tiny::search);
    }
    run.counts().print();
    std::printf("compare: %ju cases of all %ju tiny yards agree\n", static_cast<uintmax_t>(run.cases()),
                static_cast<uintmax_t>(tiny_yards().count()));
    return 0;
}

int run_mode(const Options &options) {
    const std::string_view mode = options.mode;
    if (mode == "--cases") return some_cases(options);
    if (mode == "--only") return one_yard(options);
    if (mode == "--forever") return forever(options);
    if (mode == "--tiny") return every_tiny_yard(options);
    return all_mutants_caught(options.seed) ? 0 : 1;
}

} // namespace

int main(int count, char **words) {
    const auto options = options_of(count, words);
    if (!options) {
        std::puts("compare --cases N | --only YARD | --forever | --tiny | --mutants [--seed S]");
        return 2;
    }
    for (int signal : {SIGSEGV, SIGBUS}) std::signal(signal, stopped);
    try {
        return run_mode(*options);
    } catch (const Difference &difference) {
        return reported(difference, *options);
    }
}

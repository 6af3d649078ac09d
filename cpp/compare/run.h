// A run of the comparison: each case is one call, compared in full with what the second program says; the first
// difference ends it. It counts what the cases met.
#pragma once
#include "words.h"
#include <cstdio>

// How often each function gave each refusal, and at which places.
class Counts {
public:
    static constexpr size_t numbers = 21;

    void add(Function function, const Outcome &outcome) {
        times_[function][outcome.numbers[0]]++;
        places_[outcome.numbers[0]].insert(static_cast<uint32_t>(outcome.numbers[1]));
    }
    uint64_t total(size_t number) const {
        uint64_t sum = 0;
        for (const auto &times : times_) sum += times[number];
        return sum;
    }

    void print() const {
        std::printf("refusal %10s %10s %10s %10s %10s %10s  places\n", "plan", "search", "pull-out", "sheet", "file",
                    "all");
        for (size_t number = 0; number < numbers; number++) {
            std::printf("%7zu", number);
            for (const auto &times : times_) std::printf(" %10ju", static_cast<uintmax_t>(times[number]));
            std::printf(" %10ju  %s\n", static_cast<uintmax_t>(total(number)), places_text(places_[number]).c_str());
        }
    }

    // The cases were worth comparing: every refusal but 13, which is never given, and each low place of those that
    // have one. No section before 1 joins the points of an earlier one, and no turn before 1 is a second one.
    bool complete() const {
        bool all = total(13) == 0;
        if (!all) std::puts("compare: 13 was met");
        for (uint32_t number = 0; number < numbers; number++)
            all = met(total(number) > 0 || number == 13, number, "") && all;
        for (uint32_t number : {2, 3, 4, 5, 6, 18})
            for (uint32_t place = number == 3 || number == 6; place < 4; place++)
                all = met(places_[number].contains(place), number, " at " + std::to_string(place)) && all;
        return all;
    }

private:
    // How many there were, and the longest row of them from the lowest on.
    static std::string places_text(const std::set<uint32_t> &places) {
        if (places.size() < 2) return "";
        uint32_t last = *places.begin();
        while (places.contains(last + 1)) last++;
        return std::to_string(places.size()) + ", all from " + std::to_string(*places.begin()) + " to " +
               std::to_string(last);
    }

    static bool met(bool some, uint32_t number, const std::string &place) {
        if (!some) std::printf("compare: refusal %u%s was never met\n", number, place.c_str());
        return some;
    }

    std::array<std::array<uint64_t, numbers>, functions> times_{};
    std::array<std::set<uint32_t>, numbers> places_;
};

struct Difference {
    uint64_t number;
    std::string where, what, text;
};

class Run {
public:
    explicit Run(const Finder &finder) : finder_(finder) {}

    template <class Call> void compare(const Call &call, const Outcome &expected) {
        cases_++;
        counts_.add(Call::function, expected);
        const Outcome got = call.ask(finder_);
        if (got == expected) return;
        throw Difference{cases_, std::string(words_of(Call::function).name), difference(Call::function, got, expected),
                         text_of(call) + text_of(Call::function, "second program", expected) +
                             text_of(Call::function, "library", got)};
    }

    // What the second program says twice, in two ways.
    void confirm(bool right, const std::string &what) const {
        if (!right) throw Difference{cases_, "the second program", what, ""};
    }

    uint64_t cases() const { return cases_; }
    const Counts &counts() const { return counts_; }

private:
    Finder finder_;
    uint64_t cases_ = 0;
    Counts counts_;
};

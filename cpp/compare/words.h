// What differed, and a call's arguments in full, in words.
#pragma once
#include "calls.h"
#include <string>

struct FunctionWords {
    std::string_view name;
    std::vector<std::string_view> numbers, buffers;
};

inline const FunctionWords &words_of(Function function) {
    static const std::vector<std::string_view> answer{"refusal", "place", "total", "reversals", "steps"};
    static const std::array<FunctionWords, functions> words{{
        {"finder_check_plan", answer, {}},
        {"finder_search", answer, {"route", "labels"}},
        {"finder_pull_out", {"refusal", "place", "count"}, {"list"}},
        {"finder_check_sheet", answer, {}},
        {"finder_read_yard",
         {"refusal", "place", "points", "sections", "turns", "queries"},
         {"sections", "turns", "queries"}},
    }};
    return words[function];
}

inline std::string other_than(uint64_t got, uint64_t expected) {
    return std::to_string(got) + ", not " + std::to_string(expected);
}

// The first number or entry of which two outcomes of one call have another value.
inline std::string difference(Function function, const Outcome &got, const Outcome &expected) {
    const FunctionWords &words = words_of(function);
    for (size_t i = 0; i < expected.numbers.size(); i++)
        if (got.numbers[i] != expected.numbers[i])
            return std::string(words.numbers[i]) + " " + other_than(got.numbers[i], expected.numbers[i]);
    for (size_t i = 0; i < expected.buffers.size(); i++) {
        const auto [at, right] = std::ranges::mismatch(got.buffers[i], expected.buffers[i]);
        if (at == got.buffers[i].end()) continue;
        return "entry " + std::to_string(at - got.buffers[i].begin()) + " of " + std::string(words.buffers[i]) + " " +
               other_than(*at, *right);
    }
    return "nothing";
}

template <class T> std::string line(std::string_view name, const std::vector<T> &numbers) {
    std::string text = "  " + std::string(name) + " (" + std::to_string(numbers.size()) + "):";
    for (auto number : numbers) text += " " + std::to_string(number);
    return text + "\n";
}

inline std::string text_of(const LentPlan &lent) {
    const Plan &plan = lent.plan();
    return "  points: " + std::to_string(plan.points) + "\n" + line("sections", plan.sections) +
           line("turns", plan.turns);
}

inline std::string text_of(const second::Query &q) {
    return line("L, start section and end, finish section and end",
                second::List{q.length, q.start, q.start_end, q.finish, q.finish_end});
}

inline std::string text_of(const PlanCall &call) { return text_of(call.lent); }

inline std::string text_of(const SearchCall &call) {
    return text_of(call.lent) + text_of(call.query) + line("route at entry", call.route) +
           line("labels at entry", call.labels);
}

inline std::string text_of(const PullOutCall &call) {
    const second::Question &q = call.question;
    return text_of(call.lent) + line("L, arrival, section", second::List{q.length, q.arrival, q.section}) +
           line("list at entry", call.list);
}

inline std::string text_of(const SheetCall &call) {
    return text_of(call.lent) + text_of(call.query) + "  claim: " + std::to_string(call.sheet.claim) + "\n" +
           line("list", call.sheet.list) + line("labels", call.sheet.labels);
}

inline std::string text_of(const FileCall &call) {
    std::string text = line("file", call.file);
    for (const auto &table : call.tables) text += line("table at entry", table);
    return text;
}

inline std::string text_of(Function function, const char *whose, const Outcome &outcome) {
    const FunctionWords &words = words_of(function);
    std::string text = "  " + std::string(whose) + ":";
    for (size_t i = 0; i < outcome.numbers.size(); i++)
        text += " " + std::string(words.numbers[i]) + " " + std::to_string(outcome.numbers[i]);
    text += "\n";
    for (size_t i = 0; i < outcome.buffers.size(); i++) text += "  " + line(words.buffers[i], outcome.buffers[i]);
    return text;
}

// Wrong functions in the library's places: each is written over plain values, and an adapter gives it the library's
// signature.
#pragma once
#include "calls.h"

struct AskedSearch {
    Plan plan;
    second::Query query;
    second::List route, labels; // at entry
};

struct AskedPullOut {
    Plan plan;
    second::Question question;
    second::List list; // at entry
};

struct AskedSheet {
    Plan plan;
    second::Query query;
    second::Sheet sheet;
};

struct AskedFile {
    second::Bytes file;
    std::array<second::List, 3> tables; // at entry
};

inline second::List lent(const uint32_t *table, size_t entries) { return second::List(table, table + entries); }

inline Plan lent_plan(uint32_t points, const uint32_t *sections, size_t sections_len, const uint32_t *turns,
                      size_t turns_len) {
    return {points, lent(sections, sections_len), lent(turns, turns_len)};
}

// What the library itself answers, for wrong functions that change it.
inline second::SearchAnswer true_search(AskedSearch asked) {
    const auto &[length, start, start_end, finish, finish_end] = asked.query;
    const finder_answer a =
        finder_search(asked.plan.points, asked.plan.sections.data(), asked.plan.sections.size(),
                      asked.plan.turns.data(), asked.plan.turns.size(), length, start, start_end, finish, finish_end,
                      asked.route.data(), asked.route.size(), asked.labels.data(), asked.labels.size());
    return {a.refusal, a.place, a.total, a.reversals, a.steps, asked.route, asked.labels};
}

template <auto wrong>
finder_answer as_check_plan(uint32_t points, const uint32_t *sections, size_t sections_len, const uint32_t *turns,
                            size_t turns_len) {
    const second::Refusal r = wrong(lent_plan(points, sections, sections_len, turns, turns_len));
    return {r.number, r.place, 0, 0, 0};
}

template <auto wrong>
finder_answer as_search(uint32_t points, const uint32_t *sections, size_t sections_len, const uint32_t *turns,
                        size_t turns_len, uint32_t length, uint32_t start, uint32_t start_end, uint32_t finish,
                        uint32_t finish_end, uint32_t *route, size_t route_len, uint32_t *labels, size_t labels_len) {
    const second::SearchAnswer a = wrong(AskedSearch{lent_plan(points, sections, sections_len, turns, turns_len),
                                                     {length, start, start_end, finish, finish_end},
                                                     lent(route, route_len),
                                                     lent(labels, labels_len)});
    std::ranges::copy(a.route, route);
    std::ranges::copy(a.labels, labels);
    return {a.refusal, a.place, a.total, a.reversals, a.steps};
}

template <auto wrong>
finder_pull as_pull_out(uint32_t points, const uint32_t *sections, size_t sections_len, const uint32_t *turns,
                        size_t turns_len, uint32_t length, uint32_t arrival, uint32_t section, uint32_t *list,
                        size_t list_len) {
    const second::Answer a = wrong(AskedPullOut{
        lent_plan(points, sections, sections_len, turns, turns_len), {length, arrival, section}, lent(list, list_len)});
    std::ranges::copy(a.buffer, list);
    return {a.refusal, a.place, a.count};
}

template <auto wrong>
finder_answer as_check_sheet(uint32_t points, const uint32_t *sections, size_t sections_len, const uint32_t *turns,
                             size_t turns_len, uint32_t length, uint32_t start, uint32_t start_end, uint32_t finish,
                             uint32_t finish_end, uint32_t claim, const uint32_t *list, size_t list_len,
                             const uint32_t *labels, size_t labels_len) {
    const second::SheetAnswer a = wrong(AskedSheet{lent_plan(points, sections, sections_len, turns, turns_len),
                                                   {length, start, start_end, finish, finish_end},
                                                   {claim, lent(list, list_len), lent(labels, labels_len)}});
    const auto number = [](uint64_t n) { return static_cast<uint32_t>(n); };
    return {a.refusal, a.place, number(a.total), number(a.reversals), number(a.steps)};
}

template <auto wrong>
finder_yard as_read_yard(const uint8_t *file, size_t file_len, uint32_t *sections, size_t sections_len, uint32_t *turns,
                         size_t turns_len, uint32_t *queries, size_t queries_len) {
    const second::YardAnswer a =
        wrong(AskedFile{second::Bytes(file, file + file_len),
                        {lent(sections, sections_len), lent(turns, turns_len), lent(queries, queries_len)}});
    std::ranges::copy(a.tables[0], sections);
    std::ranges::copy(a.tables[1], turns);
    std::ranges::copy(a.tables[2], queries);
    return {a.refusal, a.place, a.points, a.sections, a.turns, a.queries};
}

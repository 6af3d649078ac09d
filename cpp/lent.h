// The functions of the library with every table lent in a given way, and all that a call leaves behind: the numbers of its answer and
// every entry of every table, those too that are lent to be read only.
#pragma once
#include "finder.h"
#include "guard.h"
#include "plan.h"
#include "second_sheet.h"
#include "yard_files.h"
#include <array>
#include <cstdio>
#include <functional>
#include <string>

// A table touches a page that can't be touched, behind it or before it; or an empty one is a null pointer.
enum class Lending { back, front, null };

constexpr std::array<Lending, 3> all_lendings{Lending::back, Lending::front, Lending::null};
constexpr std::array<const char *, 3> lending_words{"touching the page behind", "touching the page before",
                                                    "null where empty"};

template <class T> class Lent {
public:
    Lent(Lending how, const std::vector<T> &entries, bool read_only)
        : table_(entries, how == Lending::front ? Touching::front : Touching::back),
          null_(how == Lending::null && entries.empty()) {
        if (read_only) table_.seal();
    }
    T *data() { return null_ ? nullptr : table_.data(); }
    size_t size() const { return table_.size(); }
    std::vector<T> held() { return table_.held(); }

private:
    GuardedTable<T> table_;
    bool null_;
};

using second::Bytes;
using second::List;

// What a call leaves behind: its numbers in the order of the struct, and the tables in the order of the arguments.
struct Left {
    List numbers;
    std::vector<List> tables;
    Bytes file;

    bool operator==(const Left &) const = default;
};

inline List numbers_of(const finder_answer &a) { return {a.refusal, a.place, a.total, a.reversals, a.steps}; }
inline List numbers_of(const finder_pull &a) { return {a.refusal, a.place, a.count}; }
inline List numbers_of(const finder_yard &a) { return {a.refusal, a.place, a.points, a.sections, a.turns, a.queries}; }

// The tables of a plan, lent to be read only.
struct LentPlan {
    uint32_t points;
    Lent<uint32_t> sections, turns;

    LentPlan(Lending how, const Plan &plan)
        : points(plan.points), sections(how, plan.sections, true), turns(how, plan.turns, true) {}
};

inline Left lend_check_plan(Lending how, const Plan &plan) {
    LentPlan p(how, plan);
    const finder_answer a =
        finder_check_plan(p.points, p.sections.data(), p.sections.size(), p.turns.data(), p.turns.size());
    return {numbers_of(a), {p.sections.held(), p.turns.held()}, {}};
}

inline Left lend_search(Lending how, const Plan &plan, const second::Query &q, const List &route, const List &labels) {
    LentPlan p(how, plan);
    Lent r(how, route, false), l(how, labels, false);
    const finder_answer a =
        finder_search(p.points, p.sections.data(), p.sections.size(), p.turns.data(), p.turns.size(), q.length, q.start,
                      q.start_end, q.finish, q.finish_end, r.data(), r.size(), l.data(), l.size());
    return {numbers_of(a), {p.sections.held(), p.turns.held(), r.held(), l.held()}, {}};
}

inline Left lend_pull_out(Lending how, const Plan &plan, const second::Question &q, const List &list) {
    LentPlan p(how, plan);
    Lent l(how, list, false);
    const finder_pull a = finder_pull_out(p.points, p.sections.data(), p.sections.size(), p.turns.data(),
                                          p.turns.size(), q.length, q.arrival, q.section, l.data(), l.size());
    return {numbers_of(a), {p.sections.held(), p.turns.held(), l.held()}, {}};
}

inline Left lend_check_sheet(Lending how, const Plan &plan, const second::Query &q, const second::Sheet &sheet) {
    LentPlan p(how, plan);
    Lent list(how, sheet.list, true), labels(how, sheet.labels, true);
    const finder_answer a = finder_check_sheet(p.points, p.sections.data(), p.sections.size(), p.turns.data(),
                                               p.turns.size(), q.length, q.start, q.start_end, q.finish, q.finish_end,
                                               sheet.claim, list.data(), list.size(), labels.data(), labels.size());
    return {numbers_of(a), {p.sections.held(), p.turns.held(), list.held(), labels.held()}, {}};
}

// Document 01's queries over yard Y, as the yard reader writes them.
inline const List queries_y{600, 3, 0, 4, 0, 601, 3, 0, 4, 0};

// The three tables of the yard reader.
struct Tables {
    List sections, turns, queries;
};

// What they hold before a call.
inline Tables tables_of(size_t sections, size_t turns, size_t queries) {
    return {filled(sections, 3000000000u), filled(turns, 3100000000u), filled(queries, 3200000000u)};
}

inline Left lend_read_yard(Lending how, const Bytes &file, const Tables &tables) {
    Lent f(how, file, true);
    Lent s(how, tables.sections, false), t(how, tables.turns, false), q(how, tables.queries, false);
    const finder_yard a =
        finder_read_yard(f.data(), f.size(), s.data(), s.size(), t.data(), t.size(), q.data(), q.size());
    return {numbers_of(a), {s.held(), t.held(), q.held()}, f.held()};
}

// A table with some numbers in front, the rest kept.
inline List in_front(const List &numbers, List table) {
    std::copy(numbers.begin(), numbers.end(), table.begin());
    return table;
}

inline void print(const char *name, const Left &left) {
    std::printf("  %s:", name);
    for (uint32_t number : left.numbers) std::printf(" %u", number);
    for (const List &table : left.tables) {
        std::printf("\n    table of %zu:", table.size());
        for (size_t i = 0; i < table.size() && i < 40; i++) std::printf(" %u", table[i]);
    }
    std::puts("");
}

using Call = std::function<Left(Lending)>;

// Whether a call leaves behind what is expected, whichever way the tables are lent.
inline bool leaves(const std::string &what, const Call &call, const Left &expected) {
    bool good = true;
    for (size_t i = 0; i < all_lendings.size(); i++) {
        const Left got = call(all_lendings[i]);
        if (got == expected) continue;
        good = false;
        std::printf("%s, tables %s\n", what.c_str(), lending_words[i]);
        print("expected", expected);
        print("got", got);
    }
    return good;
}

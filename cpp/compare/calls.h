// The library's functions as a table, so that wrong ones can take their places, and one call of each: every lent table
// ends at a guard page, and what is lent to be read only is sealed.
#pragma once
#include "../guard.h"
#include "../second_file.h"
#include "../second_sheet.h"
#include "finder.h"

struct Finder {
    decltype(&finder_check_plan) check_plan = finder_check_plan;
    decltype(&finder_search) search = finder_search;
    decltype(&finder_pull_out) pull_out = finder_pull_out;
    decltype(&finder_check_sheet) check_sheet = finder_check_sheet;
    decltype(&finder_read_yard) read_yard = finder_read_yard;
};

enum Function : size_t { check_plan, search, pull_out, check_sheet, read_yard, functions };

// What a call gives: its numbers, the refusal and the place first, and every entry of its lent buffers at exit.
struct Outcome {
    std::vector<uint64_t> numbers;
    std::vector<second::List> buffers;

    bool operator==(const Outcome &) const = default;
};

// A plan lent to be read only, to as many calls as ask about it.
class LentPlan {
public:
    explicit LentPlan(const Plan &plan) : plan_(plan), sections_(plan_.sections), turns_(plan_.turns) {
        sections_.seal();
        turns_.seal();
    }
    const Plan &plan() const { return plan_; }
    const uint32_t *sections() const { return sections_.data(); }
    const uint32_t *turns() const { return turns_.data(); }
    size_t sections_len() const { return sections_.size(); }
    size_t turns_len() const { return turns_.size(); }

private:
    Plan plan_;
    mutable Guarded sections_, turns_;
};

inline second::List held(Guarded &buffer) { return second::List(buffer.data(), buffer.data() + buffer.size()); }

inline Outcome outcome_of(const finder_answer &a, std::vector<second::List> buffers = {}) {
    return {{a.refusal, a.place, a.total, a.reversals, a.steps}, std::move(buffers)};
}

struct PlanCall {
    static constexpr Function function = check_plan;
    const LentPlan &lent;

    Outcome ask(const Finder &finder) const {
        const uint32_t points = lent.plan().points;
        return outcome_of(
            finder.check_plan(points, lent.sections(), lent.sections_len(), lent.turns(), lent.turns_len()));
    }
};

// The buffers are those at entry.
struct SearchCall {
    static constexpr Function function = search;
    const LentPlan &lent;
    const second::Query &query;
    const second::List &route, &labels;

    Outcome ask(const Finder &finder) const {
        Guarded lent_route(route), lent_labels(labels);
        const finder_answer answer =
            finder.search(lent.plan().points, lent.sections(), lent.sections_len(), lent.turns(), lent.turns_len(),
                          query.length, query.start, query.start_end, query.finish, query.finish_end, lent_route.data(),
                          lent_route.size(), lent_labels.data(), lent_labels.size());
        return outcome_of(answer, {held(lent_route), held(lent_labels)});
    }
};

struct PullOutCall {
    static constexpr Function function = pull_out;
    const LentPlan &lent;
    const second::Question &question;
    const second::List &list;

    Outcome ask(const Finder &finder) const {
        Guarded lent_list(list);
        const finder_pull pull =
            finder.pull_out(lent.plan().points, lent.sections(), lent.sections_len(), lent.turns(), lent.turns_len(),
                            question.length, question.arrival, question.section, lent_list.data(), lent_list.size());
        return {{pull.refusal, pull.place, pull.count}, {held(lent_list)}};
    }
};

struct SheetCall {
    static constexpr Function function = check_sheet;
    const LentPlan &lent;
    const second::Query &query;
    const second::Sheet &sheet;

    Outcome ask(const Finder &finder) const {
        Guarded list(sheet.list), labels(sheet.labels);
        list.seal();
        labels.seal();
        return outcome_of(finder.check_sheet(lent.plan().points, lent.sections(), lent.sections_len(), lent.turns(),
                                             lent.turns_len(), query.length, query.start, query.start_end, query.finish,
                                             query.finish_end, sheet.claim, list.data(), list.size(), labels.data(),
                                             labels.size()));
    }
};

struct FileCall {
    static constexpr Function function = read_yard;
    const second::Bytes &file;
    const std::array<second::List, 3> &tables;

    Outcome ask(const Finder &finder) const {
        GuardedTable<uint8_t> bytes(file);
        bytes.seal();
        Guarded sections(tables[0]), turns(tables[1]), queries(tables[2]);
        const finder_yard yard = finder.read_yard(bytes.data(), bytes.size(), sections.data(), sections.size(),
                                                  turns.data(), turns.size(), queries.data(), queries.size());
        return {{yard.refusal, yard.place, yard.points, yard.sections, yard.turns, yard.queries},
                {held(sections), held(turns), held(queries)}};
    }
};

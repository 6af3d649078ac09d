// One plan under comparison: what the second program knows of it is worked out once, and asked for many calls.
#pragma once
#include "../damaged_sheets.h"
#include "run.h"

// What a lent buffer holds before a call; no number of it is an arrival, a label or a section.
inline second::List filled(size_t entries) {
    second::List buffer(entries);
    for (size_t i = 0; i < entries; i++) buffer[i] = static_cast<uint32_t>(3000000000u + i);
    return buffer;
}

inline Outcome refused_with(const second::Refusal &refusal, size_t numbers, std::vector<second::List> buffers) {
    Outcome outcome{std::vector<uint64_t>(numbers, 0), std::move(buffers)};
    outcome.numbers[0] = refusal.number;
    outcome.numbers[1] = refusal.place;
    return outcome;
}

// A query that passes 1 to 11, by the second program: its rules, and its sheet where one can be written.
struct Judged {
    second::Rules rules;
    second::SearchAnswer answer; // with a route buffer that is always long enough

    second::Sheet sheet() const {
        const auto end = answer.route.begin() + static_cast<std::ptrdiff_t>(answer.steps);
        return {answer.refusal == 0, second::List(answer.route.begin(), end), answer.labels};
    }
};

class Site {
public:
    Site(Run &run, const Plan &plan)
        : run_(run), lent_(plan), refusal_(second::check_plan(plan)), yard_(plan),
          pull_outs_(plan, second::Lists::grown) {}

    const Plan &plan() const { return lent_.plan(); }
    const second::Yard &yard() const { return yard_; }
    Run &run() { return run_; }
    bool passes() const { return refusal_.number == 0; }

    second::Refusal refusal_of(const second::Query &query, size_t labels) const {
        return passes() ? second::check_query(yard_, query, labels) : refusal_;
    }

    std::optional<Judged> judge(const second::Query &query) {
        const second::List route(FINDER_STEPS_MOST), labels(2 * plan().count());
        if (refusal_of(query, labels.size()).number != 0) return std::nullopt;
        second::Rules rules(yard_, query, pull_outs_);
        const auto answer = second::answer_by(rules, route, labels);
        return Judged{std::move(rules), answer};
    }

    void plan_case() { run_.compare(PlanCall{lent_}, refused_with(refusal_, 5, {})); }

    void search_case(const second::Query &query, const std::optional<Judged> &judged, size_t route_len,
                     size_t labels_len) {
        const second::List route = filled(route_len), labels = filled(labels_len);
        const SearchCall call{lent_, query, route, labels};
        const second::Refusal refusal = refusal_of(query, labels_len);
        if (refusal.number != 0) return run_.compare(call, refused_with(refusal, 5, {route, labels}));
        run_.compare(call, found(*judged, route, labels));
    }

    // The answer of the sheet check, for who wants to know it.
    second::SheetAnswer sheet_case(const second::Query &query, const std::optional<Judged> &judged,
                                   const second::Sheet &sheet) {
        const second::Refusal refusal = refusal_of(query, sheet.labels.size());
        const second::SheetAnswer a = refusal.number != 0 ? second::SheetAnswer{refusal.number, refusal.place}
                                                          : second::check_claim(judged->rules, sheet);
        run_.compare(SheetCall{lent_, query, sheet}, {{a.refusal, a.place, a.total, a.reversals, a.steps}, {}});
        return a;
    }

    void pull_out_case(const second::Question &question, size_t list_len) {
        const second::List list = filled(list_len);
        const PullOutCall call{lent_, question, list};
        second::Turning turning{};
        const second::Refusal refusal = passes() ? second::check_question(yard_, question, turning) : refusal_;
        if (refusal.number != 0) return run_.compare(call, refused_with(refusal, 3, {list}));
        const second::Answer a = second::answer_with(second::grown_pull_out(yard_, turning), list);
        run_.compare(call, {{a.refusal, a.place, a.count}, {a.buffer}});
    }

private:
    // The answer with buffers of these lengths, which has room in all but the shortest.
    static Outcome found(const Judged &judged, second::List route, second::List labels) {
        const second::SearchAnswer &a = judged.answer;
        if (a.refusal == 0 && a.steps > route.size()) return refused_with({14}, 5, {route, labels});
        std::copy_n(a.route.begin(), a.steps, route.begin());
        return {{a.refusal, a.place, a.total, a.reversals, a.steps}, {route, a.labels}};
    }

    Run &run_;
    LentPlan lent_;
    second::Refusal refusal_;
    second::Yard yard_;
    second::PullOuts pull_outs_;
};

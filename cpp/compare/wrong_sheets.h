// Wrong sheet checks: the second program with a rule left out, or with an answer for all sheets.
#pragma once
#include "wrong_calls.h"

namespace wrong {

using second::SheetAnswer;

// What a wrong way to judge a claim makes of a sheet.
template <class Judge> SheetAnswer judged(const AskedSheet &asked, Judge judge) {
    const second::Refusal r = second::check_query(asked.plan, asked.query, asked.sheet.labels.size());
    if (r.number != 0) return {r.number, r.place};
    second::PullOuts pull_outs(asked.plan, second::Lists::grown);
    return judge(second::Rules(asked.plan, asked.query, pull_outs), asked.sheet);
}

template <second::SheetRule rule> SheetAnswer sheet_without(const AskedSheet &asked) {
    return judged(asked, [](const second::Rules &rules, const second::Sheet &sheet) {
        return second::check_claim(rules, sheet, rule);
    });
}

inline SheetAnswer highest_arrival(const AskedSheet &asked) {
    return judged(asked, [](const second::Rules &rules, const second::Sheet &sheet) {
        SheetAnswer answer = second::check_claim(rules, sheet);
        for (uint32_t arrival = 0; answer.refusal == 18 && arrival < rules.arrivals(); arrival++)
            if (second::breaks_a_label_rule(rules, sheet.labels, arrival)) answer.place = arrival;
        return answer;
    });
}

// The walk's own numbers, whatever the labels.
inline SheetAnswer accepts_any_walk(const AskedSheet &asked) {
    return judged(asked, [](const second::Rules &rules, const second::Sheet &sheet) {
        return sheet.claim == 0 ? SheetAnswer{} : second::walk_of(rules, sheet.list).value_or(SheetAnswer{17});
    });
}

// No sheet is good enough.
inline SheetAnswer never_accepts(const AskedSheet &asked) {
    return judged(asked, [](const second::Rules &rules, const second::Sheet &sheet) {
        const SheetAnswer answer = second::check_claim(rules, sheet);
        return answer.refusal == 0 ? SheetAnswer{19} : answer;
    });
}

} // namespace wrong

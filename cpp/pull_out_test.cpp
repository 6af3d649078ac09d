// finder_pull_out through the C ABI: document 01's loop, the errors planners have met, the longest pull-outs, each refusal
// and their order, lent lists at guard pages, and a comparison with the second program on plans drawn at random.
#include "finder.h"
#include "guard.h"
#include "plan.h"
#include "random_plans.h"
#include "refusal_cases.h"
#include "second_pull_out.h"
#include <cstdio>
#include <functional>
#include <map>
#include <string>

namespace {

using second::Answer;
using second::List;
using second::Question;

int failed = 0;

Answer call(const Plan &plan, const Question &question, const List &buffer) {
    Guarded sections(plan.sections), turns(plan.turns), list(buffer);
    sections.seal();
    turns.seal();
    const finder_pull pull =
        finder_pull_out(plan.points, sections.data(), sections.size(), turns.data(), turns.size(), question.length,
                        question.arrival, question.section, list.data(), list.size());
    return {pull.refusal, pull.place, pull.count, list.held()};
}

bool same(const Answer &a, const Answer &b) {
    return a.refusal == b.refusal && a.place == b.place && a.count == b.count && a.buffer == b.buffer;
}

void print(const char *name, const Answer &answer) {
    std::printf("  %s: %u at %u, %u sections, list", name, answer.refusal, answer.place, answer.count);
    for (uint32_t q : answer.buffer) std::printf(" %u", q);
    std::puts("");
}

void expect(const std::string &what, const Answer &got, const Answer &expected) {
    if (same(got, expected)) return;
    failed = 1;
    std::printf("pull_out_test: %s\n", what.c_str());
    print("expected", expected);
    print("got", got);
}

// What a list holds before the call: no section has these numbers.
List list_of(size_t entries) { return filled(entries, 1000000); }

// A refusal leaves lists of all lengths as they were.
void refuses(const std::string &what, const Plan &plan, const Question &question, uint32_t number, uint32_t place = 0) {
    for (size_t entries : {0, 1, 768, 1025})
        expect(what, call(plan, question, list_of(entries)), {number, place, 0, list_of(entries)});
}

// The sections go into the front of a list that is long enough, and the rest of it is kept; a shorter one is left as it was.
void finds(const std::string &what, const Plan &plan, const Question &question, const List &sections) {
    const auto count = static_cast<uint32_t>(sections.size());
    for (uint32_t entries : {count, count + 1, count + 500}) {
        List after = list_of(entries);
        std::copy(sections.begin(), sections.end(), after.begin());
        expect(what, call(plan, question, list_of(entries)), {0, 0, count, after});
    }
    for (uint32_t entries : {0u, 1u, count - 1})
        if (entries < count)
            expect(what + ", too short a list", call(plan, question, list_of(entries)), {14, 0, 0, list_of(entries)});
}

// L is the most that a pull-out takes, over these sections, for a reversal from c to s or from s to c at end A of both.
void finds_up_to(const std::string &what, const Plan &plan, uint32_t length, uint32_t c, uint32_t s,
                 const List &sections) {
    finds(what, plan, {length, 2 * c, s}, sections);
    finds(what + ", the other way", plan, {length, 2 * s, c}, sections);
    refuses(what + ", one more", plan, {length + 1, 2 * c, s}, 16);
    refuses(what + ", one more, the other way", plan, {length + 1, 2 * s, c}, 16);
}

const Question loop_asked{600, 2, 2};

// Point 0 with section 0 (c) to point 1 and section 1 (s) to point 2, and a forbidden turn between them. What is joined to
// point 0 next is where the pull-outs begin.
Plan reversal(uint32_t points) {
    Plan plan{points, {}, {}};
    plan.join(0, 1, 100);
    plan.join(0, 2, 100);
    plan.forbid(0, 1);
    return plan;
}

void loops() {
    finds("document 01's loop", loop, loop_asked, {0, 3});
    refuses("document 01's loop, 601", loop, {601, 2, 2}, 16);
    finds_up_to("document 01's loop both ways", loop, 600, 1, 2, {0, 3});
    finds("the first section is enough", loop, {300, 2, 2}, {0});
    finds("the first section is not enough", loop, {301, 2, 2}, {0, 3});
}

// "A pull-out that bends round a loop onto the section the train must leave by."
void bends_round() {
    Plan plan = reversal(4);
    plan.join(0, 3, 100);
    plan.join(3, 2, 100);
    finds_up_to("the loop leads onto s", plan, 200, 0, 1, {2, 3});
    plan.points = 5;
    plan.join(3, 4, 150);
    finds_up_to("the way onto s comes first, but another takes the train", plan, 250, 0, 1, {2, 4});
    plan.occupy(1, 10, 80);
    finds_up_to("s has room at its other end", plan, 250, 0, 1, {2, 4});
    plan = reversal(3);
    plan.join(2, 1, 100);
    refuses("c, s and one section in a ring", plan, {1, 0, 1}, 16);
    plan = reversal(5);
    plan.join(0, 3, 100);
    plan.join(3, 2, 100);
    plan.join(2, 4, 70);
    finds_up_to("the point beyond s may be passed", plan, 270, 0, 1, {2, 3, 4});
    plan.forbid(1, 4);
    finds_up_to("and a turn forbidden there does not concern it", plan, 270, 0, 1, {2, 3, 4});
}

// "Stopping at the first pull-out too short instead of trying the next."
void too_short() {
    Plan plan = reversal(6);
    plan.join(0, 3, 100);
    plan.join(3, 4, 50);
    plan.join(3, 5, 51);
    finds("the first try is long enough", plan, {150, 0, 1}, {2, 3});
    finds_up_to("the first try is one too short", plan, 151, 0, 1, {2, 4});
    plan = reversal(9);
    plan.join(0, 3, 100);
    plan.join(3, 4, 100);
    plan.join(4, 5, 100);
    plan.join(4, 6, 150);
    plan.join(3, 7, 10);
    plan.join(7, 8, 250);
    finds("the first of three tries", plan, {300, 0, 1}, {2, 3, 4});
    finds("the second of three tries", plan, {301, 0, 1}, {2, 3, 5});
    finds_up_to("the third of three tries, after going back two points", plan, 360, 0, 1, {2, 6, 7});
    plan.occupy(2, 60, 30);
    finds_up_to("but not beyond a section that is not free", plan, 60, 0, 1, {2});
    refuses("nor where it would be long enough", plan, {300, 0, 1}, 16);
    plan = reversal(7);
    plan.join(0, 3, 10);
    plan.join(3, 4, 40);
    plan.join(3, 5, 10);
    plan.join(5, 4, 10);
    plan.join(4, 6, 30);
    finds("a shorter way round is not enough", plan, {80, 0, 1}, {2, 3, 6});
    plan.sections[6 * 3 + 2] = plan.sections[6 * 3 + 4] = plan.sections[6 * 3 + 5] = 5;
    finds_up_to("of two tracks to one point the first is too short", plan, 60, 0, 1, {2, 4, 5, 6});
}

void occupied() {
    Plan plan = reversal(5);
    plan.join(0, 3, 100);
    plan.join(4, 3, 100);
    plan.occupy(2, 70, 20);
    finds_up_to("the first section, occupied, entered at A", plan, 70, 0, 1, {2});
    std::swap(plan.sections[12], plan.sections[13]);
    finds_up_to("the first section, occupied, entered at B", plan, 20, 0, 1, {2});
    plan.occupy(2, 100, 100);
    plan.occupy(3, 5, 60);
    finds_up_to("the last section, occupied, entered at B", plan, 160, 0, 1, {2, 3});
    std::swap(plan.sections[18], plan.sections[19]);
    finds_up_to("the last section, occupied, entered at A", plan, 105, 0, 1, {2, 3});
    plan.occupy(3, 0, 99);
    finds_up_to("the last section with nothing free at its entry", plan, 100, 0, 1, {2});
    plan.occupy(2, 0, 0);
    refuses("a locked first section", plan, {1, 0, 1}, 16);
    plan = reversal(3);
    refuses("no first section", plan, {1, 0, 1}, 16);
    plan = reversal(4);
    plan.join(0, 3, 100);
    plan.occupy(0, 0, 0);
    plan.occupy(1, 0, 0);
    finds_up_to("c and s locked", plan, 100, 0, 1, {2});
    plan = reversal(5);
    plan.join(0, 3, 10);
    plan.join(3, 4, 10);
    plan.forbid(2, 3);
    finds_up_to("a turn forbidden on the way", plan, 10, 0, 1, {2});
    plan.turns = {0, 2};
    finds("the other sections of p may be forbidden, one turn a point", plan, {100, 0, 2}, {1});
}

// Round 3, 4, 5 and back to 3: the last section's far end was passed, and nothing goes on from there.
void closes_a_loop() {
    Plan plan = reversal(6);
    plan.join(0, 3, 100);
    plan.join(3, 4, 10);
    plan.join(4, 5, 20);
    plan.join(5, 3, 40);
    finds_up_to("the last section closes a loop", plan, 170, 0, 1, {2, 3, 4, 5});
    finds("as many as are needed", plan, {130, 0, 1}, {2, 3, 4});
    plan.occupy(5, 7, 8);
    finds("the last section of the loop is occupied", plan, {137, 0, 1}, {2, 3, 4, 5});
    finds("the other way round it comes later", plan, {107, 0, 1}, {2, 3});
    refuses("and neither way takes more", plan, {138, 0, 1}, 16);
}

// A line of n sections from point 0 over the points from 3 on. Its sections are numbered backwards.
List line(Plan &plan, uint32_t n, uint32_t length) {
    List list(n);
    for (uint32_t i = n; i-- > 0;) list[i] = plan.join(i == 0 ? 0 : i + 2, i + 3, length);
    return list;
}

void longest() {
    Plan plan = reversal(768);
    finds_up_to("a line of 765 sections", plan, 765 * 26, 0, 1, line(plan, 765, 26));
    // Every point is entered once: 0, 3 to 767, 1, 2; no pull-out has more sections.
    for (uint32_t loop_from : {3u, 500u, 767u}) {
        plan = reversal(768);
        List list = line(plan, 765, 26);
        list.push_back(plan.join(767, 1, 26));
        list.push_back(plan.join(1, 2, 26));
        list.push_back(plan.join(2, loop_from, 26));
        finds_up_to("768 sections, the last to point " + std::to_string(loop_from), plan, 768 * 26, 0, 1, list);
    }
    plan = reversal(4);
    plan.join(0, 3, 200000, 1);
    finds("the longest train", plan, {20000, 0, 1}, {2});
    refuses("a longer train", plan, {20001, 0, 1}, 7);
}

void no_such_turn() {
    for (uint32_t arrival : {8u, 9u, 2048u, 4294967294u, 4294967295u})
        refuses("arrival out of range", loop, {600, arrival, 2}, 15);
    for (uint32_t section : {4u, 5u, 1024u, 4294967295u}) refuses("section out of range", loop, {600, 2, section}, 15);
    refuses("section not at the arrival's point", loop, {600, 2, 3}, 15);
    refuses("not a forbidden turn", loop, {600, 2, 0}, 15);
    refuses("the arrival's own section", loop, {600, 2, 1}, 15);
    refuses("forbidden at the other end of c", loop, {600, 3, 2}, 15);
    refuses("forbidden at the other end of s", loop, {600, 5, 1}, 15);
    Plan plan = loop;
    plan.turns.clear();
    refuses("no turns", plan, {600, 2, 2}, 15);
    plan = loop;
    std::swap(plan.sections[6], plan.sections[7]);
    finds("the arrival at end B", plan, {600, 3, 2}, {0, 3});
    refuses("the other end is now A", plan, {600, 2, 2}, 15);
}

// The refusals from the last to the first: each fault is added to those before it, and its number takes over.
void order() {
    Plan plan = loop;
    Question question = loop_asked;
    finds("nothing wrong", plan, question, {0, 3});
    expect("14", call(plan, question, list_of(1)), {14, 0, 0, list_of(1)});
    question.length = 601;
    expect("16 before 14", call(plan, question, list_of(1)), {16, 0, 0, list_of(1)});
    question.section = 3;
    refuses("15 before 16", plan, question, 15);
    question.length = 20001;
    refuses("7 before 15", plan, question, 7);
    question.length = 0;
    refuses("7 before 15, 0", plan, question, 7);
    for (const FaultyPlan &fault : added_plan_faults(plan))
        refuses(fault.what, fault.plan, question, fault.number, fault.place);
}

// Each fault of the plan alone.
void damaged() {
    for (const FaultyPlan &fault : plan_faults(loop))
        refuses(fault.what, fault.plan, loop_asked, fault.number, fault.place);
}

// How often the random plans gave each refusal, each number of sections, and an answer that hangs on each clause.
struct Met {
    std::map<uint32_t, uint32_t> refusals, counts;
    std::array<uint32_t, second::clauses.size()> decided{};
};

void compare(uint32_t seed, Draw &draw, const Plan &plan, const Question &question, Met &met) {
    const List buffer = list_of(draw.one_in(3) ? draw.below(3) : plan.count() + draw.below(3));
    const Answer expected = second::pull_out(plan, question, buffer);
    expect("the second program, seed " + std::to_string(seed), call(plan, question, buffer), expected);
    met.refusals[expected.refusal]++;
    if (expected.refusal == 0) met.counts[expected.count]++;
}

// Which clauses an answer hangs on: it would be another without them.
void weigh(const Plan &plan, const Question &question, Met &met) {
    second::Turning turning{};
    if (second::check_question(plan, question, turning).number != 0) return;
    const second::Yard yard(plan);
    const auto chained = second::chained_lists(yard, turning.p, second::Twice::listed);
    const auto first = second::first_pull_out(yard, turning, chained);
    for (size_t i = 0; i < second::clauses.size(); i++)
        met.decided[i] += second::first_pull_out(yard, turning, chained, i) != first;
}

// Every turn both ways at a length drawn at random, and a question that is mostly about no turn at all.
std::vector<Question> questions(Draw &draw, const Plan &plan) {
    std::vector<Question> list{{draw.below(12), draw.below(2 * plan.count() + 2), draw.below(plan.count() + 1)}};
    for (size_t i = 0; i + 1 < plan.turns.size(); i += 2) {
        const uint32_t c = plan.turns[i], s = plan.turns[i + 1], length = 1 + draw.below(2 * plan.count() + 6);
        for (const auto &[from, to] : {std::pair(c, s), std::pair(s, c)})
            for (uint32_t end : {0, 1}) list.push_back({length, 2 * from + end, to});
    }
    return list;
}

// The plans are worth comparing: they meet every refusal, pull-outs of many lengths and every clause that can decide.
void enough(const Met &met) {
    const auto expect_some = [](const std::string &what, uint32_t times) {
        if (times > 0) return;
        failed = 1;
        std::printf("pull_out_test: the random plans never met %s\n", what.c_str());
    };
    for (uint32_t refusal : {0, 1, 2, 3, 4, 5, 6, 7, 14, 15, 16})
        expect_some("refusal " + std::to_string(refusal), met.refusals.count(refusal));
    for (uint32_t count : {1, 2, 3, 4, 5, 6, 7, 8})
        expect_some(std::to_string(count) + " sections", met.counts.count(count));
    for (size_t i = 0; i < second::clauses.size(); i++)
        if (second::clauses[i].decides) expect_some(std::string(second::clauses[i].words), met.decided[i]);
}

void against_second_program() {
    Met met;
    for (uint32_t seed = 1; seed <= 2000 && !failed; seed++) {
        Draw draw(seed);
        const bool tiny = seed % 4 != 0;
        const Plan plan = draw_plan(draw, tiny ? 3 + draw.below(4) : 8 + draw.below(7));
        for (const Question &question : questions(draw, plan)) {
            compare(seed, draw, plan, question, met);
            if (seed % 8 == 1) weigh(plan, question, met);
        }
        Plan faulty = plan;
        for (uint32_t faults = 1 + draw.below(3); faults > 0; faults--) damage(draw, faulty);
        for (const Question &question : questions(draw, faulty)) compare(seed, draw, faulty, question, met);
    }
    if (!failed) enough(met);
}

} // namespace

int main() {
    loops();
    bends_round();
    too_short();
    occupied();
    closes_a_loop();
    longest();
    no_such_turn();
    order();
    damaged();
    against_second_program();
    std::puts(failed ? "pull_out_test: failed" : "pull_out_test: good");
    return failed;
}

// finder_check_plan through the C ABI: yard Y, a plan for each refusal and place, and tables at guard pages.
#include "finder.h"
#include "guard.h"
#include "plan.h"
#include <cstdio>
#include <vector>

namespace {

int failed = 0;

void expect(const char *what, const finder_answer &got, uint32_t refusal, uint32_t place) {
    if (got.refusal == refusal && got.place == place && got.total == 0 && got.reversals == 0 && got.steps == 0) return;
    std::printf("plan_test: %s: expected %u at %u, got %u at %u (%u %u %u)\n", what, refusal, place, got.refusal,
                got.place, got.total, got.reversals, got.steps);
    failed = 1;
}

void check(const char *what, const Plan &plan, uint32_t refusal, uint32_t place) {
    Guarded sections(plan.sections), turns(plan.turns);
    sections.seal();
    turns.seal();
    expect(what, finder_check_plan(plan.points, sections.data(), sections.size(), turns.data(), turns.size()), refusal,
           place);
}

// Yard Y with one number of one section changed.
Plan with(size_t section, size_t number, uint32_t value) {
    Plan plan = yard_y;
    plan.sections[FINDER_SECTION_WIDTH * section + number] = value;
    return plan;
}

Plan with_turns(std::vector<uint32_t> turns) {
    Plan plan = yard_y;
    plan.turns = std::move(turns);
    return plan;
}

// A line of n sections over n + 1 points.
Plan line(uint32_t n) {
    Plan plan{n + 1, {}, {}};
    for (uint32_t s = 0; s < n; s++)
        for (uint32_t number : {s, s + 1, 100u, 0u, 100u, 100u}) plan.sections.push_back(number);
    return plan;
}

// Two lines of n points each, and rungs between the first k of them: 2n - 2 + k sections.
Plan ladder(uint32_t n, uint32_t k) {
    Plan plan{2 * n, {}, {}};
    auto join = [&](uint32_t a, uint32_t b) {
        for (uint32_t number : {a, b, 100u, 0u, 100u, 100u}) plan.sections.push_back(number);
    };
    for (uint32_t p = 0; p + 1 < n; p++) {
        join(p, p + 1);
        join(n + p, n + p + 1);
    }
    for (uint32_t p = 0; p < k; p++) join(p, n + p);
    return plan;
}

void tables() {
    Plan plan = yard_y;
    for (uint32_t points : {0u, 769u, 4294967295u}) {
        plan.points = points;
        check("points out of range", plan, FINDER_TABLES, 0);
    }
    plan = yard_y;
    plan.sections.pop_back();
    check("a section cut short", plan, FINDER_TABLES, 0);
    plan = yard_y;
    plan.turns.pop_back();
    check("a turn cut short", plan, FINDER_TABLES, 0);
    check("no sections", Plan{6, {}, {}}, FINDER_TABLES, 0);
    check("1,025 sections", ladder(384, 259), FINDER_TABLES, 0);
    check("769 turns", with_turns(std::vector<uint32_t>(2 * 769, 1)), FINDER_TABLES, 0);
}

void sections() {
    check("end A no point", with(2, 0, 6), FINDER_SECTION, 2);
    check("end B no point", with(2, 1, 4294967295u), FINDER_SECTION, 2);
    check("equal ends", with(4, 1, 3), FINDER_SECTION, 4);
    check("length 0", with(1, 2, 0), FINDER_SECTION, 1);
    check("length 200,001", with(1, 2, 200001), FINDER_SECTION, 1);
    check("kind 2", with(3, 3, 2), FINDER_SECTION, 3);
    check("free lengths reach the length", with(3, 5, 1900), FINDER_SECTION, 3);
    check("free lengths leave one decimetre", with(3, 5, 1899), FINDER_OK, 0);
    check("a free length above the length", with(3, 4, 2001), FINDER_SECTION, 3);
    check("free from one end only", with(3, 4, 2000), FINDER_SECTION, 3);
    Plan wraps = with(3, 4, 2147483648u);
    wraps.sections[23] = 2147483649u;
    check("free lengths whose sum is 1 modulo 2^32", wraps, FINDER_SECTION, 3);
    Plan locked = with(0, 4, 0);
    locked.sections[5] = 0;
    check("a locked section", locked, FINDER_OK, 0);
    Plan twice = with(4, 2, 0);
    twice.sections[14] = 0;
    check("the lowest of two sections", twice, FINDER_SECTION, 2);
}

void points() {
    Plan doubled = yard_y;
    for (uint32_t number : {2u, 1u, 700u, 0u, 700u, 700u}) doubled.sections.push_back(number);
    check("the ends of section 1 the other way round", doubled, FINDER_SAME_POINTS, 5);
    doubled.sections[2] = 0;
    check("2 comes before 3", doubled, FINDER_SECTION, 0);
    Plan lonely = yard_y;
    lonely.points = 8;
    check("points without a section", lonely, FINDER_POINT, 6);
    Plan star = line(2);
    star.points = 5;
    for (uint32_t p : {3u, 4u})
        for (uint32_t number : {1u, p, 100u, 0u, 100u, 100u}) star.sections.push_back(number);
    check("a point with four sections", star, FINDER_POINT, 1);
    for (uint32_t number : {4u, 1u, 100u, 0u, 100u, 100u}) star.sections.push_back(number);
    check("3 comes before 4", star, FINDER_SAME_POINTS, 4);
}

void turns() {
    check("no turns", with_turns({}), FINDER_OK, 0);
    check("a turn's first section out of range", with_turns({5, 2}), FINDER_TURN, 0);
    check("a turn's second section out of range", with_turns({1, 4294967295u}), FINDER_TURN, 0);
    check("a turn of one section", with_turns({1, 1}), FINDER_TURN, 0);
    check("a turn onto a destination", with_turns({1, 3}), FINDER_TURN, 0);
    check("a turn from a destination", with_turns({0, 1}), FINDER_TURN, 0);
    Plan apart = line(4);
    apart.turns = {0, 1, 0, 2};
    check("a turn of two sections apart", apart, FINDER_TURN, 1);
    check("the same turn twice", with_turns({1, 2, 2, 1}), FINDER_SECOND_TURN, 1);
    Plan branch = line(2);
    branch.points = 4;
    for (uint32_t number : {3u, 1u, 100u, 0u, 100u, 100u}) branch.sections.push_back(number);
    branch.turns = {0, 1, 0, 2};
    check("two turns at one point", branch, FINDER_SECOND_TURN, 1);
    branch.turns = {0, 1, 0, 2, 0, 0};
    check("5 comes before 6", branch, FINDER_TURN, 2);
}

} // namespace

int main() {
    check("yard Y", yard_y, FINDER_OK, 0);
    check("a line of 767 sections", line(767), FINDER_OK, 0);
    check("768 points and 1,024 sections", ladder(384, 258), FINDER_OK, 0);
    tables();
    sections();
    points();
    turns();
    std::puts(failed ? "plan_test: failed" : "plan_test: good");
    return failed;
}

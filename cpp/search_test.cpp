// finder_search through the C ABI: document 01's small yards, document 003's yard, the errors planners have met, ties, the
// largest plans, each refusal and their order, lent buffers at guard pages, and a comparison with the second program on
// plans drawn at random.
#include "finder.h"
#include "guard.h"
#include "paper_yard.h"
#include "plan.h"
#include "random_queries.h"
#include "refusal_cases.h"
#include "second_search.h"
#include <cstdio>
#include <map>
#include <string>

namespace {

using second::List;
using second::PullOuts;
using second::Query;
using second::SearchAnswer;

constexpr uint32_t none = FINDER_NONE;
int failed = 0;

SearchAnswer call(const Plan &plan, const Query &query, const List &route, const List &labels) {
    Guarded sections(plan.sections), turns(plan.turns), lent_route(route), lent_labels(labels);
    sections.seal();
    turns.seal();
    const finder_answer a = finder_search(plan.points, sections.data(), sections.size(), turns.data(), turns.size(),
                                          query.length, query.start, query.start_end, query.finish, query.finish_end,
                                          lent_route.data(), lent_route.size(), lent_labels.data(), lent_labels.size());
    return {a.refusal, a.place, a.total, a.reversals, a.steps, lent_route.held(), lent_labels.held()};
}

void print(const char *name, const SearchAnswer &answer) {
    std::printf("  %s: %u at %u, total %u, %u reversals, %u steps\n    route", name, answer.refusal, answer.place,
                answer.total, answer.reversals, answer.steps);
    for (uint32_t arrival : answer.route) std::printf(" %u", arrival);
    std::printf("\n    labels");
    for (uint32_t label : answer.labels) std::printf(" %u", label);
    std::puts("");
}

void fail(const std::string &what) {
    failed = 1;
    std::printf("search_test: %s\n", what.c_str());
}

// The five numbers and every entry of both buffers.
void expect(const std::string &what, const SearchAnswer &got, const SearchAnswer &expected) {
    if (got == expected) return;
    fail(what);
    print("expected", expected);
    print("got", got);
}

// What the buffers hold before the call: no number of it is an arrival or a label.
List route_of(size_t entries) { return filled(entries, 3000000000u); }
List labels_of(size_t entries) { return filled(entries, 4000000000u); }

// Numbers 1 to 10 leave both buffers as they were, whatever their lengths.
void refuses(const std::string &what, const Plan &plan, const Query &query, uint32_t number, uint32_t place = 0) {
    const size_t right = 2 * plan.count();
    for (size_t entries : {size_t{0}, size_t{1}, size_t{2048}, size_t{2049}})
        for (size_t labels : {size_t{0}, right - 1, right, right + 1}) {
            const SearchAnswer expected{number, place, 0, 0, 0, route_of(entries), labels_of(labels)};
            expect(what, call(plan, query, route_of(entries), labels_of(labels)), expected);
            expect(what + " (second program)", second::search(plan, query, route_of(entries), labels_of(labels)),
                   expected);
        }
}

// No walk: the labels are written, the route buffer is left as it was.
void no_walk(const std::string &what, const Plan &plan, const Query &query, const List &labels) {
    for (size_t entries : {0, 1, 2048})
        expect(what, call(plan, query, route_of(entries), labels_of(labels.size())),
               {12, 0, 0, 0, 0, route_of(entries), labels});
}

void no_walk(const std::string &what, const Plan &plan, const Query &query) {
    const SearchAnswer answer = second::search(plan, query, route_of(0), labels_of(2 * plan.count()));
    expect(what + " (second program)", answer, {12, 0, 0, 0, 0, {}, answer.labels});
    no_walk(what, plan, query, answer.labels);
}

struct Walk {
    uint32_t total, reversals;
    List arrivals;
};

// The arrivals go into the front of a route buffer that is long enough, and the rest of it is kept; with a shorter one both
// buffers are left as they were. Label buffers of another length than 2E are refused before that.
void finds(const std::string &what, const Plan &plan, const Query &query, const Walk &walk, const List &labels) {
    const auto steps = static_cast<uint32_t>(walk.arrivals.size());
    const size_t right = labels.size();
    for (uint32_t entries : {steps, steps + 1, steps + 500}) {
        List after = route_of(entries);
        std::copy(walk.arrivals.begin(), walk.arrivals.end(), after.begin());
        expect(what, call(plan, query, route_of(entries), labels_of(right)),
               {0, 0, walk.total, walk.reversals, steps, after, labels});
    }
    for (uint32_t entries : {0u, 1u, steps - 1})
        if (entries < steps)
            expect(what + ", too short a route buffer", call(plan, query, route_of(entries), labels_of(right)),
                   {14, 0, 0, 0, 0, route_of(entries), labels_of(right)});
    for (size_t other : {size_t{0}, right - 1, right + 1, 2 * right})
        expect(what + ", labels of another length", call(plan, query, route_of(steps), labels_of(other)),
               {11, 0, 0, 0, 0, route_of(steps), labels_of(other)});
}

void finds(const std::string &what, const Plan &plan, const Query &query, const Walk &walk) {
    const auto steps = static_cast<uint32_t>(walk.arrivals.size());
    const SearchAnswer answer = second::search(plan, query, route_of(steps), labels_of(2 * plan.count()));
    expect(what + " (second program)", answer, {0, 0, walk.total, walk.reversals, steps, walk.arrivals, answer.labels});
    finds(what, plan, query, walk, answer.labels);
}

const List no_labels(10, none);

void yard_y_cases() {
    finds("yard Y", yard_y, asked, {4100, 1, {2, 5}}, labels_y);
    finds("yard Y", yard_y, asked, {4100, 1, {2, 5}});
    const auto spur = [](uint32_t from_b) { return with(yard_y, [=](Plan &plan) { plan.occupy(0, 2000, from_b); }); };
    finds("section 0 with 600 free from B", spur(600), asked, {4100, 1, {2, 5}});
    no_walk("section 0 with 599 free from B", spur(599), asked);
    const auto room = [](uint32_t from_a) { return with(yard_y, [=](Plan &plan) { plan.occupy(4, from_a, 0); }); };
    finds("section 4 with 600 free from A", room(600), asked, {2200, 1, {2, 5}});
    no_walk("the finish is the start's other end", yard_y, {600, 3, 0, 3, 1});
    no_walk("all labels are none", yard_y, {600, 3, 0, 3, 1}, no_labels);
    no_walk("leaving by the end where nothing goes on", yard_y, {600, 3, 1, 4, 0});
}

void no_steps() {
    finds("three points", three_points, {200, 0, 1, 1, 0}, {1000, 0, {}}, List{none, 900, none, none});
    finds("three points", three_points, {200, 0, 1, 1, 0}, {1000, 0, {}});
    no_walk("three points, entering by the far end", three_points, {200, 0, 1, 1, 1});
    no_walk("three points, leaving by the far end", three_points, {200, 0, 0, 1, 0});
}

// Document 003's lengths are in metres; a section's stock is what it leaves free from end A and from end B.
Plan paper_stock(std::initializer_list<std::array<uint32_t, 3>> stock) {
    Plan plan = paper_yard;
    for (const auto &[section, from_a, from_b] : stock) plan.occupy(section, 10 * from_a, 10 * from_b);
    return plan;
}

// The paper's distance ends with the train's length, but for Example 3.
void paper_examples() {
    finds("Example 1: 314 m", paper_stock({{4, 139, 0}}), {1200, 4, 1, 3, 1}, {3140 - 1200 + 2800, 1, {35, 32}});
    finds("Example 2: 1752 m", paper_stock({{3, 260, 0}, {4, 0, 159}, {9, 0, 186}}), {500, 9, 0, 3, 0},
          {17520 - 500 + 2600, 2, {44, 47, 20, 42, 10, 24, 27, 5, 29}});
    finds("Example 2, the rest free: 724 m", paper_stock({{9, 0, 186}}), {500, 9, 0, 3, 0},
          {7240 - 500 + 2800, 1, {44, 14, 36, 12, 34, 8, 30, 29}});
    finds("Example 2 for 150 m", paper_stock({{3, 260, 0}, {4, 0, 159}, {9, 0, 86}}), {1500, 9, 0, 3, 0},
          {21620, 2, {44, 47, 20, 42, 10, 24, 27, 5, 29}});
    finds("Example 3: 508 m", paper_stock({{4, 39, 0}}), {200, 4, 1, 4, 0}, {5080, 2, {35, 32, 6, 28, 31}});
    const Plan example_4 = paper_stock({{5, 500, 207}});
    const auto to = [&](uint32_t start_end, uint32_t finish_end, uint32_t metres) {
        const SearchAnswer a = call(example_4, {200, 5, start_end, 3, finish_end}, route_of(2048), labels_of(48));
        if (a.refusal == 0 && a.total == 10 * metres - 200 + 2800) return;
        fail("Example 4: " + std::to_string(metres) + " m");
        print("got", a);
    };
    to(1, 0, 1100);
    to(1, 1, 740);
    to(0, 0, 759);
    to(0, 1, 1119);
}

// A train of 120 m alone at its start end. One entry differs from document 01: from [e8,v15] to [e10,v21] the paper has
// 1393, since it reads the start section as cleared for a pull-out; here it counts as occupied throughout, and there is no
// walk.
void paper_table() {
    PullOuts pull_outs(paper_yard);
    for (size_t i = 0; i < paper_ends.size(); i++)
        for (size_t j = 0; j < paper_ends.size(); j++) {
            if (i == j) continue;
            const uint32_t x = paper_ends[i] / 2, y = paper_ends[j] / 2;
            const uint32_t end = paper_ends[i] % 2, behind = paper_yard.sections[6 * x + 2] - 1200;
            Plan plan = paper_yard;
            plan.occupy(x, end == 0 ? 0 : behind, end == 0 ? behind : 0);
            const Query query{1200, x, end, y, paper_ends[j] % 2};
            const SearchAnswer expected = second::search(plan, query, route_of(2048), labels_of(48), pull_outs);
            const std::string what = "Table 9, line " + std::to_string(i) + ", column " + std::to_string(j);
            expect(what, call(plan, query, route_of(2048), labels_of(48)), expected);
            const bool cleared = paper_ends[i] == 14 && paper_ends[j] == 18;
            const uint32_t metres = cleared ? 0 : paper_table_9[i][j];
            const uint32_t total = metres == 0 ? 0 : 10 * metres - 1200 + paper_yard.sections[6 * y + 2];
            if (expected.total == total && expected.refusal == (metres == 0 ? 12 : 0)) continue;
            fail(what + ": " + std::to_string(metres) + " m by the paper");
            print("second program", expected);
        }
}

// "One distance per point instead of per arrival."
void one_distance_per_point() {
    Plan plan = short_way_turned;
    finds("no pull-out on the short way", plan, {401, 0, 1, 5, 0}, {1450, 0, {5, 7, 9}});
    finds("a pull-out on the short way, but a longer walk", plan, {301, 0, 1, 5, 0}, {1450, 0, {5, 7, 9}});
    finds("two equal walks, the reversal by smaller sections", plan, {300, 0, 1, 5, 0}, {1450, 1, {3, 9}});
    finds("the reversal is shorter", plan, {299, 0, 1, 5, 0}, {1449, 1, {3, 9}});
    plan.turns = {4, 1};
    finds("the turn named the other way round", plan, {299, 0, 1, 5, 0}, {1449, 1, {3, 9}});
    std::swap(plan.sections[6 * 1], plan.sections[6 * 2]);
    std::swap(plan.sections[6 * 1 + 1], plan.sections[6 * 2 + 1]);
    plan.turns = {2, 4};
    plan.sections[6 * 2 + 2] = plan.sections[6 * 2 + 4] = plan.sections[6 * 2 + 5] = 100;
    plan.sections[6 * 1 + 2] = plan.sections[6 * 1 + 4] = plan.sections[6 * 1 + 5] = 300;
    finds("two equal walks, the reversal by greater sections", plan, {300, 0, 1, 5, 0}, {1450, 0, {3, 7, 9}});
}

// "Arrival at the finish point over the finish section itself taken as the end." Section 1 leads from the start to y's far
// end; from there y itself, or a longer way, leads to the finish point 3; behind it is a balloon.
void over_the_finish_section() {
    Plan plan{4, {}, {}};
    plan.join(0, 1, 100, 1);
    plan.join(1, 2, 10);
    const uint32_t y = plan.join(2, 3, 50, 1);
    plan.occupy(0, 0, 70);
    no_walk("only over y", plan, {30, 0, 1, y, 1});
    finds("the near end of y", plan, {30, 0, 1, y, 0}, {70 + 10 + 50, 0, {3}});
    plan.points = 6;
    plan.join(3, 4, 100);
    plan.join(3, 5, 200);
    plan.join(4, 5, 400);
    no_walk("from over y only round the balloon", plan, {30, 0, 1, y, 1});
    no_walk("from over y only round the balloon, labels", plan, {30, 0, 1, y, 1},
            {none, none, none, none, none, 750, 50, 650, 50, 550, 150, 250});
    plan.points = 7;
    plan.join(2, 6, 1000);
    no_walk("a way that leads nowhere", plan, {30, 0, 1, y, 1});
    plan = Plan{6, {}, {}};
    plan.join(0, 1, 100, 1);
    plan.join(1, 2, 10);
    plan.join(2, 3, 50, 1);
    plan.join(2, 4, 500);
    plan.join(4, 3, 500);
    plan.join(4, 5, 5, 1);
    plan.occupy(0, 0, 70);
    finds("the long way round", plan, {30, 0, 1, 2, 1}, {70 + 10 + 500 + 500 + 50, 0, {3, 7, 9}});
}

// "A pull-out that bends round a loop onto the section the train must leave by." Document 01's loop: the train comes from
// section 4 over 1 and must leave by 2. The way round over 0 and 3 ends at the turn from 3 onto 5, where nothing takes it.
void bends_round() {
    Plan plan = loop_between_tracks;
    finds("the loop takes 600", plan, {600, 4, 0, 6, 0}, {100 + 800 + 10 + 700, 1, {2, 5, 11}});
    no_walk("the loop does not take 601", plan, {601, 4, 0, 6, 0});
    finds("a short train", plan, {1, 4, 0, 6, 0}, {100 + 201 + 10 + 700, 1, {2, 5, 11}});
    plan.turns = {1, 2};
    finds("nothing forbidden at the end of the way round", plan, {601, 4, 0, 6, 0},
          {100 + 300 + 300 + 10 + 700, 0, {2, 1, 7, 11}});
}

// "Stopping at the first pull-out too short instead of trying the next."
void too_short() {
    Plan plan{8, {}, {}};
    plan.join(0, 1, 900, 1);
    plan.join(1, 2, 100);
    plan.join(2, 3, 10);
    plan.join(2, 4, 100);
    plan.join(4, 5, 50);
    plan.join(4, 6, 80);
    plan.join(3, 7, 900, 1);
    plan.occupy(0, 0, 0);
    plan.forbid(1, 2);
    finds("the first pull-out takes it", plan, {150, 0, 1, 6, 0}, {100 + 160 + 900, 1, {3, 5}});
    finds("the second pull-out takes it", plan, {180, 0, 1, 6, 0}, {100 + 190 + 900, 1, {3, 5}});
    no_walk("neither takes it", plan, {181, 0, 1, 6, 0});
    plan.occupy(4, 0, 0);
    finds("the first is locked", plan, {180, 0, 1, 6, 0}, {100 + 190 + 900, 1, {3, 5}});
    plan.occupy(2, 9, 0);
    no_walk("s is not free", plan, {180, 0, 1, 6, 0});
}

// Pull-outs take the tables as they stand: over what is free of a section, and over the finish section.
void pull_outs_as_they_stand() {
    Plan plan{6, {}, {}};
    plan.join(0, 1, 100, 1);
    plan.join(1, 2, 20);
    plan.join(2, 3, 30);
    plan.join(2, 4, 50, 1);
    plan.forbid(1, 2);
    plan.occupy(0, 0, 60);
    const uint32_t y = plan.join(3, 5, 200, 1);
    finds("a spur", plan, {40, 0, 1, y, 0}, {60 + 20 + 70 + 200, 1, {3, 5}});
    plan.occupy(3, 40, 0);
    finds("room for the train, no more", plan, {40, 0, 1, y, 0}, {60 + 20 + 70 + 200, 1, {3, 5}});
    plan.occupy(3, 39, 10);
    no_walk("room at the far end", plan, {40, 0, 1, y, 0});
    // Section 2 and the finish section meet at both ends of a ring: the train is pulled out over one end of it and enters it
    // by the other.
    Plan ring{5, {}, {}};
    ring.join(0, 1, 100, 1);
    ring.join(1, 2, 20);
    ring.join(2, 3, 30);
    const uint32_t finish = ring.join(2, 4, 50, 1);
    ring.join(3, 4, 60);
    ring.forbid(1, 2);
    ring.occupy(0, 0, 60);
    finds("a pull-out over the finish section", ring, {40, 0, 1, finish, 1}, {60 + 20 + 70 + 60 + 50, 1, {3, 5, 9}});
    finds("the finish at once", ring, {40, 0, 1, finish, 0}, {60 + 20 + 50, 0, {3}});
}

// From a section to itself: out by one end, round a loop, in by the other. The room is the whole length if the train is
// alone.
void back_to_the_start() {
    Plan plan{3, {}, {}};
    plan.join(0, 1, 100, 1);
    plan.join(1, 2, 70);
    plan.join(2, 0, 80);
    plan.occupy(0, 50, 20);
    finds("alone", plan, {30, 0, 1, 0, 0}, {20 + 70 + 80 + 100, 0, {3, 5}});
    finds("not alone", plan, {29, 0, 1, 0, 0}, {20 + 70 + 80 + 50, 0, {3, 5}});
    finds("alone, the other way", plan, {30, 0, 0, 0, 1}, {50 + 80 + 70 + 100, 0, {4, 2}});
    refuses("not alone, the other way: no room", plan, {29, 0, 0, 0, 1}, 10);
    plan.occupy(0, 0, 0);
    finds("filled to the last decimetre", plan, {100, 0, 1, 0, 0}, {70 + 80 + 100, 0, {3, 5}});
    refuses("filled, but by more than the train", plan, {99, 0, 1, 0, 0}, 10);
}

// Among equals the smallest list of sections, compared from the start; the number of steps and of reversals does not count.
void ties() {
    // Five passing loops in a row, each of two tracks of 10 and 20 in either order: 32 walks.
    Plan plan{22, {}, {}};
    List arrivals;
    plan.join(20, 0, 500, 1);
    for (uint32_t i = 0; i < 5; i++) {
        const uint32_t from = 4 * i, to = from + 3, lead = i % 2 == 0 ? 10 : 20;
        const uint32_t first = plan.join(from, from + 1, lead);
        plan.join(from, from + 2, 30 - lead);
        plan.join(from + 2, to, lead);
        const uint32_t then = plan.join(from + 1, to, 30 - lead);
        arrivals.insert(arrivals.end(), {2 * first + 1, 2 * then + 1});
        if (i < 4) arrivals.push_back(2 * plan.join(to, to + 1, 5) + 1);
    }
    const uint32_t y = plan.join(19, 21, 500, 1);
    plan.occupy(0, 0, 0);
    finds("32 equal walks", plan, {400, 0, 1, y, 0}, {5 * 30 + 4 * 5 + 500, 0, arrivals});
    plan = equal_ways;
    finds("more steps, smaller sections", plan, {400, 0, 1, 5, 0}, {530, 0, {3, 7, 9}});
    std::swap(plan.sections[6 * 1 + 1], plan.sections[6 * 2 + 1]);
    for (uint32_t number : {2u, 4u, 5u}) std::swap(plan.sections[6 * 1 + number], plan.sections[6 * 2 + number]);
    finds("fewer steps, smaller sections", plan, {400, 0, 1, 5, 0}, {530, 0, {3}});
    plan.sections[6 * 1 + 2] = plan.sections[6 * 1 + 4] = plan.sections[6 * 1 + 5] = 31;
    finds("smaller sections, one decimetre more", plan, {400, 0, 1, 5, 0}, {530, 0, {5, 7, 9}});
}

void starts() {
    const Plan locked = with(yard_y, [](Plan &plan) { plan.occupy(3, 0, 0); });
    finds("a locked section can't be told from stock", locked, {600, 3, 0, 4, 0}, {4000, 1, {2, 5}});
    refuses("and has no more than its length", locked, {2001, 3, 0, 4, 0}, 8);
    const Plan wraps = with(yard_y, [](Plan &plan) { plan.occupy(3, 1999, 0); });
    finds("one decimetre of stock", wraps, {1, 3, 0, 4, 0}, {1999 + 400 + 501 + 2500, 1, {2, 5}});
    refuses("two decimetres of it", wraps, {2, 3, 0, 4, 0}, 8);
}

void finishes() {
    const Plan far_room = with(yard_y, [](Plan &plan) { plan.occupy(4, 0, 600); });
    no_walk("room, but no way to that end", far_room, {600, 3, 0, 4, 1});
}

// The refusals from the last to the first: each fault is added to those before it, and its number takes over.
void order() {
    Plan plan = yard_y;
    Query query = asked;
    const auto gives = [&](const std::string &what, size_t labels, const SearchAnswer &expected) {
        expect(what, call(plan, query, route_of(1), labels_of(labels)), expected);
    };
    const auto refused = [](uint32_t number, size_t labels) {
        return SearchAnswer{number, 0, 0, 0, 0, route_of(1), labels_of(labels)};
    };
    finds("nothing wrong", plan, query, {4100, 1, {2, 5}});
    gives("14", 10, refused(14, 10));
    plan.occupy(0, 2000, 599);
    SearchAnswer twelve = refused(12, 10);
    twelve.labels = {none, 3000, none, none, none, 2500, none, none, none, none};
    gives("12 before 14", 10, twelve);
    gives("11 before 12", 9, refused(11, 9));
    for (const FaultyQuery &fault : added_query_faults(plan))
        refuses(fault.what, fault.plan, fault.query, fault.number, fault.place);
}

// Each fault of the plan and of the query alone.
void single_faults() {
    for (const FaultyQuery &fault : query_faults())
        refuses(fault.what, fault.plan, fault.query, fault.number, fault.place);
}

// A line of n sections over n + 1 points; the first and the last are destinations, and the first is full.
Plan line(uint32_t n, uint32_t length) {
    Plan plan{n + 1, {}, {}};
    for (uint32_t s = 0; s < n; s++) plan.join(s, s + 1, length, s == 0 || s + 1 == n);
    plan.occupy(0, 0, 0);
    return plan;
}

// Two lines of n points each, and rungs between the first k of them: 2n - 2 + k sections. The first section of one line is
// full.
Plan ladder(uint32_t n, uint32_t k, uint32_t length) {
    Plan plan{2 * n, {}, {}};
    for (uint32_t p = 0; p + 1 < n; p++) {
        plan.join(p, p + 1, length, p == 0);
        plan.join(n + p, n + p + 1, length, p + 2 == n);
    }
    for (uint32_t p = 0; p < k; p++) plan.join(p, n + p, length);
    plan.occupy(0, 0, 0);
    return plan;
}

// A line of 385 sections with a spur at each point between two connecting ones, where the turn along the line is forbidden:
// 768 points, and 382 reversals, the most that a line has.
void zigzag() {
    const uint32_t n = 385, length = 200000, train = 20000, spurs = n - 3, step = train + length;
    Plan plan = line(n, length);
    for (uint32_t i = 0; i < spurs; i++) {
        plan.join(i + 2, plan.points++, train);
        plan.forbid(i + 1, i + 2);
    }
    Walk walk{length + (spurs + 1) * length + spurs * train, spurs, {}};
    List labels(2 * plan.count(), none);
    for (uint32_t s = 0; s + 1 < n; s++) {
        if (s > 0) walk.arrivals.push_back(2 * s + 1);
        // From here on each step to section n - 2 is a reversal, but for that from the start section.
        labels[2 * s + 1] = length + (s == 0 ? spurs * step + length : (n - 2 - s) * step);
    }
    // A spur leads onto the line without a reversal.
    for (uint32_t i = 0; i < spurs; i++) labels[2 * (n + i)] = length + labels[2 * (i + 2) + 1];
    finds("382 reversals", plan, {train, 0, 1, n - 1, 0}, walk, labels);
    plan.occupy(n + spurs / 2, train - 1, 0);
    const SearchAnswer a = call(plan, {train, 0, 1, n - 1, 0}, route_of(2048), labels_of(2 * plan.count()));
    for (uint32_t s = 0; s < 2 + spurs / 2; s++) labels[2 * s + 1] = none;
    for (uint32_t i = 0; i < spurs / 2; i++) labels[2 * (n + i)] = none;
    expect("one spur is one decimetre too short", a, {12, 0, 0, 0, 0, route_of(2048), labels});
}

void largest() {
    List arrivals;
    for (uint32_t s = 1; s < 766; s++) arrivals.push_back(2 * s + 1);
    finds("a line of 767 sections", line(767, 200000), {20000, 0, 1, 766, 0}, {766 * 200000, 0, arrivals});
    Plan plan = ladder(384, 258, 200000);
    const Query query{20000, 0, 1, 765, 0};
    const SearchAnswer expected = second::search(plan, query, route_of(2048), labels_of(2048));
    expect("768 points and 1,024 sections", call(plan, query, route_of(2048), labels_of(2048)), expected);
    if (expected.steps < 380) fail("the walk over the ladder is short");
    plan.join(0, 767, 1);
    refuses("1,025 sections", plan, query, 1);
    plan = ladder(384, 258, 200000);
    plan.turns.assign(2 * 769, 1);
    refuses("769 turns", plan, query, 1);
    zigzag();
}

// How often the random plans gave each refusal, what the walks found had, and how many answers hang on each rule.
struct Met {
    uint32_t queries = 0, tied = 0, to_the_start_section = 0, confirmed = 0;
    std::map<uint32_t, uint32_t> refusals, reversals, steps;
    std::array<uint32_t, second::no_rule> decided{};
};

// The second program itself, on tiny yards: it is compared with all walks there are. A shortest walk meets no arrival twice,
// so that it has fewer than 2E steps.
void confirm(const std::string &what, const second::Rules &rules, Met &met) {
    const auto remaining = second::remaining_distances(rules);
    for (uint32_t arrival = 0; arrival < rules.arrivals(); arrival++) {
        const auto walks = second::all_walks(rules, arrival, rules.arrivals() - 1);
        const auto smallest = std::min_element(walks.begin(), walks.end());
        const bool right =
            walks.empty() ? remaining[arrival] == second::none : remaining[arrival] == smallest->cost + rules.room();
        const auto first = arrival == rules.start() ? second::first_shortest(rules) : std::nullopt;
        const bool first_right = arrival != rules.start() || (walks.empty() ? !first : first == *smallest);
        if (!right || !first_right) fail(what + ": not the smallest of all walks, arrival " + std::to_string(arrival));
    }
    met.confirmed++;
}

void count(const Plan &plan, const Query &query, const SearchAnswer &answer, PullOuts &pull_outs, Met &met) {
    met.queries++;
    met.refusals[answer.refusal]++;
    if (answer.refusal != 0) return;
    const second::Rules rules(plan, query, pull_outs);
    met.tied += second::shortest_walks(rules, second::remaining_distances(rules), rules.start()) > 1;
    met.to_the_start_section += query.start == query.finish;
    met.reversals[answer.reversals]++;
    met.steps[answer.steps]++;
}

// Which rules an answer hangs on: it would be another without them.
void weigh(const Plan &plan, const Query &query, const SearchAnswer &answer, PullOuts &pull_outs, Met &met) {
    if (answer.refusal != 0 && answer.refusal != 12) return;
    const List route = route_of(answer.route.size()), labels = labels_of(answer.labels.size());
    for (size_t i = 0; i < second::no_rule; i++) {
        const auto rule = static_cast<second::Rule>(i);
        met.decided[i] += second::search(plan, query, route, labels, pull_outs, rule) != answer;
    }
}

void compare(const std::string &what, Draw &draw, const Plan &plan, const Query &query, PullOuts &pull_outs, Met &met) {
    const uint32_t right = 2 * plan.count();
    const List route = route_of(draw.one_in(4) ? draw.below(5) : right + draw.below(3));
    const List labels = labels_of(draw.one_in(24) ? draw.below(right + 3) : right);
    const SearchAnswer expected = second::search(plan, query, route, labels, pull_outs);
    expect(what, call(plan, query, route, labels), expected);
    count(plan, query, expected, pull_outs, met);
    weigh(plan, query, expected, pull_outs, met);
    if (plan.count() <= 6 && second::check_query(plan, query, right).number == 0)
        confirm(what, second::Rules(plan, query, pull_outs), met);
}

// The plans are worth comparing: they meet every refusal but 13, which is never given, walks of many kinds, ties, and every
// rule that can decide. What they met is printed with how often.
void enough(const Met &met) {
    const auto some = [](const std::string &what, uint32_t times) {
        std::printf(" %s: %u", what.c_str(), times);
        if (times > 0) return;
        std::puts("");
        fail("the random plans never met this");
    };
    const auto each = [&](std::map<uint32_t, uint32_t> times, std::initializer_list<uint32_t> numbers) {
        for (uint32_t number : numbers) some(std::to_string(number), times[number]);
    };
    std::printf("search_test: %u queries, by refusal", met.queries);
    each(met.refusals, {0, 1, 2, 3, 4, 5, 6, 7, 8, 9, 10, 11, 12, 14});
    std::printf(" 13: %zu\n  walks by reversals", met.refusals.count(13));
    each(met.reversals, {0, 1, 2});
    std::printf("\n  walks by steps");
    each(met.steps, {0, 1, 2, 3, 4, 5, 6, 7});
    std::puts("");
    some(" walks that are one of several shortest", met.tied);
    some("\n  walks back to the start section", met.to_the_start_section);
    some("\n  queries with all walks listed", met.confirmed);
    std::printf("\n  answers that hang on a rule:\n");
    for (size_t i = 0; i < second::no_rule; i++) {
        some("  " + std::string(second::rule_words[i]), met.decided[i]);
        std::puts("");
    }
}

// Short trains, so that the second program can list what may be a pull-out.
void largest_at_random() {
    uint32_t walks = 0, reversals = 0;
    for (uint32_t seed = 1; seed <= 24 && !failed; seed++) {
        Draw draw(seed);
        const Drawn drawn = draw_largest(draw);
        const uint32_t length = std::min(drawn.stock(), 1 + draw.below(3)), start_end = draw.below(2),
                       finish_end = draw.below(2);
        PullOuts pull_outs(drawn.plan);
        const Query query{length, drawn.x, start_end, drawn.y, finish_end};
        const SearchAnswer expected = second::search(drawn.plan, query, route_of(2048), labels_of(2048), pull_outs);
        expect("a ring with chords, seed " + std::to_string(seed),
               call(drawn.plan, query, route_of(2048), labels_of(2048)), expected);
        walks += expected.refusal == 0;
        reversals += expected.reversals;
    }
    std::printf("search_test: %u walks over rings with chords, with %u reversals\n", walks, reversals);
    if (walks < 5 || reversals < 20) fail("too few walks over rings with chords");
}

void against_second_program() {
    Met met;
    for (uint32_t seed = 1; seed <= 1600 && !failed; seed++) {
        const std::string what = "the second program, seed " + std::to_string(seed);
        Draw draw(seed);
        const bool tiny = seed % 2 == 0;
        Drawn drawn = draw_yard(draw, tiny ? 3 + draw.below(4) : 7 + draw.below(6));
        PullOuts pull_outs(drawn.plan);
        for (uint32_t i = 0; i < 6; i++) {
            const Query query = draw_query(draw, drawn);
            compare(what, draw, drawn.plan, query, pull_outs, met);
        }
        const Query query = draw_query(draw, drawn);
        damage_plan(draw, drawn.plan);
        PullOuts of_damaged(drawn.plan);
        compare(what, draw, drawn.plan, query, of_damaged, met);
    }
    if (!failed) enough(met);
}

} // namespace

int main() {
    yard_y_cases();
    no_steps();
    paper_examples();
    paper_table();
    one_distance_per_point();
    over_the_finish_section();
    bends_round();
    too_short();
    pull_outs_as_they_stand();
    back_to_the_start();
    ties();
    starts();
    finishes();
    order();
    single_faults();
    largest();
    largest_at_random();
    against_second_program();
    std::puts(failed ? "search_test: failed" : "search_test: good");
    return failed;
}

// finder_check_sheet through the C ABI: document 01's sheets, claims and lists of every kind, labels that keep the rules and
// labels that break them, sums past 32 bits, each refusal and their order, lent tables at guard pages; what the search
// answers, and a comparison with the second program on damaged sheets drawn at random.
#include "damaged_sheets.h"
#include "finder.h"
#include "guard.h"
#include "plan.h"
#include "random_queries.h"
#include "refusal_cases.h"
#include "second_sheet.h"
#include <cstdio>
#include <map>
#include <string>

namespace {

using enum second::Damage;
using second::Damage;
using second::damage_words;
using second::List;
using second::PullOuts;
using second::Query;
using second::Rules;
using second::Sheet;
using second::SheetAnswer;

constexpr uint32_t none = FINDER_NONE;
int failed = 0;

SheetAnswer answered(const finder_answer &a) { return {a.refusal, a.place, a.total, a.reversals, a.steps}; }

// A sheet is lent to be read only.
SheetAnswer call(const Plan &plan, const Query &query, const Sheet &sheet) {
    Guarded sections(plan.sections), turns(plan.turns), list(sheet.list), labels(sheet.labels);
    for (Guarded *lent : {&sections, &turns, &list, &labels}) lent->seal();
    return answered(finder_check_sheet(plan.points, sections.data(), sections.size(), turns.data(), turns.size(),
                                       query.length, query.start, query.start_end, query.finish, query.finish_end,
                                       sheet.claim, list.data(), list.size(), labels.data(), labels.size()));
}

void fail(const std::string &what) {
    failed = 1;
    std::printf("sheet_test: %s\n", what.c_str());
}

void print(const char *name, const SheetAnswer &answer) {
    std::printf("  %s: %u at %u, total %ju, %ju reversals, %ju steps\n", name, answer.refusal, answer.place,
                static_cast<uintmax_t>(answer.total), static_cast<uintmax_t>(answer.reversals),
                static_cast<uintmax_t>(answer.steps));
}

void expect(const std::string &what, const SheetAnswer &got, const SheetAnswer &expected) {
    if (got == expected) return;
    fail(what);
    print("expected", expected);
    print("got", got);
}

void gives(const std::string &what, const Plan &plan, const Query &query, const Sheet &sheet,
           const SheetAnswer &expected) {
    expect(what, call(plan, query, sheet), expected);
    expect(what + " (second program)", second::check_sheet(plan, query, sheet), expected);
}

// Numbers 1 to 10 are given whatever the sheet.
void refuses(const std::string &what, const Plan &plan, const Query &query, uint32_t number, uint32_t place = 0) {
    const size_t right = 2 * plan.count();
    for (uint32_t claim : {0u, 1u, 2u})
        for (const List &list : {List{}, List{2, 5}, List{none}})
            for (size_t labels : {size_t{0}, right - 1, right, right + 1})
                gives(what, plan, query, {claim, list, List(labels, none)}, {number, place});
}

const Sheet sheet_y{1, {2, 5}, labels_y};
const SheetAnswer accepted_y{0, 0, 4100, 1, 2};

using Changes = std::initializer_list<std::pair<uint32_t, uint32_t>>;

// A sheet with other labels at some arrivals.
Sheet with_labels(Sheet sheet, Changes changes) {
    for (const auto &[arrival, label] : changes) sheet.labels[arrival] = label;
    return sheet;
}

void yard_y_sheets() {
    gives("the first case", yard_y, asked, sheet_y, accepted_y);
    gives("label 2 as 3601", yard_y, asked, with_labels(sheet_y, {{2, 3601}}), {18, 2});
    gives("label 2 as 3599", yard_y, asked, with_labels(sheet_y, {{2, 3599}}), {18, 6});
    gives("label 6 as 3999", yard_y, asked, with_labels(sheet_y, {{6, 3999}}), {19});
}

// Yard Y's labels, other than the first case has them: at an end at most the finish room, before a step at most the cost and
// the label after. Arrivals 0, 3, 4, 7, 8 and 9 lead nowhere; 4 and 8 have steps, 8 comes over the finish section.
void label_rules() {
    const auto labels = [](Changes changes, const SheetAnswer &expected) {
        std::string what = "yard Y, labels";
        for (const auto &[arrival, label] : changes)
            what += " " + std::to_string(arrival) + ":" + std::to_string(label);
        gives(what, yard_y, asked, with_labels(sheet_y, changes), expected);
    };
    labels({{5, 2501}}, {18, 5});
    labels({{5, 2499}}, {18, 1});
    labels({{1, 3001}}, {18, 1});
    for (uint32_t label : {0u, 2999u}) labels({{1, label}}, accepted_y);
    for (uint32_t label : {4001u, none - 1, none}) labels({{6, label}}, {18, 6});
    for (uint32_t label : {0u, 1u, 3900u, 3999u}) labels({{6, label}}, {19});
    labels({{1, 2999}, {2, 3599}, {5, 2499}, {6, 3999}}, {19});
    labels({{1, 3001}, {2, 3601}, {5, 2501}, {6, 4001}}, {18, 5});
    labels({{6, 4001}, {5, 2501}}, {18, 5});
    labels({{6, 3999}, {8, 0}, {4, 0}, {0, 0}}, {18, 2});
    // None before a step to a number breaks the rule, however great the number; at an end it breaks the rule too.
    for (uint32_t arrival : {1u, 2u, 5u, 6u}) labels({{arrival, none}}, {18, arrival});
    for (uint32_t label : {600u, none - 3000, none - 1}) labels({{0, label}}, {18, 4});
    for (uint32_t label : {2600u, none - 1000, none - 1}) labels({{3, label}}, {18, 4});
    for (uint32_t label : {0u, none - 500, none - 1}) labels({{4, label}}, {18, 8});
    labels({{0, 599}}, {18, 2});
    labels({{3, 2599}}, {18, 1});
    // None after a step asks nothing of the label before it, and an arrival without steps may have any label.
    labels({{4, 0}, {8, 500}}, accepted_y);
    labels({{4, 0}, {8, 501}}, {18, 8});
    for (uint32_t label : {0u, 4000u, none - 1}) labels({{7, label}, {8, label}, {9, label}}, accepted_y);
    labels({{0, 600}, {4, 3600}, {8, 4100}}, accepted_y);
    labels({{0, 600}, {4, 3601}, {8, 4100}}, {18, 4});
    labels({{3, 2600}, {4, 3600}, {8, 4100}}, accepted_y);
    labels({{3, 2600}, {4, 3600}, {8, 4101}}, {18, 8});
    // The cost and the label after, past 32 bits.
    labels({{0, none - 1}, {3, none - 1}, {4, none - 1}, {8, none - 1}}, accepted_y);
    labels({{3, none - 400}, {4, none - 1}, {8, none - 1}}, accepted_y);
    labels({{3, none - 1002}, {4, none - 1}, {8, none - 1}}, {18, 4});
    Sheet zeros = sheet_y;
    zeros.labels.assign(10, 0);
    gives("all labels 0", yard_y, asked, zeros, {19});
    zeros.labels.assign(10, none);
    gives("all labels none", yard_y, asked, zeros, {18, 5});
}

void claims() {
    for (uint32_t claim : {2u, 3u, 256u, 257u, 65536u, 65537u, 2147483648u, 2147483649u, none - 1, none}) {
        gives("no such claim", yard_y, asked, {claim, {2, 5}, sheet_y.labels}, {17});
        gives("no such claim, no list", yard_y, asked, {claim, {}, sheet_y.labels}, {17});
        gives("no such claim, no route", yard_y, {600, 3, 0, 3, 1}, {claim, {}, List(10, none)}, {17});
    }
    for (const List &list : {List{2, 5}, List{2}, List{none}, List{6}, List(3000, 0)}) {
        gives("no route, with a list", yard_y, asked, {0, list, sheet_y.labels}, {17});
        gives("no route where there is none, with a list", yard_y, {600, 3, 0, 3, 1}, {0, list, List(10, none)}, {17});
    }
}

// Lists that are no admissible walk, with the labels of one that is.
void no_walks() {
    const auto no_walk = [](const std::string &what, const List &list) {
        gives(what, yard_y, asked, {1, list, sheet_y.labels}, {17});
        gives(what + ", labels that break rules", yard_y, asked, {1, list, List(10, none)}, {17});
    };
    no_walk("no steps", {});
    no_walk("an end missing", {2});
    no_walk("another end of a train's walk", {2, 0});
    no_walk("the first step missing", {5});
    no_walk("the steps swapped", {5, 2});
    no_walk("the first step twice", {2, 2, 5});
    no_walk("the last step twice", {2, 5, 5});
    no_walk("with the arrival of the start", {6, 2, 5});
    no_walk("to the near end of a section", {3});
    no_walk("to the near end of the last section", {2, 4});
    no_walk("sections, not arrivals", {1, 2});
    no_walk("on to the finish section", {2, 5, 9});
    no_walk("back over the section it came by", {2, 5, 4, 5});
    no_walk("onto an occupied section", {7});
    for (uint32_t arrival : {10u, 11u, 2048u, 2147483650u, 2147483653u, none - 1, none}) {
        no_walk("no arrival at first", {arrival, 5});
        no_walk("no arrival in the middle", {2, arrival, 5});
        no_walk("no arrival at last", {2, arrival});
        no_walk("no arrival behind the end", {2, 5, arrival});
        no_walk("no arrival", {arrival});
    }
    no_walk("arrivals without an end", List(3000, 2));
    const Plan spur = with(yard_y, [](Plan &plan) { plan.occupy(0, 2000, 599); });
    gives("a reversal without a pull-out", spur, asked, sheet_y, {17});
    const Plan stock = with(yard_y, [](Plan &plan) { plan.occupy(2, 499, 0); });
    gives("onto a section that is not free", stock, asked, sheet_y, {17});
}

void no_steps() {
    const Plan &plan = three_points;
    const Query query{200, 0, 1, 1, 0};
    const List labels{none, 900, none, none};
    gives("three points", plan, query, {1, {}, labels}, {0, 0, 1000, 0, 0});
    gives("three points, the label too small", plan, query, {1, {}, {none, 899, none, none}}, {19});
    gives("three points, the label too great", plan, query, {1, {}, {none, 901, none, none}}, {18, 1});
    gives("three points, the label none", plan, query, {1, {}, List(4, none)}, {18, 1});
    gives("three points, a step", plan, query, {1, {3}, labels}, {17});
    gives("three points, the start as a step", plan, query, {1, {1}, labels}, {17});
    gives("three points, no route claimed", plan, query, {0, {}, labels}, {19});
    gives("three points, no route and no labels", plan, query, {0, {}, List(4, none)}, {18, 1});
    gives("three points, by the far end", plan, {200, 0, 1, 1, 1}, {0, {}, List(4, none)}, {});
    gives("three points, a walk by the far end", plan, {200, 0, 1, 1, 1}, {1, {}, List(4, none)}, {17});
    gives("three points, to the start as the end", plan, {200, 0, 0, 1, 0}, {1, {}, labels}, {17});
}

void no_route() {
    const Query query{600, 3, 0, 3, 1};
    const Sheet sheet{0, {}, List(10, none)};
    gives("no arrival at the finish point", yard_y, query, sheet, {});
    for (uint32_t label : {0u, 4000u, none - 1})
        gives("no route, a number at the start", yard_y, query, with_labels(sheet, {{6, label}}), {19});
    gives("no route, a number after a step", yard_y, query, with_labels(sheet, {{5, 0}}), {18, 1});
    gives("no route, a number nobody comes from", yard_y, query, with_labels(sheet, {{1, 0}}), {});
    gives("no route, but a walk claimed", yard_y, query, {1, {2, 5}, sheet.labels}, {17});
    gives("no route where there is one", yard_y, asked, {0, {}, sheet_y.labels}, {19});
    gives("no route where there is one, all none", yard_y, asked, sheet, {18, 5});
    gives("no route where there is one, none at the start", yard_y, asked,
          with_labels({0, {}, sheet_y.labels}, {{6, none}}), {18, 6});
    const Plan spur = with(yard_y, [](Plan &plan) { plan.occupy(0, 2000, 599); });
    const Sheet cut{0, {}, {none, 3000, none, none, none, 2500, none, none, none, none}};
    gives("no pull-out", spur, asked, cut, {});
    gives("no pull-out, a number at the start", spur, asked, {0, {}, sheet_y.labels}, {19});
    gives("no pull-out, a number before the turn", spur, asked, with_labels(cut, {{2, 3600}}), {18, 6});
}

// Section 1 leads from the start to the far end of the finish section 2; behind the finish point is a balloon. Over the
// finish section a walk could come to the finish point, and from the balloon end there.
void over_the_finish_section() {
    Plan plan{6, {}, {}};
    plan.join(0, 1, 100, 1);
    plan.join(1, 2, 10);
    plan.join(2, 3, 50, 1);
    plan.join(3, 4, 100);
    plan.join(3, 5, 200);
    plan.join(4, 5, 400);
    plan.occupy(0, 0, 70);
    const Query query{30, 0, 1, 2, 1};
    const List labels{none, none, none, none, none, 750, 50, 650, 50, 550, 150, 250};
    gives("only over the finish section", plan, query, {0, {}, labels}, {});
    gives("a step onto the finish section", plan, query, {1, {3, 5, 7, 11, 8}, labels}, {17});
    gives("an end over the finish section", plan, query, {1, {3, 5}, labels}, {17});
    gives("labels over the finish section", plan, query,
          {0, {}, {none, 810, none, 800, none, 750, 50, 650, 50, 550, 150, 250}}, {19});
}

// From section 0 into a ring of sections 1 to 3, past the finish at its first point: a walk can go round any number of
// times. The first distance is 10,000, the finish room 30,000.
Plan ring(uint32_t first, uint32_t second, uint32_t third) {
    Plan plan{5, {}, {}};
    plan.join(0, 1, 30000, 1);
    plan.join(1, 2, first);
    plan.join(2, 3, second);
    plan.join(3, 1, third);
    plan.join(2, 4, 30000, 1);
    plan.occupy(0, 0, 10000);
    return plan;
}

const Query into_the_ring{20000, 0, 1, 4, 0};

List rounds(uint32_t times) {
    List list{3};
    for (uint32_t i = 0; i < times; i++) list.insert(list.end(), {5, 7, 3});
    return list;
}

// An admissible walk may pass an end, and may meet an arrival twice: then it is not a shortest one.
void longer_walks() {
    const Plan plan = ring(400, 500, 600);
    const List labels{none, 30400, 31100, 30000, 30000, 31000, 30500, 30400, 31500, none};
    const auto walk = [&](const std::string &what, const List &list, const SheetAnswer &expected) {
        gives(what, plan, into_the_ring, {1, list, labels}, expected);
    };
    walk("the end at once", rounds(0), {0, 0, 40400, 0, 1});
    for (uint32_t times : {1u, 2u, 682u, 683u, 1000u})
        walk(std::to_string(times) + " times round", rounds(times), {19});
    walk("the other way", {6, 4}, {19});
    walk("past an end, and not to one", {3, 5, 7}, {17});
    walk("past an end to another, an arrival twice", {6, 4, 2, 6, 4}, {19});
    walk("back over the section it came by", {3, 5, 7, 6}, {17});
    gives("an end, and a step from it", plan, into_the_ring, with_labels({1, {3}, labels}, {{5, 0}}), {18, 3});
    // The start label that fits the longer walk breaks a rule.
    gives("once round, labelled so", plan, into_the_ring, with_labels({1, rounds(1), labels}, {{1, 31900}}), {18, 1});
    gives("once round, all labelled so", plan, into_the_ring,
          with_labels({1, rounds(1), labels}, {{1, 31900}, {3, 31500}, {7, 31900}}), {18, 1});
}

// 25,000 steps, and a total that passes 2^32 by 234,232. With this start label, which keeps the rules, it would be the total
// if sums wrapped.
void past_32_bits() {
    const Plan plan = ring(200000, 200000, 115416);
    const List list = rounds(8333);
    const auto search = second::search(plan, into_the_ring, List(1), List(10));
    const Sheet sheet{1, list, search.labels}, fits = with_labels(sheet, {{1, 234232 - 10000}});
    PullOuts pull_outs(plan);
    const auto walk = second::walk_of(Rules(plan, into_the_ring, pull_outs), list);
    if (!walk || walk->steps != 25000 || walk->total != 4294967296u + 234232) fail("the ring's total is another");
    gives("one step in the ring", plan, into_the_ring, {1, {3}, sheet.labels}, {0, 0, 240000, 0, 1});
    gives("25,000 steps", plan, into_the_ring, sheet, {19});
    gives("25,000 steps, a total that wraps", plan, into_the_ring, fits, {19});
    gives("one step, that start label", plan, into_the_ring, {1, {3}, fits.labels}, {19});
    gives("25,000 steps, claimed as no route", plan, into_the_ring, {0, list, fits.labels}, {17});
    for (uint32_t last : {5u, 3u, none}) {
        Sheet longer = fits;
        longer.list.push_back(last);
        gives("25,001 steps and no end", plan, into_the_ring, longer, {17});
    }
}

// The check accepts any shortest walk, not only the first, with that walk's own numbers.
void other_shortest_walks() {
    Plan plan = equal_ways;
    const Query query{400, 0, 1, 5, 0};
    List labels = second::search(plan, query, List(6), List(12)).labels;
    gives("more steps", plan, query, {1, {3, 7, 9}, labels}, {0, 0, 530, 0, 3});
    gives("fewer steps", plan, query, {1, {5}, labels}, {0, 0, 530, 0, 1});
    // A reversal of 300 on the short way, or the long way.
    plan = short_way_turned;
    const auto labels_for = [&](uint32_t length) {
        return second::search(plan, {length, 0, 1, 5, 0}, List(6), List(12)).labels;
    };
    gives("with a reversal", plan, {300, 0, 1, 5, 0}, {1, {3, 9}, labels_for(300)}, {0, 0, 1450, 1, 2});
    gives("without a reversal", plan, {300, 0, 1, 5, 0}, {1, {5, 7, 9}, labels_for(300)}, {0, 0, 1450, 0, 3});
    gives("the reversal costs one more", plan, {301, 0, 1, 5, 0}, {1, {3, 9}, labels_for(301)}, {19});
    gives("the reversal costs one less", plan, {299, 0, 1, 5, 0}, {1, {5, 7, 9}, labels_for(299)}, {19});
    gives("labels for another length", plan, {299, 0, 1, 5, 0}, {1, {3, 9}, labels_for(300)}, {18, 3});
    gives("no pull-out any more", plan, {401, 0, 1, 5, 0}, {1, {3, 9}, labels_for(401)}, {17});
}

// From a section to itself the room is the whole length if the train is alone.
void back_to_the_start() {
    Plan plan{3, {}, {}};
    plan.join(0, 1, 100, 1);
    plan.join(1, 2, 70);
    plan.join(2, 0, 80);
    plan.occupy(0, 50, 20);
    const auto sheet = [](uint32_t room) { return Sheet{1, {3, 5}, {none, 150 + room, none, 80 + room, none, room}}; };
    gives("alone", plan, {30, 0, 1, 0, 0}, sheet(100), {0, 0, 270, 0, 2});
    gives("not alone", plan, {29, 0, 1, 0, 0}, sheet(50), {0, 0, 220, 0, 2});
    gives("alone, with less room", plan, {30, 0, 1, 0, 0}, sheet(50), {19});
    gives("not alone, with more room", plan, {29, 0, 1, 0, 0}, sheet(100), {18, 5});
    const Sheet other_way{1, {4, 2}, {250, none, 100, none, 170, none}};
    gives("the other way", plan, {30, 0, 0, 0, 1}, other_way, {0, 0, 300, 0, 2});
    gives("the other way, the first label", plan, {30, 0, 0, 0, 1}, with_labels(other_way, {{0, 251}}), {18, 0});
}

void label_lengths() {
    for (size_t entries : {0, 1, 5, 9, 11, 20, 2048})
        for (uint32_t claim : {0u, 1u, 2u}) {
            List labels = sheet_y.labels;
            labels.resize(entries, none);
            gives("labels of another length", yard_y, asked, {claim, {2, 5}, labels}, {11});
            gives("labels of another length, no list", yard_y, asked, {claim, {}, labels}, {11});
        }
}

// Each earlier refusal alone.
void earlier_refusals() {
    for (const FaultyQuery &fault : query_faults())
        refuses(fault.what, fault.plan, fault.query, fault.number, fault.place);
}

// The refusals from the last to the first: each fault is added to those before it, and its number takes over.
void order() {
    Plan plan = yard_y;
    Query query = asked;
    Sheet sheet = sheet_y;
    gives("nothing wrong", plan, query, sheet, accepted_y);
    sheet.labels[6] = 3999;
    gives("19", plan, query, sheet, {19});
    sheet.labels[5] = 2501;
    gives("18 before 19", plan, query, sheet, {18, 5});
    sheet.list = {2};
    gives("17 before 18, no walk", plan, query, sheet, {17});
    sheet.claim = 0;
    gives("17 before 18, a list with no route", plan, query, sheet, {17});
    sheet.claim = 2;
    gives("17 before 18, no such claim", plan, query, sheet, {17});
    sheet.labels.pop_back();
    gives("11 before 17", plan, query, sheet, {11});
    for (const FaultyQuery &fault : added_query_faults(plan))
        refuses(fault.what, fault.plan, fault.query, fault.number, fault.place);
}

// What the search answers, as a sheet.
struct Found {
    SheetAnswer answer;
    Sheet sheet;

    bool passes() const { return answer.refusal == 0 || answer.refusal == 12; }
};

Found found(const Plan &plan, const Query &query) {
    List route(FINDER_STEPS_MOST), labels(2 * plan.count());
    const finder_answer a = finder_search(plan.points, plan.sections.data(), plan.sections.size(), plan.turns.data(),
                                          plan.turns.size(), query.length, query.start, query.start_end, query.finish,
                                          query.finish_end, route.data(), route.size(), labels.data(), labels.size());
    route.resize(a.steps);
    return {answered(a), {a.refusal == 0, route, labels}};
}

// The two meet: the check accepts what the search answers, with the same numbers, or zeros for no route.
void meets(const std::string &what, const Plan &plan, const Rules &rules, const Found &search) {
    SheetAnswer accepted = search.answer;
    accepted.refusal = 0;
    expect(what + ", the search's own sheet", call(plan, rules.query, search.sheet), accepted);
    expect(what + ", the search's own sheet (second program)", second::check_claim(rules, search.sheet), accepted);
}

// How often the random plans gave each refusal; how many answers of the search met the check; and for each damage, how many
// of its sheets were accepted and how many refused.
struct Met {
    uint32_t sheets = 0, walks = 0, no_routes = 0, other_shortest = 0, longer = 0;
    std::map<uint32_t, uint32_t> refusals;
    std::array<uint32_t, damages> accepted{}, refused{};
};

// The library against the second program.
void compare(const std::string &what, const Plan &plan, const Query &query, const Sheet &sheet,
             const SheetAnswer &expected, Met &met) {
    expect(what, call(plan, query, sheet), expected);
    met.sheets++;
    met.refusals[expected.refusal]++;
}

// The same for a query that passes 1 to 10, whose steps are listed once for many sheets.
SheetAnswer compare(const std::string &what, const Plan &plan, const Rules &rules, const Sheet &sheet, Met &met) {
    const bool right_length = sheet.labels.size() == rules.arrivals();
    const SheetAnswer expected = right_length ? second::check_claim(rules, sheet) : SheetAnswer{11};
    compare(what, plan, rules.query, sheet, expected, met);
    return expected;
}

// With any shortest walk the sheet is accepted.
void shortest(const std::string &what, Draw &draw, const Plan &plan, const Rules &rules, const Found &search,
              Met &met) {
    Sheet sheet = search.sheet;
    sheet.list = draw_shortest(draw, rules, sheet.labels);
    const SheetAnswer answer = compare(what + ", a shortest walk", plan, rules, sheet, met);
    if (answer.refusal != 0 || answer.total != search.answer.total) fail(what + ": a shortest walk is refused");
    met.other_shortest += sheet.list != search.sheet.list;
}

// One sheet of each damage, and every second one of another damage too.
void damaged(const std::string &what, Draw &draw, const Plan &plan, const Rules &rules, const Sheet &sheet,
             const Sheet &another, Met &met) {
    for (size_t i = 0; i < damages; i++) {
        Sheet wrong = sheet;
        damage_sheet(draw, static_cast<Damage>(i), rules, another, wrong);
        const SheetAnswer answer = compare(what + ", " + std::string(damage_words[i]), plan, rules, wrong, met);
        (answer.refusal == 0 ? met.accepted : met.refused)[i]++;
        met.longer += i == walk_at_random && answer.refusal == 19;
        if (wrong.labels.size() != sheet.labels.size() || draw.one_in(2)) continue;
        damage_sheet(draw, static_cast<Damage>(draw.below(damages)), rules, another, wrong);
        compare(what + ", two damages", plan, rules, wrong, met);
    }
}

void compare_query(const std::string &what, Draw &draw, const Plan &plan, const Query &query, const Sheet &another,
                   PullOuts &pull_outs, Met &met) {
    const Found search = found(plan, query);
    if (!search.passes()) {
        const SheetAnswer expected = second::check_sheet(plan, query, another, pull_outs);
        return compare(what + ", a query that is refused", plan, query, another, expected, met);
    }
    const Rules rules(plan, query, pull_outs);
    meets(what, plan, rules, search);
    met.walks += search.answer.refusal == 0;
    met.no_routes += search.answer.refusal == 12;
    if (search.answer.refusal == 0) shortest(what, draw, plan, rules, search, met);
    damaged(what, draw, plan, rules, search.sheet, another, met);
}

// The sheets are worth comparing: they meet every refusal, and every damage is refused in some sheet. What they met is
// printed with how often.
void enough(const Met &met) {
    const auto some = [](const std::string &what, uint32_t times) {
        std::printf(" %s: %u", what.c_str(), times);
        if (times > 0) return;
        std::puts("");
        fail("the random plans never met this");
    };
    std::printf("sheet_test: the search and the check met;");
    some("walks", met.walks);
    some("no route", met.no_routes);
    std::printf("\nsheet_test: %u other sheets, by refusal", met.sheets);
    auto refusals = met.refusals;
    for (uint32_t number : {0, 1, 2, 3, 4, 5, 6, 7, 8, 9, 10, 11, 17, 18, 19})
        some(std::to_string(number), refusals[number]);
    some("\n  shortest walks other than the first", met.other_shortest);
    some("\n  walks that are longer", met.longer);
    std::printf("\n  refused, and accepted all the same:\n");
    for (size_t i = 0; i < damages; i++) {
        some("  " + std::string(damage_words[i]), met.refused[i]);
        std::printf(", %u\n", met.accepted[i]);
    }
}

void against_second_program() {
    Met met;
    for (uint32_t seed = 1; seed <= 300 && !failed; seed++) {
        const std::string what = "the second program, seed " + std::to_string(seed);
        Draw draw(seed);
        const bool tiny = seed % 2 == 0;
        Drawn drawn = draw_yard(draw, tiny ? 3 + draw.below(4) : 7 + draw.below(6));
        PullOuts pull_outs(drawn.plan);
        Sheet another{1, {}, List(2 * drawn.plan.count(), 0)};
        for (uint32_t i = 0; i < 5; i++) {
            const Query query = draw_query(draw, drawn);
            compare_query(what, draw, drawn.plan, query, another, pull_outs, met);
            if (const Found search = found(drawn.plan, query); search.passes()) another = search.sheet;
        }
        const Query query = draw_query(draw, drawn);
        damage_plan(draw, drawn.plan);
        PullOuts of_damaged(drawn.plan);
        compare_query(what, draw, drawn.plan, query, another, of_damaged, met);
    }
    if (!failed) enough(met);
}

// As many points, sections and labels as there can be: the search's own sheets, and one damage to each.
void largest() {
    Met met;
    for (uint32_t seed = 1; seed <= 16 && !failed; seed++) {
        const std::string what = "a ring with chords, seed " + std::to_string(seed);
        Draw draw(seed);
        const Drawn drawn = draw_largest(draw);
        const uint32_t length = std::min(drawn.stock(), 1 + draw.below(3)), start_end = draw.below(2),
                       finish_end = draw.below(2);
        const Query query{length, drawn.x, start_end, drawn.y, finish_end};
        const Found search = found(drawn.plan, query);
        if (!search.passes()) continue;
        PullOuts pull_outs(drawn.plan);
        const Rules rules(drawn.plan, query, pull_outs);
        meets(what, drawn.plan, rules, search);
        Sheet wrong = search.sheet;
        damage_sheet(draw, static_cast<Damage>(draw.below(label_greatest)), rules, wrong, wrong);
        compare(what, drawn.plan, rules, wrong, met);
        met.walks += search.answer.refusal == 0;
    }
    std::printf("sheet_test: %u damaged sheets of rings with chords, 18: %u; %u walks\n", met.sheets, met.refusals[18],
                met.walks);
    if (met.walks < 5 || met.refusals[18] < 5) fail("too few sheets of rings with chords");
}

} // namespace

int main() {
    yard_y_sheets();
    label_rules();
    claims();
    no_walks();
    no_steps();
    no_route();
    over_the_finish_section();
    longer_walks();
    past_32_bits();
    other_shortest_walks();
    back_to_the_start();
    label_lengths();
    earlier_refusals();
    order();
    largest();
    against_second_program();
    std::puts(failed ? "sheet_test: failed" : "sheet_test: good");
    return failed;
}

// Wrong finders, each named after its error, and the run that has to catch every one of them.
#pragma once
#include "kinds.h"
#include "wrong_lessons.h"
#include "wrong_plans.h"
#include "wrong_pull_outs.h"
#include "wrong_readers.h"
#include "wrong_searches.h"
#include "wrong_sheets.h"

struct Mutant {
    std::string_view name;
    Finder finder;
};

template <auto wrong> Finder plan_finder() { return {.check_plan = as_check_plan<wrong>}; }
template <auto wrong> Finder search_finder() { return {.search = as_search<wrong>}; }
template <auto wrong> Finder pull_out_finder() { return {.pull_out = as_pull_out<wrong>}; }
template <auto wrong> Finder sheet_finder() { return {.check_sheet = as_check_sheet<wrong>}; }
template <auto wrong> Finder file_finder() { return {.read_yard = as_read_yard<wrong>}; }

inline const std::vector<Mutant> &mutants() {
    using namespace wrong;
    static const std::vector<Mutant> all{
        {"plan: 3 before 2", plan_finder<three_before_two>()},
        {"plan: place of the highest offender", plan_finder<highest_place>()},
        {"plan: place of the earlier section", plan_finder<earlier_section>()},
        {"plan: a sum of free lengths wraps", plan_finder<sum_wraps>()},
        {"plan: always passes", plan_finder<always_passes>()},
        {"search: one distance per point", search_finder<one_distance_per_point>()},
        {"search: end over y accepted", search_finder<search_without<second::end_not_over_y>>()},
        {"search: steps onto y", search_finder<search_without<second::not_y>>()},
        {"search: steps back over the same section", search_finder<search_without<second::another_section>>()},
        {"search: steps onto occupied sections", search_finder<search_without<second::free_section>>()},
        {"search: start section not occupied", search_finder<start_not_occupied>()},
        {"search: runs on over a forbidden turn", search_finder<search_without<second::reversal>>()},
        {"search: reversal without a pull-out", search_finder<search_without<second::with_pull_out>>()},
        {"search: reversal without L in its cost", search_finder<search_without<second::costs_L>>()},
        {"search: pull-out bends onto s", search_finder<search_without<second::pull_out_not_over_s>>()},
        {"search: highest section first", search_finder<highest_section_first>()},
        {"search: room of y = x as it stands", search_finder<room_as_it_stands>()},
        {"search: 12 leaves the labels", search_finder<twelve_leaves_labels>()},
        {"search: 14 writes the labels", search_finder<fourteen_writes_labels>()},
        {"search: makes up reversals", search_finder<makes_up_reversals>()},
        {"search: copies the first step", search_finder<copies_the_first_step>()},
        {"search: clears the rest of the route", search_finder<clears_the_rest_of_the_route>()},
        {"search: leaves the buffers as found", search_finder<leaves_the_buffers>()},
        {"search: always 12", search_finder<always_twelve>()},
        {"pull-out: stops at the first too short", pull_out_finder<stops_at_the_first>()},
        {"pull-out: bends onto s", pull_out_finder<pull_out_without<second::none_is_s>>()},
        {"pull-out: over c", pull_out_finder<pull_out_without<none_is_c>>()},
        {"pull-out: passes a point twice", pull_out_finder<pull_out_without<none_twice, points_differ>>()},
        {"pull-out: points 16 apart have one mark", pull_out_finder<two_points_one_mark<16>>()},
        {"pull-out: points 32 apart have one mark", pull_out_finder<two_points_one_mark<32>>()},
        {"pull-out: over a section twice", pull_out_finder<pull_out_without<none_twice>>()},
        {"pull-out: through occupied sections", pull_out_finder<pull_out_without<but_the_last_free>>()},
        {"pull-out: over forbidden turns", pull_out_finder<pull_out_without<no_forbidden_turn>>()},
        {"pull-out: forbidden turn holds one way only", pull_out_finder<turn_holds_one_way>()},
        {"pull-out: free length from the far end", pull_out_finder<free_from_the_far_end>()},
        {"pull-out: highest section first", pull_out_finder<highest_section_first_out>()},
        {"pull-out: learns without the mark that was met", pull_out_finder<learns<Error::mark_left_out>>()},
        {"pull-out: learns without a section's length", pull_out_finder<learns<Error::length_left_out>>()},
        {"pull-out: learns from two sections of three", pull_out_finder<learns<Error::third_left_out>>()},
        {"pull-out: learns for any section come over", pull_out_finder<learns<Error::any_arrival>>()},
        {"pull-out: learns of points below 32 only", pull_out_finder<learns<Error::first_points_only>>()},
        {"pull-out: learns to end what is allowed", pull_out_finder<learns<Error::as_much_as_it_allows>>()},
        {"sheet: any label at an end", sheet_finder<sheet_without<second::end_label>>()},
        {"sheet: any label before a step", sheet_finder<sheet_without<second::step_label>>()},
        {"sheet: start label compared with <=", sheet_finder<sheet_without<second::start_label_equal>>()},
        {"sheet: none as a number", sheet_finder<sheet_without<second::none_is_above>>()},
        {"sheet: place of the highest arrival", sheet_finder<highest_arrival>()},
        {"sheet: accepts any walk", sheet_finder<accepts_any_walk>()},
        {"sheet: never accepts", sheet_finder<never_accepts>()},
        {"reader: length judged after order", file_finder<length_after_order>()},
        {"reader: writes on 14", file_finder<writes_on_14>()},
        {"reader: a last field may be cut short", file_finder<drops_a_cut_field>()},
        {"reader: place behind the bad field", file_finder<behind_the_bad_field>()},
    };
    return all;
}

// So many cases are tried at most.
constexpr uint64_t mutant_cases = 40000;

// The case at which a finder is caught, or 0.
inline uint64_t caught_at(const Mutant &mutant, uint64_t seed) {
    Run run(mutant.finder);
    try {
        for (uint64_t number = 0; run.cases() < mutant_cases; number++) yard_cases(run, seed, number);
    } catch (const Difference &d) {
        std::printf("mutant %s: caught at case %ju (%s, %s)\n", std::string(mutant.name).c_str(),
                    static_cast<uintmax_t>(d.number), d.where.c_str(), d.what.c_str());
        return d.number;
    }
    std::printf("mutant %s: NOT caught in %ju cases\n", std::string(mutant.name).c_str(),
                static_cast<uintmax_t>(run.cases()));
    return 0;
}

inline void passes_cases(const char *whose, const Finder &finder, uint64_t seed, uint64_t cases) {
    Run run(finder);
    for (uint64_t number = 0; run.cases() < cases; number++) yard_cases(run, seed, number);
    std::printf("%s passes the same %ju cases\n", whose, static_cast<uintmax_t>(run.cases()));
}

// The library itself passes the cases that catch the wrong finders, and so does a learner without an error: it is the errors
// that are caught.
inline bool all_mutants_caught(uint64_t seed) {
    uint64_t last = 0, caught = 0;
    for (const Mutant &mutant : mutants()) {
        const uint64_t at = caught_at(mutant, seed);
        caught += at > 0;
        last = std::max(last, at);
    }
    passes_cases("the library", {}, seed, last);
    passes_cases("a learner without an error", pull_out_finder<wrong::learns<wrong::Error::none>>(), seed, last);
    if (caught < mutants().size()) return false;
    std::printf("%zu mutants, all caught\n", mutants().size());
    return true;
}

/* Every function of finder.h called from C99, on document 01's yard Y and its loop. */
#include "finder.h"
#include <stdio.h>
#include <string.h>

static const uint32_t yard_y[FINDER_SECTIONS_LEN(5)] = {0, 1, 3000, 1, 3000, 3000, //
                                                        1, 2, 400,  0, 400,  400,  //
                                                        1, 3, 500,  0, 500,  500,  //
                                                        2, 4, 2000, 1, 100,  1300, //
                                                        3, 5, 2500, 1, 2500, 2500};
static const uint32_t loop[FINDER_SECTIONS_LEN(4)] = {0, 1, 300, 1, 300, 300, //
                                                      0, 3, 100, 0, 100, 100, //
                                                      0, 2, 200, 0, 200, 200, //
                                                      1, 2, 300, 1, 300, 300};
static const uint32_t turns[FINDER_TURNS_LEN(1)] = {1, 2};

static int failed = 0;

static void demand(int holds, const char *what) {
    if (holds) return;
    failed = 1;
    printf("c99_test: %s\n", what);
}

static int is(finder_answer a, uint32_t refusal, uint32_t total, uint32_t reversals, uint32_t steps) {
    return a.refusal == refusal && a.place == 0 && a.total == total && a.reversals == reversals && a.steps == steps;
}

static void search_and_sheet(void) {
    uint32_t route[FINDER_ROUTE_LEN(5)] = {0}, labels[FINDER_LABELS_LEN(5)] = {0};
    finder_answer found = finder_search(6, yard_y, FINDER_SECTIONS_LEN(5), turns, FINDER_TURNS_LEN(1), 600, 3, 0, 4, 0,
                                        route, FINDER_ROUTE_LEN(5), labels, FINDER_LABELS_LEN(5));
    finder_answer judged;
    demand(is(found, FINDER_OK, 4100, 1, 2) && route[0] == 2 && route[1] == 5, "the route of yard Y");
    demand(labels[0] == FINDER_NONE && labels[6] == 4000, "the labels of yard Y");
    judged = finder_check_sheet(6, yard_y, FINDER_SECTIONS_LEN(5), turns, FINDER_TURNS_LEN(1), 600, 3, 0, 4, 0, 1,
                                route, found.steps, labels, FINDER_LABELS_LEN(5));
    demand(is(judged, FINDER_OK, 4100, 1, 2), "the sheet of yard Y");
}

static void yard_file(void) {
    static const uint8_t file[] = {1, 0, 2, 0, 6, 3, 0, 4, 0, 1, 0, 2};
    uint32_t sections[1], read_turns[FINDER_TURNS_LEN(1)], queries[1];
    finder_yard yard = finder_read_yard(file, sizeof file, sections, 1, read_turns, 2, queries, 1);
    demand(yard.refusal == FINDER_OK && yard.points == 6 && yard.sections == 0 && yard.turns == 1 && yard.queries == 0,
           "a yard file");
    demand(memcmp(read_turns, turns, sizeof turns) == 0, "the turn of a yard file");
}

int main(void) {
    uint32_t list[FINDER_PULL_OUT_LEN(4)] = {0};
    finder_pull pulled = finder_pull_out(4, loop, FINDER_SECTIONS_LEN(4), turns, FINDER_TURNS_LEN(1), 600, 2, 2, list,
                                         FINDER_PULL_OUT_LEN(4));
    demand(pulled.refusal == FINDER_OK && pulled.count == 2 && list[0] == 0 && list[1] == 3,
           "the pull-out of the loop");
    demand(finder_version() == FINDER_VERSION, "the version of the library");
    demand(is(finder_check_plan(6, yard_y, FINDER_SECTIONS_LEN(5), turns, FINDER_TURNS_LEN(1)), FINDER_OK, 0, 0, 0),
           "the plan of yard Y");
    search_and_sheet();
    yard_file();
    puts(failed ? "c99_test: failed" : "c99_test: good");
    return failed;
}

/* finder.h: the route finder for railway yards, for C99 and C++.
 *
 * Link libfinder.a, an archive for x86-64 that needs memcpy and memset and nothing else. finder.hpp has the same for C++20.
 *
 * How to call
 *   Arguments    Every function checks its arguments itself: any numbers may be handed in, and any lengths. A table or buffer is a
 *                pointer and a number of entries; a null pointer goes with 0 entries. What is lent as const is read and never
 *                written.
 *   Answers      A struct of numbers, by value. `refusal` is FINDER_OK or says why the call was refused, `place` where; with a
 *                refusal every other number is 0, and the buffers hold what they held before (but for number 12, see finder_search).
 *   Lifetime     Buffers are lent for the call alone: no pointer is kept, nothing is allocated, nothing is to be freed.
 *   Aliasing     A buffer that is written must not overlap another buffer or a table of the same call. Tables that are only read
 *                may overlap.
 *   Threads      There is no state, hidden or global: calls may run at the same time in several threads, as long as no buffer that
 *                one of them writes is used by another. FINDER_STACK_MOST bytes of stack are enough for any call.
 *   Time         Every call returns. finder_search, finder_pull_out and finder_check_sheet look for pull-outs, which on some plans
 *                takes very long: docs/LIMITS.md.
 *
 * The plan
 *   points       how many points there are, 1 to 768; they are numbered from 0
 *   sections     six numbers for each section, 1 to 1,024 sections, numbered from 0:
 *                end A, end B     two different points
 *                length           1 to 200,000 decimetres
 *                kind             0 connecting, 1 destination
 *                free length from A, free length from B
 *                                 both the length where nothing stands there, else together less than the length; both 0 where
 *                                 the section is locked
 *   turns        two section numbers for each forbidden turn, at most 768 turns: two different connecting sections that share a
 *                point. It holds both ways, and a point has one at most
 *   No two sections join the same two points, and 1, 2 or 3 sections meet at a point.
 *
 * Words
 *   arrival      2 s is "over section s to its end A", 2 s + 1 "over section s to its end B"
 *   step         from an arrival at a point over another section there and on to that section's far end. The section is free and is
 *                neither the start nor the finish section. Where the turn is not forbidden the train runs on, and the step costs the
 *                section's length; where it is, the train reverses, which needs a pull-out and costs the train's length more
 *   pull-out     sections in a row from the point on, over which a train draws clear of the point before it goes back: see
 *                finder_pull_out
 *   walk         steps from the arrival by which the train leaves its start section to one at the finish point over another section
 *                than the finish section; there may be none
 *   finish room  the free length of the finish section from the finish end. Where the train goes back to its start section and
 *                nothing else stands there, it is the whole length
 *   total        of a walk: the free length of the start section from the start end, the costs of the steps, and the finish room
 *   label        of an arrival: its remaining distance, the least sum of costs and finish room from there, or FINDER_NONE
 *
 * "Proved" below names the theorems: their statements are checked by the prover for all arguments. What is not proved, the compiler's
 * back end and the C side among it, stands in docs/LIMITS.md.
 */
#ifndef FINDER_H
#define FINDER_H

#include <stddef.h>
#include <stdint.h>

#ifdef __cplusplus
extern "C" {
#endif

/* The version that this header belongs to: 10000 major + 100 minor + patch. */
#define FINDER_VERSION_MAJOR 1
#define FINDER_VERSION_MINOR 0
#define FINDER_VERSION_PATCH 0
#define FINDER_VERSION 10000

/* Limits of a plan, of a train, and of a yard file. */
#define FINDER_POINTS_MOST 768
#define FINDER_SECTIONS_MOST 1024
#define FINDER_TURNS_MOST 768
#define FINDER_LENGTH_MOST 200000
#define FINDER_TRAIN_MOST 20000
#define FINDER_QUERIES_MOST 256
/* There are two arrivals for each section, and so many labels. */
#define FINDER_ARRIVALS_MOST 2048
/* A walk that is handed out has at most so many steps. */
#define FINDER_STEPS_MOST 2048
/* A pull-out has at most so many sections: each is entered at a point of its own. */
#define FINDER_PULL_OUT_MOST 768
/* The label of an arrival from which no walk leads on; above all numbers. */
#define FINDER_NONE 4294967295u

/* No call takes more bytes of stack than this, whatever it is handed in. Measured and not proved; docs/LIMITS.md has what each call
 * takes, and the command that measures it fails above this number. */
#define FINDER_STACK_MOST 900000

/* How many numbers a section, a turn and a query have in their tables. */
#define FINDER_SECTION_WIDTH 6
#define FINDER_TURN_WIDTH 2
#define FINDER_QUERY_WIDTH 5

/* How many entries a table of so many rows has. */
#define FINDER_SECTIONS_LEN(sections) (FINDER_SECTION_WIDTH * (sections))
#define FINDER_TURNS_LEN(turns) (FINDER_TURN_WIDTH * (turns))
#define FINDER_QUERIES_LEN(queries) (FINDER_QUERY_WIDTH * (queries))
/* How many entries the label buffer has for a plan of so many sections: exactly so many. */
#define FINDER_LABELS_LEN(sections) (2 * (sections))
/* How many entries of a route buffer are always enough for a plan of so many sections (theorem few_steps in
 * crates/rules/proofs/Simple.antt: a shortest walk has fewer steps than there are arrivals). */
#define FINDER_ROUTE_LEN(sections) (2 * (sections))
/* How many entries of a list are always enough for a pull-out in a plan of so many points. */
#define FINDER_PULL_OUT_LEN(points) (points)

/* Why a call is refused. Each number comes with a place, 0 where none is named here; the first number that applies is
 * given, at its lowest place. */
enum finder_refusal {
    FINDER_OK = 0,            /* not refused */
    FINDER_TABLES = 1,        /* a count is out of range, or a table is not made of whole rows */
    FINDER_SECTION = 2,       /* a section breaks its own rule; place: the section */
    FINDER_SAME_POINTS = 3,   /* it joins the same two points as an earlier section; place: the section */
    FINDER_POINT = 4,         /* a point has no section or more than three; place: the point */
    FINDER_TURN = 5,          /* not two different connecting sections that share a point; place: the turn */
    FINDER_SECOND_TURN = 6,   /* an earlier turn has the same point; place: the turn */
    FINDER_TRAIN = 7,         /* the train's length is not 1 to 20,000 */
    FINDER_START = 8,         /* start: no such section or end, a connecting section, or the train does not stand there */
    FINDER_FINISH = 9,        /* finish: no such section or end, a connecting section, or the start's section and end */
    FINDER_FINISH_ROOM = 10,  /* the finish room is less than the train's length */
    FINDER_LABELS = 11,       /* the label buffer has not two entries for each section */
    FINDER_NO_ROUTE = 12,     /* there is no admissible walk */
    FINDER_STEPS = 13,        /* the walk would have more than 2,048 steps; never given */
    FINDER_ROOM = 14,         /* the answer has more entries than a lent buffer */
    FINDER_NO_TURN = 15,      /* pull-out: no such arrival or section, or no forbidden turn between them at the arrival's point */
    FINDER_NO_PULL_OUT = 16,  /* there is no pull-out */
    FINDER_CLAIM = 17,        /* sheet: the claim is not 0 or 1, 0 comes with a list, or 1 with a list that is no admissible walk */
    FINDER_LABEL_RULE = 18,   /* sheet: a label breaks a label rule; place: the arrival */
    FINDER_START_LABEL = 19,  /* sheet: the start label is not what the claim makes it */
    FINDER_FILE = 20          /* yard file: malformed; place: the byte at which the first bad field begins */
};

/* The version of the library that is linked: FINDER_VERSION where header and library belong together.
 * Proved: it is the number in crates/finder/specs/Version.antt (finder_version's contract in crates/finder/src/lib.rt). */
uint32_t finder_version(void);

/* The answer of a check or a search. With a refusal every number but its own and the place is 0. */
typedef struct {
    uint32_t refusal, place, total, reversals, steps;
} finder_answer;

/* Checks a plan.
 * Refusals, in this order:
 *   1      points is not 1 to 768, sections_len is not six times 1 to 1,024, or turns_len is not twice 0 to 768
 *   2      a section breaks its own rule: its ends are not two different points of the plan, or its length, its kind or its free
 *          lengths are not as said at the head of this file. Place: the section
 *   3      a section joins the same two points as an earlier one, either way round. Place: the later section
 *   4      a point has no section, or more than three. Place: the point
 *   5      a turn: a section number is out of range, both are the same, one is a destination, or they share no point. Place: the turn
 *   6      a turn is at the same point as an earlier one. Place: the later turn
 * Afterwards: nothing is written. A plan that passes gets zeros throughout.
 * The time grows linearly with the number of sections where no point has more than three.
 * Proved: the answer is an equation, the first of the checks 1 to 6 that fails, at its lowest place, for all numbers and all table
 * lengths (finder_check_plan's contract in crates/finder/src/lib.rt; definition plan_checks in crates/rules/specs/PlanCheck.antt). */
finder_answer finder_check_plan(uint32_t points, const uint32_t *sections, size_t sections_len, const uint32_t *turns,
                                size_t turns_len);

/* Finds the shortest admissible walk of one train from its start to its finish, reversals included: of all shortest walks
 * the one whose list of section numbers is smallest, compared from the start; and the remaining distance of every arrival.
 *   length      the train's length, 1 to 20,000 decimetres
 *   start       the section on which the train stands, a destination; the train is the stock nearest the start end
 *   start_end   the end by which it leaves, 0 for A, 1 for B
 *   finish      the section that it is to enter, a destination
 *   finish_end  the end by which it enters, 0 for A, 1 for B
 *   route       for the arrivals of the walk; FINDER_ROUTE_LEN(sections) entries are always enough, and so are FINDER_STEPS_MOST
 *   labels      for the labels of all arrivals; exactly FINDER_LABELS_LEN(sections) entries
 * Refusals, in this order:
 *   1 to 6      as in finder_check_plan, with their places; all others have place 0
 *   7           length is not 1 to 20,000
 *   8           start or start_end is out of range, the section is connecting, or less than the length stands there
 *   9           finish or finish_end is out of range, the section is connecting, or both are those of the start
 *   10          the finish room is less than the length
 *   11          labels_len is not twice the number of sections
 *   12          there is no admissible walk
 *   13          the walk has more than 2,048 steps; this is never given
 *   14          the walk has more steps than route_len
 * Afterwards:
 *   success     the front of route holds the arrivals, one for each step, without that of the start, and the rest of it is kept; entry a
 *               of labels is the label of arrival a, for every arrival. The answer has the total in decimetres, the number of reversals
 *               and the number of steps, which may be 0
 *   12          labels are written as on success; route is kept
 *   all others  both buffers are kept
 * It looks for pull-outs and takes up to 0.78 MB of stack; what holds of finder_pull_out's time holds here too, docs/LIMITS.md.
 * Proved, with finder_search's contract in crates/finder/src/lib.rt, in crates/rules/proofs:
 *   a walk handed out is admissible, none is shorter, and among equals it is the first by section numbers (handed_out_walk,
 *   handed_out_shortest, handed_out_first); total, reversals and steps are its own (handed_out_numbers); 12 is given exactly when 1 to 11
 *   are not and no admissible walk exists (twelve_none, none_twelve); the labels are the remaining distances (labels_right); 13 is never
 *   given (never_13); the answer and every entry of both buffers are determined (answer_unique). */
finder_answer finder_search(uint32_t points, const uint32_t *sections, size_t sections_len, const uint32_t *turns,
                            size_t turns_len, uint32_t length, uint32_t start, uint32_t start_end, uint32_t finish,
                            uint32_t finish_end, uint32_t *route, size_t route_len, uint32_t *labels,
                            size_t labels_len);

/* The answer of a pull-out: the number of sections written. With a refusal it is 0. */
typedef struct {
    uint32_t refusal, place, count;
} finder_pull;

/* Finds the pull-out by which a train of this length, arrived over a section c at a point, reverses onto another section s there: of
 * all pull-outs the one whose list of section numbers is smallest. The tables are taken as they stand.
 * A pull-out is a list of sections, one or more. The first is entered at the point, each next one at the far end of the one before; no
 * turn is forbidden, that from c into the first included; all but the last are free; none is c or s, and none occurs twice; the points at
 * which they are entered all differ. All but the last are together shorter than the train, and with the last one's free length from
 * its entry they take it.
 *   length     the train's length, 1 to 20,000 decimetres
 *   arrival    the arrival from which the train reverses, over c
 *   section    s, the section onto which it is to go
 *   list       for the section numbers; FINDER_PULL_OUT_LEN(points) entries are always enough, and so are FINDER_PULL_OUT_MOST
 * Refusals, in this order:
 *   1 to 6     as in finder_check_plan, with their places; all others have place 0
 *   7          length is not 1 to 20,000
 *   15         arrival or section is out of range, or c to s is no forbidden turn at the arrival's point
 *   16         there is no pull-out
 *   14         the pull-out has more sections than list_len
 * Afterwards: on success the front of list holds the section numbers, from the point outwards, and the rest of it is kept; the answer
 * has their count. A refused call keeps the list.
 * It takes up to 0.72 MB of stack, and on some plans its time is not bounded by anything useful: docs/LIMITS.md.
 * Proved: what is found is a pull-out and the first one; 16 is given exactly when 1 to 7 and 15 are not and there is none; the answer and
 * every entry of the list are determined (finder_pull_out's contract in crates/finder/src/lib.rt; definition PullAnswer in
 * crates/rules/specs/PullAnswer.antt; theorems first_pull_unique and pull_unique in crates/rules/proofs/PullAnswers.antt). */
finder_pull finder_pull_out(uint32_t points, const uint32_t *sections, size_t sections_len, const uint32_t *turns,
                            size_t turns_len, uint32_t length, uint32_t arrival, uint32_t section, uint32_t *list,
                            size_t list_len);

/* Checks a sheet: a claim about one query, with a label for each arrival as evidence. It never looks for a walk, only whether
 * what is claimed follows from the labels.
 *   length .. finish_end   the query, as in finder_search
 *   claim                  0: there is no route; 1: the list is a shortest admissible walk
 *   list                   the arrivals of the walk, as finder_search writes them; empty with claim 0. It may be of any length
 *   labels                 exactly FINDER_LABELS_LEN(sections) entries, FINDER_NONE where no walk leads on
 * Refusals, in this order:
 *   1 to 11                as in finder_search, with their places
 *   17                     the claim is neither 0 nor 1, comes with a list though it is 0, or with a list that is no admissible walk
 *                          though it is 1
 *   18                     a label breaks a rule: at an arrival where a walk may end it is at most the finish room; before an
 *                          admissible step it is at most the step's cost and the label after it, where FINDER_NONE is above all
 *                          numbers. Place: the lowest such arrival
 *   19                     with claim 1 the first distance and the start label are not the list's total; with claim 0 the start
 *                          label is not FINDER_NONE
 * Afterwards: nothing is written. An accepted walk gets its total, reversals and steps, an accepted "no route" zeros. No sum wraps.
 * It looks for pull-outs and takes up to 0.76 MB of stack; what holds of finder_pull_out's time holds here too, docs/LIMITS.md.
 * Proved, whoever wrote the sheet, with finder_check_sheet's contract in crates/finder/src/lib.rt, in crates/sheet/proofs/Demand.antt:
 *   an accepted list is a shortest admissible walk (accepted_is_shortest), and an accepted "no route" means that there is none
 *   (accepted_no_route); the remaining distances with any shortest walk (shortest_is_accepted), or with "no route" where there is none
 *   (no_route_is_accepted), are accepted, so what finder_search writes always is (search_is_accepted, search_without_route_is_accepted);
 *   the answer is determined (sheet_unique in crates/rules/proofs/SheetAnswers.antt). */
finder_answer finder_check_sheet(uint32_t points, const uint32_t *sections, size_t sections_len, const uint32_t *turns,
                                 size_t turns_len, uint32_t length, uint32_t start, uint32_t start_end, uint32_t finish,
                                 uint32_t finish_end, uint32_t claim, const uint32_t *list, size_t list_len,
                                 const uint32_t *labels, size_t labels_len);

/* The answer of the yard reader: the points, and how many sections, turns and queries were written. With a refusal the last four
 * are 0. */
typedef struct {
    uint32_t refusal, place, points, sections, turns, queries;
} finder_yard;

/* Reads a yard file into three lent tables. A file is a row of fields: a tag of one byte, a length of two, and so many bytes of numbers,
 * all of them big-endian.
 *   tag 1   once and first: the number of points (2 bytes)
 *   tag 2   a section: end A, end B (2 each), length (4), kind (1), free length from A, from B (4 each); at most 1,024
 *   tag 3   a forbidden turn: two section numbers (2 each); at most 768
 *   tag 4   a query: length (4), start (2), start_end (1), finish (2), finish_end (1); at most 256
 * Tags never fall.
 *   file       any bytes
 *   sections   for six numbers a section, as finder_search takes them
 *   turns      for two numbers a forbidden turn
 *   queries    for five numbers a query: length, start, start_end, finish, finish_end
 * FINDER_SECTIONS_LEN(FINDER_SECTIONS_MOST), FINDER_TURNS_LEN(FINDER_TURNS_MOST) and FINDER_QUERIES_LEN(FINDER_QUERIES_MOST) entries are
 * always enough.
 * Refusals, in this order:
 *   20         a field is cut short, unknown, of wrong length, out of order or too many. Place: the byte at which the first such field
 *              begins; 0 for an empty file
 *   14         a table is too short; place 0
 * Afterwards: on success the front of each table holds its rows, in the order of the file, and the rest is kept; the answer has the
 * points and the three counts of rows. A refused call keeps all three tables. Only the form is judged: a plan that was read may still be
 * refused by the other functions.
 * Proved: the answer and every entry of the tables are what the definition read in crates/rules/specs/YardFile.antt says
 * (finder_read_yard's contract in crates/finder/src/lib.rt; theorem answers_unique in crates/yardfile/proofs/Unique.antt). */
finder_yard finder_read_yard(const uint8_t *file, size_t file_len, uint32_t *sections, size_t sections_len,
                             uint32_t *turns, size_t turns_len, uint32_t *queries, size_t queries_len);

#ifdef __cplusplus
}
#endif

#endif

// Yards for measuring the search, by size. Lengths are those of real yards, in decimetres: connecting sections of 200 to 1,500,
// destinations of 3,000 to 7,000. All numbers are drawn with fixed seeds.
#pragma once
#include "../cpp/draw.h"
#include "../cpp/paper_yard.h"
#include <stdexcept>
#include <string>

// A way is a row of sections from switch to switch or to a dead end. The sections are laid once all ways are known, so that
// a yard can be given an exact number of points.
struct Way {
    uint32_t from, to, pieces;
    int destination; // which piece is a destination section, or -1
    uint32_t first_section = 0;

    uint32_t section_at(uint32_t point) const { return point == from ? first_section : first_section + pieces - 1; }
};

// Two ways that branch off at a switch: the turn between them is forbidden.
struct Fork {
    uint32_t point, one, other;
};

class Layout {
  public:
    explicit Layout(uint32_t seed) : draw(seed) {}

    uint32_t point() { return points++; }

    uint32_t link(uint32_t from, uint32_t to) { return way({from, to, 1, -1}); }
    // The switches at both ends need connecting sections for their forbidden turns.
    uint32_t track(uint32_t from, uint32_t to) { return way({from, to, 3, 1}); }
    uint32_t stub(uint32_t from) { return way({from, point(), 2, 1}); }

    void fork(uint32_t point, uint32_t one, uint32_t other) { forks.push_back({point, one, other}); }

    // Tracks side by side between two ladders of switches, from the point `left`; the point where the line goes on.
    uint32_t tracks(uint32_t left, uint32_t count) {
        uint32_t right = point();
        const uint32_t on = right;
        for (uint32_t i = 0; i + 2 < count; i++) {
            const uint32_t next_left = point(), next_right = point(), beside = track(left, right);
            fork(left, beside, link(left, next_left));
            fork(right, beside, link(right, next_right));
            left = next_left;
            right = next_right;
        }
        const uint32_t one = track(left, right), other = track(left, right);
        fork(left, one, other);
        fork(right, one, other);
        return on;
    }

    // Dead ends side by side on a ladder of switches that begins at the point `lead`.
    void dead_ends(uint32_t lead, uint32_t count) {
        for (uint32_t i = 0; i + 2 < count; i++) {
            const uint32_t next = point(), dead_end = stub(lead);
            fork(lead, dead_end, link(lead, next));
            lead = next;
        }
        const uint32_t one = stub(lead);
        fork(lead, one, stub(lead));
    }

    // A depot beside the line, entered from the side the line comes from or, facing back, from the side it goes to; the
    // point where the line goes on.
    uint32_t depot(uint32_t line, uint32_t count, bool facing_back) {
        const uint32_t at = point(), on = point(), lead = point();
        const uint32_t before = link(line, at), after = link(at, on), aside = link(at, lead);
        fork(at, aside, facing_back ? before : after);
        dead_ends(lead, count);
        return on;
    }

    // A loop at the end of the line, in which a train turns round.
    void balloon(uint32_t neck) {
        const uint32_t left = point(), right = point(), out = link(neck, left), back = link(right, neck);
        link(left, right);
        fork(neck, out, back);
    }

    // Ways drawn at random get one more section each until the plan has so many points.
    Plan lay(uint32_t points_wanted = 0) {
        uint32_t all = points;
        for (const Way &one : ways) all += one.pieces - 1;
        for (; all < points_wanted; all++) lengthen(ways[draw.below(static_cast<uint32_t>(ways.size()))]);
        Plan plan{points, {}, {}};
        for (Way &one : ways) lay_way(plan, one);
        for (const Fork &one : forks)
            plan.forbid(ways[one.one].section_at(one.point), ways[one.other].section_at(one.point));
        return plan;
    }

  private:
    uint32_t points = 0;
    std::vector<Way> ways;
    std::vector<Fork> forks;
    Draw draw;

    uint32_t way(Way one) {
        ways.push_back(one);
        return static_cast<uint32_t>(ways.size() - 1);
    }

    // The section is put before the destination or behind it; a dead end stays behind its destination.
    void lengthen(Way &one) {
        const bool dead_end = one.destination == static_cast<int>(one.pieces) - 1;
        one.pieces++;
        if (one.destination >= 0 && (dead_end || draw.below(2) == 0)) one.destination++;
    }

    void lay_way(Plan &plan, Way &one) {
        one.first_section = plan.count();
        uint32_t at = one.from;
        for (uint32_t i = 0; i < one.pieces; i++) {
            const bool destination = static_cast<int>(i) == one.destination, turned = draw.below(2) == 1;
            const uint32_t next = i + 1 == one.pieces ? one.to : plan.points++;
            const uint32_t length = destination ? draw.between(3000, 7000) : draw.between(200, 1500);
            plan.join(turned ? next : at, turned ? at : next, length, destination);
            at = next;
        }
    }
};

inline Plan document_003(uint32_t) { return paper_yard; }

// Groups of tracks in line, with depots beside the line in both directions; the line leaves the plan at both ends. Four groups
// make a yard of the size of Pardubice: 677 points, 710 sections, 100 switches, 34 dead ends.
inline Plan pardubice(uint32_t groups) {
    Layout yard(677);
    uint32_t line = yard.point();
    yard.stub(line);
    const struct {
        uint32_t dead_ends, tracks;
        bool facing_back;
    } parts[] = {{8, 10, true}, {10, 12, false}, {6, 9, true}, {8, 7, false}};
    for (uint32_t i = 0; i < groups; i++) {
        const uint32_t throat = yard.depot(line, parts[i].dead_ends, parts[i].facing_back);
        line = yard.tracks(throat, parts[i].tracks);
    }
    yard.stub(line);
    return yard.lay(677 * groups / 4);
}

// Dead ends on one ladder, behind a stretch of line that leaves the plan: three points for each and three more.
inline Plan ladder_depot(uint32_t count) {
    Layout yard(count);
    const uint32_t line = yard.point(), lead = yard.point();
    yard.stub(line);
    yard.link(line, lead);
    yard.dead_ends(lead, count);
    return yard.lay(3 * count + 3);
}

// The same behind a balloon. A run that goes round it comes back over points that it has passed: no pull-out, although it
// is long enough. So whether the first trains on the ladder can reverse is a harder question than elsewhere.
inline Plan balloon_depot(uint32_t count) {
    Layout yard(count);
    const uint32_t line = yard.point(), lead = yard.point();
    yard.balloon(line);
    yard.link(line, lead);
    yard.dead_ends(lead, count);
    return yard.lay(3 * count + 3);
}

// Groups of so many tracks in line, a stretch of line before each.
inline Plan groups_in_line(uint32_t count, uint32_t tracks) {
    Layout yard(100 * count + tracks);
    uint32_t line = yard.point();
    yard.stub(line);
    for (uint32_t i = 0; i < count; i++) {
        const uint32_t throat = yard.point();
        yard.link(line, throat);
        line = yard.tracks(throat, tracks);
    }
    yard.stub(line);
    return yard.lay();
}

inline Plan line_of_stations(uint32_t count) { return groups_in_line(count, 4); }
inline Plan passing_loops(uint32_t count) { return groups_in_line(count, 2); }

struct SearchFamily {
    const char *name;
    Plan (*yard)(uint32_t size);
    std::vector<uint32_t> sizes; // groups, dead ends, stations or loops
};

// The largest of each is close to the most points that a plan may have.
inline const std::vector<SearchFamily> search_families{
    {"document 003's yard", document_003, {1}},
    {"like Pardubice", pardubice, {1, 2, 4}},
    {"ladder depot", ladder_depot, {28, 84, 254}},
    {"ladder depot behind a balloon", balloon_depot, {28, 84, 254}},
    {"line of stations", line_of_stations, {6, 18, 54}},
    {"chain of passing loops", passing_loops, {14, 42, 126}},
};

inline const SearchFamily &family_named(const std::string &name) {
    for (const SearchFamily &family : search_families)
        if (family.name == name) return family;
    throw std::invalid_argument(name);
}

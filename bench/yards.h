// Yards for measuring pull-outs, by size. Each has point 0 with section 0 (c) to point 1 and section 1 (s) to point 2 and the
// forbidden turn between them; the rest of the yard hangs on point 0. Where a switch stands, the turn between its two
// branches is forbidden, as yards are built; the families without forbidden turns say so.
#pragma once
#include "../cpp/plan.h"
#include <algorithm>
#include <functional>
#include <random>
#include <string>

// A yard being built: sections of 20 decimetres unless stated, so that the longest run stays below the longest train.
struct Builder {
    Plan plan{3, {}, {}};
    uint32_t end = 0; // where the line goes on
    uint32_t run = 0; // the longest run from point 0 to there

    Builder() {
        plan.join(0, 1, 20);
        plan.join(0, 2, 20);
        plan.forbid(0, 1);
    }
    uint32_t point() { return plan.points++; }
    uint32_t track(uint32_t a, uint32_t b, uint32_t length = 20, uint32_t kind = 0) {
        return plan.join(a, b, length, kind);
    }
    // The line goes on over one section.
    void on(uint32_t length = 20) {
        const uint32_t next = point();
        track(end, next, length);
        end = next;
        run += length;
    }
};

struct YardCase {
    Plan plan;
    uint32_t longest; // the longest train that has a pull-out
};

// A passing loop: one track of one section and one of two, the first of them with the lower numbers.
inline void passing_loop(Builder &b, uint32_t short_track, uint32_t long_track) {
    const uint32_t from = b.end, middle = b.point(), to = b.point();
    const uint32_t straight = b.track(from, to, short_track);
    const uint32_t first = b.track(from, middle, long_track / 2), second = b.track(middle, to, long_track / 2);
    b.plan.forbid(straight, first);
    b.plan.forbid(straight, second);
    b.end = to;
    b.run += std::max(short_track, long_track);
}

inline Builder chain(uint32_t loops, uint32_t short_track, uint32_t long_track) {
    Builder b;
    for (uint32_t i = 0; i < loops; i++) {
        b.on();
        passing_loop(b, short_track, long_track);
    }
    b.on();
    return b;
}

inline YardCase equal_tracks(uint32_t loops) {
    Builder b = chain(loops, 40, 40);
    return {b.plan, b.run};
}

inline YardCase shorter_first(uint32_t loops) {
    Builder b = chain(loops, 38, 40);
    return {b.plan, b.run};
}

// A loop at the end of the line, in which a train turns round; its last section ends at the point where the loop begins.
inline void balloon(Builder &b) {
    const uint32_t from = b.end, left = b.point(), right = b.point();
    const uint32_t out = b.track(from, left), back = b.track(right, from);
    b.track(left, right);
    b.plan.forbid(out, back);
    b.run += 60;
}

inline YardCase balloon_end(uint32_t loops) {
    Builder b = chain(loops, 38, 40);
    balloon(b);
    return {b.plan, b.run};
}

// The same with passing loops inside the balloon, half of them.
inline YardCase loops_in_balloon(uint32_t loops) {
    Builder b = chain(loops / 2, 38, 40);
    const uint32_t from = b.end;
    b.on();
    const uint32_t out = b.plan.count() - 1;
    for (uint32_t i = 0; i < loops / 2; i++) {
        passing_loop(b, 38, 40);
        b.on();
    }
    b.plan.forbid(out, b.track(b.end, from));
    return {b.plan, b.run + 20};
}

// A ring line with passing loops, reached over a triangle: the train goes onto it either way round.
inline YardCase ring_on_triangle(uint32_t loops) {
    Builder b;
    b.on();
    const uint32_t stem = b.end, left = b.point(), right = b.point();
    const uint32_t to_left = b.track(stem, left), to_right = b.track(stem, right), base = b.track(left, right);
    b.plan.forbid(to_left, to_right);
    b.plan.forbid(to_left, base);
    b.plan.forbid(to_right, base);
    b.end = left;
    b.run += 20;
    for (uint32_t i = 0; i < loops; i++) {
        b.on();
        passing_loop(b, 38, 40);
    }
    b.track(b.end, right);
    return {b.plan, b.run + 40};
}

// The line comes back to the far end of s.
inline YardCase ring(uint32_t loops) {
    Builder b = chain(loops, 38, 40);
    b.track(b.end, 2);
    return {b.plan, b.run + 20};
}

// Tracks side by side between two ladders of switches: section, destination, section each.
inline YardCase ladder_of_tracks(uint32_t tracks) {
    Builder b;
    b.on();
    uint32_t left = b.end, right = b.point();
    const uint32_t out = b.point();
    b.track(right, out);
    for (uint32_t i = 0; i < tracks; i++) {
        const uint32_t near = b.point(), far = b.point();
        const uint32_t in = b.track(left, near);
        b.track(near, far, 40, 1);
        const uint32_t back = b.track(far, right);
        if (i + 1 == tracks) break;
        const uint32_t next_left = b.point(), next_right = b.point();
        b.plan.forbid(in, b.track(left, next_left));
        b.plan.forbid(back, b.track(right, next_right));
        left = next_left;
        right = next_right;
    }
    return {b.plan, 20 + 40 * (tracks - 1) + 80 + 20};
}

// A station: three tracks between two ladders.
inline void station(Builder &b) {
    const uint32_t left = b.end, left2 = b.point(), right2 = b.point(), right = b.point();
    const auto siding = [&](uint32_t from, uint32_t to) {
        const uint32_t near = b.point(), far = b.point();
        const uint32_t in = b.track(from, near, 10);
        b.track(near, far, 40, 1);
        return std::pair(in, b.track(far, to, 10));
    };
    const auto [in1, out1] = siding(left, right);
    const uint32_t in = b.track(left, left2, 10), out = b.track(right2, right, 10);
    const auto [in2, out2] = siding(left2, right2);
    const auto [in3, out3] = siding(left2, right2);
    b.plan.forbid(in1, in);
    b.plan.forbid(out1, out);
    b.plan.forbid(in2, in3);
    b.plan.forbid(out2, out3);
    b.end = right;
    b.run += 80;
}

inline YardCase stations(uint32_t count) {
    Builder b;
    for (uint32_t i = 0; i < count; i++) {
        b.on();
        station(b);
    }
    b.on();
    return {b.plan, b.run};
}

// Stations each with a branch before it that ends in a balloon; the balloon's run is shorter than the line's.
inline YardCase balloons_along(uint32_t count) {
    Builder b;
    for (uint32_t i = 0; i < count; i++) {
        b.on();
        const uint32_t from = b.end, run = b.run, aside = b.track(from, b.point());
        b.end = b.plan.points - 1;
        balloon(b);
        b.end = from;
        b.run = run;
        b.on();
        b.plan.forbid(aside, b.plan.count() - 1);
        passing_loop(b, 38, 40);
    }
    for (uint32_t i = 0; i < 5; i++) b.on();
    return {b.plan, b.run};
}

// Two tracks, and crossovers by which a train changes from one to the other and back, without turning round.
inline Builder double_track(uint32_t cells) {
    Builder b;
    b.on();
    uint32_t first = b.end, second = b.point(), before_first = 2, before_second = b.track(b.point(), second);
    for (uint32_t i = 0; i < 2 * cells; i++) {
        const uint32_t next_first = b.point(), next_second = b.point(), over = b.track(first, second);
        const uint32_t after_first = b.track(first, next_first), after_second = b.track(second, next_second);
        b.plan.forbid(over, i % 2 == 0 ? after_first : before_first);
        b.plan.forbid(over, i % 2 == 0 ? before_second : after_second);
        first = next_first;
        second = next_second;
        before_first = after_first;
        before_second = after_second;
    }
    b.end = first;
    b.run = 20 + 80 * cells;
    return b;
}

inline YardCase crossovers(uint32_t cells) {
    Builder b = double_track(cells);
    return {b.plan, b.run};
}

// The two tracks are joined at their end, so that a train comes back on the other. The longest run does so without
// crossovers.
inline YardCase crossovers_and_loop(uint32_t cells) {
    Builder b = double_track(cells);
    b.track(b.end, b.plan.points - 1);
    return {b.plan, 20 + 2 * 40 * cells + 20 + 20};
}

// The same with no turn forbidden but the one that is asked about. No run is longer for that: a point is passed once at
// most, and the longest run passes them all.
inline YardCase joined_without_turns(uint32_t cells) {
    YardCase yard = crossovers_and_loop(cells);
    yard.plan.turns.resize(2);
    return yard;
}

// Switches fanning out to dead ends, level by level.
inline YardCase depot(uint32_t points) {
    Builder b;
    b.on();
    std::vector<uint32_t> open{b.end}, runs{20};
    for (size_t i = 0; b.plan.points + 2 <= points + 3; i++) {
        const uint32_t left = b.point(), right = b.point();
        const uint32_t one = b.track(open[i], left);
        b.plan.forbid(one, b.track(open[i], right));
        open.insert(open.end(), {left, right});
        runs.insert(runs.end(), {runs[i] + 20, runs[i] + 20});
    }
    return {b.plan, runs.back()};
}

// Two lines with a rung at every point and no turn forbidden. The longest run goes over all points, rung by rung.
inline YardCase rungs(uint32_t count) {
    Builder b;
    b.on();
    uint32_t left = b.end, right = b.point();
    b.track(left, right);
    for (uint32_t i = 1; i < count; i++) {
        const uint32_t next_left = b.point(), next_right = b.point();
        b.track(left, next_left);
        b.track(right, next_right);
        b.track(next_left, next_right);
        left = next_left;
        right = next_right;
    }
    return {b.plan, 20 * (2 * count + 1)};
}

// Points in a ring with chords drawn at random, no turn forbidden. The longest run goes round the ring, over all points.
inline YardCase chords(uint32_t points) {
    Builder b;
    b.on();
    std::vector<uint32_t> circle{b.end};
    while (circle.size() < points) circle.push_back(b.point());
    std::mt19937 draw(points);
    std::vector<uint32_t> left(circle.begin() + 1, circle.end());
    for (uint32_t tries = 0; left.size() > 1 && tries < 1000; tries++) {
        const size_t i = draw() % left.size(), j = draw() % left.size();
        const uint32_t apart = left[i] < left[j] ? left[j] - left[i] : left[i] - left[j];
        if (apart < 2) continue;
        b.track(left[i], left[j]);
        for (size_t k : {std::max(i, j), std::min(i, j)}) left.erase(left.begin() + static_cast<std::ptrdiff_t>(k));
    }
    for (uint32_t i = 0; i < points; i++) b.track(circle[i], circle[(i + 1) % points]);
    return {b.plan, 20 * (points + 1)};
}

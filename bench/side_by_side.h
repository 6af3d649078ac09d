// Yards of tracks side by side, by size: metro lines, and three tracks with crossovers. They hang on point 0 as those of
// yards.h do, with sections of 20 decimetres, and the train can come back on another track than it went out on.
#pragma once
#include "yards.h"

// Tracks being laid from west to east. The first goes on from point 0, the others begin at dead ends.
struct SideBySide {
    struct End {
        uint32_t point, section; // the last of a track
    };
    Builder b;
    std::vector<End> ends;

    explicit SideBySide(uint32_t tracks) {
        for (uint32_t i = 0; i < tracks; i++) {
            ends.push_back({i == 0 ? 0 : b.point(), 0});
            on(i);
        }
    }
    // A track goes on over one section.
    void on(uint32_t track) {
        const uint32_t next = b.point();
        ends[track] = {next, b.track(ends[track].point, next)};
    }
    // A crossover by which trains to the east change from one track to another, and trains to the west back. Both go on.
    void cross(uint32_t from, uint32_t to) {
        const uint32_t over = b.track(ends[from].point, ends[to].point);
        b.plan.forbid(over, ends[to].section);
        on(from);
        on(to);
        b.plan.forbid(over, ends[from].section);
    }
    // A passing loop on a track, which goes on behind it.
    void pass(uint32_t track) {
        b.end = ends[track].point;
        passing_loop(b, 38, 40);
        ends[track].point = b.end;
        on(track);
    }
    // A track parts in two, the second of which is the last of all.
    void part(uint32_t track) {
        const uint32_t from = ends[track].point;
        ends.push_back({from, 0});
        for (uint32_t one : {track, last()}) on(one);
        b.plan.forbid(ends[track].section, ends.back().section);
    }
    // A track and the last of all come together and go on as one.
    void unite(uint32_t track) {
        on(track);
        const uint32_t other = b.track(ends.back().point, ends[track].point);
        b.plan.forbid(ends[track].section, other);
        ends.pop_back();
        on(track);
    }
    void join(uint32_t one, uint32_t other) { b.track(ends[one].point, ends[other].point); }
    uint32_t last() const { return static_cast<uint32_t>(ends.size() - 1); }
};

// Two tracks that are joined at the end of the line. Every station has two platforms for each of them, and behind it
// crossovers both ways. The longest run goes out on one track and back on the other, by the longer platforms.
inline YardCase metro(uint32_t stations) {
    SideBySide line(2);
    for (uint32_t i = 0; i < stations; i++) {
        line.pass(0);
        line.pass(1);
        line.cross(0, 1);
        line.cross(1, 0);
    }
    line.join(0, 1);
    return {line.b.plan, 20 + 2 * (40 + 3 * 20) * stations + 20 + 20};
}

// The same with the crossovers inside the stations, between a platform of one track and one of the other. A train that
// goes out over both crossovers is left one platform for its way back, and two if it goes out over none: what the way
// back comes to hangs on the way out at each station. The longest run goes out over both, or over none.
inline YardCase metro_crossing_in_stations(uint32_t stations) {
    SideBySide line(2);
    for (uint32_t i = 0; i < stations; i++) {
        line.part(0);
        line.part(1);
        line.cross(0, 1);
        line.cross(1, 0);
        line.unite(1);
        line.unite(0);
    }
    line.join(0, 1);
    return {line.b.plan, 20 + 2 * 5 * 20 * stations + 20 + 20};
}

// Three tracks with groups of four crossovers, the outer ones joined at their end. The longest run goes out on the first
// track, over five sections in place of one where it changes to the middle one and back, and comes back on the third.
inline YardCase three_tracks(uint32_t groups) {
    SideBySide tracks(3);
    for (uint32_t i = 0; i < groups; i++) {
        tracks.cross(0, 1);
        tracks.cross(1, 2);
        tracks.cross(2, 1);
        tracks.cross(1, 0);
    }
    tracks.join(0, 2);
    return {tracks.b.plan, 20 + (6 + 2) * 20 * groups + 20 + 20};
}

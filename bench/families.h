// The families of yards by which pull-outs are measured, and how their cost may grow.
#pragma once
#include "side_by_side.h"

// How the cost of a pull-out may grow with the number of sections.
enum class Growth { linear, quadratic, exponential };

constexpr const char *words(Growth growth) {
    switch (growth) {
    case Growth::linear: return "linear";
    case Growth::quadratic: return "quadratic";
    default: return "exponential";
    }
}

struct Family {
    const char *name;
    Growth growth;
    YardCase (*yard)(uint32_t size);
    std::vector<uint32_t> sizes;
};

inline const std::vector<Family> families{
    {"chain of passing loops, equal tracks", Growth::linear, equal_tracks, {20, 60, 100, 240}},
    {"chain of passing loops, shorter track first", Growth::linear, shorter_first, {20, 60, 100, 240}},
    {"chain of passing loops, balloon at the end", Growth::linear, balloon_end, {20, 60, 100, 240}},
    {"chain of passing loops, on into a balloon", Growth::linear, loops_in_balloon, {20, 60, 100, 240}},
    {"chain of passing loops, back to s", Growth::linear, ring, {20, 60, 100, 240}},
    {"passing loops and balloons along the line", Growth::linear, balloons_along, {10, 30, 60, 100}},
    {"ladder of tracks", Growth::linear, ladder_of_tracks, {20, 60, 100, 190}},
    {"stations of three tracks in line", Growth::linear, stations, {8, 20, 40, 76}},
    {"double track with crossovers", Growth::linear, crossovers, {20, 60, 100, 160}},
    {"depot fanning out", Growth::linear, depot, {45, 189, 381, 765}},
    {"ring line on a triangle", Growth::linear, ring_on_triangle, {20, 60, 100, 240}},
    {"double track with crossovers, joined at its end", Growth::quadratic, crossovers_and_loop, {16, 60, 160}},
    {"joined double track without forbidden turns", Growth::quadratic, joined_without_turns, {16, 60, 160}},
    {"metro line, crossovers between the stations", Growth::quadratic, metro, {4, 8, 16, 32, 54}},
    {"ladder of rungs", Growth::quadratic, rungs, {24, 50, 100, 250}},
    {"ring with chords", Growth::exponential, chords, {16, 20, 24, 28, 32, 36}},
    {"metro line, crossovers inside the stations", Growth::exponential, metro_crossing_in_stations, {2, 4, 6, 8}},
    {"three tracks with crossovers", Growth::exponential, three_tracks, {4, 6, 8, 10, 11}},
};

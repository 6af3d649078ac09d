// Every tiny yard of a list: all plans of up to four points in a row of shapes, with each start and finish, each set of
// turns, and lengths, trains and stock from small sets. A number names a yard; all of them are gone through, or some by
// a long stride.
#pragma once
#include "queries.h"

using Ends = std::vector<std::pair<uint32_t, uint32_t>>;

// All shapes in which every point has a section, but for the numbers of their points; one of two points, two of three,
// seven of four.
inline const std::vector<Ends> tiny_shapes{
    {{0, 1}},
    {{0, 1}, {1, 2}},
    {{0, 1}, {1, 2}, {2, 0}},
    {{0, 1}, {2, 3}},
    {{0, 1}, {1, 2}, {2, 3}},
    {{0, 1}, {0, 2}, {0, 3}},
    {{0, 1}, {1, 2}, {2, 0}, {2, 3}},
    {{0, 1}, {1, 2}, {2, 3}, {3, 0}},
    {{0, 1}, {1, 2}, {2, 3}, {3, 0}, {0, 2}},
    {{0, 1}, {1, 2}, {2, 3}, {3, 0}, {0, 2}, {1, 3}},
};

// A shape with its start, finish and turns; start and finish are its only destinations.
struct TinyFrame {
    Plan plan;
    second::Query query;

    second::List connecting() const {
        second::List list;
        for (uint32_t s = 0; s < plan.count(); s++)
            if (plan.sections[6 * s + 3] == 0) list.push_back(s);
        return list;
    }
};

// The frame with each set of turns at the points from this one on.
inline void add_turns(const TinyFrame &frame, uint32_t point, std::vector<TinyFrame> &all) {
    if (point == frame.plan.points) return all.push_back(frame);
    add_turns(frame, point + 1, all);
    const second::Yard yard(frame.plan);
    for (uint32_t c : frame.connecting())
        for (uint32_t s : frame.connecting()) {
            if (c >= s || !yard.sections[c].at(point) || !yard.sections[s].at(point)) continue;
            TinyFrame turned = frame;
            turned.plan.forbid(c, s);
            add_turns(turned, point + 1, all);
        }
}

inline void add_frames(const Ends &shape, uint32_t x, uint32_t y, std::vector<TinyFrame> &all) {
    Plan plan{0, {}, {}};
    for (const auto &[a, b] : shape) {
        const uint32_t section = plan.count(), kind = section == x || section == y;
        plan.points = std::max(plan.points, std::max(a, b) + 1);
        plan.join(a, b, 3, kind);
    }
    for (uint32_t start_end : {0, 1})
        for (uint32_t finish_end : {0, 1})
            if (x != y || start_end != finish_end) add_turns({plan, {0, x, start_end, y, finish_end}}, 0, all);
}

// In the last shape all sections are alike, so that only one is the start.
inline std::vector<TinyFrame> tiny_frames() {
    std::vector<TinyFrame> all;
    for (const Ends &shape : tiny_shapes)
        for (uint32_t x = 0; x < (shape.size() == 6 ? 1 : shape.size()); x++)
            for (uint32_t y = 0; y < shape.size(); y++) add_frames(shape, x, y, all);
    return all;
}

// A number taken apart: each choice takes the remainder by how many choices there are.
struct Choices {
    uint64_t rest;

    uint32_t of(uint64_t count) {
        const auto choice = static_cast<uint32_t>(rest % count);
        rest /= count;
        return choice;
    }
};

// The same plan with its sections numbered and its ends named the other way round.
inline void mirror(Plan &plan, second::Query &query) {
    const uint32_t last = plan.count() - 1;
    Plan mirrored{plan.points, {}, {}};
    for (uint32_t s = last + 1; s-- > 0;) {
        const uint32_t *n = &plan.sections[6 * s];
        mirrored.sections.insert(mirrored.sections.end(), {n[1], n[0], n[2], n[3], n[5], n[4]});
    }
    for (uint32_t section : plan.turns) mirrored.turns.push_back(last - section);
    plan = mirrored;
    query = {query.length, last - query.start, 1 - query.start_end, last - query.finish, 1 - query.finish_end};
}

class TinyYards {
public:
    TinyYards() : frames_(tiny_frames()) {
        for (const TinyFrame &frame : frames_) ends_.push_back(count() + variants(frame));
    }
    uint64_t count() const { return ends_.empty() ? 0 : ends_.back(); }

    std::pair<Plan, second::Query> yard(uint64_t number) const {
        const auto at = static_cast<size_t>(std::ranges::upper_bound(ends_, number) - ends_.begin());
        Choices choices{ends_[at] - 1 - number};
        return laid(frames_[at], choices);
    }

private:
    // Trains of 1 to 3; the start alone, with room behind, or not alone; the finish free or with just room; both
    // mirrors; connecting sections of 1 or 2, and where there are at most three of them, one or none with stock.
    static uint64_t variants(const TinyFrame &frame) {
        const size_t connecting = frame.connecting().size();
        return uint64_t{3 * 3 * 2 * 2} * (uint64_t{1} << connecting) * with_stock(connecting);
    }
    static uint64_t with_stock(size_t connecting) { return connecting > 3 ? 1 : connecting + 1; }

    static std::pair<Plan, second::Query> laid(const TinyFrame &frame, Choices &choices) {
        Plan plan = frame.plan;
        second::Query query = frame.query;
        query.length = 1 + choices.of(3);
        const uint32_t stands = choices.of(3), behind = stands == 0 ? 0 : query.length, ahead = choices.of(2);
        const bool mirrored = choices.of(2) == 1;
        if (query.finish != query.start) lay(plan, query.finish, query.finish_end, query.length, ahead == 0 ? 2 : 0, 1);
        lay(plan, query.start, query.start_end, ahead, query.length + (stands == 2), behind);
        const second::List connecting = frame.connecting();
        for (uint32_t s : connecting) lay(plan, s, 0, 1 + choices.of(2), 0, 0);
        const uint32_t occupied = choices.of(with_stock(connecting.size()));
        if (occupied > 0) plan.occupy(connecting[occupied - 1], 0, 0);
        if (mirrored) mirror(plan, query);
        return {plan, query};
    }

    // A section with so much free before the stock seen from an end, and behind it.
    static void lay(Plan &plan, uint32_t section, uint32_t end, uint32_t before, uint32_t stock, uint32_t behind) {
        uint32_t *numbers = &plan.sections[6 * section];
        const uint32_t length = before + stock + behind;
        numbers[2] = length;
        numbers[4 + end] = stock == 0 ? length : before;
        numbers[5 - end] = stock == 0 ? length : behind;
    }

    std::vector<TinyFrame> frames_;
    std::vector<uint64_t> ends_; // of the numbers of each frame
};

inline const TinyYards &tiny_yards() {
    static const TinyYards yards;
    return yards;
}

// One of them: its search, its sheets and its walk; and all its labels, a turn and a wrong sheet.
enum class Tiny { search, all };

inline void tiny_yard(Run &run, Draw &draw, uint64_t number, Tiny cases) {
    const auto [plan, query] = tiny_yards().yard(number);
    Site site(run, plan);
    const std::optional<Judged> judged = site.judge(query);
    site.search_case(query, judged, 2 * plan.count(), 2 * plan.count());
    if (cases == Tiny::all && !plan.turns.empty()) {
        const auto turn = draw.below(static_cast<uint32_t>(plan.turns.size() / 2));
        turn_cases(draw, site, turn, query.length);
    }
    right_sheets(draw, site, query, judged);
    if (cases == Tiny::search) return confirm_arrival(run, *judged, judged->rules.start());
    wrong_sheets(draw, site, query, judged, judged->sheet(), 1);
    confirm_by_all_walks(run, *judged);
}

// The stride and the number of yards have no common divisor, so that every yard comes up before one comes up again.
inline void next_tiny_yard(Run &run, Draw &draw, uint64_t turn) {
    constexpr uint64_t stride = 1000003;
    tiny_yard(run, draw, turn % tiny_yards().count() * stride % tiny_yards().count(), Tiny::all);
}

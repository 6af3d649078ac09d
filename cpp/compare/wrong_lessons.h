// Wrong learners: a search for a pull-out that keeps what its failures teach, right but for one error in what it learns.
#pragma once
#include "wrong_pull_outs.h"

namespace wrong {

enum class Error {
    none,
    mark_left_out,       // the mark that was met is no reason
    length_left_out,     // a section's length is not added to what was told beyond it
    third_left_out,      // the reasons of a point's third section are lost
    any_arrival,         // a lesson serves all sections by which a train comes to its point
    first_points_only,   // the reasons of points from 32 on are lost
    as_much_as_it_allows // a lesson ends a try that has no more left than it allows
};

// A limit: however a train runs on where these points are marked, it gets no further.
struct Limit {
    uint64_t most = 0;
    std::set<uint64_t> why;
};

class Learner {
public:
    Learner(const second::Yard &yard, const second::Turning &turning, Error error)
        : yard_(yard), turning_(turning), error_(error), marks_{turning.p} {}

    std::optional<second::List> first_pull_out() {
        if (try_point(turning_.c, turning_.p, turning_.L)) return std::nullopt;
        return list_;
    }

private:
    // Nothing is told where the list has become a pull-out.
    using Told = std::optional<Limit>;

    Told try_point(uint64_t over, uint64_t point, uint64_t left) {
        std::vector<Limit> &lessons = lessons_[{error_ == Error::any_arrival ? 0 : over, point}];
        const auto lesson = std::ranges::find_if(lessons, [&](const Limit &limit) { return teaches(limit, left); });
        if (lesson != lessons.end()) return *lesson;
        Limit all;
        size_t sections = 0;
        for (uint32_t section : yard_.meeting.at(point)) {
            const Told told = may_enter(over, section) ? try_section(section, point, left) : Limit{};
            if (!told) return told;
            all.most = std::max(all.most, told->most);
            if (error_ != Error::third_left_out || ++sections < 3) all.why.insert(told->why.begin(), told->why.end());
        }
        lessons.push_back(all);
        return all;
    }

    Told try_section(uint32_t section, uint64_t point, uint64_t left) {
        const second::Section &s = yard_.sections[section];
        const uint64_t free = s.free_from(point), far = s.far(point);
        list_.push_back(section);
        if (left <= free) return std::nullopt;
        Told told = Limit{free, {}};
        if (s.free()) told = marks_.contains(far) ? met(s, far) : try_beyond(section, far, left);
        if (told) list_.pop_back();
        return told;
    }

    Limit met(const second::Section &s, uint64_t far) const {
        const bool lost = error_ == Error::mark_left_out || (error_ == Error::first_points_only && far >= 32);
        return {s.length, lost ? std::set<uint64_t>{} : std::set{far}};
    }

    // The mark of the far point is no reason for what lies before it.
    Told try_beyond(uint32_t section, uint64_t far, uint64_t left) {
        const uint64_t length = yard_.sections[section].length;
        marks_.insert(far);
        Told told = try_point(section, far, left - length);
        marks_.erase(far);
        if (!told) return told;
        told->why.erase(far);
        if (error_ != Error::length_left_out) told->most += length;
        return told;
    }

    bool may_enter(uint64_t over, uint32_t section) const {
        return section != over && section != turning_.c && section != turning_.s && !yard_.forbidden(over, section);
    }

    bool teaches(const Limit &limit, uint64_t left) const {
        const bool more = error_ == Error::as_much_as_it_allows ? left >= limit.most : left > limit.most;
        return more && std::ranges::includes(marks_, limit.why);
    }

    const second::Yard &yard_;
    const second::Turning &turning_;
    Error error_;
    std::set<uint64_t> marks_;
    second::List list_;
    std::map<std::pair<uint64_t, uint64_t>, std::vector<Limit>> lessons_; // by section come over, and point
};

template <Error error> Answer learns(const AskedPullOut &asked) {
    return answered(asked, [](const second::Yard &yard, const second::Turning &turning) {
        return Learner(yard, turning, error).first_pull_out();
    });
}

} // namespace wrong

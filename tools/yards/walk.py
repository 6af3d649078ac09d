"""Walks and pull-outs by document 01's rules, for one yard and query."""
import dataclasses
import sys

from .plan import Fault, metres


# A try is two calls deep for each point that it passes.
sys.setrecursionlimit(10_000)


def first_pull_out(yard, length, came_over, point, onto):
    """The smallest list of sections onto which a train can draw clear of a point to go on, reversed, from one section to
    another; None if there is none. Lists are tried in their order, so the first that passes is the smallest. In yards that
    branch and join again and again the number of lists is exponential."""
    return try_point(yard, length, point, came_over, {point}, {came_over, onto})


def try_point(yard, left, point, over, passed, barred):
    for number in yard.sections_at(point):
        if number in barred or yard.forbidden(over, number):
            continue
        rest = try_section(yard, left, point, number, passed, barred)
        if rest is not None:
            return [number] + rest
    return None


def try_section(yard, left, point, number, passed, barred):
    """What follows this section, entered at the point; nothing where the train is clear on it."""
    section = yard.sections[number]
    if section.free_from(point) >= left:
        return []
    far = section.far(point)
    if not section.is_free() or far in passed:
        return None
    return try_point(yard, left - section.length, far, number, passed | {far}, barred | {number})


@dataclasses.dataclass
class Step:
    """Over a section from a point to its far end; after a reversal there where the pull-out is a list."""
    section: int
    start: int
    end: int
    cost: int
    pull_out: list | None


def alone(section, length):
    return section.stock() == length


def first_distance(yard, query):
    section = yard.sections[query.start]
    return section.free_from(section.point_at(query.start_end))


def finish_room(yard, query):
    section = yard.sections[query.finish]
    if query.finish == query.start and alone(section, query.length):
        return section.length
    return section.free_from(section.point_at(query.finish_end))


def start_arrival(query):
    return 2 * query.start + query.start_end


def ends(yard, query, arrival):
    """Whether a walk may end at an arrival."""
    finish = yard.sections[query.finish].point_at(query.finish_end)
    return yard.arrival_point(arrival) == finish and arrival // 2 != query.finish


def step_onto(yard, query, arrival, number):
    """The step from an arrival onto a section, or None where it is not admissible."""
    over, point = arrival // 2, yard.arrival_point(arrival)
    section = yard.sections[number]
    if point not in (section.a, section.b) or number == over:
        return None
    if not section.is_free() or number == query.finish:
        return None
    if not yard.forbidden(over, number):
        return Step(number, point, section.far(point), section.length, None)
    pull_out = first_pull_out(yard, query.length, over, point, number)
    if pull_out is None:
        return None
    return Step(number, point, section.far(point), query.length + section.length, pull_out)


def steps(yard, query, arrivals):
    """The steps of a walk given as a route program gives it. A Fault where it is no walk of this yard."""
    found, arrival = [], start_arrival(query)
    for following in arrivals:
        step = step_onto(yard, query, arrival, following // 2) if following < 2 * len(yard.sections) else None
        if step is None or step.end != yard.arrival_point(following):
            raise Fault("no step leads to arrival %d: is the output that of this yard?" % following)
        found.append(step)
        arrival = following
    if not ends(yard, query, arrival):
        raise Fault("the walk does not end at the finish: is the output that of this yard?")
    return found


def total(yard, query, walk):
    return first_distance(yard, query) + sum(step.cost for step in walk) + finish_room(yard, query)


def reversals(walk):
    return sum(step.pull_out is not None for step in walk)


def check_sum(yard, query, walk, said_total, said_reversals):
    if (total(yard, query, walk), reversals(walk)) != (said_total, said_reversals):
        raise Fault("the output has %s and %d reversals for a walk of %s and %d: is it that of this yard?" % (
            metres(said_total), said_reversals, metres(total(yard, query, walk)), reversals(walk)))

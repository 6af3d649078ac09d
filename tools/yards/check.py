"""Document 01's rules for a plan (its refusals 1 to 6), told with the line of the text that breaks one."""
from . import plan
from .plan import Fault, metres


def at_line(line, message):
    return Fault("line %d: %s" % (line, message))


def check(yard):
    """Raises a Fault where the finder would refuse the plan."""
    check_counts(yard)
    for section in yard.sections:
        check_section(yard, section)
    check_pairs(yard)
    check_points(yard)
    check_turns(yard)


def check_counts(yard):
    for things, most, word in ((yard.points, plan.POINTS_MOST, "points"), (yard.sections, plan.SECTIONS_MOST, "sections"),
                               (yard.turns, plan.TURNS_MOST, "forbidden turns"), (yard.queries, plan.QUERIES_MOST, "queries")):
        if len(things) > most:
            raise at_line(things[most].line, "more than %d %s" % (most, word))
    if not yard.sections:
        raise Fault("the yard has no section")


def check_section(yard, section):
    if section.a == section.b:
        raise at_line(section.line, "both ends of section %s are point %s" % (section.name, yard.points[section.a].name))
    if not 1 <= section.length <= plan.LENGTH_MOST:
        raise at_line(section.line, "section %s is %s long: it can be 0.1 m to %s"
                      % (section.name, metres(section.length), metres(plan.LENGTH_MOST)))
    if not section.is_free() and section.from_a + section.from_b >= section.length:
        raise at_line(section.line, "section %s is %s long, so nothing can stand between free lengths of %s and %s"
                      % (section.name, metres(section.length), metres(section.from_a), metres(section.from_b)))


def check_pairs(yard):
    first = {}
    for section in yard.sections:
        earlier = first.setdefault(frozenset((section.a, section.b)), section)
        if earlier is not section:
            raise at_line(section.line, "section %s joins the same two points as section %s of line %d"
                          % (section.name, earlier.name, earlier.line))


def check_points(yard):
    sections = [[] for _ in yard.points]
    for section in yard.sections:
        for number in (section.a, section.b):
            sections[number].append(section)
            if len(sections[number]) > plan.SECTIONS_AT_A_POINT:
                raise at_line(section.line, "section %s is the fourth at point %s" % (section.name, yard.points[number].name))
    for point, here in zip(yard.points, sections):
        if not here:
            raise at_line(point.line, "point %s has no section" % point.name)


def check_turns(yard):
    first = {}
    for turn in yard.turns:
        check_turn(yard, turn)
        point = yard.turn_point(turn)
        earlier = first.setdefault(point, turn)
        if earlier is not turn:
            raise at_line(turn.line, "a second forbidden turn at point %s, after that of line %d"
                          % (yard.points[point].name, earlier.line))


def check_turn(yard, turn):
    one, other = yard.sections[turn.one], yard.sections[turn.other]
    if one is other:
        raise at_line(turn.line, "a forbidden turn is from a section to another, not from %s to itself" % one.name)
    for section in (one, other):
        if section.kind != plan.CONNECTING:
            raise at_line(turn.line, "section %s is a destination: a forbidden turn is between connecting sections"
                          % section.name)
    if yard.turn_point(turn) is None:
        raise at_line(turn.line, "sections %s and %s share no point" % (one.name, other.name))

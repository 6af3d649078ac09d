"""Yard files: fields of a tag, a length and that many bytes, big-endian."""
import struct

from . import plan
from .plan import Fault, Point, Query, Section, Turn, Yard

HEAD = struct.Struct(">BH")
POINTS, SECTION, TURN, QUERY = 1, 2, 3, 4
LAYOUTS = {POINTS: struct.Struct(">H"), SECTION: struct.Struct(">HHIBII"), TURN: struct.Struct(">HH"),
           QUERY: struct.Struct(">IHBHB")}
MOST = {POINTS: 1, SECTION: plan.SECTIONS_MOST, TURN: plan.TURNS_MOST, QUERY: plan.QUERIES_MOST}
WORDS = {POINTS: "the number of points", SECTION: "section", TURN: "forbidden turn", QUERY: "query"}


def field(tag, *numbers):
    layout = LAYOUTS[tag]
    return HEAD.pack(tag, layout.size) + layout.pack(*numbers)


def write(yard):
    fields = [field(POINTS, len(yard.points))]
    fields += [field(SECTION, s.a, s.b, s.length, s.kind, s.from_a, s.from_b) for s in yard.sections]
    fields += [field(TURN, turn.one, turn.other) for turn in yard.turns]
    fields += [field(QUERY, q.length, q.start, q.start_end, q.finish, q.finish_end) for q in yard.queries]
    return b"".join(fields)


def at_offset(offset, message):
    return Fault("offset %d: %s" % (offset, message))


def fields(data):
    """Every field of a well-formed yard file: offset, tag, numbers. Raises a Fault at the offset of the first bad one."""
    if not data:
        raise at_offset(0, "the file is empty")
    offset, last, count = 0, 0, 0
    while offset < len(data):
        tag, body = field_at(data, offset)
        check_order(offset, tag, last)
        last, count = tag, count + 1 if tag == last else 1
        if count > MOST[tag]:
            raise at_offset(offset, "more than %d of the fields with tag %d (%s)" % (MOST[tag], tag, WORDS[tag]))
        yield offset, tag, LAYOUTS[tag].unpack(body)
        offset += HEAD.size + len(body)


def check_order(offset, tag, last):
    """Whether a field may follow one with the last tag, 0 at the beginning."""
    if last == 0 and tag != POINTS:
        raise at_offset(offset, "the file begins with tag %d, not with the number of points (tag 1)" % tag)
    if last != 0 and tag == POINTS:
        raise at_offset(offset, "the number of points (tag 1) a second time")
    if tag < last:
        raise at_offset(offset, "a %s (tag %d) after a %s (tag %d)" % (WORDS[tag], tag, WORDS[last], last))


def field_at(data, offset):
    """Tag and bytes of the field that begins here, which are as many as the tag has."""
    head = data[offset:offset + HEAD.size]
    if head[0] not in LAYOUTS:
        raise at_offset(offset, "there is no tag %d" % head[0])
    if len(head) < HEAD.size:
        raise at_offset(offset, "the field is cut short: %d of its first 3 bytes" % len(head))
    tag, length = HEAD.unpack(head)
    if length != LAYOUTS[tag].size:
        raise at_offset(offset, "a field with tag %d (%s) has %d bytes, here it has %d"
                        % (tag, WORDS[tag], LAYOUTS[tag].size, length))
    body = data[offset + HEAD.size:offset + HEAD.size + length]
    if len(body) < length:
        raise at_offset(offset, "the field is cut short: %d of its %d bytes" % (len(body), length))
    return tag, body


def read(data, names=None):
    """The yard of a file, with the names and places of another yard that has as many points and sections, or with made-up
    names. A number that a text can't say, such as that of a section that there isn't, is a Fault at its field."""
    found = {tag: [] for tag in LAYOUTS}
    for offset, tag, numbers in fields(data):
        found[tag].append((offset, numbers))
    [(_, (count,))] = found[POINTS]
    points, section_names = called(count, len(found[SECTION]), names)
    sections = [read_section(offset, numbers, name, count) for (offset, numbers), name in zip(found[SECTION], section_names)]
    turns = [read_turn(offset, numbers, len(sections)) for offset, numbers in found[TURN]]
    queries = [read_query(offset, numbers, len(sections)) for offset, numbers in found[QUERY]]
    return Yard(points, sections, turns, queries)


def called(points, sections, names):
    """Points, and names of sections."""
    if names is None:
        return [Point("p%d" % number) for number in range(points)], ["s%d" % number for number in range(sections)]
    if (len(names.points), len(names.sections)) != (points, sections):
        raise Fault("the yard file has %d points and %d sections, the text with the names %d and %d"
                    % (points, sections, len(names.points), len(names.sections)))
    return [Point(point.name, point.place) for point in names.points], [section.name for section in names.sections]


def demand(holds, offset, message, *words):
    if not holds:
        raise at_offset(offset, message % words)


def read_section(offset, numbers, name, points):
    section = Section(name, *numbers)
    for point in (section.a, section.b):
        demand(point < points, offset, "section %s ends at point %d, and the points are below %d", name, point, points)
    demand(section.kind < len(plan.KINDS), offset, "section %s has kind %d: it is 0, connecting, or 1, destination",
           name, section.kind)
    return section


def read_turn(offset, numbers, sections):
    for number in numbers:
        demand(number < sections, offset, "a turn over section %d, and the sections are below %d", number, sections)
    return Turn(*numbers)


def read_query(offset, numbers, sections):
    query = Query(*numbers)
    for word, section, end in (("start", query.start, query.start_end), ("finish", query.finish, query.finish_end)):
        demand(section < sections, offset, "the %s is section %d, and the sections are below %d", word, section, sections)
        demand(end < 2, offset, "the %s end is %d: it is 0, end A, or 1, end B", word, end)
    return query

"""The text of a yard, as docs/YARD-TEXT.md describes it: reading and writing."""
import re

from . import plan
from .check import at_line
from .plan import Fault, Point, Query, Section, Turn, Yard

NAME = re.compile(r"[^\W\d_][\w.'/+-]*")
NUMBER = re.compile(r"-?\d+(\.\d+)?")
LENGTH = re.compile(r"(\d+)(?:\.(\d+))?(m|dm)")
FOUR_BYTES = 2**32 - 1
FORMS = {
    "point": "point NAME [at X Y]",
    "section": "section NAME POINT POINT LENGTH connecting|destination [what stands there]",
    "forbidden": "forbidden SECTION SECTION",
    "query": "query LENGTH from SECTION by POINT to SECTION by POINT",
}
STANDING = "free, locked, free LENGTH LENGTH, stock LENGTH at POINT or stock LENGTH at LENGTH from POINT"


class Line:
    """The words of one line that are still to be read."""

    def __init__(self, number, text):
        self.number = number
        # A length can be written in one word or with a blank before its unit. No name begins with a digit.
        self.words = re.sub(r"(?<!\S)([\d.]+)\s+(m|dm)(?!\S)", r"\1\2", text.split("#")[0]).split()

    def fault(self, message):
        return at_line(self.number, message)

    def wrong(self, form):
        return self.fault("a line of this kind reads: " + form)

    def word(self, form):
        if not self.words:
            raise self.wrong(form)
        return self.words.pop(0)

    def name(self, form):
        word = self.word(form)
        if not NAME.fullmatch(word):
            raise self.fault("%s is no name: a name is a letter, then letters, digits or any of _ . ' / + -" % word)
        return word

    def length(self, form):
        word = self.word(form)
        read = LENGTH.fullmatch(word)
        if not read:
            raise self.fault("%s is no length: write 40 m, 12.5 m or 125 dm" % word)
        whole, part, unit = read.groups()
        tenths = (part or "").rstrip("0")
        if len(tenths) > (unit == "m"):
            raise self.fault("%s is not a whole number of decimetres" % word)
        decimetres = int(whole + (tenths or "0")) if unit == "m" else int(whole)
        if decimetres > FOUR_BYTES:
            raise self.fault("%s is too long for a yard file" % word)
        return decimetres

    def expect(self, word, form):
        if self.word(form) != word:
            raise self.wrong(form)

    def end(self, form):
        if self.words:
            raise self.wrong(form)


class Reader:
    """Points are numbered as they are first named, sections, turns and queries by their lines. Forbidden turns and queries may
    stand above the sections that they name, so they are read last."""

    def __init__(self):
        self.points, self.sections = {}, {}
        self.placed = {}

    def read(self, text):
        lines = [Line(number, line) for number, line in enumerate(text.split("\n"), 1)]
        later = {"forbidden": [], "query": []}
        for line in filter(lambda line: line.words, lines):
            kind = line.words.pop(0)
            if kind not in FORMS:
                raise line.fault("%s: a line begins with point, section, forbidden or query" % kind)
            if kind in later:
                later[kind].append(line)
            else:
                getattr(self, kind)(line, FORMS[kind])
        self.check_places()
        turns = [self.forbidden(line, FORMS["forbidden"]) for line in later["forbidden"]]
        queries = [self.query(line, FORMS["query"]) for line in later["query"]]
        return Yard(list(self.points.values()), list(self.sections.values()), turns, queries)

    def check_places(self):
        """A drawing is laid out by hand or not at all."""
        without = [point for point in self.points.values() if point.place is None]
        if without and len(without) < len(self.points):
            raise at_line(without[0].line, "point %s has no place (at X Y), and others have: give all points one, or none"
                          % without[0].name)

    def point(self, line, form):
        name = line.name(form)
        if name in self.placed:
            raise line.fault("point %s is named twice, first in line %d" % (name, self.placed[name]))
        self.placed[name] = line.number
        point = self.points.setdefault(name, Point(name, None, line.number))
        if line.words:
            line.expect("at", form)
            point.place = (self.coordinate(line, form), self.coordinate(line, form))
        line.end(form)

    @staticmethod
    def coordinate(line, form):
        word = line.word(form)
        if not NUMBER.fullmatch(word):
            raise line.fault("%s is no coordinate: write a number such as 3 or 4.5" % word)
        return float(word)

    def point_number(self, name, line):
        self.points.setdefault(name, Point(name, None, line.number))
        return list(self.points).index(name)

    def section(self, line, form):
        name = line.name(form)
        if name in self.sections:
            raise line.fault("section %s is named twice, first in line %d" % (name, self.sections[name].line))
        a, b = (self.point_number(line.name(form), line) for _ in range(2))
        length, kind = line.length(form), line.word(form)
        if kind not in plan.KINDS:
            raise line.fault("%s: a section is connecting or destination" % kind)
        section = Section(name, a, b, length, plan.KINDS.index(kind), length, length, line.number)
        self.stand(section, line)
        line.end(form)
        self.sections[name] = section

    def stand(self, section, line):
        """What stands on a section; nothing if the line doesn't say."""
        how = line.words.pop(0) if line.words else "free"
        if how == "locked":
            section.from_a = section.from_b = 0
        elif how == "free" and line.words:
            section.from_a, section.from_b = line.length(STANDING), line.length(STANDING)
        elif how == "stock":
            self.stand_stock(section, line)
        elif how != "free":
            raise line.fault("%s: what stands on a section is %s" % (how, STANDING))

    def stand_stock(self, section, line):
        stock = line.length(STANDING)
        line.expect("at", STANDING)
        gap = 0
        if line.words and LENGTH.fullmatch(line.words[0]):
            gap = line.length(STANDING)
            line.expect("from", STANDING)
        point = self.end_point(section, line, STANDING)
        rest = section.length - gap - stock
        if stock == 0 or rest < 0:
            raise line.fault("stock of %s at %s from point %s does not fit on section %s, which is %s long" % (
                plan.metres(stock), plan.metres(gap), self.name_of(point), section.name, plan.metres(section.length)))
        section.from_a, section.from_b = (gap, rest) if point == section.a else (rest, gap)

    def name_of(self, point):
        return list(self.points)[point]

    def end_point(self, section, line, form):
        name = line.name(form)
        for point in (section.a, section.b):
            if self.name_of(point) == name:
                return point
        raise line.fault("point %s is no end of section %s, which joins %s and %s" % (
            name, section.name, self.name_of(section.a), self.name_of(section.b)))

    def section_number(self, line, form):
        name = line.name(form)
        if name not in self.sections:
            raise line.fault("there is no section %s" % name)
        return list(self.sections).index(name)

    def forbidden(self, line, form):
        turn = Turn(self.section_number(line, form), self.section_number(line, form), line.number)
        line.end(form)
        return turn

    def query(self, line, form):
        length = line.length(form)
        line.expect("from", form)
        start, start_end = self.section_end(line, form)
        line.expect("to", form)
        finish, finish_end = self.section_end(line, form)
        line.end(form)
        return Query(length, start, start_end, finish, finish_end, line.number)

    def section_end(self, line, form):
        number = self.section_number(line, form)
        section = list(self.sections.values())[number]
        line.expect("by", form)
        return number, section.end_at(self.end_point(section, line, form))


def read(text):
    """The yard of a text. Raises a Fault with the line; whether the finder takes the plan is told by check.check."""
    return Reader().read(text)


def decode(data):
    """Some editors put a mark before UTF-8."""
    try:
        return data.decode("utf-8-sig")
    except UnicodeDecodeError as fault:
        raise Fault("this is no text: byte %d is not UTF-8" % fault.start) from None


def columns(rows):
    """Lines of words, each column as wide as its widest word."""
    widths = [max(map(len, column)) for column in zip(*rows)] if rows else []
    return ["  ".join(word.ljust(width) for word, width in zip(row, widths)).rstrip() for row in rows]


def standing(section, points):
    if section.is_free():
        return "free"
    if section.from_a == section.from_b == 0:
        return "locked"
    if section.a == section.b or section.from_a + section.from_b >= section.length:
        return "free %s %s" % (plan.metres(section.from_a), plan.metres(section.from_b))
    nearest = section.a if section.from_a <= section.from_b else section.b
    gap = section.free_from(nearest)
    words = "at %s from %s" % (plan.metres(gap), points[nearest].name) if gap else "at " + points[nearest].name
    return "stock %s %s" % (plan.metres(section.stock()), words)


def query_words(yard, query):
    start, finish = yard.sections[query.start], yard.sections[query.finish]
    return "%s from %s by %s to %s by %s" % (
        plan.metres(query.length), start.name, yard.points[start.point_at(query.start_end)].name,
        finish.name, yard.points[finish.point_at(query.finish_end)].name)


def write(yard):
    """A text that reads as this yard."""
    name = lambda point: yard.points[point].name
    place = lambda point: "at %g %g" % point.place if point.place else ""
    parts = [
        columns([("point", point.name, place(point)) for point in yard.points]),
        columns([("section", s.name, name(s.a), name(s.b), plan.metres(s.length), plan.KINDS[s.kind], standing(s, yard.points))
                 for s in yard.sections]),
        columns([("forbidden", yard.sections[turn.one].name, yard.sections[turn.other].name) for turn in yard.turns]),
        ["query " + query_words(yard, query) for query in yard.queries],
    ]
    return "\n".join("".join(line + "\n" for line in part) for part in parts if part)

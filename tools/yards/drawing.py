"""A drawing of a yard as SVG: what stands where, forbidden turns, and the route of one answer with its reversals."""
import html
import math

from . import plan, walk, words
from .layout import layout
from .plan import metres

UNIT, MARGIN, LINE = 50, 55, 18  # pixels: one unit of a place, round the yard, a line of the legend
ROUTE_SHIFT = 6  # pixels to the right of the track; pull-outs are drawn on it
ARROW, MARK = 12, 8  # pixels: length of an arrow, radius of a reversal's mark
STYLE = """
text { font: 11px sans-serif; fill: #222; paint-order: stroke; stroke: #fff; stroke-width: 3px; stroke-linejoin: round }
path, line { fill: none; stroke-linecap: round; stroke-linejoin: round }
.connecting { stroke: #8a8a8a; stroke-width: 2 }
.destination { stroke: #444; stroke-width: 4 }
.stock { stroke: #7a3b10; stroke-width: 10; stroke-linecap: butt }
.train { stroke: #1769c4; stroke-width: 10; stroke-linecap: butt }
.turn { stroke: #d1122b; stroke-width: 2.2 }
.point { fill: #222 }
.point-name { fill: #555; font-size: 9px }
.connecting-name { font-size: 9px }
.stock-name { fill: #7a3b10; font-size: 9px }
.route { stroke: #1769c4; stroke-width: 3 }
.arrow { fill: #1769c4 }
.pull { stroke: #f08a00; stroke-width: 5; stroke-dasharray: 7 5; stroke-linecap: butt }
.pull-end { stroke: #f08a00; stroke-width: 3 }
.reversal { fill: #fff; stroke: #e07b00; stroke-width: 2 }
.reversal-number { fill: #b35f00; font-weight: bold; font-size: 10px; text-anchor: middle; stroke: none }
.title { font-size: 13px; font-weight: bold }
"""


# Lines are lists of places in pixels.

def along(line, part):
    """The place at a part, 0 to 1, of a line, and the direction there."""
    lengths = [math.dist(p, q) for p, q in zip(line, line[1:])]
    left = part * sum(lengths)
    for (p, q), length in zip(zip(line, line[1:]), lengths):
        if left <= length or (p, q) == (line[-2], line[-1]):
            unit = ((q[0] - p[0]) / (length or 1), (q[1] - p[1]) / (length or 1))
            return (p[0] + unit[0] * left, p[1] + unit[1] * left), unit
        left -= length
    raise ValueError("a line has two places or more")


def cut(line, start, end):
    """The piece of a line between two parts."""
    lengths = [math.dist(p, q) for p, q in zip(line, line[1:])]
    whole, passed, inner = sum(lengths) or 1, 0, []
    for place, length in zip(line[1:-1], lengths):
        passed += length
        if start < passed / whole < end:
            inner.append(place)
    return [along(line, start)[0]] + inner + [along(line, end)[0]]


def shifted(line, distance):
    """A line that runs beside another, to the right of the way it goes."""
    moved = []
    for number, (x, y) in enumerate(line):
        before, after = line[max(number - 1, 0)], line[min(number + 1, len(line) - 1)]
        length = math.dist(before, after) or 1
        moved.append((x - distance * (after[1] - before[1]) / length, y + distance * (after[0] - before[0]) / length))
    return moved


def path(line, kind):
    return '<path class="%s" d="M %s"/>' % (kind, " L ".join("%.1f %.1f" % place for place in line))


def label(place, said, kind="", anchor="middle", angle=0.0):
    turn = ' transform="rotate(%.1f %.1f %.1f)"' % (angle, *place) if abs(angle) > 0.5 else ""
    return '<text class="%s" x="%.1f" y="%.1f" text-anchor="%s"%s>%s</text>' % (kind, *place, anchor, turn, html.escape(said))


def beside(line, distance, said, kind):
    """Words along the middle of a line's longest straight piece, upright, above it or, at a distance below 0, below."""
    p, q = max(zip(line, line[1:]), key=lambda piece: math.dist(*piece))
    if (q[0], -q[1]) < (p[0], -p[1]):
        p, q = q, p
    (x, y), (ux, uy) = along([p, q], 0.5)
    return label((x + distance * uy, y - distance * ux), said, kind, angle=math.degrees(math.atan2(uy, ux)))


class Drawing:
    def __init__(self, yard, titles):
        self.yard, self.titles = yard, titles
        head = MARGIN + LINE * len(titles)
        places, lines = layout(yard)
        left, top = (min(place[axis] for line in lines for place in line) for axis in (0, 1))
        right, bottom = (max(place[axis] for line in lines for place in line) for axis in (0, 1))
        self.width, self.height = (right - left) * UNIT + 2 * MARGIN, (bottom - top) * UNIT + head + MARGIN
        to_pixels = lambda place: ((place[0] - left) * UNIT + MARGIN, (place[1] - top) * UNIT + head)
        self.places = [to_pixels(place) for place in places]
        self.lines = [[to_pixels(place) for place in line] for line in lines]

    def way(self, number, entry):
        """A section's line from the point at which it is entered."""
        line = self.lines[number]
        return line if entry == self.yard.sections[number].a else line[::-1]

    def piece(self, number, entry, start, end):
        """The piece of a section between two distances from the point at which it is entered."""
        length = self.yard.sections[number].length
        return cut(self.way(number, entry), start / length, end / length)

    # The yard.

    def tracks(self):
        for section, line in zip(self.yard.sections, self.lines):
            yield path(line, plan.KINDS[section.kind])
        for number, section in enumerate(self.yard.sections):
            if not section.is_free():
                yield path(self.stock(number), "stock")

    def turns(self):
        """An arc across the two sections at their point."""
        for turn in self.yard.turns:
            point = self.yard.turn_point(turn)
            (x, y), near = self.places[point], []
            for number in (turn.one, turn.other):
                unit = along(self.way(number, point), 0)[1]
                near.append((x + 15 * unit[0], y + 15 * unit[1]))
            (ax, ay), (bx, by) = near
            sweep = (ax - x) * (by - y) - (ay - y) * (bx - x) > 0
            yield '<path class="turn" d="M %.1f %.1f A 15 15 0 0 %d %.1f %.1f"/>' % (ax, ay, sweep, bx, by)

    def section_names(self):
        for number, section in enumerate(self.yard.sections):
            said = section.name + (", " + metres(section.length) if section.kind == plan.DESTINATION else "")
            yield beside(self.lines[number], 11, said, plan.KINDS[section.kind] + "-name")
            if not section.is_free():
                said = "locked" if section.stock() == section.length else "stock " + metres(section.stock())
                yield beside(self.stock(number), -26 if self.stock_near_end(number) else -17, said, "stock-name")

    def stock(self, number):
        section = self.yard.sections[number]
        return self.piece(number, section.a, section.from_a, section.length - section.from_b)

    def stock_near_end(self, number):
        """Whether words below stock would meet the name of a point."""
        middle = along(self.stock(number), 0.5)[0]
        return min(math.dist(middle, self.lines[number][end]) for end in (0, -1)) < 40

    def points(self, marked):
        """With their names, which make room for the marks of reversals."""
        for number, (point, (x, y)) in enumerate(zip(self.yard.points, self.places)):
            yield '<circle class="point" cx="%.1f" cy="%.1f" r="3"/>' % (x, y)
            angle, away = self.widest_gap(number), 5 if number in marked else 0
            place = (x + (9 + away) * math.cos(angle), y + (13 + away) * math.sin(angle) + 3)
            anchor = "middle" if abs(math.cos(angle)) < 0.5 else "start" if math.cos(angle) > 0 else "end"
            yield label(place, point.name, "point-name", anchor)

    def widest_gap(self, point):
        """The direction, among the sections at a point, in which there is most room."""
        units = [along(self.way(number, point), 0)[1] for number in self.yard.sections_at(point)]
        angles = sorted(math.atan2(y, x) for x, y in units)
        gaps = [(after - before, before) for before, after in zip(angles, angles[1:] + [angles[0] + 2 * math.pi])]
        gap, before = max(gaps)
        return before + gap / 2

    # The route of a query.

    def route(self, query, steps):
        start, finish = self.yard.sections[query.start], self.yard.sections[query.finish]
        start_point, finish_point = start.point_at(query.start_end), finish.point_at(query.finish_end)
        first, room = walk.first_distance(self.yard, query), walk.finish_room(self.yard, query)
        yield path(self.piece(query.start, start_point, first, first + query.length), "train")
        yield from self.driven(self.piece(query.start, start_point, 0, first)[::-1], 0.5)
        for step in steps:
            yield from self.driven(self.way(step.section, step.start), 0.4)
        yield from self.driven(self.piece(query.finish, finish_point, 0, room), 1)

    def driven(self, line, arrow):
        """A piece of the route, with an arrow at a part of it, if it is long enough to carry one."""
        line = shifted(line, ROUTE_SHIFT)
        yield path(line, "route")
        if sum(map(math.dist, line, line[1:])) < 1.5 * ARROW:
            return
        (x, y), (ux, uy) = along(line, arrow)
        tip, left, right = ((x + a * ux - b * uy, y + a * uy + b * ux)
                            for a, b in ((ARROW / 2, 0), (-ARROW / 2, ARROW * 0.4), (-ARROW / 2, -ARROW * 0.4)))
        yield '<path class="arrow" d="M %.1f %.1f L %.1f %.1f L %.1f %.1f Z"/>' % (*tip, *left, *right)

    def pull_outs(self, query, steps):
        for step in steps:
            if step.pull_out is not None:
                yield from self.pull_out(query, step)

    def pull_out(self, query, step):
        point, left = step.start, query.length
        for number in step.pull_out:
            section = self.yard.sections[number]
            line = self.piece(number, point, 0, min(max(left, self.seen_from(number)), section.length))
            yield path(line, "pull")
            point, left = section.far(point), left - section.length
        (x, y), (ux, uy) = along(line, 1)
        yield path([(x - 6 * uy, y + 6 * ux), (x + 6 * uy, y - 6 * ux)], "pull-end")

    def seen_from(self, number):
        """The distance on a section at which the mark of a reversal no longer hides what is drawn."""
        line = self.lines[number]
        return self.yard.sections[number].length * 2 * MARK / (sum(map(math.dist, line, line[1:])) or 1)

    def reversals(self, steps):
        """A number at each reversal's point, one above the other where several are at one point."""
        met = []
        for step in steps:
            if step.pull_out is not None:
                x, y = self.places[step.start]
                y -= 17 * met.count(step.start)
                met.append(step.start)
                yield '<circle class="reversal" cx="%.1f" cy="%.1f" r="%d"/>' % (x, y, MARK)
                yield label((x, y + 3.5), str(len(met)), "reversal-number")

    # The whole.

    def headings(self):
        for number, title in enumerate(self.titles, 1):
            yield label((MARGIN / 2, 6 + LINE * number), title, "title", "start")

    def legend(self, routed):
        """Samples of the lines, with what they mean, below the yard."""
        samples = [("connecting", "connecting section"), ("destination", "destination section"), ("stock", "stock"),
                   ("turn", "forbidden turn")]
        samples += [("train", "the train"), ("route", "route"), ("pull", "pull-out for a reversal")] if routed else []
        x, y = MARGIN / 2, self.height
        for kind, meaning in samples:
            width = 50 + 6.5 * len(meaning)
            if x > MARGIN / 2 and x + width > self.full_width():
                x, y = MARGIN / 2, y + LINE
            yield path([(x, y), (x + 28, y)], kind)
            yield label((x + 36, y + 4), meaning, anchor="start")
            x += width
        self.height = y

    def full_width(self):
        return max(self.width, *(8 * len(title) for title in self.titles), 400)

    def svg(self, body, routed):
        parts = [*self.headings(), *body, *self.legend(routed)]
        size = "%.0f" % self.full_width(), "%.0f" % (self.height + LINE)
        head = '<svg xmlns="http://www.w3.org/2000/svg" width="%s" height="%s" viewBox="0 0 %s %s">' % (size * 2)
        white = '<rect width="100%" height="100%" fill="#fff"/>'
        return "\n".join([head, "<style>%s</style>" % STYLE, white, *parts, "</svg>"]) + "\n"


def draw(yard, title, number=None, answer=None):
    """The yard; with a query's number and its answer, the route too."""
    drawing = Drawing(yard, [title] if answer is None else [title, words.headline(yard, number, answer)])
    if answer is None or answer.refusal:
        return drawing.svg([*drawing.tracks(), *drawing.turns(), *drawing.points(()), *drawing.section_names()], False)
    query, steps = yard.queries[number - 1], words.checked_walk(yard, number, answer)
    marked = {step.start for step in steps if step.pull_out is not None}
    return drawing.svg([*drawing.tracks(), *drawing.route(query, steps), *drawing.turns(), *drawing.pull_outs(query, steps),
                        *drawing.points(marked), *drawing.reversals(steps), *drawing.section_names()], True)

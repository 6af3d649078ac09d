"""A yard as document 01 has it, with names: points, sections, forbidden turns and queries, by number."""
import dataclasses

CONNECTING, DESTINATION = 0, 1
KINDS = ("connecting", "destination")
POINTS_MOST, SECTIONS_MOST, TURNS_MOST, QUERIES_MOST = 768, 1024, 768, 256
LENGTH_MOST = 200_000
SECTIONS_AT_A_POINT = 3


class Fault(Exception):
    """Something that a planner has to mend, said in one sentence."""


@dataclasses.dataclass
class Point:
    name: str
    place: tuple | None = None  # x and y of a drawing
    line: int = 0  # of the text, as in the classes below; 0 where there is none


@dataclasses.dataclass
class Section:
    """Ends are numbers of points, lengths decimetres."""
    name: str
    a: int
    b: int
    length: int
    kind: int
    from_a: int
    from_b: int
    line: int = 0

    def is_free(self):
        return self.from_a == self.from_b == self.length

    def stock(self):
        return 0 if self.is_free() else self.length - self.from_a - self.from_b

    def point_at(self, end):
        return self.b if end else self.a

    def end_at(self, point):
        return 0 if point == self.a else 1

    def far(self, point):
        return self.b if point == self.a else self.a

    def free_from(self, point):
        return self.from_a if point == self.a else self.from_b


@dataclasses.dataclass
class Turn:
    """Two sections, by number."""
    one: int
    other: int
    line: int = 0


@dataclasses.dataclass
class Query:
    length: int
    start: int
    start_end: int
    finish: int
    finish_end: int
    line: int = 0


@dataclasses.dataclass
class Yard:
    points: list
    sections: list
    turns: list
    queries: list

    def sections_at(self, point):
        """In ascending order of their numbers."""
        return [number for number, section in enumerate(self.sections) if point in (section.a, section.b)]

    def forbidden(self, one, other):
        return any({turn.one, turn.other} == {one, other} for turn in self.turns)

    def turn_point(self, turn):
        """The point that the two sections of a turn share, None if they share none."""
        one, other = self.sections[turn.one], self.sections[turn.other]
        return next((point for point in (one.a, one.b) if point in (other.a, other.b)), None)

    def arrival_point(self, arrival):
        """Arrival 2s is over section s to its end A, 2s + 1 to its end B."""
        return self.sections[arrival // 2].point_at(arrival % 2)


def metres(decimetres):
    """41.5 m for 415."""
    whole, tenth = divmod(decimetres, 10)
    return "%d.%d m" % (whole, tenth) if tenth else "%d m" % whole

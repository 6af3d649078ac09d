"""The route program's output, and what it means in words."""
import dataclasses

from . import text, walk
from .plan import Fault, metres

MEANINGS = {
    1: "the yard has too many or too few points, sections or turns",
    2: "section %s breaks the rules for a section",
    3: "section %s joins the same two points as an earlier one",
    4: "point %s has no section, or over three",
    5: "forbidden turn %s is none: two different connecting sections that share a point",
    6: "forbidden turn %s is the second at its point",
    7: "no train has this length: it is 0.1 m to 2000 m",
    8: "the train doesn't stand there: the start is no destination, or less stock than the train's length is on it",
    9: "the finish is no destination, or it is the start section and end",
    10: "at the finish less is free than the train is long",
    12: "there is no route",
}


@dataclasses.dataclass
class Answer:
    """One line for a query: a route with its total, reversals and arrivals, or a refusal."""
    refusal: int
    place: int
    total: int = 0
    reversals: int = 0
    arrivals: tuple = ()


@dataclasses.dataclass
class Output:
    """What the program said of the yard as a whole, if it refused that, or else its answer for each query."""
    refusal: int
    place: int
    answers: list


def numbers(words, line):
    try:
        return [int(word) for word in words]
    except ValueError:
        raise Fault("line %d of the output is not the route program's" % line) from None


def read_output(said, yard):
    lines = [line for line in said.splitlines() if line.strip()]
    first = lines[0].split() if lines else []
    if first[:1] in (["FILE"], ["REFUSED"]) and len(first) == 3:
        return Output(*numbers(first[1:], 1), [])
    sizes = [len(yard.points), len(yard.sections), len(yard.turns)]
    if first[:1] != ["YARD"]:
        raise Fault("line 1 of the output is not the route program's")
    if numbers(first[1:], 1) != sizes:
        raise Fault("the output is for a yard of %s points, sections and turns, the text has %s"
                    % (" ".join(first[1:]), " ".join(map(str, sizes))))
    if len(lines) - 1 != len(yard.queries):
        raise Fault("the output answers %d queries, the text has %d" % (len(lines) - 1, len(yard.queries)))
    return Output(0, 0, [read_answer(line.split(), number) for number, line in enumerate(lines[1:], 1)])


def read_answer(words, query):
    line = query + 1
    if words[:1] == [str(query)] and words[1:2] == ["REFUSED"] and len(words) == 4:
        return Answer(*numbers(words[2:], line))
    if words[:1] == [str(query)] and words[1:2] == ["ROUTE"] and len(words) >= 4:
        total, reversals, *arrivals = numbers(words[2:], line)
        return Answer(0, 0, total, reversals, tuple(arrivals))
    raise Fault("line %d of the output is not an answer to query %d" % (line, query))


def meaning(yard, number, place):
    """A refusal in words, with the name of its place."""
    if number == 20:
        return "the yard file is malformed at offset %d" % place
    if number not in MEANINGS:
        return "refused with number %d at %d" % (number, place)
    named = {2: yard.sections, 3: yard.sections, 4: yard.points}.get(number)
    words = MEANINGS[number]
    if "%s" not in words:
        return words
    return words % (named[place].name if named and place < len(named) else place + 1)


def reversals_in_words(count):
    return {0: "no reversal", 1: "1 reversal"}.get(count, "%d reversals" % count)


def headline(yard, number, answer):
    query = yard.queries[number - 1]
    found = meaning(yard, answer.refusal, answer.place) if answer.refusal else "%s, %s" % (
        metres(answer.total), reversals_in_words(answer.reversals))
    return "Query %d: %s: %s" % (number, text.query_words(yard, query), found)


def checked_walk(yard, number, answer):
    """The steps of an answer; a Fault where they or their sums are not those of the yard."""
    try:
        steps = walk.steps(yard, yard.queries[number - 1], answer.arrivals)
        walk.check_sum(yard, yard.queries[number - 1], steps, answer.total, answer.reversals)
    except Fault as fault:
        raise Fault("query %d: %s" % (number, fault)) from None
    return steps


def step_lines(yard, query, step):
    section, start, end = yard.sections[step.section], yard.points[step.start], yard.points[step.end]
    if step.pull_out is not None:
        names = ", ".join(yard.sections[number].name for number in step.pull_out)
        yield "reverse at %s: draw %s past it onto %s, then go back" % (start.name, metres(query.length), names)
    yield "%s to %s, %s" % (section.name, end.name, metres(section.length))


def walk_lines(yard, query, steps):
    start, finish = yard.sections[query.start], yard.sections[query.finish]
    yield "from %s %s to %s" % (start.name, metres(walk.first_distance(yard, query)),
                                yard.points[start.point_at(query.start_end)].name)
    for step in steps:
        yield from step_lines(yard, query, step)
    yield "into %s by %s, %s" % (finish.name, yard.points[finish.point_at(query.finish_end)].name,
                                 metres(walk.finish_room(yard, query)))


def show(yard, output):
    """The whole output in words."""
    if output.refusal:
        return "The yard is refused: %s\n" % meaning(yard, output.refusal, output.place)
    said = []
    for number, answer in enumerate(output.answers, 1):
        said.append(headline(yard, number, answer))
        if not answer.refusal:
            steps = checked_walk(yard, number, answer)
            said += ["  " + line for line in walk_lines(yard, yard.queries[number - 1], steps)]
    return "".join(line + "\n" for line in said)

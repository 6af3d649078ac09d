"""Where to draw points and sections: as the text says, or by itself, from left to right as trains run.

At a switch the two sections of its forbidden turn lie on one side and the third on the other. So a section leads to the right
or to the left at each of its ends, and points are put into columns such that sections run from left to right, but for loops.
Where there is room to spare destinations are drawn long, not what connects them. Within the columns points follow the mean
height of their neighbours."""
from . import plan

ROUNDS = 60
COLUMN, ROW = 2.6, 1.4  # distances, in the unit of places


def layout(yard):
    """Places of the points, and for each section the places that its line passes, from end A to end B."""
    if all(point.place for point in yard.points):
        places = [point.place for point in yard.points]
        return places, [[places[section.a], places[section.b]] for section in yard.sections]
    return automatic(yard)


def automatic(yard):
    columns = column_numbers(yard, without_rings(left_to_right(yard)))
    bends = [(number, column) for number, section in enumerate(yard.sections)
             for column in between(columns[section.a], columns[section.b])]
    chains = [[section.a, section.b] for section in yard.sections]
    for bend, (number, _) in enumerate(bends, len(columns)):
        chains[number].insert(-1, bend)
    columns = columns + [column for _, column in bends]
    heights = row_heights(columns, [link for chain in chains for link in zip(chain, chain[1:])])
    places = [(COLUMN * column, ROW * height) for column, height in zip(columns, heights)]
    return places[:len(yard.points)], [[places[node] for node in chain] for chain in chains]


def between(one, other):
    """The columns that a line crosses on its way."""
    return range(one + 1, other) if one < other else range(one - 1, other, -1)


def point_sides(yard, point):
    """For each section at a point the side, 1 or -1, on which it leaves."""
    here = yard.sections_at(point)
    turn = next((turn for turn in yard.turns if yard.turn_point(turn) == point), None)
    together = {turn.one, turn.other} if turn else set(here[1:] or here)
    return {number: 1 if number in together else -1 for number in here}


def facing_sides(yard):
    """The sides of all points, each turned round where the section by which it is first met asks for it."""
    sides, met = [point_sides(yard, point) for point in range(len(yard.points))], set()
    for root in range(len(sides)):
        waiting = [] if root in met else [root]
        met.add(root)
        while waiting:
            point = waiting.pop(0)
            for number, side in sides[point].items():
                far = yard.sections[number].far(point)
                if far not in met:
                    met.add(far)
                    waiting.append(far)
                    turned = -side * sides[far][number]
                    sides[far] = {other: turned * of_other for other, of_other in sides[far].items()}
    return sides


def left_to_right(yard):
    """Left point, right point and number of the sections, but for those that a loop makes leave both points on one side."""
    sides = facing_sides(yard)
    for number, section in enumerate(yard.sections):
        at_a, at_b = sides[section.a][number], sides[section.b][number]
        if at_a != at_b:
            yield (section.a, section.b, number) if at_a == 1 else (section.b, section.a, number)


def without_rings(runs):
    """The runs, but for those that would close a ring."""
    kept, following = [], {}
    for left, right, number in runs:
        reached, waiting = {right}, [right]
        while waiting:
            fresh = following.get(waiting.pop(), set()) - reached
            reached |= fresh
            waiting += fresh
        if left not in reached:
            following.setdefault(left, set()).add(right)
            kept.append((left, right, number))
    return kept


def column_numbers(yard, runs):
    """As far left as the runs allow; what has only destinations to its left then moves up to what it leads to."""
    columns, changed = [0] * len(yard.points), True
    while changed:
        changed = False
        for left, right, _ in runs:
            if columns[right] <= columns[left]:
                columns[right], changed = columns[left] + 1, True
    held = {right for _, right, number in runs if yard.sections[number].kind == plan.CONNECTING}
    for point in sorted(range(len(columns)), key=lambda point: -columns[point]):
        following = [columns[right] for left, right, _ in runs if left == point]
        if following and point not in held:
            columns[point] = min(following) - 1
    return columns


def row_heights(columns, links):
    """Heights that begin with the order in which the columns are reached from the left."""
    neighbours = [[] for _ in columns]
    for one, other in links:
        neighbours[one].append(other)
        neighbours[other].append(one)
    inside = [[node for node in range(len(columns)) if columns[node] == column] for column in sorted(set(columns))]
    heights = [0.0] * len(columns)
    for column in inside:
        settle(column, [[other for other in near if columns[other] < columns[column[0]]] for near in neighbours], heights)
    for _ in range(ROUNDS):
        for column in inside:
            settle(column, neighbours, heights)
    return heights


def settle(column, neighbours, heights):
    """Each at the mean height of its neighbours, as far as there is a row's distance between any two."""
    wish = {node: sum(heights[other] for other in neighbours[node]) / max(1, len(neighbours[node])) for node in column}
    column = sorted(column, key=lambda node: (wish[node], node))
    placed = []
    for node in column:
        placed.append(max(wish[node], placed[-1] + 1) if placed else wish[node])
    shift = sum(height - wish[node] for height, node in zip(placed, column)) / len(column)
    for height, node in zip(placed, column):
        heights[node] = height - shift

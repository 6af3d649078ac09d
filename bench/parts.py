"""The parts of a call, told by the places of bench/measuring.py, and tables of instructions by part and by function."""
import collections
import re

# The first that matches a place names its part. What the compiler has put into an entry counts by what was called before.
STEPS = "step table"
PULL_OUTS = "pull-outs, and the reversals that they serve"
PARTS = [
    ("plan check, with who meets where and the turn of each point", r"plan::|.*after plan::"),
    ("train, start, finish", r"train::"),
    (STEPS, r"(steps|turns|lessons|tries|reversal)::|.*after (turns|lessons|tries|reversal)::"),
    ("labels", r"distance::"),
    ("check of the labels, route", r"search::solve"),
    ("writing, a sheet's rules", r""),
]


def summed(counts, name_of):
    sums = collections.Counter()
    for (place, address), count in counts.items():
        sums[name_of(place, address)] += count
    return sums


def part_of(place, _):
    return next(part for part, pattern in PARTS if re.match(pattern, place.removesuffix(", in the C library")))


def with_pull_outs(parts, without_turns):
    """The same parts, with what forbidden turns add to the table of steps told apart. Both are of one call."""
    return parts + collections.Counter({PULL_OUTS: parts[STEPS] - without_turns[STEPS], STEPS: without_turns[STEPS] - parts[STEPS]})


def function_of(place, _):
    return place


def block_of(place, address):
    return f"{place}, {address.decode().lstrip('0')}"


def print_counts(head, counts, calls, most=None):
    whole = sum(counts.values())
    print(f"| {head} | Instructions of a call, thousands | Share |\n|---|---|---|")
    for name, count in counts.most_common(most):
        print(f"| {name} | {count / calls / 1000:,.1f} | {100 * count / whole:.1f} % |")
    print(f"| all | {whole / calls / 1000:,.1f} | |\n")

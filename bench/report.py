#!/usr/bin/env python3
"""Prints the raw numbers of bench/run.sh as a Markdown report.

usage: report.py RAW.tsv

A line of RAW.tsv is: what, task, unit, policy, times, side, round, value. `what` is time (nanoseconds of one time, of a run
the whole), count (the steps of a run, the takes of a load) or instructions (machine instructions of one time, of a run one
step); side is clock, baseline, packed or all.
"""
import csv
import statistics
import sys

SIDES = {"clock": "ours", "baseline": "plain Rust", "packed": "packed"}
COMPARED = ("clock", "baseline")  # the sides of the ratio
TARGET = 1.0
LIMITS = (1.0, 1.2)


class Row:
    """All that was measured for one task, unit and policy."""

    def __init__(self, task, unit, policy):
        self.task, self.unit, self.policy = task, unit, policy
        self.rounds = {side: [] for side in SIDES}
        self.instructions = {}
        self.count = None

    def take(self, line):
        value = float(line["value"])
        if line["what"] == "time":
            self.rounds[line["side"]].append(value)
        elif line["what"] == "instructions":
            self.instructions[line["side"]] = value
        elif line["what"] == "count":
            self.count = value

    def name(self):
        return f"{self.task} {self.unit}" + ("" if self.policy == "first-in" else f", {self.policy}")

    def median(self, side):
        """Nanoseconds of one time, and of a run one step."""
        whole = statistics.median(self.rounds[side])
        return whole / self.count if self.task == "run" else whole

    def ratios(self, other="baseline"):
        """The ratio of each round, in which all sides are measured one right after the other."""
        return [ours / theirs for ours, theirs in zip(self.rounds["clock"], self.rounds[other])]

    def ratio(self, other="baseline"):
        return statistics.median(self.ratios(other))

    def instruction_ratio(self, other="baseline"):
        return self.instructions["clock"] / self.instructions[other]

    def spread(self):
        """Between what a quarter and three quarters of the rounds' ratios lie."""
        low, _, high = statistics.quantiles(self.ratios(), n=4)
        return low, high


def read(path):
    """The rows of a file of raw numbers, in the order in which they were measured."""
    rows = {}
    with open(path, encoding="ascii", newline="") as file:
        for line in csv.DictReader(file, delimiter="\t"):
            key = line["task"], line["unit"], line["policy"]
            rows.setdefault(key, Row(*key)).take(line)
    for row in rows.values():
        if not all(row.rounds.values()):
            sys.exit(f"{path}: {row.name()} was not measured on every side")
    return list(rows.values())


# Tables


def number(value):
    """A figure in a table: three or more digits, and - for none."""
    if value is None:
        return "-"
    return f"{value:,.0f}" if value >= 1000 else f"{value:.1f}" if value >= 10 else f"{value:.2f}"


def line(cells):
    return "| " + " | ".join(cells) + " |"


def table(heads, rows):
    """A Markdown table whose first column is text and whose others are figures."""
    return "\n".join([line(heads), line(["---"] + ["---:"] * (len(heads) - 1)), *map(line, rows)])


def heads(unit, sides=SIDES):
    return [f"{SIDES[side]} ({unit})" for side in sides]


def time_cells(row):
    low, high = row.spread()
    return [
        row.name(),
        *(number(row.median(side)) for side in COMPARED),
        f"{row.ratio():.2f}",
        f"{low:.2f} to {high:.2f}",
        *(number(row.instructions.get(side)) for side in COMPARED),
        number(row.median("packed")),
        f"{row.ratio('packed'):.2f}",
    ]


def times(rows):
    first = ["row", *heads("ns", COMPARED), "ratio", "spread"]
    return table([*first, *heads("instructions", COMPARED), "packed (ns)", "ours / packed"], map(time_cells, rows))


def task_cells(task, ratios):
    figures = min(ratios), statistics.median(ratios), max(ratios)
    return [task, f"{len(ratios)}", *(f"{figure:.2f}" for figure in figures)]


def tasks(rows):
    ratios = {}
    for row in rows:
        ratios.setdefault(row.task, []).append(row.ratio())
    return table(["task", "rows", "lowest ratio", "median", "highest"], (task_cells(*one) for one in ratios.items()))


def growth_cells(row):
    whole = [row.median(side) for side in SIDES]
    return [row.name(), f"{row.count:.0f}", *map(number, whole), *(number(one / row.count) for one in whole)]


def growth(rows):
    loads = (row for row in rows if row.task == "load")
    return table(["row", "takes", *heads("ns"), *heads("ns a take")], map(growth_cells, loads))


# Sentences


def reached(rows):
    count = sum(row.ratio() <= TARGET for row in rows)
    verb = "has" if count == 1 else "have"
    return f"{count} of {len(rows)} rows {verb} a ratio of at most {TARGET}, before it is rounded."


def above(rows, limit):
    count = sum(row.ratio() > limit for row in rows)
    return f"{count} of {len(rows)} rows {'is' if count == 1 else 'are'} above {limit}"


def span(ratios):
    return f"from {min(ratios):.2f} to {max(ratios):.2f}"


def summary(rows):
    worst = max(rows, key=Row.ratio)
    limits = ", ".join(above(rows, limit) for limit in LIMITS)
    return f"""The highest ratio is {worst.ratio():.2f} ({worst.name()}); {limits}.
Ours / packed goes {span([row.ratio('packed') for row in rows])}."""


def instructions_summary(rows):
    counted = [row for row in rows if len(row.instructions) == len(SIDES)]
    if not counted:
        return "Machine instructions were not counted."
    worst = max(counted, key=Row.instruction_ratio)
    packed = span([row.instruction_ratio("packed") for row in counted])
    return f"""Of machine instructions, counted for {len(counted)} rows, the highest ratio is
{worst.instruction_ratio():.2f} ({worst.name()}); ours / packed goes {packed}."""


def report(rows):
    rounds = min(len(row.rounds[side]) for row in rows for side in SIDES)
    return f"""{reached(rows)}

Three programs with one command line do the same tasks, and give the same answers. **Ours** is `crates/clock`, over the
library as it is proved. **Plain Rust** is `bench/baseline`, the same rules in ordinary Rust that is written for speed, and
what the ratio compares with. **Packed** is `bench/packed`, the same rules in Rust with the cells of a frame packed into a
word by hand.

## Time

Medians of {rounds} rounds, in each of which ours, plain Rust and packed are measured in turn. The ratio is the median of the
rounds' ratios of ours and plain Rust, and half of those lie within the spread. Time and machine instructions
are those of one time, and in the rows of `run` those of one step. The pick policy is first-in where no other is named.
What `write` and `solve` do depends on the number of instructions alone, so one shape stands for all.

{times(rows)}

## Ratios by task

{tasks(rows)}

## Growth of a load

Takes are those of the three analyses together.

{growth(rows)}

## In short

{summary(rows)}
{instructions_summary(rows)}
"""


def main():
    if len(sys.argv) != 2:
        sys.exit("usage: report.py RAW.tsv")
    rows = read(sys.argv[1])
    if not rows:
        sys.exit(f"report.py: there are no numbers in {sys.argv[1]}")
    print(report(rows))


if __name__ == "__main__":
    main()

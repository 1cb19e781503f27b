#!/usr/bin/env python3
"""Runs the search on covering problems and compares the weights of its covers: the charts of the tables in tests/tables/hard6.txt with the optimum listed
there, and 200 small problems with the least weight that trying every selection finds.

    check.py SOLVE          SOLVE is bench/solve.c, linked with the search for C

Prints each failure, and at the end 'N passed, 0 failed'."""
import pathlib
import random
import subprocess
import sys

TESTS = pathlib.Path(__file__).parent.parent
sys.path.insert(0, str(TESTS))
import charts

SMALL = 200
TABLES = 108


def least(columns, rows):
    """The least weight of a selection that covers the columns. Selection s has row r when bit r of s is set."""
    covered, weight, best = [0], [0], 0 if columns == 0 else None
    for selection in range(1, 1 << len(rows)):
        without, last = selection & (selection - 1), rows[(selection & -selection).bit_length() - 1]
        covered.append(covered[without] | last[0])
        weight.append(weight[without] + last[1])
        if columns & ~covered[-1] == 0 and (best is None or weight[-1] < best):
            best = weight[-1]
    return best


def small(generator):
    """Small problems: the edges, and random ones in which each column has a row."""
    yield 0, []
    yield 0, [(5, 7)]
    yield 1, [(1, 0)]
    yield 1 << 63, [(1 << 63, 4294967295)]
    yield (1 << 64) - 1, [((1 << 64) - 1, 9), ((1 << 32) - 1, 4), (((1 << 32) - 1) << 32, 4)]
    yield 7, [(3, 5), (6, 5), (5, 5)]
    yield 7, [(7, 9), (1, 3), (2, 3), (4, 3), (3, 5)]
    while True:
        places = generator.sample(range(64), generator.randint(1, 8))
        heaviest = generator.choice([1, 3, 100, 4294967295])
        rows = [
            (sum(1 << place for place in places if generator.random() < 0.35), generator.randint(0, heaviest))
            for _ in range(generator.randint(1, 12))
        ]
        columns = sum(1 << place for place in places)
        covered = 0
        for word, _ in rows:
            covered |= word
        if columns & ~covered == 0:
            yield columns, rows


def main(solve):
    problems = [(charts.chart(width, cells), weight) for width, cells, weight in charts.tables(TESTS / "tables" / "hard6.txt")]
    for problem, _ in zip(small(random.Random(1956)), range(SMALL)):
        problems.append((problem, least(*problem)))
    text = "\n".join(charts.show(*problem) for problem, _ in problems)
    lines = subprocess.run([solve], input=text, stdout=subprocess.PIPE, check=True, text=True).stdout.splitlines()
    if len(problems) != TABLES + SMALL or len(lines) != len(problems):
        sys.exit("%d problems, expected %d, and %d answers" % (len(problems), TABLES + SMALL, len(lines)))
    wrong = 0
    for (problem, optimum), line in zip(problems, lines):
        weight = int(line.split()[2])
        if weight != optimum:
            wrong += 1
            print("weight %d, expected %d, for:\n%s" % (weight, optimum, charts.show(*problem)))
    print("%d passed, %d failed" % (len(problems) - wrong, wrong))
    return wrong != 0


if __name__ == "__main__":
    if len(sys.argv) != 2:
        sys.exit(__doc__)
    sys.exit(main(sys.argv[1]))

#!/usr/bin/env python3
"""Covering problems for the tests and the benchmark, made without any of the code under test.

    charts.py tables FILE        the charts of the tables in FILE, one problem after the other
    charts.py random SEED N      N random charts of six-bit tables

A table is a line "width cells rows bits", a cell for each code from 0 up: 0 barred, 1 wanted,
- free. Its chart has a row for each prime implicant that matches a wanted code and a column for
each wanted code; a row weighs 10,000 and its tested bits. A problem is written in hexadecimal: the number of rows, the
set of columns, and for each row its set of columns and its weight.
"""
import random
import sys


def implicants(width, cells):
    """The implicants by the number of their tested bits, as (value, care)."""
    full = (1 << width) - 1
    found = [set() for _ in range(width + 1)]
    found[width] = {(code, full) for code in range(1 << width) if cells[code] != "0"}
    for tested in range(width, 0, -1):
        for value, care in found[tested]:
            for bit in (1 << k for k in range(width)):
                if care & bit and (value ^ bit, care) in found[tested]:
                    found[tested - 1].add((value & ~bit, care & ~bit))
    return found


def primes(width, cells):
    """The implicants that no implicant with one tested bit fewer contains."""
    found = implicants(width, cells)
    for tested, level in enumerate(found):
        for value, care in level:
            wider = ((value & ~bit, care & ~bit) for bit in (1 << k for k in range(width)) if care & bit)
            if not any(term in found[tested - 1] for term in wider):
                yield value, care


def chart(width, cells):
    """The chart of a table: its columns, and (columns, weight) for each row."""
    wanted = [code for code in range(1 << width) if cells[code] == "1"]
    rows = [
        (sum(1 << code for code in wanted if code & care == value), 10000 + bin(care).count("1"))
        for value, care in sorted(primes(width, cells))
    ]
    return sum(1 << code for code in wanted), [row for row in rows if row[0] != 0]


def show(columns, rows):
    """A problem as text."""
    return "\n".join(["%x %x" % (len(rows), columns)] + ["%x %x" % row for row in rows])


def tables(path):
    """The tables of a file: width, cells, listed weight."""
    for line in open(path):
        width, cells, rows, bits = line.split()
        yield int(width), cells, int(rows) * 10000 + int(bits)


def random_cells(generator):
    """A random six-bit table, of a random density."""
    wanted, barred = generator.random(), generator.random()
    cells = ""
    for _ in range(64):
        draw = generator.random()
        cells += "1" if draw < wanted else "0" if draw < wanted + (1 - wanted) * barred else "-"
    return cells


def random_charts(seed, count):
    """The charts of random six-bit tables."""
    generator = random.Random(seed)
    return [chart(6, random_cells(generator)) for _ in range(count)]


def main(words):
    if words[:1] == ["tables"] and len(words) == 2:
        for width, cells, _ in tables(words[1]):
            print(show(*chart(width, cells)))
    elif words[:1] == ["random"] and len(words) == 3:
        for problem in random_charts(int(words[1]), int(words[2])):
            print(show(*problem))
    else:
        sys.exit(__doc__)


if __name__ == "__main__":
    main(sys.argv[1:])

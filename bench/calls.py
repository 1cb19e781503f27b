#!/usr/bin/env python3
"""Times of the calls for C.

    bench/calls.py check            rows_check on lists of up to 255 rows
    bench/calls.py tables           rows_primes, rows_chart, both calls that list the essential primes, and rows_plan on the tables of tests/tables
    bench/calls.py lists            rows_plan, rows_keep_out and rows_better on the same tables, and on them with wanted and barred exchanged
    bench/calls.py NAME OTHER.a     beside another libinstaller.a, as an older one, and how many times as long that one takes

It builds bench/check.c, bench/tables.c or bench/lists.c over each archive and runs the programs in turn, nine times each; the least time of each line counts. Run from the top of
the repository.
"""
import os
import subprocess
import sys

OUT = "target/bench"
OURS = "target/staticlib/libinstaller.a"

# what each program is given: of the tables, how many times each file is gone through
TABLES = ["tests/tables/hard6.txt", "20", "tests/tables/dense.txt", "20", "tests/tables/adversarial6.txt", "1"]
WORDS = {"check": [], "tables": TABLES, "lists": TABLES}


def run(words):
    return subprocess.run(words, check=True, stdout=subprocess.PIPE, text=True).stdout


def main(name, *archives):
    os.makedirs(OUT, exist_ok=True)
    run(["make", OURS])
    programs = []
    for number, archive in enumerate((OURS,) + archives):
        programs.append("%s/%s%d" % (OUT, name, number))
        run(["cc", "-O2", "-static", "-Iinclude", "-o", programs[-1], "bench/%s.c" % name, archive])
    times = [{} for _ in programs]
    for _ in range(9):
        for program, least in zip(programs, times):
            for line in run([program] + WORDS[name]).splitlines():
                took, what = line.split(" ", 1)
                least[what] = min(float(took), least.get(what, float("inf")))
    for what, took in times[0].items():
        others = "".join(", the other %.2f us, %.2f times as long" % (other[what] / 1e3, other[what] / took) for other in times[1:])
        print("%s: %.2f us%s" % (what, took / 1e3, others))
        beside = times[0].get(what.replace("rows_essentials_by_neighbours", "rows_essentials"), took)
        if beside != took:
            print("    rows_essentials takes %.1f times as long" % (beside / took))


if len(sys.argv) not in (2, 3) or sys.argv[1] not in WORDS:
    sys.exit(__doc__)
main(*sys.argv[1:])

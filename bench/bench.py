#!/usr/bin/env python3
"""Nodes and times of the search, and two other exact solvers on the same covering problems.

    bench/bench.py               the listed tables, those that were searched for because they are slow, and random ones
    bench/bench.py --quick       the listed tables and the slow ones, without the other solvers

It builds bench/solve.c over the proved search and bench/stack.c over the calls for C, takes the
charts from tests/charts.py, compares every optimum with the listed one and with that of glpsol
and cbc, and prints the times of whole processes, their ratios and the stack that was used. Run
from the top of the repository. It installs Debian's glpk-utils and coinor-cbc, if missing,
by apt-get.
"""
import ctypes
import os
import re
import resource
import shutil
import subprocess
import sys
import time

sys.path.insert(0, "tests")
import charts

TABLES = "tests/tables/hard6.txt"
ADVERSARIAL = "tests/tables/adversarial6.txt"
DENSE = "tests/tables/dense.txt"
OUT = "target/bench"
PROBLEM = OUT + "/problem.lp"
SOLVERS = {"glpsol": "glpk-utils", "cbc": "coinor-cbc"}


def run(words, **more):
    return subprocess.run(words, check=True, stdout=subprocess.PIPE, stderr=subprocess.STDOUT, text=True, **more).stdout


def timed(words, **more):
    """What a command writes, and the least wall time and processor time of three runs, in seconds."""
    wall, processor = [], []
    for _ in range(3):
        before, start = resource.getrusage(resource.RUSAGE_CHILDREN), time.perf_counter()
        text = run(words, **more)
        wall.append(time.perf_counter() - start)
        after = resource.getrusage(resource.RUSAGE_CHILDREN)
        processor.append(after.ru_utime + after.ru_stime - before.ru_utime - before.ru_stime)
    return text, min(wall), min(processor)


def build(program, library):
    archive = "target/staticlib/lib%s.a" % library
    run(["make", archive])
    run(["cc", "-O2", "-static", "-Iinclude", "-o", OUT + "/" + program, "bench/%s.c" % program, archive, "-lpthread"])


def prepare(quick):
    os.makedirs(OUT, exist_ok=True)
    missing = [] if quick else [package for solver, package in SOLVERS.items() if not shutil.which(solver)]
    if missing:
        run(["apt-get", "update"])
        run(["apt-get", "install", "-y", "--no-install-recommends"] + missing)
    build("solve", "search_c")
    build("stack", "installer")


def search(texts):
    """What the search answers to problems as text: a list of (rows, weight, nodes, depth, microseconds), the stack, wall and processor time."""
    text = "\n".join(texts)
    out, wall, processor = timed([OUT + "/solve"], input=text)
    answers = [tuple(float(word) if "." in word else int(word) for word in line.split()[1:]) for line in out.splitlines()]
    stack = run([OUT + "/solve", "stack"], input=text).split()[-1]
    return answers, int(stack), wall, processor


def each_alone(words, texts):
    """Wall and processor time of a command with a process for each text."""
    wall = processor = 0
    for text in texts:
        _, took, used = timed(words, input=text)
        wall, processor = wall + took, processor + used
    return wall, processor


def write_program(path, columns, rows):
    """A problem as an integer program."""
    used = [(place, word, weight) for place, (word, weight) in enumerate(rows) if word & columns]
    lines = ["Minimize", " weight: " + " + ".join("%d x%d" % (weight, place) for place, _, weight in used), "Subject To"]
    for column in range(64):
        if columns >> column & 1:
            lines.append(" c%d: " % column + " + ".join("x%d" % place for place, word, _ in used if word >> column & 1) + " >= 1")
    lines += ["Binary", " " + " ".join("x%d" % place for place, _, _ in used), "End"]
    open(path, "w").write("\n".join(lines) + "\n")


def other(solver, columns, rows):
    """The optimum of another solver, and the wall and processor time of its process."""
    write_program(PROBLEM, columns, rows)
    if solver == "glpsol":
        _, wall, processor = timed(["glpsol", "--lp", PROBLEM, "-w", OUT + "/answer"])
        line = re.search(r"^s mip \d+ \d+ o (\d+)", open(OUT + "/answer").read(), re.M)
    else:
        text, wall, processor = timed(["cbc", PROBLEM, "solve", "solu", OUT + "/answer"])
        line = re.search(r"Objective value: +(\d+)\.0+$", text, re.M)
    return int(line.group(1)), wall, processor


def library(problems):
    """The time that glpk's library takes to solve problems, without reading them and without a process for each."""
    glpk = ctypes.CDLL("libglpk.so.40")
    glpk.glp_create_prob.restype = ctypes.c_void_p
    glpk.glp_term_out(0)
    took = 0
    for columns, rows in problems:
        if columns:
            write_program(PROBLEM, columns, rows)
            problem = ctypes.c_void_p(glpk.glp_create_prob())
            glpk.glp_read_lp(problem, None, PROBLEM.encode())
            start = time.perf_counter()
            glpk.glp_adv_basis(problem, 0)
            glpk.glp_simplex(problem, None)
            glpk.glp_intopt(problem, None)
            took += time.perf_counter() - start
            glpk.glp_delete_prob(problem)
    return took


def report(name, problems, listed, solvers, lines):
    texts = [charts.show(*problem) for problem in problems]
    answers, stack, wall, processor = search(texts)
    for number, (rows, weight, nodes, depth, took) in enumerate(answers if lines else []):
        print("%s %3d: %2d rows, weight %6d, %4d nodes, depth %2d, %8.1f us" % (name, number, rows, weight, nodes, depth, took))
    wrong = sum(weight != right for (_, weight, *_), right in zip(answers, listed or []))
    print("\n%s: %d charts of %d rows in all%s" % (name, len(answers), sum(a[0] for a in answers), "" if listed is None else ", %d not at the listed optimum" % wrong))
    print("nodes: %d in all, %d at most; depth of calls: %d at most; stack: %d bytes" % (
        sum(a[2] for a in answers), max(a[2] for a in answers), max(a[3] for a in answers), stack))
    print("time in the search: %.1f ms in all, %.2f ms at most" % (sum(a[4] for a in answers) / 1e3, max(a[4] for a in answers) / 1e3))
    print("one process for all charts: %.1f ms wall, %.1f ms processor" % (wall * 1e3, processor * 1e3))
    if not solvers:
        return wrong
    alone_wall, alone_processor = each_alone([OUT + "/solve"], texts)
    print("a process for each chart: %.1f ms wall, %.1f ms processor" % (alone_wall * 1e3, alone_processor * 1e3))
    print("a process that does nothing, for each chart: %.1f ms wall, %.1f ms processor" % tuple(
        1e3 * took for took in each_alone(["true"], [""] * len(answers))))
    for solver in solvers:
        total = used = differ = 0
        for (columns, rows), (_, weight, *_) in zip(problems, answers):
            if columns:
                optimum, took, busy = other(solver, columns, rows)
                total, used, differ = total + took, used + busy, differ + (optimum != weight)
        print("%s, a process for each chart: %.1f ms wall, %.1f ms processor; %d optima differ" % (solver, total * 1e3, used * 1e3, differ))
        print("    times as long as one process of ours: %.1f wall, %.1f processor; as a process of ours for each chart: %.1f wall" % (
            total / wall, used / processor, total / alone_wall))
        wrong += differ
    if "glpsol" not in solvers:
        return wrong
    took = library(problems)
    print("glpk as a library, in one process: %.1f ms to solve, %.1f times as long as our search" % (took * 1e3, took * 1e6 / sum(a[4] for a in answers)))
    return wrong


def main(words):
    quick = words == ["--quick"]
    if words and not quick:
        sys.exit(__doc__)
    prepare(quick)
    solvers = [] if quick else list(SOLVERS)
    tables = list(charts.tables(TABLES))
    wrong = report("hard6", [charts.chart(width, cells) for width, cells, _ in tables], [weight for _, _, weight in tables], solvers, True)
    dense = list(charts.tables(DENSE))
    wrong += report("dense", [charts.chart(width, cells) for width, cells, _ in dense], [weight for _, _, weight in dense], [], False)
    slow = list(charts.tables(ADVERSARIAL))
    wrong += report("adversarial6", [charts.chart(width, cells) for width, cells, _ in slow], [weight for _, _, weight in slow], solvers[1:], False)
    if not quick:
        wrong += report("random", charts.random_charts(1956, 500), None, solvers, False)
    for name, files in ("hard6", [TABLES]), ("all of tests/tables", [TABLES, ADVERSARIAL, DENSE]):
        stack = run([OUT + "/stack"] + files).split()
        print("\nstack for %s: %s bytes in rows_plan, %s in rows_keep_out, %s in rows_better, %s in rows_chart, %s in rows_essentials, "
              "%s in rows_essentials_by_neighbours, %s in the other calls for C, %s without a call" % (name, *stack))
    sys.exit("%d answers are wrong" % wrong if wrong else 0)


main(sys.argv[1:])

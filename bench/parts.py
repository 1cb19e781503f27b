#!/usr/bin/env python3
"""What each part of the search saves: the nodes on the listed tables with one part taken out.

    bench/parts.py               every variant
    bench/parts.py NAME...       the named ones

A variant is a copy of the crates in target/bench/parts with a few lines edited and a program added
that runs the search. `rt try` compiles it without a proof, so that no proof has to follow an edit,
and with checks of indices and sums. Run from the top of the repository.
"""
import os
import re
import shutil
import subprocess
import sys

sys.path.insert(0, "tests")
import charts

TABLES = "tests/tables/hard6.txt"
OUT = "target/bench/parts"
TIGHTEN = "bound/src/lib.rt"
CERTIFICATE = "bound/src/certificate.rt"
DUAL = "pricing/src/dual.rt"
SEARCH = "search/src/lib.rt"
BRANCHING = "search/src/branching.rt"

# A program that solves charts and writes the total of the nodes, the most for one chart, and the sum of the weights.
SOLVING = """#![tactic(auto)]

use matrix::{Matrix, columns};

fn solve(words: &[columns::Set], weights: &[u32], columns: columns::Set, sums: &mut [u64; 3]) {
    let answer = search::minimum_cover(Matrix { words, weights }, columns);
    sums[0] += answer.nodes;
    if sums[1] < answer.nodes {
        sums[1] = answer.nodes;
    }
    sums[2] += answer.cover.map_or(0, |cover| cover.weight);
}

fn main(rt: HostRuntime) {
    let mut sums = [0u64; 3];
%s    let [nodes, most, weights] = sums;
    let _ = println!(rt; "{nodes} {most} {weights}");
}
"""
SOLVING_DEPS = "parts: numbers covering matrix reduction pricing bound incumbent search arrayvec\n"

SHARE = "    tighten_by(dual::from_shares, matrix, live, undecided, limit)\n"
ZERO = """    let low = tighten_by(dual::from_zero, matrix, live, undecided, limit);
    if limit <= low {
        return low;
    }
"""
IMPROVE = "    ascent.improve();\n"
NEXT = """let other = match branching::branching_row(&without) {
        Some(next) => choose(&without, limit_with(&incumbent.cover, limit), next),
        None => return incumbent,
    };"""
NO_SHARE = [(TIGHTEN, SHARE, "    low\n")]
NO_IMPROVEMENT = [(DUAL, IMPROVE, "")]
NO_ROUNDING = [(CERTIFICATE, "rounded(&self.offer.problem, self.total)", "self.total")]
NO_FIXING = [(CERTIFICATE, "        *live = solution.kept();\n", "")]

VARIANTS = {
    "all": [],
    "no-share": NO_SHARE,
    "no-zero": [(TIGHTEN, ZERO, "")],
    "no-improvement": NO_IMPROVEMENT,
    "two-improvements": [(DUAL, IMPROVE, IMPROVE + IMPROVE)],
    "no-rounding": NO_ROUNDING,
    "no-fixing": NO_FIXING,
    "no-rounding-no-fixing": NO_ROUNDING + NO_FIXING,
    "zero-alone": NO_SHARE + NO_IMPROVEMENT + NO_ROUNDING + NO_FIXING,
    "no-bound": [(TIGHTEN, "    let low =", "    if 0 < limit {\n        return 0;\n    }\n    let low =")],
    "second-branch-not-reduced": [(SEARCH, "let other = reduce(&without, limit_with(&incumbent.cover, limit));", NEXT)],
    "no-greedy": [(SEARCH, "limit_with(&first.cover, FIRST_LIMIT)", "FIRST_LIMIT")],
    "fewest-rows": [(BRANCHING, "seen[c].is_denser(&seen[best])", "seen[c].rows < seen[best].rows")],
}


def edit(file, old, new):
    path = OUT + "/crates/" + file
    text = open(path).read()
    if text.count(old) != 1:
        sys.exit("%s does not have once: %s" % (file, old))
    open(path, "w").write(text.replace(old, new))


def program(problems):
    """The text of the program that solves these charts."""
    calls = ""
    for number, (columns, rows) in enumerate(problems):
        words = ", ".join("columns::Set::from(%d)" % row[0] for row in rows)
        weights = ", ".join(str(row[1]) for row in rows)
        calls += "    let words_%d: [columns::Set; %d] = [%s];\n" % (number, len(rows), words)
        calls += "    let weights_%d: [u32; %d] = [%s];\n" % (number, len(rows), weights)
        calls += "    solve(&words_%d, &weights_%d, columns::Set::from(%d), &mut sums);\n" % (number, number, columns)
    return SOLVING % calls


def measure(edits, text):
    """The nodes in total and at most, and the sum of the optima, of a variant; None where it does not end within the sixty seconds of `rt try`."""
    shutil.rmtree(OUT, ignore_errors=True)
    shutil.copytree("crates", OUT + "/crates", ignore=shutil.ignore_patterns("out"))
    shutil.copy("crates.txt", OUT)
    open(OUT + "/crates.txt", "a").write(SOLVING_DEPS)
    for each in edits:
        edit(*each)
    os.makedirs(OUT + "/crates/parts/src")
    open(OUT + "/crates/parts/src/main.rt", "w").write(text)
    # one step, since the interpreter of `rt try` is too slow for these charts
    report = subprocess.run(["rt", "try", "--steps", "1"], cwd=OUT + "/crates/parts", stdout=subprocess.PIPE, stderr=subprocess.STDOUT, text=True).stdout
    found = re.findall(r"^(\d+) (\d+) (\d+)$", report, re.M)
    if not found and "checked: no-answer" not in report:
        sys.exit(report)
    return [int(number) for number in found[-1]] if found else None


def main(names):
    tables = list(charts.tables(TABLES))
    text = program([charts.chart(width, cells) for width, cells, _ in tables])
    listed = sum(weight for _, _, weight in tables)
    wrong = 0
    for name in names or VARIANTS:
        found = measure(VARIANTS[name], text)
        print("%-22s %s" % (name, "%8d nodes in all, %7d at most" % tuple(found[:2]) if found else "did not end in time"), flush=True)
        wrong += found is not None and found[2] != listed
    sys.exit("%d variants have another optimum" % wrong if wrong else 0)


main(sys.argv[1:])

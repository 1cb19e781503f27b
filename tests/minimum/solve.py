#!/usr/bin/env python3
"""Writes random dense tables with the rows and bits of a shortest list, as an exact solver finds them over all implicants.

    python3 tests/minimum/solve.py > tests/tables/dense.txt

needs cbc (Debian: coinor-cbc). The gate does not run it: it compares with the stored results. A line is the width, the cells, the rows
and the bits. The model has a binary variable for each implicant and the weight 10,000 + tested bits; nothing is left out but what no
wanted code needs."""
import itertools
import random
import subprocess
import sys
import tempfile

TABLES = [(4, 40), (5, 120), (6, 140)]


def cubes(n):
    for digits in itertools.product("01-", repeat=n):
        codes = [c for c in range(2**n) if all(d in ("-", b) for d, b in zip(digits, format(c, f"0{n}b")))]
        yield codes, n - digits.count("-")


def model(cells, implicants):
    lines = ["Minimize", " obj: " + " + ".join(f"{10000 + bits} x{i}" for i, (_, bits) in enumerate(implicants)), "Subject To"]
    for c, cell in enumerate(cells):
        if cell == "1":
            lines.append(f" c{c}: " + " + ".join(f"x{i}" for i, (codes, _) in enumerate(implicants) if c in codes) + " >= 1")
    return "\n".join(lines + ["Binary"] + [f" x{i}" for i in range(len(implicants))] + ["End", ""])


def solve(n, cells):
    if "1" not in cells:
        return 0, 0
    implicants = [(codes, bits) for codes, bits in cubes(n) if all(cells[c] != "0" for c in codes) and any(cells[c] == "1" for c in codes)]
    with tempfile.TemporaryDirectory() as folder:
        with open(folder + "/m.lp", "w") as f:
            f.write(model(cells, implicants))
        subprocess.run(["cbc", folder + "/m.lp", "ratio", "0", "allow", "0", "solve", "solution", folder + "/m.sol"], check=True, stdout=subprocess.DEVNULL)
        lines = open(folder + "/m.sol").read().splitlines()
    if not lines[0].startswith("Optimal"):
        sys.exit(f"not solved: {n} {cells}: {lines[0]}")
    chosen = [implicants[int(words[1][1:])] for words in map(str.split, lines[1:]) if round(float(words[2])) == 1]
    assert all(any(c in codes for codes, _ in chosen) for c, cell in enumerate(cells) if cell == "1")
    return len(chosen), sum(bits for _, bits in chosen)


def main():
    source = random.Random(1956)
    for n, count in TABLES:
        for _ in range(count):
            wanted, free = source.choice([(5, 0), (4, 1), (4, 2), (3, 2), (6, 1)])
            cells = "".join(source.choices("10-", [wanted, 8 - wanted - free, free], k=2**n))
            print(n, cells, *solve(n, cells))


main()

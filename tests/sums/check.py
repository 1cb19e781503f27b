#!/usr/bin/env python3
"""Runs the program sums on the texts in tests/sums/texts, on those of tests/rows/texts that rows refuses, and as tests/programs.py says. Prints each failure,
and at the end 'N passed, 0 failed'.

For every table of widths 1 and 2, random ones of widths 3 to 6, and those of tests/tables with wanted and barred exchanged, the printed product must have the
form that document 02 gives it. Python's own Boolean operators find it 1 on every wanted code and 0 on every barred one. It has as many sums and literals as
the shortest keep-out list has rows and bits: as trying every cube for the lowest barred code that is left finds them, which shares no code with the program, or
as listed in tests/tables."""
import functools
import itertools
import pathlib
import random
import re
import sys

sys.path.insert(0, str(pathlib.Path(__file__).parent.parent))
import programs

RANDOM = 700
DAMAGED = 400
MOST_BARRED = 12
LINE = re.compile(r"(0|1|(\(x[1-6]'?(\+x[1-6]'?)*\))+)\n")
KNOWN = ["hard6.txt", "dense.txt", "adversarial6.txt"]


def refused(answer):
    return answer[0].startswith(b"refused ")


def damaged(source):
    """A table whose text has one byte removed, changed or added."""
    n = source.randrange(1, 7)
    text = f"{n}\n{''.join(source.choices('01-', k=2**n))}\n".encode()
    place, byte = source.randrange(len(text)), bytes([source.choice([*b"0123456789-\n\r x\0", source.randrange(256)])])
    return source.choice([text[:place] + text[place + 1:], text[:place] + byte + text[place + 1:], text[:place] + byte + text[place:]])


def refusals(sums, rows, source):
    """What rows refuses: sums prints the same for it. What rows does not refuse, sums does not refuse."""
    sums.texts((f"{name}, as rows", text, out) for name, text, out in programs.texts("rows") if refused((out,)))
    texts = [damaged(source) for _ in range(DAMAGED)]
    for text, got, want in zip(texts, sums.run_all(texts), rows.run_all(texts)):
        programs.expect(f"{text}, as rows", got if refused(got) else "not refused", want if refused(want) else "not refused")


@functools.cache
def cubes(n):
    """The cubes of a width, each with the set of codes that it matches (bit c for code c) and its tested bits."""
    found = []
    for digits in itertools.product("01-", repeat=n):
        codes = [c for c in range(2**n) if all(d in ("-", b) for d, b in zip(digits, format(c, f"0{n}b")))]
        found.append((sum(1 << c for c in codes), n - digits.count("-")))
    return found


def shortest(n, cells):
    """The rows and the bits of a shortest list that matches every barred code and no wanted one. The lowest barred code that is left takes a cube."""
    barred, wanted = (sum(1 << c for c, cell in enumerate(cells) if cell == kind) for kind in "01")
    taken = {1 << c: [cube for cube in cubes(n) if cube[0] >> c & 1 and not cube[0] & wanted] for c in range(2**n) if barred >> c & 1}

    @functools.cache
    def best(left):
        if left == 0:
            return 0
        return min(10000 + bits + best(left & ~codes) for codes, bits in taken[left & -left])
    return divmod(best(barred), 10000)


def on_every_code(n, product):
    """A product of sums by python's own Boolean operators, on every code from code 0 up. x1 has the highest weight."""
    body = re.sub("(x.)'", r"(not \1)", product).replace(")(", ") and (").replace("+", " or ")
    function = eval(f"lambda {', '.join(f'x{k}' for k in range(1, n + 1))}: {body}")
    return [bool(function(*bits)) for bits in itertools.product([False, True], repeat=n)]


def rows_of(n, product):
    """The rows of the sums, each as its digits from x1 on: 0 and 1 tested, 2 not tested. None where the variables of a sum do not ascend up to xn at most."""
    rows = []
    for sum_text in re.findall(r"\((.*?)\)", product):
        digits, last = ["2"] * n, 0
        for k, complement in re.findall("x(.)('?)", sum_text):
            if not last < int(k) <= n:
                return None
            last = int(k)
            digits[last - 1] = "1" if complement else "0"
        rows.append(digits)
    return rows


def fault(n, cells, answer, counts):
    """What is wrong with an answer of sums, or None."""
    out, err, status = answer
    line = out.decode("latin-1")
    if err or status != 0:
        return "a failure"
    if not LINE.fullmatch(line):
        return "not a product of sums"
    product = line[:-1]
    rows = rows_of(n, product)
    if rows is None:
        return "the variables of a sum do not ascend up to xn at most"
    if any(above >= below for above, below in zip(rows, rows[1:])):
        return "the sums do not ascend by cube number"
    for code, (cell, value) in enumerate(zip(cells, on_every_code(n, product))):
        if cell != "-" and value != (cell == "1"):
            return f"{value} on code {code}"
    if (product.count("(") + (product == "0"), product.count("x")) != counts:
        return "not the shortest, of %d sums and %d literals" % counts
    return None


def every_table(n):
    for cells in itertools.product("01-", repeat=2**n):
        yield n, "".join(cells), shortest(n, cells)


def random_tables(n, source):
    """Random tables with and without free codes. At widths 5 and 6 few codes are barred."""
    for _ in range(RANDOM):
        barred, wanted, free = source.randrange(1, 9) if n < 5 else 0, source.randrange(1, 9), source.choice([0, 1, 4])
        cells = source.choices("01-", [barred, wanted, free], k=2**n)
        if n >= 5:
            for c in source.sample(range(2**n), source.randrange(MOST_BARRED + 1)):
                cells[c] = "0"
        yield n, "".join(cells), shortest(n, cells)


def known_tables(file):
    for line in (programs.TESTS / "tables" / file).read_text().splitlines():
        n, cells, rows, bits = line.split()
        yield int(n), cells.translate(str.maketrans("01", "10")), (int(rows), int(bits))


def products(sums, tables):
    tables = list(tables)
    for (n, cells, counts), answer in zip(tables, sums.run_all(f"{n}\n{cells}\n".encode() for n, cells, _ in tables)):
        programs.expect(f"{n} {cells}: {answer[0]!r}", fault(n, cells, answer, counts), None)


def main():
    source = random.Random(1956)
    rows, sums = programs.Program("rows", "document-01"), programs.Program("sums", "case-f")
    sums.texts(programs.texts("sums"))
    sums.streams()
    refusals(sums, rows, source)
    for n in 1, 2:
        products(sums, every_table(n))
    for n in range(3, 7):
        products(sums, random_tables(n, source))
    for file in KNOWN:
        products(sums, known_tables(file))
    programs.finish()


main()

#!/usr/bin/env python3
"""Computes the worked examples of examples.txt by brute force, and says where examples.txt, or the program `examples` of the crate of that name, differs.

    python3 check.py            all examples
    python3 check.py NAME..     what is computed for these: primes, essential ones marked *, those that match no wanted code ?, and the counts
    python3 check.py --print    what the program must print: the file crates/examples/stdout

A cube is a string of 0, 1 and -, x1 first. It is handled as the set of codes that it matches, a number whose bit c
stands for code c. Nothing here is shared with the crates.
"""
import functools
import itertools
import pathlib
import re
import sys

HERE = pathlib.Path(__file__).parent
CRATE = HERE.parent.parent / 'crates' / 'examples'


def codes(cube):
    """The codes that a cube matches."""
    options = [(0, 1) if digit == '-' else (int(digit),) for digit in cube]
    return sum(1 << int(''.join(map(str, bits)), 2) for bits in itertools.product(*options))


def bits(cube):
    """The tested bits of a cube."""
    return len(cube) - cube.count('-')


def implicants(width, barred):
    """Every cube that matches no barred code."""
    cubes = (''.join(digits) for digits in itertools.product('01-', repeat=width))
    return {cube: codes(cube) for cube in cubes if not codes(cube) & barred}


def primes(found):
    """The implicants such that none with fewer tested bits matches everything that they match."""
    return [q for q in found if not any(bits(p) < bits(q) and found[q] | found[p] == found[p] for p in found)]


def unchecked(width, listed):
    """The same by McCluskey's section 3: the characters that enter no combination, column by column."""
    column = {format(c, '0%db' % width) for c in range(2 ** width) if listed >> c & 1}
    left = []
    while column:
        new, checked = set(), set()
        for a, b in itertools.combinations(column, 2):
            differ = [k for k in range(width) if a[k] != b[k]]
            if len(differ) == 1 and '-' not in (a[differ[0]], b[differ[0]]):
                new.add(a[:differ[0]] + '-' + a[differ[0] + 1:])
                checked |= {a, b}
        left += column - checked
        column = new
    return left


def essentials(found, all_primes, wanted):
    """The primes that alone of all primes match some wanted code."""
    def alone(q, c):
        return [p for p in all_primes if found[p] >> c & 1] == [q]
    return [q for q in all_primes if any(wanted >> c & 1 and alone(q, c) for c in range(wanted.bit_length()))]


def shortest(found, wanted):
    """Rows and bits of the shortest list of implicants. Some row of it matches the lowest wanted code: each is tried."""
    rows = {}
    for cube, matched in found.items():
        rows[matched & wanted] = min(bits(cube), rows.get(matched & wanted, len(cube)))

    @functools.lru_cache(None)
    def of(left):
        if not left:
            return (0, 0)
        lowest = left & -left
        tails = ((of(left & ~matched), tested) for matched, tested in rows.items() if matched & lowest)
        return min((count + 1, total + tested) for (count, total), tested in tails)
    return of(wanted)


def compute(width, table):
    """All primes, those of them that match a wanted code, the essential ones, and the rows and bits of the shortest list."""
    wanted, barred = (sum(1 << c for c, cell in enumerate(table) if cell == mark) for mark in '10')
    found = implicants(width, barred)
    all_primes = primes(found)
    assert sorted(all_primes) == sorted(unchecked(width, 2 ** 2 ** width - 1 - barred))
    return all_primes, [q for q in all_primes if found[q] & wanted], essentials(found, all_primes, wanted), shortest(found, wanted)


def listing(title, cubes):
    """A list of cubes as the program prints it."""
    return '  %s %d:%s\n' % (title, len(cubes), ''.join(' ' + cube for cube in cubes))


def section(name, found):
    """What the program prints for an example: of the primes, those that match a wanted code."""
    _, serving, essential, (rows, tested) = found
    return name + '\n' + listing('primes', serving) + listing('essentials', essential) + '  plan rows %d bits %d\n' % (rows, tested)


def examples():
    """The examples of examples.txt: name, width, table, and the five counts."""
    for line in (HERE / 'examples.txt').read_text().splitlines():
        if line and not line.startswith('#'):
            name, width, table, *said = line.split()
            assert len(table) == 2 ** int(width) and set(table) <= set('01-') and len(said) == 5, line
            yield name, int(width), table, [int(count) for count in said]


def in_the_program():
    """The same from the program's source: name, width, table."""
    for name, width, table in re.findall(r'\(\s*"([^"]*)",\s*"(\d)\\n([^"]*)\\n",?\s*\)', (CRATE / 'src' / 'documents.rt').read_text()):
        yield name, int(width), table


def sections(text):
    """The sections of what the program prints, by name. `rt ci` compares what the program prints with crates/examples/stdout."""
    return {part.split('\n')[0]: part for part in re.findall(r'^\S.*\n(?: .*\n)*', text, re.M)}


def check():
    done = wrong = 0

    def expect(ok, *what):
        nonlocal done, wrong
        done += 1
        if not ok:
            wrong += 1
            print(*what)

    listed, run = [(name, width, table) for name, width, table, _ in examples()], list(in_the_program())
    for example in sorted(set(listed) ^ set(run)):
        expect(False, *example, 'is in', 'examples.txt alone' if example in listed else 'the program alone')
    expect(listed == run, 'examples.txt and the program do not have the same examples in the same order')
    output, whole = (CRATE / 'stdout').read_text(), ''
    printed = sections(output)
    for name, width, table, said in examples():
        all_primes, serving, essential, shortest_list = found = compute(width, table)
        counts = [len(all_primes), len(serving), len(essential), *shortest_list]
        expect(counts == said, name, 'says', *said, 'and is', *counts)
        expect(printed.get(name) == section(name, found), name, 'is printed as\n%s\nand is\n%s' % (printed.get(name), section(name, found)))
        whole += section(name, found)
    expect(output == whole, 'the program prints more or less than the examples, or in another order')
    print('%d passed, %d failed' % (done - wrong, wrong))
    return wrong != 0


def main(words):
    if not words:
        return check()
    for name, width, table, _ in examples():
        if words == ['--print']:
            print(section(name, compute(width, table)), end='')
        elif name in words:
            all_primes, serving, essential, (rows, tested) = compute(width, table)
            print(name, *(q + '*' * (q in essential) + '?' * (q not in serving) for q in all_primes), len(all_primes), len(serving), len(essential), rows, tested)
    return 0


if __name__ == '__main__':
    sys.exit(main(sys.argv[1:]))

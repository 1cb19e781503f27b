#!/usr/bin/env python3
"""Compares the library for C with its header: it defines the functions that rows.h declares and no other global name, uses no more of the C library than
rows.h says, and has no memory of its own that can be written.

    symbols.py ARCHIVE

Prints each failure, and at the end 'N passed, 0 failed'."""
import pathlib
import re
import subprocess
import sys

HEADER = pathlib.Path(__file__).parent.parent.parent / "include" / "rows.h"
MAY_USE = {"memcpy", "memmove", "memset", "memcmp"}


def lines(*words):
    return subprocess.run(words, check=True, stdout=subprocess.PIPE, text=True).stdout.splitlines()


def main(archive):
    text = re.sub(r"/\*.*?\*/", "", HEADER.read_text(), flags=re.S)
    declared = set(re.findall(r"(\w+)\s*\([^()]*\)\s*;", text))
    defined = {line.split()[-1] for line in lines("nm", "-g", "--defined-only", archive) if len(line.split()) == 3}
    used = {line.split()[-1] for line in lines("nm", "-u", archive) if len(line.split()) == 2}
    writable = [line for line in lines("size", "-A", archive) if re.match(r"\.(data|bss|tdata|tbss)\b", line) and line.split()[1] != "0"]
    passed = len(declared & defined)
    failures = ["%s is declared, and the library does not define it" % name for name in sorted(declared - defined)]
    failures += ["%s is defined, and rows.h does not declare it" % name for name in sorted(defined - declared)]
    failures += ["%s is used, and rows.h does not say so" % name for name in sorted(used - MAY_USE)]
    failures += ["memory that can be written: " + line for line in writable]
    passed += (used <= MAY_USE) + (not writable)
    for failure in failures:
        print(failure)
    print("%d passed, %d failed" % (passed, len(failures)))
    return failures != []


if __name__ == "__main__":
    if len(sys.argv) != 2:
        sys.exit(__doc__)
    sys.exit(main(sys.argv[1]))

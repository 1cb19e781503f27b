#!/usr/bin/env python3
"""Respells this repository's own definitions and lemmas as today's Rattle spells names.

    python3 tools/respell.py [TOP]     once, right after port.py, at the top of the repository (or of the folder TOP)

The table is tools/respell.txt, a line for each name. A name is changed wherever it stands as a whole: in specs/ and
proofs/, in the clauses of src/, in the edits of must-fail/, and in backquotes in comments and documents. `covers` of
crates/matrix/specs/Matrix.antt, which is a fact, becomes `CoversColumn` where that is what is meant. In the edits, the
spelling of operators, primes and projections is brought up to date too.
"""
import os
import re
import sys

HERE = os.path.dirname(os.path.realpath(__file__))
NAME = re.compile(r"[^\s(){}\[\],;.:=λ`\"]+(?:·[^\s(){}\[\],;.:=λ`\"]+)*")


def table():
    with open(os.path.join(HERE, "respell.txt"), encoding="utf-8") as lines:
        return dict(line.split() for line in lines if not line.startswith("#"))


NAMES = table()


def respelled(text):
    return NAME.sub(lambda m: NAMES.get(m.group(0), m.group(0)), text)


def in_comment(text):
    """Names in backquotes, and those with a capital inside, which no word of a sentence has."""
    text = re.sub(r"`[^`]*`", lambda m: respelled(m.group(0)), text)
    return NAME.sub(lambda m: NAMES.get(m.group(0), m.group(0)) if re.match(r"[a-z]+[A-Z]", m.group(0)) else m.group(0), text)


def split(line, mark):
    """The part of a line before a comment, and the comment."""
    at = 0
    while True:
        at = line.find(mark, at)
        if at < 0:
            return line, ""
        if at == 0 or line[at - 1] in " \t":
            return line[:at], line[at:]
        at += 1


def facts(code):
    """`covers` as a fact about a row and a column: not a field, and not a part of a record."""
    return re.sub(r"(?<![\w.'-])covers(?![\w'-]| =| :)", "CoversColumn", code)


def antt(path, text):
    of_matrix = path.endswith("crates/matrix/specs/Matrix.antt")
    says_covers = of_matrix or re.search(r"matrix\.specs\.Matrix\.\{[^}]*\bcovers\b", text)
    lines = []
    for line in text.split("\n"):
        code, comment = split(line, "--")
        if says_covers:
            code = facts(code)
            if of_matrix:
                code = re.sub(r"^(abbrev pub )covers :", r"\1CoversColumn :", code)
        lines.append(respelled(code) + in_comment(comment))
    return "\n".join(lines)


def rust(path, text):
    says_covers = re.search(r"matrix\.specs\.Matrix\.\{[^}]*\bcovers\b", text)
    lines = []
    for line in text.split("\n"):
        code, comment = split(line, "//")
        if says_covers and re.match(r"\s*(ghost use|requires|ensures)", code):
            code = facts(code)
        lines.append(respelled(code) + in_comment(comment))
    return "\n".join(lines)


def edit(path, text):
    lines = []
    for line in text.split("\n"):
        if line.startswith("#"):
            lines.append(in_comment(line))
            continue
        if line.startswith(("old:", "new:")):
            line = line.replace("′", "'")
            if "specs/" in text:
                line = re.sub(r"(?<=[\w'\)]) \.(?=[a-z0-9])", ".", line)
                line = re.sub(r"(?<![\w◌])_([^\w\s(){}]+)_(?![\w◌])", r"◌\1◌", line)
        lines.append(respelled(line))
    return "\n".join(lines)


def main(top):
    kinds = {".antt": antt, ".rt": rust, ".edit": edit}
    for folder, folders, files in os.walk(top):
        folders[:] = [name for name in folders if name not in ("out", ".git", "target", "tools")]
        for name in files:
            path = os.path.join(folder, name)
            kind = kinds.get(os.path.splitext(name)[1])
            if name.endswith(".md"):
                kind = lambda path, text: in_comment(text)
            if not kind:
                continue
            with open(path, encoding="utf-8") as file:
                before = file.read()
            after = kind(path, before)
            if after != before:
                with open(path, "w", encoding="utf-8") as file:
                    file.write(after)


main(os.path.abspath(sys.argv[1] if len(sys.argv) > 1 else "."))

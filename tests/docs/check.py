#!/usr/bin/env python3
"""Checks the documents against the sources: what docs/PROMISES.md names exists, it names every must-fail edit, README.md lists the believed pages with all that
they cite, and their lines are counted correctly.

    python3 check.py             prints each name that is not there, and at the end 'N passed, M failed'
    python3 check.py --pages     the believed pages that README.md lists, each with its number of lines, as docs/TRUST.md has them

In docs/PROMISES.md a line 'says it' or 'theorem' names definitions, each with its crate and file, as in `badWidth` (cube `Calls`); 'promised by' and
'where' name functions, as in `plan::plan`; 'guarded by' and 'shut out by' name must-fail edits and theorems, `Refuted.NAME`; 'run by' names tests.
"""
import pathlib
import re
import sys

TOP = pathlib.Path(__file__).resolve().parent.parent.parent
CRATES = TOP / "crates"

passed = failed = 0


def expect(what, holds):
    global passed, failed
    if holds:
        passed += 1
    else:
        failed += 1
        print("not there:", what)


def text(pattern):
    """The text of all files that a pattern finds below crates/."""
    return "\n".join(path.read_text() for path in sorted(CRATES.glob(pattern)))


STATED = text("*/specs/*.antt") + text("*/src/*.rt")
PROVED = text("*/proofs/**/*.antt")
EDITS = {path.stem for path in CRATES.glob("*/must-fail/*.edit")}
REFUTED = set(re.findall(r"pub ([a-z0-9_-]+) :", text("*/proofs/Refuted.antt")))


def word(name, body):
    return re.search(r"(?<![\w-])%s(?![\w-])" % re.escape(name), body) is not None


def has_function(name):
    """crate::function, crate::module::function, or a bare function's name."""
    *path, function = name.split("::")
    sources = sorted((CRATES / path[0] / "src").glob("*.rt")) if path else sorted(CRATES.glob("*/src/*.rt"))
    return any(re.search(r"\bfn %s\b" % re.escape(function), source.read_text()) for source in sources)


def entries(path):
    """The entries of the promises: the words before the colon, and what follows it, lines joined."""
    entry = None
    for line in path.read_text().splitlines():
        start = re.match(r"  - ([a-z][^:`]*(?:\([^)]*\))?[^:`]*): (.*)", line)
        if start:
            if entry:
                yield entry
            entry = [start.group(1), start.group(2)]
        elif entry and line.startswith("    "):
            entry[1] += " " + line.strip()
        else:
            if entry:
                yield entry
            entry = None
    if entry:
        yield entry


def check_files(said):
    """Each file that is named with its crate exists, and has the names that precede it."""
    for names, crate, name in re.findall(r"((?:`[^`]+`[,:]?\s+)*)\(([a-z_]+) `([\w/]+)`\)", said):
        page = CRATES / crate / ((name if "/" in name else "specs/" + name) + ".antt")
        expect(page.relative_to(TOP), page.is_file())
        for found in re.findall(r"`([\w-]+)(?:\.[\w-]+)?`", names):
            expect("%s in %s" % (found, page.relative_to(TOP)), page.is_file() and word(found, page.read_text()))


def check_promises():
    for kind, said in entries(TOP / "docs" / "PROMISES.md"):
        check_files(said)
        names = re.findall(r"`([^`]+)`", said)
        for name in names:
            if kind.startswith(("guarded by", "shut out by")):
                if re.fullmatch(r"Refuted\.[a-z0-9_-]+", name):
                    expect("theorem %s" % name, name.removeprefix("Refuted.") in REFUTED)
                elif re.fullmatch(r"[a-z0-9_-]+", name):
                    expect("edit or theorem %s" % name, name in EDITS or name in REFUTED)
            elif kind.startswith(("says it", "theorem", "promised by", "where")):
                if "::" in name:
                    expect("function %s" % name, has_function(name))
                elif re.fullmatch(r"[A-Za-z][\w-]*(\.[\w-]+)?", name):
                    expect("definition %s" % name, all(word(part, STATED) or word(part, PROVED) or has_function(part) or (CRATES / part).is_dir()
                                                       or any(CRATES.glob("*/*/%s.antt" % part)) for part in name.split(".")))
                elif name.startswith(("crates/", "tests/", "docs/")):
                    expect(name, (TOP / name).exists())
            elif kind.startswith("run by"):
                expect("test %s" % name, (TOP / name).exists() or (CRATES / name).is_dir())


def pages():
    """The pages of README.md's reading order: each path, and the names that follow it are in the same directory."""
    readme = (TOP / "README.md").read_text()
    order = readme[readme.index("## What to believe"):readme.index("## The crates")]
    found, folder = [], None
    for name in re.findall(r"`([\w/]*[A-Z]\w*\.antt)`", order):
        folder = (TOP / name).parent if "/" in name else folder
        page = folder / name.split("/")[-1]
        if page not in found:
            found.append(page)
    return found


def cited(page):
    """The pages of this repository that a page imports from. What is generated from the types of the code, `specs.declared`, is not written by hand."""
    for crate, name in re.findall(r"^ *(?:\w+ )*use Rattle\.(\w+)\.specs\.([A-Z]\w*)", page.read_text(), re.M):
        if (CRATES / crate).is_dir():
            yield CRATES / crate / "specs" / (name + ".antt")


def lines(page):
    return len(page.read_text().splitlines())


def main(words):
    if words == ["--pages"]:
        for page in pages():
            print("| `%s` | %d |" % (page.relative_to(TOP), lines(page)))
        print("| all | %d |" % sum(map(lines, pages())))
        return 0
    check_promises()
    promises = (TOP / "docs" / "PROMISES.md").read_text()
    for edit in sorted(EDITS):
        expect("edit %s in docs/PROMISES.md" % edit, word(edit, promises))
    for page in pages():
        expect("%s, a page to believe" % page.relative_to(TOP), page.is_file())
        for other in cited(page):
            expect("%s among the pages to believe, as %s cites it" % (other.relative_to(TOP), page.relative_to(TOP)), other in pages())
    total = sum(map(lines, filter(pathlib.Path.is_file, pages())))
    for document in "README.md", "docs/TRUST.md":
        said = re.search(r"([\d,]+)\s+lines\s+with\s+their\s+comments", (TOP / document).read_text())
        expect("the number of believed lines, %d, in %s" % (total, document), said is not None and int(said.group(1).replace(",", "")) == total)
    expect("the sum of the believed lines, %d, in the table of docs/TRUST.md" % total, "\n| all | %d |\n" % total in (TOP / "docs" / "TRUST.md").read_text())
    counted = re.findall(r"^\| `(crates/\S+)` \| (\d+) \|$", (TOP / "docs" / "TRUST.md").read_text(), re.M)
    for page in pages():
        row = (str(page.relative_to(TOP)), str(lines(page)))
        expect("%s with %s lines in docs/TRUST.md" % row, row in counted)
    print("%d passed, %d failed" % (passed, failed))
    return 1 if failed or not passed else 0


if __name__ == "__main__":
    sys.exit(main(sys.argv[1:]))

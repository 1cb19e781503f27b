#!/usr/bin/env python3
"""Turns the proofs of functions from the older form, a Proof.antt each, to today's Invariants.antt and Answers.antt.

    python3 tools/convert.py OLD CRATE..    at the top of the repository; OLD is a folder outside the checkout for what is kept

A crate's old proofs are copied to OLD/CRATE first, and read from there, so that a second run begins anew. Names of goals, steps and loops, old and new, are
what `rt check --generated FOLDER --old-names` says. First only invariants and measures are written and the crate is checked; then the old answers of the
goals that were left open, with the lemmas that they need. What is left is printed, for the hand to mend: as a rule what a pattern binds, the branches of a
join, and cycles of calls (folders whose name begins with +), which are not turned.
"""
import json
import os
import re
import shutil
import subprocess
import sys

NOT_BEFORE = r"(?<![\w.'\-])"
NOT_AFTER = r"(?![\w.'\-])"


def alike(name):
    """A name as it is compared: the oldest files have a dash where later ones have an underscore."""
    return name.replace("_", "-")


def head(line):
    found = re.match(r"(?:pub |abbrev |unfoldable )*([^\s:]+)", line)
    return found.group(1) if found else None


def goes_on(block, line):
    """Whether a line that is not indented belongs to the block above it: `unfolding`, a closing bracket, or a clause of the same name."""
    first = next((text for text in block if text and not text[0].isspace() and not text.startswith("--")), None)
    if first is None or line[0] in ")}]":
        return True
    if line.startswith("unfolding "):
        return True
    if line.startswith(("--", "use ", "pub use ", "module ")) or first.startswith(("use ", "pub use ", "module ", "record ", "pub record ")):
        return False
    return head(line) == head(first) and not re.match(r"(?:pub |abbrev |unfoldable )*\S+ :", line)


def blocks(text):
    """The top-level blocks of a file, each a list of lines."""
    block = []
    for line in text.split("\n"):
        if line and not line[0].isspace() and block and not goes_on(block, line):
            yield block
            block = []
        block.append(line)
    if block:
        yield block


def flat(text):
    """Earlier states of the context are the context itself: c.before.before is c, and so is a variable that stands for it."""
    while True:
        text = re.sub(NOT_BEFORE + r"c(\.before)+(?![\w\-])", "c", text)
        found = re.search(r"let (\w+) = c in\s*", text)
        if not found:
            return text
        text = text[:found.start()] + re.sub(NOT_BEFORE + found.group(1) + r"(?![\w'-])", "c", text[found.end():])


class Names:
    """The old and new names in the proof of one function."""

    def __init__(self, said):
        self.labels = {alike(old): new for _, _, (old, new), *_ in said["places"] if old}
        self.places = {alike(place[0]): new for place, new in zip(said["places"], said["places_by_name"])}
        self.goals = {alike(old): new for old, new in said["needs"]}
        self.loops = {}
        for number, ((old, new), variables) in enumerate(loop[:2] for loop in said["loops"]):
            changed = said["changed"][number] if number < len(said["changed"]) else [True] * len(variables)
            self.loops[alike(old)] = new, variables, changed

    def goal(self, name, statement):
        """The new name of the goal that an old answer of this name states."""
        statement = alike(statement)
        for old in alike(name), statement, re.sub(r"^(overflow|nonzero)-", "", statement), re.sub(r"^bounds-", "index-", statement):
            if old in self.goals:
                return self.goals[old]
        return None

    def paths(self, text):
        """Paths into the context: the steps are fields of it, and have new names."""
        text = flat(text)

        def label(found):
            variable, old = found.groups()
            if variable != "c" and re.search(r"\blet %s = c\.(args|requires|ranges|[\w.-]*new)" % re.escape(variable), text):
                return found.group(0)
            if alike(old) not in self.labels and old.endswith("_lem"):
                old = old[:-4]
            return variable + "." + self.labels.get(alike(old), old)

        def state(found):
            invariants = "".join(" %s-%s" % (kind, self.labels.get(alike(loop), loop))
                                 for kind, loop in re.findall(r"(invariant|decreases)-([\w\-]+)", found.group(2)))
            return "tie." + self.places.get(alike(found.group(1)), found.group(1)) + invariants

        text = re.sub(NOT_BEFORE + r"([A-Za-z_][\w']*)\.((?!\d)[\w\-']+)", label, text)
        text = text.replace(".well-formed", ".well_formed").replace(".type-inv", ".type_inv")
        return re.sub(r"\btie\.((?:After|In|At|Then|Else|Start|Untold)[\w\-']*)((?: (?:invariant|decreases)-[\w\-]+)*)", state, text)


def invariant(names, name, statement, clauses):
    """An invariant or a measure: a function of the record of the variables, where it was one of each variable."""
    kind, loop = re.match(r"tie\.(invariant|decreases)-([\w\-]+)", statement).groups()
    new, variables, changed = names.loops[alike(loop)]
    unfolding, parameters, body = re.match(r"(?s)(unfolding[^\n]*\n)?%s ([^=]*?)=(.*)" % re.escape(name), clauses).groups()
    values = ["l.initial." + v if moved else "l." + v for v, moved in zip(variables, changed)] + ["l." + v for v, moved in zip(variables, changed) if moved]
    meant = dict(zip(parameters.split(), values))
    body = re.sub(r"(?<![\w'₀-₉\-.])([A-Za-z_][\w'₀-₉\-]*)", lambda found: meant.get(found.group(1), found.group(1)), body)
    return "abbrev pub %s-%s : goal.%s-%s\n%s%s-%s l =%s" % (kind, new, kind, new, unfolding or "", kind, new, body)


def answer(names, name, new, block):
    """An answer under its new name."""
    lines = ["pub %s : goal.%s" % (new, new)]
    for line in [text for text in block if text.strip() and not text.startswith("--")][1:]:
        if not line[0].isspace() and not line.startswith("unfolding"):
            line = re.sub(r"^%s (\S+)( κs)?(?= |$)" % re.escape(name), lambda found: new + " " + found.group(1), line)
        lines.append(line)
    return "\n".join([text for text in block if text.startswith("--")] + [names.paths("\n".join(lines))])


def declared(text):
    return re.findall(r"^\s*(?:pub |abbrev |unfoldable |record |data )*([^\s:()]+)(?: [^\n:=]*)? :", text, re.M)


def reached(helpers, text):
    """The places of the helpers that a text needs, directly or through others."""
    found = []
    while True:
        more = [i for i, helper in enumerate(helpers) if i not in found
                and any(re.search(r"(?<![\w'\-])%s(?![\w'\-])" % re.escape(name), text) for name in declared(helper))]
        if not more:
            return sorted(found)
        found += more
        text += "".join("\n" + helpers[i] for i in more)


def public(helper, unfolded):
    """A helper that another file cites."""
    lines, seen = [], set()
    for line in helper.split("\n"):
        found = re.match(r"(abbrev |unfoldable |record |data )?([^\s:]+)( [^:=]*)? :", line)
        if found and found.group(2) not in seen and found.group(2) not in ("pub", "module"):
            seen.add(found.group(2))
            if found.group(1) in ("abbrev ", "unfoldable "):
                line = re.sub(r"^(abbrev|unfoldable) ", r"\1 pub ", line)
            else:
                line = ("unfoldable pub " if found.group(2) in unfolded else "pub ") + line
        lines.append(line)
    return "\n".join(lines)


def states_written_out(helpers, answers):
    """Helpers whose argument is a state of the code are written out where answers use them."""
    meant = {}
    for helper in list(helpers):
        code = "\n".join(line for line in helper.split("\n") if not line.startswith("--"))
        signature = re.match(r"(?:abbrev |pub )*(\S+) : \(c : tie\.", code)
        clause = signature and "unfolding" not in code and re.search(r"(?s)\n%s c =(.*)$" % re.escape(signature.group(1)), code)
        if clause:
            meant[signature.group(1)] = "(" + " ".join(line.strip() for line in clause.group(1).strip().split("\n")) + ")"
            helpers.remove(helper)
    for _ in meant:
        for name, term in meant.items():
            answers = [re.sub(r"\(?" + NOT_BEFORE + re.escape(name) + r" c" + NOT_AFTER + r"\)?", lambda found: term, text) for text in answers]
    return answers


def convert(crate, folder, text, said, open_goals):
    """Writes the files of one function, without answers where the open goals are not known yet. Returns what it could not turn."""
    names, left = Names(said), []
    header, uses, invariants, answers, helpers = [], [], [], [], []
    for block in blocks(text):
        code = [line for line in block if line.strip() and not line.startswith("--")]
        if not uses and not header:
            header = [line for line in block if line.startswith("--")]
        if code and code[0].startswith(("use ", "pub use ")):
            uses += [line for line in code if not re.search(r"\.(Statement\.\{|Tie as tie)", line)]
            continue
        found = code and re.match(r"(?:pub |abbrev |unfoldable )*([^\s:]+) : (.*)", code[0])
        if not found:
            if code:
                helpers.append("\n".join(block).strip("\n"))
            continue
        name, statement = found.groups()
        asked = re.match(r"tie\.Need-([\w\-]+)((?: (?:invariant|decreases)-[\w\-]+)*)\s*$", statement)
        if "statement M" in statement:
            continue
        if re.match(r"tie\.(invariant|decreases)-", statement):
            invariants.append(invariant(names, name, statement, "\n".join(code[1:])))
        elif asked:
            new = names.goal(name, asked.group(1))
            if new is None:
                left.append("%s: no goal for %s" % (folder, name))
            elif open_goals is not None and new in open_goals:
                answers.append(answer(names, name, new, block))
        else:
            helpers.append(names.paths("\n".join(block).strip("\n")))
    module = "Rattle.%s.proofs.%s" % (crate, folder.replace("/", "."))
    to = os.path.join("crates", crate, "proofs", folder)
    os.makedirs(to, exist_ok=True)
    answers = states_written_out(helpers, answers)
    of_invariants = reached(helpers, "\n".join(invariants)) if invariants else []
    shared = [name for i in of_invariants for name in declared(helpers[i])]

    def write(file, imports, parts):
        with open(os.path.join(to, file), "w", encoding="utf-8") as out:
            out.write("\n".join(header + uses + imports) + "\n\n" + "\n\n".join(parts) + "\n")

    if invariants:
        unfolded = set(re.findall(r"[^\s]+", " ".join(re.findall(r"^unfolding (.*)$", text, re.M))))
        write("Invariants.antt", ["use %s.Given as goal" % module], [public(helpers[i], unfolded) for i in of_invariants] + invariants)
    if answers:
        parts = [helpers[i] for i in reached(helpers, "\n".join(answers)) if i not in of_invariants] + answers
        cited = [name for name in dict.fromkeys(shared) if re.search(r"(?<![\w'\-])%s(?![\w'\-])" % re.escape(name), "\n".join(parts))]
        imports = ["use %s.Invariants.{%s}" % (module, ", ".join(cited))] if cited else []
        if re.search(r"(?<![\w.])tie\.", "\n".join(parts)):
            imports.append("use %s.Tie as tie" % module)
        write("Answers.antt", imports + ["use %s.Goals as goal" % module], parts)
    return left


def check(crate, *words):
    return subprocess.run(["rt", "check", *words], cwd="crates/" + crate, stdout=subprocess.PIPE, stderr=subprocess.STDOUT, text=True).stdout


def main(old, crates):
    for crate in crates:
        kept = os.path.join(old, crate)
        if not os.path.exists(kept):
            shutil.copytree("crates/%s/proofs" % crate, os.path.join(kept, "proofs"))
            check(crate, "--generated", os.path.join(kept, "names"), "--old-names")
        with open(os.path.join(kept, "names", "names.json"), encoding="utf-8") as said:
            names = json.load(said)
        proofs = {}
        for folder, _, files in os.walk(os.path.join(kept, "proofs")):
            relative = os.path.relpath(folder, os.path.join(kept, "proofs"))
            said = names.get("Rattle-%s-proofs.%s.Lts" % (crate, relative.replace("/", ".")))
            if "Proof.antt" in files and not relative.startswith("+") and said:
                with open(os.path.join(folder, "Proof.antt"), encoding="utf-8") as text:
                    proofs[relative] = text.read(), said
        for folder, (text, said) in proofs.items():
            proof = os.path.join("crates", crate, "proofs", folder, "Proof.antt")
            if os.path.exists(proof):
                os.remove(proof)
            convert(crate, folder, text, said, None)
        goals = {}
        for function, message in re.findall(r"^fn ([\w:]+): no proof:(.*)$", check(crate), re.M):
            found = re.search(r"`search` did not prove ((?:`[^`]+`(?:, )?)+)", message)
            goals[function] = re.findall(r"`([^`]+)`", found.group(1)) if found else []
        for folder, (text, said) in proofs.items():
            print(*convert(crate, folder, text, said, goals.get(crate + "::" + folder.replace("/", "::"), [])), sep="\n", end="")
        print(*(line[:300] for line in check(crate, "--allow-holes").split("\n") if re.match(r"fn .*(no proof|not proved)|logic=|holes=|.*error", line)), sep="\n")


if __name__ == "__main__":
    if len(sys.argv) < 3:
        sys.exit(__doc__)
    main(os.path.abspath(sys.argv[1]), sys.argv[2:])

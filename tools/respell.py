#!/usr/bin/env python3
"""Respells the names of this repository's own definitions and lemmas: words in snake case, types and facts in upper camel case.

Run once at the top, after the kit's own script for older repositories. A name counts as ours if specs/ or proofs/ declare it (as a definition, a lemma, a field or a
constructor) or bind it (in a let, a lambda, a pattern or an import). Names of goals, and names that a proof reads from the record of a function's steps, are the prover's and
stay. Names of src/, strings, inputs and outputs stay too.
"""
import collections
import glob
import re
import sys

NAME = r"[A-Za-z_À-￿][A-Za-z0-9_'À-￿]*(?:-[A-Za-z0-9_'À-￿]+)+"
TOKEN = re.compile(r"(?<![\w'\-◌.·])(" + NAME + r")(?![\w'\-◌])")
DOTTED = re.compile(r"([\w')\]◌₁-]?)\.(" + NAME + r")(?![\w'\-◌])")
DECLARED = re.compile(r"\s*(?:abbrev |unfoldable )*(?:pub )?(?:abbrev )?(?:record |data )?(" + NAME + r")(?:\s*[({][^:]*:.*)?\s*(?::|where|$)")
FIELD = re.compile(r"\s+(?:pub )?(" + NAME + r") :")
GOAL = re.compile(r"\s*(?:abbrev )?(?:pub )?(\S+) : (?:goal|need|rules)\.")
# Functions whose names began with a capital, types whose names did not, and a type that would take the name of a variant.
SPECIAL = {"First-bound": "first_bound", "Second-bound": "second_bound", "ahead-type": "AheadType", "at-work-type": "AtWorkType", "At-work": "IsAtWork"}
GENERATED = re.compile(r"^(?:returns|loop|bounds|overflow|offset|invariant|decreases|in|if|then|else|index|from-residual)-|-(?:requires|law)(?:-\d+)?$|^lawful-law$")


def files():
    for path in sorted(glob.glob("crates/**/*", recursive=True)):
        if "/out/" not in path and re.search(r"/(specs|proofs)/.*\.antt$|/src/.*\.rt$", path):
            yield path


def code_of(line):
    mark = line.find("-- ")
    return line if mark < 0 else line[:mark]


def names_of(paths):
    """Our names with a dash, and which of them are fields."""
    ours, fields = set(), set()
    for path in paths:
        answers = path.endswith(("/Answers.antt", "/Invariants.antt", "/Proof.antt"))
        text = open(path).read()
        goals, bound, taken = set(), set(), imported(text)
        if path.endswith(".rt"):
            ours.update(re.findall(r" as (" + NAME + r")", text))
            continue
        for line in text.split("\n"):
            line = code_of(line)
            goal = GOAL.match(line)
            if goal:
                goals.add(goal.group(1))
            declared = DECLARED.match(line)
            if declared and declared.group(1) not in goals and not (answers and GENERATED.search(declared.group(1))):
                ours.add(declared.group(1))
            field = FIELD.match(line)
            if field and declared and field.group(1) == declared.group(1) and not answers:
                fields.add(field.group(1))
            # Bound names: whatever else stands alone and comes from nowhere.
            for found in TOKEN.finditer(line):
                if not GENERATED.search(found.group(1)) and found.group(1) not in taken:
                    bound.add(found.group(1))
        ours |= bound - goals
    return ours, fields


def respelled(name):
    if name in SPECIAL:
        return SPECIAL[name]
    if name[0].isupper():
        return "".join(part[:1].upper() + part[1:] for part in name.split("-"))
    return name.replace("-", "_")


def imported(text):
    """Names that the file takes from the kit."""
    taken = set()
    for found in re.finditer(r"use (Rattle\.(?:std|core|logic)[\w.]*|Prim[\w.]*|mathlib[\w.]*)\.\{([^}]*)\}", text):
        for item in found.group(2).split(","):
            taken.add(item.split(" as ")[-1].strip())
    return taken


def turn_line(line, ours, fields, kept, modules):
    def bare(found):
        name = found.group(1)
        return respelled(name) if name in ours and name not in kept else found.group(0)

    def dotted(found):
        before, name = found.group(1), found.group(2)
        head = re.search(r"([\w'-]*)$", line[: found.start() + len(before)]).group(1)
        in_module = head[:1].isupper() or head in modules
        if name in ours and (name in fields or in_module):
            return before + "." + respelled(name)
        return found.group(0)

    return TOKEN.sub(bare, DOTTED.sub(dotted, line))


def turn(path, text, ours, fields):
    goals = {m.group(1) for m in map(GOAL.match, text.split("\n")) if m}
    goals |= {w for m in re.finditer(r"(?:Goals|Given|Needs)\.\{([^}]*)\}", text) for w in re.split(r"[ ,]+", m.group(1))}
    kept = imported(text) | goals
    modules = set(re.findall(r"use [\w.+]+ as ([\w-]+)", text)) - {"goal", "need", "rules"}
    if path.endswith(".antt"):
        return "\n".join(turn_line(line, ours, fields, kept, modules) for line in text.split("\n"))
    # In Rust code strings stay.
    return "\n".join("".join(part if part.startswith('"') else turn_line(part, ours, fields, kept, modules) for part in re.split(r'("(?:[^"\\]|\\.)*")', line)) for line in text.split("\n"))


def main():
    paths = list(files())
    ours, fields = names_of(paths)
    meets = collections.defaultdict(set)
    for name in ours:
        meets[respelled(name)].add(name)
    for new, old in sorted(meets.items()):
        if len(old) > 1:
            print("fall together:", new, sorted(old))
    for path in paths:
        text = open(path).read()
        words = set(re.findall(r"(?<![\w\-])[\w'-]+", text))
        for name in sorted(ours & words):
            if respelled(name) in words:
                print("there already:", path, name, respelled(name))
    for path in paths:
        text = open(path).read()
        new = turn(path, text, ours, fields)
        if new != text and "--dry" not in sys.argv:
            open(path, "w").write(new)
    print(len(ours), "names")


if __name__ == "__main__":
    main()

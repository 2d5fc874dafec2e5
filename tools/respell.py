#!/usr/bin/env python3
"""Brings the names of the repository's own definitions and lemmas to snake case.

    python3 tools/respell.py [--list]      at the top of the repository, once, right after the kit's port.py

A name declared in a specs/ or proofs/ file (a definition, lemma, record field, constructor or local
lemma) that has a dash or is in lower camel case becomes snake case, wherever the .antt and .rt files
and the edits name it. Types and modules (upper camel case), goals that answer files name, and names
that a file takes from the library stay. Names of src/ stay. --list prints the table and what falls
together, and changes nothing. Where no name is left to respell, it ran before, and does nothing.
"""
import collections
import glob
import re
import sys

TOKEN = re.compile(r"[^\s(){}\[\],;.\"]+")
DECLARED = re.compile(r"^\s*(?:pub |abbrev |unfoldable )*([^\s(){}:,;.]+)(?: [^:=]*)? : (.*)$")

# New spelling where plain snake case would fall together with another name; and of names that are bound, not declared.
OTHERWISE = {
    "c-forms": "c_forms",
    "c-is": "c_is",
    "chosenFormula": "chosen_formula",
    "flipsOf": "flips_of",
    "front-short": "front_short",
    "no-r": "no_r",
    "of-always": "of_always",
    "of-never": "of_never",
    "of-t": "of_t",
    "of-u": "of_u",
    "of-x": "of_x",
    "of-y": "of_y",
    "onNo": "no_weights",
    "onYes": "yes_weights",
    "with-mark": "with_mark",
    "body-place": "body_is_at",
    "checkBodies": "checked_bodies",
    "checkBody": "checked_body",
    "checkProgram": "checked_program",
    "checkSimple": "checked_simple",
    "operandType": "type_of_operand",
    "fits_bits": "fits_of_bits",
    "formed-by": "formed_by_under",
    "no-entry": "no_entry_there",
    "no-question": "no_question_there",
    "question-at": "question_is_at",
    "rules-decide": "rules_decide_lem",
    "run_on": "run_on_walk",
    "type-bytes": "type_length",
}


def antt_files():
    return sorted(glob.glob("crates/*/specs/**/*.antt", recursive=True) + glob.glob("crates/*/proofs/**/*.antt", recursive=True))


def other_files():
    return sorted(glob.glob("crates/*/src/**/*.rt", recursive=True) + glob.glob("crates/*/must-fail/*.edit"))


def snake(name):
    if name in OTHERWISE:
        return OTHERWISE[name]
    name = re.sub(r"([a-z0-9])([A-Z])", lambda m: m.group(1) + "_" + m.group(2).lower(), name)
    return name.replace("-", "_")


def is_own(name):
    """A lower-case name of letters with a dash or a hump."""
    return re.fullmatch(r"[a-z][A-Za-z0-9_'\-]*", name) is not None and ("-" in name or re.search(r"[a-z0-9][A-Z]", name) is not None)


def declared():
    names = collections.defaultdict(set)
    goals = set()
    for path in antt_files():
        for line in open(path):
            if line.strip().startswith("--") or line.lstrip().startswith("use "):
                continue
            found = DECLARED.match(line.rstrip("\n"))
            if not found:
                continue
            if found.group(2).startswith("goal."):
                goals.add(found.group(1))
            elif is_own(found.group(1)):
                names[found.group(1)].add(path)
    return names, goals


def library_names(text):
    taken = set()
    for found in re.finditer(r"^\s*(?:ghost )?use (?!Rattle\.(?:weights|language|diagram|counting|semantics|compiling|line_book|diagram_c|inspect|limits)\.)[^{\n]*\{([^}]*)\}", text, re.M):
        taken.update(part.strip().split(" as ")[0] for part in found.group(1).split(","))
    return taken


def main():
    names, goals = declared()
    table = {name: snake(name) for name in names if name not in goals}
    if not table:
        print("nothing to respell")
        return
    table.update(OTHERWISE)
    if "--list" in sys.argv:
        back = collections.defaultdict(list)
        for old, new in table.items():
            back[new].append(old)
        words = collections.defaultdict(set)
        for path in antt_files() + other_files():
            for token in TOKEN.findall(open(path).read()):
                words[token].add(path)
        for old in sorted(table):
            print(old, "->", table[old])
        for new, olds in sorted(back.items()):
            if len(olds) > 1:
                print("together:", new, olds, {o: sorted(names[o]) for o in olds})
            if new in words:
                print("exists:", new, "from", olds, "declared in", sorted(names[olds[0]])[:2], "stands in", sorted(words[new])[:3])
        for name in sorted(goals & set(names)):
            print("goal and lemma:", name)
        return
    for path in antt_files() + other_files():
        text = open(path).read()
        taken = library_names(text)
        new = TOKEN.sub(lambda m: m.group(0) if m.group(0) in taken else table.get(m.group(0), m.group(0)), text)
        if new != text:
            open(path, "w").write(new)


main()

#!/usr/bin/env python3
"""Respells the repository's own definitions, fields and lemmas: words in snake case.

usage: python3 tools/snake_names.py [FOLDER]     at the top of the repository, or for the checkout FOLDER

Run once, after /opt/rattle/port/port.py. Definitions in lower camel case become snake case (`byNumber`, `by_number`), and a dash between
plain words becomes an underscore (`admission-keeps`, `admission_keeps`). A dash stays where it joins a function's name to what the lemma
says of it (`length-charged`), and in the names of goals, which Rattle makes. It stops before it writes where two names would fall together.
"""

import os
import re
import sys

# a definition of specs/ or proofs/: its name stands before its parameters and the colon
DECLARED = re.compile(r"^\s*(?:(?:abbrev|unfoldable|pub|data|record) )*([^\s(){}:;,.]+)\s+(?:(?:\([^()]*\)|\{[^{}]*\})\s*)*(?:: |[:]$)")
CONSTRUCTOR_OR_FIELD = re.compile(r"^\s+(?:pub )?([^\s(){}:;,.]+) : ")
WORD = re.compile(r"[^\s(){}\[\],;.«»\"`:]+")
GOAL_FILES = ("Answers.antt", "Invariants.antt", "Choices.antt", "Proof.antt")
# what a kept dash joins: the function, then the lemma's word
HEADS = {"length": ("charged",), "entryAt": ("in", "number", "set-other", "set-same"), "slotAt": ("some",), "view": ("changed", "due", "forgone", "given", "opened", "passing", "regranted", "renewed")}
# lemmas that would fall together with what they speak of
OTHER = {"is-ready": "ready_when", "is-waiting": "waiting_when", "in-time": "settles_in_time", "with-ticks": "slot_with_ticks"}
# these meet their new name only as a field, or as a part of a path
APART = {"goesOn", "namePlace", "badByte", "recordAt"}


def antt_files(root):
    for folder, dirs, files in os.walk(os.path.join(root, "crates")):
        dirs[:] = sorted(d for d in dirs if d not in ("out", "must-fail", "data"))
        for f in sorted(files):
            if f.endswith((".antt", ".rt")):
                yield os.path.join(folder, f)


def read(path):
    with open(path, encoding="utf-8") as f:
        return f.read()


def snake(word):
    return re.sub(r"(?<=[a-z0-9])([A-Z])", lambda m: "_" + m.group(1).lower(), word)


def respelled(name):
    if name in OTHER:
        return OTHER[name]
    for head, tails in HEADS.items():
        for tail in tails:
            if name == head + "-" + tail:
                return snake(head) + "-" + tail.replace("-", "_")
    return snake(name).replace("-", "_")


def goals_of(root):
    """The names of goals: what an answer or an invariant is stated for."""
    found = set()
    for path in antt_files(root):
        if os.path.basename(path) in GOAL_FILES:
            found |= set(re.findall(r"\b(?:goal|need|Goals|Given)\.([^\s(){}:;,.]+)", read(path)))
    return found


def declared(root):
    names = {}
    for path in antt_files(root):
        if path.endswith(".rt"):
            for line in read(path).splitlines():
                if line.startswith("ghost use "):
                    for other in re.findall(r" as ([a-z]+[A-Z][A-Za-z]*)", line):
                        names.setdefault(other, set()).add(path)
            continue
        for line in read(path).splitlines():
            for form in (DECLARED, CONSTRUCTOR_OR_FIELD):
                m = form.match(line)
                if m and not line.lstrip().startswith("--"):
                    names.setdefault(m.group(1), set()).add(path)
            if line.startswith("use "):  # what a file calls an import
                for other in re.findall(r" as ([a-z]+[A-Z][A-Za-z]*)", line):
                    names.setdefault(other, set()).add(path)
    return names


def turn_line(line, turned, path):
    if path.endswith(".rt"):
        # a member of the order that belongs to a list, which port.py leaves
        line = line.replace("Order-as-TieOrder.", "L.Order.TieOrder.")
        # strings and comments keep their words
        parts = re.split(r'("(?:[^"\\]|\\.)*"|//.*)', line)
        return "".join(p if i % 2 else WORD.sub(lambda m: turned.get(m.group(0), m.group(0)), p) for i, p in enumerate(parts))
    code, mark, comment = line.partition(" -- ") if not line.lstrip().startswith("--") else ("", line, "")
    return WORD.sub(lambda m: turned.get(m.group(0), m.group(0)), code) + mark + comment


def main(root):
    goals = goals_of(root)
    names = declared(root)
    turned = {}
    for name in names:
        if name[0].isupper() or name in goals or not re.fullmatch(r"[A-Za-z0-9_'-]+", name):
            continue
        if ("-" in name or re.search(r"[a-z0-9][A-Z]", name)) and respelled(name) != name:
            turned[name] = respelled(name)
    bad = []
    by_new = {}
    for old, new in turned.items():
        by_new.setdefault(new, []).append(old)
    for new, olds in sorted(by_new.items()):
        if len(olds) > 1:
            bad.append(f"{' and '.join(sorted(olds))} fall together as {new}")
    # a word that stands already, in a file that has the old name too
    for path in antt_files(root):
        # in src/ a definition may have the name of the function that it speaks of
        words = set(WORD.findall(read(path))) if path.endswith(".antt") else set()
        for old in (words & set(turned)) - APART:
            if turned[old] in words:
                bad.append(f"{path}: {old} would meet {turned[old]}")
    if "--names" in sys.argv:
        print("\n".join(f"{a} {b}" for a, b in sorted(turned.items())))
    if bad:
        print("\n".join(bad), file=sys.stderr)
        return 1
    changed = 0
    for path in antt_files(root):
        old = read(path)
        new = "\n".join(turn_line(l, turned, path) for l in old.split("\n"))
        if new != old:
            with open(path, "w", encoding="utf-8") as f:
                f.write(new)
            changed += 1
    print(f"{len(turned)} names, {changed} files")
    return 0


if __name__ == "__main__":
    words = [w for w in sys.argv[1:] if not w.startswith("--")]
    sys.exit(main(words[0] if words else "."))

#!/usr/bin/env python3
"""Spells the repository's own specification names as today's Rattle does.

usage: tools/respell.py        (once, at the top, after the kit's port.py)

Functions, lemmas and fields of specs/ and proofs/ are in snake case (files-of, sidesAt -> files_of,
sides_at), types and facts in camel case (Laid-over -> LaidOver). Only names that the repository declares
itself change. The labels that Rattle makes for goals and steps (goal.returns-in-Ok, c.lay_from-tally)
stay, and so do functions, types, strings and file names of src/: there only clauses, ghost items and
comments are read. Names that would fall together are named, and nothing is written.
"""

import collections
import glob
import re
import sys

NAME = r"[^\s(){}.;,@\"«»:\[\]|⌜⌝]+"
DECLARED = re.compile(
    rf"^\s*(?:(?:abbrev|unfoldable)\s+)*(?:pub\s+)?(?:(?:data|record)\s+)?({NAME})(?:\s+[({{].*)?\s+:\s(.*)"
)
USED = re.compile(r"^\s*use ")
LABELLED = re.compile(r"/proofs/.*/(Answers|Invariants|Choices|Needs|Proof)\.antt$")
TOKEN = re.compile(rf"{NAME}")
GHOST = re.compile(r"^\s*(?:ghost\b|requires\b|ensures\b|law\b|//|pub ghost\b|also_owns\b)")
TOLD = re.compile(r"^(old|new): ")
# Heads behind which the first name is a label that Rattle makes.
HEADS = ("goal", "need", "needs", "c", "w", "l", "g")
# Lemmas that would get the name of the function they speak of.
LEMMAS = {"first-in": "first_in_lem", "over-all": "over_all_lem", "sides-at": "sides_at_lem"}
# Names that two crates have for different things; no file sees both.
APART = {"files_in"}


def spelled(name):
    if name in LEMMAS:
        return LEMMAS[name]
    if name[0].isupper():
        parts = name.split("-")
        return parts[0] + "".join(p[:1].upper() + p[1:] for p in parts[1:])
    name = re.sub(r"(?<=[a-z0-9])[A-Z]", lambda m: "_" + m[0].lower(), name)
    return name.replace("-", "_")


def texts(pattern):
    return sorted(glob.glob(pattern, recursive=True))


def gather():
    """Each name that a file of specs/ or a lemma file of proofs/ declares, with the files."""
    declared = collections.defaultdict(set)
    for path in texts("crates/*/specs/**/*.antt") + texts("crates/*/proofs/**/*.antt"):
        if LABELLED.search(path):
            continue
        for line in open(path):
            for alias in re.findall(rf" as ({NAME})(?=[,}}])", line) if USED.match(line) else ():
                declared[alias].add(path)
            m = DECLARED.match(line)
            if m and not line.lstrip().startswith("--"):
                declared[m.group(1)].add(path)
    return declared


def turned(text, table, labelled):
    def one(m):
        word = m[0]
        if word not in table:
            return word
        if labelled and text[: m.start()].endswith("."):
            head = re.search(r"([^\s(){}.;,]+)\.$", text[: m.start()])
            if head and head[1] in HEADS:
                return word
        return table[word]

    return TOKEN.sub(one, text)


def rust(text, table):
    out = []
    inside = False  # a clause that goes on over several lines
    depth = 0
    for line in text.split("\n"):
        if inside or GHOST.match(line):
            comment = line.lstrip().startswith("//")
            line = turned(line, table, False)
            if not comment and not re.match(r"\s*ghost use\b", line):
                depth += line.count("{") - line.count("}")
                inside = depth > 0
                if depth <= 0:
                    depth = 0
        out.append(line)
    return "\n".join(out)


def edit(text, table):
    out = []
    for line in text.split("\n"):
        m = TOLD.match(line)
        if m and GHOST.match(line[m.end():]):
            line = line[: m.end()] + turned(line[m.end():], table, False)
        out.append(line)
    return "\n".join(out)


def main():
    declared = gather()
    table = {n: spelled(n) for n in declared if spelled(n) != n}
    met = collections.defaultdict(set)
    for old, new in table.items():
        met[new].add(old)
        if new in declared:
            met[new].add(new)
    bad = {n: olds for n, olds in met.items() if len(olds) > 1 and n not in APART}
    for n in sorted(bad):
        print("fall together:", n, {o: sorted(declared[o]) for o in bad[n]})
    if bad and "--anyway" not in sys.argv:
        return 1
    for path in texts("crates/**/*.antt"):
        text = open(path).read()
        now = turned(text, table, bool(LABELLED.search(path)))
        if now != text:
            open(path, "w").write(now)
    for path in texts("crates/**/*.rt"):
        text = open(path).read()
        now = rust(text, table)
        if now != text:
            open(path, "w").write(now)
    for path in texts("crates/*/must-fail/*.edit"):
        text = open(path).read()
        now = edit(text, table)
        if now != text:
            open(path, "w").write(now)
    if "--list" in sys.argv:
        for n in sorted(table):
            print(n, table[n])
    return 0


sys.exit(main())

#!/usr/bin/env python3
"""Spells the repository's own definitions and lemmas as Rattle's guides do: in snake case, with no dash and no capital inside.

usage: python3 tools/respell.py        at the top, once, after the scripts of Rattle's port
       python3 tools/respell.py list   prints each name with its new spelling, and what falls together

Turned are the names that .antt files of specs/ and proofs/ declare, in .antt files, in the clauses of .rt files and in the edits of must-fail/.
Names of functions and types in src/, exported names, strings, inputs and outputs stay.
"""

import collections
import os
import re
import sys

DECLARED = re.compile(
    r"^\s*((?:(?:pub|abbrev|unfoldable|record|data|ruleset) )*)([^\s:(){}.,;]+)((?:\s+[({][^\n]*?)?\s*):(?=\s|$)",
    re.M,
)
# Further names that stand on one line: constructors and fields side by side.
BESIDE = re.compile(r"^\s+(?:pub )?((?:[^\s:(){}.,;]+ )+):(?=\s|$)", re.M)
RULESET = re.compile(r"^\s*(?:pub )?ruleset ([^\s:(){}.,;]+)", re.M)
WORD = re.compile(r'(?<![^\s(){}.;,@"«»])[^\s(){}.;,@"«»]+')
MADE = ("Proof.antt", "Answers.antt", "Invariants.antt")

# Where a lemma would have the name of what it speaks of, or two definitions would have one name: these spellings, in all crates or in one.
TOLD = {
    "stateWords": "state_words_of",
    "callAnswer": "call_answer_of",
    "answerWords": "answer_words_of",
    "nodeWords": "node_words_of",
    "cellWords": "cell_words_of",
    "dimensionWords": "dimension_words_of",
    "lookWords": "look_words_of",
    "namePlace": "name_place_of",
    "nameLength": "name_length_of",
    "leafIndex": "leaf_index_of",
    "noSums": "no_sum_words",
    "nodeShare": "node_share_at",
    "cellShare": "cell_share_at",
    "state-of": "state_with",
    "cells-start": "cells_start_lem",
    "part-of": "part_of_lem",
    "spell-all": "spell_all_lem",
    "leaves_all": "leaves_all_lem",
    "own-leaf": "own_leaf_lem",
    "cell-value": "cell_value_lem",
    "node-records": "node_record_sizes",
    "cell-records": "cell_record_sizes",
    "dimension-entries": "entries_of_dimensions",
    "leaves-from": "leaves_from_lem",
    "read_number": "read_number_lem",
    "test-gives": "test_gives_lem",
    "content-gives": "content_gives_lem",
    "member-cells": "member_cells_lem",
    "leaf-sums": "leaf_sums_lem",
    "sums_at": "sums_at_lem",
    "leaf-total": "leaf_total_lem",
    "records-say": "records_say_lem",
    "of-value": "of_value_lem",
    "lead-size": "lead_size_lem",
    "or-none": "or_none_lem",
    "resolve-all": "resolve_all_lem",
    "resolve-in": "resolve_in_lem",
    "free-verdict": "free_verdict_lem",
    "end-at": "end_where",
    "frame-of": "frame_said",
    "leafAnswer": "leaf_answer_of",
    "noIndex": "no_index_answer",
    "noPosition": "no_position_answer",
    "onceEach": "each_axis_once",
    "refused-start": "refused_start_answer",
    "refusedAll": "refused_all_answer",
    "refusedArgument": "refused_argument_answer",
    "tooLarge": "too_large_answer",
}
TOLD_IN = {"answer": {"cell-records": "cell_records_lem"}}


def texts(*kinds):
    for folder, dirs, files in os.walk("crates"):
        dirs[:] = sorted(d for d in dirs if d != "out")
        for f in sorted(files):
            if f.endswith(kinds):
                yield os.path.join(folder, f)


def read(path):
    with open(path, encoding="utf-8") as f:
        return f.read()


def snake(name):
    name = re.sub(r"(?<=[a-z0-9])([A-Z])(?=[a-z]|[A-Z]?$|-)", lambda m: "_" + m[1].lower(), name)
    return name.replace("-", "_")


def declared():
    names = set()
    for path in texts(".antt"):
        if os.path.basename(path) in MADE and "/proofs/" in path:
            continue
        text = re.sub(r"--[^\n]*", "", read(path))
        for m in DECLARED.finditer(text):
            names.add(m[2])
        for m in BESIDE.finditer(text):
            names.update(m[1].split())
        for m in RULESET.finditer(text):
            names.add(m[1])
    return names


# What files import of Rattle's libraries: those names are theirs, and stay.
USE = re.compile(r"\buse ([^\s;{]+?)\.\{([^}]*)\}")


def lent():
    own = {line.split(":")[0].split()[0] for line in read("crates.txt").split("\n") if line and line[0] not in "# "}
    names = set()
    for path in texts(".antt", ".rt"):
        for m in USE.finditer(read(path)):
            steps = m[1].split(".")
            if steps[0] != "Rattle" or steps[1] not in own:
                names.update(w for item in m[2].split(",") for w in item.split() if w != "as")
    return names


def is_old(name):
    if not re.fullmatch(r"[^\W\d][\w'·-]*", name):
        return False
    return "-" in name or (name[0].islower() and re.search(r"[a-z0-9][A-Z]", name) is not None)


def table():
    names = declared() - lent()
    turned = {n: snake(n) for n in names if is_old(n)}
    turned.update({n: s for n, s in TOLD.items() if n in names})
    return names, turned


def spans(text, comment):
    """The text in pieces: what is code, and of a comment what stands between backticks."""
    out, at = [], 0
    for m in re.finditer(comment + r"[^\n]*", text):
        out.append((text[at : m.start()], True))
        parts = re.split(r"(`[^`\n]*`)", m[0])
        out.extend((p, p.startswith("`")) for p in parts)
        at = m.end()
    out.append((text[at:], True))
    return out


def in_words(text, names):
    return WORD.sub(lambda m: names.get(m[0], m[0]), text)


def antt(text, names):
    out = []
    for piece, code in spans(text, "(?<![^\\s(){};,])--(?= |$)"):
        if code and piece.startswith("`"):
            piece = "`" + in_words(piece[1:-1], names) + "`"
        elif code:
            piece = in_words(piece, names)
        out.append(piece)
    return "".join(out)


# The clauses of a .rt file: what stands in braces behind requires, ensures and ghost, and the items of ghost use.
CLAUSE = re.compile(r"\b(?:requires|ensures)\*?(?: \w+)? \{|\bghost(?: \w+:)? \{|ghost use [^;]*;")


def rt(text, names):
    out, at = [], 0
    for m in CLAUSE.finditer(text):
        if m.start() < at:
            continue
        end = m.end()
        if not m[0].startswith("ghost use"):
            deep = 1
            while deep:
                deep += {"{": 1, "}": -1}.get(text[end], 0)
                end += 1
        out.append(text[at : m.start()])
        out.append(in_words(text[m.start() : end], names))
        at = end
    out.append(text[at:])
    # names between backticks in comments
    return re.sub(r"//[^\n]*", lambda m: re.sub(r"`([^`]*)`", lambda s: "`" + in_words(s[1], names) + "`", m[0]), "".join(out))


def edit(text, names):
    lines, kind = [], ""
    for line in text.split("\n"):
        if line.startswith("file:"):
            kind = "antt" if line.rstrip().endswith(".antt") else "rt"
        elif line.startswith(("old:", "new:")):
            line = line[:4] + (in_words(line[4:], names) if kind == "antt" else rt(line[4:], names))
        lines.append(line)
    return "\n".join(lines)


def main():
    names, turned = table()
    if sys.argv[1:] == ["list"]:
        by = collections.defaultdict(set)
        for old, new in turned.items():
            by[new].add(old)
        for old, new in sorted(turned.items()):
            also = (by[new] | ({new} if new in names and new not in turned else set())) - {old}
            print(old, new, "TOGETHER WITH " + " ".join(sorted(also)) if also else "")
        return
    for path in list(texts(".antt", ".rt", ".edit")):
        crate = path.split("/")[1]
        here = turned | TOLD_IN.get(crate, {})
        text = read(path)
        turn = antt if path.endswith(".antt") else rt if path.endswith(".rt") else edit
        new = turn(text, here)
        if new != text:
            with open(path, "w", encoding="utf-8") as f:
                f.write(new)


main()

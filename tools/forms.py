#!/usr/bin/env python3
"""Counts the old forms of docs/DESIGN-PASS.md in the src/ of a tree: tools/forms.py [TREE] [--list POINT]"""
import os
import re
import sys

tree = next((a for a in sys.argv[1:] if not a.startswith("--") and not a.isdigit()), ".")
shown = int(sys.argv[sys.argv.index("--list") + 1]) if "--list" in sys.argv else None

lines = []  # file, number, text without its comment
crates = os.path.join(tree, "crates")
for crate in sorted(os.listdir(crates)):
    src = os.path.join(crates, crate, "src")
    for folder, _, files in os.walk(src):
        for name in sorted(files):
            path = os.path.join(folder, name)
            for number, text in enumerate(open(path), 1):
                bare = re.sub(r"(^|\s)//.*", "", text.rstrip("\n"))
                if bare.strip() and "ghost use" not in bare:
                    lines.append((os.path.relpath(path, crates), number, bare))


def matching(pattern):
    found = re.compile(pattern)
    return [x for x in lines if found.search(x[2])]


def kinds_and_refusals():
    """refusals as numbers: a type, a parameter, a result or a literal"""
    return matching(r"\bRefused\(u32, usize\)|\brefusal: u32|Refused\(\d+,|\brefused(_\w+)?\(\d+,|const (NOT_LISTED|LIMIT_PASSED|UNKNOWN_PAGE|NO_CHARACTER|OUTPUT_SHORT|BAD_STATE|TOO_SOON|TOO_MANY|BAD_CODE): u32")


def flags():
    """a flag or a mark for 'none' with a value beside it"""
    return matching(r"^\s*(pub )?(holds|good|is|bad|old|small|found|writes|goes): bool|^\s*(pub )?next: Step,|const (NO_BYTE|NO_CODE_POINT|PAGE_COUNT): ")


def kinds():
    """numbers for kinds"""
    return matching(r"const (GATHERS|ACTS|ENDED|NUMERIC|STRING): u|\bphase: u32|\bform: u32|\bstep: usize\b.*$|match step \{|\bkind: u8")


def enums():
    """own enums of the shape of Option or Result"""
    return matching(r"\benum (Step|Span|Written|Walk|Section|NodeStart|Head|AxisCounts|CellRead|Answer|Verdict)\b")


def twins():
    """functions and types that differ in a type, a size or a constant"""
    return matching(r"\bstruct Got\w*|\bfn with_\w+_lists\b|\bfn (all_triples|all_pairs|all_style_maps|strings|notes|zeros|all_styles|values|arguments_at|optional_font|optional_cell|optional_id|optional_value|quotient|remainder|times|at_most|word|with_short_lists|with_long_lists|no_room|one_element|eight_elements|refused_argument)\(|\benum (Asked|Said)\b|\bstruct (Pixels|Points|Height|Looked|Ascending|Marked)\b")


def loops():
    """loops that count an index by hand"""
    return matching(r"^\s*(while|loop)\b")


def by_hand():
    """comparison, copying, conversion and the like by hand, where std has a method"""
    return matching(r"\bfn (between|at_most|least|greatest|quotient|remainder|word|wide|copy|same|to_bits|from_bits|mark|top|byte_at|or_null|or_else|or_none|padded|widened|narrow|eight_bytes|low_first|high_first|power|digit|number|says|fits|clear)\(")


def conjuncts():
    """a fact in the requires of three or more functions: each function that has it"""
    facts = {}
    for path, number, text in lines:
        m = re.match(r"\s*requires (?:\w+ )?\{ (.*) \}$", text)
        if not m:
            continue
        for fact in re.split(r" × ", m.group(1)):
            fact = fact.strip("() ")
            facts.setdefault((path.split("/")[0], fact), []).append((path, number, fact))
    return [x for places in facts.values() if len(places) > 2 for x in places]


def beside():
    """buffers with a length beside, parallel arrays"""
    return matching(r"\[u(8|32|64); [A-Z_0-9]+\],\s*$|\bkinds: &\[u8; 256\],|: \[u32; (DIMENSION_AREA|MOST_DIMENSIONS)\]")


def switches():
    """a switch on which step to run"""
    return matching(r"match step \{|match asked \{|\bif back \{|\bAsked::|\bSaid::")


points = [
    (1, [enums, flags, kinds_and_refusals, kinds]),
    (2, [twins]),
    (3, [loops]),
    (4, [by_hand]),
    (5, [conjuncts]),
    (6, [beside]),
    (7, [switches]),
]
for point, parts in points:
    counts = []
    for part in parts:
        found = part()
        counts.append(f"{len(found)} ({part.__doc__})")
        if shown == point:
            for path, number, text in found:
                print(f"    {path}:{number}: {text.strip()}")
    print(f"{point}: " + "; ".join(counts))

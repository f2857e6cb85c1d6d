#!/usr/bin/env python3
"""Says which must-fail edits no longer fit the text: each `old:` has to stand exactly once in its file, after the pairs before it.

usage: python3 tools/edits_fit.py      at the top; prints each edit that does not fit, and why; the exit status is 1 if there is one
"""

import glob
import os
import sys


def misfit(path):
    crate = os.path.dirname(os.path.dirname(path))
    texts, file, old, pairs = {}, None, None, 0
    with open(path, encoding="utf-8") as f:
        lines = f.read().split("\n")
    for line in lines:
        if line.startswith("file: "):
            file = os.path.join(crate, line[6:].strip())
        elif line.startswith("old: "):
            old = line[5:]
        elif line.startswith("new:"):
            new = line[4:].removeprefix(" ")
            if not file or not old:
                return "a `new:` before its `file:` or `old:`"
            if file not in texts:
                if not os.path.isfile(file):
                    return f"no file {file}"
                with open(file, encoding="utf-8") as f:
                    texts[file] = f.read()
            n = texts[file].count(old)
            if n != 1:
                return f"{n} times in {file}: {old}"
            texts[file] = texts[file].replace(old, new)
            old, pairs = None, pairs + 1
        elif line.strip() and not line.startswith("#"):
            return f"a line that is not read: {line}"
    return None if pairs else "no pair"


def main():
    edits = sorted(glob.glob("crates/*/must-fail/*.edit"))
    bad = [(it, why) for it in edits if (why := misfit(it))]
    for it, why in bad:
        print(f"{it}: {why}")
    print(f"{len(edits)} edits, {len(bad)} do not fit")
    return 1 if bad or not edits else 0


sys.exit(main())

#!/usr/bin/env python3
"""An outside program that tries every choice.

"A non-input node becomes 0 or 1 exactly when every way of opening or closing the unknown transistors gives it that state; otherwise X."

It knows nothing of the project's definitions. It follows the rules in words (docs/MODEL.md), one choice of open or closed after another (rules.py), and what it
finds is compared with the bench set (bench.py) and, on random networks (drawing.py), with what the definitions compute (claim.py).

    choices.py bench               run K1 to K14 and compare with bench.txt
    choices.py sample SEED COUNT   print COUNT entries with what they leave, as a claim about the definitions
    choices.py check FILE          make such a file again and compare
"""

import difflib
import pathlib
import re
import sys

import bench
import claim
import drawing

BENCH = pathlib.Path(__file__).with_name("bench.txt")


def compare(kept, made):
    """Status 0 if they are the same; else the first lines that differ, and 1."""
    lines = list(difflib.unified_diff(kept.splitlines(), made.splitlines(), "kept", "made", n=0, lineterm=""))
    print("\n".join(lines[:20]), end="\n" if lines else "")
    return int(kept != made)


def made_by(kept):
    """The seed and the count that a claim names."""
    return [int(number) for number in re.search(r"choices\.py sample (\d+) (\d+)", kept).groups()]


def main(arguments):
    if arguments == ["bench"]:
        return compare(BENCH.read_text(), bench.lines())
    if len(arguments) == 3 and arguments[0] == "sample":
        print(claim.text(*map(int, arguments[1:])), end="")
        return 0
    if len(arguments) == 2 and arguments[0] == "check":
        kept = pathlib.Path(arguments[1]).read_text(encoding="utf-8")
        return compare(kept, claim.text(*made_by(kept)))
    print(__doc__, end="")
    return 2


if __name__ == "__main__":
    # the claim's signs, whatever the caller's locale
    sys.stdout = open(1, "w", encoding="utf-8", closefd=False)
    sys.exit(main(sys.argv[1:]))

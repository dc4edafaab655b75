#!/usr/bin/env python3
"""Prints which crates depend on those that are named, each after those that it depends on itself.

    tools/crates_above.py CRATE..

They are what a change of a contract may break: check them in this order.
"""
import sys
from pathlib import Path

ROWS = (Path(__file__).resolve().parent.parent / "crates.txt").read_text().splitlines()
# What each crate depends on. A row: NAME, or NAME and words of its own, a colon, and the list.
CRATES = {head.split()[0]: set(below.split())
          for head, colon, below in (row.split("#")[0].partition(":") for row in ROWS) if colon}


def all_below(name):
    """All that a crate depends on, also by others."""
    its = CRATES.get(name, set())
    return its.union(*map(all_below, its))


def main(names):
    unknown = [name for name in names if name not in CRATES]
    if unknown or not names:
        sys.exit(f"crates.txt has no crate {unknown[0]}" if unknown else "usage: tools/crates_above.py CRATE..")
    above = [name for name in CRATES if all_below(name) & set(names)]
    # Whoever depends on another has more below it than that one.
    for name in sorted(above, key=lambda it: (len(all_below(it)), it)):
        print(name)


if __name__ == "__main__":
    main(sys.argv[1:])

#!/usr/bin/env python3
"""Writes into CONTRIBUTING.md what crates.txt says: the longest chain, and what each crate calls.

    python3 dev/crates.py
    python3 dev/crates.py --check

The second writes nothing, and ends with 1 where the document is not what the first would write.

It writes between two marks, a line a crate. What the crate has is written by hand, behind the
colon, and stays; a new crate gets a question mark there. The calls in parentheses leave out what
another of them calls, so that the lines show how the crates lie above each other.
"""

import argparse
import re
import sys
from pathlib import Path

TOP = Path(__file__).resolve().parent.parent
DOCUMENT = TOP / "CONTRIBUTING.md"
MARKS = "<!-- Written by crates.py from crates.txt. -->", "<!-- The end of what it writes. -->"


def calls():
    """What each crate calls of the others, in the order of crates.txt."""
    lines = re.findall(r"^(\w+):(.*)$", (TOP / "crates.txt").read_text(), re.MULTILINE)
    names = {name for name, _ in lines}
    return {name: [word for word in words.split() if word in names] for name, words in lines}


def below(crate, called):
    """All crates that a crate calls, or that one of these calls."""
    found = set(called[crate])
    return found.union(*(below(one, called) for one in found))


def longest(crate, called):
    """The longest chain of crates that begins at one."""
    return [crate, *max((longest(one, called) for one in called[crate]), key=len, default=[])]


def short(name):
    """A crate's name as a list of calls has it."""
    return name.removeprefix("fwd_")


def written(words):
    """What is between the marks, with these words of each crate."""
    called = calls()
    chain = max((longest(crate, called) for crate in called), key=len)
    text = f"The longest chain has {len(chain)} crates: {' > '.join(map(short, chain))}.\n\n"
    for crate in reversed(called):
        hidden = set().union(*(below(one, called) for one in called[crate]))
        shown = " ".join(short(one) for one in called[crate] if one not in hidden)
        text += f"    {crate}: {words.get(crate, '?')}" + (f" ({shown})\n" if shown else "\n")
    return text


def main():
    parser = argparse.ArgumentParser(description=__doc__.splitlines()[0])
    parser.add_argument("--check", action="store_true", help="write nothing, and end with 1 where it is another")
    options = parser.parse_args()
    old = DOCUMENT.read_text()
    if any(old.count(mark) != 1 for mark in MARKS):
        sys.exit(f"{DOCUMENT.name} has not the two marks: {' '.join(MARKS)}")
    front, middle, end = re.split("|".join(map(re.escape, MARKS)), old)
    words = dict(re.findall(r"^ {4}(\w+): (.*?)(?: \([\w ]+\))?$", middle, re.MULTILINE))
    new = f"{front}{MARKS[0]}\n{written(words)}{MARKS[1]}{end}"
    if not options.check:
        DOCUMENT.write_text(new)
    elif old != new:
        sys.exit(f"{DOCUMENT.name} is another than by crates.txt. Write it anew by: python3 dev/crates.py")


if __name__ == "__main__":
    main()

#!/usr/bin/env python3
"""Compares what two commits promise: contracts of calls, definitions, and edits that the check must refuse.

    python3 dev/contracts.py BEFORE [AFTER]

AFTER is the commit checked out, where it is not given. It prints what a reader has to judge, a line each:

    gone      a call, clause, definition or edit of BEFORE that AFTER has no more
    other     one that reads otherwise, both texts below it
    asks      a `requires` that AFTER has and BEFORE has not

A call is known by its crate, its type and its name, so that it may move from file to file; so is a definition by its crate and
its name, and an edit by its crate and its file. What one other crate alone has by that name has moved there. Calls that a crate
keeps to itself are left out. White space and comments do not count. It ends with 1 where there is a line. That a clause is not
weaker is for the reader to see: one that reads otherwise may say more than before.
"""

import io
import re
import subprocess
import sys
import tarfile
from pathlib import Path

TOP = Path(__file__).resolve().parent.parent
HEAD = re.compile(r"^( *)(pub )?(?:const )?fn (\w+)")
OF_TYPE = re.compile(r"^(?:pub(?:\(\w+\))? )?(?:impl|trait)\b(?:<.*?>)? *(?:.* for )?&?(?:mut )?(\w+)")
CLAUSE = re.compile(r"^ *(requires|ensures)\b", re.MULTILINE)
DEFINED = re.compile(
    r"^(?:(?:abbrev|unfoldable|data|record|opaque|instance) )*pub (?!(?:mod|use)\b)(?:record |data )?(\S+)"
)


def words(text):
    """A text with one space between its words, and without comments."""
    return " ".join(re.sub(r"(?m)^ *(//|--).*$", "", text).split())


def files(commit):
    """The text of each file below crates/ in a commit, by its path."""
    packed = subprocess.run(["git", "archive", commit, "crates"], cwd=TOP, stdout=subprocess.PIPE, check=True).stdout
    with tarfile.open(fileobj=io.BytesIO(packed)) as archive:
        members = [member for member in archive if member.isfile()]
        return {it.name: archive.extractfile(it).read().decode(errors="replace") for it in members}


def head(lines, at, indent):
    """The head of the function at a line: all before its body."""
    taken = []
    for line in lines[at:]:
        if line.rstrip() == f"{indent}{{":
            break
        taken.append(line)
        if line.rstrip().endswith((" {", ";")) and not CLAUSE.search("\n".join(taken)):
            break
    return "\n".join(taken)


def calls(crate, text):
    """The clauses of each call of a file that others see, by its name."""
    lines, own, of_trait = text.split("\n"), "", False
    for at, line in enumerate(lines):
        found = OF_TYPE.match(line)
        if found:
            own, of_trait = f"{found[1]}::", " for " in line or "trait " in line.split("{")[0]
        elif line.startswith("}"):
            own, of_trait = "", False
        found = HEAD.match(line)
        if found and (found[2] or of_trait and own):
            text = head(lines, at, found[1])
            marks = [mark.start() for mark in CLAUSE.finditer(text)] + [len(text)]
            clauses = [words(text[one:two]) for one, two in zip(marks, marks[1:])]
            yield f"{crate} {own}{found[3]}", [clause.rstrip(" {;") + " }" for clause in clauses]


def definitions(crate, text):
    """The text of each definition of a file of specs, by its name."""
    name, parts = None, {}
    for block in re.split(r"\n(?=\S)", text):
        found = DEFINED.match(block)
        name = f"{crate} {found[1]}" if found else name
        if name and not block.startswith(("--", "use ")):
            parts.setdefault(name, []).append(words(block))
    return {name: " ".join(texts) for name, texts in parts.items()}


def promises(commit):
    """What a commit promises: its calls' clauses, its definitions and its edits."""
    clauses, defined, edits = {}, {}, {}
    for path, text in files(commit).items():
        _, crate, part, *rest = path.split("/")
        if part == "src" and path.endswith(".rt"):
            for name, own in calls(crate, text):
                clauses.setdefault(name, []).extend(own)
        elif part == "specs" and path.endswith(".antt"):
            defined.update(definitions(crate, text))
        elif part.startswith("must-fail") and rest:
            edits[f"{crate} {rest[-1]}"] = words(text)
    return clauses, defined, edits


def pairs(before, after):
    """Each name of BEFORE with what it is there and in AFTER, if it is, in its own crate or in another."""
    elsewhere = {}
    for name in after.keys() - before.keys():
        elsewhere.setdefault(name.split()[1], []).append(name)
    for name, own in before.items():
        others = elsewhere.get(name.split()[1], [])
        yield name, own, after.get(name, after[others[0]] if len(others) == 1 else None)


def compared(before, after):
    """The lines of what of BEFORE reads otherwise in AFTER, or is gone, of texts by their names."""
    for name, text, new in pairs(before, after):
        if new is None:
            yield f"gone   {name}"
        elif new != text:
            yield f"other  {name}\n    before: {text}\n    after:  {new}"


def clauses_compared(before, after):
    """The lines of calls: a clause that is gone stands with those that came."""
    for name, own, new in pairs(before, after):
        if new is None:
            yield f"gone   {name}"
            continue
        lost = [clause for clause in own if clause not in new]
        come = [clause for clause in new if clause not in own]
        for clause in lost:
            kin = [it for it in come if it.split("{")[0] == clause.split("{")[0]]
            word = "other " if kin else "gone  "
            yield f"{word} {name}\n    before: {clause}" + "".join(f"\n    after:  {it}" for it in kin)
        for clause in come:
            if clause.startswith("requires"):
                yield f"asks   {name}\n    after:  {clause}"


def main():
    if not 2 <= len(sys.argv) <= 3:
        sys.exit(__doc__)
    old, new = (promises(commit) for commit in (sys.argv[1], (sys.argv[2:] or ["HEAD"])[0]))
    lines = [*clauses_compared(old[0], new[0]), *compared(old[1], new[1]), *compared(old[2], new[2])]
    print("\n".join(lines) or "nothing is gone, reads otherwise or asks for more")
    sys.exit(bool(lines))


if __name__ == "__main__":
    main()

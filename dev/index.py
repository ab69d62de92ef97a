#!/usr/bin/env python3
"""Writes docs/INDEX.md: the public functions of the libraries with what is promised of each.

    python3 dev/index.py
    python3 dev/index.py --check

The second writes nothing, and ends with 1 where the file is not what the first would write.

It reads the sources alone, as rattle.py does, which says what is public. The methods of public
traits are listed too. A definition file is named where a clause has a name that the function's
file, or its impl, imports from it; a file that another crate passes on is named by the crate that
has it.
"""

import argparse
import functools
import re
import sys
from bisect import bisect
from typing import NamedTuple

from rattle import CRATES, TOP, Crate, library_names

INDEX = TOP / "docs" / "INDEX.md"
WIDTH = 300  # columns of a line at most, where no word is longer

HEAD = """\
<!-- Written by `python3 dev/index.py` from crates. Do not edit: change the sources, and run that again. -->

# Index of the calls that have a contract

Each line has a public function, or a law, and the first sentence of its comment. [PROVED](PROVED.md)
says what the contracts promise together, and what no contract says. A line has besides:

- in parentheses the names of its clauses, and after `needs` of those that its caller has to meet;
  a clause that is the only one of its kind has no name;
- in square brackets the files of definitions that its clauses name: `specs/FILE.antt` of its crate,
  or of the crate before the slash;
- after ✗ the must-fail edits of its contract or body: wrong versions that the prover has to
  refuse, each `NAME.edit` below `must-fail` of its crate, or below `must-fail-minutes`, whose edits
  the gate leaves out.

The crates stand in the order of `crates.txt`.
"""
NO_LINE = "No public function has a contract of its own.\n"
PRIVATE = """\
## Edits of private functions

The must-fail edits of functions that have no line above, and of what is no function.
"""
DEFINITIONS = """\
## Edits of definitions

With each of these some law or contract is proved no more. It stands at the definition that it
changes first.
"""

ITEM = re.compile(r"^(?:pub(?:\([a-z]+\))? )?(struct|enum|trait|const|static|type|impl|use|mod)\b[^\n]*", re.MULTILINE)
DEFINED = re.compile(r" *(?:(?:abbrev|unfoldable|data|record|pub) )+(\S+) :")
SENTENCE = re.compile(r"(?:`[^`]*`|[^`])+?[.?!](?= [^a-z]|$)")


def first_sentence(comment):
    """The first sentence of a comment, with a full stop."""
    found = SENTENCE.match(comment)
    return (found[0] if found else comment).rstrip(":.") + "." if comment else ""


# ---- files of definitions


def definitions(source, function):
    """The files of definitions that a function's clauses name."""
    text = " ".join(text for _, _, text in function.clauses)
    files = set()
    for block, file, names, is_whole in source.uses:
        if block not in (-1, function.block) or not (CRATES / file[0]).is_dir():
            continue
        tails = r"\." if is_whole else r"(?![\w'])"
        if any(re.search(rf"(?<![\w'.]){re.escape(name)}{tails}", text) for name in names if "◌" not in name):
            files.add(file)
    return files


@functools.cache
def passed_on(crate):
    """The files of definitions that a crate passes on, each with the crate that it takes it from."""
    path = CRATES / crate / "specs" / "Lib.antt"
    text = path.read_text() if path.is_file() else ""
    return {file: owner for owner, file in re.findall(r"^pub use Rattle\.(\w+)\.specs\.(\w+)$", text, re.MULTILINE)}


def named_file(crate, file):
    """How a file of definitions is named in the lines of a crate, by the crate that has it."""
    owner, name = file
    while name in passed_on(owner):
        owner = passed_on(owner)[name]
    return name if owner == crate else f"{owner}/{name}"


# ---- must-fail edits


class Edit(NamedTuple):
    """A must-fail edit: what it changes, as pairs of a file and an old text."""

    name: str
    changes: list


def edits_of(crate):
    """The must-fail edits of a crate."""
    edits = []
    for path in sorted((CRATES / crate).glob("must-fail*/*.edit"), key=lambda path: path.name):
        file, changes = None, []
        for line in path.read_text().splitlines():
            key, _, rest = line.partition(": ")
            if key == "file":
                file = rest
            elif key == "old":
                changes.append((file, rest))
        edits.append(Edit(path.stem, changes))
    return edits


def place_of(edit, crate, sources):
    """Where an edit lies: its file, and the first function of a source, or definition, that it changes."""
    others = []
    for file, old in edit.changes:
        text = (CRATES / crate / file).read_text()
        if text.count(old) != 1:
            raise SystemExit(f"{crate}: {edit.name}.edit: its old text stands {text.count(old)} times in {file}")
        place = text.index(old)
        source = sources.get(file)
        functions = source.functions if source else []
        for function in functions:
            if place < function.end and function.start < place + len(old):
                return file, function
        others.append((file, item_at(text, place) if source else definition_at(text, place)))
    return next((other for other in others if other[1]), others[0])


def item_at(text, place):
    """The item of a source, no function, that a place lies in."""
    heads = list(ITEM.finditer(text))
    found = heads[bisect([head.start() for head in heads], place) - 1]
    return re.sub(r"^pub(?:\([a-z]+\))? ", "", found[0]).rstrip(" {;")


def definition_at(text, place):
    """The definition that a place lies in, or nothing where it is a comment."""
    for line in reversed(text[: text.find("\n", place)].splitlines()):
        if line.startswith("--"):
            return None
        if found := DEFINED.match(line):
            return found[1]
    return None


# ---- what is written


def wrapped(line):
    """A line of a list, cut at spaces where it is too long."""
    lines = []
    while len(line) > WIDTH and (place := line.rfind(" ", 3, WIDTH + 1)) > 0:
        lines.append(line[:place])
        line = "  " + line[place + 1 :]
    return "\n".join([*lines, line])


def marked(names):
    """Names in backticks."""
    return ", ".join(f"`{name}`" for name in names)


def function_line(crate, source, function, edits):
    """The line of a public function."""
    promised = ", ".join(name for word, name, _ in function.clauses if word == "ensures" and name)
    asked = ["needs " + name for word, name, _ in function.clauses if word == "requires"]
    clauses = [part for part in (promised, ", ".join(asked).replace(", needs", ",").strip()) if part]
    files = {named_file(crate, file) for file in definitions(source, function)}
    files = sorted(files, key=lambda file: ("/" in file, file))
    line = f"- `{function}`"
    line += f" ({'; '.join(clauses)})" if clauses else ""
    line += ", a law" if function.is_law else ""
    line += f": {first_sentence(function.comment)}" if function.comment else ""
    line += f" [{marked(files)}]" if files else ""
    line += f" ✗ {marked(edits)}" if edits else ""
    return wrapped(line)


def index(names):
    """The whole text for these libraries."""
    libraries = {name: Crate(name) for name in names}
    text, private, definitions = HEAD, "", ""
    for name, library in libraries.items():
        sources = {source.file: source for source in library.sources}
        lines = {id(f): (s, f, []) for s, f in library.public if f.has_promise()}
        others, defined = {}, {}
        for edit in edits_of(name):
            file, place = place_of(edit, name, sources)
            if id(place) in lines:
                lines[id(place)][2].append(edit.name)
            else:
                places = defined if file.startswith("specs/") else others
                places.setdefault(f"`{file}`, `{place}`", []).append(edit.name)
        about = first_sentence(
            " ".join(line[3:].strip() for line in library.root.splitlines() if line.startswith("//!"))
        )
        text += f"\n## `{name}`\n\n{wrapped(about)}\n\n"
        text += "".join(f"{function_line(name, *line)}\n" for line in lines.values()) or NO_LINE
        private += "".join(f"{wrapped(f'- `{name}`, {at}: {marked(edits)}')}\n" for at, edits in others.items())
        definitions += "".join(f"{wrapped(f'- `{name}`, {at}: {marked(edits)}')}\n" for at, edits in defined.items())
    return f"{text}\n{PRIVATE}\n{private}\n{DEFINITIONS}\n{definitions}"


def difference(old, new):
    """What the first line is in which two texts differ."""
    before, after = old.splitlines(), new.splitlines()
    number = next((n for n, (a, b) in enumerate(zip(before, after)) if a != b), min(len(before), len(after)))
    has, wants = (lines[number] if number < len(lines) else "(the end)" for lines in (before, after))
    return f"line {number + 1} of {INDEX.relative_to(TOP)} is\n  {has}\nand by the sources\n  {wants}"


def main():
    parser = argparse.ArgumentParser(description=__doc__.splitlines()[0])
    parser.add_argument("--check", action="store_true", help="write nothing, and end with 1 where the file is another")
    options = parser.parse_args()
    new = index(library_names())
    if not options.check:
        INDEX.write_text(new)
        return
    old = INDEX.read_text() if INDEX.is_file() else ""
    if old != new:
        sys.exit(f"{difference(old, new)}\nWrite it anew by: python3 dev/index.py")


if __name__ == "__main__":
    main()

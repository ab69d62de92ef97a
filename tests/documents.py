"""What the documents say, to be held against what the program has and does."""

import re
import shutil

from relay import BUILT, TOP, built_program

TEXT = r'(?:"(?:[ !#-\[\]-~]|\\["\\])*"|(?:[0-9a-f]{2})+)'  # bytes of a peer in the journal

# What stands for a part of a line of the journal.
PARTS = {
    "ADDRESS": r"(?:[^ ]+:\d+|unix:/.+)",
    "NAME": r"[A-Z][A-Za-z]+",
    "FILE": r".+",
    "REASON": r".+",
    "TAG": r".*",
    "TEXT": TEXT,
}


def text_of(name):
    """A file of the repository."""
    return (TOP / name).read_text()


def version_pattern():
    """The pattern of the version that the program says: the code's, and a word if dev/build.py built what RELAY names."""
    number = re.search(r'VERSION: &str = "(.+)";', text_of("crates/fwd_monitor/src/version.rt"))[1]
    return re.escape(number) + ("" if built_program() == str(BUILT) else r"(?:\+unproved(?:\.[a-z]+)?)?")


def section(text, heading):
    """What stands under a heading of a document, up to the next of its rank or above."""
    rank = heading.split(" ")[0]
    found = re.search(rf"^{re.escape(heading)}\n(.*?)(?=^#{{1,{len(rank)}}} |\Z)", text, re.MULTILINE | re.DOTALL)
    assert found, f"no heading {heading!r}"
    return found[1]


def rows(text):
    """The rows of all tables in a text, as lists of cells, without the tables' heads."""
    lines = text.splitlines()
    heads = {at - 1 for at, line in enumerate(lines) if re.match(r"\|[-| ]+\|$", line)}
    rows = [line for at, line in enumerate(lines) if line.startswith("| ") and at not in heads]
    return [[cell.strip() for cell in re.split(r"(?<!\\)\|", row)[1:-1]] for row in rows]


def spans(text):
    """What stands between single backticks."""
    return re.findall(r"`([^`]+)`", text)


def recipe(name, changes):
    """The text of an example for another program, with these texts in place of those that it has."""
    text = text_of(f"examples/{name}")
    for old, new in changes.items():
        assert old in text, f"examples/{name} has no {old!r}"
        text = text.replace(old, new)
    return text


def blocks(text):
    """The indented blocks of a document, each without its indent."""
    found = re.findall(r"(?:^ {4}.*\n(?:\n(?= {4}))?)+", text, re.MULTILINE)
    return [re.sub(r"^ {4}", "", block, flags=re.MULTILINE) for block in found]


def is_of_commands(block):
    """Whether a block begins with a command, and so is to be typed."""
    word = re.split(r"[\s;]", block.lstrip("("), maxsplit=1)[0]
    return bool(shutil.which(word) or (TOP / word).is_file() or word.startswith("crates/") or word == "cd")


def journal_forms():
    """The lines of the journal as docs/FORMATS.md has them."""
    text = section(text_of("docs/FORMATS.md"), "## What a run says as it goes on")
    return [form for row in rows(text) for form in spans(row[0])]


def pattern_of(form):
    """The pattern of the lines of a form, whose words in capital letters stand for a part."""
    parts = re.split(r"\b([A-Z]+)\b", form)
    parts[::2] = map(re.escape, parts[::2])
    parts[1::2] = [PARTS.get(part, r"\d+" if len(part) == 1 else ".+") for part in parts[1::2]]
    return "".join(parts)


def journal_pattern():
    """The pattern of any line of the journal."""
    return re.compile("|".join(map(pattern_of, journal_forms())))

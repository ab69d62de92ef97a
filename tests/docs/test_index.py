"""docs/INDEX.md is what its tool writes of the sources, and docs/PROVED.md names what they have."""

import re
import subprocess
import sys
from collections import Counter

import pytest

from documents import TOP, spans, text_of

pytestmark = pytest.mark.quick


def lines_of_lists():
    """Each line of a list in the index, with the crate that it is of."""
    crate = None
    for line in re.sub(r"\n {2}(?=\S)", " ", text_of("docs/INDEX.md")).splitlines():
        if line.startswith("## "):
            crate = (spans(line) or [None])[0]
        elif line.startswith("- `"):
            yield crate or spans(line)[0], line


def edits_in_index():
    """How often the index names each must-fail edit, by its crate and name."""
    ends = [(crate, line.rpartition(": " if re.match("- `fwd_", line) else "✗")) for crate, line in lines_of_lists()]
    return Counter((crate, name) for crate, (_, mark, end) in ends if mark for name in spans(end))


def edits():
    """The must-fail edits of the libraries, by crate and name."""
    return {(path.parent.parent.name, path.stem) for path in TOP.glob("crates/fwd_*/must-fail*/*.edit")}


def test_index():
    """The index is what the tool writes."""
    done = subprocess.run(
        [sys.executable, "dev/index.py", "--check"], cwd=TOP, capture_output=True, text=True, timeout=60
    )
    assert done.returncode == 0, done.stderr


def test_edits():
    """Each must-fail edit stands once in the index, and what documents name as edits are some."""
    assert len(edits()) > 100
    assert edits_in_index() == Counter(edits())
    told = {name for line in text_of("docs/PROVED.md").splitlines() for name in spans(line.partition("✗")[2])}
    assert told <= {name for _, name in edits()}


def test_calls():
    """What PROVED names as a function of a type is one, or a trait's, and its laws and files are there."""
    text = text_of("docs/PROVED.md")
    sources = "".join(path.read_text() for path in TOP.glob("crates/fwd_*/src/**/*.rt"))
    names = set(spans(text))
    calls = {name for name in names if "::" in name}
    assert len(calls) > 20
    assert [name for name in calls if not re.search(rf"\bfn {name.rpartition('::')[2]}\b", sources)] == []
    owners = {name.partition("::")[0] for name in calls}
    assert [name for name in owners if not re.search(rf"\b(?:struct|enum|trait) {name}\b", sources)] == []
    files = {name for name in names if name.startswith(("tests/", "crates/", "docs/"))}
    assert [name for name in files if not (TOP / name).exists()] == []

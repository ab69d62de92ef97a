"""Types that nobody else makes, drops or copies: programs over the libraries that try it, and are refused for just that.

Who holds an Acked holds the reply of a server, since only a session makes one; a Carried and a Ticket stand for a chunk and
for a request that is owed an answer, so that one must not get lost, nor be there twice. That rests on what the compiler
refuses, and no edit of a crate of ours can show it. `rt try` compiles the programs, which asks for no proof.
"""

import os
import re
import shutil
import subprocess

import pytest

from relay import TOP

pytestmark = pytest.mark.quick

# Each type with the file that has it, and a reader of one of its fields.
TYPES = {
    "Acked": ("fwd_session/src/acked.rt", "number", "u64"),
    "Carried": ("fwd_chunks/src/carried.rt", "number", "u64"),
    "Ticket": ("fwd_output/src/ticket.rt", "output", "u16"),
}
KEPT = ("Carried", "Ticket")  # those that are never let go
NEVER = "fn never<T>() -> T {\n    never()\n}\n"


def library(name):
    """The library that has a type."""
    return TYPES[name][0].partition("/")[0]


def fields(name):
    """The fields of a type, by its source."""
    text = (TOP / "crates" / TYPES[name][0]).read_text()
    body = re.search(rf"pub struct {name} \{{\n(.*?)^\}}", text, re.MULTILINE | re.DOTALL)[1]
    return re.findall(r"^    (?:pub(?:\([^)]*\))? )?(\w+): ", body, re.MULTILINE)


def private(name):
    """What is said of each of its fields."""
    return [f"error[private-field]: field `{field}` of struct `{name}` is private" for field in fields(name)]


def read(name):
    """A right use."""
    _, field, kind = TYPES[name]
    return f"fn read_{name.lower()}(it: &{name}) -> {kind} {{\n    it.{field}()\n}}\n", []


def make(name):
    """It is made by its fields."""
    values = ", ".join(f"{field}: never()" for field in fields(name))
    return f"fn make_{name.lower()}() -> {name} {{\n    {name} {{ {values} }}\n}}\n", private(name)


def take_apart(name):
    """It is dropped by taking it apart."""
    taken = ", ".join(f"{field}: _" for field in fields(name))
    return f"fn take_{name.lower()}(it: {name}) {{\n    let {name} {{ {taken} }} = it;\n}}\n", private(name)


def drop(name):
    """It is let go."""
    said = f"error[linear-value-let-go]: `_it` is let go where its block ends, and `{name}` is not `Drop`"
    return f"fn drop_{name.lower()}(_it: {name}) {{}}\n", [said]


def clone(name):
    """It is copied."""
    said = f"error[unsatisfied-bound]: the trait bound `{name}: Clone` is not satisfied"
    needs = f"fn needs_{name.lower()}<T: Clone>(_it: &T) {{}}\n"
    return f"{needs}\nfn clone_{name.lower()}(it: &{name}) {{\n    needs_{name.lower()}(it)\n}}\n", [said]


# A program each, since the compiler stops behind one kind of error, and tells at most twenty.
PROGRAMS = {
    "read": [read(name) for name in TYPES],
    "make": [make(name) for name in TYPES],
    "take apart": [take_apart(name) for name in KEPT],
    "drop": [drop(name) for name in KEPT],
    "clone": [clone(name) for name in TYPES],
}


@pytest.fixture
def compiled(tmp_path, needed):
    """Gives what the compiler says of a program over the libraries."""
    needed("rt, the toolchain's command", shutil.which("rt"))
    listing = {}
    for line in (TOP / "crates.txt").read_text().splitlines():
        if not line.startswith("#") and ":" in line:
            listing[line.split(":")[0].split()[0]] = line.split(":")[1].split()

    def below(crate):
        return {crate}.union(*(below(dep) for dep in listing[crate] if dep in listing))

    crates = sorted(below("fwd_output"))
    for crate in crates:
        for part in ("src", "specs", "proofs"):
            if (TOP / "crates" / crate / part).is_dir():
                shutil.copytree(TOP / "crates" / crate / part, tmp_path / "crates" / crate / part)
    lines = [f"{crate}: {' '.join(listing[crate])}\n" for crate in crates] + [f"attempt: {' '.join(crates)}\n"]
    (tmp_path / "crates.txt").write_text("".join(lines))
    shutil.copy(TOP / "HANDLES", tmp_path)

    def run(text):
        source = tmp_path / "crates" / "attempt" / "src"
        source.mkdir(parents=True, exist_ok=True)
        uses = "".join(f"use {library(name)}::{name};\n" for name in TYPES)
        head = f"//! An attempt.\n#![tactic(auto)]\n\n{uses}\n"
        (source / "main.rt").write_text(f"{head}{text}\nfn main() {{}}\n")
        env = os.environ | {"TMPDIR": str(tmp_path)}
        how = {"stdin": subprocess.DEVNULL, "stdout": subprocess.PIPE, "stderr": subprocess.STDOUT, "env": env}
        return subprocess.run(["rt", "try"], cwd=source.parent, text=True, timeout=900, **how).stdout

    return run


@pytest.mark.parametrize("what", PROGRAMS)
def test_program(compiled, what):
    """It is taken, or refused for the reasons that stand beside it, and for no other."""
    texts, reasons = zip(*PROGRAMS[what])
    wanted = sorted(reason for said in reasons for reason in said)
    uses = [] if what == "read" else [read(name)[0] for name in TYPES]  # so that no import is unused
    said = compiled("\n".join([NEVER, *uses, *texts]))
    errors = sorted(line[line.index("error") :] for line in said.splitlines() if re.search(r"\berror\b", line))
    assert len(errors) == len(wanted), said
    assert all(error.startswith(reason) for error, reason in zip(errors, wanted)), said
    assert wanted or re.search(r"^run=ended status=0 ", said, re.MULTILINE), said

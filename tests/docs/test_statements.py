"""Statements of the documents that the repository itself can confirm: versions, times, counts, names, pictures."""

import ast
import datetime
import re
import subprocess
import sys
import tomllib
from xml.etree import ElementTree

import pytest

from documents import TOP, rows, section, spans, text_of

pytestmark = pytest.mark.quick

DOCUMENTS = ["README.md", "CHANGELOG.md", "CONTRIBUTING.md", "tests/README.md", "tools/README.md", "bench/README.md"]
DOCUMENTS += sorted(f"docs/{path.name}" for path in (TOP / "docs").glob("*.md") if path.name != "INDEX.md")


def everywhere():
    """All documents and what the packages say, as one text."""
    return "".join(map(text_of, [*DOCUMENTS, "packaging/install.sh", "packaging/deb.sh"]))


def test_front_door():
    """README fits in 100 lines of 100 columns."""
    lines = text_of("README.md").splitlines()
    assert len(lines) <= 100
    assert [line for line in lines if len(line) > 100] == []


def test_pictures():
    """Each picture of a document is there, is XML, and is shown with words in its place."""
    for name in DOCUMENTS:
        for words, path in re.findall(r"!\[([^\]]*)\]\(([^)]+)\)", text_of(name)):
            assert len(words.split()) > 5, f"{name}: {path}"
            ElementTree.parse((TOP / name).parent / path)
    shown = {name for name in DOCUMENTS if "relay.svg)" in text_of(name)}
    assert shown == {"docs/MODEL.md"}


def anchors(text):
    """What a link may name of a document: its headings, as pages of repositories spell them."""
    headings = re.findall(r"^#+ (.*)$", text, re.MULTILINE)
    return {re.sub(r"[^\w\- ]", "", heading).lower().replace(" ", "-") for heading in headings}


def test_links():
    """Each link of a document to another, or to a part of one, leads there."""
    for name in DOCUMENTS:
        for link in re.findall(r"(?<!!)\[[^\]]*\]\(([^)#]*#?[^)]*)\)", text_of(name)):
            path, _, part = link.partition("#")
            if "://" in link:
                continue
            file = (TOP / name).parent / path if path else TOP / name
            assert file.exists(), f"{name}: {link}"
            assert not part or part in anchors(file.read_text()), f"{name}: {link}"


def test_version():
    """The program's version is the newest of CHANGELOG, of a day that the manual page has too; what came since may stand before."""
    version = re.search(r'VERSION: &str = "(.+)";', text_of("crates/fwd_monitor/src/version.rt"))[1]
    headings = re.findall(r"^## (.*)$", text_of("CHANGELOG.md"), re.MULTILINE)
    released = headings[1:] if headings[0] == "[Unreleased]" else headings
    dated = [re.fullmatch(r"\[(\d+\.\d+\.\d+)\] - (\d{4}-\d\d-\d\d)", heading) for heading in released]
    assert all(dated), headings
    assert dated[0][1] == version
    assert [match[2] for match in dated] == sorted((match[2] for match in dated), reverse=True)
    parts = set(re.findall(r"^### (\w+)$", text_of("CHANGELOG.md"), re.MULTILINE))
    assert parts <= {"Added", "Changed", "Deprecated", "Removed", "Fixed", "Security"}
    day = datetime.date.fromisoformat(dated[0][2])
    assert f".Dd {day:%B} {day.day}, {day.year}\n" in text_of("packaging/forward_relay.8")


def test_python():
    """One version of Python is asked for everywhere, and the tools are of that language."""
    asked = set(re.findall(r"[Pp]ython ?3?\W{0,6}(3\.\d+)", everywhere()))
    assert len(asked) == 1, asked
    version = tuple(map(int, asked.pop().split(".")))
    for path in (TOP / "tools").glob("*.py"):
        ast.parse(path.read_text(), path.name, feature_version=version)


def test_kit():
    """One kit is asked for everywhere, by one line of `rt version`."""
    assert len(set(re.findall(r"rattle-kit-\w+", everywhere()))) == 1
    lines = [set(re.findall(r"(\S+) logic ([0-9a-f]{16})", text_of(name))) for name in ("README.md", "docs/PROVED.md")]
    assert lines[0] == lines[1] and len(lines[0]) == 1


def test_times():
    """README gives the times that CONTRIBUTING has, for the program and for the gate from nothing; so do others."""
    said = section(text_of("CONTRIBUTING.md"), "## How long it takes")
    program = re.search(r"(\S+ \S+ hour|\S+ hour\S* and \S+ \S+) for `forward_relay`", said)[1]
    gate = re.search(r"From nothing, `rt ci` takes (an? [^,.]*?hours?(?: and a \w+)?|\w+ hours) ", said)[1]
    install = section(text_of("README.md"), "## Install").replace("\n", " ")
    assert f"in {program} on four cores" in install
    assert f"{gate} from nothing" in install
    for name in ("packaging/install.sh", "bench/README.md"):
        assert re.findall(r"which takes (about [^,;:]*? hour)", text_of(name)) == [program], name


def test_programs_without_proof():
    """README says how long the demo's build takes as CONTRIBUTING does; PERFORMANCE says what builds such a program."""
    said = section(text_of("CONTRIBUTING.md"), "## How long it takes")
    minutes = re.search(r"^- `python3 dev/build\.py` .*?: some (\w+ minutes)\.", said, re.MULTILINE)[1]
    shown = section(text_of("README.md"), "## Try it").replace("\n", " ")
    assert f"some {minutes} on four cores" in shown
    figures = text_of("docs/PERFORMANCE.md")
    assert figures.count("without proof") == figures.count("without proof (`python3 dev/build.py --fast`)") > 0


def test_edits():
    """The documents count the must-fail edits that there are, and say how long one takes in one place alone."""
    count = len(list(TOP.glob("crates/fwd_*/must-fail*/*.edit")))
    told = {name: re.findall(r"(\d+) (?:\*|`)*must-fail edits", text_of(name)) for name in DOCUMENTS}
    assert {name: set(numbers) for name, numbers in told.items() if numbers} == {
        "docs/DECISIONS.md": {str(count)},
        "docs/TESTING.md": {str(count)},
    }
    assert not re.search(r"edit\S* (?:for|of) each public call|[Ee]ach (?:new )?public call has", everywhere())
    assert [name for name in DOCUMENTS if re.search(r"an edit\.$|[Aa]n edit takes", text_of(name), re.MULTILINE)] == [
        "CONTRIBUTING.md"
    ]


def test_crates():
    """CONTRIBUTING has the crates as the tool writes them."""
    (tool,) = TOP.glob("*/crates.py")
    done = subprocess.run([sys.executable, tool, "--check"], cwd=TOP, capture_output=True, text=True, timeout=60)
    assert done.returncode == 0, done.stderr
    text = section(text_of("CONTRIBUTING.md"), "## Which crate calls which")
    assert not re.search(r"^ {4}\w+: \?", text, re.MULTILINE)


def bodies():
    """The functions of fwd_links/src/waiting.rt: of each its name, its head and its body."""
    text = text_of("crates/fwd_links/src/waiting.rt")
    found = re.findall(r"^    (pub |pub\(crate\) )?fn (\w+)(.*?)\{\n(.*?)^    \}$", text, re.MULTILINE | re.DOTALL)
    return {name: (access == "pub ", head, body) for access, name, head, body in found}


def test_what_may_block():
    """PROVED names each public call of a worker's waits that may sleep and takes no `Wait`."""
    functions = bodies()
    sleeping = {name for name, (_, _, body) in functions.items() if ".poll(" in body}
    while more := {
        name
        for name, (_, _, body) in functions.items()
        if name not in sleeping and any(f"self.{one}(" in body for one in sleeping)
    }:
        sleeping |= more
    public = {name for name in sleeping if functions[name][0] and "Wait>" not in functions[name][1]}
    assert public
    front = text_of("docs/PROVED.md").partition("## ")[0]
    assert {name.removeprefix("WorkerWait::") for name in spans(front) if name.startswith("WorkerWait::")} == public


def reason(entry):
    """What an entry of DECISIONS says beside the choice itself."""
    return entry.partition("**")[2].partition("**")[2]


def test_reasons():
    """Each choice of DECISIONS has a text beside it, and so has each key that the example sets off its default."""
    text = text_of("docs/DECISIONS.md")
    entries = re.findall(r"^- (\*\*.*?)(?=^- |^#|\Z)", text, re.MULTILINE | re.DOTALL)
    assert len(entries) > 20
    assert [entry for entry in entries if len(reason(entry).split()) < 8] == []
    table = {row[0].removesuffix(" (list)"): row[2] for row in rows(section(text_of("docs/FORMATS.md"), "## Settings"))}
    example = tomllib.loads(text_of("examples/relay.toml"))
    tables = {"relay": example["relay"], "output": example["output"][0]}
    others = [
        f"{part}.{key}"
        for part, keys in tables.items()
        for key, value in keys.items()
        if (default := table.get(f"{part}.{key}", "")) not in ("required", "empty", "none", "")
        and str(value).lower() != default.split(",")[0]
    ]
    assert "output.full" in others
    assert [key for key in others if not any(f"`{key}`" in entry for entry in entries)] == []


def test_examples_wait():
    """Each example, and the block of the manual page, lets sources wait at each output."""
    for path in sorted((TOP / "examples").glob("*.toml")):
        text = path.read_text()
        assert {output["full"] for output in tomllib.loads(text)["output"]} == {"wait"}, path
        for copy in re.findall(r"checks this text as (\S+):", text):
            assert (TOP / copy).read_text() == text
    man = text_of("packaging/forward_relay.8")
    assert 'full = "wait"' in re.search(r"^\.Sh EXAMPLES\n(.*?)^\.Ed$", man, re.MULTILINE | re.DOTALL)[1]


def test_examples_send_at_once():
    """Each example says of each output how long a chunk waits: not at all, but where that would cost its server much."""
    for path in sorted((TOP / "examples").glob("*.toml")):
        first, *others = tomllib.loads(path.read_text())["output"]
        assert first["flush_interval"] == 0, path
        assert all("flush_interval" in output for output in others), path
    man = text_of("packaging/forward_relay.8")
    assert "flush_interval = 0" in re.search(r"^\.Sh EXAMPLES\n(.*?)^\.Ed$", man, re.MULTILINE | re.DOTALL)[1]

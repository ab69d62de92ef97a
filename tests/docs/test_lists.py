"""Lists that stand in the code and in documents: each has to have what the others have."""

import re

import pytest

from documents import journal_forms, rows, section, spans, text_of

pytestmark = pytest.mark.quick

TABLES = {"root": "", "relay": "relay", "user": "relay.user", "output": "output", "server": "output.server"}
LISTS = {"relay.user", "output", "output.server"}  # tables of their own
FAULTS = "fwd_msgpack fwd_modes fwd_model fwd_match fwd_session".split()


def names_in_code():
    """Every key, by the lists of names that fwd_settings is proved against."""
    text = text_of("crates/fwd_settings/specs/Keys.antt")
    keys = set()
    for table, names in re.findall(r"^(\w+)_names =\s+(.*?\[\])", text, re.MULTILINE | re.DOTALL):
        front = f"{TABLES[table]}." if TABLES[table] else ""
        keys |= {front + name for name in re.findall(r'codes "(\w+)"', names)}
    return keys - {"relay"}


def names_in_formats():
    """Every key of the table under "Settings"."""
    table = rows(section(text_of("docs/FORMATS.md"), "## Settings").split("| Fault |")[0])
    return {key for row in table for key in row[0].removesuffix(" (list)").split(", ")}


def names_in_man():
    """Every key of the manual page: those under each table, and the tables that are lists."""
    text = re.search(r"^\.Sh SETTINGS\n(.*?)^\.Sh ", text_of("packaging/forward_relay.8"), re.MULTILINE | re.DOTALL)[1]
    keys, table = set(), None
    for line in text.splitlines():
        if named := re.match(r'\.Dq "?\[+([a-z.]+)\]+', line):
            table = named[1]
            keys |= {table} & LISTS
        elif line.startswith(".It Ic "):
            keys |= {f"{table}.{word}" for word in line.split()[2:] if word != ","}
    return keys


def names_in_example():
    """Every key of examples/relay.toml, in its comments too."""
    keys, table = set(), None
    for line in text_of("examples/relay.toml").splitlines():
        line = line.removeprefix("# ")
        if named := re.match(r"\[+([a-z.]+)\]+$", line):
            table = named[1]
            keys |= {table} & LISTS
        elif named := re.match(r"(\w+) = ", line):
            keys.add(f"{table}.{named[1]}")
    return keys


def test_settings():
    """The code, FORMATS, the manual page and the example have the same keys."""
    want = names_in_code()
    assert len(want) > 20
    assert names_in_formats() == want
    assert names_in_man() == want
    assert names_in_example() == want


def ranges_in_code():
    """Each key that has a range: its least and its greatest value, and its default, as documents write them.

    They stand in the table of keys that fwd_settings is proved against, and the numbers in its ranges.rt.
    """
    ranges = text_of("crates/fwd_settings/src/ranges.rt")
    numbers = {name: int(number) for name, number in re.findall(r"const (\w+): \w+ = ([0-9_]+);", ranges)}
    numbers["wait"] = "retry_wait"
    found, table = {}, None
    for line in re.sub(r"\n {4}", " ", text_of("crates/fwd_settings/specs/Keys.antt")).splitlines():
        if heading := re.match(r"-- ---- ([a-z.\[\]]+)$", line):
            table = re.sub(r"\[\w\]", "", heading[1])
        elif key := re.search(r"(\w+)_key \(codes \"(\w+)\"\) (\w+)(?: (\w+))?(?: (\w+|\(.*\)))?$", line):
            kind, name, *words = key.groups()
            least, most, default = (int(word) if word and word.isdigit() else numbers.get(word, word) for word in words)
            if kind.endswith(("number", "text")):
                found[f"{table}.{name}"] = least, most, default if kind == "number" else None
    return found


def in_man():
    """What the manual page says of each key, in words."""
    text = re.search(r"^\.Sh SETTINGS\n(.*?)^\.Sh ", text_of("packaging/forward_relay.8"), re.MULTILINE | re.DOTALL)[1]
    said, table, keys = {}, None, []
    for line in text.splitlines():
        if named := re.match(r'\.Dq "?\[+([a-z.]+)\]+', line):
            table = named[1]
        elif line.startswith(".It Ic "):
            keys = [f"{table}.{word}" for word in line.split()[2:] if word != ","]
        else:
            for key in keys:
                said[key] = said.get(key, "") + re.sub(r"^\.\w+ ", "", line) + " "
    return said


def in_example():
    """What examples/relay.toml says of each key: the comment above it and its own line."""
    said, table, comment, is_over = {}, None, "", False
    for line in text_of("examples/relay.toml").splitlines():
        line = line.removeprefix("# ")
        if named := re.match(r"\[+([a-z.]+)\]+$", line):
            table = named[1]
        elif named := re.match(r"(\w+) = ", line):
            said[f"{table}.{named[1]}"], is_over = f"{comment} {line}", True
        else:
            comment, is_over = line if is_over else f"{comment} {line}", False
    return said


def test_ranges():
    """FORMATS, the manual page and the example have each key's range and default as the code has them."""
    want = ranges_in_code()
    assert len(want) > 18
    table = rows(section(text_of("docs/FORMATS.md"), "## Settings").split("| Fault |")[0])
    formats = {key: row for row in table for key in row[0].removesuffix(" (list)").split(", ")}
    man, example = in_man(), in_example()
    for key, (least, most, default) in want.items():
        assert f"{least} to {most}" in re.sub(r"(?<=\d),(?=\d)", "", formats[key][1]), key
        assert f"{least} to {most}" in man[key], key
        assert f"{least} to {most}" in example[key], key
        if isinstance(default, int):
            assert formats[key][2] == str(default), key
            assert f"; {default}." in man[key], key
            assert re.search(rf"\b{default}\b", example[key]), key


def kinds_in_code():
    """What the lines of the journal begin with."""
    text = "".join(text_of(f"crates/fwd_journal/src/{name}.rt") for name in ("journal_line", "journal"))
    return set(re.findall(r'LineKind::\w+ => "([a-z ]+)"', text)) | set(re.findall(r'"([a-z ]+): [^"]*\{', text))


def fronts(lines):
    """What lines begin with, but for an output's number."""
    return {line.partition(":")[0].replace(" O ", " ") for line in lines if ":" in line}


def test_journal():
    """FORMATS, OPERATING and the manual page have the lines that the program has; OPERATING those of other texts too."""
    want = kinds_in_code()
    assert len(want) > 10
    assert fronts(journal_forms()) == want
    table = rows(section(text_of("docs/OPERATING.md"), "## The lines of the journal"))
    statuses = rows(section(text_of("docs/FORMATS.md"), "## Statuses of the program"))
    others = fronts(span for row in statuses for span in spans(row[1])) - {"line N"} | {"caution"}
    assert {"settings", "listen", "start", "usage", "stop"} <= others
    assert fronts(span for row in table for span in spans(row[0])) == want | others
    man = re.search(r"^\.Sh JOURNAL\n(.*?)^\.Sh ", text_of("packaging/forward_relay.8"), re.MULTILINE | re.DOTALL)[1]
    lines = [line.replace(' Ar o Li "', " ") for line in man.splitlines() if line.startswith(".It ")]
    items = [re.findall(r'Li "?([a-z ]+):', line) for line in lines]
    assert {front for item in items for front in item} == want


def numbers_in_code():
    """Faults and refusals with their numbers."""
    pairs = set()
    for crate in FAULTS:
        text = text_of(f"crates/{crate}/src/fault.rt")
        pairs |= {(int(number), name) for name, number in re.findall(r"^    (\w+) = (\d+),", text, re.MULTILINE)}
    for path in ("fwd_environment/src/link", "fwd_book/src/refusal"):
        text = text_of(f"crates/{path}.rt")
        pairs |= {(int(number), name) for name, number in re.findall(r"^    (\w+) = (\d+),", text, re.MULTILINE)}
    return pairs - {(0, "Memory")}


def test_refusals():
    """FORMATS has each fault and refusal with the number that the code has."""
    text = section(text_of("docs/FORMATS.md"), "## Names and numbers of refusals")
    told = {(int(row[0]), row[1]) for row in rows(text) if row[0].isdigit()}
    told |= {(int(number), name) for number, name in re.findall(r"\b(\d+) ([A-Z]\w+)", text)}
    assert numbers_in_code() <= told
    used = "".join(
        text_of(f"crates/fwd_{name}/src/{file}.rt") for name, file in [("script", "text"), ("journal", "journal_line")]
    )
    printed = set(re.findall(r'=> "([A-Z]\w+)"', used))
    whole = text_of("docs/FORMATS.md")
    assert [name for name in printed if not re.search(rf"\b{name}\b", whole)] == []


def test_names_that_end_a_source_or_a_session():
    """OPERATING says what to do about each name that a line of the journal can have."""
    text = text_of("docs/OPERATING.md")
    code = text_of("crates/fwd_script/src/text.rt") + text_of("crates/fwd_journal/src/journal_line.rt")
    heads = {
        "### Sources that are closed": "source_fault_name scan_fault_name input_fault_name close_reason_name admit_refusal_name",
        "### A server that does not answer": "session_fault_name loss_name",
    }
    for heading, functions in heads.items():
        told = {span for row in rows(section(text, heading)) for span in spans(row[0])}
        for function in functions.split():
            body = re.search(rf"fn {function}\(.*?^}}", code, re.MULTILINE | re.DOTALL)[0]
            assert set(re.findall(r'=> "([A-Z]\w+)"', body)) <= told, f"{heading}: {function}"

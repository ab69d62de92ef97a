"""What OPERATING, AVAILABILITY and the examples say, held against each other, the unit and FORMATS."""

import re
import subprocess
import tomllib

import pytest

import sizing
from documents import TOP, blocks, rows, section, spans, text_of

pytestmark = pytest.mark.quick

FLUENT_BIT = 6_144_000  # what it takes in one message, by its documentation
OVER = 2_000  # what a chunk of one entry has beside its entry, at most: its tag, and some bytes
UNITS = {"k": 10**3, "m": 10**6}
KEYS_OF_0_1_0 = """listen monitor hostname shared_key run_id seed connections message_limit depth user name password output
match workers chunk_limit total_limit flush_interval retry_wait retry_max ack_wait window username server address standby full
""".split()


def keys():
    """The rows of FORMATS' table of settings."""
    return rows(section(text_of("docs/FORMATS.md"), "## Settings"))


def alerts():
    """The rules of examples/alerts.yml: of each its name and its text."""
    parts = re.split(r"^ +- alert: (\w+)\n", text_of("examples/alerts.yml"), flags=re.MULTILINE)
    return dict(zip(parts[1::2], parts[2::2]))


def test_each_alert_has_its_paragraph():
    """Each alert names a paragraph of OPERATING that says what it means, and each paragraph has its alert."""
    text = section(text_of("docs/OPERATING.md"), "## Alerts")
    told = dict(re.findall(r"^### (\w+)\n\n(.*?)\n(?=\n|\Z)", text, re.MULTILINE | re.DOTALL))
    assert set(told) == set(alerts()) and len(told) > 10
    assert [name for name, words in told.items() if len(words.split()) < 12] == []
    for name, rule in alerts().items():
        assert re.findall(r'^ +runbook: "(.*)"$', rule, re.MULTILINE) == [f"OPERATING.md#{name.lower()}"]
        assert re.search(r"severity: (?:page|warn)}", rule), name
    headings = re.findall(r'"([A-Z][^"]+)"', text)
    assert len(headings) > 5
    assert [one for one in headings if not re.search(rf"^##+ {one}", text_of("docs/OPERATING.md"), re.MULTILINE)] == []


def test_alerts_are_of_metrics_that_exist():
    """Each metric that a rule names is one of FORMATS, by which it has the labels that the rule uses."""
    text = section(text_of("docs/FORMATS.md"), "### The metrics page")
    metrics = {span.partition("{")[0]: span for line in text.splitlines() for span in spans(line)}
    for name, rule in alerts().items():
        expression = re.search(r"expr: (.*?)^ +(?:for|labels):", rule, re.MULTILINE | re.DOTALL)[1]
        named = set(re.findall(r"\b(?:forward_relay|process)_\w+(?=[\s\[){])", expression))
        assert named <= set(metrics) and (named or name == "ForwardRelayDown"), name
        labels = set(re.findall(r"\$labels\.(\w+)", rule)) - {"instance"}
        assert labels <= {label for metric in named for label in re.findall(r"\w+(?=[,}])", metrics[metric])}, name


def test_the_next_hop_is_away():
    """The alerts' times are those that their file and OPERATING promise: a warning in a minute, a page in five."""
    seconds = {}
    for name in ("ForwardRelayNextHopAway", "ForwardRelayOldestChunk", "ForwardRelayNothingSettles"):
        rule = alerts()[name]
        age = re.search(r"age_seconds > (\d+)", rule)
        count, unit = (re.findall(r"for: (\d+)([sm])\n", rule) or [("0", "s")])[0]
        looks = 2 * 15  # until Prometheus sees it, and again until it looks at the rule
        seconds[name] = int(age[1] if age else 0) + int(count) * {"s": 1, "m": 60}[unit] + looks
    refused, silent, page = seconds.values()
    assert max(refused, silent) <= 60 and page <= 300, seconds
    assert "a warning comes within a minute and a page within five" in text_of("docs/OPERATING.md")


def test_lines_that_have_a_row():
    """OPERATING's table has each text that the program ends with, but for a script's."""
    table = rows(section(text_of("docs/OPERATING.md"), "## The lines of the journal"))
    told = {span for row in table for cell in row for span in spans(cell)}
    statuses = rows(section(text_of("docs/FORMATS.md"), "## Statuses of the program"))
    texts = {span for row in statuses for span in spans(row[1]) if span[0] != ";"} - {"line N: bad event"}
    begun = {re.match(r"(?:usage|settings|listen|log):|left N entries|.+", text)[0] for text in texts}
    assert {"usage:", "settings:", "listen:", "left N entries", "input", "start: seed", "stop: no answer"} <= begun
    assert [text for text in begun | {"SUBJECT, N left out"} if not any(line.startswith(text) for line in told)] == []


def unit():
    """The settings of the systemd unit, the last of each name."""
    return dict(re.findall(r"^(\w+)=(.*)$", text_of("packaging/forward_relay.service"), re.MULTILINE))


def test_the_units_numbers():
    """The unit has room for all that settings allow, and OPERATING has its numbers."""
    table = {row[0]: row for row in keys()}
    most = lambda key: int(re.search(r"to ([\d,]+)", table[key][1])[1].replace(",", ""))
    sources, readers = most("relay.connections"), most("relay.readers")
    workers = most("output (list)") * most("output.workers")
    kept = r"keeps (\d+) files, monitors (\d+), each worker (\d+), each reader but the first (\d+)"
    own, monitors, worker, reader = map(int, re.search(kept, text_of("docs/FORMATS.md")).groups())
    files = 2 * sources + own + monitors + worker * workers + reader * (readers - 1)
    assert f"Files, at most {files:,}:" in text_of("packaging/forward_relay.service")
    assert f"settings need, {files:,}." in text_of("docs/OPERATING.md")
    assert int(unit()["LimitNOFILE"]) > files
    assert int(unit()["TasksMax"]) >= workers + readers + 2
    assert int(unit()["TimeoutStopSec"]) * 1000 > int(table["relay.stop_wait"][2])
    assert unit()["RestartPreventExitStatus"] == "1 2" and unit()["SuccessExitStatus"] == "143 6"
    assert f"folder, of mode {unit()['RuntimeDirectoryMode']}," in text_of("docs/OPERATING.md")


def test_a_second_folder_breaks_nothing():
    """The unit names its folder itself: `RUNTIME_DIRECTORY` is a list where a drop-in has a folder more."""
    settings = [line for line in text_of("packaging/forward_relay.service").splitlines() if not line.startswith("#")]
    assert not [line for line in settings if "RUNTIME_DIRECTORY" in line]
    assert sum("%t/forward_relay/relay.toml" in line for line in settings) == 2


def size(text):
    """A number of bytes that may have a unit, as Fluent Bit counts."""
    number, unit = re.fullmatch(r"(\d+)([kKmM]?)B?", text).groups()
    return int(number) * UNITS.get(unit.lower(), 1)


def test_examples_hold_together():
    """What a relay of the examples sends fits into one message of Fluent Bit, and of the examples' servers and relays."""
    fluent_bit = size(re.search(r"Buffer_Max_Size +(\w+)", text_of("examples/fluent_bit_server.conf"))[1])
    request = re.search(r"^ +chunk_limit_size (\d+)MB$", text_of("examples/fluentd_source.conf"), re.MULTILINE)[1]
    for path in sorted((TOP / "examples").glob("*.toml")):
        settings = tomllib.loads(path.read_text())
        longest = max([settings["relay"]["message_limit"], *(output["chunk_limit"] for output in settings["output"])])
        assert longest + OVER <= min(FLUENT_BIT, fluent_bit), path
        assert int(request) * 2**20 + OVER <= settings["relay"]["message_limit"], path


def test_examples_can_be_stopped():
    """Each example of settings for the service has the control socket in the unit's folder; so has what is installed."""
    for name in ("shared_key", "two_outputs"):
        assert tomllib.loads(text_of(f"examples/{name}.toml"))["relay"]["control"] == "/run/forward_relay/control"
    assert '\n# control = "/run/forward_relay/control"\n' in text_of("examples/relay.toml")
    man = re.search(r"^\.Sh EXAMPLES\n(.*?)^\.Ed$", text_of("packaging/forward_relay.8"), re.MULTILINE | re.DOTALL)[1]
    assert '\ncontrol = "/run/forward_relay/control"\n' in man


def test_examples_bring_no_caution(program, tmp_path):
    """`check` has nothing to say of the examples, if their control socket's folder is there."""
    for path in sorted((TOP / "examples").glob("*.toml")):
        text = re.sub(r"^# (control = )", r"\1", path.read_text(), flags=re.MULTILINE)
        copy = tmp_path / path.name
        copy.write_text(text.replace("/run/forward_relay/", f"{tmp_path}/"))
        done = subprocess.run([program, "check", copy], capture_output=True, text=True, timeout=60)
        assert (done.returncode, done.stderr) == (0, ""), done.stderr


def test_the_memory_that_is_planned():
    """OPERATING has the numbers by which forward_relay-sizing plans, and what they give for the example."""
    text = section(text_of("docs/OPERATING.md"), "## Sizing")
    each, worker = sizing.EACH, sizing.EACH["worker"] + sizing.EACH["session"]
    for number in (
        sizing.UNANSWERED,
        sizing.PIECES,
        each["relay"],
        each["reader"],
        each["connection"],
        worker,
        each["tag"],
    ):
        assert f"{number:,}" in text, number
    settings = tomllib.loads(text_of("examples/relay.toml"))
    for request in (None, 1_000_000):
        assert f"{sum(sizing.planned(settings, request).values()):,}" in text, request
    table = {row[0]: row[2] for row in keys()}
    defaults = {key: int(table.get(f"relay.{key}") or table[f"output.{key}"]) for key in sizing.DEFAULTS}
    assert sizing.DEFAULTS == defaults
    assert "three times" not in text


def test_the_matrix():
    """AVAILABILITY says of each part that may fail what is lost, repeated and reordered, and for how long."""
    matrix = rows(section(text_of("docs/AVAILABILITY.md"), "## What happens if a part fails"))
    assert len(matrix) >= 8
    assert [row for row in matrix if len(row) != 6 or not all(row)] == []
    for part in ("relay", "next hop", "haproxy"):
        assert any(part in row[0] for row in matrix), part


def test_the_folder_of_the_control_socket():
    """The drop-in that lets a group send makes the folder that OPERATING then names for the control socket."""
    text = section(text_of("docs/OPERATING.md"), "### Over a Unix socket")
    (drop_in,) = [block for block in blocks(text) if block.startswith("[Service]")]
    made = re.search(r"^ExecStartPre=mkdir -p -m 0700 %t/(\S+)$", drop_in, re.MULTILINE)[1]
    assert f'control = "/run/{made}/control"' in text


def test_going_back():
    """OPERATING names each key that 0.1.0 does not know, to be taken out before one goes back to it."""
    (text,) = re.findall(r"^\*\*Going back\.\*\* .*$", text_of("docs/OPERATING.md"), re.MULTILINE)
    names = {key.rpartition(".")[2] for row in keys() for key in row[0].removesuffix(" (list)").split(", ")}
    assert set(KEYS_OF_0_1_0) < names
    assert {span.rpartition(".")[2] for span in spans(text)} & names == names - set(KEYS_OF_0_1_0) | {"listen"}
    assert "`unix:`" in text

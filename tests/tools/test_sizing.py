"""tools/sizing.py: how much memory it plans for settings."""

import subprocess
import sys

import pytest

from documents import TOP
from sizing import planned

pytestmark = pytest.mark.quick

TWO_OUTPUTS = """
[relay]
connections = 10
message_limit = 1_000_000
readers = 2
[[output]]
match = "a"
total_limit = 3_000_000
workers = 2
full = "wait"
[[output]]
match = "**"
total_limit = 1_000_000
"""


def run(*words):
    """What it says of a call."""
    words = [sys.executable, TOP / "tools/sizing.py", *map(str, words)]
    return subprocess.run(words, capture_output=True, text=True, timeout=60)


def test_plan(tmp_path):
    """The parts are those of OPERATING's formula: here added up by hand."""
    path = tmp_path / "relay.toml"
    path.write_text(TWO_OUTPUTS)
    held = 3_000_000 + 1_000_000
    unanswered = 2 * (6_000_000 + 2_097_152)  # two readers; twice a million would be less than the least
    waiting = 2 * 10 * (1_000_000 + 65_536)
    relay = 2_500_000 + 200_000 + 10 * 2_500 + 3 * 109_500 + 1000 * 1_400
    counts = [held, unanswered, waiting, relay, held + unanswered + waiting + relay]
    assert [int(line.split()[0].replace(",", "")) for line in run("plan", path).stdout.splitlines()] == counts
    short = [held, unanswered, 2 * 10 * (500 + 65_536), relay - 995 * 1_400]
    said = run("plan", path, 500, 5).stdout.splitlines()
    assert [int(line.split()[0].replace(",", "")) for line in said] == [*short, sum(short)]


def test_without_waiting():
    """Where no output lets sources wait, each has one unfinished request."""
    output = {"match": "**", "total_limit": 10}
    parts = planned({"relay": {"connections": 7, "message_limit": 2_000}, "output": [output]})
    assert parts["requests that are unfinished or wait"] == 14_000
    assert parts["their requests, not answered yet"] == 2_097_152


def test_defaults():
    """Settings that say nothing are those of the program's defaults: 256 requests of 16 MiB are 4.3 GB."""
    assert planned({"output": [{}]})["requests that are unfinished or wait"] == 256 * 16_777_216


def test_a_file_that_is_missing():
    """It names a file that it cannot read."""
    done = run("plan", "/nowhere/relay.toml")
    assert done.returncode != 0 and "/nowhere/relay.toml" in done.stderr

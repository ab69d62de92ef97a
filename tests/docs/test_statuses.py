"""How the program ends: each status with its text, as docs/FORMATS.md and the manual page have them."""

import os
import re
import subprocess

import pytest

from documents import TOP, rows, section, spans, text_of, version_pattern
from relay import free_ports, settings
from shim import runs

pytestmark = pytest.mark.quick


def ended(words, **how):
    """The status and standard error of a run that ends, without a journal."""
    env = {key: value for key, value in os.environ.items() if key != "FORWARD_RELAY_LOG"}
    how = {"stdin": subprocess.DEVNULL, "stdout": subprocess.PIPE, "env": env} | how
    done = subprocess.run(words, stderr=subprocess.PIPE, timeout=60, **how)
    return done.returncode, done.stderr.decode()


def write(path, relay, **output):
    """A file of settings."""
    path.write_text(settings(relay, [{"servers": [9], "chunk_limit": 5_000_000, **output}]))
    return path


def test_examples(program):
    """Each file of examples is good, and the first script is answered as it stands there."""
    for path in sorted((TOP / "examples").glob("*.toml")):
        assert ended([program, "check", path])[0] == 0, path
    script, answers = (TOP / "examples" / f"first.{end}" for end in ("script", "answers"))
    with open(script) as feed:
        done = subprocess.run([program, "replay"], stdin=feed, capture_output=True, timeout=60)
    assert (done.returncode, done.stdout, done.stderr) == (0, answers.read_bytes(), b"")


def test_example_is_that_of_the_tests():
    """crates/relay_scripts checks the same text."""
    assert text_of("examples/shared_key.toml") == text_of("crates/relay_scripts/data/shared_key.toml")


def test_refused_settings(program, tmp_path):
    """Settings that are refused, or cannot be read: the text of the status stands below a line that says why."""
    bad = write(tmp_path / "bad.toml", {}, workers=17)
    none = tmp_path / "none.toml"
    faults = [(bad, "out of range output[0].workers"), (none, "unreadable")]
    for path, fault in faults:
        for word in ("check", "run"):
            status, told = ended([program, word, path])
            assert status == 1 and re.fullmatch(f"settings: {path}[ :].+\nsettings: {re.escape(fault)}\n", told), told


def test_calls(program):
    """A call that it does not know is told what it knows."""
    usage = "usage: forward_relay run CONFIG [TURNS] | stop CONFIG [SECONDS] | check CONFIG | replay\n"
    wrong = [["start"], ["check"], ["run", "a", "b"], ["replay", "x"], [b"check\xff", "a"], ["--version", "x"], ["-h"]]
    for words in ([], *wrong):
        assert ended([program, *words]) == (2, usage), words


def test_version_and_help(program):
    """The version is the code's, and help has a line for each call that the manual page has."""
    man = re.search(r"^\.Sh SYNOPSIS\n(.*?)^\.Sh ", text_of("packaging/forward_relay.8"), re.MULTILINE | re.DOTALL)[1]
    man = re.sub(r"\.Op Ar (\w+)", r"[\1]", man).replace(".Ar ", "").replace(".Cm ", "")
    calls = [" ".join(call.split()) for call in man.split(".Nm\n")[1:]]
    calls = [re.sub(r"(?<= )\S+", lambda word: word[0].upper(), call) for call in calls]
    assert {call.split()[0] for call in calls} == {"run", "stop", "check", "replay", "version", "help"}
    for dashes in ("", "--"):
        done = subprocess.run([program, f"{dashes}version"], capture_output=True, timeout=60, text=True)
        assert (done.returncode, done.stderr) == (0, "")
        assert re.fullmatch(f"forward_relay {version_pattern()}\n", done.stdout), done.stdout
        done = subprocess.run([program, f"{dashes}help"], capture_output=True, timeout=60, text=True)
        assert (done.returncode, done.stderr) == (0, "") and done.stdout.startswith("usage: ")
        lines = done.stdout.removeprefix("usage: ").splitlines()
        assert [re.split(r" {2,}", line.strip())[0] for line in lines] == [f"forward_relay {call}" for call in calls]
        with open("/dev/full", "w") as full:
            assert ended([program, f"{dashes}help"], stdout=full) == (5, "output\n")


def test_bad_line(program, tmp_path):
    """A line that is no event, behind one that is none too many."""
    path = tmp_path / "script"
    path.write_text("---\naccept 1 - -\n")
    with open(path) as feed:
        assert ended([program, "replay"], stdin=feed) == (3, "line 2: bad event\n")


def test_starts_that_fail(program, relay, next_hop, tmp_path):
    """An address that is taken, and memory that is refused."""
    other = relay([{"servers": [next_hop().port]}])
    for key in ("listen", "monitor"):
        keys = {"listen": f"127.0.0.1:{free_ports(1)[0]}"} | {key: f"127.0.0.1:{other.port}"}
        path = write(tmp_path / f"{key}.toml", keys)
        line = f"listen: 127.0.0.1:{other.port}"
        status, told = ended([program, "run", path, "1"])
        assert status == 4 and re.fullmatch(f"{line}: .+\n{line}\n", told), told


def test_no_memory(program, shim, tmp_path):
    """A request for memory that is refused ends a check with 4, whichever it is."""
    path = write(tmp_path / "good.toml", {})
    ends = {
        (run.status, run.errors.splitlines()[-1:] == [b"memory"]) for run in runs(shim, [program, "check", str(path)])
    }
    assert ends == {(4, True), (0, False)}


def test_streams_that_fail(program, tmp_path):
    """An input that cannot be read, and an output that takes nothing."""
    path = write(tmp_path / "good.toml", {})
    with open("/dev/full", "w") as full:
        assert ended([program, "check", path], stdout=full) == (5, "output\n")
    folder = os.open(tmp_path, os.O_RDONLY)
    assert ended([program, "replay"], stdin=folder) == (5, "input\n")
    os.close(folder)


def test_documents():
    """FORMATS and the manual page have the same statuses, and those tried here."""
    table = rows(section(text_of("docs/FORMATS.md"), "## Statuses of the program"))
    man = re.search(r"^\.Sh EXIT STATUS\n(.*?)^\.Sh ", text_of("packaging/forward_relay.8"), re.MULTILINE | re.DOTALL)[
        1
    ]
    assert {row[0] for row in table} == set(re.findall(r"^\.It (\d)$", man, re.MULTILINE)) == set("0123456")
    told = {span for row in table for span in spans(row[1].replace("\\|", "|"))}
    assert {"settings: ", "line N: bad event", "memory", "listen: ADDRESS", "input", "output"} <= told
    assert "usage: forward_relay run CONFIG [TURNS] | stop CONFIG [SECONDS] | check CONFIG | replay" in told

"""What is said of why a run is refused, and of settings that are lawful, and foolish."""

import os
import re
import socket
import subprocess

import pytest

from relay import STAMP, free_ports, settings

pytestmark = pytest.mark.quick


@pytest.fixture
def told(program):
    """Gives the status of a run that ends, and the lines that it says, without their times."""

    def run(word, path, journal=True):
        env = {key: value for key, value in os.environ.items() if key != "FORWARD_RELAY_LOG"}
        env |= {"FORWARD_RELAY_LOG": "info"} if journal else {}
        done = subprocess.run([program, word, path], capture_output=True, env=env, timeout=60)
        return done.returncode, STAMP.sub("", done.stderr.decode()).splitlines()

    return run


def refused(told, path, status, asked, *words):
    """A run that is refused says what it is asked to, and before that why, also without a journal."""
    ended, lines = told("run", path, journal=False)
    assert ended == status and lines[-1] == asked and len(lines) == 2, lines
    for word in words:
        assert re.search(word, lines[0]), lines[0]
    ended, journal = told("run", path)
    assert ended == status and [line for line in journal if not line.startswith(("started: ", "stopped: "))] == lines


def written(path, relay, **output):
    """A file of settings."""
    path.write_text(settings(relay, [{"servers": [9], "chunk_limit": 5_000_000} | output]))
    return path


def test_files(told, tmp_path):
    """Settings that cannot be read, and what is no TOML."""
    away = tmp_path / "away.toml"
    refused(told, away, 1, "settings: unreadable", re.escape(str(away)), "(?i)no such|not found")
    refused(told, tmp_path, 1, "settings: unreadable", re.escape(str(tmp_path)), "(?i)directory|error 21")
    broken = tmp_path / "broken.toml"
    broken.write_text('[relay]\nhostname = "a"\nconnections = = 3\n')
    refused(told, broken, 1, "settings: not toml", re.escape(str(broken)), "line 3")


@pytest.mark.parametrize("key", ["listen", "monitor"])
def test_address_in_use(told, tmp_path, key):
    """An address that somebody else listens at."""
    with socket.create_server(("127.0.0.1", 0)) as other:
        address = f"127.0.0.1:{other.getsockname()[1]}"
        keys = {"listen": f"127.0.0.1:{free_ports(1)[0]}"} | {key: address}
        path = written(tmp_path / "settings.toml", keys)
        _, lines = told("run", path)
        assert lines[-1] == f"listen: {address}", lines
        assert re.search("(?i)in use|addrinuse", lines[-2]), lines
        assert told("run", path, journal=False) == (4, lines[-2:])


def test_address_of_another_machine(told, tmp_path):
    """An address that this machine has not."""
    address = "192.0.2.1:24224"
    path = written(tmp_path / "settings.toml", {"listen": address})
    refused(told, path, 4, f"listen: {address}", re.escape(address), "(?i)assign|not ?avail")


def cautions(told, path, journal=True):
    """What `check` warns of."""
    status, lines = told("check", path, journal)
    assert status == 0
    return lines


def test_cautions(told, tmp_path):
    """Each is told once, with a journal or without, and of settings that are not foolish nothing is."""
    one, other = (f"127.0.0.1:{port}" for port in free_ports(2))
    path = tmp_path / "settings.toml"
    assert cautions(told, written(path, {"listen": one, "monitor": other})) == []
    foolish = [
        (f"listen and monitor are both {one}", {"listen": one, "monitor": one}, {}),
        (f"server {one} is the relay itself", {"listen": one}, {"servers": [int(one.rpartition(":")[2])]}),
        (
            "chunk_limit 3000 above total_limit 2000",
            {"listen": one, "message_limit": 1024},
            {"chunk_limit": 3000, "total_limit": 2000},
        ),
        ("workers 1 for servers 2", {"listen": one}, {"servers": [9, 10]}),
    ]
    for words, relay, output in foolish:
        for journal in (False, True):
            lines = cautions(told, written(path, relay, **output), journal)
            assert len(lines) == 1 and lines[0].startswith("caution: ") and words in lines[0], lines

"""The package's unit under a systemd that was booted: a restart loses nothing, whatever has become of the settings."""

import re
import shutil
import subprocess
import time

import pytest

import loggers
from booted import Booted
from documents import TOP, blocks, section, text_of
from forward import Source
from next_hop import hold
from relay import free_ports, until

SETTINGS = "/etc/forward_relay/relay.toml"


@pytest.fixture
def booted(needed, tmp_path):
    """A machine that was booted: what is in the folder `given` is in its /mnt."""
    needed("systemd", shutil.which("systemd-sysusers"))
    for name in ("layers", "given"):
        (tmp_path / name).mkdir()
    one = Booted(str(tmp_path / "layers"), str(tmp_path / "given"))
    if not one.is_there:
        one.end()
        pytest.skip("missing: root who may mount, and boot systemd in namespaces of its own")
    yield one
    one.end()


def journal(booted):
    """What the service's journal has."""
    return booted.run("journalctl", "--unit=forward_relay", "--output=cat", "--no-pager")


def installed(booted, program, hop, given, change=""):
    """The port of the package's service, once it listens, by its settings with a change; it sends what it gets to a server."""
    script = ["sh", "packaging/deb.sh", given]
    subprocess.run(script, cwd=TOP, env={"PATH": "/usr/bin:/bin", "RELAY": program}, check=True, stdout=subprocess.PIPE)
    booted.run("sh", "-c", "dpkg --no-triggers --install /mnt/*.deb")
    (port,) = free_ports(1)
    booted.run("sed", "-i", f"s/:24224/:{port}/; s/:24225/:{hop.port}/; {change}", SETTINGS)
    booted.run("systemctl", "start", "forward_relay")
    until(lambda: "listening: sources" in journal(booted), lambda: journal(booted))
    return port


@pytest.mark.minutes
def test_restart(booted, program, next_hop, tmp_path):
    """What a source sent that never asks is delivered before the relay ends, though the settings are refused by then."""
    hop = next_hop(answer=hold)
    port = installed(booted, program, hop, tmp_path / "given", "s/^window = .*/window = 1/")
    assert booted.run("stat", "-c", "%U %a", "/run/forward_relay/relay.toml") == "_forward_relay 400\n"
    with Source(port) as source:
        source.send("app", [(1, {"n": 0})])
        hop.await_entries(1)
        for number in range(1, 6):
            source.send("app", [(1, {"n": number})])
        booted.run("sed", "-i", "s/^connections = 256/connections = 0/", SETTINGS)
        booted.run("systemctl", "restart", "--no-block", "forward_relay")
        until(lambda: "stopping: asked" in journal(booted), lambda: journal(booted))
        assert hop.count() == 1
        hop.release()
        assert [record["n"] for _, _, record in hop.await_entries(6)] == list(range(6))
    until(lambda: "relay.connections is refused" in journal(booted), lambda: journal(booted))
    assert "stopped: all is delivered" in journal(booted)
    until(lambda: booted.run("systemctl", "is-active", "forward_relay", may_fail=True) == "failed\n", "it does not end")
    assert booted.run("ls", "/run").split().count("forward_relay") == 0


@pytest.mark.minutes
def test_a_group_that_may_send(booted, program, next_hop, tmp_path):
    """With OPERATING's drop-in a group may send over a Unix socket, and not stop the relay, which systemd still can."""
    hop = next_hop()
    text = section(text_of("docs/OPERATING.md"), "### Over a Unix socket")
    (drop_in,) = [block for block in blocks(text) if block.startswith("[Service]")]
    control = re.search(r'`control = "(.*?)"`', text)[1]
    folder = "/etc/systemd/system/forward_relay.service.d"
    booted.run("groupadd", "--force", "logs")
    booted.run("mkdir", "-p", folder)
    booted.run("tee", f"{folder}/override.conf", text=drop_in + "RuntimeDirectory=another\n")
    change = f's|^listen = .*|listen = "unix:/run/forward_relay/sources"|; s|^control = .*|control = "{control}"|'
    installed(booted, program, hop, tmp_path / "given", change)
    own, sources = control.rpartition("/")[0], "/run/forward_relay/sources"
    assert booted.run("stat", "-c", "%a %U %G", "/run/forward_relay", own, sources).splitlines() == [
        "750 _forward_relay logs",
        "700 _forward_relay logs",
        "770 _forward_relay logs",
    ]
    booted.run("systemctl", "restart", "forward_relay")
    until(lambda: journal(booted).count("listening: sources") == 2, lambda: journal(booted))
    assert "stopped: all is delivered" in journal(booted)


@pytest.mark.minutes
def test_restarts_under_loggers(booted, program, next_hop, build_go, needed, tmp_path):
    """Six restarts under loggers that write in bursts and never ask: all comes, but for at most a line a restart of each.

    It is the line that a logger of Go wrote while the relay closed its connection. Python's loses none.
    """
    hop = next_hop()
    clients = {}
    try:
        port = installed(booted, program, hop, tmp_path / "given")
        clients |= loggers.begin(build_go, needed, TOP / "tests/stop/client.go", port)
        for _ in range(6):
            time.sleep(1)
            booted.run("systemctl", "restart", "forward_relay")
        time.sleep(1)
        counts = {name: client.end() for name, client in clients.items()}
    finally:
        for client in clients.values():
            client.kill()
    booted.run("systemctl", "stop", "forward_relay")
    lost = loggers.missing(clients, hop, counts)
    print(f"missing {lost} of {counts}")
    assert lost["python"] == 0 and all(number <= 6 for number in lost.values()), f"missing {lost} of {counts}"
    assert journal(booted).count("stopped: all is delivered") == 7, journal(booted)

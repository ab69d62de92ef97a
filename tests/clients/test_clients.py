"""Real log clients: what they send is what the next hop gets."""

import importlib
import importlib.util
import subprocess
from pathlib import Path

import pytest

from forward import Source, connect, event_time

COUNT = 100
KEY = "a secret of both sides"
SILENCE = 0.5  # seconds
START = 1_700_000_000


@pytest.mark.quick
@pytest.mark.parametrize("acks", ["acks", "none"])
@pytest.mark.parametrize("times", ["nanoseconds", "seconds"])
def test_go(relay, next_hop, build_go, needed, times, acks):
    """fluent-logger-golang, an entry at a time; where it asks it waits for each acknowledgement."""
    client = build_go(Path(__file__).with_name("client.go"))
    needed("golang-go and golang-github-fluent-fluent-logger-golang-dev", client)
    hop = next_hop()
    one = relay([{"servers": [hop.port]}])
    subprocess.run([client, str(one.port), times, acks], check=True, timeout=120)
    is_exact = times == "nanoseconds"
    moments = [event_time(START + i, i * 1001) if is_exact else START + i for i in range(COUNT)]
    sent = [("app.go", moments[i], {"message": f"line {i}", "count": i}) for i in range(COUNT)]
    assert hop.await_entries(COUNT) == sent


@pytest.mark.quick
@pytest.mark.parametrize("is_exact", [True, False])
def test_python(relay, next_hop, needed, is_exact):
    """python3-fluent-logger, which asks for no acknowledgement."""
    needed("python3-fluent-logger", importlib.util.find_spec("fluent"))
    sender = importlib.import_module("fluent.sender")
    hop = next_hop()
    one = relay([{"servers": [hop.port]}])
    client = sender.FluentSender("app", host="127.0.0.1", port=one.port, nanosecond_precision=is_exact)
    sent = []
    for i in range(COUNT):
        record = {"message": f"line {i}", "count": i, "nested": {"on": True}}
        moment = sender.EventTime(START + i + 0.5) if is_exact else START + i
        assert client.emit_with_time("python", moment, record), client.last_error
        sent.append(("app.python", event_time(START + i, 500_000_000) if is_exact else moment, record))
    client.close()
    assert hop.await_entries(COUNT) == sent


@pytest.mark.quick
def test_key(relay, next_hop):
    """A client that logs in by the standard's handshake, and sends in PackedForward mode."""
    hop = next_hop()
    one = relay([{"servers": [hop.port]}], shared_key=KEY)
    sent = []
    with Source(one.port, key=KEY) as source:
        for i in range(COUNT // 10):
            entries = [(START + j, {"message": f"line {i} {j}"}) for j in range(10)]
            source.ask("app.login", entries, "packed")
            sent += [("app.login", *entry) for entry in entries]
    assert hop.entries() == sent


@pytest.mark.quick
def test_a_key_at_the_relay_alone(relay, next_hop, build_go, needed):
    """The relay closes each client that sends something; one that asks sees that it is not acknowledged."""
    client = build_go(Path(__file__).with_name("client.go"))
    needed("golang-go and golang-github-fluent-fluent-logger-golang-dev", client)
    needed("python3-fluent-logger", importlib.util.find_spec("fluent"))
    hop = next_hop()
    one = relay([{"servers": [hop.port]}], shared_key=KEY)
    ran = subprocess.run([client, str(one.port), "seconds", "acks"], capture_output=True, text=True, timeout=120)
    assert ran.returncode == 1 and "message ack () doesn't match expected one" in ran.stderr
    one.await_line(r"source closed: \S+ NotPing")
    ran = subprocess.run([client, str(one.port), "seconds", "none"], timeout=120)
    assert ran.returncode == 0
    sender = importlib.import_module("fluent.sender").FluentSender("app", host="127.0.0.1", port=one.port)
    one.until(lambda: not sender.emit("python", {"n": 1}), "each call returns True")
    sender.close()
    two = relay([{"servers": [one.port]}])
    two.source().send()
    two.await_line(f"server lost: output 0 127.0.0.1:{one.port} BadReply")
    assert hop.count() == 0


@pytest.mark.quick
def test_a_key_at_the_client_alone(relay, next_hop):
    """A client that waits for a HELO hears nothing, and a relay as the client is late with its handshake."""
    one = relay([{"servers": [next_hop().port]}])
    with connect(one.port) as stream:
        stream.hears_nothing(SILENCE)
    two = relay([{"servers": [one.port], "shared_key": KEY, "ack_wait": 300}])
    two.source().send()
    two.await_line(f"server lost: output 0 127.0.0.1:{one.port} Late")

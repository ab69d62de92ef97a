"""TLS and names by Debian's stunnel, as examples/stunnel_sources.conf and examples/stunnel_servers.conf have them."""

import functools
import os
import shutil
import ssl

import pytest

from documents import recipe
from forward import Source
from relay import Child, free_ports, until
from stunnel.certificates import Authority
from traffic import Traffic

pytestmark = pytest.mark.quick

PROGRAM = "stunnel4"
USER = "setuid = stunnel4\nsetgid = stunnel4\n"
ASKED = "CAfile = /etc/stunnel/ca.crt\nverifyChain = yes\n"  # a certificate, of the other side
ENTRY = (7, {"n": 1})


@pytest.fixture
def authority(needed, tmp_path):
    """Who vouches for all that are trusted."""
    needed(PROGRAM, shutil.which(PROGRAM))
    needed("openssl", shutil.which("openssl"))
    return Authority(tmp_path)


@pytest.fixture
def tunnel(authority, tmp_path):
    """Starts stunnel by a recipe, with the certificate of a name: `tunnel("sources", "relay.example", changes)`."""
    started = []

    def start(which, name, changes, port=None):
        port = port or free_ports(1)[0]
        authority.vouch(name)
        places = {
            "sources": {"accept = :::24284": f"accept = 127.0.0.1:{port}"},
            "servers": {"accept = 127.0.0.1:24285": f"accept = 127.0.0.1:{port}"},
        }
        files = {"/etc/stunnel/relay.": f"{tmp_path}/{name}."}
        changes = changes | places[which] | files | ({} if os.geteuid() == 0 else {USER: ""})
        path = tmp_path / f"{which}-{port}.conf"
        path.write_text(recipe(f"stunnel_{which}.conf", changes).replace("/etc/stunnel/", f"{tmp_path}/"))
        started.append(Child([PROGRAM, path], tmp_path / f"said-{port}", port))
        return started[-1].start()

    yield start
    for one in started:
        one.kill()
        print(one.said()[-2000:])


@pytest.fixture
def from_sources(tunnel):
    """Starts the stunnel that sources come to, with the certificate of a name, before what listens at a port."""

    def start(name, port, changes=None, at=None):
        changes = {"connect = 127.0.0.1:24224": f"connect = 127.0.0.1:{port}"} | (changes or {})
        return tunnel("sources", name, changes, at)

    return start


@pytest.fixture
def to_servers(tunnel):
    """Starts the stunnel that a relay's chunks go through, to a port of this machine, which it looks up by its name."""

    def start(port):
        return tunnel("servers", "relay.example", {"connect = collector.example:24284": f"connect = localhost:{port}"})

    return start


@pytest.fixture
def over_tls(authority):
    """How sources speak TLS to relay.example: with a certificate of their own, or without."""

    def speak(has_certificate=True):
        context = ssl.create_default_context(cafile=authority.folder / "ca.crt")
        if has_certificate:
            context.load_cert_chain(*authority.vouch("source.example"))
        return functools.partial(context.wrap_socket, server_hostname="relay.example")

    return speak


def test_through_both(relay, next_hop, from_sources, to_servers, over_tls):
    """What a source sends over TLS is what the next hop gets over TLS, and the source is told."""
    hop = next_hop()
    far = to_servers(from_sources("collector.example", hop.port).port)
    one = relay([{"servers": [far.port]}])
    near = from_sources("relay.example", one.port)
    with Source(near.port, wrap=over_tls()) as source:
        source.ask("app", [ENTRY])
    assert hop.entries() == [("app", *ENTRY)]


def test_without_a_certificate(relay, next_hop, from_sources, over_tls):
    """A source that has none is refused, and nothing of it comes to the relay; where none is asked for it is let in."""
    hop = next_hop()
    one = relay([{"servers": [hop.port]}])
    asked, open_to_all = from_sources("relay.example", one.port), from_sources("relay.example", one.port, {ASKED: ""})
    with pytest.raises(OSError), Source(asked.port, wrap=over_tls(False)) as source:
        source.ask()
    until(lambda: "peer did not return a certificate" in asked.said(), asked.said)
    assert one.page()[0].accepted == 0
    with Source(open_to_all.port, wrap=over_tls(False)) as source:
        source.ask()
    assert hop.count() == 1


@pytest.mark.parametrize(("key", "reason"), [("a key", "Closed"), (None, "(Closed|Read|Write|Connect( [a-z]+)?)")])
def test_another_name(relay, next_hop, from_sources, to_servers, key, reason):
    """A server whose certificate has another name is refused, and told as lost; the one that is meant gets the chunk.

    Without a key a chunk is under way before stunnel knows, and what it leaves unread has the connection break.
    """
    hop = next_hop(key=key)
    other = from_sources("other.example", hop.port)
    far = to_servers(other.port)
    one = relay([{"servers": [far.port], **({"shared_key": key} if key else {})}])
    source = one.source()
    source.send("app", [ENTRY], chunk="x")
    one.await_line(f"server lost: output 0 127.0.0.1:{far.port} {reason}$")
    until(lambda: "CN=other.example" in far.said(), far.said)
    assert hop.count() == 0 and one.page()[0].held == 1
    other.kill()
    from_sources("collector.example", hop.port, at=other.port)
    assert source.told() == "x"
    assert hop.entries() == [("app", *ENTRY)]


def test_killed(relay, from_sources, to_servers, over_tls):
    """Each stunnel is killed and started again under traffic: nothing that a source is told is missing."""
    traffic = Traffic(1)
    far = from_sources("collector.example", traffic.servers[0].port)
    middle = to_servers(far.port)
    one = relay([{"servers": [middle.port], "workers": 2}])
    near = from_sources("relay.example", one.port)
    traffic.begin(near.port, wrap=over_tls())
    try:
        for tool in [near, middle, far] * 2:
            told = traffic.notes.told
            until(lambda: traffic.is_well() and traffic.notes.told > told + 50, near.said)
            tool.kill()
            tool.start()
        traffic.finish()
        assert traffic.notes.again > 0
    finally:
        traffic.close()

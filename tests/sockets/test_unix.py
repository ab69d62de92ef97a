"""Sources over a Unix socket: what they are told, the socket's file, and where it cannot be."""

import array
import os
import pathlib
import socket
import subprocess

import pytest

from forward import MODES, Source, connect, log_in, request
from relay import Relay, settings
from stopping import Stoppable, answer_of

pytestmark = pytest.mark.quick
ENTRIES = [(n, {"text": "x" * 1_000}) for n in range(600)]  # more than a socket holds


@pytest.fixture
def listening(program, tmp_path):
    """Starts relays at the Unix socket of a path, which can be asked to stop."""
    started = []

    def start(hop, path=tmp_path / "sources", **relay):
        keys = {"control": str(tmp_path / f"control-{len(started)}")} | relay
        one = Stoppable(program, tmp_path, [{"servers": [hop.port]}], listen=f"unix:{path}", **keys)
        started.append(one)
        one.unix = pathlib.Path(path)
        return one.start()

    yield start
    for one in started:
        one.kill()


def told(one, **how):
    """A source that was told of each mode."""
    source = Source(one.unix, **how)
    for mode in MODES:
        source.ask(mode=mode)
    return source


@pytest.mark.parametrize("readers", [1, 3])
def test_sources_are_told(listening, next_hop, readers):
    """Sources of all readers are told, what they sent comes, and the journal has the path in place of an address."""
    hop = next_hop()
    one = listening(hop, readers=readers)
    assert one.await_line("listening: sources") == f"listening: sources at unix:{one.unix}"
    sources = [told(one) for _ in range(4)]
    assert hop.count() == 4 * len(MODES)
    for source in sources:
        source.close()
    with connect(one.unix) as stream:
        stream.send(["app", None])
        assert stream.is_closed(30)
    assert one.await_line("source closed") == f"source closed: unix:{one.unix} BadShape"


def test_long_requests(listening, next_hop):
    """A request that no socket holds at once, and many whose acknowledgements wait to be read."""
    hop = next_hop()
    one = listening(hop)
    with Source(one.unix) as source:
        source.ask(entries=ENTRIES, mode="packed")
        for n in range(1_000):
            source.send(chunk=f"{n}")
        assert sorted(int(source.told()) for _ in range(1_000)) == list(range(1_000))
    assert hop.count() == len(ENTRIES) + 1_000


def test_a_login(listening, next_hop):
    """The handshake is the same."""
    hop = next_hop()
    one = listening(hop, shared_key="a key", users={"name": "word"})
    told(one, key="a key", user="name", password="word").close()
    with connect(one.unix) as stream, pytest.raises(AssertionError):
        log_in(stream, "another key")
    assert one.await_line("source closed") == f"source closed: unix:{one.unix} Denied"


def test_descriptors_that_come_with_bytes(listening, next_hop):
    """A read stops behind bytes that descriptors came with: what lies behind these is read all the same, and they are closed."""
    hop = next_hop()
    one = listening(hop)
    with Source(one.unix) as source:
        source.ask()
        files = one.files()
        parts = [request("forward", "app", [(1, {"n": n})], f"{n}") for n in range(64)]
        for part in parts:
            rights = array.array("i", [source.stream.link.fileno()])
            source.stream.link.sendmsg([part], [(socket.SOL_SOCKET, socket.SCM_RIGHTS, rights)])
        assert [source.told() for _ in parts] == [f"{n}" for n in range(64)]
        assert one.files() <= files + 1
    assert hop.count() == 65


def test_who_closes_at_once(listening, next_hop):
    """What a source sent that has closed, and reads nothing, is delivered."""
    hop = next_hop()
    one = listening(hop)
    for n in range(50):
        with Source(one.unix) as source:
            source.send(entries=[(n, {"n": n})])
    one.await_settled(50)
    assert hop.count() == 50


def test_a_stop(listening, next_hop):
    """A relay that is asked to stop delivers what its sources sent, tells them, and its file is gone."""
    hop = next_hop()
    one = listening(hop)
    assert one.unix.is_socket() and one.unix.stat().st_mode & 0o022 == 0
    asking, silent = Source(one.unix), Source(one.unix)
    asking.ask()
    silent.send()
    asking.send(chunk="last")
    assert one.stop().status == 0
    assert one.ended() == 0
    assert asking.told() == "last"
    assert asking.is_closed() and silent.is_closed()
    assert hop.count() == 3
    assert not one.unix.exists()


@pytest.mark.parametrize("chunk", [None, "late"])
def test_what_comes_after_the_end(listening, next_hop, chunk):
    """A source that is told that no more comes, and sends on: that is taken, and not acknowledged; then its writes fail."""
    hop = next_hop()
    one = listening(hop)
    source = Source(one.unix)
    source.ask()
    asking = one.ask(60)
    assert source.stream.link.recv(1) == b""
    source.send(chunk=chunk)
    with pytest.raises(ConnectionError):
        while True:
            source.send(chunk=chunk)
    assert answer_of(asking).status == 0
    assert hop.count() >= 2
    assert not one.unix.exists()


def test_the_mode_is_the_umasks(program, next_hop, tmp_path):
    """The relay's umask says who may connect; and its turns end with the file removed."""
    path = tmp_path / "sources"
    for mask, mode in [("077", 0o700), ("007", 0o770), ("000", 0o777)]:
        under = ["sh", "-c", f'umask {mask}; exec "$@"', "sh"]
        keys = {"listen": f"unix:{path}", "turns": 20, "under": under}
        with Relay(program, tmp_path, [{"servers": [next_hop().port]}], **keys) as one:
            one.start()
            one.await_line("listening: monitors")
            assert path.stat().st_mode & 0o777 == mode
            assert one.ended() == 0
            assert not path.exists()


def test_a_socket_that_was_left(listening, next_hop):
    """A relay that was killed leaves its socket, and the next one replaces it."""
    hop = next_hop()
    first = listening(hop)
    first.kill()
    assert first.unix.is_socket()
    told(listening(hop)).close()


def refused(program, folder, listen):
    """How a relay ends that is to listen there."""
    file = folder / "refused.toml"
    file.write_text(settings({"listen": listen}, [{"servers": [9]}]))
    env = {key: value for key, value in os.environ.items() if key != "FORWARD_RELAY_LOG"}
    done = subprocess.run([program, "run", file, "1"], capture_output=True, text=True, timeout=60, env=env)
    return done.returncode, done.stderr


def test_a_path_that_is_in_use(listening, next_hop, program, tmp_path):
    """The start ends, as with an address that is taken; the other relay is not troubled, and a file stays."""
    one = listening(next_hop())
    cause = "listen: unix:{0}: Address already in use (os error 98)\nlisten: unix:{0}\n"
    assert refused(program, tmp_path, f"unix:{one.unix}") == (4, cause.format(one.unix))
    told(one).close()
    file = tmp_path / "file"
    file.write_text("kept")
    assert refused(program, tmp_path, f"unix:{file}") == (4, cause.format(file))
    assert file.read_text() == "kept"


def test_a_folder_that_is_not_there(program, tmp_path):
    """The start ends, and says what the system says."""
    path = tmp_path / "none" / "sources"
    cause = f"listen: unix:{path}: No such file or directory (os error 2)\nlisten: unix:{path}\n"
    assert refused(program, tmp_path, f"unix:{path}") == (4, cause)


@pytest.mark.parametrize("listen", ["unix:", "unix:/", "unix:here", "unix:./here", "unix:/" + "x" * 107, "/here"])
def test_paths_that_are_refused(program, tmp_path, listen):
    """A path is absolute and no longer than the system has room for, which the line of the fault says."""
    status, errors = refused(program, tmp_path, listen)
    assert status == 1
    first, last = errors.splitlines()
    assert first.startswith(f"settings: {tmp_path}/refused.toml line 2: relay.listen ")
    assert "unix: and an absolute path of at most 107 bytes" in first and "no name is looked up" not in first
    assert last == "settings: out of range relay.listen"

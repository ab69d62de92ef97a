"""A relay over sockets whose memory is refused, between sources that send again and an honest server."""

import re
import time

import pytest

from relay import Relay, steady, until
from shim import Board, environment, runs
from traffic import Traffic

pytestmark = pytest.mark.parametrize("readers", [1, 4])
KEY, USER, PASSWORD = "a secret of both sides", "alice", "a password of hers"
START = re.compile(r"memory|listen: [0-9.:]+|start: (poll|seed|thread)")
EMPTY = b"output 0 accepted 0 settled 0 held 0 bytes 0 chunks 0\n"
NAMES = {"Memory", "Connect"}  # why a source is closed, or a server lost, where nothing but memory fails
WORKERS = 2
KEYS = pytest.mark.parametrize("is_keyed", [False, True], ids=["no key", "a key"])


@pytest.fixture
def site(program, tmp_path, is_keyed, readers):
    """Traffic to one server, a relay that is not started yet, and what its sources log in with."""
    traffic = Traffic(1, KEY if is_keyed else None)
    waits = {"flush_interval": 10, "retry_wait": 20, "retry_max": 100, "ack_wait": 20_000, "chunk_limit": 2_000}
    output = {"servers": [traffic.servers[0].port], "workers": WORKERS, "window": 3 if is_keyed else 1, **waits}
    keys = {"readers": readers} | ({"shared_key": KEY, "users": {USER: PASSWORD}} if is_keyed else {})
    one = Relay(program, tmp_path, [output | ({"shared_key": KEY} if is_keyed else {})], **keys)
    yield one, traffic, (KEY, USER, PASSWORD) if is_keyed else None
    traffic.close()
    one.kill()


@pytest.mark.minutes
@KEYS
def test_starts(site, shim, tmp_path, monkeypatch):
    """A run of one turn, each request for memory refused: it ends with 4 and a text of FORMATS, or with 0 and its page."""
    one, *_ = site
    monkeypatch.setenv("FORWARD_RELAY_LOG", "info")
    one.start()  # only so that it can be ended
    one.kill()
    for number, run in enumerate(runs(shim, [*one.words, "1"]), 1):
        said = [line for line in run.errors.decode().splitlines() if not re.match(r"\d{4}-\d\d-\d\dT", line)]
        is_whole = run.status == 0 and run.out == EMPTY and not said
        is_ended = run.status == 4 and not run.out and len(said) == 1 and START.fullmatch(said[0])
        assert is_whole or is_ended, f"refused at {number}: {run}"


def start(one, board, shim, one_in):
    """Starts a relay one of whose requests for memory in so many is refused; again where it ends at its start."""
    for seed in range(50):
        one.environment |= environment(shim, refuse_one_in=one_in, fail_seed=seed, fail_board=board.path)
        try:
            return one.start()
        except AssertionError:
            assert one.ended() == 4 and START.fullmatch(one.journal().splitlines()[-1]), one.journal()
            one.said_path.write_text("")
    raise AssertionError("it ends at each of fifty starts")


def watch(one, traffic, seconds):
    """Looks at the page for so long: its counts add up, and none that only grows falls."""
    accepted = settled = 0
    end = time.monotonic() + seconds
    while time.monotonic() < end:
        output = one.page()[0]
        assert output.accepted == output.settled + output.held
        assert output.held == sum(tag.held for tag in output.tags)
        assert output.bytes == sum(tag.bytes for tag in output.tags)
        assert output.accepted >= accepted and output.settled >= settled
        accepted, settled = output.accepted, output.settled
        assert one.is_up() and traffic.is_well()
        time.sleep(0.5)


def play(site, shim, tmp_path, seconds, one_in):
    """Traffic for so long, while one request for memory in so many is refused."""
    one, traffic, login = site
    board = Board(tmp_path / "board")
    start(one, board, shim, one_in)
    files = steady(one.files)
    traffic.begin(one.port, login)
    watch(one, traffic, seconds)
    traffic.finish()
    output = one.await_page(lambda it: it.held == 0)
    assert output.accepted == output.settled
    assert len(traffic.notes.had) <= output.settled <= traffic.notes.came
    assert board.counts()["no-memory"] > 0, "no memory was refused"
    until(lambda: one.files() <= files + WORKERS, lambda: f"{one.files()} files are open, {files} at its start")
    names = set(re.findall(r"^(?:source closed|server lost): .* ([A-Z]\w+)(?: [a-z]+)?$", one.journal(), re.MULTILINE))
    assert names <= NAMES, names
    return traffic


@pytest.mark.quick
@KEYS
def test_ten_seconds(site, shim, tmp_path):
    """A relay goes on under refused memory: it loses and invents nothing."""
    play(site, shim, tmp_path, 10, 2_000)


@pytest.mark.minutes
@KEYS
def test_two_minutes(site, shim, tmp_path):
    """The same for longer; and no request waits for three seconds on a connection that stands."""
    traffic = play(site, shim, tmp_path, 120, 3_000)
    assert traffic.notes.longest < 3, f"a request waited {traffic.notes.longest:.1f} s"

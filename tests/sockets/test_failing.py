"""The relay over sockets that fail: calls that fail or fall short under it, as a kernel may have them (shim.c).

Sources send again what they were not told of, and servers are honest. Nothing wrong is acknowledged, all is in the end, and
the loop neither spins nor sleeps.
"""

import time

import pytest

from relay import until
from shim import FAILURES, Board, environment
from traffic import Traffic

pytestmark = pytest.mark.parametrize("readers", [1, 4])
SEED = 1


@pytest.fixture
def failing(relay, shim, tmp_path):
    """A relay between sources and servers, and the board by which its calls are made to fail."""
    traffic = Traffic(4)
    *first, spare, second = (server.port for server in traffic.servers)
    keys = {"flush_interval": 50, "chunk_limit": 2_000, "ack_wait": 5_000, "retry_wait": 20, "retry_max": 500}
    outputs = [
        {"match": "a.**", "workers": 2, "window": 4, "servers": [*first, {"port": spare, "standby": True}], **keys},
        {"match": "**", "servers": [second], **keys},
    ]
    board = Board(tmp_path / "board")
    one = relay(outputs, environment=environment(shim, fail_board=board.path, fail_seed=SEED))
    yield one, traffic, board
    traffic.close()


def told_within(one, traffic, seconds):
    """Plays for so long: the share of a core that the relay used."""
    before, start = one.processor(), time.monotonic()
    until(lambda: not one.is_up() or time.monotonic() - start > seconds, "", 2 * seconds, 0.2)
    assert one.is_up(), one.journal()[-2000:]
    traffic.is_well()
    return (one.processor() - before) / (time.monotonic() - start)


def finish(one, traffic):
    """All is told, nothing is held, and the counts add up."""
    traffic.finish()
    for number in (0, 1):
        output = one.await_page(lambda it: it.held == 0, number=number)
        assert output.accepted == output.settled


@pytest.mark.quick
def test_half_a_minute(failing):
    """Half a minute, and longer until each kind of failure came."""
    one, traffic, board = failing
    traffic.begin(one.port)
    board.switch(1)
    used = told_within(one, traffic, 30)
    assert used < 0.6, f"the loop spins: {used:.0%} of a core"
    until(lambda: all(board.counts()[word] for word in FAILURES), board.counts, 120, 0.2)
    finish(one, traffic)


@pytest.mark.minutes
def test_ten_minutes(failing):
    """Ten minutes, of which each is judged: it neither spins nor sleeps, and does not spin once there is nothing to do."""
    one, traffic, board = failing
    traffic.begin(one.port)
    board.switch(1)
    for minute in range(10):
        told = traffic.notes.told
        used = told_within(one, traffic, 60)
        oldest = time.monotonic() - min((it.oldest() for it in traffic.sources if it.owed), default=time.monotonic())
        assert used < 0.15, f"minute {minute}: the loop spins: {used:.0%} of a core"
        assert traffic.notes.told - told >= 3_000, f"minute {minute}: the loop sleeps"
        assert oldest < 60, f"minute {minute}: a request waits {oldest:.0f} s"
    finish(one, traffic)
    assert all(board.counts()[word] for word in FAILURES), board.counts()
    used = told_within(one, traffic, 10)
    assert used < 0.05, f"the loop spins without requests: {used:.0%} of a core"

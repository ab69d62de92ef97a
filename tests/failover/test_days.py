"""A relay that runs for weeks: its clock counts milliseconds, of which 2^31 are 24.8 days, and 2^32 are 49.7."""

import pytest

from shim import Board, environment

pytestmark = pytest.mark.quick
DAYS = [24, 25, 49, 50, 20_000]


@pytest.fixture
def aging(relay, next_hop, shim, tmp_path):
    """A source of a relay whose clock the board that comes with it sets ahead, and what the relay sends to."""
    board, hop = Board(tmp_path / "board"), next_hop()

    def start(**keys):
        one = relay([{"servers": [hop.port], **keys}], environment=environment(shim, fail_board=board.path))
        one.source(timeout=60).ask()
        return one, hop, board

    return start


def test_flush(aging):
    """So many days behind the start a chunk is closed and sent at its interval."""
    one, hop, board = aging(flush_interval=100)
    for count, days in enumerate(DAYS, start=1):
        board.set("ahead", days * 86_400)
        one.sources[0].send(chunk="x")
        one.until(lambda: hop.count() > count, f"{days} days behind the start no chunk is flushed")
        assert one.sources[0].told() == "x"


def test_retry(aging):
    """So many days behind the start a server that is away is tried again, and gets what waits once it is back."""
    one, hop, board = aging()
    for days in DAYS:
        board.set("ahead", days * 86_400)
        hop.end()
        losses = one.lines("server lost: ")
        one.sources[0].send(chunk="x")
        one.until(
            lambda: one.lines("server lost: ") > losses + 1, f"{days} days behind the start it is not tried again"
        )
        hop.start()
        assert one.sources[0].told() == "x"

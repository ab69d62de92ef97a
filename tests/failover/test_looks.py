"""Workers whose servers are away rest: they look again after a tenth of the time that they have found nothing."""

import pathlib
import re
import time

import pytest

from relay import free_ports

WORKERS = 16
SECONDS = 2


def waits(one):
    """How often the relay's threads have given up the processor to wait."""
    total = 0
    for task in pathlib.Path(f"/proc/{one.process.pid}/task").iterdir():
        status = (task / "status").read_text()
        total += int(re.search(r"^voluntary_ctxt_switches:\s+(\d+)", status, re.MULTILINE)[1])
    return total


@pytest.mark.quick
def test_who_finds_nothing_looks_less_often(relay):
    """Sixteen workers of an output with entries, none of whose servers can be used: a look each 10 ms would be 1,600 a second."""
    (away,) = free_ports(1)
    output = {"servers": [away], "workers": WORKERS, "retry_wait": 600_000, "retry_max": 600_000}
    one = relay([output])
    one.source().send()
    one.await_line("server lost: ")
    time.sleep(1.5)  # longer than it takes until a worker sleeps 100 ms
    before, start = waits(one), time.monotonic()
    time.sleep(SECONDS)
    a_second = (waits(one) - before) / (time.monotonic() - start)
    assert a_second < WORKERS * 40

"""Threads that share an output, and a session's turns, with each request for memory refused in a run of its own.

crates/relay_threads plays them: two threads admit 200 requests and one worker sends them, and a session has its turns by
pieces over a link. What is accepted is settled, and a session that ended for want of memory is followed by one whose chunk is
acknowledged.
"""

import collections
import os
import re

import pytest

from relay import TOP
from shim import runs

TEXT = re.compile(
    rb"two threads and one worker: accepted (\d+), settled (\d+), left (\d+)\n"
    rb"told (\d+), turns by pieces (Some\(\w+\)|None) (Some\(\w+\)|None)\n"
)
ALL = 200  # requests of one entry


def look(run, seen):
    """Judges a run, and notes what it came to."""
    match = TEXT.fullmatch(run.out)
    assert match and run.status == 0, run
    accepted, settled, left, told = map(int, match.groups()[:4])
    turns = match.groups()[4:]
    assert accepted == settled and left == 0 and told <= accepted, run
    assert b"Some(Acked)" in turns and set(turns) <= {b"Some(Acked)", b"Some(Memory)", b"None"}, run
    seen["a request is not admitted"] += accepted < ALL
    seen["a collect is refused"] += told < accepted
    seen["turns end by Memory"] += b"Some(Memory)" in turns


@pytest.mark.minutes
def test_threads(shim, needed):
    """Each run ends as it should, and each kind of refusal was met."""
    program = os.environ.get("RELAY_THREADS") or TOP / "crates" / "relay_threads" / "out" / "relay_threads"
    needed(f"relay_threads, built: {program}", os.access(program, os.X_OK))
    seen = collections.Counter()
    for run in runs(shim, [str(program), "memory"]):
        if run.status and not run.out:
            assert b"memory" in run.errors, run  # refused before the play began, where the program read its words
        else:
            look(run, seen)
    assert all(seen.values()) and len(seen) == 3, seen

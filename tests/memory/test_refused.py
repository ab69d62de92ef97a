"""Memory that is refused once, at each request for it in turn: programs that replay, check, and make each call that takes some.

Each runs for N = 1, 2, .. until a run meets no refusal, the Nth request for memory refused. The second program is
crates/relay_scripts, which a gate leaves beside the first; RELAY_SCRIPTS may name another.
"""

import os
import re
import resource
import subprocess

import pytest

from relay import TOP, settings
from shim import runs

DATA = TOP / "crates" / "relay_scripts" / "data"
SCRIPTS = sorted(DATA.glob("*.script")) + sorted((TOP / "examples").glob("*.script"))
SETTINGS = sorted(DATA.glob("*.toml")) + sorted((TOP / "examples").glob("*.toml"))
HANDFUL = {
    "first",
    "handshake-and-request-in-one-piece",
    "window-second-acknowledged-first",
    "relay",
    "two_outputs",
}
ENDS = (b"line ", b"settings: ")  # how the line begins that tells an end on standard error


def each(paths):
    """Paths as parameters, of which a handful is quick."""
    for path in paths:
        yield pytest.param(path, id=path.name, marks=pytest.mark.quick if path.stem in HANDFUL else pytest.mark.minutes)


@pytest.fixture
def scripts(needed):
    """The program relay_scripts."""
    path = os.environ.get("RELAY_SCRIPTS") or TOP / "crates" / "relay_scripts" / "out" / "relay_scripts"
    needed(f"relay_scripts, built: {path}", os.access(path, os.X_OK))
    return str(path)


def answers_of(path):
    """The answers that must come, and what is told behind them on standard error."""
    text = path.with_suffix(".answers").read_bytes()
    lines = text.splitlines(keepends=True)
    told = lines[-1] if lines and lines[-1].startswith(ENDS) else b""
    return text[: len(text) - len(told)], told


def is_front(whole, part):
    """Whether a text is whole lines at the front of another."""
    return whole.startswith(part) and (not part or part.endswith(b"\n"))


def without_memory(text):
    """A text without the lines that answer `memory`."""
    return b"".join(line for line in text.splitlines(keepends=True) if line != b"memory\n")


@pytest.mark.parametrize("path", each(SCRIPTS))
def test_replay(program, shim, path):
    """A replay ends with 4 and `memory`, behind a front of the answers that must come, or as with ample memory."""
    answers, told = answers_of(path)
    *refused, ample = runs(shim, [program, "replay"], path.read_bytes())
    assert (ample.out, ample.errors) == (answers, told)
    for number, run in enumerate(refused, 1):
        is_front_of = run.status == 4 and run.errors == b"memory\n" and is_front(answers, run.out)
        assert is_front_of or run[1:] == ample[1:], f"refused at {number}: {run}"
    assert any(run.status == 4 for run in refused)


@pytest.mark.parametrize("path", each(SCRIPTS))
def test_steps(scripts, shim, path):
    """An event that is answered `memory` is answered as ever when it comes again; so is a run over all events at once.

    The program steps each such event again. Then it runs all events on a relay of its own: the answers that are not `memory`
    are those of a further relay to those events.
    """
    answers, _ = answers_of(path)
    for number, run in enumerate(runs(shim, [scripts, "steps", str(path)]), 1):
        steps, _, more = run.out.partition(b"== run\n")
        ran, _, kept = more.partition(b"== kept\n")
        where = f"refused at {number}: {run}"
        assert run.status == 0, where
        assert without_memory(steps) == answers and steps.count(b"memory\n") <= run.refused, where
        assert without_memory(ran) == kept if b"memory\n" in ran else ran == answers, where


def is_ended(run):
    """Whether a check ended with 4 and `memory`, and printed nothing."""
    return run.status == 4 and run.out == b"" and run.errors.endswith(b"memory\n")


def is_as(run, ample):
    """Whether a check ended as with ample memory, and said no more: a caution, a cause or its line may be left out."""
    said, whole = run.errors.splitlines(), ample.errors.splitlines()
    is_status = run[1:3] == ample[1:3] and (run.status == 0 or said[-1:] == whole[-1:])
    unlined = [re.sub(rb" line \d+: ", b": ", line, count=1) for line in whole]
    return is_status and set(said) <= {*whole, *unlined}


@pytest.mark.parametrize("path", each(SETTINGS))
def test_check(program, shim, path):
    """A check ends with 4 and `memory`, and prints nothing, or as with ample memory."""
    *refused, ample = runs(shim, [program, "check", str(path)])
    for number, run in enumerate(refused, 1):
        assert is_ended(run) or is_as(run, ample), f"refused at {number}: {run}"
    assert any(map(is_ended, refused))


@pytest.mark.minutes
def test_calls(scripts, shim):
    """Each call prints what it prints with ample memory; it may have been refused memory once before, which changed nothing."""
    *refused, ample = runs(shim, [scripts, "calls"])
    assert ample.status == 0 and ample.out
    wants, called = ample.out.splitlines(), set()
    for number, run in enumerate(refused, 1):
        lines = run.out.splitlines()
        told = [place for place, line in enumerate(lines) if line.endswith(b": memory")]
        called.update(lines[place] for place in told)
        again = [line for place, line in enumerate(lines) if place not in told]
        assert run.status == 0 and again == wants and len(told) <= 1, f"refused at {number}: {run}"
        assert all(
            lines[place + 1].startswith(lines[place][: -len(b"memory")]) for place in told
        ), f"refused at {number}"
    names = {line.split(b":")[0] for line in wants}
    assert {name for name in names if name + b": memory" not in called} == set(), "never refused"


REQUESTS = 62
SIZE = 1_000_000  # bytes of a record's value


@pytest.mark.minutes
def test_less_and_less_memory(program):
    """Where memory runs out at one piece of a megabyte after the other, a replay ends with `memory` behind its answers so far.

    An admission copies no entry, so it is a piece that wants a megabyte.
    """
    limits = {"chunk_limit": 16_000_000, "total_limit": 1_000_000_000}
    request = "93a16101" + "81a16b" + f"c6{SIZE:08x}" + "61" * SIZE
    lines, want = [f"accept 1 {'0' * 32} {'0' * 32}"], ["accepted out -"]
    for number in range(1, REQUESTS + 1):
        lines += [f"piece 1 {request}", "admit 1 0 0"]
        want += ["requests 1 out -", f"admitted {number} entries 1"]
    text = settings({}, [{"servers": [9], **limits}]) + "---\n" + "\n".join(lines) + "\n"
    places = set()
    for megabytes in (2000, *range(300, 100, -5)):
        limit = megabytes * 1_000_000
        ran = subprocess.run(
            [program, "replay"],
            input=text.encode(),
            capture_output=True,
            preexec_fn=lambda most=limit: resource.setrlimit(resource.RLIMIT_AS, (most, most)),
            timeout=120,
        )
        got, ended = ran.stdout.decode().splitlines(), (ran.returncode, ran.stderr)
        is_whole = got == want and ended == (0, b"")
        assert is_whole or got == want[: len(got)] and ended == (4, b"memory\n"), f"{megabytes} MB: {ended}"
        if ran.returncode == 4 and got and not got[-1].startswith("requests"):
            places.add(len(got))
    assert len(places) > 1, "no run ended at another request than the others"

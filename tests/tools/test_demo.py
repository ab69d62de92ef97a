"""The demo: it shows what README says, leaves nothing behind, fails if it is not so, and builds a program only if it has to."""

import contextlib
import os
import re
import shutil
import signal
import subprocess
import sys

import pytest

import demo
from documents import TOP, blocks, text_of
from relay import Child, until

pytestmark = pytest.mark.quick

RESULT = "No line was acknowledged before the next hop acknowledged it, and none is lost. All is stopped."


@pytest.fixture
def shown(tmp_path):
    """Starts the demo of a program."""
    (tmp_path / "folder").mkdir()
    started = []

    def start(program):
        environment = {"RELAY": str(program), "TMPDIR": str(tmp_path / "folder")}
        started.append(Child(["sh", TOP / "demo"], tmp_path / "said", environment=environment).begin())
        return started[-1]

    yield start
    for one in started:
        with contextlib.suppress(ProcessLookupError):
            os.killpg(one.process.pid, signal.SIGKILL)  # what a demo that has ended left, too
        one.process.wait()


def left(one, tmp_path):
    """What a demo that has ended has left: processes of its group, and files in the folder for temporary ones."""
    try:
        os.killpg(one.process.pid, 0)
        processes = ["a process"]
    except ProcessLookupError:
        processes = []
    return processes + os.listdir(tmp_path / "folder")


def without_times(text):
    """The times of a demo's lines, and the lines without these, and without the program's version; the last has no time."""
    *steps, last = re.sub(r"(forward_relay) \S+", r"\1", text).splitlines()
    found = [re.fullmatch(r" *(\d+) ms  (\S.*)", step) for step in steps]
    assert all(found), steps
    return [int(one[1]) for one in found], [*(one[2] for one in found), last]


def test_shows_what_readme_has(program, shown, tmp_path):
    """It shows the lines that README has, at rising times, and leaves nothing."""
    one = shown(program)
    assert one.ended() == 0, one.said()
    (block,) = [block for block in blocks(text_of("README.md")) if " ms  " in block]
    times, lines = without_times(one.said())
    assert lines == without_times(block)[1]
    assert times == sorted(times)
    assert lines[-1] == RESULT
    assert left(one, tmp_path) == []


@pytest.mark.parametrize("step", ["relay     starts", "relay     holds line 2", "next hop  starts again"])
@pytest.mark.parametrize("number", [signal.SIGINT, signal.SIGTERM], ids=lambda number: number.name)
def test_stops_at_a_signal(program, shown, tmp_path, step, number):
    """Ctrl-C, which all of its processes get, and SIGTERM, which it gets alone, end all that it started."""
    one = shown(program)
    one.until(lambda: step in one.said(), f"no {step}")
    if number == signal.SIGINT:
        os.killpg(one.process.pid, number)
    else:
        one.process.send_signal(number)
    assert one.ended() == 128 + number
    assert RESULT not in one.said()
    one.until(lambda: left(one, tmp_path) == [], lambda: f"left: {left(one, tmp_path)}")


def test_stops_if_nobody_reads(program, tmp_path):
    """What reads its lines may go, as `head -n 1` does."""
    (tmp_path / "folder").mkdir()
    environment = {"RELAY": str(program), "TMPDIR": str(tmp_path / "folder")}
    with Child(["sh", TOP / "demo"], tmp_path / "said", environment=environment).begin(stdout=subprocess.PIPE) as one:
        assert "relay     starts" in one.process.stdout.readline().decode()
        one.process.stdout.close()
        assert one.ended() == 128 + signal.SIGTERM
        assert one.said() == "" and left(one, tmp_path) == []


@pytest.mark.parametrize(
    ("when", "why"),
    [
        ("always", "This is not so: the relay acknowledged line 1 before the next hop did."),
        ("away", "This is not so: the next hop has not acknowledged line 2, and the source got {'ack': 'line 2'}."),
    ],
)
def test_fails_with_a_relay_that_is_hasty(shown, tmp_path, when, why):
    """It fails with a relay that acknowledges what the next hop has not acknowledged."""
    hasty = tmp_path / "hasty"
    hasty.write_text(
        f'#!/bin/sh\nPYTHONPATH={TOP}/tools exec /usr/bin/python3 -B {TOP}/tests/tools/hasty.py {when} "$@"\n'
    )
    hasty.chmod(0o755)
    one = shown(hasty)
    assert one.ended() == 1
    assert why in one.said() and RESULT not in one.said()
    one.until(lambda: left(one, tmp_path) == [], lambda: f"left: {left(one, tmp_path)}")


def test_fails_without_a_program(shown, tmp_path):
    """It says so where RELAY names no program."""
    one = shown(tmp_path / "none")
    assert one.ended() == 1
    assert one.said().startswith("no program: ") and str(tmp_path / "none") in one.said()


@pytest.fixture
def checkout(tmp_path, monkeypatch):
    """A checkout whose tool writes a program that has the number of the build."""
    source, tool = tmp_path / "crates" / "forward_relay" / "src" / "main.rt", tmp_path / "dev" / "build.py"
    for path in (source, tool):
        path.parent.mkdir(parents=True)
    source.write_text("")
    out = tmp_path / "crates" / "forward_relay" / "out"
    tool.write_text(
        f"import os, pathlib\n"
        f"program = pathlib.Path({str(out / 'unproved' / 'forward_relay')!r})\n"
        f"program.parent.mkdir(parents=True, exist_ok=True)\n"
        f"program.write_text((program.read_text() if program.exists() else '') + 'built ')\n"
    )
    for name, value in {"TOP": tmp_path, "PROVED": out / "forward_relay"}.items():
        monkeypatch.setattr(demo, name, value)
    monkeypatch.setattr(demo, "UNPROVED", out / "unproved" / "forward_relay")
    monkeypatch.delenv("RELAY", raising=False)
    return tmp_path


def test_builds_if_it_has_to(checkout, monkeypatch, capfd):
    """It builds where no program is there, or one of older sources; and takes RELAY, or the proved program, if there is one."""
    assert demo.built_program() == demo.UNPROVED
    assert demo.UNPROVED.read_text() == "built "
    assert "builds one without its proof" in capfd.readouterr().out
    os.utime(checkout / "crates/forward_relay/src/main.rt", (1, 1))
    assert demo.built_program() == demo.UNPROVED and demo.UNPROVED.read_text() == "built "
    os.utime(demo.UNPROVED, (0, 0))
    assert demo.built_program() == demo.UNPROVED and demo.UNPROVED.read_text() == "built built "
    demo.PROVED.write_text("")
    assert demo.built_program() == demo.PROVED
    monkeypatch.setenv("RELAY", sys.executable)
    assert demo.built_program().samefile(sys.executable)


def test_ends_if_the_build_fails(checkout):
    """It ends with the status of a build that fails."""
    (checkout / "dev/build.py").write_text("raise SystemExit(3)\n")
    with pytest.raises(SystemExit) as ended:
        demo.built_program()
    assert ended.value.code == 3


def test_ends_the_build_at_a_signal(tmp_path):
    """Ctrl-C while it builds ends the build, which may put its things away."""
    for name in ("demo", "tools/demo.py", "tools/next_hop.py", "tools/page.py"):
        (tmp_path / name).parent.mkdir(exist_ok=True)
        shutil.copy(TOP / name, tmp_path / name)
    (tmp_path / "dev").mkdir()
    (tmp_path / "dev/build.py").write_text(
        "import signal, sys, time\n"
        "signal.signal(signal.SIGTERM, lambda *_: sys.exit('put away'))\n"
        "print('building', flush=True)\n"
        "time.sleep(600)\n"
    )
    environment = {key: value for key, value in os.environ.items() if key != "RELAY"}
    with open(tmp_path / "said", "wb") as said:
        words = ["sh", tmp_path / "demo"]
        one = subprocess.Popen(words, env=environment, stdout=said, stderr=said, start_new_session=True)
    try:
        until(lambda: "building" in (tmp_path / "said").read_text(), "it does not build")
        os.killpg(one.pid, signal.SIGINT)
        assert one.wait(60) == 128 + signal.SIGINT
    finally:
        one.kill()
    assert (tmp_path / "said").read_text().endswith("building\nput away\n")

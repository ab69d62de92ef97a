"""What a test asks for: a relay by settings, next hops, the program itself, and calls of the C library that fail."""

import os
import pathlib
import shutil
import signal
import subprocess

import pytest

import relay as relays
import shim as shims
from documents import journal_pattern
from next_hop import NextHop

JOURNAL = journal_pattern()
GO = pathlib.Path("/usr/share/gocode")


def pytest_addoption(parser):
    """How many threads read, in the tests that do not say it."""
    text = "threads that read the sources of each relay whose test does not say how many"
    parser.addoption("--readers", type=int, default=1, help=text)


@pytest.fixture
def readers(request):
    """How many threads read the sources of each relay of a test: the test's parameter of this name, or the option."""
    return request.config.getoption("--readers")


@pytest.fixture
def program():
    """The path of the program that is tried."""
    path = relays.built_program()
    if not os.access(path, os.X_OK):
        pytest.fail(f"no program at {path}: `rt ci` builds it, or RELAY names one", pytrace=False)
    return path


@pytest.fixture
def relay(program, tmp_path, readers, request):
    """Starts relays by settings: `relay([{"servers": [hop.port]}], connections=2)`.

    They end with the test, and not before, and may have said only lines that docs/FORMATS.md has.
    """
    started = []

    def start(outputs, errors=None, stdout=subprocess.DEVNULL, **how):
        started.append(relays.Relay(program, tmp_path, outputs, **{"readers": readers, **how}))
        return started[-1].start(errors, stdout)

    yield start
    statuses = [one.kill() for one in started]
    if getattr(request.node, "failed", False):
        for one in started:
            print(f"the end of the journal of {one.path.name}:\n{one.journal()[-3000:]}")
    for one, status in zip(started, statuses):
        assert one.turns or status == -signal.SIGKILL, f"it ended with {status}: {one.journal()[-3000:]}"
        strange = [line for line in one.journal().splitlines() if not JOURNAL.fullmatch(line)]
        assert not strange, f"docs/FORMATS.md has no such lines: {strange[:5]}"


@pytest.fixture
def next_hop():
    """Starts servers: `next_hop(answer=lie)`. They end with the test, and none may have had what is no frame."""
    started = []

    def start(**how):
        started.append(NextHop(**how))
        return started[-1]

    yield start
    for one in started:
        one.end()
        assert not one.wrong, one.wrong


@pytest.fixture(scope="session")
def shim(tmp_path_factory):
    """The library that refuses memory and has calls on sockets fail, built."""
    return shims.build(tmp_path_factory.mktemp("shim"))


@pytest.fixture(scope="session")
def build_go(tmp_path_factory):
    """Builds a Go program over fluent-logger-golang: its path, or None where Go or the logger is missing."""
    folder = tmp_path_factory.mktemp("go")
    env = {"GOPATH": str(GO), "GO111MODULE": "off", "GOCACHE": str(tmp_path_factory.getbasetemp().parent / "go-cache")}

    def build(source):
        if not (shutil.which("go") and (GO / "src/github.com/fluent/fluent-logger-golang").is_dir()):
            return missing("golang-go and golang-github-fluent-fluent-logger-golang-dev")
        built = folder / source.parent.name
        subprocess.run(["go", "build", "-o", built, source], env=os.environ | env, check=True, timeout=300)
        return built

    return build


def missing(what):
    """Nothing, where a test does without what is missing; in CI it may not."""
    if os.environ.get("CI") == "true":
        pytest.fail(f"missing: {what}", pytrace=False)


@pytest.fixture
def needed():
    """Skips a test where what it needs is missing: `needed("black", shutil.which("black"))`. In CI that is a failure."""

    def look(what, is_there):
        if not is_there:
            missing(what)
            pytest.skip(f"missing: {what}")

    return look


@pytest.hookimpl(hookwrapper=True)
def pytest_runtest_makereport(item, call):
    """Notes whether a test failed, for what ends behind it."""
    report = (yield).get_result()
    item.failed = getattr(item, "failed", False) or report.failed and call.when == "call"

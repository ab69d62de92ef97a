"""The blocks of commands of README, OPERATING and tools/README, typed: on a page, and with the indent that the file has."""

import contextlib
import os
import re
import signal
import subprocess
import textwrap

import pytest

from documents import TOP, blocks, is_of_commands, text_of
from relay import BUILT, built_program

# What a block shows, by a word of it. The documents say so too.
SHOWN = {
    "sh demo": [
        "No line was acknowledged before the next hop acknowledged it, and none is lost. All is stopped.",
    ],
    "rt run": ["settings are good, outputs: 1"],
    "next_hop.py": [
        "settings are good, outputs: 1",
        "app.start 1700000000 {'line': 'hello'}",
        "{'ack': 'x'}",
        "output 0 accepted 1 settled 1 held 0 bytes 0 chunks 0",
    ],
    "replay": [],
    "install.sh": [],
    "openssl": [],
}
# What writes into the folder that it is typed in.
WRITING = ("openssl",)
# What is typed elsewhere: by tests/stop/test_containers.py.
ELSEWHERE = ("docker run",)
# What a synopsis leaves to choose.
CHOSEN = {"[--prefix P]": "--prefix {folder}"}


def found():
    """Each block that is to be typed, with its document. Those that prove take minutes."""
    for name in ("README.md", "docs/OPERATING.md", "tools/README.md"):
        for block in filter(is_of_commands, blocks(text_of(name))):
            label = f"{name}: {block.splitlines()[0][:40]}"
            if re.search(r"\brt ", block):
                yield pytest.param(name, block, marks=pytest.mark.minutes, id=label)
            elif not block.startswith(ELSEWHERE):
                yield pytest.param(name, block, marks=pytest.mark.quick, id=label)
                yield pytest.param(name, textwrap.indent(block, "    "), marks=pytest.mark.quick, id=f"{label}, raw")


def alone(script, folder, longest, place):
    """Types lines into a shell in a place: its status, and what it printed.

    The shell has a network of its own, with every port free, where the system gives one.
    """
    path = folder / "typed"
    path.write_text(script + "wait\n")
    network = ["unshare", "--net", "sh", "-ec", 'ip link set lo up; exec "$@"', "sh"]
    if subprocess.run([*network, "true"], capture_output=True).returncode != 0:
        network = []
    with open(folder / "printed", "wb") as printed:
        words = [*network, "sh", "-e", str(path)]
        typed = subprocess.Popen(
            words, cwd=place, stdin=subprocess.DEVNULL, stdout=printed, stderr=subprocess.STDOUT, start_new_session=True
        )
        try:
            status = typed.wait(longest)
        except subprocess.TimeoutExpired:
            status = f"it had not ended after {longest} s"
        with contextlib.suppress(ProcessLookupError):
            os.killpg(typed.pid, signal.SIGKILL)
    return status, (folder / "printed").read_text()


@pytest.mark.parametrize(("name", "block"), found())
def test_block(program, tmp_path, name, block):
    """A block does what its document says of it."""
    if "crates/forward_relay/out" in block and built_program() != str(BUILT):
        pytest.skip(f"missing: a program at {BUILT.relative_to(TOP)}, where the documents have it")
    words = [word for word in SHOWN if word in block]
    assert words, f"say in this test what this block shows:\n{block}"
    for synopsis, chosen in CHOSEN.items():
        block = block.replace(synopsis, chosen.format(folder=tmp_path))
    place = tmp_path if words[0] in WRITING else TOP
    status, printed = alone(block, tmp_path, 7200 if re.search(r"\brt ", block) else 120, place)
    assert status == 0, f"{status}: {printed}"
    for line in SHOWN[words[0]]:
        assert line in printed, printed
        assert line in text_of(name), f"{name} does not say that it shows {line!r}"
    if words == ["replay"]:
        assert printed == text_of("examples/first.answers")


@pytest.mark.quick
def test_readme_begins_with_the_demo():
    """README has the demo first, then what proves the program."""
    first, second, *_ = filter(is_of_commands, blocks(text_of("README.md")))
    assert first == "sh demo\n"
    assert "rt run" in second

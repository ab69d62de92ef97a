"""packaging/install.sh: what it puts in place, keeps, and takes away."""

import os
import re
import subprocess

import pytest

from documents import TOP, blocks, section, spans

pytestmark = pytest.mark.quick


@pytest.fixture
def install(program, tmp_path):
    """Runs it with a prefix in a folder of the test."""

    def run(*words):
        words = ["sh", "packaging/install.sh", "--prefix", str(tmp_path / "p"), *words]
        env = os.environ | {"RELAY": program}
        return subprocess.run(words, cwd=TOP, env=env, capture_output=True, text=True, timeout=60)

    return run


def files(folder):
    """The files below a folder."""
    return {str(path.relative_to(folder)) for path in folder.rglob("*") if path.is_file()}


def test_put_in_place_and_taken_away(install, tmp_path):
    """The program runs from there, its settings are good, and nothing is left when it is taken away."""
    done = install()
    assert done.returncode == 0, done.stderr
    prefix = tmp_path / "p"
    there = files(prefix)
    wanted = {"sbin/forward_relay", "share/man/man8/forward_relay.8", "lib/systemd/system/forward_relay.service"}
    wanted |= {f"bin/forward_relay-{tool}" for tool in ("watch", "sizing", "next_hop")}
    wanted |= {f"share/doc/forward_relay/{name}.md" for name in ("OPERATING", "FORMATS", "AVAILABILITY", "CHANGELOG")}
    assert wanted | {"etc/forward_relay/relay.toml", "share/doc/forward_relay/examples/alerts.yml"} <= there
    checked = [prefix / "sbin/forward_relay", "check", prefix / "etc/forward_relay/relay.toml"]
    assert subprocess.run(checked, capture_output=True).returncode == 0
    assert (prefix / "etc/forward_relay/relay.toml").stat().st_mode & 0o777 == 0o600
    watched = [prefix / "bin/forward_relay-watch", "--help"]
    assert subprocess.run(watched, capture_output=True, env={"PATH": "/usr/bin:/bin"}).returncode == 0
    assert install("--uninstall").returncode == 0
    assert files(prefix) == set()


def named(text):
    """What a document names as something to read or run: what stands in backticks, and in blocks of commands."""
    return [word for part in [*spans(text), *blocks(text)] for word in part.split()]


def test_documents_name_what_is_there(install, tmp_path):
    """The documents that are installed name its tools and examples, and nothing of the repository but what packs it."""
    assert install().returncode == 0
    doc, bin_folder = tmp_path / "p/share/doc/forward_relay", tmp_path / "p/bin"
    texts = {name: (doc / name).read_text() for name in ("OPERATING.md", "FORMATS.md")}
    words = [word for text in texts.values() for word in named(text)]
    assert {"forward_relay-watch", "forward_relay-sizing", "examples/haproxy.cfg"} <= set(words)
    examples = {word for word in words if word.startswith("examples/")}
    assert [word for word in sorted(examples) if not (doc / word).is_file()] == []
    tools = {word for word in words if re.fullmatch(r"forward_relay-\w+", word)}
    assert [word for word in sorted(tools) if not os.access(bin_folder / word, os.X_OK)] == []
    assert {one.name for one in bin_folder.iterdir()} == tools
    links = {link for text in texts.values() for link in re.findall(r"\]\((\w+\.md)", text)}
    assert [link for link in links if not (doc / link).is_file()] == []
    assert [word for word in words if re.match(r"(?:tools|tests|bench|dev|docs|crates)/", word)] == []
    packing = ("## Installing and running", "### In a container")
    text = texts["OPERATING.md"]
    for heading in packing:
        assert "at the top of the repository" in section(text, heading)
        text = text.replace(section(text, heading), "")
    assert [word for word in named(text + texts["FORMATS.md"]) if word.startswith("packaging/")] == []


def test_examples_of_versions_before_go(install, tmp_path):
    """Examples that a version before had beside OPERATING.md are in their folder alone."""
    doc = tmp_path / "p/share/doc/forward_relay"
    doc.mkdir(parents=True)
    (doc / "haproxy.cfg").write_text("a version before")
    assert install().returncode == 0
    assert {path.name for path in (doc / "examples").iterdir()} == {path.name for path in (TOP / "examples").iterdir()}
    assert not (doc / "haproxy.cfg").exists()


@pytest.mark.parametrize("tool", ["watch", "sizing", "next_hop"])
def test_tools_start(install, tmp_path, tool):
    """Each tool finds what it is made of: it says what is wrong with its call."""
    assert install().returncode == 0
    words = [tmp_path / f"p/bin/forward_relay-{tool}", "/nowhere/forward_relay"]
    ran = subprocess.run(words, capture_output=True, text=True, timeout=60)
    assert ran.returncode != 0 and "/nowhere/forward_relay" in ran.stderr, ran.stderr
    assert "ModuleNotFoundError" not in ran.stderr


def test_settings_stay(install, tmp_path):
    """Settings that were changed are neither written over nor taken away."""
    assert install().returncode == 0
    path = tmp_path / "p/etc/forward_relay/relay.toml"
    path.write_text(path.read_text() + "# ours\n")
    assert install().returncode == 0
    assert path.read_text().endswith("# ours\n")
    assert install("--uninstall").returncode == 0
    assert files(tmp_path / "p") == {"etc/forward_relay/relay.toml"}


def test_wrong_calls(install):
    """A word that it does not know ends with 2."""
    done = install("--other")
    assert done.returncode == 2 and done.stderr.startswith("usage: ")

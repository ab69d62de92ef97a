"""packaging/deb.sh: the package, and what becomes of a machine that has it installed, upgraded, removed and purged."""

import gzip
import os
import pathlib
import re
import shutil
import subprocess

import pytest

from documents import TOP, text_of, version_pattern
from machine import Machine

SETTINGS = "/etc/forward_relay/relay.toml"
PROGRAM = "/usr/sbin/forward_relay"
ENABLED = "/etc/systemd/system/multi-user.target.wants/forward_relay.service"


def done(words, **how):
    """What a command says that ends well."""
    ran = subprocess.run(words, cwd=TOP, capture_output=True, text=True, timeout=300, **how)
    assert ran.returncode == 0, f"{words}: {ran.stdout}{ran.stderr}"
    return ran.stdout


@pytest.fixture
def make(needed, program, tmp_path):
    """Makes the package in a folder of this name, and gives its path."""
    needed("binutils", shutil.which("strip"))
    needed("dpkg", shutil.which("dpkg-deb"))

    def run(name="made"):
        (tmp_path / name).mkdir()
        env = os.environ | {"RELAY": program}
        return pathlib.Path(done(["sh", "packaging/deb.sh", str(tmp_path / name)], env=env).strip())

    return run


@pytest.fixture
def machine(tmp_path):
    """A machine to install packages on: what is in the folder `given` is in its /mnt."""
    if not shutil.which("systemd-sysusers"):
        pytest.skip("missing: systemd, which the package stands on")
    for name in ("layers", "given"):
        (tmp_path / name).mkdir()
    one = Machine(str(tmp_path / "layers"), str(tmp_path / "given"))
    if not one.is_there:
        one.process.kill()
        pytest.skip(f"missing: root who may mount: {one.process.communicate()[1]}")
    yield one
    one.end()


def later(package, folder):
    """The path of a later version of a package, which has other settings."""
    done(["dpkg-deb", "-R", package, folder / "tree"])
    control = folder / "tree/DEBIAN/control"
    control.write_text(re.sub(r"(?m)^Version: .*", "Version: 99", control.read_text()))
    with open(folder / f"tree{SETTINGS}", "a") as settings:
        settings.write("# the later version's\n")
    done(["dpkg-deb", "--root-owner-group", "-Znone", "--build", folder / "tree", folder / "later.deb"])
    return folder / "later.deb"


@pytest.mark.quick
def test_version(make, tmp_path):
    """The package, the manual page in it and the program in it have one version; the same files make the same bytes."""
    package = make()
    assert package.read_bytes() == make("again").read_bytes()
    version = done(["dpkg-deb", "-f", package, "Version"]).strip()
    assert re.fullmatch(version_pattern(), version)
    assert package.name == f"forward-relay_{version}_amd64.deb"
    done(["dpkg-deb", "-x", package, tmp_path / "x"])
    man = gzip.decompress((tmp_path / "x/usr/share/man/man8/forward_relay.8.gz").read_bytes()).decode()
    assert f".Os forward_relay {version}\n" in man
    settings = tmp_path / "relay.toml"
    settings.write_text(text_of("examples/relay.toml").replace("127.0.0.1:24224", "127.0.0.1:1"))
    words = [f"{tmp_path}/x{PROGRAM}", "run", settings, "1"]
    ran = subprocess.run(words, env=os.environ | {"FORWARD_RELAY_LOG": "info"}, capture_output=True, timeout=60)
    assert re.search(f" started: forward_relay {version_pattern()} settings ", ran.stderr.decode())


@pytest.mark.quick
def test_installed_to_purged(make, machine, tmp_path):
    """Its settings are good, and stay through an upgrade and a removal once they are changed; a purge leaves nothing."""
    package = make()
    shutil.copy(package, tmp_path / "given/first.deb")
    shutil.copy(later(package, tmp_path), tmp_path / "given/later.deb")
    before = machine.run("cat", "/etc/passwd", "/etc/group")

    said = machine.run("dpkg", "--install", "/mnt/first.deb")
    assert "systemctl enable --now forward_relay" in said
    assert ENABLED not in machine.written()
    assert "settings are good, outputs: 1" in machine.run(PROGRAM, "check", SETTINGS)
    assert machine.run("stat", "-c", "%U %a", SETTINGS) == "root 600\n"
    assert machine.run("getent", "passwd", "_forward_relay").endswith(":/nonexistent:/usr/sbin/nologin\n")
    machine.run("ls", "/lib/systemd/system/forward_relay.service", "/usr/share/doc/forward-relay/examples/haproxy.cfg")
    machine.run("ls", "/usr/bin/forward_relay-next_hop", "/usr/share/doc/forward-relay/AVAILABILITY.md")

    machine.run("systemctl", "enable", "forward_relay")
    machine.run("sed", "-i", "s/^connections = 256/connections = 300/", SETTINGS)
    # the settings of both changed: dpkg asks, and keeps those that are there
    said = machine.run("dpkg", "--install", "/mnt/later.deb", text="\n")
    assert "systemctl restart forward_relay" in said
    assert machine.run("dpkg-query", "-W", "-f", "${Version}", "forward-relay") == "99"
    assert "connections = 300" in machine.run("cat", SETTINGS)
    assert "the later version's" not in machine.run("cat", SETTINGS)
    assert "settings are good, outputs: 1" in machine.run(PROGRAM, "check", SETTINGS)
    assert ENABLED in machine.written()

    machine.run("dpkg", "--remove", "forward-relay")
    assert not {PROGRAM, ENABLED} & machine.written()
    assert "connections = 300" in machine.run("cat", SETTINGS)

    machine.run("dpkg", "--purge", "forward-relay")
    assert [path for path in machine.written() if re.search("forward.relay", path)] == []
    assert machine.run("cat", "/etc/passwd", "/etc/group") == before


@pytest.mark.quick
def test_over_what_install_put_there(make, machine, tmp_path):
    """A unit that hides the package's is named; with the option that OPERATING names, the settings that are there stay."""
    shutil.copy(make(), tmp_path / "given/one.deb")
    unit, settings = "/usr/local/lib/systemd/system/forward_relay.service", "# ours\n"
    machine.run("install", "-D", "/dev/null", unit)
    machine.run("install", "-D", "/dev/stdin", SETTINGS, text=settings)
    option = re.search(r"Dpkg::Options::=(--\S+)`", text_of("docs/OPERATING.md"))[1]
    status, said = machine.enter(["chroot", machine.root, "dpkg", "--install", "/mnt/one.deb"])
    assert status != 0 and "conffile" in said  # without an answer
    said = machine.run("dpkg", option, "--install", "/mnt/one.deb")
    assert f"systemd uses {unit}" in said
    assert machine.run("cat", SETTINGS) == settings
    machine.run("rm", unit)
    assert "systemd uses" not in machine.run("dpkg-reconfigure", "--priority=critical", "forward-relay")


@pytest.mark.minutes
def test_lintian(needed, make):
    """Debian's lintian, which brings more than a hundred packages, finds no error."""
    needed("lintian", shutil.which("lintian"))
    done(["lintian", "--fail-on", "error", make()])

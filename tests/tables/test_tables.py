"""The tables of crates/relay_scripts are what their generators write."""

import shutil
import subprocess
import sys
from pathlib import Path

import pytest

from relay import TOP

GENERATORS = ["vectors", "handshakes", "settings", "servers", "limits"]


def files(folder):
    """The bytes of the files below a folder that generators write."""
    crate = folder / "crates" / "relay_scripts"
    paths = [crate / "stdout", *crate.glob("data/*.*")]
    return {path.relative_to(folder): path.read_bytes() for path in paths if path.is_file()}


@pytest.mark.quick
def test_tables(tmp_path):
    """Each generator, run anew over copies, writes what stands there."""
    shutil.copytree(Path(__file__).parent, tmp_path / "tests" / "tables")
    for part in files(TOP):
        (tmp_path / part).parent.mkdir(parents=True, exist_ok=True)
        shutil.copy(TOP / part, tmp_path / part)
    for name in GENERATORS:
        subprocess.run([sys.executable, tmp_path / f"tests/tables/{name}.py"], check=True, timeout=120)
    assert files(tmp_path) == files(TOP)

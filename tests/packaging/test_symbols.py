"""What the program has of what exists in proofs alone: nothing."""

import re
import shutil
import subprocess

import pytest


@pytest.mark.quick
def test_no_history_in_the_program(needed, program):
    """The compiler leaves no function of the run's history, which exists for proofs alone."""
    needed("binutils", shutil.which("nm"))
    told = subprocess.run(["nm", program], check=True, capture_output=True, text=True).stdout
    crates = set(re.findall(r"\b(fwd_[a-z]+|logbook)::", told))
    assert "fwd_output" in crates
    assert crates.isdisjoint({"fwd_history", "fwd_run", "logbook"})

"""What a test of a stop asks for: relays that can be asked to stop."""

import re
import subprocess

import pytest

from documents import journal_pattern
from stopping import Stoppable

JOURNAL = journal_pattern()


@pytest.fixture
def stoppable(program, tmp_path, readers, request):
    """Starts relays by settings that can be asked to stop: `stoppable([{"servers": [hop.port]}])`.

    They may have ended by the test's end, and may have said only lines that docs/FORMATS.md has.
    """
    started = []

    def start(outputs, stdout=subprocess.DEVNULL, **how):
        control = str(tmp_path / f"control-{len(started)}")
        started.append(Stoppable(program, tmp_path, outputs, **{"control": control, "readers": readers} | how))
        return started[-1].start(stdout=stdout)

    start.folder = tmp_path
    yield start
    for one in started:
        one.kill()
        if getattr(request.node, "failed", False):
            print(f"the end of the journal of {one.path.name}:\n{one.journal()[-3000:]}")
        lines = re.sub(r"^left \d+ entries.*\n\Z", "", one.journal(), flags=re.MULTILINE).splitlines()
        strange = [line for line in lines if not JOURNAL.fullmatch(line)]
        assert not strange, f"docs/FORMATS.md has no such lines: {strange[:5]}"

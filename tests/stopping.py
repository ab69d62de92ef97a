"""A relay that can be asked to stop, and what asks it."""

import re
import subprocess
from typing import NamedTuple

from relay import DEADLINE, Relay

LEFT = 6  # the status where entries are left
LINE = r"left (\d+) entries, (\d+) of sources that do not ask(?:; (\d+) sources .+)?"  # the last answer then


class Left(NamedTuple):
    """What a stop says that it left."""

    entries: int
    silent: int  # how many of these are of sources that do not ask
    sources: int  # how many were not read to the end


class Asked(NamedTuple):
    """What came of asking a relay to stop."""

    told: list  # what it answered, by lines
    errors: str  # what the call said on standard error
    status: int  # the status of the call


class Stoppable(Relay):
    """A relay with a control socket."""

    def __init__(self, program, folder, outputs, **how):
        super().__init__(program, folder, outputs, **how)
        self.program, self.control, self.starts = program, how["control"], 0

    def start(self, errors=None, stdout=subprocess.DEVNULL):
        """Starts it, and waits until it can be asked."""
        self.starts += 1
        super().start(errors, stdout)
        self.until(lambda: self.lines("listening: sources") == self.starts or not self.is_up(), "it does not listen")
        return self

    def ask(self, seconds=None):
        """Begins to ask it to stop: the process that does."""
        words = [self.program, "stop", str(self.path), *([] if seconds is None else [str(seconds)])]
        pipes = {"stdout": subprocess.PIPE, "stderr": subprocess.PIPE, "text": True}
        return subprocess.Popen(words, stdin=subprocess.DEVNULL, **pipes)

    def stop(self, seconds=None):
        """Asks it to stop, and waits until that has come to something."""
        return answer_of(self.ask(seconds))


def answer_of(asked):
    """What came of a call that asks, once it has ended."""
    told, errors = asked.communicate(timeout=DEADLINE)
    return Asked((told or "").splitlines(), errors, asked.returncode)


def left_of(asked):
    """What a stop says that it left."""
    said = asked.told[-1] if asked.told else ""
    found = re.fullmatch(LINE, said)
    assert found, f"it said {said!r}, status {asked.status}"
    assert (asked.status, asked.errors) == (LEFT, f"{said}\n")
    return Left(*(int(number or 0) for number in found.groups()))

"""Starts programs under shim.c: requests for memory are refused, calls on sockets fail, a clock is ahead, threads stop."""

import mmap
import os
import pathlib
import struct
import subprocess
import tempfile
from typing import NamedTuple

SOURCE = pathlib.Path(__file__).resolve().with_name("shim.c")
WORDS = """on calls short-read short-write wait-read wait-write cut-read cut-write reset-read reset-write
connect-refused no-port no-socket no-accept aborted cut-accept cut-wait requests no-memory break broken break-first
ahead sleeps pause who call step armed stopped go passed steps sleeping slow""".split()
FAILURES = [word for word in WORDS[2:] if word not in ("requests", *WORDS[WORDS.index("break") :])]


class Run(NamedTuple):
    """A run: whether it was refused memory, and what came of it."""

    refused: bool
    status: int
    out: bytes
    errors: bytes


def build(folder):
    """The library, built in a folder. It needs cc."""
    built = pathlib.Path(folder) / "shim.so"
    words = "cc -O2 -Wall -Wextra -Werror -shared -fPIC -o".split()
    subprocess.run([*words, built, SOURCE, "-ldl"], check=True)
    return built


def environment(shim, **variables):
    """What a program's environment has beside its own: `environment(shim, refuse_at=7)`."""
    return {"LD_PRELOAD": str(shim), **{name.upper(): str(value) for name, value in variables.items()}}


def runs(shim, words, text=b"", folder=None):
    """A program's runs over this input, the Nth request for memory refused: for N = 1, 2, .., and the last one with none."""
    with (
        tempfile.TemporaryFile() as feed,
        tempfile.TemporaryFile() as out,
        tempfile.TemporaryFile() as errors,
        tempfile.TemporaryFile() as told,
    ):
        feed.write(text)
        feed.seek(0)
        env = os.environ | environment(shim, refuse_at="all", refuse_fd=told.fileno())
        streams = {"stdin": feed, "stdout": out, "stderr": errors, "pass_fds": [told.fileno()]}
        subprocess.run(words, env=env, cwd=folder, check=True, timeout=3600, **streams)
        for file in (out, errors, told):
            file.seek(0)
        return parted(out.read(), errors.read(), told.read())


def parted(out, errors, told):
    """The runs whose ends the shim told."""
    parts, out_at, errors_at = [], 0, 0
    for line in told.decode().splitlines():
        status, out_end, errors_end = map(int, line.lstrip("r").split())
        parts.append(Run(line[0] == "r", status, out[out_at:out_end], errors[errors_at:errors_end]))
        out_at, errors_at = out_end, errors_end
    return parts


class Board:
    """The words that the shim shares with who started the program."""

    def __init__(self, path):
        self.path = path
        path.write_bytes(bytes(mmap.PAGESIZE))
        with open(path, "r+b") as file:
            self.words = mmap.mmap(file.fileno(), mmap.PAGESIZE)

    def switch(self, on):
        """From now on calls fail, or none does."""
        struct.pack_into("=Q", self.words, 0, on)

    def break_readers(self, count):
        """From now on the waits of so many readers beside the first fail."""
        struct.pack_into("=Q", self.words, 8 * WORDS.index("break"), count)

    def break_first(self):
        """From now on the waits of the first reader fail."""
        struct.pack_into("=Q", self.words, 8 * WORDS.index("break-first"), 1)

    def set(self, word, value):
        """From now on a word says so."""
        struct.pack_into("=Q", self.words, 8 * WORDS.index(word), value)

    def counts(self):
        """What it counted."""
        return dict(zip(WORDS, struct.unpack_from(f"={len(WORDS)}Q", self.words)))

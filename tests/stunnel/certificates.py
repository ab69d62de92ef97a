"""Certificates as OPERATING makes them by openssl: an authority's, and those of the names that it vouches for."""

import subprocess

from documents import blocks, section, text_of

NAMES = "relay.example source.example"


class Authority:
    """An authority of a test, with its certificate in ca.crt."""

    def __init__(self, folder):
        self.folder = folder
        text = section(text_of("docs/OPERATING.md"), "## TLS and names")
        (block,) = [block for block in blocks(text) if block.startswith("openssl ")]
        own, mark, names = block.partition("for name in ")
        assert names.startswith(f"{NAMES};"), block
        self.names = mark + names
        self.run(own)

    def run(self, script):
        """Types commands into a shell in the folder."""
        words = ["sh", "-ec", script]
        done = subprocess.run(words, cwd=self.folder, stdin=subprocess.DEVNULL, capture_output=True, timeout=60)
        assert done.returncode == 0, done.stderr

    def vouch(self, name):
        """A certificate for a name, with its key."""
        self.run(self.names.replace(NAMES, name))
        return self.folder / f"{name}.crt", self.folder / f"{name}.key"

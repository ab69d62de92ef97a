"""The page of a relay's monitor, as the tools read it (docs/FORMATS.md, "The monitor's page")."""

import argparse
import re
import urllib.request
from http.client import HTTPException
from typing import NamedTuple
from urllib.error import HTTPError, URLError
from urllib.parse import urlsplit

TIMEOUT = 5  # seconds that a relay has to answer

NUMBER = rb"(0|[1-9][0-9]{0,19})"
OUTPUT_LINE = re.compile(rb"output %b accepted %b settled %b held %b bytes %b chunks %b" % ((NUMBER,) * 6))
TAG_LINE = re.compile(rb"tag (-|(?:[0-9a-f]{2})+) held %b bytes %b" % ((NUMBER,) * 2))

# A relay is asked itself, whatever proxy the environment names.
OPENER = urllib.request.build_opener(urllib.request.ProxyHandler({}))


class NoPage(Exception):
    """No page can be had, and why."""


class BadPage(NoPage):
    """What was had is no page, and why."""


class Tag(NamedTuple):
    """What an output holds under one tag: entries that are not settled, and their bytes."""

    name: bytes
    held: int
    bytes: int


class Output(NamedTuple):
    """An output's counts, in entries but for `bytes` and `chunks`, and its tags."""

    number: int
    accepted: int
    settled: int
    held: int
    bytes: int
    chunks: int
    tags: list[Tag]


def parse_page(page):
    """The outputs that the bytes of a page tell of."""
    lines = page.split(b"\n")
    if lines.pop():
        raise BadPage("the last line has no end")
    outputs = []
    for place, line in enumerate(lines, start=1):
        if outputs and (found := TAG_LINE.fullmatch(line)):
            name, held, size = found.groups()
            name = b"" if name == b"-" else bytes.fromhex(name.decode())
            outputs[-1].tags.append(Tag(name, int(held), int(size)))
        elif found := OUTPUT_LINE.fullmatch(line):
            output = Output(*map(int, found.groups()), tags=[])
            if output.number != len(outputs):
                raise BadPage(f"line {place} is not of output {len(outputs)}")
            outputs.append(output)
        else:
            raise BadPage(f"line {place} is no line of a page: {line[:40]!r}")
    return outputs


def read_page(url):
    """The outputs that a relay's page tells of now."""
    try:
        with OPENER.open(url, timeout=TIMEOUT) as reply:
            page = reply.read()
    except HTTPError as error:
        raise NoPage(printable(f"the answer is {error.code} {error.reason}")) from error
    except (OSError, HTTPException, ValueError) as error:
        cause = error.reason if isinstance(error, URLError) else error
        raise NoPage(printable(getattr(cause, "strerror", None) or str(cause))) from error
    return parse_page(page)


def printable(text):
    """A text for a terminal, whoever wrote it."""
    return "".join(character if character.isprintable() else "?" for character in text)


def page_url(text):
    """The argument of a tool that says where the page is, as `http://127.0.0.1:8080/`."""
    try:
        parts = urlsplit(text)
        good = parts.scheme in ("http", "https") and parts.hostname and parts.port != 0
    except ValueError:
        good = False
    if not good:
        raise argparse.ArgumentTypeError(f"no address of a page, as http://127.0.0.1:8080/: {text!r}")
    return text


def tag_text(name, is_plain):
    """A tag as a text: its own, where it is UTF-8 and plain, and else `hex:` and its digits.

    No tag whose own text begins with `hex:` keeps it, so two tags never come to one text.
    """
    try:
        text = name.decode()
    except UnicodeDecodeError:
        text = None
    if text is None or text.startswith("hex:") or not is_plain(text):
        return f"hex:{name.hex()}"
    return text

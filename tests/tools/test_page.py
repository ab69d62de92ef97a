"""Tests of the parser of a relay's page."""

import threading
import unittest
from contextlib import contextmanager
from http.server import BaseHTTPRequestHandler, ThreadingHTTPServer

import pytest

from page import BadPage, NoPage, Output, Tag, parse_page, read_page, tag_text

pytestmark = pytest.mark.quick

EXAMPLE = b"output 0 accepted 3 settled 2 held 1 bytes 3 chunks 1\ntag 61 held 1 bytes 3\n"

# In the second output: no byte, quotes, a backslash, a line feed, no UTF-8 twice, a tag that looks
# like what is made of such a one, a zero byte, and a letter of two bytes.
PAGE = (
    b"output 0 accepted 3 settled 2 held 1 bytes 3 chunks 1\n"
    b"tag 61 held 1 bytes 3\n"
    b"output 1 accepted 18446744073709551615 settled 18446744073709551579 "
    b"held 36 bytes 99 chunks 4\n"
    b"tag - held 1 bytes 11\n"
    b"tag 22612262 held 2 bytes 12\n"
    b"tag 615c6e62 held 3 bytes 13\n"
    b"tag 610a62 held 4 bytes 14\n"
    b"tag fffe held 5 bytes 15\n"
    b"tag c3 held 6 bytes 16\n"
    b"tag 6865783a66666665 held 7 bytes 17\n"
    b"tag 00 held 8 bytes 18\n"
    b"tag c3b6 held 0 bytes 0\n"
    b"output 2 accepted 0 settled 0 held 0 bytes 0 chunks 0\n"
)

BAD_PAGES = {
    "no end": EXAMPLE[:-1],
    "a tag of no output": b"tag 61 held 1 bytes 3\n",
    "an empty line": EXAMPLE + b"\n",
    "another line end": EXAMPLE.replace(b"\n", b"\r\n"),
    "a word too many": b"output 0 accepted 3 settled 2 held 1 bytes 3 chunks 1 tags 0\n",
    "a word too few": b"output 0 accepted 3 settled 2 held 1 bytes 3\n",
    "two spaces": b"output 0  accepted 3 settled 2 held 1 bytes 3 chunks 1\n",
    "an output left out": EXAMPLE.replace(b"output 0", b"output 1"),
    "an output twice": EXAMPLE + EXAMPLE,
    "a leading zero": EXAMPLE.replace(b"accepted 3", b"accepted 03"),
    "a sign": EXAMPLE.replace(b"accepted 3", b"accepted +3"),
    "a number of 21 digits": EXAMPLE.replace(b"accepted 3", b"accepted 1" + 20 * b"0"),
    "an odd digit": EXAMPLE.replace(b"tag 61", b"tag 616"),
    "a digit in upper case": EXAMPLE.replace(b"tag 61", b"tag 6B"),
    "no tag": EXAMPLE.replace(b"tag 61", b"tag "),
    "another text": b"<html></html>\n",
}


class Pages(unittest.TestCase):
    """What is read from a page."""

    def test_example(self):
        self.assertEqual(len(EXAMPLE), 76)
        self.assertEqual(parse_page(EXAMPLE), [Output(0, 3, 2, 1, 3, 1, [Tag(b"a", 1, 3)])])

    def test_outputs_keep_their_own_tags_in_order(self):
        tags = [[tag.name for tag in output.tags] for output in parse_page(PAGE)]
        second = [b"", b'"a"b', b"a\\nb", b"a\nb", b"\xff\xfe", b"\xc3", b"hex:fffe", b"\0"]
        self.assertEqual(tags, [[b"a"], [*second, "ö".encode()], []])

    def test_no_output(self):
        self.assertEqual(parse_page(b""), [])

    def test_bad_pages(self):
        for what, page in BAD_PAGES.items():
            with self.subTest(what), self.assertRaises(BadPage):
                parse_page(page)


class Texts(unittest.TestCase):
    """How tags are shown."""

    def test_texts_differ(self):
        tags = {b"", b"hex:", b"hex:00", b"\0", b"hex:hex:00", b"\\n", b"\n", b'"', b'\\"', b"\\"}
        tags |= {b"-", b"\xc3", b"hex:c3", b"\xc3\xa9", b"e\xcc\x81"}
        self.assertEqual(len({tag_text(tag, str.isprintable) for tag in tags}), len(tags))


class Relay(BaseHTTPRequestHandler):
    """Answers as a relay's monitor, with the page of its server."""

    def do_GET(self):
        self.send_response(200 if self.path == "/" else 404)
        self.send_header("Content-Length", str(len(self.server.page)))
        self.end_headers()
        self.wfile.write(self.server.page)

    def log_message(self, *_):
        pass


@contextmanager
def served(handler, page):
    """The address of a server of this handler, while it runs."""
    with ThreadingHTTPServer(("127.0.0.1", 0), handler) as server:
        server.page = page
        threading.Thread(target=server.serve_forever, daemon=True).start()
        try:
            yield f"http://127.0.0.1:{server.server_port}/"
        finally:
            server.shutdown()


class Served(unittest.TestCase):
    """What goes over sockets."""

    def test_page_is_read(self):
        with served(Relay, PAGE) as relay:
            self.assertEqual(read_page(relay), parse_page(PAGE))
            with self.assertRaisesRegex(NoPage, "404"):
                read_page(relay + "other")
        with self.assertRaises(NoPage):
            read_page(relay)

#!/usr/bin/env python3
"""The scripts of crates/relay_scripts/data at both sides of a limit, with the answers that must come.

    /usr/bin/python3 tests/tables/limits.py

The limits and the answers follow docs/FORMATS.md. Writes these scripts anew; the limits of a tag and of a request's value have
scripts of their own there.
"""
from pathlib import Path

DATA = Path(__file__).resolve().parents[2] / "crates" / "relay_scripts" / "data"

ACCEPT = f"accept 1 {'0' * 32} {'0' * 32}"
MESSAGE = "93a1610180"
NAME = "b8" + b"AAAAAAAAAAAAAAAAAAAAAQ==".hex()  # of the chunk with number 1 of run 0 at output 0
FRAME = "93a161c40392018082a473697a6501a56368756e6b" + NAME
ACK = "81a361636b"


def hexed(text):
    return text.encode().hex()


def script(name, *lines):
    """Lines of events, each with its answer."""
    for suffix, head, column in (("script", "---\n", 0), ("answers", "", 1)):
        (DATA / f"{name}.{suffix}").write_text(head + "".join(f"{line[column]}\n" for line in lines))


def sent(request):
    """One entry under the tag `a`, from its source's bytes to a frame that was sent whole."""
    return [
        (ACCEPT, "accepted out -"),
        (f"piece 1 {request}", "requests 1 out -"),
        ("admit 1 0 0", "admitted 1 entries 1"),
        ("flush 0 0 all", "closed 1"),
        ("up 0 0 0 - 0", "done"),
        ("take 0 0 0", "took 1 entries 1"),
        ("load 0 0 0", f"frame {FRAME}"),
        ("wrote 0 0 46", "done"),
    ]


def settled(told):
    """It is settled, and its source is told these bytes."""
    return [("collect 1 0", "told - out -"), ("settle 0 0", "settled 1"), ("collect 1 0", f"told 1 out {told}")]


def accepted(name, request):
    script(name, (ACCEPT, "accepted out -"), (f"piece 1 {request}", "requests 1 out -"))


def faulted(name, request, fault):
    """A fault closes the connection."""
    script(
        name,
        (ACCEPT, "accepted out -"),
        (f"piece 1 {request}", f"fault {fault} requests 0 out -"),
        ("piece 1 c0", "refused Closed"),
    )


def acknowledged(name, reply):
    script(name, *sent(MESSAGE), (f"heard 0 0 {reply}", "acked out -"), ("settle 0 0", "settled 1"))


def bad_reply(name, reply):
    """A fault puts the session down, and its chunk is there to be sent again."""
    script(
        name,
        *sent(MESSAGE),
        (f"heard 0 0 {reply}", "fault BadReply"),
        ("settle 0 0", "refused NotNow"),
        ("end 0 0 kept 0", "ended 1"),
    )


# ---- the value of `chunk` in an option: 256 bytes at most, as a str or as a bin
def asking(value):
    return "94a1610180" + "81a5" + hexed("chunk") + value


TEXT, BIN = "da0100" + "78" * 256, "c50100" + "78" * 256
for name, value in (("longest-chunk-value", TEXT), ("longest-chunk-value-in-a-bin", BIN)):
    script(name, *sent(asking(value)), (f"heard 0 0 {ACK}{NAME}", "acked out -"), *settled(ACK + value))
faulted("chunk-value-too-long", asking("da0101" + "78" * 257), "BadOption")
faulted("chunk-value-in-a-bin-too-long", asking("c50101" + "78" * 257), "BadOption")


# ---- a server's reply: 65,536 bytes at most, of which a map's head, the name and a key are the first 35
def reply(size):
    front = "82a361636b" + NAME + "a16b"
    left = size - len(front) // 2 - 3
    return f"{front}c5{left:04x}", "00" * left


acknowledged("longest-reply", "".join(reply(65_536)))
bad_reply("reply-too-long", "".join(reply(65_537)))
bad_reply("reply-too-long-by-its-head", reply(65_537)[0])

# ---- 64 arrays and maps one in another at most: in a reply, whose map is the first, and in a packed entry, whose array is the
# first wherever the request has it
INNER = "81a16b"  # a map of one key, whose value is what follows
acknowledged("deepest-reply", "82a361636b" + NAME + "a16b" + "91" * 62 + "90")
bad_reply("reply-too-deep", "82a361636b" + NAME + "a16b" + "91" * 63 + "90")


def packed(entry):
    return f"92a161c4{len(entry) // 2:02x}{entry}"


accepted("deepest-packed-entry", packed("9201" + INNER + "91" * 61 + "90"))
faulted("packed-entry-too-deep", packed("9201" + INNER + "91" * 62 + "90"), "BadEntry")

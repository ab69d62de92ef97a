#!/usr/bin/python3
"""The cases of data/values.txt of crates/relay_scripts: bytes, and what is to be read of them.

Run with Debian's python3-msgpack:

    /usr/bin/python3 tests/tables/vectors.py

It writes the table and its part of the program's stdout anew. The first lines are values as python3-msgpack spells them;
what is to be read of each is what the packer was given, and the head that it wrote. Behind them stand a value of every first
byte, by the table of formats of the MessagePack specification, and bytes that are no value within the limits of a source.

A line of the table is a front in hex, and where more follow, a unit of bytes and how many times it stands behind the front,
so that long values stay short in the file. A line of stdout is a kind with its number, its payload's length or its count of
members, and the shortest spelling of the head, in hex; or `short`; or the fault.
"""

import msgpack

from tables import write_table

SHORT = 40  # bytes: a longer tail of one repeated unit is written as a count
NEVER = b"\xc1"  # stands in no value, so that a payload that is read as values is found out
LONG = {1: 255, 2: 300, 4: 70_000}  # a length for each width of one


def given(value, how):
    """The kind of a value, its numbers, and its payload."""
    if value is None:
        return "nil", b""
    if isinstance(value, bool):
        return str(value).lower(), b""
    if isinstance(value, int):
        return f"int {value}", b""
    if isinstance(value, float):
        return f"float {4 if how.get('use_single_float') else 8}", b""
    if isinstance(value, str):
        return f"str {len(value.encode())}", value.encode()
    if isinstance(value, bytes) and how.get("use_bin_type", True):
        return f"bin {len(value)}", value
    if isinstance(value, bytes):
        return f"str {len(value)}", value
    if isinstance(value, list):
        return f"arr {len(value)}", b""
    if isinstance(value, dict):
        return f"map {len(value)}", b""
    kind, data = (-1, value.to_bytes()) if isinstance(value, msgpack.Timestamp) else (value.code, value.data)
    return f"ext {kind} {len(data)}", data


def head_of(words):
    """The shortest spelling of a head."""
    kind, *numbers = words.split()
    number = int(numbers[-1]) if numbers else 0
    if kind == "float":
        return {4: b"\xca", 8: b"\xcb"}[number]
    if kind == "str":
        return msgpack.packb("a" * number)[: -number or None]
    if kind == "bin":
        return msgpack.packb(b"a" * number)[: -number or None]
    if kind == "ext":
        return msgpack.packb(msgpack.ExtType(int(numbers[0]) % 128, b"a" * number))[: -number or None][:-1] + (
            int(numbers[0]).to_bytes(1, "big", signed=True)
        )
    if kind in ("arr", "map"):
        packer = msgpack.Packer()
        return packer.pack_array_header(number) if kind == "arr" else packer.pack_map_header(number)
    return msgpack.packb({"nil": None, "true": True, "false": False}.get(kind, number))


def packed(value, **how):
    words, payload = given(value, how)
    spelling = msgpack.packb(value, **how)
    assert spelling.endswith(payload)
    return words, spelling


def integers():
    edges = {0, 1, 2, 31, 32, 33, 63, 64}
    for bits in (5, 7, 8, 15, 16, 31, 32, 63):
        edges |= {2**bits - 2, 2**bits - 1, 2**bits, 2**bits + 1}
    for bits in range(1, 64):
        edges |= {2**bits - 1, 2**bits}
    edges |= {2**64 - 2, 2**64 - 1}
    for n in sorted(edges):
        yield packed(n)
        if 0 < n <= 2**63:
            yield packed(-n)


def floats():
    for x in (0.0, -0.0, 1.0, -1.5, 0.1, 3.141592653589793, 1e30, -1e-30, float("inf"), float("-inf"), float("nan")):
        yield packed(x, use_single_float=True)
        yield packed(x)
    for x in (1e300, 5e-324, 1.7976931348623157e308):
        yield packed(x)


def texts():
    for size in [*range(36), 127, 128, 254, 255, 256, 257, 300, 65535, 65536, 70000]:
        yield packed("a" * size)
        yield packed(b"\xc1" * size)
        yield packed(b"b" * size, use_bin_type=False)
    for text in ("app.web.access", "\u00e9\u4e16\u754c", "\U0001f600", "\x00\x7f", "line\n"):
        yield packed(text)
    for size in (0, 1, 31, 32, 255, 256):
        yield packed("\u00e9" * size)


def extensions():
    for size in [*range(20), 127, 255, 256, 257, 65535, 65536]:
        for kind in (0, 5, 127):
            yield packed(msgpack.ExtType(kind, b"\xff" * size))
    for seconds, nanoseconds in (
        (0, 0),
        (1, 0),
        (2**32 - 1, 0),
        (2**32, 0),
        (1, 1),
        (2**34 - 1, 999999999),
        (2**34, 1),
        (-1, 0),
    ):
        yield packed(msgpack.Timestamp(seconds, nanoseconds))


def of_pairs(pairs):
    return f"map {len(pairs)}", msgpack.Packer().pack_map_pairs(pairs)


def containers():
    for size in [*range(18), 255, 256, 65535, 65536]:
        yield packed([None] * size)
        yield of_pairs([(1, True)] * size)
    for deep in range(1, 64):
        value = []
        for _ in range(deep):
            value = [value]
        yield packed(value)
    value = {}
    for _ in range(30):
        value = {"k": value}
    yield packed(value)
    for size in (1, 2, 3, 15, 16, 17):
        yield packed([[n, str(n), {"n": n}] for n in range(size)])
        yield packed({f"key{n}": [n, -n, n / 2, b"\x00" * n] for n in range(size)})
        yield packed({n: {None: [True, False, "x" * n]} for n in range(size)})


def requests():
    record = {"method": "GET", "path": "/index.html", "code": 200, "size": 5316, "time": 0.25, "agent": None}
    time = msgpack.ExtType(0, bytes.fromhex("65000000075bcd15"))
    yield packed(["app.web.access", 1700000000, record])
    yield packed(["app.web.access", time, record, {"chunk": "cDg3YWY="}])
    yield packed(["app.web.access", [[1700000000, record], [time, {}]]])
    entries = packed([1700000000, record])[1] + packed([time, record])[1]
    yield packed(["app.web.access", entries, {"size": 2, "compressed": "text"}])
    yield packed({"ack": "cDg3YWY="})
    yield packed(["HELO", {"nonce": b"\x01" * 16, "auth": b"", "keepalive": True}])


def each_first_byte():
    """A value of every first byte, by the specification's table; where a length stands behind it, three lengths."""
    for first in range(0x80):
        yield f"int {first}", bytes([first])
    for size in range(16):
        yield f"map {size}", bytes([0x80 + size]) + b"\xc0" * (2 * size)
        yield f"arr {size}", bytes([0x90 + size]) + b"\xc0" * size
    for size in range(32):
        yield f"str {size}", bytes([0xA0 + size]) + NEVER * size
    yield "nil", b"\xc0"
    yield "false", b"\xc2"
    yield "true", b"\xc3"
    for first, size in ((0xCA, 4), (0xCB, 8)):
        yield f"float {size}", bytes([first]) + NEVER * size
    for at, width in enumerate((1, 2, 4, 8)):
        for payload in (NEVER * width, b"\x7f" + b"\xff" * (width - 1), b"\x80" + bytes(width - 1)):
            yield f"int {int.from_bytes(payload, 'big')}", bytes([0xCC + at]) + payload
            yield f"int {int.from_bytes(payload, 'big', signed=True)}", bytes([0xD0 + at]) + payload
    for at, size in enumerate((1, 2, 4, 8, 16)):
        yield f"ext -63 {size}", bytes([0xD4 + at]) + NEVER * (1 + size)
    for kind, first, each in (("bin", 0xC4, NEVER), ("ext", 0xC7, NEVER), ("str", 0xD9, NEVER)):
        for at, width in enumerate((1, 2, 4)):
            for size in (0, 1, LONG[width]):
                words, behind = (f"ext -63 {size}", NEVER) if kind == "ext" else (f"{kind} {size}", b"")
                yield words, bytes([first + at]) + size.to_bytes(width, "big") + behind + each * size
    for kind, first, each in (("arr", 0xDC, b"\xc0"), ("map", 0xDE, b"\xc0\xc0")):
        for at, width in enumerate((2, 4)):
            for size in (0, 1, LONG[width]):
                yield f"{kind} {size}", bytes([first + at]) + size.to_bytes(width, "big") + each * size
    for first in range(0xE0, 0x100):
        yield f"int {first - 256}", bytes([first])
    for kind, payload in ((127, 256), (-128, 65536)):
        width = 2 if payload < 65536 else 4
        front = bytes([0xC7 + {2: 1, 4: 2}[width]]) + payload.to_bytes(width, "big")
        yield f"ext {kind} {payload}", front + kind.to_bytes(1, "big", signed=True) + NEVER * payload


def no_values():
    """Bytes that are no value within 16,777,216 bytes and 64 containers: less than one, or the first fault."""

    def nested(arrays):
        return bytes.fromhex("93a1610181a16b") + b"\x91" * arrays + b"\x90"

    yield "short", b""
    yield "short", bytes.fromhex("db00fffffb")
    yield "too long", bytes.fromhex("db00fffffc")
    yield "map 1", nested(61)[4:]
    yield "arr 3", nested(61)
    yield "too deep", nested(62)
    yield "short", bytes.fromhex("ddffffff")
    yield "too long", bytes.fromhex("ddffffffff")
    yield "reserved", bytes.fromhex("c1")
    yield "reserved", bytes.fromhex("92c0c1")


def split(value):
    """A front, a unit and a count: front + unit * count is the value."""
    for width in (1, 2):
        unit = value[len(value) - width :]
        count = 0
        while count * width + width <= len(value) and value[len(value) - (count + 1) * width :][:width] == unit:
            count += 1
        if count * width >= SHORT:
            return value[: len(value) - count * width], unit, count
    return value, b"", 0


def line(value):
    front, unit, count = split(value)
    assert front + unit * count == value
    return f"{front.hex()} {unit.hex()} {count}" if count else front.hex()


def told(words):
    return words if words in ("short", "too long", "too deep", "reserved") else f"{words} {head_of(words).hex()}"


def main():
    values = [packed(None), packed(True), packed(False)]
    for kind in (integers, floats, texts, extensions, containers, requests, each_first_byte, no_values):
        values += kind()
    cases = {value: words for words, value in values}
    assert len(cases) == len({*values}), "bytes with two meanings"
    write_table("values.txt", map(line, cases), map(told, cases.values()))


if __name__ == "__main__":
    main()

#!/usr/bin/env python3
"""Writes calls of fwd_handshake and the answers that they must have: the table data/handshakes.txt of crates/relay_scripts,
and its part of the program's stdout.

It stands on Python's hashlib alone: the MessagePack spelling and the verdicts below are its own, written from the Forward
Protocol Specification v1 ("Handshake Messages") and the MessagePack specification.

A line is words with a space between them; bytes are lower-case hexadecimal digits, or `-` for none.

    helo HOST USERS NONCE AUTH                        answer: HELO
    ping HOST KEY USERS NONCE AUTH VALUE              answer: pass PONG, key PONG, user PONG or not_ping
    answer HOST KEY NAME PASSWORD SALT VALUE          answer: keep NONCE PING, close NONCE PING or not_helo
    pong KEY SALT NONCE VALUE                         answer: pass, denied, bad_digest or not_pong

USERS is NAME:PASSWORD joined by commas, or `-`. KEY is `none` where no key is set.
"""
import hashlib

from tables import write_table


class Bin(bytes):
    """Bytes that are spelled as a bin."""


class Pairs(list):
    """The pairs of a map, of which keys may stand twice."""


class Raw(bytes):
    """Bytes that stand as they are."""


def sized(small, wide, size, rows):
    """A head by its size: small where it fits the first byte, else the first row that is wide enough."""
    if small is not None and size < wide:
        return bytes([small + size])
    for first, width in rows:
        if size < 256**width:
            return bytes([first]) + size.to_bytes(width, "big")
    raise ValueError(size)


def pack(value):
    """The shortest spelling of a value."""
    if value is None:
        return b"\xc0"
    if isinstance(value, bool):
        return b"\xc3" if value else b"\xc2"
    if isinstance(value, int):
        return sized(0, 128, value, [(0xCC, 1), (0xCD, 2), (0xCE, 4), (0xCF, 8)])
    if isinstance(value, Raw):
        return bytes(value)
    if isinstance(value, Bin):
        return sized(None, 0, len(value), [(0xC4, 1), (0xC5, 2), (0xC6, 4)]) + bytes(value)
    if isinstance(value, str):
        value = value.encode()
    if isinstance(value, bytes):
        return sized(0xA0, 32, len(value), [(0xD9, 1), (0xDA, 2), (0xDB, 4)]) + value
    if isinstance(value, Pairs):
        return sized(0x80, 16, len(value), [(0xDE, 2), (0xDF, 4)]) + b"".join(pack(k) + pack(v) for k, v in value)
    return sized(0x90, 16, len(value), [(0xDC, 2), (0xDD, 4)]) + b"".join(map(pack, value))


def digest(*parts):
    return hashlib.sha512(b"".join(parts)).hexdigest().encode()


def words(*parts):
    return " ".join(part if isinstance(part, str) else bytes(part).hex() or "-" for part in parts)


def users_word(users):
    return ",".join(f"{name.hex() or '-'}:{password.hex() or '-'}" for name, password in users) or "-"


def key_word(key):
    return "none" if key is None else key


KEY, HOST, NONCE, SALT = b"the lazy dog", b"brown", b" fox jumps over ", b"The quick "
AUTH = bytes(range(16))
KIM, LEE, KIM_TOO = (b"kim", b"first"), (b"lee", b"second"), (b"kim", b"third")
CALLS, ANSWERS = [], []


def helo(host, users, nonce, auth):
    value = ["HELO", Pairs([("nonce", Bin(nonce)), ("auth", Bin(auth) if users else ""), ("keepalive", True)])]
    CALLS.append(words("helo", host, users_word(users), nonce, auth))
    ANSWERS.append(words(pack(value)))


def ping(verdict, value, salt=SALT, host=HOST, key=KEY, users=(), nonce=NONCE, auth=AUTH):
    pong = {
        "pass": lambda: pack(["PONG", True, "", host, digest(salt, host, nonce, key)]),
        "key": lambda: pack(["PONG", False, "shared_key mismatch", "", ""]),
        "user": lambda: pack(["PONG", False, "username/password mismatch", "", ""]),
        "not_ping": lambda: b"",
    }[verdict]()
    value = value if isinstance(value, bytes) else pack(value)
    CALLS.append(words("ping", host, key_word(key), users_word(users), nonce, auth, value))
    ANSWERS.append(words(verdict, pong) if pong else verdict)


def proof(host, salt=SALT, nonce=NONCE, key=KEY):
    return digest(salt, host, nonce, key)


def answer(verdict, value, nonce=NONCE, auth=b"", host=b"client", key=KEY, name=b"kim", password=b"first", salt=SALT):
    who, secret = (name, digest(auth, name, password)) if auth else (b"", b"")
    text = pack(["PING", host, salt, digest(salt, host, nonce, key or b""), who, secret])
    value = value if isinstance(value, bytes) else pack(value)
    CALLS.append(words("answer", host, key_word(key), name, password, salt, value))
    ANSWERS.append(verdict if verdict == "not_helo" else words(verdict, nonce, text))


def pong(verdict, value, key=KEY, salt=SALT, nonce=NONCE):
    value = value if isinstance(value, bytes) else pack(value)
    CALLS.append(words("pong", key_word(key), salt, nonce, value))
    ANSWERS.append(verdict)


def helos():
    helo(HOST, [], NONCE, bytes(16))
    helo(HOST, [KIM], NONCE, AUTH)
    helo(b"x" * 255, [KIM, LEE, KIM_TOO], bytes(16), bytes([255] * 16))
    helo(b"", [], bytes(range(240, 256)), AUTH)


def pings_without_users():
    host, long = b"client", b"h" * 255
    good = proof(host)
    ping("pass", ["PING", host, SALT, good, "", ""])
    ping("pass", ["PING", host, SALT, good, "kim", "anything"])
    ping("pass", ["PING", host, SALT, good, None, 7])
    ping("pass", ["PING", host, SALT, good, [1, 2], Pairs([("a", 1)])])
    ping("pass", ["PING", Bin(host), Bin(SALT), Bin(good), "", ""])
    ping("pass", ["PING", Raw(b"\xda\x00\x06client"), SALT, good, "", ""])
    ping("pass", [Raw(b"\xd9\x04PING"), host, SALT, good, "", ""])
    ping("pass", Raw(b"\xdc\x00\x06" + pack(["PING", host, SALT, good, "", ""])[1:]))
    ping("pass", ["PING", long, SALT, proof(long), "", ""])
    ping("pass", ["PING", host, SALT, good, "", ""], host=b"s" * 255)
    ping("pass", ["PING", b"", b"", proof(b"", b""), "", ""], salt=b"")
    ping("pass", ["PING", host, b"\x00\xff", proof(host, b"\x00\xff"), "", ""], salt=b"\x00\xff")
    ping("pass", ["PING", host, SALT, proof(host, key=b"k" * 1024), "", ""], key=b"k" * 1024)
    ping("pass", ["PING", host, SALT, proof(host, key=b""), "", ""], key=b"")
    ping("key", ["PING", host, SALT, good.upper(), "", ""])
    ping("key", ["PING", host, SALT, good[:-1], "", ""])
    ping("key", ["PING", host, SALT, good + b"0", "", ""])
    ping("key", ["PING", host, SALT, b"", "", ""])
    ping("key", ["PING", host, SALT, hashlib.sha512(SALT + host + NONCE + KEY).digest(), "", ""])
    ping("key", ["PING", host, SALT, proof(host, key=b"another key"), "", ""])
    ping("key", ["PING", host, SALT, proof(host, nonce=bytes(16)), "", ""])
    ping("key", ["PING", host, SALT, proof(HOST), "", ""])
    ping("key", ["PING", host, SALT, digest(host, SALT, NONCE, KEY), "", ""])
    ping("key", ["PING", host, SALT, digest(SALT, host, KEY, NONCE), "", ""])
    ping("key", ["PING", host, SALT, good, "", ""], key=None)
    ping("key", ["PING", host, SALT, proof(host, key=b""), "", ""], key=None)


def pings_with_users():
    host = b"client"
    good = proof(host)

    def says(verdict, name, secret, users=(KIM, LEE, KIM_TOO), first=good):
        ping(verdict, ["PING", host, SALT, first, name, secret], users=users)

    for name, password in (KIM, LEE, KIM_TOO):
        says("pass", name, digest(AUTH, name, password))
    says("pass", Bin(b"lee"), Bin(digest(AUTH, b"lee", b"second")))
    says("user", b"kim", digest(AUTH, b"kim", b"second"))
    says("user", b"lee", digest(AUTH, b"lee", b"first"))
    says("user", b"kim", digest(AUTH, b"lee", b"second"))
    says("user", b"lee", digest(AUTH, b"kim", b"first"))
    says("user", b"kim", digest(AUTH, b"kim", b"first").upper())
    says("user", b"KIM", digest(AUTH, b"KIM", b"first"))
    says("user", b"kim", digest(NONCE, b"kim", b"first"))
    says("user", b"kim", digest(AUTH, b"first", b"kim"))
    says("user", b"kim", b"first")
    says("user", b"", b"")
    says("user", b"nobody", digest(AUTH, b"nobody", b""))
    says("key", b"kim", digest(AUTH, b"kim", b"first"), first=proof(host, key=b"no"))
    says("key", b"", b"", first=proof(host, key=b"no"))
    says("not_ping", None, digest(AUTH, b"kim", b"first"))
    says("not_ping", b"kim", 7)
    says("not_ping", None, None, first=proof(host, key=b"no"))
    name, password = b"n" * 255, b"p" * 255
    says("pass", name, digest(AUTH, name, password), users=((name, password),))
    says("pass", b"kim", digest(AUTH, b"kim", b""), users=((b"kim", b""),))


def no_pings():
    host = b"client"
    good = proof(host)
    ping("not_ping", [Bin(b"PING"), host, SALT, good, "", ""])
    ping("not_ping", ["PONG", host, SALT, good, "", ""])
    ping("not_ping", ["ping", host, SALT, good, "", ""])
    ping("not_ping", ["PING", host, SALT, good, ""])
    ping("not_ping", ["PING", host, SALT, good, "", "", ""])
    ping("not_ping", ["PING", 5, SALT, good, "", ""])
    ping("not_ping", ["PING", host, None, good, "", ""])
    ping("not_ping", ["PING", host, SALT, [good], "", ""])
    ping("not_ping", [])
    ping("not_ping", "PING")
    ping("not_ping", Pairs([("PING", host)]))
    ping("not_ping", Raw(bytes.fromhex("93a1610180")))


def answers():
    nonce, auth = ("nonce", Bin(NONCE)), ("auth", Bin(AUTH))
    answer("keep", ["HELO", Pairs([nonce, ("auth", ""), ("keepalive", True)])])
    answer("close", ["HELO", Pairs([nonce, ("auth", ""), ("keepalive", False)])])
    answer("keep", ["HELO", Pairs([nonce, auth, ("keepalive", True)])], auth=AUTH)
    answer("keep", ["HELO", Pairs([nonce])])
    answer("keep", ["HELO", Pairs([nonce, auth])], auth=AUTH)
    answer("close", ["HELO", Pairs([("keepalive", False), nonce])])
    answer("keep", ["HELO", Pairs([nonce, ("auth", None), ("keepalive", None)])])
    answer("keep", ["HELO", Pairs([nonce, ("auth", 7), ("keepalive", 0)])])
    answer("keep", ["HELO", Pairs([("nonce", NONCE), ("auth", AUTH), ("keepalive", "false")])], auth=AUTH)
    answer("keep", ["HELO", Pairs([(Bin(b"nonce"), Bin(NONCE)), (Bin(b"auth"), Bin(AUTH))])], auth=AUTH)
    answer("close", ["HELO", Pairs([(1, 2), nonce, ("nonces", "x"), (None, "y"), ("keepalive", False)])])
    answer("keep", ["HELO", Pairs([("nonce", "old"), nonce])])
    answer("keep", ["HELO", Pairs([("nonce", 3), nonce])])
    answer("keep", ["HELO", Pairs([nonce, auth, ("auth", "")])])
    answer("keep", ["HELO", Pairs([nonce, auth, ("auth", None)])])
    answer("keep", ["HELO", Pairs([nonce, ("keepalive", False), ("keepalive", True)])])
    answer("keep", ["HELO", Pairs([nonce, ("keepalive", False), ("keepalive", None)])])
    answer("keep", ["HELO", Pairs([("nonce", "")])], nonce=b"")
    answer("keep", ["HELO", Pairs([("nonce", b"n" * 300)])], nonce=b"n" * 300)
    answer("keep", ["HELO", Pairs([nonce, auth])], auth=AUTH, host=b"h" * 255, name=b"n" * 255, password=b"p" * 255)
    answer("keep", ["HELO", Pairs([nonce, auth])], auth=AUTH, name=b"", password=b"")
    answer("keep", ["HELO", Pairs([nonce])], salt=b"", host=b"")
    answer("keep", ["HELO", Pairs([nonce])], salt=b"5" * 32, key=b"k" * 1024)
    answer("not_helo", ["HELO", Pairs([nonce])], key=None)
    answer("not_helo", ["HELO", Pairs([nonce, ("nonce", 3)])])
    answer("not_helo", ["HELO", Pairs([auth, ("keepalive", True)])])
    answer("not_helo", ["HELO", Pairs([])])
    answer("not_helo", ["HELO", None])
    answer("not_helo", ["HELO", [b"nonce", NONCE]])
    answer("not_helo", ["HELO", Pairs([nonce]), None])
    answer("not_helo", ["HELO"])
    answer("not_helo", [Bin(b"HELO"), Pairs([nonce])])
    answer("not_helo", ["HELLO", Pairs([nonce])])
    answer("not_helo", Pairs([nonce]))


def pongs():
    good = proof(HOST)
    pong("pass", ["PONG", True, "", HOST, good])
    pong("pass", ["PONG", True, "welcome", Bin(HOST), Bin(good)])
    pong("pass", ["PONG", True, Bin(b""), b"s" * 255, proof(b"s" * 255)])
    pong("pass", ["PONG", True, "", b"", proof(b"")])
    pong("bad_digest", ["PONG", True, "", HOST, good.upper()])
    pong("bad_digest", ["PONG", True, "", HOST, proof(b"client")])
    pong("bad_digest", ["PONG", True, "", HOST, proof(HOST, nonce=bytes(16))])
    pong("bad_digest", ["PONG", True, "", HOST, proof(HOST, salt=b"other")])
    pong("bad_digest", ["PONG", True, "", HOST, proof(HOST, key=b"other")])
    pong("bad_digest", ["PONG", True, "", "", ""])
    pong("bad_digest", ["PONG", True, "", HOST, good], key=None)
    pong("bad_digest", ["PONG", True, "", HOST, proof(HOST, key=b"")], key=None)
    pong("denied", ["PONG", False, "shared_key mismatch", "", ""])
    pong("denied", ["PONG", False, "", HOST, good])
    pong("denied", ["PONG", False, None, 1, [2]])
    pong("not_pong", ["PONG", None, "", HOST, good])
    pong("not_pong", ["PONG", 1, "", HOST, good])
    pong("not_pong", ["PONG", True, None, HOST, good])
    pong("not_pong", ["PONG", True, "", 1, good])
    pong("not_pong", ["PONG", True, "", HOST, None])
    pong("not_pong", ["PONG", False, "", ""])
    pong("not_pong", ["PONG", False, "", "", "", ""])
    pong("not_pong", [Bin(b"PONG"), True, "", HOST, good])
    pong("not_pong", ["PING", True, "", HOST, good])
    pong("not_pong", None)


def worked():
    """The worked handshake, whose digested text is the sentence of the fox, and digests of the text `abc`, by their
    bytes: nothing here is computed."""
    found = (
        "07e547d9586f6a73f73fbac0435ed76951218fb7d0c8d788a309d785436bbb64"
        "2e93a252a954f23912547d1e8a3b5ed6e1bfd7097821233fa0538f3db854fee6"
    ).encode()
    # the SHA-512 of `abc`, from FIPS 180-4's examples
    abc = (
        "ddaf35a193617abacc417349ae20413112e6fa4e89a97ea20a9eeee64b55d39a"
        "2192992a274fc1a836ba3c23a3feebbd454d4423643ce80e2a9ac94fa54ca49f"
    ).encode()
    hello = "92a448454c4f83a56e6f6e6365c410" + NONCE.hex() + "a461757468a0a96b656570616c697665"
    ping_of = lambda text, end: "96a450494e47a562726f776eaa" + SALT.hex() + "d980" + text.hex() + end
    pong_of = "95a4504f4e47c3a0a562726f776ed980" + found.hex()
    denial = "95a4504f4e47c2b37368617265645f6b6579206d69736d61746368a0a0"
    no_user = "95a4504f4e47c2ba757365726e616d652f70617373776f7264206d69736d61746368a0a0"
    brown, key, nonce, auth, salt = HOST.hex(), KEY.hex(), NONCE.hex(), "00" * 16, SALT.hex()
    other = b"1" + found[1:]
    for call, told in (
        (f"helo {brown} - {nonce} {auth}", hello + "c3"),
        (f"helo {brown} 75:70 {nonce} {auth}", hello.replace("a0a96b", "c410" + auth + "a96b") + "c3"),
        (f"ping {brown} {key} - {nonce} {auth} {ping_of(found, 'a0a0')}", "pass " + pong_of),
        (f"ping {brown} {key} - {nonce} {auth} {ping_of(other, 'a0a0')}", "key " + denial),
        (f"ping {brown} {key} 75:70 {nonce} {auth} {ping_of(found, 'a175a178')}", "user " + no_user),
        (f"ping {brown} {key} - {nonce} {auth} 93a1610180", "not_ping"),
        (f"answer {brown} {key} - - {salt} {hello}c3", f"keep {nonce} {ping_of(found, 'a0a0')}"),
        (f"answer {brown} {key} - - {salt} {hello}c2", f"close {nonce} {ping_of(found, 'a0a0')}"),
        (f"answer {brown} none 75 70 {salt} {hello}c3", "not_helo"),
        (f"pong {key} {salt} {nonce} {pong_of}", "pass"),
        (f"pong {key} {salt} {nonce} {denial}", "denied"),
        (f"pong {key} {salt} {nonce} {hello}c3", "not_pong"),
        (f"pong none {salt} {nonce} {pong_of}", "bad_digest"),
        (f"pong 63 61 - 95a4504f4e47c3a0a162d980{abc.hex()}", "pass"),
        (
            f"answer {brown} {key} 62 63 {salt} {hello.replace('a0a96b', 'a161a96b')}c3",
            f"keep {nonce} {ping_of(found, 'a162d980' + abc.hex())}",
        ),
    ):
        CALLS.append(call)
        ANSWERS.append(told)


worked()
helos()
pings_without_users()
pings_with_users()
no_pings()
answers()
pongs()
write_table("handshakes.txt", CALLS, ANSWERS)

#!/usr/bin/env python3
"""The cases of data/settings.txt of crates/relay_scripts: texts of settings, and what is to be told
of each.

Each key is absent, of another kind, at both ends of its range, one below and one above, and beside
an unknown key; then tables, lists, and the order in which faults are told. What is told follows
docs/FORMATS.md, "Settings". Writes the table and its part of the program's stdout anew.
"""
from tables import write_table

MATCH = '[[output]]\nmatch = "**"\n'
SERVER = '[[output.server]]\naddress = "127.0.0.1:1"\n'
KEY = 'shared_key = "k"\n'
USER = '[[relay.user]]\nname = "n"\npassword = "p"\n'

# a text that lacks some lines, and how the keys in them are told
FRAMES = {
    "relay": ("[relay]\n{}\n" + MATCH + SERVER, "relay."),
    "keyed": ("[relay]\n" + KEY + "{}\n" + MATCH + SERVER, "relay."),
    "unnamed": ("[relay]\n" + KEY + USER + '[[relay.user]]\npassword = "p"\n{}\n' + MATCH + SERVER, "relay.user[1]."),
    "named": ("[relay]\n" + KEY + USER + '[[relay.user]]\nname = "n"\n{}\n' + MATCH + SERVER, "relay.user[1]."),
    "output": (MATCH + "{}\n" + SERVER, "output[0]."),
    "unmatched": ("[[output]]\n{}\n" + SERVER, "output[0]."),
    "unserved": (MATCH + "{}\n", "output[0]."),
    "second": (MATCH + SERVER + SERVER + "{}\n", "output[0].server[1]."),
    "unreached": (MATCH + SERVER + "[[output.server]]\n{}\n", "output[0].server[1]."),
}

cases = []


def text(whole, told, end="---"):
    cases.append((whole, told, end))


def sets(whole, relay, *outputs):
    """Good settings, and what each key is set to."""
    told = [f"relay.{key} {what}" for key, what in relay.items()]
    for place, output in enumerate(outputs):
        told += [f"output[{place}].{key} {what}" for key, what in output.items()]
    text(whole, "\n".join(told), "===")


def lines(frame, some, told):
    text(FRAMES[frame][0].replace("{}", some), told)


def value(frame, key, what, flaw):
    told = flaw if flaw == "good" else f"{flaw} {FRAMES[frame][1]}{key}"
    lines(frame, f"{key} = {what}", told)


def values(frame, key, some, flaw):
    for what in some:
        value(frame, key, what, flaw)


def beside(frame, key, good, other_kind):
    lines(frame, f"zz = 1\n{key} = {good}", f"unknown {FRAMES[frame][1]}zz")
    lines(frame, f"zz = 1\n{key} = {other_kind}", f"wrong kind {FRAMES[frame][1]}{key}")


for frame, told in [
    ("relay", "good"),
    ("keyed", "good"),
    ("output", "good"),
    ("second", "good"),
    ("unnamed", "missing relay.user[1].name"),
    ("named", "missing relay.user[1].password"),
    ("unmatched", "missing output[0].match"),
    ("unserved", "missing output[0].server"),
    ("unreached", "missing output[0].server[1].address"),
]:
    lines(frame, "", told)

# ---- addresses
for frame, key in [("relay", "listen"), ("relay", "monitor"), ("unreached", "address")]:
    values(frame, key, ["1", "1.5", "true", "[]", "{}"], "wrong kind")
    values(
        frame,
        key,
        [
            f'"{a}"'
            for a in ["127.0.0.1:1", "127.0.0.1:65535", "[::1]:1", "[::1]:65535", "0.0.0.0:1", "255.255.255.255:1"]
        ],
        "good",
    )
    values(
        frame,
        key,
        [
            f'"{a}"'
            for a in [
                "127.0.0.1:0",
                "127.0.0.1:65536",
                "[::1]:0",
                "[::1]:65536",
                "256.0.0.1:1",
                "127.0.0.1",
                "127.0.0.1:",
                "127.0.0.1:1 ",
                "[127.0.0.1]:1",
                "localhost:1",
                "::1:1",
                "[::1]",
                "[fe80::1%1]:1",
                "[fe80::1%0]:1",
                "",
            ]
        ],
        "out of range",
    )

# ---- paths of Unix sockets, whose lengths count bytes
values(
    "relay", "listen", [f'"unix:{p}"' for p in ["/a", "/" + "a" * 106, "/" + "\u00e9" * 53, "/run/a b:1", "//"]], "good"
)
values(
    "relay",
    "listen",
    [
        f'"{a}"'
        for a in [
            "unix:",
            "unix:/",
            "unix:a",
            "unix:./a",
            "unix: /a",
            "unix::/a",
            " unix:/a",
            "UNIX:/a",
            "unix",
            "unix/a",
            "tcp:/a",
            "/a",
            "unix:///a\\u0000",
            "unix:/" + "a" * 107,
            "unix:/a" + "\u00e9" * 53,
        ]
    ],
    "out of range",
)
for frame, key in [("relay", "monitor"), ("unreached", "address")]:
    value(frame, key, '"unix:/a"', "out of range")

# ---- texts, whose lengths count bytes
for frame, key, empty in [
    ("relay", "hostname", "out of range"),
    ("unnamed", "name", "out of range"),
    ("named", "password", "out of range"),
    ("output", "hostname", "out of range"),
    ("output", "username", "good"),
    ("output", "password", "good"),
]:
    for part, times, flaw in [
        ("a", 0, empty),
        ("a", 1, "good"),
        ("a", 255, "good"),
        ("a", 256, "out of range"),
        ("\u00e9", 127, "good"),
        ("\u00e9", 128, "out of range"),
    ]:
        value(frame, key, f'"{part * times}"', flaw)
    values(frame, key, ["1", "0.5", "false", "[]", "{}"], "wrong kind")
for part, times, flaw in [
    ("a", 0, "out of range"),
    ("a", 1, "good"),
    ("a", 107, "good"),
    ("a", 108, "out of range"),
    ("\u00e9", 53, "good"),
    ("\u00e9", 54, "out of range"),
]:
    value("relay", "control", f'"{part * times}"', flaw)
values("relay", "control", ["1", "0.5", "false", "[]", "{}"], "wrong kind")
for frame in ["relay", "output"]:
    for part, times, flaw in [
        ("a", 0, "out of range"),
        ("a", 1, "good"),
        ("a", 1024, "good"),
        ("a", 1025, "out of range"),
        ("\u00e9", 512, "good"),
        ("\u00e9", 513, "out of range"),
    ]:
        value(frame, "shared_key", f'"{part * times}"', flaw)
    values(frame, "shared_key", ["1", "0.5", "false", "[]", "{}"], "wrong kind")

# ---- users
USERS = '[{ name = "n", password = "p" }]'
for frame in ["relay", "keyed"]:
    values(frame, "user", ["1", "true", '"a"', "{}"], "wrong kind")
values("relay", "user", ["[]", USERS, "[1]", "[{}]"], "out of range")
value("keyed", "user", "[]", "out of range")
value("keyed", "user", USERS, "good")
lines("keyed", "user = [1]", "wrong kind relay.user[0]")
lines("keyed", "user = [{}]", "missing relay.user[0].name")
lines("keyed", 'user = [{ name = "n" }, 1]', "missing relay.user[0].password")
lines("keyed", 'user = [{ name = "n", password = "p" }, []]', "wrong kind relay.user[1]")

# ---- hexadecimal digits
for key, count in [("run_id", 12), ("seed", 64)]:
    for times in [0, count - 2, count - 1, count + 1, count + 2]:
        value("relay", key, f'"{"0" * times}"', "out of range")
    values("relay", key, [f'"{d * count}"' for d in "09afAF"], "good")
    values("relay", key, [f'"{d * count}"' for d in "/:@G`g "], "out of range")
    values("relay", key, ["123456789012", "1.0", "true", "[]", "{}"], "wrong kind")
value("relay", "seed", f'"{"0" * 12}"', "out of range")

# ---- numbers: one below the range, at its ends, and one above
for frame, key, least, most in [
    ("relay", "connections", 1, 1024),
    ("relay", "message_limit", 1024, 67108864),
    ("relay", "depth", 8, 128),
    ("relay", "readers", 1, 16),
    ("relay", "idle_limit", 1, 86400000),
    ("relay", "stop_wait", 1, 86400000),
    ("output", "workers", 1, 16),
    ("output", "chunk_limit", 1, 16000000),
    ("output", "total_limit", 1, 1000000000000),
    ("output", "flush_interval", 0, 86400000),
    ("output", "retry_wait", 1, 86400000),
    ("output", "retry_max", 1000, 86400000),
    ("output", "ack_wait", 1, 86400000),
    ("output", "window", 1, 8),
]:
    value(frame, key, least - 1, "out of range")
    value(frame, key, least, "good")
    value(frame, key, most, "good")
    value(frame, key, most + 1, "out of range")
    values(frame, key, ["-1", "9223372036854775807", "-9223372036854775808"], "out of range")
    values(frame, key, ['"1"', "1.0", "true", "[1]", "{}", "1979-05-27"], "wrong kind")
SHORTER = "out of range output[0].retry_max"
lines("output", "retry_wait = 500\nretry_max = 400", SHORTER)
lines("output", "retry_wait = 500\nretry_max = 499", SHORTER)
lines("output", "retry_wait = 500\nretry_max = 500", "good")
lines("output", "retry_wait = 60001", "good")
lines("output", "retry_wait = 60001\nretry_max = 60000", SHORTER)
lines("output", "retry_wait = 86400000\nretry_max = 86400000", "good")
lines("output", "retry_wait = 86400000\nretry_max = 86399999", SHORTER)

# ---- flags, words and patterns
values("relay", "metrics", ["true", "false"], "good")
values("relay", "metrics", ["1", "0.0", '"true"', "[true]", "{}"], "wrong kind")
values("second", "standby", ["true", "false"], "good")
values("second", "standby", ["1", "0.0", '"true"', "[true]", "{}"], "wrong kind")
values("output", "full", ['"close"', '"wait"', "'wait'"], "good")
values("output", "full", ['""', '"clos"', '"closed"', '"Wait"', '"wait "'], "out of range")
values("output", "full", ["1", "0.0", "true", '["wait"]', "{}"], "wrong kind")
values("unmatched", "match", ["1", "0.5", "true", '["a"]', "{}"], "wrong kind")
SIX = "{a,b}" * 6
values("unmatched", "match", ['"a"', '"{a,b}.c x"', f'"{SIX}"'], "good")
values("unmatched", "match", ['""', '" "', '"a{b"', '"a*"', f'"{SIX} x"'], "bad pattern")

# ---- servers
values("unserved", "server", ["1", "true", '"127.0.0.1:1"', "{}"], "wrong kind")
value("unserved", "server", "[]", "out of range")
value("unserved", "server", '[{ address = "127.0.0.1:1" }]', "good")

# ---- unknown keys, which are told only where the key beside them has no flaw
ADDRESS = '"127.0.0.1:1"'
for frame, key, good, other_kind in [
    ("relay", "listen", ADDRESS, "1"),
    ("relay", "monitor", ADDRESS, "1"),
    ("relay", "hostname", '"a"', "1"),
    ("relay", "run_id", f'"{"0" * 12}"', "1"),
    ("relay", "seed", f'"{"0" * 64}"', "1"),
    ("relay", "connections", "1", '""'),
    ("relay", "message_limit", "1024", '""'),
    ("relay", "depth", "8", '""'),
    ("relay", "readers", "4", "4.0"),
    ("relay", "shared_key", '"k"', "1"),
    ("keyed", "user", USERS, "1"),
    ("relay", "metrics", "true", "1"),
    ("relay", "idle_limit", "600000", '"10 min"'),
    ("relay", "control", '"a"', "1"),
    ("relay", "stop_wait", "1000", '"1 s"'),
    ("unnamed", "name", '"n"', "1"),
    ("named", "password", '"p"', "1"),
    ("unmatched", "match", '"a"', "1"),
    ("output", "workers", "1", '""'),
    ("output", "chunk_limit", "1", '""'),
    ("output", "total_limit", "1", '""'),
    ("output", "flush_interval", "1", '""'),
    ("output", "retry_wait", "1", '""'),
    ("output", "ack_wait", "1", '""'),
    ("output", "retry_max", "1000", '""'),
    ("output", "window", "1", '""'),
    ("output", "full", '"wait"', "1"),
    ("output", "hostname", '"a"', "1"),
    ("output", "shared_key", '"k"', "1"),
    ("output", "username", '"a"', "1"),
    ("output", "password", '"a"', "1"),
    ("unserved", "server", '[{ address = "127.0.0.1:1" }]', "1"),
    ("unreached", "address", ADDRESS, "1"),
    ("second", "standby", "true", "1"),
]:
    beside(frame, key, good, other_kind)
for frame, keys in [
    ("relay", ["Listen", "match", "output", "username", "users"]),
    ("output", ["connections", "message_limit", "depth", "shared", "tag", "address"]),
    ("second", ["port", "match", "Standby"]),
]:
    for key in keys:
        value(frame, key, "1", "unknown")
text("zz = 1\n" + MATCH + SERVER, "unknown zz")
text(MATCH + SERVER + "[zz]\n", "unknown zz")
text("zz = 1", "missing output")
text("zz = 1\noutput = 1", "wrong kind output")
text("zz = 1\noutput = []", "out of range output")
text("zz = 1\nrelay = 1", "wrong kind relay")
text("zz = 1\n[relay]\nseed = 1", "wrong kind relay.seed")

# ---- the least of them, by all its bytes
for front, relay, output, server, told in [
    ("b = 1\na = 1", "", "", "", "unknown a"),
    ("", "z = 1\nb = 1", "", "", "unknown relay.b"),
    ("z = 1", "b = 1", "c = 1", "d = 1", "unknown output[0].c"),
    ("z = 1", "b = 1", "z = 1", "a = 1", "unknown output[0].server[0].a"),
    ("o = 1", "b = 1", "c = 1", "d = 1", "unknown o"),
    ("", 'shared_key = "k"\nuser = [{ name = "n", password = "p", b = 1 }]', "", "", "unknown relay.user[0].b"),
    ("z = { a = 1 }", "", "", "", "unknown z"),
    ('"" = 1', "", "", "", "unknown "),
]:
    text(f"{front}\n[relay]\n{relay}\n{MATCH}{output}\n{SERVER}{server}\n", told)
LAST = '[[output]]\nmatch = "a"\nz = 1\n[[output.server]]\naddress = "1.2.3.4:5"\n'
TEN = (MATCH + SERVER) * 10 + LAST
text(TEN, "unknown output[10].z")
text('[[output]]\nmatch = "a"\nb = 1\n' + SERVER + TEN, "unknown output[0].b")
text(MATCH + SERVER + MATCH + "b = 1\n" + SERVER + TEN, "unknown output[12].z")

# ---- tables and lists
ONE = '[[output]]\nmatch = "a"\n'
AT = '[[output.server]]\naddress = "1.2.3.4:5"\n'
for whole, told in [
    ("", "missing output"),
    ("[relay]", "missing output"),
    ("output = []", "out of range output"),
    ("output = 1", "wrong kind output"),
    ('[output]\nmatch = "a"', "wrong kind output"),
    ("output = [1]", "wrong kind output[0]"),
    ("output = [[]]", "wrong kind output[0]"),
    ("relay = 1\noutput = []", "wrong kind relay"),
    ("[[relay]]\n[[output]]", "wrong kind relay"),
    (ONE, "missing output[0].server"),
    (ONE + "server = []", "out of range output[0].server"),
    (ONE + "server = true", "wrong kind output[0].server"),
    (ONE + "[output.server]", "wrong kind output[0].server"),
    (ONE + 'server = ["b"]', "wrong kind output[0].server[0]"),
    (ONE + AT + "standby = true", "out of range output[0].server"),
    (ONE + AT + "standby = true\n[[output.server]]\nstandby = true", "out of range output[0].server"),
    (ONE + '[[output.server]]\naddress = "1.2.3.4"\nstandby = true', "out of range output[0].server"),
    (ONE + '[[output.server]]\naddress = "1.2.3.4"\nstandby = true\n' + AT, "out of range output[0].server[0].address"),
    (ONE + AT + "standby = true\n" + AT + 'standby = "true"', "wrong kind output[0].server[1].standby"),
    ("[monitor]\n[[output]]", "missing output[0].match"),
    ("a = ", "not toml"),
    ("a = 1\na = 2", "not toml"),
    ((MATCH + SERVER) * 64, "good"),
    ((MATCH + SERVER) * 65, "out of range output"),
    (MATCH + SERVER * 16, "good"),
    (MATCH + SERVER * 17, "out of range output[0].server"),
    (MATCH * 65, "out of range output"),
]:
    text(whole, told)

# ---- the most arrays and inline tables in one another, and the most parts of a key
for count, told in [(80, "unknown zz"), (81, "not toml")]:
    text("zz = " + "[" * count + "]" * count + "\n" + MATCH + SERVER, told)
    text("zz = " + "{ a = " * count + "1" + " }" * count + "\n" + MATCH + SERVER, told)
    text("zz" + ".a" * (count - 1) + " = 1\n" + MATCH + SERVER, told)

# ---- a byte order mark is passed over where the text begins with it
BOM = "\ufeff"
text(BOM + MATCH + SERVER, "good")
text(BOM, "missing output")
text(BOM + BOM + MATCH + SERVER, "not toml")
text(MATCH + BOM + SERVER, "not toml")

# ---- of several faults the first is told, in the order of the table of keys
for whole, told in [
    ("[relay]\nmonitor = 1\nlisten = 1", "wrong kind relay.listen"),
    ("[relay]\nconnections = 0\nseed = 1\nrun_id = 1\nhostname = 1\nmonitor = 1", "wrong kind relay.monitor"),
    ("[relay]\nconnections = 0", "out of range relay.connections"),
    ("[relay]\nrun_id = 1\nshared_key = 1\nuser = 1", "wrong kind relay.shared_key"),
    ("[relay]\nconnections = 0\nuser = 1", "out of range relay.connections"),
    ("[relay]\nuser = 1\ndepth = 129\nmessage_limit = 1\nconnections = 0", "out of range relay.connections"),
    ("[relay]\nuser = 1\ndepth = 129\nmessage_limit = 1", "out of range relay.message_limit"),
    ("[relay]\nuser = 1\ndepth = 129", "out of range relay.depth"),
    ('[relay]\nmetrics = 1\nshared_key = "k"\nuser = [{ name = "" }]', "out of range relay.user[0].name"),
    ("[relay]\nidle_limit = 0\nmetrics = 1\n[[output]]", "wrong kind relay.metrics"),
    ("[relay]\nidle_limit = 0\n[[output]]", "out of range relay.idle_limit"),
    ("[relay]\nstop_wait = 0\ncontrol = 1\nidle_limit = 0", "out of range relay.idle_limit"),
    ("[relay]\nstop_wait = 0\ncontrol = 1", "wrong kind relay.control"),
    ("[relay]\nstop_wait = 0\n[[output]]", "out of range relay.stop_wait"),
    ('[relay]\nshared_key = ""\nuser = []', "out of range relay.shared_key"),
    ("[relay]\nuser = [1]\n[[output]]", "out of range relay.user"),
    ('[relay]\nshared_key = "k"\nuser = [{ name = "" }, 1]\n[[output]]', "out of range relay.user[0].name"),
    ('[relay]\nshared_key = "k"\nuser = [{ name = "n", password = "p", zz = 1 }, 1]', "wrong kind relay.user[1]"),
    ("[[output]]\nmatch = 1\nworkers = 0\n[relay]\nseed = 1", "wrong kind relay.seed"),
    ("[[output]]\nworkers = 0", "missing output[0].match"),
    (ONE + "chunk_limit = 0\nworkers = 0", "out of range output[0].workers"),
    (ONE + "total_limit = 0\nchunk_limit = 0", "out of range output[0].chunk_limit"),
    (ONE + "retry_wait = 0\nretry_max = 0", "out of range output[0].retry_wait"),
    (ONE + "window = 0\nack_wait = 0", "out of range output[0].ack_wait"),
    (ONE + "hostname = 1\nwindow = 0", "out of range output[0].window"),
    (ONE + AT + "standby = 1\n[[output]]", "wrong kind output[0].server[0].standby"),
    (ONE + "full = 1\n" + AT + "standby = 1", "wrong kind output[0].server[0].standby"),
    (ONE + "full = 1\n" + AT + "[[output]]", "wrong kind output[0].full"),
    (ONE + "username = 1\nshared_key = 1\nhostname = 1", "wrong kind output[0].hostname"),
    (ONE + "password = 1\nusername = 1\nshared_key = 1", "wrong kind output[0].shared_key"),
    (ONE + 'username = 1\nshared_key = ""', "out of range output[0].shared_key"),
    (ONE + "password = 1\nusername = 1", "wrong kind output[0].username"),
    (ONE + "server = 1\npassword = 1", "wrong kind output[0].password"),
    ("a = 1\n" + ONE, "missing output[0].server"),
    (ONE + "[[output.server]]\n[[output]]\nmatch = 1", "missing output[0].server[0].address"),
    (ONE + AT + "[[output.server]]\naddress = 1\nstandby = 1\n[[output]]", "wrong kind output[0].server[1].address"),
    (ONE + AT + "[[output]]\nmatch = 1", "wrong kind output[1].match"),
]:
    text(whole, told)

# ---- what each key is set to: its default, or what is written
RELAY = {
    "listen": "127.0.0.1:24224",
    "monitor": "none",
    "hostname": "relay",
    "shared_key": "none",
    "run_id": "none",
    "seed": "none",
    "connections": "256",
    "message_limit": "16777216",
    "depth": "64",
    "readers": "1",
    "metrics": "false",
    "idle_limit": "none",
    "control": "none",
    "stop_wait": "30000",
}
OUTPUT = {
    "match a.b": "true",
    "match c": "true",
    "workers": "1",
    "chunk_limit": "8000000",
    "total_limit": "512000000",
    "flush_interval": "5000",
    "retry_wait": "1000",
    "retry_max": "60000",
    "ack_wait": "190000",
    "window": "1",
    "hostname": "relay",
    "shared_key": "none",
    "username": "",
    "password": "",
    "full": "close",
}
FIRST = {"server[0].address": "127.0.0.1:1", "server[0].standby": "false"}
SET_RELAY = {
    "listen": "0.0.0.0:1",
    "monitor": "[::1]:65535",
    "hostname": "h",
    "shared_key": "k",
    "run_id": "0123456789ab",
    "seed": "0" * 62 + "ff",
    "connections": "2",
    "message_limit": "1025",
    "depth": "9",
    "readers": "3",
    "user[0].name": "n",
    "user[0].password": "p",
    "user[1].name": "m",
    "user[1].password": "q",
    "metrics": "true",
    "idle_limit": "900000",
    "control": "/run/c",
    "stop_wait": "1500",
}
SET_OUTPUT = {
    "match a.b": "true",
    "match c": "false",
    "workers": "3",
    "chunk_limit": "4",
    "total_limit": "5",
    "flush_interval": "6",
    "retry_wait": "7",
    "retry_max": "8",
    "ack_wait": "9",
    "window": "2",
    "hostname": "o",
    "shared_key": "s",
    "username": "u",
    "password": "p",
    "full": "wait",
    "server[0].address": "10.0.0.1:2",
    "server[0].standby": "true",
    "server[1].address": "10.0.0.2:3",
    "server[1].standby": "false",
}
C = '[[output]]\nmatch = "c"\n[[output.server]]\naddress = "10.0.0.3:4"\n'
OUTPUT_C = OUTPUT | {"match a.b": "false", "server[0].address": "10.0.0.3:4", "server[0].standby": "false"}
sets(MATCH + SERVER, RELAY, OUTPUT | FIRST)
sets(
    '[relay]\nlisten = "0.0.0.0:1"\nmonitor = "[::1]:65535"\nhostname = "h"\n'
    'shared_key = "k"\nrun_id = "0123456789aB"\n' + f'seed = "{"0" * 62}Ff"\n'
    "connections = 2\nmessage_limit = 1025\ndepth = 9\nreaders = 3\nmetrics = true\nidle_limit = 900000\n"
    'control = "/run/c"\nstop_wait = 1500\n'
    '[[relay.user]]\nname = "n"\npassword = "p"\n'
    '[[relay.user]]\nname = "m"\npassword = "q"\n' + C,
    SET_RELAY,
    OUTPUT_C,
)
sets(
    '[[output]]\nmatch = "a.b"\nworkers = 3\nchunk_limit = 4\ntotal_limit = 5\n'
    "flush_interval = 6\nretry_wait = 7\nretry_max = 8\nack_wait = 9\nwindow = 2\n"
    'hostname = "o"\n'
    'username = "u"\npassword = "p"\nshared_key = "s"\nfull = "wait"\n'
    '[[output.server]]\naddress = "10.0.0.1:2"\nstandby = true\n'
    '[[output.server]]\naddress = "10.0.0.2:3"\nstandby = false\n' + C,
    RELAY,
    SET_OUTPUT,
    OUTPUT_C,
)
sets('[relay]\nlisten = "unix:/run/a b:1"\n' + MATCH + SERVER, RELAY | {"listen": "unix:/run/a b:1"}, OUTPUT | FIRST)
# a long wait lengthens the longest
for wait, longest in [(59_999, 60_000), (60_001, 60_001)]:
    sets(
        MATCH + f"retry_wait = {wait}\n" + SERVER,
        RELAY,
        OUTPUT | FIRST | {"retry_wait": str(wait), "retry_max": str(longest)},
    )
# a text of 65,536 bytes with a key of 1,024, 64 outputs, and 16 servers at the first of them
LARGEST = '[relay]\nshared_key = "' + "k" * 1024 + '"\n' + MATCH + SERVER * 16
LARGEST += (MATCH + SERVER) * 63
sets(
    LARGEST + "#" * (65_536 - 1 - len(LARGEST)),
    RELAY | {"shared_key": "k" * 1024},
    OUTPUT
    | {
        f"server[{n}].{key}": what
        for n in range(16)
        for key, what in [("address", "127.0.0.1:1"), ("standby", "false")]
    },
    *[OUTPUT | FIRST] * 63,
)

write_table(
    "settings.txt",
    [f"{whole.rstrip(chr(10))}\n{end}" for whole, _, end in cases],
    [told for _, told, _ in cases],
)
print(len(cases), "cases")

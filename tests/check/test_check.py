"""What `check` says of settings, without a journal: why they are refused and where, and what is hardly meant in them."""

import os
import re
import subprocess

import pytest

from documents import TOP, rows, section, text_of

pytestmark = pytest.mark.quick

OUTPUT = '[[output]]\nmatch = "**"\n'
SERVER = '[[output.server]]\naddress = "192.0.2.1:24224"\n'
BOTH = OUTPUT + SERVER
SHORT = "chunk_limit = 5000000\nflush_interval = 1000\n"  # no caution of its limits
ADDRESS = "a numeric address and a port from 1 to 65535"

# What is wrong, the text, the line, and words that have to be there beside the key.
REFUSED = {
    "a bracket that is missing": ('[relay\nlisten = "127.0.0.1:1"\n' + BOTH, 1, ["no TOML", "]"]),
    "a key twice": (
        '[relay]\nlisten = "127.0.0.1:1"\nlisten = "127.0.0.1:2"\n' + BOTH,
        3,
        ["no TOML", "duplicate key"],
    ),
    "a text without quotes": (OUTPUT + "hostname = relay\n" + SERVER, 3, ["no TOML", "expected a string"]),
    "another encoding": (b'[relay]\nhostname = "caf\xe9"\n' + BOTH.encode(), 2, ["no TOML", "UTF-8"]),
    "nothing": ("", None, ["output is required", "[[output]]"]),
    "one bracket in place of two": ('[output]\nmatch = "**"\n', 1, ["output is refused", "[[output]]"]),
    "so of a server": (
        OUTPUT + '[output.server]\naddress = "127.0.0.1:1"\n',
        3,
        ["server is refused", "[[output.server]]"],
    ),
    "two in place of one": ("[[relay]]\ndepth = 8\n" + BOTH, 1, ["relay is refused", "[relay]"]),
    "a name for an address": (
        '[relay]\nlisten = "localhost:24224"\n' + BOTH,
        2,
        ["relay.listen is refused", ADDRESS, "no name is looked up: ", '"TLS and names"'],
    ),
    "a path with a zero byte": (
        '[relay]\ncontrol = "run\\u0000control"\n' + BOTH,
        2,
        ["relay.control is refused", "a path of 1 to 107 bytes without a zero byte"],
    ),
    "no port": ('[relay]\nmonitor = "127.0.0.1"\n' + BOTH, 2, ["relay.monitor is refused", ADDRESS]),
    "a server's name": (
        BOTH.replace("192.0.2.1", "logs.example"),
        4,
        ["output[0].server[0].address is refused", ADDRESS, "no name is looked up: "],
    ),
    "no match": (
        "[relay]\n\n[[output]]\nworkers = 1\n" + SERVER,
        3,
        ["output[0].match is required", "a match pattern"],
    ),
    "no server": (OUTPUT + "workers = 2\n", 1, ["output[0].server is required", "1 to 16"]),
    "no address": (
        BOTH + "[[output.server]]\nstandby = true\n",
        5,
        ["output[0].server[1].address is required", ADDRESS],
    ),
    "too many": (OUTPUT + "workers = 17\n" + SERVER, 3, ["output[0].workers is refused", "1 to 16"]),
    "a number in quotes": (OUTPUT + 'workers = "4"\n' + SERVER, 3, ["output[0].workers is refused", "a whole number"]),
    "a time with its unit": (
        OUTPUT + 'ack_wait = "5s"\n' + SERVER,
        3,
        ["output[0].ack_wait", "a whole number of milliseconds", "; give a number of ms, without a unit"],
    ),
    "the greatest wait with its unit": (
        OUTPUT + 'retry_max = "60s"\n' + SERVER,
        3,
        ["output[0].retry_max is refused", "; give a number of ms, without a unit"],
    ),
    "bytes with their unit": (
        OUTPUT + 'chunk_limit = "8MB"\n' + SERVER,
        3,
        ["output[0].chunk_limit", "a whole number of bytes", "; give a number of bytes, without a unit"],
    ),
    "a greatest wait below the first": (
        OUTPUT + "retry_wait = 5000\nretry_max = 1000\n" + SERVER,
        4,
        ["output[0].retry_max is refused", "from retry_wait"],
    ),
    "standbys alone": (BOTH + "standby = true\n", 3, ["output[0].server has no server that is not a standby"]),
    "a text for a truth": (BOTH + 'standby = "yes"\n', 5, ["output[0].server[0].standby is refused", "true or false"]),
    "users without a key": (
        '[[relay.user]]\nname = "a"\npassword = "b"\n' + BOTH,
        1,
        ["relay.user needs a shared_key in [relay]"],
    ),
    "no password": (
        '[relay]\nshared_key = "k"\n[[relay.user]]\nname = "a"\n' + BOTH,
        3,
        ["relay.user[0].password is required", "1 to 255 bytes"],
    ),
    "an empty key": ('[relay]\nshared_key = ""\n' + BOTH, 2, ["relay.shared_key is refused", "1 to 1024 bytes"]),
    "a star inside a part": (
        BOTH.replace("**", "app.*.log-*"),
        2,
        ["output[0].match is no match pattern", "`*` inside a part"],
    ),
    "a brace that does not close": (BOTH.replace("**", "a.{b,c"), 2, ["output[0].match is no match pattern", "braces"]),
    "no word": (BOTH.replace("**", ""), 2, ["output[0].match is no match pattern", "no word"]),
    "a key misspelled": (
        OUTPUT + "flush_intervall = 5\n" + SERVER,
        3,
        ["output[0].flush_intervall is no key", " flush_interval,"],
    ),
    "a key in another table": (
        OUTPUT + "connections = 5\n" + SERVER,
        3,
        ["connections is no key", "stands in [relay]"],
    ),
    "a key above all tables": ('listen = "127.0.0.1:1"\n' + BOTH, 1, ["listen is no key", "stands in [relay]"]),
    "a key below the servers": (BOTH + "workers = 3\n", 5, ["stands in [[output]], above [[output.server]]"]),
    "few digits": ('[relay]\nrun_id = "abc"\n' + BOTH, 2, ["relay.run_id is refused", "12 hexadecimal digits"]),
    "a number for digits": ("[relay]\nseed = 12\n" + BOTH, 2, ["relay.seed is refused", "64 hexadecimal digits"]),
    "a list within a line": (
        OUTPUT + 'server = [\n  { address = "192.0.2.1:1" },\n  { address = "x" },\n]\n',
        6,
        ["output[0].server[1].address", ADDRESS],
    ),
}

# Values that are refused without further words: there is no name in them, or no number.
UNHINTED = [
    '[relay]\nlisten = "127.0.0.1"\n' + BOTH,
    '[relay]\nlisten = "fe80::1:24224"\n' + BOTH,
    '[relay]\nlisten = "[fe80::1%eth0]:24224"\n' + BOTH,
    "[relay]\nlisten = 24224\n" + BOTH,
    OUTPUT + 'ack_wait = "soon"\n' + SERVER,
    OUTPUT + "ack_wait = 5.0\n" + SERVER,
    OUTPUT + "ack_wait = 0\n" + SERVER,
    OUTPUT + 'workers = "4"\n' + SERVER,
]

# Texts with several faults: of each the key and its line, in the order in which they are judged.
SEVERAL = {
    "in each table": (
        """[relay]
listen = "localhost:24224"
shared_key = ""
depth = 7
colour = "red"
[[relay.user]]
name = "a"
[[relay.user]]
password = ""
name = "b"
[[output]]
workers = 17
retry_wait = "1s"
retry_max = 5
[[output.server]]
standby = true
[[output.server]]
address = "logs.example:24224"
standby = true
port = 1
[[output]]
match = "a.b*"
""",
        [
            ("relay.listen", 2),
            ("relay.shared_key", 3),
            ("relay.depth", 4),
            ("relay.user[0].password", 6),
            ("relay.user[1].password", 9),
            ("output[0].match", 11),
            ("output[0].workers", 12),
            ("output[0].retry_wait", 13),
            ("output[0].server", 15),
            ("output[0].server[0].address", 15),
            ("output[0].server[1].address", 18),
            ("output[1].match", 22),
            ("output[1].server", 21),
            ("output[0].server[1].port", 20),
            ("relay.colour", 5),
        ],
    ),
    "members that are no tables": (
        '[relay]\nreaders = 0\n[[output]]\nmatch = "**"\nserver = ["127.0.0.1:1", 7]\nfull = "drop"\n',
        [
            ("relay.readers", 2),
            ("output[0].server[0]", 5),
            ("output[0].server[1]", 5),
            ("output[0].full", 6),
        ],
    ),
    "no tables at all": ("relay = 1\noutput = 2\n", [("relay", 1), ("output", 2)]),
    "users without a key, and what else they lack": (
        '[relay]\n[[relay.user]]\nname = ""\n[[output]]\nmatch = ""\n' + SERVER,
        [("relay.user", 2), ("output[0].match", 5)],
    ),
    "a key in quotes, which is not that of a table": (
        '"relay.depth" = 7\n[relay]\ndepth = 7\n' + BOTH,
        [("relay.depth", 3), ("relay.depth", 3)],
    ),
}

# What is hardly meant in the relay's own table, in an output, and in the servers; and what is said of it.
CAUTIONS = {
    "metrics that nobody can ask for": (
        "metrics = true\n",
        "",
        SERVER,
        ["metrics without monitor: nobody can ask for them"],
    ),
    "metrics with a monitor": ('metrics = true\nmonitor = "127.0.0.1:9"\n', "", SERVER, []),
    "all addresses": (
        'listen = "0.0.0.0:24224"\n',
        "",
        SERVER,
        ["listen 0.0.0.0:24224 without shared_key: whoever reaches it may send"],
    ),
    "all addresses of IPv6": (
        'listen = "[::]:24224"\n',
        "",
        SERVER,
        ["listen [::]:24224 without shared_key: whoever reaches it may send"],
    ),
    "all addresses with a key": ('listen = "0.0.0.0:24224"\nshared_key = "k"\n', "", SERVER, []),
    "one address twice": (
        "",
        "workers = 3\n",
        SERVER + SERVER.replace("192.0.2.1", "192.0.2.2") + SERVER + "standby = true\n",
        ["output 0 server 192.0.2.1:24224 is listed twice: it counts as two servers"],
    ),
    "one host at two ports": ("", "workers = 2\n", SERVER + SERVER.replace("24224", "24225"), []),
    "a request that never enters": (
        "message_limit = 6000001\n",
        "total_limit = 6000000\n",
        SERVER,
        ["output 0 total_limit 6000000 below message_limit 6000001: a request with more bytes of entries never enters"],
    ),
    "a request that just enters": ("message_limit = 6000000\n", "total_limit = 6000000\n", SERVER, []),
    "a long wait for others": (
        "",
        "flush_interval = 1001\n",
        SERVER,
        [
            "output 0 flush_interval 1001 above 1000: "
            "a client that waits for each acknowledgement sends one request in that time"
        ],
    ),
}

# Patterns, and what is said of what they have.
LITERALS = {
    "/app/": "/../",
    "a /app/ b": "/../",
    "/a|b/": "/../",
    "/a b/": "/../",
    "app.#{host}": "#{..}",
    "app.a, app.b": "a comma outside braces",
    "app.{a,b},c": "a comma outside braces",
    "app.a | app.b": "|",
    "app.{a|b}": "|",
    "app.{a,b}.** c": None,
    "/var/log": None,
    "a#b": None,
}

# The outputs' patterns, and which of the outputs get nothing.
PATTERNS = {
    ("**", "app.**"): [1],
    ("app.**", "app.*"): [1],
    ("app.*", "app.**"): [],
    ("app.{a,b}", "app.a"): [1],
    ("app.a", "app.b", "app.{a,b}"): [2],
    ("app.a", "app.{a,c}"): [],
    ("a.** **.a", "a.**.a"): [1],
    ("a.b.** a a.*", "a.**"): [],
    ("a.*.** a", "a.**"): [1],
    ("a.*.**", "a.**"): [],
    ("**", "**", "a b c"): [1, 2],
    ("x.**", "**.x.**"): [],
    ("**", "**.x.**"): [1],
    ("a.**.b", "a.b a.*.b"): [1],
    ("* *.* *.*.**", "**"): [1],
    ("* *.*.**", "a.**"): [1],
}


@pytest.fixture
def checked(program, tmp_path):
    """Checks a text of settings: the status, standard output, and the lines of standard error."""

    def check(text):
        path = tmp_path / "relay.toml"
        path.write_bytes(text if isinstance(text, bytes) else text.encode())
        env = {key: value for key, value in os.environ.items() if key != "FORWARD_RELAY_LOG"}
        done = subprocess.run(
            [program, "check", path.name], cwd=tmp_path, env=env, capture_output=True, text=True, timeout=60
        )
        return done.returncode, done.stdout, done.stderr.splitlines()

    return check


@pytest.mark.parametrize("what", REFUSED)
def test_refused(checked, what):
    """A line has the file, the line, the key and what is allowed; the text of the fault stands below it."""
    text, line, words = REFUSED[what]
    status, printed, told = checked(text)
    assert (status, printed, len(told)) == (1, "", 2), told
    assert told[0].startswith(f"settings: relay.toml line {line}: " if line else "settings: relay.toml: "), told
    for word in words:
        assert word in told[0], told
    assert told[1].startswith("settings: ")


@pytest.mark.parametrize("text", UNHINTED)
def test_no_hint(checked, text):
    """Of a value without a name or a unit only what is allowed is said."""
    _, _, told = checked(text)
    assert len(told) == 2 and ";" not in told[0], told


@pytest.mark.parametrize("what", SEVERAL)
def test_several_faults(checked, what):
    """Each fault has a line, in the order in which they are judged, and the first is that of the status."""
    text, faults = SEVERAL[what]
    status, printed, told = checked(text)
    assert (status, printed) == (1, "")
    assert [re.match(r"settings: relay\.toml line (\d+): (\S+) ", line).groups() for line in told[:-1]] == [
        (str(line), key) for key, line in faults
    ]
    assert told[-1].startswith("settings: ") and told[-1].endswith(f" {faults[0][0]}")


def test_many_faults(checked):
    """Of more than twenty faults the first twenty are told."""
    _, _, told = checked(OUTPUT + "".join(f"key{number:02} = 1\n" for number in range(30)) + SERVER)
    keys = [re.search(r"output\[0\]\.key\d\d", line)[0] for line in told]
    assert keys == [f"output[0].key{number:02}" for number in [*range(20), 0]]


def ranges():
    """The keys of FORMATS whose range is of whole numbers, with its ends."""
    for key, kind, _ in (row for row in rows(section(text_of("docs/FORMATS.md"), "## Settings")) if len(row) == 3):
        if found := re.fullmatch(r"([\d,]+) to ([\d,]+)(?: \w+)?", kind):
            ends = [int(end.replace(",", "")) for end in found.groups()]
            if "(list)" not in key:
                yield pytest.param(key, *ends, id=key)


@pytest.mark.parametrize(("key", "least", "most"), ranges())
def test_ranges(checked, key, least, most):
    """What is said to be allowed is the range that FORMATS has, and both of its ends are taken."""
    table, name = key.split(".")

    def text(value):
        frame = ("[relay]\n{}\n" + BOTH) if table == "relay" else (OUTPUT + "{}\n" + SERVER)
        return frame.format(f"{name} = {value}" + ("\nretry_max = 86400000" if name == "retry_wait" else ""))

    for value in (least - 1, most + 1):
        status, _, told = checked(text(value))
        assert status == 1 and told[0].endswith(f" from {least} to {most}"), told
    for value in (least, most):
        assert checked(text(value))[0] == 0, value


def test_no_value_is_shown(checked):
    """A value may be a password."""
    secret = "the-secret" * 200
    for key in ("shared_key", "password"):
        _, _, told = checked(f"{OUTPUT}{key} = '{secret}'\n{SERVER}")
        assert len(told) == 2 and "the-secret" not in "".join(told), told


def test_pipe(program):
    """A file is read once."""
    with open(TOP / "examples" / "relay.toml") as text:
        words = ["sh", "-c", f"cat | {program} check /dev/stdin"]
        done = subprocess.run(words, stdin=text, capture_output=True, text=True, timeout=60)
    assert (done.returncode, done.stdout, done.stderr) == (0, "settings are good, outputs: 1\n", "")


@pytest.mark.parametrize("patterns", PATTERNS, ids=" then ".join)
def test_outputs_that_get_nothing(checked, patterns):
    """An output is cautioned of where each tag that it takes goes to one before it, and nowhere else."""
    texts = [(OUTPUT + SHORT + SERVER).replace("**", pattern) for pattern in patterns]
    status, printed, told = checked("".join(texts))
    assert (status, printed) == (0, f"settings are good, outputs: {len(patterns)}\n")
    assert told == [
        f"caution: output {output} gets nothing: its tags all go to outputs before it" for output in PATTERNS[patterns]
    ]


@pytest.mark.parametrize("what", CAUTIONS)
def test_cautions(checked, what):
    """What is hardly meant is told on a line, and what is like it and may be meant is not."""
    relay, output, servers, lines = CAUTIONS[what]
    short = SHORT.replace("flush_interval = 1000\n", "") if "flush_interval" in output else SHORT
    status, printed, told = checked(f"[relay]\n{relay}{OUTPUT}{short}{output}{servers}")
    assert (status, printed) == (0, "settings are good, outputs: 1\n")
    assert told == [f"caution: {line}" for line in lines]


@pytest.mark.parametrize("pattern", LITERALS)
def test_patterns_of_fluentd(checked, pattern):
    """What Fluentd means something by, and the relay does not."""
    status, _, told = checked((OUTPUT + SHORT + SERVER).replace("**", pattern))
    what = LITERALS[pattern]
    line = f"caution: output 0 match has {what}: literal here, unlike in Fluentd"
    assert (status, told) == (0, [line] if what else [])


@pytest.mark.parametrize(
    ("workers", "servers", "standbys", "idle"), [(1, 3, 0, 2), (2, 2, 0, 0), (4, 1, 0, 0), (1, 1, 3, 0)]
)
def test_servers_that_get_nothing(checked, workers, servers, standbys, idle):
    """Fewer workers than servers that are no standby are cautioned of, and more are not."""
    many = [SERVER.replace("24224", str(24224 + place)) for place in range(servers + standbys)]
    text = OUTPUT + SHORT + f"workers = {workers}\n" + "".join(many[:servers])
    text += "".join(server + "standby = true\n" for server in many[servers:])
    status, _, told = checked(text)
    line = (
        f"caution: output 0 workers {workers} for servers {servers}: the last {idle} get nothing until another is lost"
    )
    assert (status, told) == (0, [line] if idle else [])

"""The metrics page: what it says, who serves it, and that Prometheus reads it."""

import json
import os
import pathlib
import re
import shutil
import subprocess
import sys
import time
import urllib.error
import urllib.parse
import urllib.request

import pytest

from documents import version_pattern
from exposition import read_metrics
from forward import HOST, connect
from next_hop import acknowledge, hold, refuse_above
from relay import TOP, Child, free_ports

pytestmark = pytest.mark.quick
FRONT = "forward_relay_"
TYPE = "text/plain; version=0.0.4; charset=utf-8"
TAGS = ["a.b", 'a."\\', "a.\n", "a.é"]
NO_TEXT = [b"a.\0", b"a.\xff"]


def asked(one, target, method="GET"):
    """What a monitor is told, to its end."""
    with connect(one.monitor, 60) as stream:
        stream.link.sendall(f"{method} {target} HTTP/1.1\r\nHost: tests\r\n\r\n".encode())
        return b"".join(iter(lambda: stream.link.recv(1 << 16), b""))


def metrics(one):
    """The samples of the page, behind a head that fits it."""
    head, page = asked(one, "/metrics").split(b"\r\n\r\n", 1)
    lines = head.decode().split("\r\n")
    assert lines == ["HTTP/1.1 200 OK", f"Content-Type: {TYPE}", f"Content-Length: {len(page)}", "Connection: close"]
    return read_metrics(page.decode())


def value(samples, name, **labels):
    """A sample by its name and labels."""
    return samples[FRONT + name, frozenset(labels.items())]


def test_off_by_default(relay, next_hop):
    """Where it is not set the page is not found, as any other."""
    one = relay([{"servers": [next_hop().port]}])
    other = asked(one, "/other")
    assert other == b"HTTP/1.1 404 Not Found\r\nContent-Length: 0\r\nConnection: close\r\n\r\n"
    assert asked(one, "/metrics") == other


def test_only_that_request(relay, next_hop):
    """Where it is set, other methods and targets are told what they are told else, and so is the page."""
    one = relay([{"servers": [next_hop().port]}], metrics=True)
    other = asked(one, "/other")
    for method, target in [("POST", "/metrics"), ("GET", "/metrics/"), ("GET", "/metrics?a"), ("GET", "/metric")]:
        assert asked(one, target, method) == other
    assert b"Content-Type: text/plain\r\n" in asked(one, "/")
    assert b"output 0 accepted 0" in asked(one, "/")


def test_counts(relay, next_hop):
    """It says of each output and tag what the page says, of the relay its sources, and of an output its limit."""
    outputs = [
        {"match": "a.**", "servers": [next_hop(answer=hold).port], "total_limit": 123_456},
        {"match": "**", "servers": [next_hop().port]},
    ]
    one = relay(outputs, metrics=True, connections=7)
    source = one.source()
    for tag in [*TAGS, *NO_TEXT]:
        source.send(tag)
    source.send("other")
    one.await_page(lambda it: it.accepted == 6)
    one.await_settled(1, number=1)
    samples = metrics(one)
    first, second = one.page()
    for output, counts in [("0", first), ("1", second)]:
        for name, kept in [("accepted_entries_total", "accepted"), ("settled_entries_total", "settled")]:
            assert value(samples, name, output=output) == getattr(counts, kept)
        for name in ["held", "bytes", "chunks"]:
            shown = "held_entries" if name == "held" else f"held_{name}"
            assert value(samples, shown, output=output) == getattr(counts, name)
    assert value(samples, "total_limit_bytes", output="0") == 123_456
    assert value(samples, "sources_open") == 1
    assert value(samples, "sources_limit") == 7
    assert value(samples, "uptime_seconds") < 120
    for tag in TAGS:
        assert value(samples, "tag_held_entries", output="0", tag=tag) == 1
        assert value(samples, "tag_held_bytes", output="0", tag=tag) > 0
    for tag in NO_TEXT:
        assert value(samples, "tag_held_entries", output="0", tag_hex=tag.hex()) == 1
    assert value(samples, "tags_left_out", output="0") == 0


def test_many_tags(relay, next_hop):
    """A thousand tags have samples, over all outputs, and the others are counted."""
    hops = [next_hop(answer=hold).port for _ in range(2)]
    one = relay([{"match": "a.**", "servers": hops[:1]}, {"match": "**", "servers": hops[1:]}], metrics=True)
    source = one.source()
    for number in range(990):
        source.send(f"a.{number:04}")
    for number in range(30):
        source.send(f"b.{number:04}")
    one.await_page(lambda it: it.accepted == 990)
    one.await_page(lambda it: it.accepted == 30, number=1)
    samples = metrics(one)
    shown = [dict(labels) for name, labels in samples if name == FRONT + "tag_held_entries"]
    assert sum(labels["output"] == "0" for labels in shown) == 990
    assert sorted(labels["tag"] for labels in shown if labels["output"] == "1") == [f"b.{n:04}" for n in range(10)]
    assert [value(samples, "tags_left_out", output=output) for output in "01"] == [0, 20]


REASONS = {"Reserved", "TooDeep", "TooLong", "BadShape", "BadTag", "BadEntry", "BadOption", "Compressed", "NotPing"}
REASONS |= {"Denied", "Closed", "NoRoute", "NoLogin", "Idle", "Memory", "NotNow", "Full", "NumbersSpent"}


def rising(samples, name):
    """The counts of a metric with one label that are not 0, by the label's value."""
    found = ((labels, count) for (named, labels), count in samples.items() if named == FRONT + name)
    return {value: count for labels, count in found if count > 0 for _, value in labels}


def test_sources_closed(relay, next_hop):
    """Why sources were closed, by the journal's words, and what an output did not admit."""
    outputs = [
        {"match": "a", "servers": [next_hop(answer=hold).port]},
        {"match": "b", "servers": [next_hop(answer=hold).port], "total_limit": 1_000},
    ]
    one = relay(outputs, metrics=True, connections=3)
    shown = {dict(labels)["reason"] for name, labels in metrics(one) if name == FRONT + "sources_closed_total"}
    assert shown == REASONS
    for _ in range(2):
        stranger = one.source()
        stranger.stream.link.sendall(b"\xc1")
        assert stranger.is_closed()
    astray = one.source()
    astray.send("c", chunk="x")
    assert astray.is_closed()
    large = one.source()
    large.send("b", [(1, {"n": "x" * 2_000})], chunk="x")
    assert large.is_closed()
    one.until(lambda: value(metrics(one), "sources_open") == 0, "a source is kept")
    samples = metrics(one)
    assert rising(samples, "sources_closed_total") == {"Reserved": 2, "NoRoute": 1, "Full": 1}
    assert value(samples, "requests_refused_total", output="1", reason="Full") == 1
    assert value(samples, "requests_refused_total", output="0", reason="Full") == 0
    assert rising(samples, "over_limit_total") == rising(samples, "memory_refused_total") == {}
    sources = [one.source() for _ in range(3)]
    for source in sources:
        source.send("a")
    assert one.source().is_closed()
    one.await_line("over the limit: source")
    assert rising(metrics(one), "over_limit_total") == {"source": 1}


def test_without_acknowledgement(relay, next_hop):
    """The entries whose source asked for no acknowledgement."""
    one = relay([{"servers": [next_hop().port]}], metrics=True)
    source = one.source()
    source.send("a", [(1, {"n": 1}), (2, {"n": 2})])
    source.ask("a", [(3, {"n": 3})])
    samples = metrics(one)
    assert value(samples, "accepted_entries_total", output="0") == 3
    assert value(samples, "accepted_without_ack_entries_total", output="0") == 2


def test_servers(relay, next_hop):
    """Why sessions were lost, the chunks that each server acknowledged, and which is lost."""
    hop, away = next_hop(), free_ports(1)[0]
    one = relay([{"servers": [away, {"port": hop.port, "standby": True}]}], metrics=True)
    for number in range(3):
        one.source().ask("a", [(number, {"n": number})])
    samples = metrics(one)
    gone = {"output": "0", "place": "0", "server": f"{HOST}:{away}"}
    there = {"output": "0", "place": "1", "server": f"{HOST}:{hop.port}"}
    lost = value(samples, "server_sessions_lost_total", reason="Connect", **gone)
    assert lost > 0
    one.until(lambda: one.lines("server lost: ") >= lost, "the journal has fewer")
    assert value(samples, "server_sessions_lost_total", reason="Late", **gone) == 0
    assert value(samples, "server_sessions_lost_total", reason="Connect", **there) == 0
    assert [value(samples, "server_acknowledged_chunks_total", **labels) for labels in (gone, there)] == [0, 3]
    assert [value(samples, "server_lost", **labels) for labels in (gone, there)] == [1, 0]
    hop.end()
    back = next_hop(port=away)
    one.source().ask("a")
    assert back.entries()
    one.await_line(f"server back: output 0 {HOST}:{away}")
    assert value(metrics(one), "server_lost", **gone) == 0


def test_sent_again(relay, next_hop):
    """The chunks that were under way in sessions that were lost are counted at their server, and are sent again."""
    bad, good = next_hop(answer=hold), next_hop()
    servers = [bad.port, {"port": good.port, "standby": True}]
    one = relay([{"servers": servers, "workers": 1, "window": 4}], metrics=True)
    labels = [
        {"output": "0", "place": str(place), "server": f"{HOST}:{hop.port}"} for place, hop in enumerate([bad, good])
    ]

    def resent():
        return [value(metrics(one), "server_resent_chunks_total", **own) for own in labels]

    source = one.source()
    for number in range(3):
        source.send(f"a.{number}")
        bad.await_entries(number + 1)
    assert resent() == [0, 0]
    bad.end()
    one.await_settled(3)
    assert resent() == [3, 0]
    assert len(good.entries()) == 3
    one.source().ask("b")
    assert resent() == [3, 0]


def test_oldest_chunk(relay, next_hop):
    """How old the oldest chunk is of those that an output holds, whatever is settled beside it."""

    def hold_the_first(hop, stream, frame):
        (hold if frame.tag == "first" else acknowledge)(hop, stream, frame)

    hops = [next_hop(answer=hold_the_first), next_hop()]
    outputs = [{"match": "b.**", "servers": [hops[1].port]}, {"servers": [hops[0].port], "workers": 2}]
    one = relay(outputs, metrics=True)

    def ages():
        return [value(metrics(one), "oldest_chunk_age_seconds", output=output) for output in "01"]

    assert ages() == [0, 0]
    before = time.monotonic()
    one.source().send("first")
    one.until(lambda: hops[0].held, "it is not sent")
    sent, later = time.monotonic(), one.source()
    while ages()[1] < 3:
        later.ask("later")
        later.ask("b.other")
        assert time.monotonic() - before < 60
    assert time.monotonic() - before > 2.998  # the relay's clock has whole milliseconds
    now = time.monotonic()
    first, age = ages()
    assert first == 0 and int(now - sent) <= age <= time.monotonic() - before
    hops[0].release()
    one.until(lambda: ages() == [0, 0], "it is old still")


def test_start(relay, next_hop):
    """When the relay started is the uptime ago."""
    before = int(time.time())
    one = relay([{"servers": [next_hop().port]}], metrics=True)
    samples = metrics(one)
    assert before <= value(samples, "start_time_seconds") <= time.time()
    assert abs(value(samples, "start_time_seconds") + value(samples, "uptime_seconds") - time.time()) < 3


def test_what_runs(relay, next_hop):
    """The version is the code's, and each output has its pattern, escaped."""
    patterns = ["a.{b,c} d", 'a."\\', "**"]
    one = relay([{"match": pattern, "servers": [next_hop().port]} for pattern in patterns], metrics=True)
    samples = metrics(one)
    (version,) = [dict(labels)["version"] for name, labels in samples if name == FRONT + "build_info"]
    assert re.fullmatch(version_pattern(), version)
    assert value(samples, "build_info", version=version) == 1
    shown = [dict(labels) for name, labels in samples if name == FRONT + "output_info"]
    assert shown == [{"output": str(number), "match": pattern} for number, pattern in enumerate(patterns)]


def test_bytes(relay, next_hop):
    """The bytes of entries, as they are held: each is accepted once, settled once, and held between."""
    hop = next_hop(answer=hold)
    one = relay([{"servers": [hop.port]}], metrics=True)

    def counts():
        samples = metrics(one)
        names = ["accepted_bytes_total", "settled_bytes_total", "held_bytes"]
        return [value(samples, name, output="0") for name in names]

    assert counts() == [0, 0, 0]
    source = one.source()
    source.send("a", [(1, {"n": 1}), (2, {"n": "x" * 100})])
    hop.await_entries(2)
    size = one.page()[0].bytes
    assert size > 100
    one.until(lambda: counts() == [size, 0, size], "they are not held")
    source.send("b")
    more = one.await_page(lambda it: it.accepted == 3).bytes - size
    assert more > 0
    one.until(lambda: counts() == [size + more, 0, size + more], "they are not held")
    hop.release()
    one.await_settled(3)
    one.until(lambda: counts() == [size + more, size + more, 0], "they are not settled")


def test_chunks_refused(relay, next_hop):
    """As often as the journal says that a server seems to refuse a chunk."""
    one = relay([{"servers": [next_hop(answer=refuse_above(500)).port]}], metrics=True)
    assert value(metrics(one), "chunks_refused_total", output="0") == 0
    one.source().send("large", [(1, {"n": "x" * 1_000})])
    source = one.source()
    one.until(lambda: source.ask("small") or one.lines("chunk refused: "), "no chunk is told as refused")

    def counted():
        told = one.lines("chunk refused: ")
        return 0 < told <= value(metrics(one), "chunks_refused_total", output="0") <= one.lines("chunk refused: ")

    one.until(counted, "it is not counted")


def test_lines_left_out(relay, next_hop):
    """Lines above ten of a subject in a second are counted."""
    one = relay([{"servers": [next_hop().port]}], metrics=True)
    assert value(metrics(one), "journal_lines_left_out_total") == 0
    for _ in range(100):
        one.source().stream.link.sendall(b"\xc1")
    one.until(lambda: rising(metrics(one), "sources_closed_total") == {"Reserved": 100}, "not all are closed")
    assert value(metrics(one), "journal_lines_left_out_total") > 0

    def is_each_counted():
        shown = re.findall(r"^source closed: \S+ Reserved$", one.journal(), re.MULTILINE)
        return len(shown) + value(metrics(one), "journal_lines_left_out_total") == 100

    one.until(is_each_counted, "the journal and the page are not of one mind")


def test_process(relay, next_hop):
    """What the system tells of the process, as it tells others."""
    one = relay([{"servers": [next_hop().port]}], metrics=True)
    sources = [one.source() for _ in range(10)]
    one.until(lambda: value(metrics(one), "sources_open") == 10, "they are not open")
    samples = {name: number for (name, _), number in metrics(one).items() if name.startswith("process_")}
    proc = pathlib.Path(f"/proc/{one.process.pid}")
    pages = int((proc / "statm").read_text().split()[1])
    assert 0.5 < samples["process_resident_memory_bytes"] / (pages * os.sysconf("SC_PAGE_SIZE")) < 2
    assert abs(samples["process_open_fds"] - len(os.listdir(proc / "fd"))) <= 1
    limit = re.search(r"^Max open files +(\d+)", (proc / "limits").read_text(), re.MULTILINE)[1]
    assert samples["process_max_fds"] == int(limit)
    words = (proc / "stat").read_text().rpartition(")")[2].split()
    ticks = os.sysconf("SC_CLK_TCK")
    assert 0 <= (int(words[11]) + int(words[12])) / ticks - samples["process_cpu_seconds_total"] < 1
    assert abs(samples["process_start_time_seconds"] - value(metrics(one), "start_time_seconds")) < 5
    assert len(sources) == 10 and len(samples) == 5


UNITS = ("seconds", "bytes", "entries", "chunks", "sources", "fds", "info", "out", "open", "limit", "draining", "lost")


def test_names(relay, next_hop):
    """Counters end in `_total` and nothing else does; a gauge's name ends in what it counts, or in what it says."""
    one = relay([{"servers": [next_hop().port]}], metrics=True)
    page = asked(one, "/metrics").decode()
    kinds = dict(re.findall(r"^# TYPE (\S+) (\S+)$", page, re.MULTILINE))
    assert len(kinds) > 30
    assert {name for name, kind in kinds.items() if kind == "counter"} == {n for n in kinds if n.endswith("_total")}
    assert [n for n, kind in kinds.items() if kind == "gauge" and n.rpartition("_")[2] not in UNITS] == []


def test_dashboard(relay, next_hop):
    """The example for Grafana is what its script writes, and asks for what a relay has."""
    written = subprocess.run([sys.executable, TOP / "dev" / "dashboard.py", "--check"], capture_output=True, timeout=60)
    assert (written.returncode, written.stderr) == (0, b"")
    board = json.loads((TOP / "examples" / "grafana.json").read_text())
    queries = [target["expr"] for panel in board["panels"] for target in panel.get("targets", [])]
    asked_for = {name for query in queries for name in re.findall(r"((?:forward_relay|process)_[a-z_]+)\{", query)}
    one = relay([{"servers": [next_hop(answer=hold).port]}], metrics=True)
    one.source().send("a")
    one.await_page(lambda it: it.accepted == 1)
    there = {name for name, _ in metrics(one)}
    assert len(asked_for) > 25 and asked_for <= there, asked_for - there
    assert all(query.count(mark) == query.count(other) for query in queries for mark, other in ("()", "{}", "[]"))


def test_both_pages_at_once(relay, next_hop):
    """Monitors that ask for either page at once are all told theirs."""
    one = relay([{"servers": [next_hop().port]}], metrics=True)
    targets = ["/", "/metrics"] * 6  # below the most monitors at a time
    streams = [connect(one.monitor, 60) for _ in targets]
    for stream, target in zip(streams, targets):
        stream.link.sendall(f"GET {target} HTTP/1.1\r\n\r\n".encode())
    for stream, target in zip(streams, targets):
        told = b"".join(iter(lambda link=stream.link: link.recv(1 << 16), b""))
        assert (b"version=0.0.4" in told) == (target == "/metrics") and told.startswith(b"HTTP/1.1 200 OK\r\n")


# ---- Debian's prometheus


def promtool(needed, *words, given=None):
    """What promtool says, where it has nothing against it."""
    needed("prometheus", shutil.which("promtool"))
    ran = subprocess.run(["promtool", *map(str, words)], input=given, capture_output=True, check=False)
    assert ran.returncode == 0, ran.stdout + ran.stderr
    return (ran.stdout + ran.stderr).decode()


def test_promtool(relay, next_hop, needed):
    """`promtool check metrics` has nothing to say of the page."""
    one = relay([{"match": "**", "servers": [next_hop(answer=hold).port]}], metrics=True)
    source = one.source()
    for tag in [*TAGS, *NO_TEXT]:
        source.send(tag)
    one.await_page(lambda it: it.accepted == 6)
    page = asked(one, "/metrics").split(b"\r\n\r\n", 1)[1]
    assert promtool(needed, "check", "metrics", given=page) == ""


def test_alerts(needed):
    """The example's rules are rules, and each alert comes where it should and only there."""
    promtool(needed, "check", "rules", TOP / "examples" / "alerts.yml")
    promtool(needed, "test", "rules", TOP / "tests" / "monitors" / "alerts_test.yml")


def test_prometheus(relay, next_hop, needed, tmp_path):
    """Prometheus scrapes a relay, and answers with its values."""
    needed("prometheus", shutil.which("prometheus"))
    one = relay([{"servers": [next_hop(answer=hold).port]}], metrics=True)
    one.source().send('a."\\\n')
    one.await_page(lambda it: it.accepted == 1)
    port = free_ports(1)[0]
    scrape = {"job_name": "forward_relay", "scrape_interval": "1s", "scrape_timeout": "1s"}
    scrape["static_configs"] = [{"targets": [f"{HOST}:{one.monitor}"]}]
    path = tmp_path / "prometheus.yml"
    path.write_text(json.dumps({"scrape_configs": [scrape]}))  # JSON is YAML
    words = ["prometheus", f"--config.file={path}", f"--storage.tsdb.path={tmp_path}/data"]
    with Child([*words, f"--web.listen-address={HOST}:{port}"], tmp_path / "said", port).start() as tool:

        def result(query):
            url = f"http://{HOST}:{port}/api/v1/query?{urllib.parse.urlencode({'query': query})}"
            try:
                with urllib.request.urlopen(url, timeout=30) as answer:
                    return json.load(answer)["data"]["result"]
            except urllib.error.HTTPError:  # it has begun, and does not answer yet
                return []

        found = tool.until(lambda: result("forward_relay_tag_held_entries"), "it has no values")
        assert found[0]["metric"]["tag"] == 'a."\\\n' and found[0]["value"][1] == "1"
        assert result("forward_relay_accepted_entries_total")[0]["value"][1] == "1"
        assert result("forward_relay_sources_open")[0]["value"][1] == "1"

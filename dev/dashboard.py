"""Writes examples/grafana.json, a dashboard for Grafana, from the list of metrics in docs/FORMATS.md.

It fails if a metric of the list is on no panel and not among those that no panel needs. `--check` writes nothing, and
fails if the file is another one.
"""

import json
import pathlib
import re
import sys

TOP = pathlib.Path(__file__).resolve().parent.parent
PATH = TOP / "examples" / "grafana.json"
OURS = 'job=~"$job",instance=~"$instance"'

# What graphs are of: a title, a unit of Grafana, and queries with their legends. NAME[] is a metric of the chosen relays,
# NAME{} the same at its output's pattern, and rate(NAME[]) how fast it rises.
ROWS = {
    "Overview": [
        (
            "Version and uptime",
            "s",
            [("uptime_seconds[] * on(instance) group_left(version) build_info[]", "{{version}}")],
        ),
        ("Draining", "none", [("draining[]", "{{instance}}")]),
        ("Sources", "none", [("sources_open[]", "open"), ("sources_limit[]", "limit")]),
        ("Sources closed per second", "none", [("rate(sources_closed_total[]) > 0", "{{reason}}")]),
        ("Connections over the limit per second", "none", [("rate(over_limit_total[])", "{{caller}}")]),
        ("Memory refused per second", "none", [("rate(memory_refused_total[]) > 0", "{{what}}")]),
        ("Journal lines left out per second", "none", [("rate(journal_lines_left_out_total[])", "{{instance}}")]),
    ],
    "Outputs": [
        (
            "Entries per second",
            "none",
            [
                ("rate(accepted_entries_total{})", "accepted {{match}}"),
                ("rate(settled_entries_total{})", "settled {{match}}"),
            ],
        ),
        (
            "Bytes per second",
            "Bps",
            [
                ("rate(accepted_bytes_total{})", "accepted {{match}}"),
                ("rate(settled_bytes_total{})", "settled {{match}}"),
            ],
        ),
        (
            "Share of total_limit held",
            "percentunit",
            [("held_bytes{} / on(instance,output,match) total_limit_bytes{}", "{{match}}")],
        ),
        ("Entries held", "none", [("held_entries{}", "{{match}}")]),
        ("Chunks held", "none", [("held_chunks{}", "{{match}}")]),
        ("Age of the oldest chunk", "s", [("oldest_chunk_age_seconds{}", "{{match}}")]),
        ("Sources that wait", "none", [("waiting_sources{}", "{{match}}")]),
        ("Bytes that wait", "bytes", [("waiting_bytes{}", "{{match}}")]),
        ("Requests refused per second", "none", [("rate(requests_refused_total{}) > 0", "{{match}} {{reason}}")]),
        (
            "Entries accepted without acknowledgement per second",
            "none",
            [("rate(accepted_without_ack_entries_total{})", "{{match}}")],
        ),
        ("Chunks refused per second", "none", [("rate(chunks_refused_total{})", "{{match}}")]),
        ("Most bytes held by a tag", "bytes", [("topk(10, tag_held_bytes[])", "{{output}} {{tag}}")]),
    ],
    "Servers": [
        ("Servers lost", "none", [("server_lost[]", "{{output}} {{server}}")]),
        (
            "Chunks acknowledged per second",
            "none",
            [("rate(server_acknowledged_chunks_total[])", "{{output}} {{server}}")],
        ),
        ("Chunks resent per second", "none", [("rate(server_resent_chunks_total[])", "{{output}} {{server}}")]),
        (
            "Sessions lost per second",
            "none",
            [("rate(server_sessions_lost_total[]) > 0", "{{output}} {{server}} {{reason}}")],
        ),
    ],
    "Process": [
        ("Memory", "bytes", [("process_resident_memory_bytes[]", "{{instance}}")]),
        ("Processor", "none", [("rate(process_cpu_seconds_total[])", "{{instance}}")]),
        ("Open files", "none", [("process_open_fds[]", "open"), ("process_max_fds[]", "limit")]),
    ],
}
# Metrics that no panel needs: the uptime says the start, and a panel shows tags by their bytes.
UNSHOWN = {"start_time_seconds", "process_start_time_seconds", "tags_left_out", "tag_held_entries"}
WORD = re.compile(r"\b([a-z_]+)(\[\]|\{\})")


def full(name):
    """A metric's whole name."""
    return name if name.startswith("process_") else f"forward_relay_{name}"


def query(text):
    """An expression of Prometheus: each rate is of a few scrapes, each metric of the chosen relays."""

    def selected(found):
        name, mark = found.groups()
        return f"{full(name)}{{{OURS}}}" + ("" if mark == "[]" else "@")

    text = re.sub(
        r"rate\(([a-z_]+)(\[\]|\{\})\)",
        lambda found: f"rate({full(found[1])}{{{OURS}}}[$__rate_interval])" + ("" if found[2] == "[]" else "@"),
        text,
    )
    text = WORD.sub(selected, text)
    info = f"* on(instance,output) group_left(match) {full('output_info')}{{{OURS}}}"
    return re.sub(r"(rate\([^()]*\)|[a-z_]+\{[^{}]*\})@", rf"(\1 {info})", text.replace("$", "$"))


def panel(number, place, made):
    """A graph: two stand side by side."""
    title, unit, queries = made
    return {
        "id": number,
        "type": "timeseries",
        "title": title,
        "datasource": {"type": "prometheus", "uid": "$source"},
        "gridPos": {"h": 8, "w": 12, "x": 12 * (place % 2), "y": 9 * (number // 2)},
        "fieldConfig": {"defaults": {"unit": unit, "min": 0}, "overrides": []},
        "targets": [
            {"refId": "ABCDEF"[at], "expr": query(text), "legendFormat": legend}
            for at, (text, legend) in enumerate(queries)
        ],
    }


def dashboard():
    """The whole of it."""
    panels, number = [], 0
    for title, graphs in ROWS.items():
        number += 2 - number % 2
        panels.append(
            {
                "id": number,
                "type": "row",
                "title": title,
                "collapsed": False,
                "gridPos": {"h": 1, "w": 24, "x": 0, "y": 9 * (number // 2)},
                "panels": [],
            }
        )
        number += 2
        for place, made in enumerate(graphs):
            panels.append(panel(number, place, made))
            number += 1
    of_label = {
        "type": "query",
        "datasource": {"type": "prometheus", "uid": "$source"},
        "includeAll": True,
        "multi": True,
        "refresh": 2,
    }
    names = {"job": "job", "instance": "relay"}
    choices = [
        of_label | {"name": name, "label": label, "query": f"label_values({full('build_info')}, {name})"}
        for name, label in names.items()
    ]
    source = {"name": "source", "label": "Prometheus", "type": "datasource", "query": "prometheus"}
    return {
        "uid": "forward-relay",
        "title": "forward_relay",
        "schemaVersion": 39,
        "editable": True,
        "refresh": "30s",
        "time": {"from": "now-3h", "to": "now"},
        "templating": {"list": [source, *choices]},
        "panels": panels,
    }


def asked(board):
    """The metrics that a dashboard asks for."""
    texts = [target["expr"] for each in board["panels"] for target in each.get("targets", [])]
    return {name for text in texts for name in re.findall(r"\b((?:forward_relay|process)_[a-z_]+)\{", text)}


def listed():
    """The metrics in the list of FORMATS."""
    section = (TOP / "docs" / "FORMATS.md").read_text().split("### The metrics page")[1].split("\n## ")[0]
    heads = re.findall(r"^- ((?:`[a-z_]+(?:\{[a-z_,]+\})?`(?:, )?)+)", section, re.MULTILINE)
    return {name for head in heads for name in re.findall(r"`([a-z_]+)", head)}


def main():
    board = dashboard()
    unshown = {full(name) for name in UNSHOWN}
    if (asked(board) | unshown) != listed() or asked(board) & unshown:
        sys.exit(f"not as FORMATS has them: {sorted((asked(board) | unshown) ^ listed())}")
    text = json.dumps(board, indent=2) + "\n"
    if "--check" not in sys.argv[1:]:
        PATH.write_text(text)
    elif not PATH.exists() or PATH.read_text() != text:
        sys.exit(f"{PATH} is not what this writes")


if __name__ == "__main__":
    main()

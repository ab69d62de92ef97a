#!/usr/bin/python3
"""Writes streams of Forward Protocol requests as a busy web service's loggers send them.

    /usr/bin/python3 bench/streams.py FOLDER MEGABYTES

writes FOLDER/message, FOLDER/forward and FOLDER/packed_forward, one mode of the protocol each, and FOLDER/packed_entries,
the entries of packed_forward without their requests. The streams are the same at every run.
"""

import pathlib
import random
import sys

import msgpack

TAGS = ["app.web.access", "app.web.error", "app.queue.worker", "sys.kern"]
PATHS = ["/", "/index.html", "/login", "/api/v1/orders", "/api/v1/orders/18823/items", "/static/js/app.3f2a.js"]
AGENTS = [
    "curl/7.88.1",
    "Go-http-client/1.1",
    "Mozilla/5.0 (X11; Linux x86_64) AppleWebKit/537.36 (KHTML, like Gecko) Chrome/120.0 Safari/537.36",
]
START = 1_700_000_000
ENTRIES = 100  # entries of a request that has many


def record(draw):
    it = {
        "method": draw.choice(["GET", "POST", "PUT"]),
        "path": draw.choice(PATHS),
        "status": draw.choice([200, 201, 304, 404, 500]),
        "bytes": draw.randrange(100_000),
        "time": draw.random(),
        "host": f"10.0.{draw.randrange(256)}.{draw.randrange(256)}",
        "agent": draw.choice(AGENTS),
        "user": draw.choice([None, "alice", "bob"]),
        "tls": draw.random() < 0.8,
        "request_id": f"{draw.getrandbits(64):016x}",
        "level": "info",
        "message": "request served",
    }
    if draw.random() < 0.3:
        labels = {"app": "web", "tier": "front"}
        it["kubernetes"] = {"pod": f"web-{draw.randrange(1000)}", "namespace": "prod", "labels": labels}
    return it


def entry(draw):
    return [START + draw.randrange(100_000), record(draw)]


def message(draw):
    return msgpack.packb([draw.choice(TAGS), *entry(draw)])


def forward(draw):
    return msgpack.packb([draw.choice(TAGS), [entry(draw) for _ in range(ENTRIES)]])


def packed_entries(draw):
    return b"".join(msgpack.packb(entry(draw)) for _ in range(ENTRIES))


def packed_forward(draw):
    return msgpack.packb(["app.web.access", packed_entries(draw), {"size": ENTRIES}])


def main(folder, megabytes):
    for make in (message, forward, packed_forward, packed_entries):
        draw = random.Random(7)
        with open(pathlib.Path(folder) / make.__name__, "wb") as out:
            while out.tell() < int(megabytes) * 1_000_000:
                out.write(make(draw))


if __name__ == "__main__":
    main(*sys.argv[1:])

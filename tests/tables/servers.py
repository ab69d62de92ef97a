#!/usr/bin/env python3
"""The calls of data/servers.txt of crates/relay_scripts, and the answers that they must have.

What is chosen follows docs/FORMATS.md, "How a worker logs in, and which server it tries". Writes
the table and its part of the program's stdout anew.
"""
from tables import write_table

DAY = 86_400_000
TOP = 2**64 - 1

calls, answers = [], []


def call(words):
    calls.append(words)


def asks(words, answer):
    calls.append(words)
    answers.append(f"{'none' if answer is None else answer} {words}")


# ---- a standby is tried while the primary waits: half a second first, four at the most
call("servers ps 500 4000")
call("failed 0 1000")
asks("choose 0 1200", 1)
asks("choose 0 1499", 1)
asks("choose 0 1500", 0)
asks("choose 0 1400", 0)
call("failed 0 1500")
asks("choose 0 1500", 1)
call("settled 0")
asks("choose 0 1500", 0)

# ---- a loss at the end of each wait: the waits double from a millisecond to a day, and stay a day
call(f"servers p 1 {DAY}")
now, wait = 0, 1
for losses in range(1, 201):
    call(f"failed 0 {now}")
    asks(f"wait {losses}", wait)
    asks(f"choose 0 {now + wait - 1}", None)
    asks(f"choose 0 {now + wait}", 0)
    now, wait = now + wait, min(2 * wait, DAY)
asks("wait 0", 0)
asks("wait 27", 67_108_864)
asks("wait 28", DAY)
asks(f"wait {TOP}", DAY)

# ---- the sessions that end in one outage are one loss: a loss during the wait after another changes nothing
call("servers p 500 4000")
for moment in (1000, 1000, 1001, 1499):
    call(f"failed 0 {moment}")
asks("choose 0 1499", None)
asks("choose 0 1500", 0)
call("failed 0 1500")
call("failed 0 1700")
asks("choose 0 2499", None)
asks("choose 0 2500", 0)
# what a server settles during its wait ends that, and the next loss is a first one
call("failed 0 2500")
call("settled 0")
call("failed 0 2600")
asks("choose 0 3099", None)
asks("choose 0 3100", 0)

# ---- which servers have a loss that they still wait for, the worker, and the server that it gets
CHOICES = {
    # the primaries once round from the worker's, with workers above their number
    "p": [([], 0, 0), ([], 5, 0), ([0], 0, None)],
    "pp": [([], 0, 0), ([], 1, 1), ([], 2, 0), ([], 3, 1), ([1], 1, 0), ([0, 1], 1, None)],
    "ppp": [
        ([], 2, 2),
        ([], 3, 0),
        ([], 7, 1),
        ([], 65_535, 0),
        ([1], 1, 2),
        ([2], 2, 0),
        ([1, 2], 1, 0),
        ([0, 2], 5, 1),
        ([0, 1, 2], 2, None),
    ],
    # the standbys in file order, behind all primaries, wherever they stand in the file
    "ps": [([], 1, 0), ([1], 1, 0), ([0], 0, 1), ([0, 1], 0, None)],
    "sp": [([], 0, 1), ([1], 0, 0)],
    "pps": [([0], 0, 1), ([0, 1], 1, 2), ([0, 1, 2], 1, None)],
    "spp": [([], 1, 2), ([], 2, 1), ([1], 0, 2), ([1, 2], 1, 0)],
    "psp": [([], 3, 2), ([2], 1, 0), ([0, 2], 1, 1)],
    "pss": [([0], 9, 1), ([0, 1], 9, 2), ([0, 1, 2], 9, None)],
    "sps": [([1], 0, 0), ([0, 1], 0, 2)],
    "ppss": [([0, 1, 2], 1, 3)],
    "ppps": [([1], 4, 2), ([0, 1, 2], 4, 3)],
    "pppss": [([0, 1, 2, 3], 2, 4), ([0, 1, 2, 3, 4], 2, None)],
    "spspp": [([], 0, 1), ([], 1, 3), ([], 5, 4), ([4], 2, 1), ([1, 3, 4], 2, 0), ([0, 1, 3, 4], 2, 2)],
}
for kinds, choices in CHOICES.items():
    primaries = [server for server, kind in enumerate(kinds) if kind == "p"]
    for waiting, worker, chosen in choices:
        call(f"servers {kinds} 10 10")
        for server in waiting:
            call(f"failed {server} 0")
        asks(f"choose {worker} 9", chosen)
        # at the end of the waits each server is usable, and the worker gets its own
        asks(f"choose {worker} 10", primaries[worker % len(primaries)])

# ---- a server that is not known has no loss and settles nothing, and its loss is no moment
call("servers ps 10 10")
call("failed 0 0")
call("failed 1 0")
for unknown in (2, 16, 65_535):
    call(f"failed {unknown} 1000")
    call(f"settled {unknown}")
    asks("choose 0 9", None)
asks("choose 0 10", 0)

write_table("servers.txt", calls, answers)

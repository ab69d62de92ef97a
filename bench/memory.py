"""The memory of a buffer beside what its entries and chunks may take.

memory.py PROGRAM

PROGRAM is relay_scripts as it was built. For each load it runs twice: to make the requests alone, and
to admit them all and settle them. The most memory of the second run less that of the first, by the
system's count of resident bytes, stands beside twice the entries' bytes, 8 bytes an entry and 256 a
chunk.
"""
import os
import subprocess
import sys

LOADS = [
    (1_000_000, 1, 20, 1),
    (1_000_000, 1_000, 20, 1),
    (1_000_000, 100_000, 20, 1),
    (100_000, 100_000, 20, 1),
    (1_000_000, 1, 20, 10_000),
    (1_000_000, 1, 200, 100),
    (1_000_000, 1_000, 200, 100),
    (1_000_000, 100_000, 200, 100),
]


def run(program, mode, load):
    """What it printed, and the most bytes that it had."""
    words = [program, "buffers", mode, *map(str, load), "1"]
    child = subprocess.Popen(words, stdout=subprocess.PIPE)
    text = child.stdout.read().decode()
    _, status, usage = os.wait4(child.pid, 0)
    if status:
        sys.exit(f"{words}: status {status}")
    return text, usage.ru_maxrss * 1024


if len(sys.argv) != 2:
    sys.exit(__doc__)
print("ENTRIES TAGS SIZE REQUEST  chunks  bytes  allowed  ratio")
for load in LOADS:
    _, before = run(sys.argv[1], "requests", load)
    text, most = run(sys.argv[1], "count", load)
    chunks = int(text.split("chunks ")[1].split()[0])
    entries, _, size, _ = load
    allowed = 2 * entries * size + 8 * entries + 256 * chunks
    print(*load, "", chunks, "", most - before, "", allowed, "", round((most - before) / allowed, 2))

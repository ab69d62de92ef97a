#!/usr/bin/env python3
"""Instructions that an entry takes in the relay, by thread and by function, counted by valgrind.

    /usr/bin/python3 bench/instructions.py PROGRAM [MODE [ENTRIES [SIZE]]]

It needs valgrind and cc. PROGRAM is a built forward_relay, as crates/forward_relay/out/forward_relay; MODE is packed,
forward or message (packed), ENTRIES how many are sent (200000), over ten connections, and SIZE how many of them are in
a request (a hundred; one in Message mode), as in the rows of relay.py. What a run takes with a tenth of them is taken
off, so that starting counts for nothing. The kernel's instructions are not counted, and valgrind runs one thread at a
time, so that the counts hang little on the machine.

The first thread is the one that reads sources. It prints the instructions an entry of all threads, of the first, and of
the functions that take at least a hundredth of the first one's.
"""

import pathlib
import re
import subprocess
import sys
import tempfile
from collections import Counter

TOP = pathlib.Path(__file__).resolve().parents[1]
sys.path[:0] = [str(TOP / part) for part in ("tests", "tools")]
from relay import Relay  # noqa: E402

HERE = TOP / "bench" / "relay"
CONNECTIONS, LEAST = 10, 0.01
NAME = re.compile(r"\((\d+)\)(?: (.*))?")


def build(folder, name):
    """A program of bench/relay, built."""
    words = ["cc", "-O2", "-pthread", "-o", folder / name, *(HERE / f"{it}.c" for it in (name, "common", "entries"))]
    subprocess.run(words, check=True)
    return str(folder / name)


def run(program, folder, mode, entries, size):
    """One run: its counts, a Counter by function for each thread."""
    sink = subprocess.Popen([build(folder, "sink"), "0"], stdout=subprocess.PIPE, text=True)
    port = int(sink.stdout.readline().split()[1])
    out = folder / f"counts-{entries}"
    under = ["valgrind", "--quiet", "--tool=callgrind", "--separate-threads=yes", f"--callgrind-out-file={out}"]
    one = Relay(program, folder, [{"servers": [port], "chunk_limit": 8_000_000}], under=under)
    one.environment["FORWARD_RELAY_LOG"] = ""
    one.start()
    words = ["--mode", mode, "--connections", CONNECTIONS, "--entries", size, "--total", entries, "--timeout", 1000]
    subprocess.run(
        [build(folder, "generator"), *map(str, words), "127.0.0.1", str(one.port)],
        check=True,
        stdout=subprocess.DEVNULL,
    )
    subprocess.run(["callgrind_control", "--dump", str(one.process.pid)], check=True, stdout=subprocess.DEVNULL)
    one.kill()
    sink.kill()
    return {number: counts(path) for number, path in dumps(folder, out.name)}


def dumps(folder, name):
    """The files of a dump, by the thread's number."""
    for path in sorted(folder.glob(f"{name}.1-*")):
        yield int(path.name.rpartition("-")[2]), path


def counts(path):
    """Instructions by function, without those of the functions that it calls."""
    names, found, function, is_call = {}, Counter(), None, False
    for line in path.read_text(errors="replace").splitlines():
        if line.startswith("fn="):
            number, name = NAME.match(line[3:]).groups()
            function = names.setdefault(number, name)
        elif line.startswith("cfn="):
            number, name = NAME.match(line[4:]).groups()
            names.setdefault(number, name)
        elif line.startswith("calls="):
            is_call = True
        elif line[:1] in "0123456789+-*" and line:
            if not is_call:
                found[function] += int(line.split()[1])
            is_call = False
    return found


def main():
    """Prints the table."""
    program = sys.argv[1]
    mode = sys.argv[2] if len(sys.argv) > 2 else "packed"
    entries = int(sys.argv[3]) if len(sys.argv) > 3 else 200_000
    size = int(sys.argv[4]) if len(sys.argv) > 4 else 1 if mode == "message" else 100
    with tempfile.TemporaryDirectory() as name:
        folder = pathlib.Path(name)
        few, many = (run(program, folder, mode, count, size) for count in (entries // 10, entries))
    more = entries - entries // 10
    for number in many:
        many[number].subtract(few.get(number, {}))
    first = many[1]
    whole = sum(first.values())
    everything = sum(sum(it.values()) for it in many.values())
    print(f"instructions an entry: all threads {everything / more:.1f}, the first {whole / more:.1f}")
    for function, count in first.most_common():
        if count >= LEAST * whole:
            print(f"{count / more:9.1f}  {function}")


if __name__ == "__main__":
    main()

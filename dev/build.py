#!/usr/bin/env python3
"""Builds the program without its proof, in some minutes: to try the relay, and to run tests and measures over it.

    python3 dev/build.py                 crates/forward_relay/out/unproved/forward_relay
    python3 dev/build.py --fast          crates/forward_relay/out/unproved/forward_relay_fast
    python3 dev/build.py --sanitize      crates/forward_relay/out/unproved/forward_relay_sanitize

The program says in its version how it was built, as in 0.2.0+unproved. It stops at an index out of bounds, an overflow
and a failed unwrap, as under `rt try`. That makes it several times slower than a proved program, and safe to try.

--fast leaves these checks out, as a proved program does, and is for figures alone. A program without proof and without
checks may do anything at an index out of bounds. Do not run it for anything but a measurement. Its version ends in
+unproved.fast.

--sanitize keeps the program that `rt try` itself runs: not optimized, and with AddressSanitizer. Its version ends in
+unproved.sanitize.

`rt` builds only what is proved, and `rt try` keeps nothing. But `rt try` has the toolchain's clang compile the module of
the whole program. So this lays out a copy of the toolchain, made of links, whose clang (or, for --sanitize, whose linker)
keeps what it is given. `rt try` runs in a copy of the sources, in which the constant of the version is another one. Both
copies are in a temporary folder, so the checkout stays as it is.
"""

import argparse
import os
import re
import shutil
import signal
import subprocess
import sys
import tempfile
import time
from pathlib import Path

TOP = Path(__file__).resolve().parent.parent
OUT = TOP / "crates" / "forward_relay" / "out" / "unproved"
VERSION_FILE = "crates/fwd_monitor/src/version.rt"
VERSION = re.compile(r'^pub const VERSION: &str = "([^"]*)";$', re.MULTILINE)
SIGNALS = (signal.SIGINT, signal.SIGTERM, signal.SIGHUP)

TARGET = "x86_64-unknown-linux-gnu"
# Those of a proved program, but for the level of optimization.
FLAGS = f"""--target={TARGET} -march=x86-64-v2 -fPIE -ffunction-sections -fdata-sections -mllvm -no-trap-after-noreturn
    -mllvm -trap-unreachable -mllvm -no-x86-call-frame-opt -mllvm -disable-machine-licm
    -mllvm -disable-postra-machine-licm -mllvm -sink-common-insts=false --no-default-config -no-canonical-prefixes
    -fintegrated-cc1 -fno-crash-diagnostics -c -x ir""".split()
# Prints a module as text, and changes nothing.
PRINT = f"--target={TARGET} -x ir -S -emit-llvm -Xclang -disable-llvm-passes -Wno-everything".split()

# Stands in for the toolchain's clang: keeps the module of the program, and ends.
KEEP_MODULE = """#!/bin/sh
case "$*" in *-fsanitize=address*) cp module.bc '{kept}'; exit 1 ;; esac
exec '{tool}' "$@"
"""
# Stands in for the toolchain's linker: keeps the program.
KEEP_PROGRAM = """#!/bin/sh
'{tool}' "$@" && cp program '{kept}'
"""

# What `rt try` has in a module beyond what a proved program has: calls of checks, and bytes over what is not written yet.
CHECK = re.compile(
    r'call void @"rattle-llvm-checks::|call void @llvm\.memset\.p0\.i64\(ptr %r\d*, i8 -86, i64 \d*, i1 false\)'
)


def marked(text, mark):
    """The text of the version's file, whose constant says how the program is built."""
    count = len(VERSION.findall(text))
    if count != 1:
        sys.exit(f'{VERSION_FILE}: {count} lines `pub const VERSION: &str = "..";`, where there has to be one')
    return VERSION.sub(rf'pub const VERSION: &str = "\1+{mark}";', text)


def copy_sources(to, mark):
    """Copies what `rt try` reads of the checkout; gives the version that the program is to say."""
    shutil.copytree(TOP / "crates", to / "crates", ignore=shutil.ignore_patterns("out"))
    for name in ("crates.txt", "HANDLES"):
        shutil.copy(TOP / name, to)
    path = to / VERSION_FILE
    path.write_text(marked(path.read_text(), mark))
    return VERSION.search(path.read_text())[1]


def toolchain():
    """The folder of the toolchain."""
    rt = shutil.which("rt")
    if rt is None:
        sys.exit("no rt on the PATH: README names the toolchain that builds the program")
    return Path(rt).resolve().parent.parent


def link_all(from_, to, but=()):
    """Makes a folder with a link to each entry of another one, but these."""
    to.mkdir()
    for path in from_.iterdir():
        if path.name not in but:
            (to / path.name).symlink_to(path.resolve())


def lay_out(kit, to, tool, script, kept):
    """Lays out a copy of the toolchain, in which a script stands in for a tool and keeps a file."""
    scripts = ("rt", "rtlib.py")  # they find the toolchain by where they lie
    link_all(kit, to, ("bin", "toolchain"))
    link_all(kit / "bin", to / "bin", (*scripts, "rattle"))
    for name in scripts:
        shutil.copy(kit / "bin" / name, to / "bin")
    (to / "bin" / "rattle").symlink_to("/bin/true")  # beside the try it looks for hints alone
    link_all(kit / "toolchain", to / "toolchain", ("bin",))
    link_all(kit / "toolchain" / "bin", to / "toolchain" / "bin", (tool,))
    path = to / "toolchain" / "bin" / tool
    path.write_text(script.format(tool=kit / "toolchain" / "bin" / tool, kept=kept))
    path.chmod(0o755)


def ran(words, **how):
    """Runs a command to its end, or ends it where this program is to end: its status, and what it said."""
    how = {"stdin": subprocess.DEVNULL, "stdout": subprocess.PIPE, "stderr": subprocess.STDOUT, **how}
    child = subprocess.Popen([str(word) for word in words], start_new_session=True, text=True, errors="replace", **how)
    try:
        said = child.communicate()[0]
    except BaseException:
        child.terminate()  # `rt` ends what it started, and removes its folder
        child.wait()
        raise
    return child.returncode, said


def must(words):
    """Runs a command that has to pass: what it said."""
    status, said = ran(words)
    if status:
        sys.exit(f"{said}{words[0]} ended with {status}")
    return said


def tried(kit, folder, tool, script, name):
    """Has `rt try` run over the sources of a folder, and a script in place of a tool: the file that it keeps."""
    kept = folder / name
    lay_out(kit, folder / "kit", tool, script, kept)
    words = [folder / "kit" / "bin" / "rt", "try", "--steps", "1", "--seconds", "60", "--", "version"]
    environment = {**os.environ, "TMPDIR": str(folder)}
    _, said = ran(words, cwd=folder / "sources" / "crates" / "forward_relay", env=environment)
    if not kept.exists():
        sys.exit(f"{said}rt try did not compile the program")
    return kept


def without_checks(clang, module):
    """A module without the checks of `rt try`, as text."""
    printed, kept = module.with_suffix(".printed.ll"), module.with_suffix(".ll")
    must([clang, *PRINT, module, "-o", printed])
    with open(printed) as lines, open(kept, "w") as fast:
        for line in lines:
            if not CHECK.search(line):
                line = line.replace(" sanitize_address ", " nounwind ").replace("nounwind nounwind", "nounwind")
                line = line.replace('"frame-pointer"="all"', "")
                fast.write(line.replace('"target-cpu"="x86-64"', '"target-cpu"="x86-64-v2"'))
    return kept


def compiled(kit, module, is_fast):
    """The program of a module."""
    clang = kit / "toolchain" / "bin" / "clang"
    source = without_checks(clang, module) if is_fast else module
    # With the checks in it the program is slow at any level, and clang takes less time for -O1.
    how = ["-O3", "-Wno-everything"] if is_fast else ["-O1", "-Werror"]
    code, program = module.with_suffix(".o"), module.with_suffix(".program")
    must([clang, f"--sysroot={kit / 'toolchain'}", *FLAGS, *how, source, "-o", code])
    link = [kit / "bin" / "rattle-link", "--target", TARGET, "--toolchain", kit / "toolchain"]
    must([*link, "-o", program, code, kit / "c" / "libos_c.a", kit / "c" / "liblibc_c.a"])
    return program


def put(program, version, to):
    """Puts a program in its place, if it says the version that it has to."""
    said = must([program, "version"])
    if said != f"forward_relay {version}\n":
        sys.exit(f"the program says {said!r} in place of {version}")
    to.parent.mkdir(parents=True, exist_ok=True)
    shutil.copy(program, f"{to}.new")
    os.replace(f"{to}.new", to)
    return said.strip()


def build(kit, folder, kind, say):
    """Builds the program of a kind in a folder, and puts it in its place."""
    version = copy_sources(folder / "sources", ".".join(["unproved", *kind]))
    say("rt try reads the program")
    if kind == ["sanitize"]:
        program = tried(kit, folder, "ld.lld", KEEP_PROGRAM, "program")
    else:
        module = tried(kit, folder, "clang", KEEP_MODULE, "module.bc")
        say("clang compiles it")
        program = compiled(kit, module, kind == ["fast"])
    to = OUT / "_".join(["forward_relay", *kind])
    said = put(program, version, to)
    say(f"{to.relative_to(TOP)} is {said}")


def stop(number, _):
    """Ends this program at a signal, once."""
    for one in SIGNALS:
        signal.signal(one, signal.SIG_IGN)
    sys.exit(128 + number)


def main():
    parser = argparse.ArgumentParser(description=__doc__, formatter_class=argparse.RawDescriptionHelpFormatter)
    kinds = parser.add_mutually_exclusive_group()
    kinds.add_argument("--fast", action="store_true", help="without checks, for figures alone")
    kinds.add_argument("--sanitize", action="store_true", help="with AddressSanitizer")
    given = parser.parse_args()
    for one in SIGNALS:
        signal.signal(one, stop)
    start = time.monotonic()

    def say(what):
        print(f"{time.monotonic() - start:4.0f} s  {what}", flush=True)

    with tempfile.TemporaryDirectory(prefix="unproved-") as folder:
        build(toolchain(), Path(folder), [kind for kind, is_given in vars(given).items() if is_given], say)


if __name__ == "__main__":
    main()

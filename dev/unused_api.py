#!/usr/bin/env python3
"""Lists the public functions of the libraries that no other crate and no test calls.

    python3 dev/unused_api.py [--types]

A body that always answers want of memory meets its contract, so each call that takes memory has to be made somewhere with
ample memory, and this finds those that are made nowhere. It reads the sources alone, as rattle.py does; laws (functions with
an empty body) and the methods of traits are left out. It prints `crate::Type::name` a line, and at the end how many.

It goes by names. `Type::name` has to be named so where it takes no `self`, a free function has to be imported where it is
named, and `.name(` is a call of each method of that name. So a method can hide behind another one's calls: with --types a
method is listed too where the name is called, but in no file that names the method's type. Some of those are called.
"""

import re
import sys

from rattle import CRATES, USE, Crate

GENERICS = r"(?:\s*::\s*<[^;(){}]*?>)?"


class Caller:
    """A file that may call: what it imports, and its code without that."""

    def __init__(self, source):
        self.code = source.run
        self.imports = " ".join(USE.findall(self.code))
        self.body = USE.sub(" ", self.code)

    def names(self, words):
        return any(re.search(rf"\b{word}\b", self.code) for word in words)


def call_of(function, owners):
    """What a call of a function looks like, and what its file has to import."""
    under = rf"\b(?:{'|'.join(owners)}){GENERICS}\s*::\s*{function.name}\b"
    if function.takes_self():
        return re.compile(rf"\.\s*{function.name}{GENERICS}\s*\(|{under}"), None
    if function.owner:
        return re.compile(under), None
    word = rf"(?<![.\w]){function.name}\b"
    return re.compile(rf"(?<!fn ){word}"), re.compile(rf"{word}|\*")


def main(by_types):
    crates = [Crate(path.parent.name) for path in sorted(CRATES.glob("*/src"))]
    callers = {crate.name: list(map(Caller, crate.sources)) for crate in crates}
    libraries = [crate for crate in crates if crate.name.startswith("fwd_")]
    aliases = {}
    for source in (source for library in libraries for source in library.sources):
        for alias, owner in re.findall(r"\bpub\s+type\s+(\w+)[^=;]*=\s*(\w+)", source.run):
            aliases.setdefault(owner, []).append(alias)
    count = 0
    for library in libraries:
        others = [caller for name, of_crate in callers.items() if name != library.name for caller in of_crate]
        for function in (f for _, f in library.public if f.is_pub and not f.is_law):
            owners = [function.owner, *aliases.get(function.owner, [])] if function.owner else []
            call, needed = call_of(function, owners)
            calling = [c for c in others if call.search(c.body) and (needed is None or needed.search(c.imports))]
            if by_types and function.takes_self():
                calling = [caller for caller in calling if caller.names(owners)]
            if not calling:
                print(f"{library.name}::{function}")
                count += 1
    print(f"called by no other crate and no test: {count}")


if __name__ == "__main__":
    main("--types" in sys.argv[1:])

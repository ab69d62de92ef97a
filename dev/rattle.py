"""What the tools here read of the libraries: functions with their contracts, and which of them are public.

It goes by the layout that `rt fmt` leaves. A function is public where lib.rt hands it out, or its type, or where its type
stands in the signature of one that is.
"""

import functools
import re
from pathlib import Path
from typing import NamedTuple, Optional

TOP = Path(__file__).resolve().parent.parent
CRATES = TOP / "crates"

NO_CODE = re.compile(
    r"""//[^\n]*                            # a comment
      | /\*.*?\*/
      | b?r(?P<hashes>\#*)".*?"(?P=hashes)  # a raw text
      | b?"(?:\\.|[^"\\])*"                 # a text
      | (?<!\w)b?'(?:\\[^']+|[^'\\\n])'     # a character, and no lifetime
    """,
    re.DOTALL | re.VERBOSE,
)
OPEN = r"pub(?:\([a-z]+\))? "
FUNCTION = re.compile(rf"^( {{4}})?({OPEN})?(?:const |unsafe )*fn (\w+)", re.MULTILINE)
BLOCK = re.compile(rf"^(?:{OPEN})?(?:unsafe )?(impl|trait)\b([^{{;]*)\{{", re.MULTILINE)
CLAUSE = re.compile(r"\b(requires|ensures)\b\*?\s*([\w«»]*)\s*(?=\{)")
GHOST = re.compile(r"\b(?:pub\s+)?ghost\b")
GHOST_USE = re.compile(r"\bghost use Rattle\.(\w+)\.specs\.([\w.]+?)(?:\.\{([^}]*)\}| as (\w+));")
USE = re.compile(r"\b(?:pub(?:\([^)]*\))?\s+)?use\b([^;]*);")
SELF = re.compile(r"\(\s*(?:&\s*)?(?:'\w+\s+)?(?:mut\s+)?self\b")


class Function(NamedTuple):
    """A function: its type or trait, if it stands under one, and its places in the file."""

    owner: Optional[str]
    name: str
    start: int
    end: int
    block: int  # where the impl or trait begins that it stands in, or -1
    is_pub: bool
    is_trait: bool  # whether a trait has it
    signature: str
    clauses: list  # of each its word, its name and its text
    is_law: bool
    comment: str

    def __str__(self):
        return f"{self.owner}::{self.name}" if self.owner else self.name

    def has_promise(self):
        return any(word == "ensures" for word, _, _ in self.clauses)

    def takes_self(self):
        return self.owner is not None and SELF.search(self.signature) is not None


class Source:
    """A file of a crate."""

    def __init__(self, path, folder):
        self.module = path.stem
        self.file = path.relative_to(folder).as_posix()
        self.text = path.read_text()
        self.code = NO_CODE.sub(lambda found: ("" if found[0][0] == "/" else "0").ljust(len(found[0])), self.text)
        self.blocks = [
            (found.start(), closing(self.code, found.end() - 1), *head_of(found)) for found in BLOCK.finditer(self.code)
        ]
        self.functions = [self.function(found) for found in FUNCTION.finditer(self.code)]

    def function(self, found):
        """The function that begins here."""
        block, _, owner, is_trait = next((b for b in self.blocks if b[0] < found.start() < b[1]), (-1, 0, None, False))
        last = place = found.end()
        clauses, signature = [], None
        while True:
            place = re.compile(r"[;{\[(]").search(self.code, place).start()
            if self.code[place] in "[(":
                place = closing(self.code, place)
                continue
            clause = CLAUSE.search(self.code, last, place + 1)
            if signature is None:
                signature = self.code[found.start() : clause.start() if clause else place]
            if clause is None:
                break
            last = closing(self.code, place)
            clauses.append((clause[1], clause[2], self.code[place:last]))
            place = last
        end = place + 1 if self.code[place] == ";" else closing(self.code, place)
        is_law = not self.code[place:end].strip("{}\n ") and self.code[place] == "{"
        is_pub = (found[2] or "").strip() == "pub"
        comment = comment_above(self.text, found.start())
        places = (found.start(), end, block)
        return Function(owner, found[3], *places, is_pub, is_trait, signature, clauses, is_law, comment)

    @functools.cached_property
    def uses(self):
        """Of each import of definitions: the block that it stands in, crate and file, and the names, or the name for all."""
        return list(self.ghost_uses())

    def ghost_uses(self):
        for found in GHOST_USE.finditer(self.code):
            block = next((b[0] for b in self.blocks if b[0] < found.start() < b[1]), -1)
            file, *rest = found[2].split(".")
            if file == "declared":
                continue
            if found[3] is None:
                yield block, (found[1], file), {found[4]}, not rest
                continue
            names = [re.split(r"\s+as\s+", part.strip())[-1] for part in found[3].split(",")]
            yield block, (found[1], file), {name for name in names if name}, False

    @functools.cached_property
    def run(self):
        """The code that runs: without clauses and what is ghost."""
        return blanked(blanked(self.code, CLAUSE, closing), GHOST, ghost_end)

    def home_of(self, owner):
        """The module that defines a type."""
        if re.search(rf"\b(?:struct|enum|trait|union)\s+{owner}\b", self.code):
            return self.module
        if re.search(rf"\buse super::(?:\{{[^}}]*)?\b{owner}\b", self.code):
            return self.file.split("/")[-2]
        found = re.search(rf"\buse crate::(\w+)::(?:\{{[^}}]*)?\b{owner}\b", self.code)
        return found[1] if found else self.module


def closing(code, start):
    """The place behind the bracket that closes the one at the start."""
    depth = 0
    for found in re.compile(r"[{}()\[\]]").finditer(code, start):
        depth += 1 if found[0] in "{([" else -1
        if depth == 0:
            return found.end()
    raise SystemExit(f"a bracket is never closed: {code[start : start + 60]!r}")


def ghost_end(code, place):
    """The place behind a ghost item or field."""
    while code[place] not in ";,}":
        place = closing(code, place) if code[place] in "{([" else place + 1
    return place + (code[place] != "}")


def blanked(code, pattern, end_of):
    """The code with blanks for what begins with a match of the pattern."""
    parts, last = [], 0
    while found := pattern.search(code, last):
        parts.append(code[last : found.start()])
        last = end_of(code, found.end())
        parts.append(" " * (last - found.start()))
    return "".join(parts) + code[last:]


def head_of(found):
    """The type of an impl, or the name of a trait, and whether it is a trait's."""
    head = re.sub(r"\bwhere\b.*", "", found[2], flags=re.DOTALL)
    while re.search(r"<[^<>]*>", head):
        head = re.sub(r"<[^<>]*>", "", head)
    owner = re.split(r"\bfor\b", head)[-1] if found[1] == "impl" else head.split(":")[0]
    words = re.findall(r"\w+", re.split(r"[({]", owner)[0])
    return (words[-1] if words else owner.strip()), found[1] == "trait"


def comment_above(text, place):
    """The first paragraph of the comment of what begins on a line, its lines joined."""
    lines = []
    for line in reversed(text[:place].splitlines()):
        line = line.strip()
        if line.startswith("///"):
            lines.insert(0, line[3:].strip())
        elif not line or line[-1] in "{};":
            break
    return " ".join(lines[: lines.index("")] if "" in lines else lines)


class Crate:
    """A crate: its sources, and what of it is public."""

    def __init__(self, name):
        self.name = name
        self.folder = CRATES / name
        self.sources = [Source(path, self.folder) for path in sorted((self.folder / "src").rglob("*.rt"))]

    @functools.cached_property
    def root(self):
        """The text of its lib.rt."""
        return (self.folder / "src" / "lib.rt").read_text()

    def exported(self):
        """The names that lib.rt hands out of its modules, each with its module."""
        names = {(module, None) for module in re.findall(r"^pub mod (\w+);", self.root, re.MULTILINE)}
        for module, rest in re.findall(r"^pub use (?:crate::)?(\w+)::([^;]*);", self.root, re.MULTILINE):
            names.update((module, name) for name in re.findall(r"\w+", rest))
        return names

    @functools.cached_property
    def public(self):
        """The public functions, each with its source, in the order of files."""
        every = [(source, f) for source in self.sources for f in source.functions if f.is_pub or f.is_trait]
        homes = [(source.home_of(function.owner) if function.owner else source.module) for source, function in every]
        reached = self.exported()
        while True:
            known = [
                entry
                for entry, home in zip(every, homes)
                if (home, entry[1].owner or entry[1].name) in reached or (home, None) in reached
            ]
            words = {word for _, function in known for word in re.findall(r"\w+", function.signature)}
            more = {(home, f.owner) for (_, f), home in zip(every, homes) if f.owner in words} - reached
            if not more:
                return known
            reached |= more


def library_names():
    """The libraries of crates.txt, in its order."""
    names = re.findall(r"^(\w+):", (TOP / "crates.txt").read_text(), re.MULTILINE)
    return [name for name in names if name.startswith("fwd_")]

#!/usr/bin/env python3
"""Tries the must-fail edits that the gate leaves out.

    python3 dev/edits.py NAME..

Those of `must-fail/` are tried by each `rt ci`. Those of `must-fail-minutes/` are tried by this, whenever the crate or what it
calls has changed: it puts them beside the others for as long as `rt must-fail NAME..` runs, and ends with its status.
"""

import subprocess
import sys

from rattle import CRATES, TOP


def moved(names):
    """Moves the crates' edits to where `rt` looks for them; gives the way back of each."""
    ways = []
    for name in names:
        room = CRATES / name / "must-fail"
        is_new = not room.exists()
        room.mkdir(exist_ok=True)
        for path in sorted((CRATES / name / "must-fail-minutes").glob("*.edit")):
            ways.append((path.rename(room / path.name), path, is_new))
    return ways


def main():
    names = sys.argv[1:]
    unknown = [name for name in names if not (CRATES / name / "must-fail-minutes").is_dir()]
    if unknown or not names:
        print(f"no must-fail-minutes: {' '.join(unknown) or 'name a crate'}", file=sys.stderr)
        return 2
    ways = moved(names)
    try:
        return subprocess.run(["rt", "must-fail", *names], cwd=TOP, check=False).returncode
    finally:
        for now, before, is_new in ways:
            now.rename(before)
            if is_new and not any(now.parent.iterdir()):
                now.parent.rmdir()


if __name__ == "__main__":
    sys.exit(main())

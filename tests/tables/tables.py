"""The tables of crates/relay_scripts: their lines, and what must be told of them."""
import re
from pathlib import Path

CRATE = Path(__file__).resolve().parents[2] / "crates" / "relay_scripts"


def text_of(lines):
    """A text of these lines."""
    return "".join(f"{line}\n" for line in lines)


def write_table(name, lines, answers):
    """Writes a table anew, and in the program's stdout what stands behind the table's heading.

    There a table ends at the next one's heading; behind the last one stands what is no table, from its line `values` on.
    """
    heading = f"== {name}\n"
    stdout = CRATE / "stdout"
    parts = re.split("^(?=== |values )", stdout.read_text(), flags=re.MULTILINE)
    places = [place for place, part in enumerate(parts) if part.startswith(heading)]
    if len(places) != 1:
        raise SystemExit(f"{len(places)} headings of {name} in {stdout}")
    parts[places[0]] = heading + text_of(answers)
    stdout.write_text("".join(parts))
    (CRATE / "data" / name).write_text(text_of(lines))

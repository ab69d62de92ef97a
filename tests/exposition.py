"""A reader of Prometheus' text format 0.0.4, as far as a relay's metrics page uses it."""

import re

SAMPLE = re.compile(r'([a-z_]+)(?:\{((?:[a-z_]+="(?:[^"\\\n]|\\["\\n])*",?)*)\})? (\d+(?:\.\d\d)?)')
LABEL = re.compile(r'([a-z_]+)="((?:[^"\\\n]|\\["\\n])*)"')
SPELLED = {"\\\\": "\\", '\\"': '"', "\\n": "\n"}


def label(text):
    """What an escaped value says."""
    return re.sub(r'\\["\\n]', lambda found: SPELLED[found[0]], text)


def read_metrics(text):
    """The samples of a page by name and labels. Each metric says what it is before its samples, and stands once."""
    samples, helped, typed, name = {}, set(), {}, None
    assert text.endswith("\n")
    for line in text[:-1].split("\n"):
        if line.startswith("# HELP "):
            name = line.split(" ")[2]
            assert name not in helped and len(line.split(" ")) > 3, line
            helped.add(name)
        elif line.startswith("# TYPE "):
            _, _, typed_name, kind = line.split(" ")
            assert typed_name == name and kind in ("counter", "gauge"), line
            typed[name] = kind
        else:
            found = SAMPLE.fullmatch(line)
            assert found and found[1] == name and name in typed, line
            labels = frozenset((key, label(value)) for key, value in LABEL.findall(found[2] or ""))
            assert (name, labels) not in samples, line
            samples[name, labels] = float(found[3]) if "." in found[3] else int(found[3])
    assert helped == set(typed)
    return samples

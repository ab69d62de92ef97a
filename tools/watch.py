#!/usr/bin/env python3
"""Shows what a relay does, a second at a time, from the page of its monitor.

    python3 tools/watch.py http://127.0.0.1:8080/
    python3 tools/watch.py --once http://127.0.0.1:8080/

The first needs a terminal, and ends at `q` or Ctrl-C. Of each output it shows how many entries a
second it accepts and settles, over the last ten seconds; what it holds, which is not settled, in
entries, bytes and chunks; under `stalled`, for how long it has settled nothing while it held
something; and the tags that hold the most bytes, as many as fit. A tag stands as it is where it is
UTF-8 that can be printed, and else as `hex:` and its digits. While the relay gives no page, this
says why, shows the last page, and keeps trying.

The second prints what the page tells at once, with the counts in place of their rates and at most
ten tags of each output, and ends; with 1 where the page cannot be had.
"""

import argparse
import contextlib
import curses
import locale
import queue
import signal
import sys
import threading
import time
import unicodedata
from collections import deque
from itertools import accumulate
from operator import sub

from page import NoPage, page_url, read_page, tag_text

PERIOD = 1.0  # seconds from one reading of the page to the next
WINDOW = 10.0  # seconds that a rate goes over
TAGS_AT_ONCE = 10  # tags of an output that `--once` prints

# The columns behind the title, with their widths. The title takes what is left of a line, and on a
# narrow screen columns at the end are left out for it.
TITLE = 8
COLUMNS = {"accepted/s": 12, "settled/s": 12, "held": 11, "bytes": 12, "chunks": 9, "stalled": 12}
PLAIN, STRONG, REVERSE = range(3)  # how a line of the screen is shown


# ---- what the pages tell


class Course:
    """What the pages so far tell of one output; a moment is in seconds of one clock."""

    def __init__(self, output, moment):
        self.output = output
        self.tags = by_bytes(output.tags)
        self.samples = deque([(moment, output.accepted, output.settled)])
        self.stirred = moment  # when it last settled an entry, or held none

    def fell(self, output):
        """Whether a later page has less of what only grows, so that another relay counts."""
        return output.accepted < self.output.accepted or output.settled < self.output.settled

    def take(self, output, moment, broken):
        """Takes what the next page tells; rates begin anew where pages are missing before it."""
        if output.settled != self.output.settled or output.held == 0:
            self.stirred = moment
        if broken:
            self.samples.clear()
        self.samples.append((moment, output.accepted, output.settled))
        while len(self.samples) > 2 and self.samples[1][0] <= moment - WINDOW:
            self.samples.popleft()
        self.output = output
        self.tags = by_bytes(output.tags)

    def rates(self):
        """Entries a second that it accepted and settled; none before there are two pages."""
        took, accepted, settled = map(sub, self.samples[-1], self.samples[0])
        return (accepted / took, settled / took) if took > 0 else None

    def stalled(self, moment):
        """For how many seconds it has settled nothing while it held something; none if it does."""
        return moment - self.stirred if self.output.held else None


class Watch:
    """What the pages so far tell of a relay."""

    def __init__(self, moment):
        self.courses = []
        self.moment = moment  # of the last page, or of the beginning
        self.fault = "not asked yet"  # why there is no page since then

    def take_page(self, outputs, moment):
        """Takes a page that was read at this moment."""
        if len(outputs) != len(self.courses) or any(map(Course.fell, self.courses, outputs)):
            self.courses = [Course(output, moment) for output in outputs]
        else:
            for course, output in zip(self.courses, outputs):
                course.take(output, moment, broken=self.fault is not None)
        self.moment, self.fault = moment, None

    def take_fault(self, fault):
        """Takes it that there is no page, and why."""
        self.fault = fault


def by_bytes(tags):
    """The tags, those first that hold the most bytes."""
    return sorted(tags, key=lambda tag: (-tag.bytes, -tag.held, tag.name))


# ---- texts


def scaled(number, base, units):
    """A number in the first of these units in which it is below the base, or in the last."""
    for unit in units:
        number /= base
        if number < base:
            break
    return f"{number:.1f} {unit}"


def number_text(number):
    """A number, to the unit below a million."""
    return f"{number:.0f}" if number < 1_000_000 else scaled(number / 1000, 1000, "MGTPE")


def rate_text(rate):
    """A rate, to a tenth below a hundred."""
    return f"{rate:.1f}" if rate < 100 else number_text(rate)


def size_text(size):
    """A number of bytes."""
    return f"{size} B" if size < 1024 else f"{scaled(size, 1024, 'KMGTPE')}iB"


def width_of(character):
    """How many columns of a terminal a character takes."""
    if unicodedata.category(character) in ("Mn", "Me"):
        return 0
    return 2 if unicodedata.east_asian_width(character) in "WF" else 1


def fitted(text, columns):
    """A text in just so many columns: filled up with spaces, or cut, with `…` at its end."""
    if sum(map(width_of, text)) > columns:
        kept, left = [], columns - 1
        for character in text:
            left -= width_of(character)
            if left < 0:
                break
            kept.append(character)
        text = "".join(kept) + "…" * (columns > 0)
    return text + " " * (columns - sum(map(width_of, text)))


def tag_title(tag):
    """A tag as a line begins with it."""
    return f"  {tag_text(tag.name, str.isprintable) or '(empty)'}"


# ---- the screen


def table_line(title, cells, width):
    """A line of the table: a title, which goes on over empty cells, and the cells with room."""
    room = sum(end <= width - TITLE for end in accumulate(COLUMNS.values()))
    cells = [cell.rjust(columns) for cell, columns in zip(cells, COLUMNS.values())][:room]
    behind = "".join(cells).lstrip()
    return fitted(f"{fitted(title, width - len(behind) - 1)} {behind}", width)


def course_line(course, moment, width):
    """The line of an output."""
    output, rates, stalled = course.output, course.rates(), course.stalled(moment)
    cells = [
        *(("-", "-") if rates is None else map(rate_text, rates)),
        number_text(output.held),
        size_text(output.bytes),
        number_text(output.chunks),
        "-" if stalled is None else f"{stalled:.0f} s",
    ]
    return table_line(f"{output.number}", cells, width)


def tag_lines(tags, count, width):
    """So many lines of tags, the last of which says how many are left out, if there are others."""
    shown = tags[: count - 1] if 1 < count < len(tags) else tags[:count]
    for tag in shown:
        cells = ["", "", number_text(tag.held), size_text(tag.bytes), "", ""]
        yield table_line(tag_title(tag), cells, width)
    if 1 < count < len(tags):
        yield fitted(f"  and {len(tags) - len(shown)} more tags", width)


def shares(wants, lines):
    """How many lines each gets of those that it wants, if they are dealt out one by one."""
    given = [0] * len(wants)
    while lines > 0 and (open_to := [i for i, want in enumerate(wants) if given[i] < want][:lines]):
        for i in open_to:
            given[i] += 1
        lines -= len(open_to)
    return given


def table_lines(courses, moment, width, height):
    """The lines of the outputs and their tags, each with how it is shown, in so many at most."""
    shown = courses if len(courses) <= height else courses[: max(height - 1, 0)]
    room = height - len(shown) - (len(shown) < len(courses))
    for course, count in zip(shown, shares([len(course.tags) for course in shown], room)):
        yield course_line(course, moment, width), STRONG
        for line in tag_lines(course.tags, count, width):
            yield line, PLAIN
    if len(shown) < len(courses):
        yield fitted(f"and {len(courses) - len(shown)} more outputs", width), PLAIN


def screen_lines(watch, url, moment, width, height):
    """The lines of a screen of this size, each with how it is shown."""
    lines = [(fitted(f"{fitted(f'forward_relay at {url}', width - 8)} q quits", width), PLAIN)]
    if watch.fault is not None:
        age = f"{moment - watch.moment:.0f} s"
        lines.append((fitted(f"no page for {age}: {watch.fault}", width), REVERSE))
        moment = watch.moment
    else:
        lines.append((" " * width, PLAIN))
    if watch.courses:
        lines.append((table_line("output", COLUMNS, width), REVERSE))
        lines += table_lines(watch.courses, moment, width, height - len(lines))
    return lines[:height]


def draw(screen, lines):
    """Draws the screen anew."""
    shown = {PLAIN: curses.A_NORMAL, STRONG: curses.A_BOLD, REVERSE: curses.A_REVERSE}
    screen.erase()
    for row, (text, style) in enumerate(lines):
        with contextlib.suppress(curses.error):  # behind the last cell, or the screen just shrank
            screen.addstr(row, 0, text, shown[style])
    screen.refresh()


def read_on(url, readings):
    """Reads the page again and again, and puts what came of it, a list of outputs or a fault."""
    while True:
        begin = time.monotonic()
        try:
            reading = read_page(url)
        except NoPage as fault:
            reading = fault
        readings.put((time.monotonic(), reading))
        time.sleep(max(0, begin + PERIOD - time.monotonic()))


def show(screen, url):
    """Shows the relay until `q`."""
    with contextlib.suppress(curses.error):
        curses.curs_set(0)
    screen.timeout(200)
    readings = queue.SimpleQueue()
    threading.Thread(target=read_on, args=(url, readings), daemon=True).start()
    watch = Watch(time.monotonic())
    while True:
        while not readings.empty():
            moment, reading = readings.get()
            if isinstance(reading, NoPage):
                watch.take_fault(reading)
            else:
                watch.take_page(reading, moment)
        height, width = screen.getmaxyx()
        draw(screen, screen_lines(watch, url, time.monotonic(), width, height))
        if screen.getch() in map(ord, "qQ"):
            return


# ---- at once


def snapshot_rows(outputs):
    """The rows of what a page tells."""
    yield "output", "accepted", "settled", "held", "bytes", "chunks"
    for output in outputs:
        yield tuple(map(str, output[:6]))
        tags = by_bytes(output.tags)
        for tag in tags[:TAGS_AT_ONCE]:
            yield tag_title(tag), "", "", f"{tag.held}", f"{tag.bytes}", ""
        if len(tags) > TAGS_AT_ONCE:
            yield f"  and {len(tags) - TAGS_AT_ONCE} more tags", "", "", "", "", ""


def snapshot_lines(outputs):
    """What a page tells, as lines of a table as wide as it has to be."""
    rows = list(snapshot_rows(outputs))
    title = max(sum(map(width_of, row[0])) for row in rows)
    widths = [max(map(len, column)) for column in list(zip(*rows))[1:]]
    for first, *cells in rows:
        cells = (cell.rjust(width) for cell, width in zip(cells, widths))
        yield "  ".join((fitted(first, title), *cells)).rstrip()


def main():
    """Shows the relay, or prints a snapshot; the exit status."""
    parser = argparse.ArgumentParser(description="Shows what a relay does.")
    parser.add_argument("page", type=page_url, help="the monitor's page, as http://127.0.0.1:8080/")
    parser.add_argument("--once", action="store_true", help="print one snapshot, and end")
    arguments = parser.parse_args()
    if arguments.once:
        try:
            outputs = read_page(arguments.page)
        except NoPage as fault:
            print(f"watch: no page: {fault}", file=sys.stderr)
            return 1
        sys.stdout.reconfigure(errors="backslashreplace")
        print("\n".join(snapshot_lines(outputs)))
        return 0
    if not (sys.stdin.isatty() and sys.stdout.isatty()):
        parser.error("no terminal to show it on; --once prints a snapshot")
    locale.setlocale(locale.LC_ALL, "")
    signal.signal(signal.SIGTERM, signal.default_int_handler)  # gives the terminal back
    with contextlib.suppress(KeyboardInterrupt):
        curses.wrapper(show, arguments.page)
    return 0


if __name__ == "__main__":
    sys.exit(main())

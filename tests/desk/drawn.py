"""The picture of a page's whole run, read from the page, and drawn a second time from what a run was. A row of it is
the set of columns in which something stands: 'events', 'faults', and ('high', P) and ('low', P) of each priority P."""
import re

COLUMNS = 1000
HEIGHTS = {23: "events", 175: "faults", **{44 + 16 * (7 - p): p for p in range(8)}}


def section(page):
    """All that the page has of the picture."""
    part = page[page.index("<h2>The whole run</h2>"):]
    return part[:re.search(r"<h2|<section", part[4:]).start() + 4]


def read(page):
    rows = {}
    for name, path in re.findall(r'<path class="(\w+)" d="([^"]*)"/>', section(page)):
        for height, pieces in re.findall(r"M0 (\d+)((?:m\d+ 0h\d+)+)", path):
            columns, at = set(), 0
            for skip, width in re.findall(r"m(\d+) 0h(\d+)", pieces):
                columns |= set(range(at + int(skip), at + int(skip) + int(width)))
                at += int(skip) + int(width)
            row = HEIGHTS[int(height)]
            rows[row if name == "tick" else (name, row)] = columns
    return rows


def marks(page):
    """The numbers of the axis, and the step where the walk begins, each with its place in columns."""
    found = re.findall(r'<text class="(\w+)[^"]*" x="([\d.]+)%"[^>]*>(?:[^<]*?)(\d+)</text>', section(page))
    return [(name, round(float(at) * 10), int(step)) for name, at, step in found]


def least(rows, row, first, past):
    first = min(first, COLUMNS - 2)
    rows.setdefault(row, set()).update(range(first, max(past, first + 2)))


def draw(turns, events, start, steps):
    """Turns are (step, act, priority after) in order, acts 'accept', 'chain', 'trap', 'fault', 'halt', 'pull'."""
    column = lambda step: (step - start) * COLUMNS // steps
    rows, handlers = {}, []
    for step in events:
        least(rows, "events", column(step), 0)
    for step, act, priority in turns:
        if act in ("fault", "halt"):
            least(rows, "faults", column(step), 0)
        if act in ("pull", "chain") and handlers:
            row, first = handlers.pop()
            least(rows, row, first, column(step + (act == "pull")) - 1)
        if act in ("accept", "chain"):
            handlers.append((("high", priority), column(step)))
        if act in ("trap", "fault"):
            handlers.append((("low", priority), column(step)))
    for row, first in handlers:
        least(rows, row, first, COLUMNS)
    return rows

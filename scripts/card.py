#!/usr/bin/env python3
"""The reference card as a table for reading where nothing is built: docs/CARD.md, of what 'xm23 card' writes.

    card.py PAGE            writes docs/CARD.md of the page
    card.py --check PAGE    whether it is that of the page; the last line is 'N passed, M failed'
"""
import html.parser
import pathlib
import sys

ROOT = pathlib.Path(__file__).resolve().parent.parent
HEAD = """# Reference card

Every operation, with the flags that it sets and one example as the proved machine answers it. `xm23 card` writes the same
as a page for a screen or a sheet, with the bits of each word; scripts/card.py writes this text of it. docs/MACHINE.md has
the machine in brief.

| Operation | Flags | Example | Before | After |
|---|---|---|---|---|
"""


class Page(html.parser.HTMLParser):
    """The rows of the card, each cell by its class; the paragraphs below the table."""

    def __init__(self, text):
        super().__init__()
        self.rows, self.notes, self.cell, self.note, self.off = [], [], None, None, False
        self.feed(text)
        self.close()

    def handle_starttag(self, tag, attrs):
        kind = dict(attrs).get("class")
        if tag == "tr":
            self.rows.append([])
        elif tag == "td":
            self.cell = [kind, ""]
            self.rows[-1].append(self.cell)
        elif tag == "p":
            self.note = ""
        self.bold(tag)
        self.off = tag == "i" and kind == "off"

    def bold(self, tag):
        if tag == "b" and self.cell and self.cell[0] == "state":
            self.cell[1] += "**"

    def handle_endtag(self, tag):
        self.bold(tag)
        if tag == "td":
            self.cell = None
        elif tag == "p" and self.note is not None:
            self.notes.append(" ".join(self.note.split()))
            self.note = None
        self.off = False

    def handle_data(self, data):
        if self.cell:
            self.cell[1] += "" if self.off else data
        elif self.note is not None:
            self.note += data


def row_of(cells):
    """A row of the table: what a reader of programs wants of it."""
    name, flags, example = (next(text for kind, text in cells if kind == wanted) for wanted in ("name", "flags", "example"))
    before, after = (" ".join(text.split()) for kind, text in cells if kind == "state")
    return f"| `{name}` | {flags} | `{example}` | {before} | {after} |\n"


def wrapped(note):
    """A note in lines of 120 columns at most."""
    lines = [""]
    for word in note.split():
        if len(lines[-1]) + len(word) + 1 > 118:
            lines.append("")
        lines[-1] += (" " if lines[-1] else "") + word
    return "\n".join(lines)


def text_of(page):
    page = Page(page)
    rows = "".join(row_of(cells) for cells in page.rows if cells)
    return HEAD + rows + "\n" + "\n\n".join(wrapped(note) for note in page.notes) + "\n"


def main():
    check = sys.argv[1:2] == ["--check"]
    if len(sys.argv) != 2 + check:
        print(__doc__.strip(), file=sys.stderr)
        return 2
    made = text_of(pathlib.Path(sys.argv[-1]).read_text(encoding="utf-8"))
    file = ROOT / "docs/CARD.md"
    if not check:
        file.write_text(made, encoding="utf-8")
        return 0
    held = file.exists() and file.read_text(encoding="utf-8") == made
    if not held:
        print("docs/CARD.md is not the card: run scripts/card.py on what 'xm23 card' writes")
    print("1 passed, 0 failed" if held else "0 passed, 1 failed")
    return 0 if held else 1


if __name__ == "__main__":
    sys.exit(main())

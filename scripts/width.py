#!/usr/bin/env python3
"""No line of the documents is wider than 160 columns, none of README.md than 110, none of a proof than 140:
width.py [ROOT].

README.md, which has at most 90 lines, CHANGELOG.md, everything of docs/ that is text, the sources of the manual pages,
and the proofs. A row of a table may have 300, where it cannot be a list. A line that is wider is printed as 'file:line:
so many columns'. One is counted for each file; the last line is 'N passed, M failed'.
"""
import pathlib
import sys

ROW, README_LINES = 300, 90
# Where: how many columns, and a row of a table.
PLACES = {"README.md": (110, 110), "CHANGELOG.md": (160, ROW), "docs/**/*.md": (160, ROW), "docs/**/*.txt": (160, ROW),
          "man/*.[1-8]": (160, ROW), "crates/*/proofs/**/*.antt": (140, 140)}


def wide_lines(path, most, row):
    """What is too wide, and in README.md the lines that are too many: (number, columns)."""
    for number, line in enumerate(path.read_text(encoding="utf-8").split("\n"), 1):
        columns = len(line.expandtabs())
        if columns > (row if line.startswith("|") else most) or (path.name == "README.md" and line and number > README_LINES):
            yield number, columns


def check(root):
    """(how many files, [(file, its lines that are too wide)] of those that have some)."""
    files = sorted((path, limits) for place, limits in PLACES.items() for path in pathlib.Path(root).glob(place))
    wide = [(path.relative_to(root), list(wide_lines(path, *limits))) for path, limits in files]
    return len(files), [(path, lines) for path, lines in wide if lines]


def main():
    root = sys.argv[1] if len(sys.argv) > 1 else pathlib.Path(__file__).resolve().parent.parent
    files, wide = check(root)
    for path, lines in wide:
        for number, columns in lines:
            print(f"{path}:{number}: {columns} columns")
    print(f"{files - len(wide)} passed, {len(wide)} failed")
    return 1 if wide else 0


if __name__ == "__main__":
    sys.exit(main())

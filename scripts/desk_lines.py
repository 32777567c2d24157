#!/usr/bin/env python3
"""The lines of the desk's files in the table of docs/TRUST.md.

    desk_lines.py            writes them anew
    desk_lines.py --check    whether they are those of the files, and whether every file of desk/*.c stands there once;
                             the last line is 'N passed, M failed'
"""
import pathlib
import re
import sys

ROOT = pathlib.Path(__file__).resolve().parent.parent
ROW = re.compile(r"^\| ((?:`\w+\.c`(?:, )?)+) \| ([\d +]+) \|", re.M)


def lines_of(root):
    """File to its lines, of every file of the desk."""
    return {path.name: path.read_text(encoding="utf-8").count("\n") for path in (root / "desk").glob("*.c")}


def rows(text):
    """The rows of the table: (the files that a row names, their lines as it has them)."""
    return [(re.findall(r"`([^`]+)`", row[1]), row[2].split(" + ")) for row in ROW.finditer(text)]


def written(text, lines):
    """The text with the lines as they are; of a file that is not there what it said."""
    def row(found):
        old = dict(zip(re.findall(r"`([^`]+)`", found[1]), found[2].split(" + ")))
        new = " + ".join(str(lines.get(name, said)) for name, said in old.items())
        return f"| {found[1]} | {new} |"
    return ROW.sub(row, text)


def check(text, lines):
    """What is wrong with the table."""
    named = [name for names, _ in rows(text) for name in names]
    for name in sorted(set(lines) - set(named)):
        yield f"docs/TRUST.md: no row has desk/{name}"
    for name in sorted(set(named)):
        if name not in lines:
            yield f"docs/TRUST.md: desk/{name} is not there"
        elif named.count(name) > 1:
            yield f"docs/TRUST.md: desk/{name} stands there twice"
    for names, said in rows(text):
        if len(names) != len(said):
            yield f"docs/TRUST.md: {len(names)} files and {len(said)} numbers in the row of {names[0]}"
        for name, number in zip(names, said):
            if number != str(lines.get(name, number)):
                yield f"docs/TRUST.md: desk/{name} has {lines[name]} lines, not {number}: run scripts/desk_lines.py"


def main():
    if sys.argv[1:] not in ([], ["--check"]):
        print(__doc__.strip(), file=sys.stderr)
        return 2
    page, lines = ROOT / "docs/TRUST.md", lines_of(ROOT)
    text = page.read_text(encoding="utf-8")
    if not sys.argv[1:]:
        page.write_text(written(text, lines), encoding="utf-8")
        return 0
    wrong = list(check(text, lines))
    for line in wrong:
        print(line)
    print(f"{max(len(lines) - len(wrong), 0)} passed, {len(wrong)} failed")
    return 1 if wrong else 0


if __name__ == "__main__":
    sys.exit(main())

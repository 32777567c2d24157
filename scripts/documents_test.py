#!/usr/bin/env python3
"""width.py, references.py, desk_lines.py and decisions.py held to what they must refuse. The last line is
'N passed, M failed'."""
import pathlib
import sys
import tempfile

import decisions
import desk_lines
import references
import width


def wide(path, text):
    """How many files width.py refuses of a repository with one document."""
    with tempfile.TemporaryDirectory() as name:
        file = pathlib.Path(name) / path
        file.parent.mkdir(parents=True, exist_ok=True)
        file.write_text(text, encoding="utf-8")
        files, found = width.check(name)
        assert files == 1
        return len(found)


def named(text, page="docs/A.md"):
    """(how many names references.py finds in a page, how many of them are not there)."""
    with tempfile.TemporaryDirectory() as name:
        root = pathlib.Path(name)
        for path in ("scripts/a.py", "crates/alu/specs/Alu.antt", page):
            (root / path).parent.mkdir(parents=True, exist_ok=True)
            (root / path).write_text(text, encoding="utf-8")
        looked, wrong = references.check(root)
        return looked, len(wrong)


LINES = {"a.c": 10, "b.c": 20}
TABLE = "| Files | Lines | What |\n|---|---|---|\n| `a.c`, `b.c` | 10 + 20 | all |\n| | | more |\n"


def lines_wrong(text, lines=None):
    """How many things desk_lines.py finds wrong with a table."""
    return len(list(desk_lines.check(text, lines or LINES)))


ENTRY = "### First\n\n- Asked: one.\n- Done: two,\n  and more.\n- Why: three.\n\n"
LATER = '### Second\n\n- Replaced: wholly by "First".\n- Asked: one.\n- Done: two.\n'


def indexed(body):
    """A file of decisions with this body and the index of it."""
    text = f"# Decisions\n\n# Index\n\n# Readings\n\n## 01 Entry\n\n{body}"
    return decisions.INDEX.sub(lambda _: decisions.index(decisions.parts(text)[0]), text, count=1)


def entries_wrong(body):
    """How many things decisions.py finds wrong with a body whose index is right."""
    return len(decisions.check(indexed(body))[1])


CASES = {
    "a line of 160 columns": wide("docs/a/b.md", "x" * 160) == 0,
    "a line of 161": wide("docs/a/b.md", "x\n" + "x" * 161) == 1,
    "letters are counted, not bytes": wide("docs/a.md", "§" * 160) == 0,
    "a line of README of 110": wide("README.md", "§" * 110) == 0,
    "one of 111, a row too": wide("README.md", "x" * 111) == 1 and wide("README.md", "|" + "x" * 110) == 1,
    "README of 90 lines": wide("README.md", "x\n" * 90) == 0,
    "README of 91": wide("README.md", "x\n" * 91) == 1,
    "a line of a proof of 140, and of 141": [wide("crates/a/proofs/f/P.antt", "x" * n) for n in (140, 141)] == [0, 1],
    "a row of a table of 300": wide("CHANGELOG.md", "|" + "x" * 299) == 0,
    "a row of 301": wide("CHANGELOG.md", "|" + "x" * 300) == 1,
    "a manual page": wide("man/a.1", "x" * 161) == 1,
    "a text": wide("docs/a.txt", "x" * 161) == 1,
    "files that are there": named("scripts/a.py, (crates/alu), `alu/specs/Alu.antt`, crates/*/specs/.") == (4, 0),
    "a file that is gone": named("scripts/a.py and scripts/b.py") == (2, 1),
    "a file of a crate that is gone": named("`alu/specs/Sums.antt`", "man/a.1") == (1, 1),
    "a folder that is gone": named("see tests/none/") == (1, 1),
    "a name that is cut short, and other paths": named("scripts/.., /usr/scripts/x, build/scripts/x") == (0, 0),
    "links": named("# A title: x\n[x](#a-title-x) [y](A.md#a-title-x) [z](A.md) [w](https://x.y/#z)") == (3, 0),
    "a link to no heading": named("# A heading\n[x](#another)") == (1, 1),
    "a link to no file": named("[x](B.md), [y](B.md#there)") == (2, 2),
    "notes of their time": named("scripts/b.py", "docs/landings/a.md") == (0, 0),
    "a sound table": lines_wrong(TABLE) == 0,
    "another number": lines_wrong(TABLE.replace("20", "21")) == 1,
    "a file that no row has": lines_wrong(TABLE, {**LINES, "c.c": 1}) == 1,
    "a file that is not there": lines_wrong(TABLE, {"a.c": 10}) == 1,
    "a file twice": lines_wrong(TABLE + "| `a.c` | 10 | again |\n") == 1,
    "a number too few": lines_wrong(TABLE.replace(" + 20", "")) == 1,
    "numbers written anew": lines_wrong(desk_lines.written(TABLE.replace("10", "7"), LINES)) == 0,
    "sound entries": entries_wrong(ENTRY + LATER) == 0,
    "an entry without what was done": entries_wrong(ENTRY.replace("- Done: two,\n  and more.\n", "")) == 1,
    "a field that there is not": entries_wrong(ENTRY.replace("Why", "Because")) == 1,
    "fields in another order": entries_wrong(ENTRY + "### Third\n\n- Done: two.\n- Asked: one.\n") == 1,
    "a line outside the fields": entries_wrong(ENTRY + "So it is.\n") == 1,
    "a title twice": entries_wrong(ENTRY + ENTRY) == 2,
    "replaced by an entry that is not there": entries_wrong(LATER) == 1,
    "an entry of more than fifteen lines": entries_wrong(ENTRY.rstrip() + "\n" + "  more\n" * 12) == 1,
    "a new entry at the end": entries_wrong(ENTRY + "## New\n\nAsked: one.\nDone: two.\n") == 0,
    "an index that lacks an entry": len(decisions.check(indexed(ENTRY) + ENTRY.replace("First", "Third"))[1]) == 1,
    "an index that is not there": len(decisions.check(ENTRY)[1]) == 1,
}


def main():
    wrong = [name for name, held in CASES.items() if not held]
    for name in wrong:
        print(f"not held: {name}")
    print(f"{len(CASES) - len(wrong)} passed, {len(wrong)} failed")
    return 1 if wrong else 0


if __name__ == "__main__":
    sys.exit(main())

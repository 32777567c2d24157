#!/usr/bin/env python3
"""What the documents name is there: references.py [ROOT].

README.md, docs/ and the sources of the manual pages, but for notes of landings and changes, which speak of their time.
Every file and folder of the repository that they name: a name begins with one of the repository's folders, or is of a
crate, `alu/specs/Alu.antt`, and `*` stands for anything; of docs/TRACE.md scripts/trace.py looks at them. And every
link, `[text](#heading)`, `[text](FILE.md#heading)` or `[text](FILE)`, but for those that lead out of the repository.
The last line is 'N passed, M failed'.
"""
import pathlib
import re
import sys

from decisions import anchor

PAGES = ["README.md", "docs/*.md", "docs/*.txt", "man/*.[1-8]"]
LEFT = "docs/TRACE.md"
LINK = re.compile(r"\]\((?!\w+:)([^)#\s]*)(?:#([^)\s]*))?\)")
FOLDERS = "bench|crates|desk|docs|examples|include|man|oracle|python|scripts|tests"
BUILT = "oracle/target"  # made by what is built, so not there in a clean clone
NAME = re.compile(rf"(?<![\w/.$-])((?:{FOLDERS}|\w+(?=/(?:specs|proofs|src|must-fail)/))/[\w./*-]*[\w*])")


def names(text):
    """The names of files in a text, with the lines that they stand in. One that is cut short by .. is none."""
    for number, line in enumerate(text.split("\n"), 1):
        for found in NAME.finditer(line):
            if ".." not in found[1] and not found[1].startswith(BUILT):
                yield number, found[1]


def is_there(root, name):
    """Whether a name is a file, a folder or the beginning of one, from the root or from the crates."""
    return any(next(place.glob(name + end), None) for place in (root, root / "crates") for end in ("", "*"))


def leads(page, file, heading):
    """Whether a link of a page leads to a file that is there, and to a heading of it where it names one."""
    path = page.parent / file if file else page
    if not path.exists() or heading is None:
        return path.exists()
    titles = re.findall(r"^#+ (.*)$", path.read_text(encoding="utf-8"), re.M)
    return heading in {anchor(title) for title in titles}


def check(root):
    """(how many names and links, [what is wrong])."""
    looked, wrong = 0, []
    for page in sorted({path for place in PAGES for path in root.glob(place)}):
        text, place = page.read_text(encoding="utf-8"), page.relative_to(root)
        found = [] if str(place) == LEFT else list(names(text))
        links = list(LINK.finditer(text)) if page.suffix == ".md" else []
        looked += len(found) + len(links)
        wrong += [f"{place}:{number}: {name} is not there" for number, name in found if not is_there(root, name)]
        wrong += [f"{place}: {link[0][1:]} leads nowhere" for link in links if not leads(page, link[1], link[2])]
    return looked, wrong


def main():
    root = pathlib.Path(sys.argv[1]) if len(sys.argv) > 1 else pathlib.Path(__file__).resolve().parent.parent
    looked, wrong = check(root)
    for line in wrong:
        print(line)
    print(f"{looked - len(wrong)} passed, {len(wrong)} failed")
    return 1 if wrong else 0


if __name__ == "__main__":
    sys.exit(main())

#!/usr/bin/env python3
"""The index of docs/DECISIONS.md, and the form of its entries.

    decisions.py            writes the index anew, from the headings below it
    decisions.py --check    whether it is what would be written, and whether every entry has its form; the last line is
                            'N passed, M failed'

A part is `# Part`, a heading of a paper or a topic in it `## Heading`, an entry `### Title` and a list of fields. A
heading `##` with 'Asked:' right below it is a new entry that is not sorted in yet: it needs no line of the index.
"""
import os
import re
import sys

ROOT = os.path.dirname(os.path.dirname(os.path.abspath(__file__)))
FILE = os.path.join(ROOT, "docs/DECISIONS.md")
FIELDS = ["Replaced", "Asked", "Done", "Not had", "Why", "Left", "Before", "Until"]
OWED = ["Asked", "Done"]
MOST = 15
INDEX = re.compile(r"^# Index\n.*?(?=^# )", re.M | re.S)


def anchor(title):
    """The name that a heading has in a link."""
    return re.sub(r"[^\w\- ]", "", title.lower()).replace(" ", "-")


def parts(text):
    """The file below its index: [(part, [(heading, [(title, lines)])])], and the titles that are not sorted in."""
    found, new = [], []
    for line in text[INDEX.search(text).end():].split("\n"):
        if line.startswith("# "):
            found.append((line[2:], []))
        elif line.startswith("## "):
            found[-1][1].append((line[3:], [("", [])]))
        elif line.startswith("### "):
            found[-1][1][-1][1].append((line[4:], []))
        elif line and found and found[-1][1]:
            found[-1][1][-1][1][-1][1].append(line)
    for _, headings in found:
        for heading, entries in list(headings):
            if entries[0][1] and "Asked:" in entries[0][1][0]:
                new.append(heading)
                headings.remove((heading, entries))
    return [(part, [(heading, entries[1:]) for heading, entries in headings]) for part, headings in found], new


def entries_of(found):
    return [entry for _, headings in found for _, entries in headings for entry in entries]


def index(found):
    """The lines of the index."""
    out = ["# Index", ""]
    for part, headings in found:
        out += [f"**[{part}](#{anchor(part)})**", ""]
        for heading, entries in headings:
            out.append(f"- {heading}")
            for title, lines in entries:
                replaced = " (replaced in part)" if lines and lines[0].startswith("- Replaced:") else ""
                out.append(f"  - [{title}](#{anchor(title)}){replaced}")
        out.append("")
    return "\n".join(out) + "\n"


def faults_of(title, lines, titles):
    """What is wrong with the form of one entry."""
    named = [line[2:].partition(":")[0] for line in lines if line.startswith("- ")]
    if named != [field for field in FIELDS if field in named]:
        yield f"its fields are {', '.join(named)}: of {', '.join(FIELDS)} each once, in this order"
    for field in OWED:
        if field not in named:
            yield f"has no '- {field}:'"
    if any(not line.startswith(("- ", "  ")) for line in lines):
        yield "has a line outside its fields"
    if len(lines) > MOST:
        yield f"has {len(lines)} lines, more than {MOST}"
    if titles.count(title) > 1:
        yield "has the title of another"
    told = " ".join(line.strip() for line in lines)
    replaced = re.search(r"- Replaced: (.*?)(?= - |$)", told)
    if replaced and not any(name in titles for name in re.findall(r'"([^"]*)"', replaced[1])):
        yield "is replaced by no entry of this file"


def check(text):
    """(what was looked at, what is wrong)."""
    if not INDEX.search(text):
        return 1, ["docs/DECISIONS.md: has no '# Index' with a part below it"]
    found, new = parts(text)
    entries = entries_of(found)
    titles = [title for title, _ in entries] + new
    wrong = []
    for title, lines in entries:
        wrong += [f"docs/DECISIONS.md: '{title}' {fault}" for fault in faults_of(title, lines, titles)]
    if INDEX.search(text).group() != index(found):
        wrong.append("docs/DECISIONS.md: the index is not what scripts/decisions.py writes")
    return 1 + len(titles), wrong


def main():
    if sys.argv[1:] not in ([], ["--check"]):
        print(__doc__.strip(), file=sys.stderr)
        return 2
    with open(FILE, encoding="utf-8") as file:
        text = file.read()
    if not sys.argv[1:]:
        new = INDEX.sub(lambda _: index(parts(text)[0]), text, count=1)
        with open(FILE, "w", encoding="utf-8") as file:
            file.write(new)
        return 0
    looked, wrong = check(text)
    for line in wrong:
        print(line)
    print(f"{max(looked - len(wrong), 0)} passed, {len(wrong)} failed")
    return 1 if wrong else 0


if __name__ == "__main__":
    sys.exit(main())

#!/usr/bin/env python3
"""The sentences of the refusals, as include/xm23.h has them. As a program: every constant has one, and every page that
lists them has them word for word; the kinds of trace records and findings have their numbers in the manual; the last
line is 'N passed, M failed'."""
import os
import re
import sys

ROOT = os.path.dirname(os.path.dirname(os.path.abspath(__file__)))

# A page, the part of it that lists refusals, an entry of that list, and whether it lists all of them.
PAGES = [
    ("docs/FORMATS.md", r"^## Refusals\n.*?(?=^## |\Z)", r"^\| (\d+) \| (.*) \|$", True),
    ("man/xm23.3", r"^\.SH REFUSALS\n.*?(?=^\.SH |\Z)", r"^\.B (\d+) .*\n(.*)$", True),
    ("man/print_state.1", r"^\.SH OUTPUT\n.*?(?=^\.SH |\Z)", r"^\.B R(\d+)\n(.*)$", False),
]

# Constants of the header that a section of the manual lists, each with its number.
KINDS = [("XM23_KIND_", "TRACE RECORD"), ("XM23_FOUND_", "FINDING")]


def read(name):
    with open(os.path.join(ROOT, name), encoding="utf-8") as file:
        return file.read()


def sentences():
    """Number to sentence, of every refusal of the header; None where a constant has none."""
    header = read("include/xm23.h")
    cases = dict(re.findall(r'^    case (XM23_REFUSED_\w+): return "(.*)";$', header, re.M))
    return {int(n): cases.get(name) for name, n in re.findall(r"^#define (XM23_REFUSED_\w+) (\d+)$", header, re.M)}


def sentence(number):
    return sentences().get(number) or "no refusal has this number"


def listed(name, part, entry):
    """Number to sentence, as a page lists them."""
    text = re.search(part, read(name), re.M | re.S)
    return {int(n): said for n, said in re.findall(entry, text.group() if text else "", re.M)}


def kinds(prefix, section):
    """Name to number of each constant with this prefix, as the header has them and as the manual's section does."""
    part = re.search(rf"^\.SH {section}\n.*?(?=^\.SH |\Z)", read("man/xm23.3"), re.M | re.S)
    told = re.findall(rf"^\.B (\d+) ({prefix}\w+)$", part.group() if part else "", re.M)
    return dict(re.findall(rf"^#define ({prefix}\w+) (\d+)\b", read("include/xm23.h"), re.M)), {k: n for n, k in told}


def main():
    header = sentences()
    looked, wrong = len(header), [f"refusal {n} of the header has no sentence" for n in header if not header[n]]
    for name, part, entry, every in PAGES:
        page = listed(name, part, entry)
        if not page:
            wrong.append(f"{name} lists no refusal")
        for n in sorted(header if every else page):
            looked += 1
            if page.get(n) != header.get(n):
                wrong.append(f"{name}: refusal {n} is '{page.get(n)}', in the header '{header.get(n)}'")
    for prefix, section in KINDS:
        given, told = kinds(prefix, section)
        looked += 1 + len(given)
        if not given:
            wrong.append(f"the header has no constant {prefix}...")
        for name in sorted(given.keys() | told.keys()):
            if given.get(name) != told.get(name):
                wrong.append(f"man/xm23.3, {section}: {name} is {told.get(name)}, in the header {given.get(name)}")
    for text in wrong:
        print(text)
    print(f"{looked - len(wrong)} passed, {len(wrong)} failed")
    sys.exit(1 if wrong else 0)


if __name__ == "__main__":
    main()

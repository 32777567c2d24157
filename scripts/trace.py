#!/usr/bin/env python3
"""Holds the definitions and docs/TRACE.md against documents 01 and 02 and docs/CALLS.md: trace.py [ROOT].

The comment of a definition ends with a tag, `[01 Heading, item; 003 section]`, or `[02 §5]` where a change request says
it, `[02 §5, for 01 Arithmetic]` where the request replaces a rule of 01, or `[call places]` where it is a call that no
paper asks for: docs/CALLS.md has a section for each, `## xm23_places: topic`. This script fails
- on a tag of a specs file that names no heading of 01, no section of 02 and no call of docs/CALLS.md,
- on a heading of 01 that no tag names (the misreadings aside, which no definition says), or that has no section in
  docs/TRACE.md,
- on a section of 02 that a tag names and that has no section in docs/TRACE.md, `## 02 §5: topic`, and the other way
  round; on a call the same way, `## call places: topic`, and on one of docs/CALLS.md that no tag names,
- on a block of docs/TRACE.md that has not its form: a sentence, `> ..`, once in its section, and right below it a list
  whose items are of the kinds below and in their order; on a section without one, or that the list at the top has not,
  a list without a sentence, a row of a table,
- on a name in docs/TRACE.md that is defined nowhere: said: `crate/specs/File.antt`: `name`, one item for each file;
  proof: `crate::function` and law: `crate/proofs/File.antt::law` and edit: `crate/edit` of a crate that is there,
  oracle: `file::test`, case: `name`, test: `path/of/a/file`,
- on a case of tests/cases that docs/TRACE.md does not name.
The last line is 'N passed, M failed'.
"""
import pathlib
import re
import sys

HEADINGS = [
    "State and memory", "One step, in order", "CEX", "Entry", "Return", "Faults", "Depth", "Resumption", "Devices",
    "Arithmetic", "Who can be turned back", "Sheet for the markers", "Which shape goes where", "Plausible misreadings",
]
OWED = HEADINGS[:-1]

# document 02: a section, and the heading of 01 whose rule it replaces
REQUEST = re.compile(r"§(1[0-4]|[1-9])(?:, for 01 (.*))?$")

# what may stand after a heading: items, as ", 3" or ", 4 to 7"
ITEMS = re.compile(r"(, \d+( to \d+)?)*$")
# the section whose sentences are programs of 003, which no definition says
EXAMPLES = "Worked examples of 003"

# the items of a block, in their order
KINDS = ["said", "proof", "law", "edit", "oracle", "case", "test"]
ANTT = r"^\s*(?:(?:pub|abbrev|unfoldable|data|record)\s+)*%s(?:\s|$)"
CODE = r"\b(?:fn|struct|enum|type)\s+%s\b"


def tags(text):
    """Each bracketed tag of the comments of a file, its lines joined."""
    lines = (line.strip() for line in text.split("\n"))
    comments = " ".join(line[2:].strip() if line.startswith("--") else "\0" for line in lines)
    return re.findall(r"\[((?:01|02|003|call) [^\]\0]*)\]", comments)


def heading_of(part):
    """The heading of 01 that a part of a tag names, or None."""
    for heading in HEADINGS:
        if part.startswith(heading) and ITEMS.match(part[len(heading):]):
            return heading
    return None


def request_of(part):
    """The section of 02 that a part of a tag names, or None."""
    named = REQUEST.match(part)
    return named and (named[2] is None or heading_of(named[2])) and f"02 §{named[1]}"


def headings_in(tag, calls=()):
    """For each part of a tag that is about 01, 02 or one of the calls, what it names, or None."""
    parts = [part.strip().partition(" ") for part in tag.split(";")]
    naming = {"01": heading_of, "02": request_of, "call": lambda name: f"call {name}" if name in calls else None}
    return [naming[document](rest) for document, _, rest in parts if document in naming]


class Block:
    """A sentence of a paper and the items below it, [kind, text]."""

    def __init__(self, section, sentence):
        self.section, self.sentence, self.items = section, sentence, []

    def faults(self):
        """What is wrong with its form."""
        kinds = [kind for kind, _ in self.items]
        if not kinds:
            yield "nothing stands below it"
        elif "said" not in kinds and self.section != EXAMPLES:
            yield "no item 'said'"
        if any(kind not in KINDS for kind in kinds):
            yield f"an item is of no kind: {', '.join(sorted(set(kinds) - set(KINDS)))}"
        elif kinds != sorted(kinds, key=KINDS.index):
            yield f"its items are not in the order {', '.join(KINDS)}"
        for kind in KINDS[1:]:
            if kinds.count(kind) > 1:
                yield f"it has two items '{kind}'"
        for kind, text in self.items:
            if not text or kind != "said" and "`" not in text:
                yield f"its item '{kind}' names nothing"


def blocks(text):
    """The blocks of docs/TRACE.md below its first section, and the lines that have no place there."""
    found, astray, section, block, last = [], [], None, None, ""
    for line in text.split("\n"):
        item = re.match(r"- ([^:`]*):(?: (.*))?$", line)
        if line.startswith("## "):
            section, block = line[3:], None
        elif section is None:
            continue
        elif line.startswith("> ") and last.startswith("> "):
            block.sentence += " " + line[2:]
        elif line.startswith("> "):
            block = Block(section, line[2:])
            found.append(block)
        elif item and block and last:
            block.items.append([item[1], item[2] or ""])
        elif line.startswith("  ") and block and block.items and last:
            block.items[-1][1] += " " + line.strip()
        elif line.startswith(("|", "-", " ", ">")):
            astray.append(line)
        elif line:
            block = None
        last = line
    return found, astray


class Trace:
    def __init__(self, root):
        self.root = pathlib.Path(root)
        self.passed, self.failures, self.absent = 0, [], set()

    def check(self, holds, failure):
        if holds:
            self.passed += 1
        else:
            self.failures.append(failure)

    def defined(self, path, pattern, name):
        """Whether a file under the root defines a name."""
        file = self.root / path
        return file.is_file() and re.search(pattern % re.escape(name), file.read_text(), re.MULTILINE)

    def calls(self):
        """The calls that docs/CALLS.md has a section of."""
        file = self.root / "docs/CALLS.md"
        text = file.read_text() if file.is_file() else ""
        return re.findall(r"^## xm23_(\w+): ", text, re.MULTILINE)

    def definitions(self):
        """The tags of all specs, and the headings that are owed."""
        seen, calls = set(), self.calls()
        for path in sorted((self.root / "crates").glob("*/specs/*.antt")):
            for tag in tags(path.read_text()):
                for heading in headings_in(tag, calls):
                    seen.add(heading)
                    file = path.relative_to(self.root)
                    self.check(heading, f"{file}: [{tag}] names no heading of 01, no section of 02, no call")
        for heading in OWED:
            self.check(heading in seen, f'no definition has a tag of 01 "{heading}"')
        self.requests = {heading for heading in seen if heading and heading.startswith("02 ")}
        self.requests |= {f"call {name}" for name in calls}
        self.tagged = seen

    def document(self):
        """The sections of docs/TRACE.md, and its blocks."""
        text = (self.root / "docs/TRACE.md").read_text()
        sections = re.findall(r"^## (.*)$", text, re.MULTILINE)
        for heading in HEADINGS:
            self.check(heading in sections, f'docs/TRACE.md has no section "{heading}"')
        written = {section.partition(":")[0] for section in sections if section.startswith(("02 ", "call "))}
        for section in sorted(self.requests | written):
            self.check(section in written, f'docs/TRACE.md has no section "{section}: .."')
            self.check(section in self.tagged, f"no definition has a tag of {section}")
        listed = re.findall(r"^ *- \[(.*)\]\(#.*\)$", text.partition("\n## ")[0], re.MULTILINE)
        self.check(listed == sections, "docs/TRACE.md: the list at its top is not that of its sections")
        found, astray = blocks(text)
        self.blocks(found, astray)
        for section in sections:
            held = any(block.section == section for block in found)
            self.check(held, f'docs/TRACE.md: the section "{section}" has no sentence')
        for path in sorted((self.root / "tests/cases").glob("*.txt")):
            self.check(f"`{path.stem}`" in text, f"docs/TRACE.md: no block names the case {path.stem}")

    def blocks(self, found, astray):
        """The form of each block, and every name in it."""
        for line in astray:
            self.check(False, f"docs/TRACE.md: stands in no block: {line}")
        seen = set()
        for block in found:
            place = f"docs/TRACE.md, {block.section}: '{block.sentence}'"
            faults = list(block.faults())
            if (block.section, block.sentence) in seen:
                faults.append("it stands there twice")
            seen.add((block.section, block.sentence))
            self.check(not faults, f"{place}: {'; '.join(faults)}")
            for kind, text in block.items:
                names = re.findall(r"`([^`]+)`", text)
                if kind == "said":
                    self.said(place, text, names)
                for name in names if kind in KINDS[1:] else []:
                    self.touching(kind, name)

    def said(self, place, text, names):
        """A file and names that it defines, with other words around them; or words alone, where nothing defines it."""
        if not names:
            return
        file = names[0]
        pattern = ANTT if file.endswith(".antt") else CODE
        self.check(len(names) > 1, f"{place}: no definition is named in {text}")
        for name in names[1:]:
            self.check(self.defined(f"crates/{file}", pattern, name), f"{place}: {file} has no {name}")

    def touching(self, kind, name):
        """A crate or a function of one, a law, a must-fail edit, a test of the oracle, a readable case, another test."""
        place, _, what = name.partition("::")
        crate, _, edit = place.partition("/")
        if kind == "oracle":
            held = self.defined(f"oracle/{place}.rs", CODE, what)
        elif kind == "case":
            held = (self.root / f"tests/cases/{name}.txt").is_file()
        elif kind == "test":
            held = (self.root / name).is_file()
        elif not (self.root / "crates" / crate).is_dir():
            self.absent.add(crate)
            return
        elif kind == "law":
            held = self.defined(f"crates/{place}", ANTT, what)
        elif kind == "edit":
            held = (self.root / f"crates/{crate}/must-fail/{edit}.edit").is_file()
        else:
            code = sorted((self.root / "crates" / crate / "src").glob("*.rt"))
            held = not what or any(self.defined(path.relative_to(self.root), CODE, what) for path in code)
        self.check(held, f"docs/TRACE.md: {kind} `{name}` is not there")


def main():
    root = sys.argv[1] if len(sys.argv) > 1 else pathlib.Path(__file__).resolve().parent.parent
    trace = Trace(root)
    trace.definitions()
    trace.document()
    for failure in trace.failures:
        print(failure)
    if trace.absent:
        print("docs/TRACE.md names crates that are not there yet: " + ", ".join(sorted(trace.absent)))
    print(f"{trace.passed} passed, {len(trace.failures)} failed")
    return 1 if trace.failures else 0


if __name__ == "__main__":
    sys.exit(main())

#!/usr/bin/env python3
"""trace.py held to what it must refuse. The last line is 'N passed, M failed'."""
import pathlib
import re
import sys
import tempfile

from trace import HEADINGS, OWED, Trace, tags

SPECS = "".join(f"-- says {heading}. [01 {heading}; 003 6]\nabbrev pub d{i} : ℕ\n" for i, heading in enumerate(OWED))
BLOCK = "> Sentence\n- said: `machine/specs/A.antt`: `d0`\n- case: `one`\n\n"
DOCUMENT = "".join(f"## {heading}\n\n{BLOCK}" for heading in HEADINGS)

CALLS = "# Calls\n\n## xm23_one: first\n"
BITS = f"## 02 §5: bits\n{BLOCK}"
CALLED = f"{BITS}## call one: first\n{BLOCK}"


def topped(sections):
    """A document of these sections, with the list of them at its top."""
    titles = re.findall(r"^## (.*)$", sections, re.M)
    return "# Trace\n\n- a list\n" + "".join(f"  - [{title}](#x)\n" for title in titles) + f"\n{sections}"


def failures(specs=SPECS, document=DOCUMENT, calls="# Calls\n", top=topped):
    """What trace.py says of a repository with one file of definitions."""
    with tempfile.TemporaryDirectory() as name:
        root = pathlib.Path(name)
        for path, text in {
            "crates/machine/specs/A.antt": specs,
            "crates/machine/src/lib.rt": "pub fn advance(n: u64)\n",
            "crates/machine/must-fail/deaf.edit": "",
            "oracle/tests/t.rs": "fn holds() {}\n",
            "tests/cases/one.txt": "",
            "docs/TRACE.md": top(document),
            "docs/CALLS.md": calls,
        }.items():
            (root / path).parent.mkdir(parents=True, exist_ok=True)
            (root / path).write_text(text)
        trace = Trace(root)
        trace.definitions()
        trace.document()
        return trace.failures


def block(*items):
    """The document with one block more, of these items."""
    return DOCUMENT + "> Another sentence\n> of two lines\n" + "".join(f"- {item}\n" for item in items)


def refused(*items):
    """Whether one thing is wrong with a block of these items."""
    return len(failures(document=block(*items))) == 1


SAID = "said: `machine/specs/A.antt`: `d0`"

CASES = {
    "a sound repository passes": failures() == [],
    "a tag over two lines is read": tags("-- a [01 Who can\n-- be turned back]\n") == ["01 Who can be turned back"],
    "items may follow a heading": failures(SPECS + "-- x [01 One step, in order, 2, 4 to 7]\n") == [],
    "a tag that names no heading": len(failures(SPECS + "-- x [01 Entree]\n")) == 1,
    "a heading with more behind it": len(failures(SPECS + "-- x [01 Entry point]\n")) == 1,
    "one wrong part of a tag": len(failures(SPECS + "-- x [01 Entry; 01 Leaving; 003 6]\n")) == 1,
    "an owed heading with no tag": len(failures(SPECS.replace("[01 Faults;", "[01 Entry;"))) == 1,
    "an owed heading with no section": len(failures(document=DOCUMENT.replace("## Faults", "## Fault"))) == 1,
    "a definition that is not there": refused("said: `machine/specs/A.antt`: `d0`, `gone`"),
    "a file that is not there": refused("said: `machine/specs/B.antt`: `d0`"),
    "a file without its folder": refused("said: `A.antt`: `d0`"),
    "a file and no definition": refused("said: `machine/specs/A.antt`"),
    "a function that is not there": refused(SAID, "proof: `machine::advance`, `machine::gone`"),
    "a test that is not there": refused(SAID, "oracle: `tests/t::holds`, `tests/t::gone`"),
    "an edit that is not there": refused(SAID, "edit: `machine/deaf`, `machine/gone`"),
    "a case that is not there": refused(SAID, "case: `one`, `gone`"),
    "a file of a test that is not there": refused(SAID, "test: `oracle/tests/t.rs`, `oracle/tests/gone.rs`"),
    "a law that is not there": refused(SAID, "law: `machine/specs/A.antt::gone`"),
    "a sound block": failures(document=block(SAID, "proof: `machine::advance`,\n  `machine`, by hand")) == [],
    "two items of files": failures(document=block(SAID, SAID, "edit: `machine/deaf`")) == [],
    "words where nothing defines it": failures(document=block("said: no definition: a fact", "case: `one`")) == [],
    "a name on a line that goes on": refused(SAID, "case: `one`,\n  `gone`"),
    "a name behind other words": refused(SAID, "case: `one`, and also `gone`"),
    "a kind that there is not": refused(SAID, "prof: `machine::advance`"),
    "kinds out of their order": refused(SAID, "case: `one`", "edit: `machine/deaf`"),
    "a kind twice": refused(SAID, "case: `one`", "case: `one`"),
    "an item that names nothing": refused(SAID, "case: one"),
    "an empty item": refused("said:", "case: `one`"),
    "a sentence that nothing says": refused("case: `one`"),
    "a sentence with nothing below it": refused(),
    "a blank line before the list": len(failures(document=DOCUMENT + f"> Another\n\n- {SAID}\n")) == 2,
    "a list with no sentence": len(failures(document=DOCUMENT.replace("> Sentence\n", "", 1))) == 3,
    "a list below other words": len(failures(document=DOCUMENT + f"Other words.\n- {SAID}\n")) == 1,
    "a section with no sentence": len(failures(document=DOCUMENT.replace(BLOCK, "Other words.\n", 1))) == 1,
    "a section not in the list at the top": len(failures(top=lambda text: topped(text).replace("[Entry]", "[x]"))) == 1,
    "no list at the top": len(failures(top=lambda text: text)) == 1,
    "a row of a table": len(failures(document=DOCUMENT + "| Sentence | `A.antt`: `d0` | case: `one` |\n")) == 1,
    "a sentence twice in a section": len(failures(document=DOCUMENT + BLOCK)) == 1,
    "an example of 003 needs no definition":
        failures(document=DOCUMENT + "## Worked examples of 003\n\n> 6.1: a loop\n- case: `one`\n") == [],
    "a case that no block names": len(failures(document=DOCUMENT.replace("- case: `one`\n", ""))) == 1,
    "a misreading needs no tag but a section": len(failures(document=DOCUMENT.replace("## Plaus", "## Implaus"))) == 1,
    "a request with its section": failures(SPECS + "-- x [02 §5]\n", DOCUMENT + BITS) == [],
    "a request for a rule of 01": failures(SPECS + "-- x [02 §5, for 01 Entry]\n", DOCUMENT + BITS) == [],
    "a request for no rule of 01": len(failures(SPECS + "-- x [02 §5, for 01 Entree]\n")) == 1,
    "a section that 02 does not have": len(failures(SPECS + "-- x [02 §15]\n")) == 1,
    "a request with no section": len(failures(SPECS + "-- x [02 §5; 01 Entry]\n")) == 1,
    "a section with no request": len(failures(document=DOCUMENT + f"## 02 §12: sources\n{BLOCK}")) == 1,
    "a call with its sections": failures(SPECS + "-- x [call one; 02 §5]\n", DOCUMENT + CALLED, CALLS) == [],
    "a tag of a call that is not there": len(failures(SPECS + "-- x [call two]\n", DOCUMENT)) == 1,
    "a call that no tag names": len(failures(SPECS + "-- x [02 §5]\n", DOCUMENT + CALLED, CALLS)) == 1,
    "a call with no section": len(failures(SPECS + "-- x [call one]\n", DOCUMENT, CALLS)) == 1,
    "a section with no call": len(failures(document=DOCUMENT + f"## call one: first\n{BLOCK}")) == 1,
}


def main():
    wrong = [name for name, held in CASES.items() if not held]
    for name in wrong:
        print(f"trace.py fails: {name}")
    print(f"{len(CASES) - len(wrong)} passed, {len(wrong)} failed")
    return 1 if wrong else 0


if __name__ == "__main__":
    sys.exit(main())

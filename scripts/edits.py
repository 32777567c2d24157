#!/usr/bin/env python3
"""Tries must-fail edits quickly: each makes the code or a definition wrong in one way, and the prover must refuse it.

    edits.py                 every edit
    edits.py CRATE ..        those of these crates
    edits.py CRATE/EDIT ..   these
    edits.py --texts         tries none: whether each finds the texts that it replaces, each exactly once in its file

They are tried by 'rt must-fail' in a copy of the crates that has these edits alone; it begins with what 'rt check' kept,
and what has not changed since an edit was tried is not tried again. That is for people at work: the gate is 'rt ci'.
What rt printed, with the first error of each, is in build/log/edits.out. The last line is 'N passed, M failed'.
"""
import glob
import os
import re
import shutil
import sys
import tempfile

sys.dont_write_bytecode = True
from progress import ROOT, crates, edits as all_edits, watched


def wanted(words):
    """The edits that the words name, by crate."""
    edits = {}
    for name in all_edits():
        crate, edit = name.split("/")
        if not words or crate in words or name in words:
            edits.setdefault(crate, []).append(edit)
    missing = [w for w in words if w not in edits and not any(w == f"{c}/{e}" for c in edits for e in edits[c])]
    if missing:
        sys.exit(f"edits.py: no edit {', '.join(missing)}")
    return edits


class BadEdit(Exception):
    pass


def pairs(path):
    """File, old text and new text of each replacement of an edit."""
    file = old = None
    with open(path, encoding="utf-8") as lines:
        for line in lines:
            line = line.rstrip("\n")
            if line.startswith("file: "):
                file = line[len("file: "):]
            elif line.startswith("old: "):
                old = line[len("old: "):]
            elif line.startswith("new:") and old is not None:
                yield file, old, line[len("new:"):].removeprefix(" ")
                old = None


def edited(folder, path):
    """The files that an edit changes, with their new texts. Each old text stands there exactly once."""
    texts = {}
    for file, old, new in pairs(path):
        named = file is not None and re.match(r"(src|specs|proofs)/", file) and ".." not in file
        if not named or not os.path.isfile(f"{folder}/{file}"):
            raise BadEdit(f"'{file}' is no file of the crate")
        if file not in texts:
            with open(f"{folder}/{file}", encoding="utf-8") as text:
                texts[file] = text.read()
        if texts[file].count(old) != 1:
            raise BadEdit(f"an 'old:' text stands {texts[file].count(old)} times in {file}")
        texts[file] = texts[file].replace(old, new)
    if not texts:
        raise BadEdit("it has no 'old:' and 'new:' pair")
    return texts


def tried(progress, edits):
    """The status of rt over these edits alone."""
    with tempfile.TemporaryDirectory(prefix="xm23_edits.", ignore_cleanup_errors=True) as room:
        skip = lambda folder, names: ["out"] if os.path.dirname(folder) == "crates" and "out" in names else []
        shutil.copytree("crates", f"{room}/crates", ignore=skip)
        shutil.copy("crates.txt", room)
        for path in glob.glob(f"{room}/crates/*/must-fail/*.edit"):
            parts = path.split("/")
            if os.path.basename(path)[: -len(".edit")] not in edits.get(parts[-3], []):
                os.remove(path)
        # What rt copies in turn lies there too, so that nothing of it is left where this is stopped.
        os.environ["TMPDIR"] = f"{room}/tmp"
        os.mkdir(f"{room}/tmp")
        return progress.rt("must-fail", *edits, where=room)


def texts():
    """Tells the edits whose texts have gone, which rt would tell late."""
    names, bad = all_edits(), 0
    for name in names:
        crate, edit = name.split("/")
        try:
            edited(f"crates/{crate}", f"crates/{crate}/must-fail/{edit}.edit")
        except BadEdit as why:
            bad += 1
            print(f"{name}: BAD EDIT: {why}")
    print(f"{len(names) - bad} passed, {bad} failed")
    return 1 if bad else 0


def main():
    os.chdir(ROOT)
    if sys.argv[1:] == ["--texts"]:
        return texts()
    if any(w.startswith("-") for w in sys.argv[1:]):
        print(__doc__.strip(), file=sys.stderr)
        return 2
    edits = wanted(sys.argv[1:])
    total = sum(len(names) for names in edits.values())
    status, progress = watched("build/log/edits.out", len(crates()), lambda progress: tried(progress, edits))
    print(f"{len(progress.tried)} passed, {total - len(progress.tried)} failed")
    return status or int(len(progress.tried) < total)


if __name__ == "__main__":
    try:
        sys.exit(main())
    except KeyboardInterrupt:
        sys.exit("edits.py: stopped")

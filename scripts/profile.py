#!/usr/bin/env python3
"""Where the seconds of a crate's check go: profile.py CRATE [ROWS]

Proves one crate again, first what is below it where that has changed, and prints seconds for each kind of part and for
the dearest parts, first the dearest. A part is a module that rt makes of a function F: F.Lts is the walk of its code, F.Proof
its answers, F.Tie what joins the two, and the loading of all that stands below; other names are files of the crate.
Seconds are between two modules that are written, so that on a busy machine all are longer. docs/CHANGING.md, "What a
check costs", has what to do about them. The status is rt's.
"""
import collections
import os
import shutil
import subprocess
import sys

sys.dont_write_bytecode = True
from progress import ROOT, crates

# What rt makes of a function.
KINDS = ("Lts", "Proof", "Tie", "Reads", "Kinds", "Mir", "Code", "Layout", "Statement", "Met")


def written(folder):
    """The modules below a folder, each with the time at which it was written, in that order."""
    found = []
    for place, _, names in os.walk(folder):
        if os.path.basename(place) != "records":
            found += [(os.path.getmtime(os.path.join(place, name)), name) for name in names if name.endswith(".oantt")]
    return sorted(found)


def parts(folder, crate):
    """The seconds of each module, by its name without what every module of the crate begins with."""
    times = written(folder)
    for (before, _), (time, name) in zip(times, times[1:]):
        words = name.removesuffix(".oantt").removeprefix(f"Rattle-{crate}").lstrip("-").split(".")
        yield time - before, ".".join(word for word in words if word not in ("proofs", "specs")) or crate


def report(found, rows):
    by_kind = collections.Counter()
    for seconds, name in found:
        kind = name.rsplit(".", 1)[-1]
        by_kind[kind if kind in KINDS else "own files and the rest"] += seconds
    print(f"{sum(by_kind.values()):6.1f} s in all:", ", ".join(f"{kind} {s:.1f}" for kind, s in by_kind.most_common()))
    for seconds, name in sorted(found, reverse=True)[:rows]:
        print(f"{seconds:6.2f}  {name}")


def main():
    os.chdir(ROOT)
    match sys.argv[1:]:
        case [crate] if crate in crates():
            rows = 12
        case [crate, many] if crate in crates() and many.isdecimal():
            rows = int(many)
        case _:
            print(f"profile.py: {__doc__.split(': ', 1)[1].splitlines()[0]}, a crate of crates.txt", file=sys.stderr)
            return 2
    folder = f"crates/{crate}/out/incremental"
    shutil.rmtree(folder, ignore_errors=True)
    # First what is below, where it has changed.
    done = subprocess.run(["rt", "check"], cwd=f"crates/{crate}", capture_output=True, text=True)
    report(list(parts(folder, crate)), rows)
    if done.returncode:
        print(f"profile.py: {crate} is not proved: 'rt check' in crates/{crate}", file=sys.stderr)
    return done.returncode


if __name__ == "__main__":
    sys.exit(main())

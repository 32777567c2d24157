#!/usr/bin/env python3
"""Proves by rt what has changed and tells how far it is: a line for each crate, and what is at work where that is long.

    prove.py program NAME    target/bin/NAME
    prove.py archive NAME    target/staticlib/libNAME.a
    prove.py crates NAME ..  these and those that they stand on; no NAME: every crate
    prove.py above NAME ..   proves nothing: which crates stand on these, and about how long these and all of them take

Of a program or an archive nothing is printed where nothing was to be done; of crates one line says so. An archive is
made anew where the contents of what it is made of are others, or its own, whatever the time of a file is. What rt
printed is in build/log. The status is rt's. The gate is rt ci.
"""
import glob
import hashlib
import os
import re
import shutil
import subprocess
import sys
import tempfile
import textwrap
import time

sys.dont_write_bytecode = True
from progress import ROOT, archives, clock, crates, watched


# Seconds of each crate's check, as an older kit printed them, kept for people who ask how long a change will take.
SECONDS = "docs/seconds.txt"


def below(names):
    """The crates of the repository that these stand on, themselves included."""
    deps, found, todo = crates(), set(), list(names)
    while todo:
        name = todo.pop()
        if name in deps and name not in found:
            found.add(name)
            todo += deps[name]
    return found


def above(names):
    """The crates that stand on these, in the order of crates.txt."""
    found = set(names)
    for name, deps in crates().items():
        if found & set(deps):
            found.add(name)
    return [name for name in crates() if name in found - set(names)]


def seconds():
    """Seconds of each crate's check, as docs/seconds.txt has them."""
    with open(SECONDS, encoding="utf-8") as file:
        pairs = (line.split() for line in file if not line.startswith("#"))
        return {name: int(took) for name, took in pairs}


def longest(names, took):
    """Seconds of the longest way through these crates, one standing on the other."""
    ends = {}
    for name, deps in crates().items():
        if name in names:
            ends[name] = took.get(name, 0) + max((ends[dep] for dep in deps if dep in ends), default=0)
    return max(ends.values(), default=0)


def tell_above(names):
    """Prints which crates are proved again where these change, and about how long that takes here."""
    follow, took, cores = above(names), seconds(), os.cpu_count() or 1
    about = lambda crates: clock(max(sum(took.get(name, 0) for name in crates) / cores, longest(crates, took)))
    print(f"{', '.join(names)}: about {about(names)} on {cores} cores ({SECONDS})")
    if follow:
        many = "1 crate follows" if len(follow) == 1 else f"{len(follow)} crates follow"
        print(f"{many}, about {about([*names, *follow])} in all ('make prove'):")
        print(textwrap.fill(" ".join(follow), 110, initial_indent="    ", subsequent_indent="    "))
    else:
        print("no crate stands on it" if len(names) == 1 else "no crate stands on them")
    unknown = [name for name in [*names, *follow] if name not in took]
    if unknown:
        print(f"without {', '.join(unknown)}, of which {SECONDS} has no time yet")
    return 0


def changed_since(time_then, crate):
    """Whether a file of a crate was changed since then."""
    paths = glob.glob(f"crates/{crate}/**", recursive=True)
    others = f"crates/{crate}/must-fail", f"crates/{crate}/out"
    return any(os.path.getmtime(path) >= time_then for path in paths if not path.startswith(others))


# So many crates that were never proved here are proved side by side.
MANY = 20
# Crates whose archives go into that of another, each an object of its own: with one loop over steps in an object the
# compiler lays the general step into it.
JOINED = {"xm23": ["xm23_judge", "xm23_run_c", "xm23_run_journal", "xm23_sheet", "xm23_trace"]}


def parts_of(name):
    """The crates that an archive is made of, the one of its name last."""
    return [*JOINED.get(name, []), name]


def digest_of(path):
    with open(path, "rb") as file:
        return hashlib.sha256(file.read()).hexdigest()


def made_of(name):
    """What an archive is made of, as one text: the kit, crates.txt, and every file of every crate below."""
    kit = subprocess.run(["rt", "--version"], capture_output=True, text=True, check=True).stdout.strip()
    paths = ["crates.txt"]
    for crate in sorted(below(parts_of(name))):
        for folder, inner, files in os.walk(f"crates/{crate}"):
            inner[:] = [it for it in inner if it != "out"]
            paths += sorted(os.path.join(folder, file) for file in files)
    return "".join([f"{kit}\n", *(f"{digest_of(path)}  {path}\n" for path in paths)])


def stamp_of(name):
    return f"target/staticlib/lib{name}.made"


def archives_of(name):
    """Digests of the archive and of those that went into it."""
    paths = [f"target/staticlib/lib{part}.a" for part in parts_of(name)]
    return "".join(f"{digest_of(path)}  {path}\n" for path in paths if os.path.exists(path))


def is_made(name):
    """Whether an archive is what its stamp says, made of what is here now."""
    if not os.path.exists(stamp_of(name)):
        return False
    with open(stamp_of(name), encoding="utf-8") as file:
        return file.read() == made_of(name) + archives_of(name)


def keep_made(name, before):
    """The stamp of an archive that was made of this; none where that has changed meanwhile."""
    if before == made_of(name):
        with open(stamp_of(name), "w", encoding="utf-8") as file:
            file.write(before + archives_of(name))


def join(name):
    """Puts the objects of the archives that belong to it into an archive."""
    place = os.path.abspath("target/staticlib")
    for part in JOINED.get(name, []):
        with tempfile.TemporaryDirectory() as folder:
            subprocess.run(["ar", "x", f"{place}/lib{part}.a"], cwd=folder, check=True)
            objects = sorted(glob.glob(f"{folder}/*"))
            subprocess.run(["ar", "rs", f"{place}/lib{name}.a", *objects], check=True, stderr=subprocess.DEVNULL)


def in_order(names):
    """These crates, each behind those that it stands on."""
    found, deps = [], crates()

    def add(name):
        for dep in deps[name]:
            if dep in deps and dep not in found:
                add(dep)
        if name not in found:
            found.append(name)

    for name in names:
        add(name)
    return [name for name in found if name in names]


def all_proved(progress):
    """Every crate, as many side by side as there are cores."""
    return progress.rt("all", "check", "--jobs", str(os.cpu_count() or 1))


def proved(progress, names):
    """Each of these crates, with those below it; all of them by one command."""
    if not names:
        return all_proved(progress)
    for name in in_order(names):
        status = progress.rt("check", where=f"crates/{name}")
        if status:
            return status
        progress.crate(name)
    return 0


def archive(progress, name):
    """Each part by the one command that proves it and what is below it, and writes its archive."""
    before = made_of(name)
    os.makedirs("target/staticlib", exist_ok=True)
    for part in parts_of(name):
        status = progress.rt("lib", where=f"crates/{part}")
        if status:
            return status
        shutil.copy(f"crates/{part}/out/lib{part}.a", "target/staticlib")
        progress.crate(part)
    join(name)
    keep_made(name, before)
    return 0


def program(progress, name):
    """A program is made by the command that proves and runs it; it is run on nothing."""
    os.makedirs("target/bin", exist_ok=True)
    made = f"crates/{name}/out/{name}"
    before = os.path.getmtime(made) if os.path.exists(made) else 0
    status = progress.rt("run", where=f"crates/{name}")
    if not os.path.exists(made) or status and os.path.getmtime(made) == before:
        return status or 1
    shutil.copy(made, "target/bin")
    progress.crate(name)
    return 0


def usage():
    print(f"prove.py: {__doc__.split(chr(10), 2)[2].strip()}", file=sys.stderr)
    return 2


def main():
    os.chdir(ROOT)
    match sys.argv[1:]:
        case ["program", name] if name in crates():
            place, names, work = f"target/bin/{name}", [name], lambda progress: program(progress, name)
        case ["archive", name] if name in archives():
            place, names, work = f"target/staticlib/lib{name}.a", parts_of(name), lambda progress: archive(progress, name)
        case ["crates", *names] if all(name in crates() for name in names):
            place, work = None, lambda progress: proved(progress, names)
        case ["above", *names] if names and all(name in crates() for name in names):
            return tell_above(names)
        case ["crates" | "above", *names] if names:
            print(f"prove.py: no crate {', '.join(sorted(set(names) - set(crates())))}", file=sys.stderr)
            return 2
        case _:
            return usage()
    if not shutil.which("rt"):
        print("prove.py: rt is not here: it is the command of the Rattle kit", file=sys.stderr)
        return 2
    return prove(place, names, work)


def prove(place, names, work):
    """The status of work(progress), which proves these crates, or makes what is at a place of them."""
    path, wanted = f"build/log/prove_{'_'.join(names) or 'all'}.out", below(names or crates())
    asked = time.time() - 0.1  # a file that is changed from now on is newer than what is found made
    if place and place.endswith(".a") and is_made(names[-1]):
        os.utime(place, (asked, asked))
        return 0
    new = sum(not os.path.isdir(f"crates/{crate}/out/incremental") for crate in wanted)
    if new > 2:
        first = ", which takes some minutes the first time" if new == len(wanted) else ""
        print(f"proving {new} crates{first}; what rt prints: {path}", flush=True)
    # One crate after the other would be slow where most of them are new.
    whole = place and new > MANY
    status, progress = watched(path, len(wanted), lambda it: (all_proved(it) if whole else 0) or work(it))
    if place and status == 0:
        # Newer than every file that it was made from, so that make asks no more; unless one was changed meanwhile.
        stale = any(changed_since(progress.began, crate) for crate in wanted)
        os.utime(place, (progress.began - 1,) * 2 if stale else None)
    if status:
        print(f"prove.py: not all is proved; what rt printed: {path}", file=sys.stderr)
    elif new > 2:
        print(f"{', '.join(names) or 'every crate'} and those below: proved in {clock(time.time() - progress.began)}")
    return status


if __name__ == "__main__":
    try:
        sys.exit(main())
    except KeyboardInterrupt:
        sys.exit("prove.py: stopped; what is proved stays proved")

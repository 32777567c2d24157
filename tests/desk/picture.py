#!/usr/bin/env python3
"""The picture of the whole run on pages of xm23: picture.py XM23. Bars and ticks to the column beside what xm23 back
and xm23 events tell, marks and words, runs of no step and of one, of a million, with thousands of interrupts and with
none, that never return; and its size where it has most. The last line is 'N passed, M failed'."""
import csv
import os
import re
import subprocess
import sys
import tempfile

sys.path.insert(0, os.path.dirname(os.path.abspath(__file__)))
from drawn import COLUMNS, draw, marks, read, section
from tally import end, same

xm23 = os.path.abspath(sys.argv[1])
sitting = os.path.join(os.path.dirname(os.path.abspath(__file__)), "../../examples/sitting")
ACTS = [(r"return: ", "pull"), (r"return, chained", "chain"), (r"line of device", "accept"), (r"(.*; )?SVC by", "trap"),
        (r"(.*; )?fault", "fault"), (r"(.*; )?halt", "halt")]
LOOP = "        ORG $1000\nLOOP    ADD #1,R0\n        BRA LOOP\n"
RETURN = "        ORG $2000\n        MOV LR,PC\n"


def run(*words):
    return subprocess.run([xm23, *words], stdout=subprocess.PIPE, stderr=subprocess.PIPE).stdout.decode()


def write(room, name, text):
    with open(os.path.join(room, name), "w") as file:
        file.write(text)
    return os.path.join(room, name)


def page_of(room, paper, source):
    files = write(room, "p.paper", "start SP=$0800\n" + paper), write(room, "p.asm", source + "        END\n")
    return files, run("report", *files)


def priority(psw):
    return int(psw, 16) >> 5 & 7


def told(files, start):
    """Turns and events of a run whose every step xm23 back has, and how many steps these are."""
    lines = run("back", "-n", "1024", *files).splitlines()[1:-1][::-1]
    turns, psw = [], start
    for line in lines:
        act = next((act for form, act in ACTS if re.match(form, line[24:])), None)
        left = re.search(r"PSW (\w{4})", line)
        psw = left[1] if left else psw
        if act:
            turns.append((int(line.split()[0]), act, priority(psw)))
    rows = csv.DictReader(run("events", "-c", *files).splitlines())
    return turns, [int(row["step"]) for row in rows if row["event"] in ("taken", "ENA clear")], len(lines)


def try_exact(what, files, page, start="0000"):
    turns, events, steps = told(files, start)
    first = int(re.search(r'class="grid"[^>]*>(\d+)</text>', page)[1])
    same(f"{what}: bars and ticks", read(page), draw(turns, events, first, steps))
    axis = [mark[1:] for mark in marks(page) if mark[0] == "grid"]
    same(f"{what}: axis", (axis[0], axis[-1]), ((0, first), (COLUMNS, first + steps)))
    return turns


def try_sitting():
    os.chdir(sitting)
    for name in ("sound.s19", "stops_early.s19", "screen.asm", "halting.s19"):
        files = "sum.paper", f"programs/{name}"
        try_exact(name, files, run("report", *files))
    page = run("report", "sum.paper", "programs/sound.s19")
    same("sitting: the bars", read(page)["high", 3], {*range(166, 265), *range(541, 640)})
    same("sitting: ticks", read(page)["events"], {166, 167, 541, 542})
    same("sitting: marks", marks(page), [("grid", 0, 0), ("grid", 250, 30), ("grid", 500, 60), ("grid", 750, 90),
                                         ("grid", COLUMNS, 120), ("walk", 0, 0)])
    words = "120 steps, 2 events due, 0 faults. Handlers entered: 2 of devices, 0 of SVC, 0 of faults. "
    words += "Open at the close: 0. Steps with a handler open: 24 at priority 3."
    same("sitting: words, for eyes and for readers", section(page).count(words), 2)
    head = '<svg id="run" role="img" aria-labelledby="run_title run_desc"'
    same("sitting: a picture with a name",
         [text in page for text in (head, '<title id="run_title">', '<desc id="run_desc">')], [True] * 3)
    same("refused: no picture", "The whole run" in run("report", "sum.paper", "programs/refused.s19"), False)


def try_small(room):
    """Nested, chained and at every kind of entry; a fault that halts."""
    devices = "".join(f"device {d} $11\nvector {d} ${32 * d + 32:04X} $2000\n" for d in range(1, 5))
    nested = devices + "steps 200\n10 1 0\n12 3 0\n13 4 0\n14 2 0\n50 2 0\n50 4 0\n199 4 0\n"
    acts = try_exact("nested", *page_of(room, nested, LOOP + RETURN.replace("MOV", "ADD #1,R1\n        MOV")))
    same("nested: acts", {act for _, act, _ in acts}, {"accept", "chain", "pull"})
    others = "steps 60\nvector 12 $0020 $2000\nvector 8 $0100 $2000\n"
    source = "".join(f"        {line}\n" for line in ("ORG $1000", "SVC #12", "SVC #12", "WORD $4E00", "SVC #12",
                                                       "WORD $4E00"))
    acts = try_exact("SVC and faults", *page_of(room, others, source + RETURN))
    same("SVC and faults: acts", {act for _, act, _ in acts}, {"trap", "pull", "fault"})
    late = devices + "steps 7\nstart COUNT=4294967280\n4294967282 1 0\n"
    try_exact("a late count", *page_of(room, late, LOOP + RETURN))
    halts = "steps 60\nvector 8 $0100 $2000\n"
    wrong = LOOP.replace("BRA LOOP", "WORD $4E00")
    files, page = page_of(room, halts, wrong + "        ORG $2000\n        WORD $4E00\n")
    acts = try_exact("a fault that halts", files, page)
    same("a fault that halts: acts", [act for _, act, _ in acts], ["fault", "halt"])
    same("a fault that halts: words", "3 steps, 0 events due, 2 faults, the last of which halts." in page, True)
    strays = page_of(room, "steps 9\nstart LR=$FFFF\n", "        ORG $1000\n        MOV LR,PC\n")[1]
    same("a return with no handler open", "Returns with no handler open: " in strays and read(strays), {})


def try_lengths(room):
    none = page_of(room, "steps 0\n", LOOP)[1]
    same("no step", "<p>No step was taken.</p>" in section(none) and "<svg" not in none, True)
    one = page_of(room, "steps 1\n", LOOP)[1]
    same("one step", (read(one), marks(one)), ({}, [("grid", 0, 0), ("grid", COLUMNS, 1), ("walk", 0, 0)]))
    long = page_of(room, "steps 1000000\n", LOOP)[1]
    same("a million steps, nothing happens", (read(long), marks(long)[-1]), ({}, ("walk", 998, 998976)))
    same("a million steps: what a column is", "A column has 1000 steps or fewer" in long, True)
    never = "steps 5000\ndevice 1 $11\nvector 1 $0060 $2000\n1000 1 0\n2000 1 0\n"
    page = page_of(room, never, LOOP + "        ORG $2000\nHERE    BRA HERE\n")[1]
    same("never returns", (read(page)["high", 3], "Open at the close: 1." in page), (set(range(200, COLUMNS)), True))


def try_most(room):
    """A handler of every device and of SVC at every priority, in every third column."""
    at = range(0, 1_000_000, 3000)
    paper = "steps 1000000\n" + "".join(f"device {d} $11\n" for d in range(8))
    paper += "".join(f"vector {v} ${32 * (v % 8):04X} $2000\n" for v in range(16))
    paper += "".join(f"{step} {d} 0\n" for step in at for d in range(1, 8))
    calls = "".join(f"        SVC #{v}\n" for v in (0, 9, 10, 11, 12, 13, 14, 15))
    source = f"        ORG $1000\nSTART   MOVLZ #0,R0\n{calls}LOOP    ADD #1,R0\n        CMP R1,R0\n        BNE LOOP\n"
    source = source.replace("MOVLZ #0,R0\n", "MOVLZ #0,R0\n        MOVL $D7,R1\n        MOVH $03,R1\n")
    page = page_of(room, paper, source + "        BRA START\n" + RETURN)[1]
    same("most: rows", len(read(page)), 16)
    same("most: pieces", section(page).count("m") > 16 * 300, True)
    same("most: at most 100 KB", 20_000 < len(section(page)) < 100_000, True)
    same("most: the page", len(page) <= 400_000, True)


with tempfile.TemporaryDirectory() as room:
    try_sitting()
    try_small(room)
    try_lengths(room)
    try_most(room)
end()

#!/usr/bin/env python3
"""xm23 beside print_state and the oracle on random runs: random_runs.py XM23 PRINT_STATE ORACLE RUNS [SEED]. A run is a
random start, program, devices, vectors, memory and events. Of the first half the program is random bytes, and of a
sixth of them one rule is broken, which a paper tells by the refusal's number: print_state gives the line that xm23 run
and xm23 mark must give. Of the second half it is a source with handlers, SVC, CEX blocks, faults, sleep and stores:
there what xm23 report, xm23 back and xm23 events tell of the last steps and of each event is held against the oracle's
rows of the same run (ORACLE is its program, walk), the walk's data are replayed, and what xm23 sound tells is held to
the walk. The last line is 'N passed, M failed'."""
import base64
import csv
import html
import json
import os
import random
import re
import subprocess
import sys
import tempfile

from tally import end, same

xm23, print_state, oracle, runs = sys.argv[1], sys.argv[2], sys.argv[3], int(sys.argv[4])
dice = random.Random(int(sys.argv[5]) if len(sys.argv) > 5 else 1)
steps_dice = random.Random(23)
FINDINGS = ["fault ", "a return with no frame open", "SVC ", "never returned", "R2 was", "SP was", "the frame's byte",
            "chained onto the frame of device", "the application set SLP", "a register of device",
            "which a handler or its entry wrote last", "sound: ", "starts, at step"]
NAMES = ["R0", "R1", "R2", "R3", "R4", "LR", "SP", "PC"]


def record(kind, address, data):
    body = bytes([len(data) + 3, address >> 8, address & 255]) + data
    return f"S{kind}{body.hex().upper()}{255 - sum(body) & 255:02X}\n"


def number(value):
    """In any of the forms that a paper takes."""
    return dice.choice([str(value), f"#{value}", f"${value:X}", f"${value:04x}"])


def word():
    return dice.choice([0, 1, 2, 0x7FFF, 0x8000, 0xFFFE, 0xFFFF, dice.randrange(65536), dice.randrange(65536)])


class Run:
    """One run: print_state's input, the paper and the S-records of it."""

    def __init__(self):
        self.memory, self.words, self.program = bytearray(65536), [], []
        self.registers = [word() for _ in NAMES]
        self.registers[6] &= 0xFFFE
        self.pc = self.registers[7] = dice.randrange(0x100, 0xFE00) & 0xFFFE
        self.psw = dice.choice([0, 0x20, 0x60, 0xE0, word() & 0xE1FF])
        self.cex = dice.choice([0, 0, 0x4B, dice.randrange(128)])
        self.n = dice.choice([0, 1, 5, 60, 2000, dice.randrange(30000)])
        self.count = dice.choice([0, 0, 7, dice.randrange(1 << 31)])
        self.lines = dice.choice([0, 0, dice.randrange(1 << 32)])
        self.halted = dice.choice([0] * 20 + [1])
        self.lay_program()
        self.lay_paper()
        self.events = []
        self.add_events()
        self.broken = ""
        if dice.randrange(6) == 0:
            self.break_rule()

    def lay_program(self):
        for at, length in [(self.pc, 96), (0x2000, 64), (dice.randrange(65536 - 40), 37)]:
            data = bytes(dice.randrange(256) for _ in range(min(length, 65536 - at)))
            self.memory[at:at + len(data)] = data
            self.program += [record(1, at + i, data[i:i + 16]) for i in range(0, len(data), 16)]
        self.named_pc = dice.choice([True, False])
        self.program.append(record(9, self.pc if not self.named_pc else word(), b""))

    def lay(self, at, data):
        self.memory[at:at + len(data)] = data

    def lay_paper(self):
        for device in range(8):
            if dice.randrange(2):
                status, data = dice.choice([0x10, 0x11, 0x13, dice.randrange(256)]), dice.randrange(256)
                self.words.append(f"device {device} {number(status)} {number(data)}")
                self.lay(2 * device, bytes([status, data]))
        for vector in range(16):
            if dice.randrange(2):
                psw, pc = word(), dice.choice([0x2000, 0x2010, word()])
                self.words.append(f"vector {vector} {number(psw)} {number(pc)}")
                self.lay(0xFFC0 + 4 * vector, psw.to_bytes(2, "little") + pc.to_bytes(2, "little"))
        at, some = dice.randrange(0x10, 0xFF00), [word() for _ in range(dice.randrange(1, 9))]
        self.words.append(f"words {number(at)} " + " ".join(map(number, some)))
        self.lay(at, b"".join(w.to_bytes(2, "little") for w in some))

    def add_events(self):
        step = self.count
        for _ in range(dice.randrange(40)):
            step += dice.choice([0, 1, 3, 50])
            event = (step, dice.randrange(8), dice.randrange(256))
            if all(event[:2] != other[:2] for other in self.events):
                self.events.append(event)

    def break_rule(self):
        kind = dice.choice(["steps", "psw", "device", "order", "twins"])
        self.broken = {"steps": "R2", "psw": "R4", "device": "R6", "order": "R7", "twins": "R13"}[kind]
        if kind == "steps":
            self.n = dice.choice([1000001, 1 << 31])
        elif kind == "psw":
            self.psw |= 0x0200
        else:
            last = self.count + 5000
            wrong = {"device": (last, 8, 1), "order": (last - 1, 1, 1), "twins": (last, 1, 2)}
            self.events += [(last, 1, 1), wrong[kind]]

    def input(self):
        state = b"".join(r.to_bytes(2, "little") for r in self.registers + [self.psw, self.cex])
        state += bytes([0, self.halted])
        state += self.count.to_bytes(4, "little") + self.lines.to_bytes(4, "little") + bytes(2)
        events = b"".join(s.to_bytes(4, "little") + bytes([d, b, 0, 0]) for s, d, b in self.events)
        return self.n.to_bytes(4, "little") + state + bytes(self.memory) + events

    def paper(self):
        start = [f"{name}={number(r)}" for name, r in zip(NAMES, self.registers) if name != "PC" or self.named_pc]
        start += [f"PSW={number(self.psw)}", f"CEX={number(self.cex)}", f"COUNT={number(self.count)}"]
        start += [f"LINES={number(self.lines)}", f"HALTED={self.halted}"]
        lines = [f"steps {number(self.n)}"] + [f"start {part}" for part in start] + self.words
        dice.shuffle(lines)
        return "\n".join(lines + [f"{number(s)}  {d} {number(b)}" for s, d, b in self.events]) + "\n"


PLAIN = ["ADD #1,R0", "SUB #1,R1", "ADD R0,R2", "SWPB R3", "CMP R0,R1", "MOVL $5A,R3", "SXT R1", "RRC R2", "XOR R0,R3"]
TOUCH = ["ST R0,R4", "ST.B R1,R4+", "LD R4,R2", "LD.B R4-,R3", "ST R2,-SP", "LD SP+,R1", "STR R0,R4,#2",
         "STR.B R3,R4,#-3", "LDR R4,#4,R0", "MOVLZ $05,R4", "MOVLZ $02,R4", "MOVLZ $03,R4", "MOVH $01,R4",
         "MOVLZ $00,R4", "MOVLS #-2,R4"]
TURNS = ["SVC #12", "SVC #13", "SETPRI #0", "WORD $4E00", "CEX EQ,#2,#1", "CEX NE,#1,#2", "SETCC S", "CEX TR,#1,#0",
         "SVC #14", "ST R0,R0", "LD R4,PC", "BIS #1,PC", "MOV LR,PC"]


def some(many, turns):
    return [dice.choice(dice.choice([PLAIN, TOUCH] + [TURNS] * turns)) for _ in range(many)]


class Source(Run):
    """A run of a source: a loop and handlers of random lines, so that there is something to enter and return from."""

    def lay_program(self):
        self.pc = self.registers[7] = 0x1000
        self.registers[6] = dice.choice([0x0800, 0x0800, 0x0801, 0x0004, 0x0010, 0xFFC8, word()])
        self.psw, self.cex, self.halted = dice.choice([0, 0, 0x20]), 0, 0
        self.n = dice.choice([1, 40, 200, 900, 1024, 1025, 3000])
        self.named_pc = False
        self.lines = dice.choice([0, 0, 0, 0x10023])
        lines = ["ORG $1000", "LOOP ADD #1,R0"] + some(dice.randrange(3, 12), 1) + ["BRA LOOP"]
        self.labelled = range(0x1000, 0x1000 + 2 * (len(lines) - 1))
        for at in (0x2000, 0x2100, 0x2200, 0x2300):
            lines += [f"ORG ${at:04X}"] + some(dice.randrange(0, 5), 0) + some(dice.randrange(0, 3), 1) + ["MOV LR,PC"]
        self.source = "\n".join(lines + ["END\n"])
        self.program = [self.source]
        for line in run([xm23, "asm", "/dev/stdin"], input=self.source.encode()).stdout.decode().split():
            if line[:2] == "S1":
                self.lay(int(line[4:8], 16), bytes.fromhex(line[8:-2]))

    def lay_paper(self):
        for device in range(8):
            status = dice.choice([0x11, 0x10, 0x13, 0x11, 0])
            self.words.append(f"device {device} {number(status)}")
            self.lay(2 * device, bytes([status, 0]))
        for vector in range(16):
            psw = dice.randrange(8) << 5
            pc = dice.choice([0x2000, 0x2100, 0x2200, 0x2300])
            self.words.append(f"vector {vector} {number(psw)} {number(pc)}")
            self.lay(0xFFC0 + 4 * vector, psw.to_bytes(2, "little") + pc.to_bytes(2, "little"))

    def break_rule(self):
        pass

    def place(self, pc):
        """The label of a step, as pages and xm23 back show it."""
        at = int(pc, 16)
        return "" if at not in self.labelled else "LOOP" if at == 0x1000 else f"LOOP+{at - 0x1000}"

    def cut(self, steps):
        """The input of a run of fewer steps."""
        n, self.n = self.n, steps
        given, self.n = self.input(), n
        return given


def run(command, **more):
    return subprocess.run(command, stdout=subprocess.PIPE, stderr=subprocess.PIPE, **more)


# ---- the last steps

def rows(page, heading):
    """The rows of the table below a heading, each as the texts of its cells."""
    part = page[page.index(heading) + 4:] if heading in page else ""
    part = part[:part.index("<h2")] if "<h2" in part else part
    table = part[:part.index("</table>")] if "<table" in part else ""
    cells = [re.findall(r"<t[dh][^>]*>(.*?)</t[dh]>", row, re.S) for row in re.findall(r"<tr.*?</tr>", table, re.S)]
    return [[html.unescape(re.sub(r"<[^>]*>", "", cell)) for cell in row] for row in cells][1:]


# Kinds of steps that must be met among those that are compared.
KINDS = ["skipped", "asleep", "accepted", "chained", "pulled", "SVC by", "fault 8", "fault 9", "fault 10",
         "halt: fault 8", "halt: fault 9", "halt: fault 10", "; fault 9", "ST ", "ST.B", "STR ", "STR.B", "LD ", "LDR "]
FATES = ["taken", "ENA clear", "after the end", "IE clear", "waits", "overrun yes", "overrun no"]
met = set()


class Rows:
    """What the oracle says of a run: its line, its last steps as a page shows them, its events."""

    def __init__(self, given):
        told = run([oracle], input=given)
        rows = [line.split("\t") for line in told.stdout.decode().splitlines()]
        self.of = lambda kind: [row[1:] for row in rows if row[0] == kind]
        self.line = self.of("line")[0][0]
        self.steps = [[count, pc, fetched, "; ".join(part for part in (instruction, act) if part), left]
                      for count, pc, fetched, instruction, act, left in self.of("step")]
        self.turns = [[row[0], row[4]] for row in self.of("step") if row[4] not in ("", "skipped by CEX", "asleep")]


def walk_of(page):
    return json.loads(page[page.index('id="data">') + 10:page.index("</script>")])


class Walk:
    """The data of a page's walk, gone through backwards and then forwards, as its script does."""

    def __init__(self, page):
        self.data = walk_of(page)
        self.journal = base64.b64decode(self.data["journal"])
        self.steps = self.data["steps"]
        self.memory = bytearray(65536)
        for at, text in self.data["memory"]:
            data = base64.b64decode(text)
            self.memory[at:at + len(data)] = data
        self.writers, self.uncovered, self.deepest = {}, 0, 0
        self.shown = [(step, 2 * device + 1) for step, device, byte in self.data["log"]]
        for i in range(len(self.steps) - 1, -1, -1):
            self.undo(i)
        for step in self.steps:
            depth, frame = 0, step[2]
            while frame:
                depth, frame = depth + 1, self.data["frames"][frame][0]
            self.deepest = max(self.deepest, depth)

    def stored_at(self, i):
        at = int.from_bytes(self.journal[64 * i + 48:64 * i + 50], "little")
        return self.steps[i][3] if len(self.steps[i]) > 3 else at

    def undo(self, i):
        record = self.journal[64 * i:64 * i + 64]
        at, before = int.from_bytes(record[48:50], "little"), bytes(self.memory)
        self.memory[0:16] = record[32:48]
        for k in range(8):
            self.memory[(at + k) % 65536] = record[50 + k]
        stored = {(self.stored_at(i) + k) % 65536 for k in range(self.steps[i][1])}
        changed = {a for a in [*range(16), *((at + k) % 65536 for k in range(8))] if before[a] != self.memory[a]}
        self.uncovered += len({a for a in changed if a >= 16} - stored)
        for a in stored | changed:
            self.writers.setdefault(a, i)


def look_at(this, name, files):
    """The page and what goes back, beside the oracle's rows."""
    paper, program = files
    line = run([xm23, "run", paper, program]).stdout.decode()
    theirs = Rows(this.input())
    same(f"{name}: the oracle's line", theirs.line, line.strip())
    met.update(kind for kind in KINDS for step in theirs.steps if kind in step[3])
    fields = line.split()
    mine = run([xm23, "report", paper, program]).stdout.decode()
    walk, counts = look_at_walk(this, name, mine, "<h2>The last ", this.count + int(fields[1]))
    many = len(walk.steps)
    if int(fields[1]) == many:
        same(f"{name}: memory before", bytes(walk.memory), bytes(this.memory))
        same(f"{name}: depth", walk.deepest, int(fields[-1]))
    else:
        same(f"{name}: depth", walk.deepest <= int(fields[-1]), True)
    look_at_events(this, name, walk, counts, files, fields, theirs)
    look_at_findings(name, mine, walk, counts, files)
    any_step(this, name, files, int(fields[1]))
    go_back(this, name, walk, counts, files, int(fields[1]), theirs)


def look_at_walk(this, name, page, table, end):
    """The walk of a page and its tables, beside the oracle's rows of the run as far as the walk goes."""
    walk = Walk(page)
    many = len(walk.steps)
    counts = [int.from_bytes(walk.journal[64 * i + 22:64 * i + 26], "little") for i in range(many)]
    theirs = Rows(this.cut(counts[0] + many - this.count))
    same(f"{name}: steps behind the walk", walk.data["behind"], end - counts[0] - many)
    told = [f"{counts[i]} {walk.data['what'][step[0]]}" for i, step in enumerate(walk.steps)]
    theirs_told = [" ".join(filter(None, (step[0], step[2], step[3]))) for step in theirs.steps]
    same(f"{name}: steps of the walk", told, theirs_told[-many:])
    by_count = {step[0]: step + [this.place(step[1])] for step in theirs.steps}
    few = rows(page, table)
    same(f"{name}: steps of the table", few, [by_count.get(row[0]) for row in few])
    same(f"{name}: as many as there are", len(few) == 32 or few[0][0] == str(counts[0]), True)
    turns = [cells[:2] for cells in rows(page, "<h2>Entries, returns and faults")]
    there = [turn for turn in theirs.turns if int(turn[0]) >= counts[0]]
    same(f"{name}: entries, returns and faults", turns, there[-64:])
    same(f"{name}: every byte that changed has its writer", walk.uncovered, 0)
    unstored = [at for i, at in walk.shown if not 0 <= at - walk.stored_at(i) < walk.steps[i][1]]
    same(f"{name}: every byte that was shown was stored", unstored, [])
    idle = re.search(r"<p>From step (\d+) on nothing changes but the step count", page)
    if idle:
        closing = [step[4] for step in theirs.steps if int(step[0]) >= int(idle[1])]
        same(f"{name}: closing steps leave nothing", set(closing), {""})
        met.add("closing steps")
    return walk, counts


def any_step(this, name, files, steps):
    """The page of a step that is drawn, and the line before it."""
    step = steps_dice.randrange(steps)
    name, count = f"{name}, step {this.count + step}", str(this.count + step)
    page = run([xm23, "report", "-a", count, *files]).stdout.decode()
    walk, counts = look_at_walk(this, name, page, "<h2>Steps ", this.count + steps)
    same(f"{name}: opens there", counts[walk.data["at"] - 1], int(count))
    line = run([print_state], input=this.cut(step)).stdout.decode()
    same(f"{name}: run -n", run([xm23, "run", "-n", count, *files]).stdout.decode(), line)
    there = rows(page, "<h2>Machine before step ")
    same(f"{name}: the machine", [row[1] for row in there], line.split()[1:])


def look_at_events(this, name, walk, counts, files, fields, theirs):
    """Each event has its row; each entry is the oldest's that waits; what waits in the end is what the line has."""
    told = run([xm23, "events", "-c", *files]).stdout.decode()
    table = list(csv.DictReader(told.splitlines()))
    same(f"{name}: events", [row[1:] for row in csv.reader(told.splitlines()[1:])], theirs.of("event"))
    listed = [(int(r["step"]), int(r["device"]), int(r["byte"])) for r in table]
    same(f"{name}: a row for each event", listed, this.events)
    first, end = this.count, this.count + int(fields[1])
    due = [r["event"] in ("taken", "ENA clear") for r in table]
    same(f"{name}: events that were due", due, [first <= event[0] < end for event in this.events])
    met.update(word for r in table for word in (r["event"], r["interrupt"], "overrun " + r["overrun"]))
    said = re.search(r"before the first step (\d+): entered (\d+)", run([xm23, "events", *files]).stdout.decode())
    left = int(said[1]) - int(said[2]) if said else 0
    waits = sum(r["interrupt"] == "waits" for r in table)
    same(f"{name}: what waits", waits + left, sum(int(digit, 16) for digit in fields[12]))
    entries = list(entries_of(walk, counts))
    for device in range(8 if int(fields[1]) == len(walk.steps) else 0):
        mine = [r for r in table if int(r["device"]) == device]
        there = [entry[1:] for entry in entries if entry[0] == device]
        before = this.lines >> 4 * device & 15
        same(f"{name}: entries of {device}", [(int(r["at"]), r["interrupt"]) for r in mine if r["at"]], there[before:])


def look_at_findings(name, page, walk, counts, files):
    """What is told of handlers, with the values of the walk's records where it has the steps."""
    told = run([xm23, "sound", *files])
    lines = told.stdout.decode().splitlines()
    same(f"{name}: sound", told.returncode, 0 if lines[0].startswith("sound: ") else 1)
    if "Not judged" not in page:
        listed = re.findall(r"<li>(.*?)(?: <a .*)?</li>", page[page.index('<div id="sound">'):])
        same(f"{name}: findings on the page", [html.unescape(text) for text in listed], lines)
    value = lambda step, part: walk.journal[64 * (step - counts[0]) + 2 * part:][:2][::-1].hex().upper()
    for line in lines:
        met.update(word for word in FINDINGS if word in line)
        for step, pc in re.findall(r"at step (\d+), PC \$(\w+)", line):
            if int(step) >= counts[0]:
                same(f"{name}: {line}", value(int(step), 7), pc)
        changed = re.search(r"at step (\d+), returned at step (\d+): ", line)
        if changed and int(changed[1]) >= counts[0]:
            for part, was, now in re.findall(r"(R\d|SP) was \$(\w+), is \$(\w+)", line):
                part = NAMES.index(part)
                same(f"{name}: {line}", (value(int(changed[1]) + 1, part), value(int(changed[2]), part)), (was, now))


def entries_of(walk, counts):
    """Device, step and kind of each line that was entered in the walk."""
    for i, step in enumerate(walk.steps):
        found = re.fullmatch(r"line of device (\d) (accepted)|return, (chained) to the line of device (\d)",
                             walk.data["what"][step[0]])
        if found:
            yield int(found[1] or found[4]), counts[i], found[2] or found[3]


def go_back(this, name, walk, counts, files, steps, theirs):
    many = dice.randrange(1, len(walk.steps) + 1)
    lines = run([xm23, "back", "-n", str(many), *files]).stdout.decode().splitlines()
    told = [" ".join(line.split()) for line in lines[1:-1]]
    places = [f"; {this.place(step[1])}" if this.place(step[1]) else "" for step in theirs.steps]
    wanted = [" ".join(" ".join(step + [place]).split()) for step, place in zip(theirs.steps, places)]
    same(f"{name}: back {many}", told, wanted[:-many - 1:-1])
    fields = run([print_state], input=this.cut(steps - many)).stdout.decode().split()
    same(f"{name}: the state {many} back", re.findall(r" ([0-9A-F]{2,8})\b", lines[-1].split(":")[1]), fields[2:13])
    at = dice.choice(sorted(walk.writers)) if walk.writers else 0x4321
    told = run([xm23, "back", "-w", f"{at:X}", *files])
    if at in walk.writers:
        step = told.stdout.decode().splitlines()[-2].split()[0]
        same(f"{name}: who wrote {at:04X}", step, str(counts[walk.writers[at]]))
    else:
        same(f"{name}: nobody wrote", told.returncode, 1)


with tempfile.TemporaryDirectory() as room:
    paper, program, marks = (os.path.join(room, name) for name in ("p.paper", "p.s19", "marks"))
    for i in range(runs):
        this = Run()
        with open(paper, "w") as file:
            file.write(this.paper())
        with open(program, "w") as file:
            file.write("".join(this.program))
        line = run([print_state], input=this.input()).stdout.decode().strip()
        told = run([xm23, "run", paper, program])
        if this.broken:
            same(f"run {i}: print_state", line, this.broken)
            said = told.stderr.decode()
            same(f"run {i}: {said}", (told.returncode, f": {line}: " in said), (1, True))
            continue
        same(f"run {i}", (told.stdout.decode().strip(), told.returncode), (line, 0))
        if i % 8 == 0:
            run([xm23, "mark", "-o", marks, paper, program])
            with open(os.path.join(marks, "results.csv"), newline="") as file:
                same(f"run {i}, marked", [row["line"] for row in csv.DictReader(file)], [line])
    source = os.path.join(room, "p.asm")
    for i in range(runs // 4):
        this = Source()
        with open(paper, "w") as file:
            file.write(this.paper())
        with open(source, "w") as file:
            file.write(this.source)
        line = run([print_state], input=this.input()).stdout.decode().strip()
        same(f"source {i}", run([xm23, "run", paper, source]).stdout.decode().strip(), line)
        look_at(this, f"source {i}", (paper, source))
    several = [os.path.join(room, f"{i}.asm") for i in range(12)]
    with open(paper, "w") as file:
        file.write(this.paper())
    for name in several:
        with open(name, "w") as file:
            file.write(Source().source)
    run([xm23, "mark", "-j", "1", "-o", marks, paper, *several])
    for name, marked in zip(several, sorted(os.listdir(os.path.join(marks, "pages")))):
        with open(os.path.join(marks, "pages", marked), "rb") as file:
            alone = run([xm23, "report", paper, name]).stdout
            same(f"{name}: the page is of its program alone", (len(alone) > 9999, file.read()), (True, alone))
wanted = {*KINDS, *FATES, *FINDINGS, "closing steps"}
same("kinds of steps, fates of events and findings that were not met", sorted(wanted - met), [])
end()

#!/usr/bin/env python3
"""xm23 paper on random papers: random_papers.py XM23 PAPERS [SEED]. A paper is random lines of every kind in random
order, with sources, names, every and type; what it must come to is worked out here: start, bytes, events, awards,
expected line. The printed paper is held to that, and read again it must print the same. The last line is 'N passed, M
failed'."""
import os
import random
import subprocess
import sys
import tempfile

from tally import end, same

xm23, papers = sys.argv[1], int(sys.argv[2])
dice = random.Random(int(sys.argv[3]) if len(sys.argv) > 3 else 1)
PARTS = [*((f"R{i}", 2) for i in range(5)), ("LR", 2), ("SP", 2), ("PC", 2), ("PSW", 2), ("CEX", 2), ("COUNT", 4),
         ("LINES", 4)]
REGISTERS = ["R0", "R1", "R2", "R3", "R4", "LR", "SP", "PC"]
ESCAPES = {10: "\\n", 13: "\\r", 9: "\\t", 34: '\\"', 92: "\\\\"}


def record(address, data):
    body = bytes([len(data) + 3, address >> 8, address & 255]) + data
    return f"S1{body.hex().upper()}{255 - sum(body) & 255:02X}"


def quoted(data):
    return '"' + "".join(ESCAPES.get(b) if b in ESCAPES and dice.randrange(2) else
                         chr(b) if 32 <= b < 127 and b not in b'"\\' else f"\\x{b:02{dice.choice('xX')}}"
                         for b in data) + '"'


def plain(data):
    """A text as the desk prints it: UTF-8 as it is, the rest, quote and backslash as \\xHH."""
    return "".join(chr(b) if 32 <= b < 127 and b not in b'"\\' else f"\\x{b:02X}" for b in data)


class Paper:
    def __init__(self, folder):
        self.folder, self.lines, self.names = folder, [], {}
        self.memory, self.under, self.start, self.uses = {}, {}, {}, {}
        self.free = list(range(0x100, 0xFF00, 0x80))
        dice.shuffle(self.free)
        self.steps = dice.choice([0, 1, 99, 200000, 1000000])
        self.events = {}
        self.add(f"steps {self.number(self.steps)}")
        for _ in range(dice.randrange(3)):
            self.add_source()
        for _ in range(dice.randrange(12)):
            dice.choice([self.add_data, self.add_data, self.add_srec, self.add_device, self.add_vector, self.add_use,
                         self.add_event, self.add_every, self.add_type, self.add_part, self.add_part])()
        self.awards, self.points, self.pass_at = [], 0, None
        for _ in range(dice.choice([0, 0, 1, 5, 20])):
            self.add_award()
        if self.points and dice.randrange(2):
            self.pass_at = dice.randrange(1, self.points + 1)
            self.add(f"pass {self.number(self.pass_at)}")
        self.title = dice.choice([None, "", "A title ; no comment", "<i> \x1b & \\ \xe9"])
        if self.title is not None:
            self.add("title  " + self.title + "  ")
        self.expected = dice.choice([None, "R11", "0 5 " + "* " * 8 + "00FF 7F 00000000 2"])
        if self.expected:
            self.add("expect  " + self.expected.lower())
        self.order()

    def add(self, line):
        self.lines.append(dice.choice(["", "", " ", "\t"] if line[0] != "S" else [""]) + line +
                          (dice.choice(["", "", " ; a comment"]) if line[0] != "S" and "title" not in line else ""))

    def order(self):
        """Event lines in the order of their steps, wherever; S-records stay, and so do lines that lay bytes."""
        plain = sorted((step, d, b) for (step, d), (b, kind) in self.events.items() if kind == "plain")
        for step, d, b in plain:
            self.lines.insert(dice.randrange(len(self.lines) + 1), None)
        at = iter(plain)
        self.lines = [line if line is not None else self.event_line(*next(at)) for line in self.lines]
        if dice.randrange(2):
            keep = [line for line in self.lines if line.split() and line.split()[0] in ("source", "every", "type")]
            self.lines = [line for line in self.lines if line not in keep]
            for line in keep:
                self.lines.insert(dice.randrange(len(self.lines) + 1), line)

    def event_line(self, step, d, b):
        """A step that is no name: a line that begins with a letter is no event."""
        return f"{dice.choice(['', '#'])}{step} {self.number(d)} {self.number(b)}"

    def number(self, value):
        names = [name for name, known in self.names.items() if known == value]
        forms = [f"#{value}"] if value < 0 else [str(value), f"#{value}", f"${value:X}"]
        return dice.choice(names if names and dice.randrange(2) else forms)

    def add_source(self):
        at, tag = self.free.pop(), len(self.names)
        words = [dice.randrange(65536) for _ in range(dice.randrange(1, 20))]
        names = {f"HERE{tag}": at, f"END{tag}": at + 2 * len(words), f"SMALL{tag}": dice.choice([0, 1, 5, 300]),
                 f"MINUS{tag}": -dice.randrange(1, 128)}
        name = dice.choice([f"s{tag}.asm", f"with blanks {tag}.asm"])
        with open(os.path.join(self.folder, name), "w", encoding="latin1") as file:
            file.write(f"SMALL{tag} EQU #{names[f'SMALL{tag}']}\nMINUS{tag} EQU #{names[f'MINUS{tag}']}\n"
                       f" ORG #{at}\nHERE{tag}\n" + "".join(f" WORD ${w:04X}\n" for w in words) +
                       f"END{tag} BSS #4\n END\n")
        for i, w in enumerate(words):
            self.under[at + 2 * i], self.under[at + 2 * i + 1] = w & 255, w >> 8
        self.names.update(names)
        self.add(f"source {name}" if " " not in name else f'source "{name}"')

    def add_data(self):
        at, width = self.free.pop() + dice.randrange(4), dice.choice([1, 2])
        values = [dice.choice([-1, -128, 0, 127, 255]) if width == 1 else dice.choice([-32768, -1, 65535, 77])
                  for _ in range(dice.randrange(1, 40))]
        self.add(f"{['bytes', 'words'][width - 1]} {self.number(at)} {' '.join(map(self.number, values))}")
        for i, value in enumerate(values):
            for k in range(width):
                self.memory[at + width * i + k] = value >> 8 * k & 255

    def add_srec(self):
        at, data = self.free.pop(), dice.randbytes(dice.randrange(1, 40))
        self.add(record(at, data))
        self.under.update({at + i: b for i, b in enumerate(data)})
        if dice.randrange(2):  # a line that lays bytes lies over it, wherever it stands
            self.memory[at] = 7
            self.lines.insert(dice.randrange(len(self.lines) + 1), f"bytes {at} 7")

    def add_device(self):
        d = dice.randrange(8)
        if 2 * d not in self.memory:
            self.memory[2 * d], self.memory[2 * d + 1] = dice.randrange(256), dice.choice([0, 72])
            self.add(f"device {d} ${self.memory[2 * d]:x} {self.memory[2 * d + 1] or ''}")

    def add_vector(self):
        v, values = dice.randrange(16), [dice.randrange(65536), dice.choice([*self.names.values(), 4096]) & 0x7FFF]
        at = 0xFFC0 + 4 * v
        if at not in self.memory:
            self.add(f"vector {v} {self.number(values[0])} {self.number(values[1])}")
            for i in range(4):
                self.memory[at + i] = values[i // 2] >> 8 * (i % 2) & 255

    def add_use(self):
        d = dice.randrange(8)
        if d not in self.uses:
            self.uses[d] = dice.randrange(1025)
            self.add(f"use {d} {self.number(self.uses[d])}")

    def add_part(self):
        name, width = dice.choice(PARTS)
        if name in self.start:
            return
        value = 0 if name == "COUNT" else dice.randrange({"PSW": 512, "CEX": 128}.get(name, 1 << 8 * width))
        self.start[name] = f"{name}=${value:0{2 * width}X}"
        self.add(f"start {name}={self.number(value)}")

    def add_award(self):
        """A criterion of any kind, once: as it is written, and as it is understood."""
        points, kind = dice.choice([1, 7, 1000]), dice.randrange(8)
        relation = dice.choice(["=", "!=", "<=", ">="])
        either = dice.choice(["=", "!="])
        value = dice.choice([0, 31, 32768, 65535])
        signed = dice.choice([-1, -128, 0, 127, 255])
        at = dice.randrange(0x10000) & ~1
        if kind == 0:
            i = dice.randrange(8)
            name = dice.choice([f"R{i}", REGISTERS[i]])
            written, known = f"{name} {relation} {self.number(value)}", f"{REGISTERS[i]} {relation} ${value:04X}"
        elif kind == 1:
            written = f"byte {self.number(at)} {either} {self.number(signed)}"
            known = f"byte ${at:04X} {either} ${signed & 255:02X}"
        elif kind == 2:
            written = f"word {self.number(at)} {either} {self.number(signed)}"
            known = f"word ${at:04X} {either} ${signed & 65535:04X}"
        elif kind == 3:
            values = [dice.choice([-1, 0, 255]) for _ in range(dice.randrange(1, 9))]
            at = min(at, 0x10000 - len(values))
            written = f"bytes {self.number(at)} {either} {' '.join(map(self.number, values))}"
            known = f"bytes ${at:04X} {either} {' '.join(f'${v & 255:02X}' for v in values)}"
        elif kind == 4:
            d, data = dice.randrange(8), bytes(dice.choices(b'aB 09;"\\\n\x00\x7F', k=dice.randrange(1, 20)))
            relation = dice.choice(["=", "!=", "has"])
            written, known = f"screen {d} {relation} {quoted(data)}", f'screen {d} {relation} "{plain(data)}"'
        elif kind == 5:
            written = known = dice.choice(["sound", "undisturbed", f"reason {either} {dice.randrange(2)}"])
        elif kind == 6:
            written, known = f"depth {relation} {self.number(value)}", f"depth {relation} {value}"
        else:
            name, digits, most = dice.choice([("PSW", 4, 0xFFFF), ("CEX", 2, 0x7F)])
            value &= most
            written, known = f"{name} {either} {self.number(value)}", f"{name} {either} ${value:0{digits}X}"
        if known not in [k for _, k in self.awards]:
            self.awards.append((points, known))
            self.points += points
            self.add(f"award {self.number(points)} {written}")

    def claim(self, step, d, b, kind):
        """Whether the event may be: one of a device on a step."""
        if (step, d) in self.events or len(self.events) >= 4096:
            return False
        self.events[step, d] = (b, kind)
        return True

    def add_event(self):
        self.claim(dice.choice([0, 5, dice.randrange(1 << 32)]), dice.randrange(8), dice.randrange(256), "plain")

    def add_made(self, d, steps, data, line):
        if not any((step, d) in self.events for step in steps) and len(self.events) + len(steps) <= 4096:
            for step, b in zip(steps, data):
                self.claim(step, d, b, "made")
            self.add(line)

    def add_every(self):
        d, b, period = dice.randrange(8), dice.randrange(256), dice.choice([1, 2, 50, 4000000000])
        first = dice.choice([0, 7, 4294967295, dice.randrange(1 << 31)])
        last = min(4294967295, first + dice.choice([0, 1, 99, 1000]))
        steps = range(first, last + 1, period)
        self.add_made(d, steps, [b] * len(steps), f"every {self.number(period)} from {self.number(first)} to "
                      f"{self.number(last)} {self.number(d)} {self.number(b)}")

    def add_type(self):
        d, period, first = dice.randrange(8), dice.choice([1, 3, 200]), dice.choice([0, 1000, 4294000000])
        data = dice.randbytes(dice.randrange(1, 30))
        self.add_made(d, [first + period * i for i in range(len(data))], data,
                      f"type {self.number(first)} every {self.number(period)} {self.number(d)} {quoted(data)}")


def understood(text):
    """What a printed paper says, of events the set on each step."""
    memory, under, events, other = {}, {}, [], []
    for line in text.splitlines():
        words = line.split()
        if words[0] == "device":
            memory.update({2 * int(words[1]) + i: int(w[1:], 16) for i, w in enumerate(words[2:])})
        elif words[0] == "vector":
            for i, w in enumerate(words[2:]):
                at, w = 0xFFC0 + 4 * int(words[1]) + 2 * i, int(w[1:], 16)
                memory[at], memory[at + 1] = w & 255, w >> 8
        elif words[0] == "bytes":
            memory.update({int(words[1][1:], 16) + i: int(w[1:], 16) for i, w in enumerate(words[2:])})
        elif line[:2] == "S1":
            data = bytes.fromhex(line[2:])
            under.update({data[1] * 256 + data[2] + i: b for i, b in enumerate(data[3:-1])})
        elif line[0].isdigit():
            events.append((int(words[0]), int(words[1]), int(words[2][1:], 16)))
        else:
            other.append(" ".join(words))
    return memory, under, events, other


def run(folder):
    paper = Paper(folder)
    path, again = os.path.join(folder, "a.paper"), os.path.join(folder, "b.paper")
    ending = dice.choice(["\n", "\r\n"])
    with open(path, "w", encoding="latin1", newline="") as file:
        file.write(ending.join(paper.lines) + ending)
    first = subprocess.run([xm23, "paper", "-o", again, path], capture_output=True)
    same("status", (first.returncode, first.stderr), (0, b""))
    if first.returncode:
        print("\n".join(paper.lines))
        return
    text = open(again, "rb").read()
    same("read again", subprocess.run([xm23, "paper", again], capture_output=True).stdout, text)
    memory, under, events, other = understood(text.decode("latin1"))
    same("bytes laid", memory, paper.memory)
    same("bytes under them", under, {at: b for at, b in paper.under.items() if at not in paper.memory})
    same("events", sorted(events), sorted((s, d, b) for (s, d), (b, _) in paper.events.items()))
    same("in order", [e[0] for e in events], sorted(e[0] for e in events))
    wanted = ["title " + " ".join(paper.title.split()) if paper.title else "title"] if paper.title is not None else []
    wanted += [f"steps {paper.steps}"]
    if paper.start:
        wanted += ["start " + " ".join(paper.start[name] for name, _ in PARTS if name in paper.start)]
    wanted += [f"use {d} {paper.uses[d]}" for d in sorted(paper.uses)]
    wanted += [" ".join(f"award {points} {known}".split()) for points, known in paper.awards]
    wanted += [f"pass {paper.pass_at}"] if paper.pass_at else []
    wanted += ["expect " + paper.expected] if paper.expected else []
    same("the rest", other, wanted)


with tempfile.TemporaryDirectory() as room:
    for i in range(papers):
        os.mkdir(f"{room}/{i}")
        run(f"{room}/{i}")
end()

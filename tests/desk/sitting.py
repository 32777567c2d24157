#!/usr/bin/env python3
"""Every command of docs/SITTING.md, in a copy of the example sitting, prints what stands below it: sitting.py XM23. A
line of two dots stands for any lines, two dots behind a blank for the rest of a line; messages behind the output may be
left out. What the guide calls mine.asm, yours.asm, clock.paper and twins.paper is written here. The last line is
'N passed, M failed'."""
import os
import re
import shutil
import subprocess
import sys
import tempfile

sys.path.insert(0, os.path.dirname(os.path.abspath(__file__)))
from tally import end, same

xm23 = os.path.abspath(sys.argv[1])
top = os.path.join(os.path.dirname(os.path.abspath(__file__)), "../..")
ELSEWHERE = ["make run", "cd examples/sitting"]  # of tests/desk/desk.sh, and where all the others are given

SUM = ["MOVLZ $00,R1", "MOVH $01,R1", "MOVLZ $08,R2", "MOVLZ $00,R0", "NEXT LD R1+,R3", "ADD R3,R0", "SUB #1,R2",
       "BNE NEXT", "HERE BRA HERE"]
CLOCK = """steps 200
start PC=$1000 SP=$0800 LR=$FFFF PSW=$0000
words $0100 3 1 4 1 5 9 2 6
device 1 $11
vector 1 $0060 $2000
20 1 0
"""


def source(*parts):
    lines = [line if re.match(r"(NEXT|HERE) ", line) else "        " + line for part in parts for line in part]
    return "\n".join(lines) + "\n        END\n"


# What a command needs that the sitting does not have.
FILES = {
    "xm23 run twins.paper programs/sound.s19": {"twins.paper": "steps 120\n" + 11 * "\n" + 2 * "20 1 0\n"},
    "xm23 sound clock.paper mine.asm": {
        "clock.paper": CLOCK,
        "mine.asm": source(["ORG $1000"] + SUM, ["ORG $2000", "MOVLZ $07,R3", "MOV LR,PC"])},
    "xm23 asm -o yours.s19 yours.asm": {
        "yours.asm": source(["ORG $1000", "MOVLZ #3,R0", "ADD R0,R1", "HERE ADD #1,R1", "BNE HERE", "HALT"])},
    "xm23 asm mine.asm": {"mine.asm": source(["ORG $1000", "NEXT SUB #1,R0", "ADD R0,R1", "BNE NEXTT"])},
}


def commands(text):
    """Each command of a block of code, and the lines below it."""
    for block in re.findall(r"(?m)(?:^    .*\n)+", text):
        lines = [line[4:] for line in block.splitlines()]
        for i, line in enumerate(lines):
            if line.startswith("$ "):
                rest = lines[i + 1:]
                yield line[2:], rest[:next((k for k, l in enumerate(rest) if l.startswith("$ ")), len(rest))]


def pattern(lines):
    """What an output must be: of no lines any."""
    if not lines:
        return r"(?:.*\n)*"
    parts = [r"(?:.*\n)*" if line == ".." else re.escape(line[:-2]) + r".*\n" if line.endswith(" ..") else
             re.escape(line) + r" *\n" for line in lines]
    return "".join(parts)


def given(command, room):
    for name, text in FILES.get(command, {}).items():
        with open(os.path.join(room, name), "w") as file:
            file.write(text)
    told = subprocess.run(["bash", "-c", command], cwd=room, stdout=subprocess.PIPE, stderr=subprocess.PIPE,
                          env={**os.environ, "PATH": os.path.join(room, "bin") + ":" + os.environ["PATH"]})
    return told.returncode, told.stdout.decode(), told.stderr.decode()


with open(os.path.join(top, "docs/SITTING.md")) as file:
    guide = file.read()
with tempfile.TemporaryDirectory() as folder:
    room = os.path.join(folder, "sitting")
    shutil.copytree(os.path.join(top, "examples/sitting"), room)
    os.mkdir(os.path.join(room, "bin"))
    os.symlink(xm23, os.path.join(room, "bin/xm23"))
    many = 0
    for command, lines in commands(guide):
        if command in ELSEWHERE:
            continue
        many += 1
        status, told, errors = given(command, room)
        same(f"{command}: status {status}", status in (0, 1), True)
        wanted = any(re.fullmatch(pattern(lines), text) for text in (told, told + errors))
        same(f"{command}: output", lines if wanted else told + errors, lines)
same("commands of the guide", many > 15, True)
end()

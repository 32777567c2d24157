"""A folder of programs marked from Python, and their ticks against steps: ticks.py [FOLDER [PICTURE]].

Each program runs under the clock of examples/sitting/sum.paper; a line tells its sum, its ticks and whether its
handler was sound. Where matplotlib is here and a PICTURE is named, the entries of the handler are drawn, a row for each
program. python/xm23.py has to be found (PYTHONPATH), and the library (XM23_LIBRARY).
"""
import os
import sys

import xm23

HERE = os.path.dirname(os.path.abspath(__file__))
FOLDER = sys.argv[1] if len(sys.argv) > 1 else os.path.join(HERE, "sitting", "programs")
STEPS, TICKS = 120, [(20, 1, 0), (65, 1, 0)]

# %% The paper: eight numbers at $0100, a clock on device 1, its handler at $2000.
HANDLER = "S1132000065F0E5F8069087801588940085CB15802\nS1072010B0582F4C45\nS9030000FC\n"


def opened(path):
    """A program under the paper, before its first step."""
    machine = xm23.Machine(SP=0x0800, LR=0xFFFF)
    with open(path, "rb") as file:
        given = file.read()
    if path.endswith(".asm"):
        machine.assemble(given)
        machine.PC = next(each.number for each in xm23.places(given) if each.size)
    else:
        machine.load_srec(given)
    start = machine.PC
    machine.load_srec(HANDLER)
    machine.PC = start
    for i, number in enumerate([3, 1, 4, 1, 5, 9, 2, 6]):
        machine.put_word(0x0100 + 2 * i, number)
    machine.memory[2], machine.memory[4] = 0x11, 0x10
    machine.put_vector(1, 0x0060, 0x2000)
    return machine


# %% Each program, marked.
entries = {}
for name in sorted(os.listdir(FOLDER)):
    path = os.path.join(FOLDER, name)
    if os.path.isdir(path):  # several files of one candidate: xm23 mark takes them
        continue
    try:
        traced, judged = opened(path), opened(path)
        trace = traced.trace(STEPS, TICKS, [xm23.Kind.ACCEPT, xm23.Kind.CHAIN])
        verdict = judged.judge(STEPS, TICKS)
    except (xm23.Refused, OSError) as why:
        print(f"{name}: {why}")
        continue
    entries[name] = [each.step for each in trace.records]
    found = verdict.findings[0].sentence if verdict.findings else "sound"
    print(f"{name}: sum {traced.word(0x0120)}, ticks {len(entries[name])}, {found}")

# %% The picture.
if len(sys.argv) > 2:
    try:
        from matplotlib import pyplot
    except ImportError:
        sys.exit("ticks.py: no matplotlib here, no picture drawn")
    pyplot.eventplot(list(entries.values()), lineoffsets=range(len(entries)), linelengths=0.6)
    pyplot.yticks(range(len(entries)), list(entries))
    pyplot.xlabel("step at which the handler is entered")
    pyplot.xlim(0, STEPS)
    pyplot.tight_layout()
    pyplot.savefig(sys.argv[2])

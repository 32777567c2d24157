"""python/xm23.py beside the header and the library: XM23_LIBRARY names the shared library. The last line is
'N passed, M failed'."""
import os
import re
import struct
import subprocess
import sys
import unittest

ROOT = os.path.dirname(os.path.dirname(os.path.dirname(os.path.abspath(__file__))))
sys.path.insert(0, os.path.join(ROOT, "python"))
import xm23

HEADER = open(os.path.join(ROOT, "include/xm23.h"), encoding="utf-8").read()

# A loop that adds to R0; a clock on device 1, whose handler counts at $0200.
TICKING = """
        ORG     $0100
LOOP    ADD     #1,R0
        BRA     LOOP
        ORG     $0140
TICK    LDR     R4,#0,R3
        ADD     #1,R3
        STR     R3,R4,#0
        MOV     LR,PC
        END
"""


def constants(prefix):
    """Name to number, of the header's constants that begin so."""
    found = re.findall(rf"^#define XM23_{prefix}(\w+) (0x[0-9A-F]+|\d+)u?\b", HEADER, re.M)
    return {name: int(number, 0) for name, number in found}


def ticking(handler=TICKING, **registers):
    """The program above under its clock."""
    machine = xm23.Machine(PC=0x0100, SP=0x0800, R4=0x0200, **registers)
    machine.assemble(handler)
    machine.memory[2] = 0x13
    machine.put_vector(1, 0x0040, 0x0140)
    return machine


class Found(unittest.TestCase):
    """Where the library is not found the error says how it is."""

    def test_not_found(self):
        environment = {**os.environ, "XM23_LIBRARY": "/no/such.so", "PYTHONPATH": os.path.join(ROOT, "python")}
        told = subprocess.run([sys.executable, "-B", "-c", "import xm23"], env=environment, capture_output=True, text=True)
        self.assertEqual(told.returncode, 1)
        last = told.stderr.strip().splitlines()[-1]
        self.assertRegex(last, "^ImportError: /no/such.so: .*set XM23_LIBRARY to .*, or LD_LIBRARY_PATH to its folder; ")


class Header(unittest.TestCase):
    """What this module says again of the header is what the header says."""

    def test_sentences(self):
        cases = dict(re.findall(r'case (XM23_REFUSED_\w+): return "(.*)";', HEADER))
        numbers = constants("REFUSED_")
        self.assertEqual({n: cases["XM23_REFUSED_" + name] for name, n in numbers.items()}, xm23.SENTENCES)

    def test_findings(self):
        cases = dict(re.findall(r'case (XM23_FOUND_\w+): return "(.*)";', HEADER))
        numbers = constants("FOUND_")
        self.assertEqual({n: cases["XM23_FOUND_" + name] for name, n in numbers.items()}, dict(enumerate(xm23.FOUND)))

    def test_kinds(self):
        numbers = {name: n for name, n in constants("KIND_").items()}
        self.assertEqual(numbers, {kind.name: kind.value for kind in xm23.Kind})

    def test_effects(self):
        self.assertEqual(constants("EFFECT_"), {effect.name: effect.value for effect in xm23.Effect})

    def test_sizes(self):
        sizes = constants("")
        for name in ("MEMORY", "RECORD", "EVENT", "LOG", "JOURNAL", "TRACE", "FINDING", "PLACE", "LINE", "TEXT"):
            self.assertEqual(getattr(xm23, name + "_SIZE"), sizes[name + "_SIZE"], name)
        self.assertEqual(xm23.FINDINGS * xm23.FINDING_SIZE, sizes["FINDINGS_SIZE"])
        self.assertEqual(xm23.MAX_JOURNAL * xm23.JOURNAL_SIZE, sizes["MAX_JOURNAL"])
        self.assertEqual((xm23.MAX_STEPS, xm23.VECTORS), (sizes["MAX_STEPS"], sizes["VECTORS"]))
        self.assertEqual(xm23.ALL_KINDS, sizes["KINDS"])

    def test_version(self):
        wanted = constants("VERSION_")
        self.assertEqual(xm23.version(), (wanted["MAJOR"], wanted["MINOR"], wanted["PATCH"]))

    def test_every_call_but_those_for_one_word(self):
        calls = set(re.findall(r"^uint\d+_t (xm23_\w+)\(", HEADER, re.M))
        self.assertEqual(calls - set(xm23._CALLS), {"xm23_range", "xm23_count", "xm23_next"})


class Machines(unittest.TestCase):
    """A machine's state, runs and steps back."""

    def test_registers(self):
        machine = xm23.Machine(R0=1, LR=2, SP=3, PC=4, PSW=0x60E0, CEX=5)
        self.assertEqual((machine.R0, machine.R5, machine.R6, machine.R7), (1, 2, 3, 4))
        self.assertEqual(struct.unpack("<10H", machine.record[:20]), (1, 0, 0, 0, 0, 2, 3, 4, 0x60E0, 5))
        self.assertRaises(ValueError, setattr, machine, "R0", 65536)
        self.assertRaises(ValueError, setattr, machine, "R0", -1)
        self.assertRaises(TypeError, xm23.Machine, R9=1)

    def test_run(self):
        machine = ticking()
        run = machine.run(10, [(3, 1, 0x41)])
        self.assertEqual((run.reason, run.steps, run.deepest, run.shown), (xm23.Reason.DONE, 10, 1, []))
        self.assertEqual((machine.word(0x0200), machine.count, machine.halted), (1, 10, False))
        self.assertEqual(machine.waiting, [0] * 8)

    def test_shown(self):
        machine = xm23.Machine(PC=0x0100, R0=0x48, R1=0x0001, R2=0x02)
        machine.memory[0] = 0x10
        machine.assemble(" ORG $0100\n ST.B R0,R1\n BRA $0102\n END\n")
        run = machine.run(3)
        self.assertEqual(run.shown, [xm23.Shown(0, 0, 0x48)])
        self.assertEqual((run.screen(0), run.screen(1)), (b"H", b""))

    def test_halts(self):
        machine = xm23.Machine(PC=0x0801, PSW=0x0100)
        self.assertEqual(machine.run(5).reason, xm23.Reason.HALTED)
        self.assertTrue(machine.halted)

    def test_back(self):
        machine = ticking(keep=16)
        machine.run(5, [(3, 1, 0)])
        memory, record = bytes(machine.memory), bytes(machine.record)
        machine.run(6)
        self.assertEqual(machine.kept, 11)
        machine.back(6)
        self.assertEqual((bytes(machine.memory), bytes(machine.record), machine.kept), (memory, record, 5))
        with self.assertRaises(xm23.Refused) as caught:
            machine.back(6)
        self.assertEqual(caught.exception.number, 15)
        self.assertRaises(xm23.Refused, ticking().back)

    def test_refusals(self):
        machine = ticking()
        memory, record = bytes(machine.memory), bytes(machine.record)
        for number, n, events in ((2, 1000001, []), (2, -1, []), (6, 1, [(1, 8, 0)]), (7, 1, [(2, 0, 0), (1, 0, 0)]),
                                  (13, 1, [(2, 0, 0), (2, 0, 1)]), (5, 1, [(i, 0, 0) for i in range(4097)])):
            with self.subTest(number), self.assertRaises(xm23.Refused) as caught:
                machine.run(n, events)
            self.assertEqual(caught.exception.number, number)
            self.assertIn(caught.exception.sentence, str(caught.exception))
        self.assertEqual((bytes(machine.memory), bytes(machine.record)), (memory, record))
        self.assertRaises(ValueError, machine.run, 1, [(1, 0, 256)])
        self.assertRaises(ValueError, machine.run, 1, [(1 << 32, 0, 0)])

    def test_slices_are_the_whole_run(self):
        events = [(step, 1, 0) for step in range(5, 200, 20)]
        whole, sliced = ticking(), ticking()
        whole.run(200, events)
        for _ in range(20):
            sliced.run(10, events)
        self.assertEqual((whole.memory, whole.record), (sliced.memory, sliced.record))


class Watched(unittest.TestCase):
    """Traces and verdicts."""

    def test_trace(self):
        machine = ticking()
        trace = machine.trace(9, [(3, 1, 0x41)])
        self.assertEqual([each.kind.name for each in trace.records], [
            "PLAIN", "PLAIN", "PLAIN", "EVENT", "ACCEPT", "LOAD", "PLAIN", "STORE", "PLAIN", "PULL"])
        event = trace.records[3]
        self.assertEqual((event.step, event.number, event.value), (3, 1, 0x41))
        self.assertEqual(event.effect, xm23.Effect.TAKEN | xm23.Effect.RAISED)
        self.assertEqual((trace.records[7].address, trace.records[7].value), (0x0200, 1))

    def test_kinds_and_room(self):
        kinds = [xm23.Kind.ACCEPT, xm23.Kind.PULL]
        trace = ticking().trace(20, [(3, 1, 0)], kinds)
        self.assertEqual([each.kind for each in trace.records], [xm23.Kind.ACCEPT, xm23.Kind.PULL])
        short = ticking().trace(20, [(3, 1, 0)], kinds, room=1)
        self.assertEqual((short.reason, short.steps, len(short.records)), (xm23.Reason.FULL, 8, 1))
        with self.assertRaises(xm23.Refused) as caught:
            ticking().trace(1, kinds=4096)
        self.assertEqual(caught.exception.number, 21)

    def test_verdicts(self):
        lost = ticking().judge(20, [(3, 1, 0)])
        self.assertFalse(lost.sound)
        self.assertEqual([each.kind for each in lost.findings], [5])
        self.assertEqual((lost.findings[0].detail, lost.findings[0].vector, lost.findings[0].opened), (8, 1, 3))
        self.assertEqual(lost.writers[0x0200], 2)
        kept = TICKING.replace("TICK    LDR", "TICK    ST      R3,-SP\n        LDR").replace(
            "        MOV     LR,PC", "        LD      SP+,R3\n        MOV     LR,PC")
        self.assertTrue(ticking(kept).judge(20, [(3, 1, 0)]).sound)

    def test_nothing_to_take_back(self):
        machine = ticking(keep=4)
        machine.run(2)
        machine.trace(1)
        self.assertEqual(machine.kept, 0)


class Texts(unittest.TestCase):
    """Sources, S-records, words, the printed line and stack bytes."""

    def test_assemble(self):
        self.assertEqual(xm23.assemble(" ORG $1000\n ADD #1,R0\n END\n")[0x1000:0x1002], b"\x88\x40")
        for source, number, line in ((" ADD\n END\n", 17, 1), ("\n MOVL N,R0\n END\n", 18, 2), ("", 17, 1)):
            with self.subTest(source), self.assertRaises(xm23.Refused) as caught:
                xm23.assemble(source)
            self.assertEqual((caught.exception.number, caught.exception.line), (number, line))
            self.assertIn(f"line {line}: R{number}: ", str(caught.exception))

    def test_places(self):
        found = xm23.places("N EQU #-2\n ORG $0010\nL ADD #1,R0\n END\nJUNK")
        self.assertEqual([(each.number, each.kind, each.size, each.named) for each in found],
                         [(-2, 5, 0, True), (0, 4, 0, False), (0x10, 1, 2, True), (0x12, 7, 0, False)])

    def test_records(self):
        machine = ticking()
        text = machine.write_srec(0x0100, 0x50)
        memory, pc = xm23.load_srec(text)
        self.assertEqual((memory[0x0100:0x0150], pc), (machine.memory[0x0100:0x0150], 0x0100))
        with self.assertRaises(xm23.Refused) as caught:
            xm23.load_srec(text.replace("S9", "S8"))
        self.assertEqual((caught.exception.number, caught.exception.line), (10, text.count("\n")))
        self.assertRaises(xm23.Refused, machine.write_srec, 0xFFF0, 32)

    def test_words(self):
        self.assertEqual((xm23.text(0x4088), xm23.text(0x3FFF, 0x0100)), ("ADD #1,R0", "BRA $0100"))
        self.assertRaises(ValueError, xm23.text, 65536)

    def test_sheet(self):
        machine = ticking()
        line = machine.sheet(10, [(3, 1, 0)])
        run = machine.run(10, [(3, 1, 0)])
        fields = line.split()
        self.assertEqual(fields[:2] + fields[-1:], [str(int(run.reason)), str(run.steps), str(run.deepest)])
        self.assertEqual([int(each, 16) for each in fields[2:10]], [getattr(machine, f"R{i}") for i in range(8)])
        self.assertEqual(xm23.sheet(b""), "R3")

    def test_stack(self):
        vectors = bytearray(64)
        vectors[0] = 0x20
        uses = [6] + [0] * 7
        self.assertEqual(xm23.stack(vectors, 1, uses, 0), 14)
        with self.assertRaises(xm23.Refused) as caught:
            xm23.stack(vectors, 1, uses, 8)
        self.assertEqual(caught.exception.number, 16)


if __name__ == "__main__":
    result = unittest.main(exit=False).result
    wrong = len(result.failures) + len(result.errors)
    print(f"{result.testsRun - wrong} passed, {wrong} failed")
    sys.exit(1 if wrong else 0)

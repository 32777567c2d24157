"""The XM-23 examination machine from Python, over the proved shared library.

    import xm23

    machine = xm23.Machine(PC=0x1000, SP=0x0800)
    machine.assemble(" ORG $1000\\n ADD #1,R0\\n END\\n")
    run = machine.run(1)
    print(run.steps, machine.R0)

A Machine holds memory and the state record; its methods are the library's calls. What a call refuses is raised as
Refused, with the number, the sentence and, of a text, the line; nothing has changed then. include/xm23.h and man
xm23(3) say what each call does; nothing of the machine is worked out here.

The library is found by XM23_LIBRARY, a path, or by its name, libxm23.so, where the system looks for libraries or in a
folder of LD_LIBRARY_PATH.
"""
import ctypes
import enum
import os
import struct
from typing import Iterable, List, NamedTuple, Sequence, Tuple, Union

MEMORY_SIZE, RECORD_SIZE, EVENT_SIZE, LOG_SIZE, JOURNAL_SIZE = 65536, 32, 8, 8, 64
TRACE_SIZE, FINDING_SIZE, PLACE_SIZE, LINE_SIZE, TEXT_SIZE = 16, 16, 8, 80, 24
FINDINGS, MAX_JOURNAL, MAX_STEPS, VECTORS, VECTORS_SIZE = 9, 1024, 1000000, 0xFFC0, 64
NO_VECTOR = 16
ALL_KINDS = 4095

# What a refusal says, as xm23.h has it; a test holds the two together.
SENTENCES = {
    1: "memory is not 65,536 bytes",
    2: "n is above 1,000,000, or step count + n above 4,294,967,295",
    3: "the state record is not 32 bytes",
    4: "a zero bit or byte of the state record is not zero, or halted is above 1",
    5: "the events are not a multiple of 8 bytes, or above 4,096 records",
    6: "an event's device is above 7, or its bytes 6-7 are not zero",
    7: "an event's step is below the one before it",
    8: "an instruction to encode is illegal, or has a field its format cannot hold",
    9: "the log's length is not a multiple of 8",
    10: "a line is no S0, S1 or S9, has a wrong count, or S9 is not last or missing",
    11: "a line's checksum differs",
    12: "data or span passes #FFFF, or the text does not fit its buffer",
    13: "two events share step and device",
    14: "the journal's length is zero, above 65,536 or no multiple of 64, or its number kept or next place is too large",
    15: "k exceeds the steps kept",
    16: "a use is above 1,024, the priority above 7, or the vectors are not 64 bytes or the uses not 16",
    17: "a line fits no statement, brackets go deeper than 16, or END is missing",
    18: "a name is unknown, already given or the 1,025th",
    19: "a value leaves 32 bits, divides by zero or does not fit, or an address is odd or past #FFFF",
    20: "the writers are not 65,536 bytes, or the findings not 144",
    21: "the trace's length is no multiple of 16, or kinds is above 4,095",
    22: "the text or table lent is too short",
}

# What a finding says, likewise.
FOUND = [
    "the run starts asleep, halted, or with a line waiting",
    "a fault",
    "a return with no frame open",
    "SVC while a device's frame is open",
    "a frame is still open when the run ends",
    "a handler returns with R0 to R4, SP or its frame changed",
    "the application sets SLP",
    "the application reads a device register",
    "the application reads a byte that a handler or an entry wrote last",
]


class Refused(Exception):
    """A call was refused: its number, the sentence of it, and the line at fault, 0 where no line is."""

    def __init__(self, number: int, line: int = 0):
        self.number, self.line = number, line
        self.sentence = SENTENCES.get(number, "no refusal has this number")
        super().__init__(f"{f'line {line}: ' if line else ''}R{number}: {self.sentence}")


class Reason(enum.IntEnum):
    """Why a run ended; FULL: the trace has no room, or a judged run would have opened a frame too many."""

    DONE = 0
    HALTED = 1
    FULL = 2


class Kind(enum.IntEnum):
    """What a record of a trace tells of."""

    EVENT = 0
    PULL = 1
    CHAIN = 2
    ACCEPT = 3
    SLEEP = 4
    FAULT = 5
    HALT = 6
    SKIP = 7
    TRAP = 8
    PLAIN = 9
    LOAD = 10
    STORE = 11


class Effect(enum.IntFlag):
    """What an event did; none where its device has ENA clear."""

    TAKEN = 1
    OVERRUN = 2
    RAISED = 4
    FULL = 8


class Event(NamedTuple):
    """A byte that comes to a device when the step count is `step`."""

    step: int
    device: int
    data: int


class Shown(NamedTuple):
    """A byte that a device showed, stored by the step that began with the step count `step`."""

    step: int
    device: int
    byte: int


class Run(NamedTuple):
    """How a run ended: why, how many steps, how deep it went, and what the devices showed."""

    reason: Reason
    steps: int
    deepest: int
    shown: List[Shown]

    def screen(self, device: int) -> bytes:
        """All that one device showed, in order."""
        return bytes(each.byte for each in self.shown if each.device == device)


class Traced(NamedTuple):
    """A record of a trace: the step count, PC, SP and PSW before the step, and what it or one of its events did."""

    step: int
    kind: Kind
    number: int
    address: int
    value: int
    pc: int
    sp: int
    psw: int

    @property
    def effect(self) -> Effect:
        """Of an event."""
        return Effect(self.address & 0xFF)


class Trace(NamedTuple):
    """How a traced run ended, and its records."""

    reason: Reason
    steps: int
    records: List[Traced]


class Finding(NamedTuple):
    """A premise of resumption that the run broke, and the first step that did."""

    kind: int
    step: int
    opened: int
    detail: int
    address: int
    vector: int
    running: int

    @property
    def sentence(self) -> str:
        """What the kind says."""
        return FOUND[self.kind]


class Verdict(NamedTuple):
    """A judged run: why it ended, its steps, what was found, and who wrote each byte last (0 none, 1 the application,
    2 a handler or an entry)."""

    reason: Reason
    steps: int
    findings: List[Finding]
    writers: bytes

    @property
    def sound(self) -> bool:
        """Whether nothing was found: the program ended as it would have with no events."""
        return not self.findings


class Place(NamedTuple):
    """What stands on a line of a source: its place or an EQU's value, kind, bytes, and whether it has a name."""

    number: int
    kind: int
    size: int
    named: bool


Events = Iterable[Tuple[int, int, int]]
Text = Union[str, bytes]

_BUFFER, _LENGTH, _WORD = ctypes.c_void_p, ctypes.c_size_t, ctypes.c_uint16
_COUNT, _LONG, _BYTE = ctypes.c_uint32, ctypes.c_uint64, ctypes.c_uint8
_NUMBER = ctypes.POINTER(ctypes.c_uint32)
_LENT = [_BUFFER, _LENGTH]

# Each call: what it gives, and what it takes.
_CALLS = {
    "xm23_version": (_COUNT, []),
    "xm23_decode": (_LONG, [_WORD]),
    "xm23_encode": (_COUNT, [_LONG]),
    "xm23_run": (_LONG, _LENT * 4 + [_NUMBER, _LONG]),
    "xm23_run_journal": (_LONG, _LENT * 4 + [_NUMBER] + _LENT + [_NUMBER, _NUMBER, _LONG]),
    "xm23_back": (_COUNT, _LENT * 3 + [_NUMBER, _NUMBER, _LONG]),
    "xm23_trace": (_LONG, _LENT * 4 + [_COUNT, _LONG]),
    "xm23_judge": (_LONG, _LENT * 5 + [_LONG]),
    "xm23_load_srec": (_LONG, _LENT * 2 + [_WORD]),
    "xm23_write_srec": (_LONG, _LENT + [_WORD, _COUNT, _WORD] + _LENT),
    "xm23_stack": (_COUNT, _LENT + [_BYTE] + _LENT + [_COUNT]),
    "xm23_assemble": (_LONG, _LENT * 2),
    "xm23_places": (_LONG, _LENT * 2),
    "xm23_text": (_COUNT, [_WORD, _WORD] + _LENT),
    "xm23_sheet": (_COUNT, _LENT * 2),
}


def _opened():
    """The library, each call with its types."""
    path = os.environ.get("XM23_LIBRARY", "libxm23.so")
    try:
        library = ctypes.CDLL(path)
    except OSError as problem:
        raise ImportError(f"{problem}: set XM23_LIBRARY to the path of libxm23.so, or LD_LIBRARY_PATH to its folder; "
                          "'make install-lib PREFIX=..' puts it into PREFIX/lib") from None
    for name, (result, takes) in _CALLS.items():
        call = getattr(library, name)
        call.restype, call.argtypes = result, takes
    return library


_library = _opened()


def _lent(buffer: bytearray):
    """A buffer and its length, as two arguments; no bytes are lent as NULL."""
    return ((ctypes.c_char * len(buffer)).from_buffer(buffer) if buffer else None), len(buffer)


def _judged(reply: int, line: int = 0) -> int:
    """A reply that refuses nothing."""
    if reply & 0xFF:
        raise Refused(reply & 0xFF, line)
    return reply


def _bytes(text: Text) -> bytearray:
    return bytearray(text.encode("utf-8") if isinstance(text, str) else text)


def _number(value: int, most: int, what: str) -> int:
    if not 0 <= value <= most:
        raise ValueError(f"{what} {value} is not 0 to {most}")
    return value


def _event(step: int, device: int, data: int) -> bytes:
    """An event as a record; whether there is such a device is the library's to say."""
    _number(device, 0xFF, "device")
    return struct.pack("<IBBH", _number(step, 0xFFFFFFFF, "step"), device, _number(data, 0xFF, "data"), 0)


def _listed(events: Events) -> bytearray:
    """Events as records."""
    return bytearray(b"".join(_event(*event) for event in events))


def _register(at: int, name: str):
    """A number of two bytes in the state record, as a property."""

    def get(self) -> int:
        return struct.unpack_from("<H", self.record, at)[0]

    def put(self, value: int) -> None:
        struct.pack_into("<H", self.record, at, _number(value, 0xFFFF, name))

    return property(get, put, doc=f"{name}, 0 to 65,535.")


class Machine:
    """A machine: 65,536 bytes of memory and a state record, both zero at first. Registers are given by name:
    Machine(PC=0x1000, SP=0x0800). With keep=K the last K steps of its runs, at most 1,024, can be taken back."""

    def __init__(self, keep: int = 0, **registers: int):
        self.memory = bytearray(MEMORY_SIZE)
        self.record = bytearray(RECORD_SIZE)
        self._journal = bytearray(JOURNAL_SIZE * _number(keep, MAX_JOURNAL, "keep"))
        self._kept, self._place = ctypes.c_uint32(0), ctypes.c_uint32(0)
        for name, value in registers.items():
            if name not in NAMES:
                raise TypeError(f"a machine has no {name}: {', '.join(NAMES)}")
            setattr(self, name, value)

    R0, R1, R2, R3 = (_register(2 * i, f"R{i}") for i in range(4))
    R4, R5, R6, R7 = (_register(2 * i, f"R{i}") for i in range(4, 8))
    LR, SP, PC = R5, R6, R7
    PSW, CEX = _register(16, "PSW"), _register(18, "CEX")

    @property
    def halted(self) -> bool:
        """Whether a fault has halted it."""
        return self.record[21] != 0

    @property
    def count(self) -> int:
        """The step count."""
        return struct.unpack_from("<I", self.record, 22)[0]

    @property
    def waiting(self) -> List[int]:
        """How many events of each device wait."""
        return [self.record[26 + d // 2] >> 4 * (d % 2) & 15 for d in range(8)]

    @property
    def kept(self) -> int:
        """How many steps can be taken back."""
        return self._kept.value

    def word(self, address: int) -> int:
        """The two bytes at an address, the lower first, as a number."""
        return struct.unpack_from("<H", self.memory, _number(address, MEMORY_SIZE - 2, "address"))[0]

    def put_word(self, address: int, value: int) -> None:
        """Puts a number into the two bytes at an address."""
        struct.pack_into("<H", self.memory, _number(address, MEMORY_SIZE - 2, "address"), _number(value, 0xFFFF, "word"))

    def put_vector(self, number: int, psw: int, pc: int) -> None:
        """Puts a vector: the PSW and the PC that an entry by it takes."""
        at = VECTORS + 4 * _number(number, 15, "vector")
        self.put_word(at, psw)
        self.put_word(at + 2, pc)

    def assemble(self, source: Text) -> None:
        """Assembles a source into memory."""
        reply = _library.xm23_assemble(*_lent(self.memory), *_lent(_bytes(source)))
        _judged(reply, reply >> 32)

    def load_srec(self, text: Text) -> int:
        """Loads S-records into memory and takes their PC, which it gives."""
        reply = _library.xm23_load_srec(*_lent(self.memory), *_lent(_bytes(text)), self.PC)
        _judged(reply, reply >> 32)
        self.PC = reply >> 16 & 0xFFFF
        return self.PC

    def write_srec(self, start: int, length: int) -> str:
        """A span of memory as S-records, with the PC."""
        _number(start, 0xFFFF, "start")
        text = bytearray(11 * ((_number(length, MEMORY_SIZE, "length") + 15) // 16) + 2 * length + 11)
        reply = _judged(_library.xm23_write_srec(*_lent(self.memory), start, length, self.PC, *_lent(text)))
        return text[: reply >> 8].decode("ascii")

    def run(self, n: int, events: Events = ()) -> Run:
        """Runs n steps, or until it halts. Events are (step, device, data), in the order of their steps."""
        listed, deepest = _listed(events), ctypes.c_uint32(0)
        log = bytearray(LOG_SIZE * min(max(n, 0), MAX_STEPS))
        lent = (*_lent(self.memory), *_lent(self.record), *_lent(listed), *_lent(log), ctypes.byref(deepest))
        if self._journal:
            kept, place = ctypes.byref(self._kept), ctypes.byref(self._place)
            reply = _library.xm23_run_journal(*lent, *_lent(self._journal), kept, place, n)
        else:
            reply = _library.xm23_run(*lent, n)
        _judged(reply)
        shown = [Shown(*each[:3]) for each in struct.iter_unpack("<IBBH", log[: LOG_SIZE * (reply >> 40)])]
        return Run(Reason(reply >> 8 & 0xFF), reply >> 16 & 0xFFFFFF, deepest.value, shown)

    def back(self, k: int = 1) -> None:
        """Takes back the last k steps, of those that are kept."""
        if not self._journal:
            raise Refused(15)
        kept, place = ctypes.byref(self._kept), ctypes.byref(self._place)
        lent = (*_lent(self.memory), *_lent(self.record), *_lent(self._journal))
        _judged(_library.xm23_back(*lent, kept, place, k))

    def trace(self, n: int, events: Events = (), kinds: Union[int, Sequence[Kind]] = ALL_KINDS,
              room: int = 0) -> Trace:
        """Runs as run does, and tells what each step and each event did, of the kinds asked for. `room` records at
        most, else as many as there can be; a step that finds no room is not taken. Steps that are kept are no longer
        those of this machine: there is then nothing to take back."""
        listed = _listed(events)
        asked = kinds if isinstance(kinds, int) else sum({1 << int(kind) for kind in kinds})
        records = bytearray(TRACE_SIZE * (room or min(max(n, 0), MAX_STEPS) + len(listed) // EVENT_SIZE))
        lent = (*_lent(self.memory), *_lent(self.record), *_lent(listed), *_lent(records))
        reply = _judged(_library.xm23_trace(*lent, asked, n))
        self._forget()
        found = struct.iter_unpack("<IBBHHHHH", records[: TRACE_SIZE * (reply >> 40)])
        told = [Traced(each[0], Kind(each[1]), *each[2:]) for each in found]
        return Trace(Reason(reply >> 8 & 0xFF), reply >> 16 & 0xFFFFFF, told)

    def judge(self, n: int, events: Events = ()) -> Verdict:
        """Runs as run does, and tells which premises of resumption the run broke. There is nothing to take back."""
        listed, writers, findings = _listed(events), bytearray(MEMORY_SIZE), bytearray(FINDING_SIZE * FINDINGS)
        lent = (*_lent(self.memory), *_lent(self.record), *_lent(listed), *_lent(writers), *_lent(findings))
        reply = _judged(_library.xm23_judge(*lent, n))
        self._forget()
        each = enumerate(struct.iter_unpack("<IIBBHBBH", findings))
        found = [Finding(kind, f[0], f[1], f[3], f[4], f[5], f[6]) for kind, f in each if f[2]]
        return Verdict(Reason(reply >> 8 & 0xFF), reply >> 16 & 0xFFFFFF, found, bytes(writers))

    def sheet(self, n: int, events: Events = ()) -> str:
        """The printed line of a run of n steps, which leaves this machine as it is; R and a number where refused."""
        return sheet(struct.pack("<I", n & 0xFFFFFFFF) + self.record + self.memory + _listed(events))

    def _forget(self) -> None:
        self._kept.value = self._place.value = 0


NAMES = [f"R{i}" for i in range(8)] + ["LR", "SP", "PC", "PSW", "CEX"]


def version() -> Tuple[int, int, int]:
    """The version of the library: major, minor, patch."""
    number = _library.xm23_version()
    return number >> 16, number >> 8 & 0xFF, number & 0xFF


def assemble(source: Text) -> bytearray:
    """A memory of zeros with a source assembled into it."""
    machine = Machine()
    machine.assemble(source)
    return machine.memory


def load_srec(text: Text) -> Tuple[bytearray, int]:
    """A memory of zeros with S-records loaded into it, and their PC."""
    machine = Machine()
    pc = machine.load_srec(text)
    return machine.memory, pc


def places(source: Text) -> List[Place]:
    """What stands on each line of a source, up to END."""
    lent = _bytes(source)
    table = bytearray(PLACE_SIZE * (lent.count(b"\n") + 1))
    reply = _library.xm23_places(*_lent(lent), *_lent(table))
    _judged(reply, reply >> 32)
    found = struct.iter_unpack("<IBBBB", table[: PLACE_SIZE * (reply >> 32)])
    return [Place(number - (number >> 31 << 32 if kind == 5 else 0), kind, size, named == 1)
            for number, kind, size, named, _ in found]


def text(word: int, place: int = 0) -> str:
    """A word as the assembler writes it at a place."""
    line = bytearray(TEXT_SIZE)
    reply = _judged(_library.xm23_text(_number(word, 0xFFFF, "word"), _number(place, 0xFFFF, "place"), *_lent(line)))
    return line[: reply >> 8].decode("ascii")


def sheet(given: bytes) -> str:
    """The printed line of an input of print_state, without its line ending."""
    line = bytearray(LINE_SIZE)
    reply = _judged(_library.xm23_sheet(*_lent(bytearray(given)), *_lent(line)))
    return line[: (reply >> 8) - 1].decode("ascii")


def stack(vectors: bytes, devices: int, uses: Sequence[int], priority: int) -> int:
    """How many stack bytes handlers need: 64 bytes of vectors, a bit for each device that can interrupt, the eight
    uses, and the priority of the application."""
    listed = bytearray(b"".join(struct.pack("<H", _number(use, 0xFFFF, "use")) for use in uses))
    lent = (*_lent(bytearray(vectors)), _number(devices, 255, "devices"), *_lent(listed))
    return _judged(_library.xm23_stack(*lent, _number(priority, 0xFFFFFFFF, "priority"))) >> 8

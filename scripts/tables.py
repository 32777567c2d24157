#!/usr/bin/env python3
"""No array above 128 elements in the decoder (document 02 §4), nor anywhere in a run: tables.py [ARCHIVE].

In source: the .rt files of the crates that the four calls below are made of, and of those below them. An array is a
type [T; N], or a list or string of that length; a type of numbers behind a reference, &mut [u8; N], is what a caller
lends, and no array of the program's.
In the archive: every section that the calls reach through relocations. A read-only byte belongs to a jump table if a
relocation puts the place of an instruction there; a table begins where code refers to one, and may have no more than
128 places. All other read-only bytes are data, and data that stands together, or one constant of a section of such, is
one array of bytes: it may have no more than 128. Prints what each call needs. The last line is 'N passed, M failed'.
"""
import pathlib
import re
import struct
import subprocess
import sys

ROOT = pathlib.Path(__file__).resolve().parent.parent
CALLS = ["xm23_decode", "xm23_range", "xm23_run", "xm23_run_journal"]
CRATES = ["isa_decode", "isa_number", "isa_ranges", "xm23_run", "xm23_run_journal"]
MOST = 128

# ---- source


def below(names, lines):
    """The crates of crates.txt that these stand on, themselves included."""
    pairs = (line.split(":") for line in lines.splitlines() if ":" in line and not line.startswith("#"))
    deps = {words.split()[0]: crates for words, crates in pairs}
    found, todo = set(), list(names)
    while todo:
        name = todo.pop()
        if name in deps and name not in found:
            found.add(name)
            todo += deps[name].split()
    return sorted(found)


def elements(text):
    """How many elements a bracket's text lists: the commas outside inner brackets, a last one aside, and one."""
    depth = commas = 0
    for character in text.rstrip().rstrip(","):
        depth += (character in "([{") - (character in ")]}")
        commas += character == "," and depth == 0
    return commas + 1 if text.strip() else 0


def brackets(text):
    """The text within each pair of square brackets."""
    starts = []
    for at, character in enumerate(text):
        if character == "[":
            starts.append(at + 1)
        elif character == "]" and starts:
            yield text[starts.pop():at]


def arrays(source):
    """The length of each array of a source text, None where it is no plain number; contracts are no code, and what a
    caller lends is no array."""
    code = re.sub(r"//.*|(?s:⌜.*?⌝)|ghost use .*", "", source)
    code = re.sub(r"&(?:mut )?\[[ui](?:8|16|32|64|size); [0-9]+\]", "", code)
    lengths = [len(text) for text in re.findall(r'"((?:[^"\\]|\\.)*)"', code)]
    for text in brackets(re.sub(r'"(?:[^"\\]|\\.)*"', "", code)):
        _, semicolon, count = text.rpartition(";")
        count = count.strip().replace("_", "")
        known = int(count, 0) if re.match(r"(0x[0-9A-Fa-f]+|[0-9]+)$", count) else None
        lengths.append(known if semicolon else elements(text))
    return lengths


# ---- the archive

ALLOCATED, EXECUTABLE, WRITABLE, MERGED = 2, 4, 1, 16
RELA, NOBITS = 4, 8
WIDTHS = {1: 8, 2: 4, 10: 4, 11: 4, 24: 8}
# Relocations by the distance from the four bytes that they fill.
NEAR = {2, 4}


class Section:
    def __init__(self, name, kind, flags, data, size, info, each):
        self.name, self.kind, self.flags, self.data, self.size = name, kind, flags, data, size
        self.info, self.each, self.to, self.begun = info, each, [], set()

    def code(self):
        return bool(self.flags & EXECUTABLE)

    def read_only(self):
        return bool(self.flags & ALLOCATED) and not self.flags & (EXECUTABLE | WRITABLE)

    def table_bytes(self):
        """The places that hold the place of an instruction."""
        return {at + i for at, width, target in self.to if target.code() for i in range(width)}

    def table_lengths(self):
        """How many places each jump table has: one begins where code refers to it, or data ends before it."""
        lengths, end = [], None
        for at, width, _ in sorted((place for place in self.to if place[2].code()), key=lambda place: place[0]):
            if at in self.begun or at != end:
                lengths.append(0)
            lengths[-1] += 1
            end = at + width
        return lengths

    def data_runs(self):
        """The lengths of what is no jump table: constants of one size each, or bytes that stand together."""
        tables = self.table_bytes()
        if self.flags & MERGED and self.each and not tables:
            return [self.each] * (self.size // self.each)
        kept = "".join("." if at in tables else "d" for at in range(self.size))
        return [len(run) for run in re.findall("d+", kept)]


def object_sections(data):
    """The sections of an ELF64 object with what their relocations lead to, and the section of each global function."""
    places, = struct.unpack_from("<Q", data, 40)
    size, count, names = struct.unpack_from("<HHH", data, 58)
    heads = [struct.unpack_from("<IIQQQQIIQQ", data, places + i * size) for i in range(count)]
    text = lambda table, at: data[heads[table][4] + at:data.index(b"\0", heads[table][4] + at)].decode()
    sections = [
        Section(text(names, n), kind, flags, None if kind == NOBITS else data[at:at + length], length, info, each)
        for n, kind, flags, _, at, length, _, info, _, each in heads
    ]
    symbols, functions = [], {}
    for head in heads:
        if head[1] == 2:
            for at in range(head[4], head[4] + head[5], 24):
                name, info, _, index, _, _ = struct.unpack_from("<IBBHQQ", data, at)
                symbols.append(sections[index] if 0 < index < count else None)
                if info >> 4 == 1 and index < count:
                    functions[text(head[6], name)] = symbols[-1]
    for section in sections:
        if section.kind == RELA:
            for at in range(0, section.size, 24):
                place, info, offset = struct.unpack_from("<QQq", section.data, at)
                target, kind = symbols[info >> 32], info & 0xFFFFFFFF
                if target:
                    sections[section.info].to.append((place, WIDTHS.get(kind, 4), target))
                    if sections[section.info].code():
                        target.begun.add(offset + 4 if kind in NEAR else offset)
    return functions


def reached(section):
    """The sections that one leads to, itself included."""
    found, todo = {}, [section]
    while todo:
        section = todo.pop()
        if section.name not in found:
            found[section.name] = section
            todo += [target for _, _, target in section.to]
    return list(found.values())


def functions_of(archive):
    """The global functions of an archive."""
    members = subprocess.run(["ar", "t", archive], check=True, capture_output=True, text=True).stdout.split()
    functions = {}
    for member in members:
        data = subprocess.run(["ar", "p", archive, member], check=True, capture_output=True).stdout
        functions.update(object_sections(data))
    return functions


def need(section):
    """Bytes of code and of read-only data of a function and what it leads to: text, tables, data; the longest array; the
    places of the longest table."""
    sections = reached(section)
    read_only = [s for s in sections if s.read_only()]
    runs = [run for s in read_only for run in s.data_runs()]
    text = sum(s.size for s in sections if s.code())
    places = max((length for s in read_only for length in s.table_lengths()), default=0)
    return text, sum(len(s.table_bytes()) for s in read_only), sum(runs), max(runs, default=0), places


def main():
    archive = sys.argv[1] if len(sys.argv) > 1 else ROOT / "target/staticlib/libxm23.a"
    passed, failures = 0, []
    for crate in below(CRATES, (ROOT / "crates.txt").read_text()):
        for path in sorted((ROOT / "crates" / crate / "src").glob("**/*.rt")):
            wrong = [length for length in arrays(path.read_text()) if length is None or length > MOST]
            passed += not wrong
            failures += [f"{path.relative_to(ROOT)}: an array of {length or '?'} elements" for length in wrong]
    functions = functions_of(archive)
    for call in CALLS:
        text, tables, data, longest, places = need(functions[call])
        print(f"{call}: .text {text} bytes, .rodata {tables + data} bytes: jump tables {tables}, the longest of {places} "
              f"places, data {data}")
        passed += (longest <= MOST) + (places <= MOST)
        failures += [f"{call}: {longest} bytes of data stand together"] if longest > MOST else []
        failures += [f"{call}: a jump table of {places} places"] if places > MOST else []
    for failure in failures:
        print(failure)
    print(f"{passed} passed, {len(failures)} failed")
    return 1 if failures else 0


if __name__ == "__main__":
    sys.exit(main())

#!/usr/bin/env python3
"""Every character of Unicode, and bytes that are none, as xm23 shows them: printable.py XM23. The categories are
Python's: a character of shape is shown, and every control, format, private or half one is \\xHH."""
import random
import re
import subprocess
import sys
import tempfile
import unicodedata

xm23 = sys.argv[1]
passed = failed = 0
# Characters that take no place of their own though their category is that of letters or marks.
FILLERS = {0x34F, 0x115F, 0x1160, 0x17B4, 0x17B5, 0x3164, 0xFFA0, *range(0x180B, 0x1810), *range(0xFE00, 0xFE10),
           *range(0xE0100, 0xE01F0)}


def same(what, got, expected):
    global passed, failed
    if got == expected:
        passed += 1
    else:
        failed += 1
        print(f"{what}\n  got:      {got[:300]!r}\n  expected: {expected[:300]!r}")


def coded(data):
    return "".join(f"\\x{byte:02X}" for byte in data)


def listed(comments):
    """What a listing shows of comments, a line each."""
    with tempfile.NamedTemporaryFile(suffix=".asm") as file:
        file.write(b"".join(b";" + c + b"\n" for c in comments) + b"END\n")
        file.flush()
        out = subprocess.run([xm23, "asm", "-l", file.name], stdout=subprocess.PIPE, check=True).stdout
    return [line[20:] for line in out.decode().split("\n")[:len(comments)]]


def rule(code):
    """1 shown, 0 as \\xHH, None: unassigned in this Python, which may be either."""
    category = unicodedata.category(chr(code))
    if code == 0x5C or category in ("Cc", "Cf", "Cs", "Co", "Zl", "Zp") or code in FILLERS:
        return 0
    return None if category == "Cn" else 1


def character(code):
    return chr(code).encode("utf-8", "surrogatepass")


def every_character():
    codes = [code for code in range(0x110000) if code not in (9, 10) and rule(code) is not None]
    lines = [codes[at:at + 64] for at in range(0, len(codes), 64)]
    got = listed([b"|".join(character(c) for c in line) for line in lines])
    for line, text in zip(lines, got):
        expected = "|".join(chr(c) if rule(c) else coded(character(c)) for c in line)
        same(f"characters from U+{line[0]:04X} on", text, expected)


def no_characters():
    """Too long, halves, beyond the last one, cut short, without a beginning; noncharacters."""
    bad = [b"\xC0\x80", b"\xC1\xBF", b"\xE0\x80\x80", b"\xE0\x9F\xBF", b"\xF0\x80\x80\x80", b"\xF0\x8F\xBF\xBF",
           b"\xED\xA0\x80", b"\xED\xBF\xBF", b"\xF4\x90\x80\x80", b"\xF5\x80\x80\x80", b"\xF8\x88\x80\x80\x80",
           b"\xFE", b"\xFF", b"\x80", b"\xBF", b"\xC3", b"\xE2\x82", b"\xF0\x9F\x98", b"\xC3(", b"\xE2\x82(",
           b"\xF0\x9F\x98("]
    bad += [character(c) for c in (0xFFFE, 0xFFFF, 0x1FFFE, 0x10FFFF, 0xFDD0, 0x2065, 0xE0000)]
    for data, text in zip(bad, listed(bad)):
        same(repr(data), text, coded(data) if data[-1:] != b"(" else coded(data[:-1]) + "(")
    same("letters stay", listed(["Grüße, 日本 é ☃ 😀 אבג".encode()])[0], "Grüße, 日本 é ☃ 😀 אבג")
    same("a tab stays, a CR does not", listed([b"a\tb\rc"])[0], "a\tb\\x0Dc")
    same("a backslash begins \\xHH always", listed([b"\\x41 \\"])[0], "\\x5Cx41 \\x5C")


def undone(text):
    """The bytes that a text stands for."""
    return re.sub(rb"\\x([0-9A-F]{2})", lambda m: bytes([int(m[1], 16)]), text.encode())


def random_bytes():
    dice = random.Random(23)
    some = [bytes(dice.choice([dice.randrange(256), 0x5C, 0x78, 0xC3, 0xA9, 0x41]) for _ in range(40))
            for _ in range(2000)]
    some = [line.replace(b"\n", b"").rstrip(b"\r") for line in some]
    for line, text in zip(some, listed(some)):
        same(f"bytes back: {line!r}", undone(text), line)


every_character()
no_characters()
random_bytes()
print(f"{passed} passed, {failed} failed")
sys.exit(failed > 0)

#!/usr/bin/env python3
"""Hints of sources near lawful ones: hints.py XM23 SOURCES [SEED]. A lawful source is changed at one place, and where
it is then refused, what the hint claims is held to the source: a column is where the words in quotes stand; a line that
is changed as the hint says fits; a name is given where it says, or nowhere; a value at both ends of a range is taken
and one past it is not. The last line is 'N passed, M failed'."""
import os
import random
import re
import subprocess
import sys
import tempfile

from tally import end, same

xm23, many = sys.argv[1], int(sys.argv[2])
dice = random.Random(int(sys.argv[3]) if len(sys.argv) > 3 else 1)
LINES = re.split(r"[|\n]", """SUB.B R1,R2|MOV LR,PC|MOVLZ $41,R1|MOVH LOOP,R2|BRA LOOP|BEQ DONE|BL DONE
SETCC VC|CEX EQ,#1,#2|CLRCC SNZ|LD SP+,R0|ST R0,-SP|LDR R4,#4,R0|STR.B R3,R4,#-3|SETPRI #2|SVC #12|SWAP R0,R1|SXT R1|SRA.B R2|CMP #-1,R4
BYTE (SIZE-#1)|WORD (LOOP+#2*SIZE)|BSS #4|BYTE $7F|WORD #-32768|DADD R1,R2|BIS #8,R3|COMP R0|SWPB R1""")

STATEMENTS = """ORG EQU BSS BYTE WORD END BL BEQ BZ BNE BNZ BC BHS BNC BLO BN BGE BLT BRA ADD ADDC SUB SUBC DADD CMP XOR
AND OR BIT BIC BIS MOV SWAP SRA RRC COMP SWPB SXT SETPRI SVC SETCC CLRCC CEX LD ST MOVL MOVLZ MOVLS MOVH LDR
STR""".split()


def lawful():
    lines = ["SIZE EQU #5", " ORG $1000", "LOOP ADD #1,R0"]
    lines += [" " + line for line in dice.choices(LINES, k=dice.randrange(2, 8))]
    return lines + ["DONE MOV LR,PC ; done", " END"]


def changed(lines):
    """One change, of a kind that people make."""
    lines, i = list(lines), dice.randrange(len(lines) - 1)
    line = lines[i]
    at = dice.randrange(len(line))
    lines[i] = dice.choice([
        lambda: line[:at] + line[at + 1:],
        lambda: line[:at] + dice.choice("#$,:._'5AZ ()-+;R\\%\"\t\r\x80a") + line[at:],
        lambda: line.lower(), lambda: line.replace("#", "", 1), lambda: line.replace("$", "0x", 1),
        lambda: line.replace("$", "", 1), lambda: line.replace(",", " ", 1), lambda: line + " more",
        lambda: line + ",R1",
        lambda: re.sub(r"\d+", lambda m: str(int(m[0]) * dice.choice([9, 100, 70000, 10**9])), line, count=1),
        lambda: line.replace("#", "#-", 1), lambda: " " + dice.choice(["RET", "INC R1", "push r0", "CLR", "NOP NOP"]),
        lambda: re.sub(r"\bLOOP\b", "LOPP", line), lambda: "DONE" + line, lambda: line.replace("R", "r", 1),
        lambda: line.replace("(", "", 1), lambda: line.split()[0] + ": " + line, lambda: line.replace("R", "R9", 1),
        lambda: " ORG #1\n" + line, lambda: " ORG $FFFF\n" + line, lambda: line.replace("+", "/#0+", 1),
        lambda: " ORG DONE", lambda: line.split()[-1] + " EQU #1", lambda: " ".join(line.split()[:2]),
        lambda: line[:line.index(" ", 1)] if " " in line[1:] else line, lambda: dice.choice(STATEMENTS) + line,
        lambda: line.split()[0] + " " + dice.choice(STATEMENTS), lambda: line.replace(" ", "", 2),
    ])()
    return "\n".join(lines).split("\n")


def assembled(lines):
    with open(path, "w", encoding="latin1", newline="") as file:
        file.write("\n".join(lines) + "\n")
    told = subprocess.run([xm23, "asm", path], capture_output=True)
    same("status", told.returncode in (0, 1), True)
    said = [re.fullmatch(r".*?a\.asm:(\d+): (.*)", text) for text in told.stderr.decode("latin1").splitlines()]
    # notes on names of an accepted source are none of these: tests/desk/notes.sh
    return [(int(m[1]), m[2].replace("\\x5C", "\\")) for m in said if not m[2].endswith("and nothing uses it")]


def refused(lines, number, refusal):
    """Whether the line is at fault with the refusal."""
    told = assembled(lines)
    return bool(told) and told[0][0] == number and told[0][1].startswith(f"R{refusal}:")


def with_line(lines, number, text):
    return lines[:number - 1] + [text] + lines[number:]


def giving(lines, name):
    return [i + 1 for i, line in enumerate(lines) if re.match(rf"[ \t]*{name}(?![A-Z0-9])", line)]


def hold(lines, number, refusal, hint):
    """One sentence of a hint, with its column."""
    line = lines[number - 1].split(";")[0]
    column, text = re.fullmatch(r"column (\d+): (.*)", hint, re.S).groups()
    at = int(column) - 1
    there = line[at:]
    quoted = re.match(r"'(.+?)' (?!is written by)", text)
    what = f"{lines}, line {number}: {hint}"
    same(what, 0 <= at < len(line), True)
    if quoted:
        same(what, there[:len(quoted[1])], quoted[1])
    kinds.add(re.sub(r"'.*?'|\d+|\$\w+|[A-Z][A-Z0-9.]*( [\w#,+-]+)? (?=is written)|(?<=written ).*", "", text)[:24])
    kept = line[:at].rstrip()
    if "letters are upper case" in text:
        same(what, there[:len(quoted[1])] != there[:len(quoted[1])].upper(), True)
    elif text == "a comma is missing here":
        same(what, refused(with_line(lines, number, kept + "," + there), number, 17), False)
    elif "is too much" in text:
        same(what, refused(with_line(lines, number, kept.rstrip(", \t")), number, 17), False)
    elif "in brackets:" in text:
        operand = text.split(": ", 1)[1]
        bracketed = with_line(lines, number, line[:at] + operand + line[at + len(operand) - 2:])
        same(what, (there.startswith(operand[1:-1]), refused(bracketed, number, 17)), (True, False))
    elif text.startswith("no line gives"):
        name = text.split("'")[1]
        same(what, (there.startswith(name), giving(lines, name)), (True, []))
    elif "is given already" in text:
        same(what, giving(lines, quoted[1])[0], int(text.split()[-1]))
    elif "need it above" in text:
        same(what, giving(lines, quoted[1])[0], int(re.search(r"on line (\d+)", text)[1]))
    elif " takes " in text and (span := re.search(r"takes (-?\d+) to (-?\d+)$", text)):
        hold_range(what, lines, number, at, int(span[1]), int(span[2]))
    elif "begins no statement" in text:
        same(what, quoted[1] in STATEMENTS, False)
    elif "word of the language" in text:
        same(what, refused([f"{quoted[1]} EQU #0", " END"], 1, 17), True)
    elif "odd address" in text:
        word = with_line(lines, number, line[:at] + "WORD #0")
        above = word[:number - 1] + [" BSS #1"] + word[number - 1:]
        same(what, (refused(word, number, 19), refused(above, number + 1, 19)), (True, False))
    elif "is written" in text and "without" not in text and " as in " not in text and "number" not in text:
        hold_written(what, there, text)


def hold_range(what, lines, number, at, least, most):
    line = lines[number - 1].split(";")[0]
    operand = re.match(r"\([^,]*\)|[^,\s]+", line[at:])[0]
    named = re.search(r"(?<![$#A-Z0-9])[A-Z]", operand)
    for number_tried, taken in ((least, True), (most, True), (least - 1, False), (most + 1, False)):
        # a name stands where one stood
        value = "VALUE" if named else f"#{number_tried}"
        tried = [f"VALUE EQU #{number_tried}"] + with_line(lines, number, line[:at] + value + line[at + len(operand):])
        same(f"{what}: {number_tried}", refused(tried, number + 1, 19), not taken)


def hold_written(what, there, text):
    short, long = text.split(" is written ")
    same(what, there.upper().startswith(short.split()[0].split(".")[0]), True)
    same(what, assembled([" " + long.replace("Rx", "R1"), "NAME", " END"]), [])


kinds, met = set(), set()
with tempfile.TemporaryDirectory() as room:
    path = os.path.join(room, "a.asm")
    for _ in range(many):
        lines = changed(lawful())
        told = assembled(lines)
        if not told:
            continue
        number, refusal = told[0][0], int(told[0][1][1:3])
        met.add((refusal, len(told) > 1))
        same(f"{lines}: at most one hint, of the same line", {n for n, _ in told}, {number})
        for hint in re.split(r"; (?=column \d)", told[1][1]) if len(told) > 1 else []:
            if hint.startswith("column"):
                hold(lines, number, refusal, hint)
same("refusals with a hint", {refusal for refusal, hinted in met if hinted}, {17, 18, 19})
same(f"kinds of hints: {sorted(kinds)}", len(kinds) > 12, True)
end()

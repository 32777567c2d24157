#!/usr/bin/env python3
"""The reference card: well-formed and whole. Its figures are added up, its flags are those that 01 gives each
operation, and the text of each example is what build/xm23 lists for its word. Last line: N passed, M failed."""
import html.parser
import re
import subprocess
import sys
import tempfile

VOID = {"meta", "col"}


class Page(html.parser.HTMLParser):
    """Tags that are open, rows of cells, and what would reach outside the page."""

    def __init__(self, text):
        super().__init__()
        self.open, self.wrong, self.rows, self.cell = [], [], [], None
        self.feed(text)
        self.close()

    def handle_starttag(self, tag, attrs):
        if tag in ("script", "link", "img", "iframe") or any(name in ("src", "href") for name, _ in attrs):
            self.wrong.append(f"<{tag}> reaches outside")
        if tag not in VOID:
            self.open.append(tag)
        if tag == "tr":
            self.rows.append([])
        if tag == "td":
            self.cell = [dict(attrs), ""]
            self.rows[-1].append(self.cell)
        if tag == "i" and self.cell:
            self.cell[1] += "+" if dict(attrs).get("class") == "on" else "-"

    def handle_endtag(self, tag):
        if not self.open or self.open.pop() != tag:
            self.wrong.append(f"</{tag}> closes nothing")
        if tag == "td":
            self.cell = None

    def handle_data(self, data):
        if self.cell:
            self.cell[1] += data


passed = failed = 0


def same(what, got, expected):
    global passed, failed
    if got == expected:
        passed += 1
    else:
        failed += 1
        print(f"{what}: {got!r}, expected {expected!r}")


def listed(word):
    """The text that xm23 dis lists for a word at #1000."""
    data = bytes((5, 0x10, 0x00, word & 255, word >> 8))
    with tempfile.NamedTemporaryFile("w") as program:
        program.write(f"S1{data.hex().upper()}{255 - sum(data) & 255:02X}\nS9031000EC\n")
        program.flush()
        command = ["build/xm23", "dis", program.name]
        line = subprocess.run(command, capture_output=True, text=True, check=True).stdout.split("\n")[1]
    return line.partition(";")[0].strip()


# The flags that 01 has each operation change: BIC and BIS Z alone, SVC all of them, from its vector. A machine that
# takes a step is awake, so CLRCC changes no SLP.
FLAGS = {"BIC": "Z", "BIS": "Z", "DADD": "ZC", "SETCC": "VSNZC"}
FLAGS.update(dict.fromkeys(("ADD", "ADDC", "SUB", "SUBC", "CMP", "CLRCC", "SVC"), "VNZC"))
FLAGS.update(dict.fromkeys(("AND", "OR", "XOR", "BIT", "COMP"), "NZ"))
FLAGS.update(dict.fromkeys(("SRA", "RRC"), "NZC"))

text = open(sys.argv[1], encoding="utf-8").read()
page = Page(text)
same("well-formed, and alone", page.wrong + page.open, [])
rows = [row for row in page.rows if row]
same("operations", len(rows), 41)
total = 0
for row in rows:
    kind = {}
    for attrs, content in row:
        kind.setdefault(attrs["class"], []).append((attrs, content.strip()))
    name = kind["name"][0][1].split()[0]
    width = sum(int(attrs.get("colspan", 1)) for c in ("fixed", "field") for attrs, _ in kind.get(c, []))
    same(f"{name}: bits", width, 16)
    count = int(kind["count"][0][1])
    total += count
    same(f"{name}: flags", "".join(re.findall(r"\+(.)", kind["flags"][0][1])), FLAGS.get(name, ""))
    example, word = kind["example"][0][1], int(kind["word"][0][1], 16)
    same(f"{name}: example", example, listed(word))
    same(f"{name}: its own", example.split()[0], name)
    same(f"{name}: before and after", len(kind["state"]), 2)
    same(f"{name}: something changes or a branch is not taken",
         kind["state"][0] != kind["state"][1] or name.startswith("B"), True)
illegal = re.search(r"<p class=illegal>.*", text).group(0)
ranges = [(int(a, 16), int(b, 16)) for a, b in re.findall(r"<span>(\w{4})-(\w{4})</span>", illegal)]
many = int(re.search(r"(\d+) words", illegal).group(1))
same("illegal ranges", len(ranges), 6)
same("their words", sum(b - a + 1 for a, b in ranges), many)
same("all words", total + many, 65536)
print(f"{passed} passed, {failed} failed")
sys.exit(failed != 0)

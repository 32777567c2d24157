#!/usr/bin/env python3
"""Draws the crates as floors, docs/floors.svg: one for each comment of crates.txt, the lowest at the bottom.

    floors.py            writes the drawing
    floors.py --check    whether it is what crates.txt says, and whether docs/ARCHITECTURE.md has a paragraph for each
                         floor and names every crate; the last line is 'N passed, M failed'

A box is a crate: grey where it has no code. Below a floor's name stand the numbers of the floors that its crates name.
"""
import html
import os
import re
import sys

ROOT = os.path.dirname(os.path.dirname(os.path.abspath(__file__)))
DRAWING = os.path.join(ROOT, "docs/floors.svg")
TEXT = os.path.join(ROOT, "docs/ARCHITECTURE.md")
WIDTH, LEFT, BOX, LETTER, GAP = 1060, 285, 26, 7.4, 8


def floors():
    """The floors, lowest first: (its name, {crate: the crates that it names}). A comment is the name up to : or ;"""
    found = []
    with open(os.path.join(ROOT, "crates.txt"), encoding="utf-8") as text:
        for line in list(text)[1:]:
            if line.startswith("#"):
                found.append((re.split("[:;]", line[1:])[0].strip(), {}))
            elif ":" in line:
                # A static library has that word behind its name.
                crate, below = line.split(":")
                found[-1][1][crate.split()[0]] = below.split()
    return found


def has_code(crate):
    """Whether a function of the crate is more than its definitions."""
    folder = os.path.join(ROOT, "crates", crate, "src")
    texts = (open(os.path.join(folder, name), encoding="utf-8").read() for name in os.listdir(folder))
    return any(re.search(r'^\s*(pub )?(extern "C" )?fn ', text, re.M) for text in texts)


def rows_of(crates):
    """The boxes of a floor, row by row: (crate, where it begins, how wide it is)."""
    rows, x = [[]], LEFT
    for crate in crates:
        wide = len(crate) * LETTER + 18
        if x + wide > WIDTH - 12:
            rows.append([])
            x = LEFT
        rows[-1].append((crate, x, wide))
        x += wide + GAP
    return rows


def folded(words, most):
    """A text in lines of so many letters at most."""
    lines = [""]
    for word in words.split():
        if lines[-1] and len(lines[-1]) + 1 + len(word) > most:
            lines.append("")
        lines[-1] = f"{lines[-1]} {word}".strip()
    return lines


def stands_on(number, all_floors):
    """The numbers of other floors that a floor's crates name."""
    home = {crate: i for i, (_, crates) in enumerate(all_floors) for crate in crates}
    named = {home[below] for belows in all_floors[number][1].values() for below in belows}
    return sorted(named - {number})


def draw_floor(number, all_floors, top):
    """One floor from `top` down: its elements and its height."""
    name, crates = all_floors[number]
    rows, head = rows_of(crates), folded(f"{number + 1}. {name}", 42)
    below = ", ".join(str(i + 1) for i in stands_on(number, all_floors))
    head += folded(f"stands on {below}" if below else "stands on nothing", 42)
    height = max(len(rows) * (BOX + GAP) + GAP, len(head) * 15 + 14)
    out = [f'<rect x="4" y="{top}" width="{WIDTH - 8}" height="{height - 4}" class="floor"/>']
    for i, line in enumerate(head):
        out.append(f'<text x="14" y="{top + 18 + 15 * i}">{html.escape(line)}</text>')
    for i, row in enumerate(rows):
        y = top + GAP - 2 + i * (BOX + GAP)
        for crate, x, wide in row:
            kind = "code" if has_code(crate) else "none"
            out.append(f'<rect x="{x:.0f}" y="{y}" width="{wide:.0f}" height="{BOX}" rx="4" class="{kind}"/>')
            out.append(f'<text x="{x + 9:.0f}" y="{y + 17}" class="crate">{crate}</text>')
    return out, height


def drawing():
    """The whole drawing."""
    all_floors, body, top = floors(), [], 6
    for number in reversed(range(len(all_floors))):
        lines, height = draw_floor(number, all_floors, top)
        body += lines
        top += height
    style = ("rect{stroke:#444}.floor{fill:#f6f6f2;stroke:#999}.code{fill:#cfe3f5}.none{fill:#e2e2e2}"
             "text{font:12px sans-serif;fill:#111}.crate{font:12px monospace}")
    head = (f'<svg xmlns="http://www.w3.org/2000/svg" viewBox="0 0 {WIDTH} {top + 6}" role="img">\n'
            f"<title>The crates as floors, lowest at the bottom</title>\n<style>{style}</style>\n"
            f'<rect width="{WIDTH}" height="{top + 6}" fill="#fff" stroke="none"/>\n')
    return head + "\n".join(body) + "\n</svg>\n"


def check():
    """Holds drawing and text to crates.txt; 0 where both are right."""
    with open(TEXT, encoding="utf-8") as file:
        text = file.read()
    wrong = []
    if not os.path.exists(DRAWING) or open(DRAWING, encoding="utf-8").read() != drawing():
        wrong.append("docs/floors.svg: is not what scripts/floors.py draws")
    for number, (name, crates) in enumerate(floors()):
        if f"### {number + 1}. {name}\n" not in text:
            wrong.append(f"docs/ARCHITECTURE.md: has no paragraph '### {number + 1}. {name}'")
        wrong += [f"docs/ARCHITECTURE.md: does not name {crate}" for crate in crates if f"`{crate}`" not in text]
    for line in wrong:
        print(line)
    total = 1 + sum(1 + len(crates) for _, crates in floors())
    print(f"{total - len(wrong)} passed, {len(wrong)} failed")
    return 1 if wrong else 0


def main():
    if sys.argv[1:] == ["--check"]:
        return check()
    if sys.argv[1:]:
        print(__doc__.strip(), file=sys.stderr)
        return 2
    with open(DRAWING, "w", encoding="utf-8") as file:
        file.write(drawing())
    return 0


if __name__ == "__main__":
    sys.exit(main())

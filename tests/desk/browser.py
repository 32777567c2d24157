#!/usr/bin/env python3
"""Pages of xm23 in a real browser, headless: browser.py XM23. The example sitting is marked; its table and its pages
are loaded, keys are pressed, buttons clicked and what is shown then is held to what xm23 back tells; without scripts,
in print and at several widths too. The last line is 'N passed, M failed'."""
import os
import re
import subprocess
import sys
import tempfile

sys.path.insert(0, os.path.dirname(os.path.abspath(__file__)))
from chromium import Browser
from tally import end, same

xm23 = os.path.abspath(sys.argv[1])
os.chdir(os.path.join(os.path.dirname(os.path.abspath(__file__)), "../../examples/sitting"))


def run(*words):
    return subprocess.run([xm23, *words], stdout=subprocess.PIPE, stderr=subprocess.PIPE).stdout.decode()


def shown_rows(browser):
    return browser.value("[...document.querySelectorAll('tbody tr')].filter((r) => !r.hidden).length")


def slide(browser, at):
    browser.value(f"document.getElementById('slide').value = {at}; document.getElementById('slide').oninput()")


def fits(browser, what):
    for width in (360, 768, 1280, 1920):
        browser.size(width, 900)
        narrow = browser.value("document.documentElement.scrollWidth <= window.innerWidth")
        same(f"{what}: {width} pixels wide", narrow, True)
    browser.size(1280, 900)


def on_paper(browser, what, room):
    """A4, and nothing of what only a screen can show."""
    path = os.path.join(room, "page.pdf")
    browser.pdf(path)
    with open(path, "rb") as file:
        boxes = set(re.findall(rb"/MediaBox *\[0 0 (\d+)[\d.]* (\d+)[\d.]*\]", file.read()))
    same(f"{what}: on A4", boxes <= {(b"594", b"841"), (b"595", b"842"), (b"595", b"841")} and len(boxes) == 1, True)
    browser.call("Emulation.setEmulatedMedia", media="print")
    hidden = browser.value("[...document.querySelectorAll('#walk, .find')].every("
                           "(e) => getComputedStyle(e).display === 'none')")
    same(f"{what}: no walk in print", hidden, True)
    browser.call("Emulation.setEmulatedMedia", media="")


def try_index(browser, marks, room):
    browser.open(os.path.join(marks, "index.html"))
    same("index: rows", shown_rows(browser), 6)
    browser.click("#name")
    browser.type("SCREEN")
    same("index: find", (shown_rows(browser), browser.text("count")), (1, "1 of 6 are shown"))
    browser.value("document.getElementById('name').value = ''")
    browser.click("#others")
    browser.value("document.getElementById('name').dispatchEvent(new Event('input'))")
    same("index: those that are not as expected", shown_rows(browser), 5)
    fits(browser, "index")
    on_paper(browser, "index", room)
    same("index: errors", browser.errors(), [])
    same("index: a link that leads to a page", browser.value("document.querySelector('a').getAttribute('href')"),
         "pages/000001-halting.s19.html")


def registers(browser):
    return [line.split("\t")[1] for line in browser.text("registers").split("\n") if line.strip()]


def state_back(program, many):
    """Registers, PSW, CEX and lines so many steps before the close, by xm23 back."""
    last = run("back", "-n", str(many), "sum.paper", program).splitlines()[-1]
    return re.findall(r" ([0-9A-F]{2,8})\b", last.split(":")[1])


def try_walk(browser, marks, room):
    browser.open(os.path.join(marks, "pages/000005-stops_early.s19.html"))
    same("walk: it is there", browser.value("document.getElementById('walk').hidden"), False)
    same("walk: the close", browser.text("now"),
         "After step 119, at $1016: BRA $1016. It left: nothing but PC. The run ends here.")
    browser.click("#to_back")
    browser.press("ArrowLeft")
    browser.press("ArrowLeft")
    same("walk: three back", (browser.value("document.getElementById('step').value"), registers(browser)),
         ("116", state_back("programs/stops_early.s19", 3)))
    for many in (20, 54, 75, 99):
        slide(browser, 120 - many)
        same(f"walk: {many} back", registers(browser), state_back("programs/stops_early.s19", many))
    browser.press("Home")
    same("walk: Home", browser.text("now"), "Before step 0, the first of these.")
    same("walk: the start", registers(browser), state_back("programs/stops_early.s19", 120))
    browser.press("ArrowRight")
    same("walk: one forward", browser.text("now").split(".")[0], "After step 0, at $1000: MOVLZ $00,R1")
    browser.press("ArrowRight", shift=True)
    same("walk: 32 forward", browser.value("document.getElementById('step').value"), "32")
    browser.press("End")
    same("walk: End", browser.text("now").endswith("The run ends here."), True)
    disabled = browser.value("['to_on', 'to_back'].map((name) => document.getElementById(name).disabled)")
    same("walk: buttons at the end", disabled, [True, False])
    browser.click("#to_first")
    browser.click("#to_last")
    same("walk: first and last by buttons", browser.text("now").endswith("The run ends here."), True)
    browser.value("document.getElementById('step').value = '20'; document.getElementById('step').onchange()")
    same("walk: the stack with its frame", re.sub(r"\s+", " ", browser.text("stack")).count("of frame 1"), 4)
    same("walk: the frame's words", re.findall(r"(07F.)\s+(\w{4})\s+(CEX|PSW|LR|PC)", browser.text("stack")),
         [("07F8", "0000", "CEX"), ("07FA", "0001", "PSW"), ("07FC", "FFFF", "LR"), ("07FE", "1008", "PC")])
    same("walk: the frames", browser.text("frames").endswith(": 1."), True)
    browser.value("document.getElementById('step').value = '31'; document.getElementById('step').onchange()")
    same("walk: the frame is pulled", browser.text("frames").endswith(": 0."), True)
    same("walk: errors", browser.errors(), [])


def try_finding(browser, marks):
    """A finding of the section about handlers leads to its step."""
    browser.open(os.path.join(marks, "pages/000001-halting.s19.html"))
    same("finding: its link", browser.value("[...document.querySelectorAll('#sound a')].map((a) => [a.innerText, a.hidden])"),
         [["(walk to step 3)", False], ["(walk to step 3)", False]])
    browser.press("Home")
    browser.click("#sound a")
    same("finding: its step", browser.text("now").split(",")[0], "After step 3")
    same("finding: errors", browser.errors(), [])


def try_steps(browser, program):
    """Every step of the walk as its row tells it, beside xm23 back."""
    lines = run("back", "-n", "1024", "sum.paper", program).splitlines()[-2:0:-1]
    seen = {}
    for at in range(1, len(lines) + 1, 7):
        slide(browser, at)
        for row in browser.value("[...document.querySelectorAll('#around tr')].map("
                                 "(r) => [...r.cells].map((c) => c.textContent))"):
            seen[int(row[0])] = " ".join(row)
    same(f"{program}: every step", [re.sub(" +", " ", seen[step]).strip() for step in sorted(seen)],
         [re.sub(" +", " ", line).strip() for line in lines])


def try_picture(browser, marks):
    """The picture of the run is as wide as the page at every width, and its words are as large."""
    for scripts in (True, False):
        browser.open(os.path.join(marks, "pages/000005-stops_early.s19.html"), scripts=scripts)
        browser.call("Emulation.setScriptExecutionDisabled", value=False)
        for width in (360, 1280, 1920):
            browser.size(width, 900)
            bars, words, page = browser.value(
                "['#run .high', '#run text', 'body'].map((s) => document.querySelector(s).getBoundingClientRect())"
                ".map((r) => [r.left, r.right, r.height])")
            same(f"picture: {width} pixels", (page[0] < bars[0] < bars[1] < page[1], 9 < words[2] < 20), (True, True))
    browser.size(1280, 900)
    browser.call("Emulation.setEmulatedMedia", media="print")
    shown = browser.value("getComputedStyle(document.getElementById('run')).display")
    browser.call("Emulation.setEmulatedMedia", media="")
    same("picture: in print", shown, "block")


def try_writer(browser):
    browser.press("End")
    browser.press("w")
    browser.type("0120")
    browser.press("Enter")
    same("writer: found", browser.text("found"), "Step 46 wrote $0120: ST R0,R1.")
    same("writer: it is gone to", browser.value("document.getElementById('step').value"), "46")
    same("writer: the bytes", browser.value("document.querySelector('#memory .chosen').innerText"), "19")
    told = run("back", "-w", "120", "sum.paper", "programs/stops_early.s19").splitlines()
    same("writer: as xm23 back tells", told[-2].split()[0], "46")
    browser.click("#writer")
    same("writer: none before it", browser.text("found"), "No step before, back to step 0, wrote $0120.")
    browser.value("document.getElementById('byte').value = '$0130'")
    browser.click("#next_writer")
    same("writer: after", browser.text("found"), "Step 72 wrote $0130: ST R1,R0.")
    browser.click("#writer")
    same("writer: the one before", browser.text("found"), "Step 27 wrote $0130: ST R1,R0.")
    browser.value("document.getElementById('byte').value = 'x'")
    browser.click("#writer")
    same("writer: no address", browser.text("found"), "An address has one to four digits of base sixteen.")
    browser.click("#memory span")
    same("writer: a byte that is clicked", len(browser.value("document.getElementById('byte').value")), 4)
    browser.click("#around tr")
    same("writer: a step that is clicked", browser.value("document.querySelector('#around .current') !== null"), True)


def try_screen(browser, marks):
    browser.open(os.path.join(marks, "pages/000003-screen.asm.html"))
    same("screen: at the close", browser.text("screen"), "SUM")
    browser.press("Home")
    seen = [browser.text("screen")]
    for _ in range(8):
        browser.press("ArrowRight")
        if browser.text("screen") != seen[-1]:
            seen.append(browser.text("screen"))
    same("screen: so far", seen, ["", "S", "SU", "SUM"])
    lines = browser.value("[...document.querySelectorAll('#around tr')].slice(0, 3).map((r) => r.cells[4].textContent)")
    same("screen: lines of the source", lines,
         ["3.  START   MOVLZ $05,R1        ; the screen's data byte", "4.          MOVLZ $53,R0        ; S",
          "5.          ST.B R0,R1"])
    same("screen: errors", browser.errors(), [])


def try_points(browser, marks, room):
    """A paper with awards: the table fits, its points stand before the lines, on paper across and without these."""
    browser.open(os.path.join(marks, "index.html"))
    heads = browser.value("[...document.querySelectorAll('thead th')].map((h) => h.textContent)")
    same("points: heads", heads[2:7], ["Verdict", "Pointsof 20", "Passed", "word $0120 = $001Fof 4", "R0 = $001Fof 2"])
    browser.click("#others")
    same("points: those that have not passed", shown_rows(browser), 5)
    fits(browser, "points")
    path = os.path.join(room, "points.pdf")
    browser.pdf(path)
    with open(path, "rb") as file:
        boxes = re.findall(rb"/MediaBox *\[0 0 (\d+)[\d.]* (\d+)[\d.]*\]", file.read())
    same("points: one sheet, across", [(int(w) > int(h), abs(int(w) - 842) < 3) for w, h in boxes], [(True, True)])
    browser.call("Emulation.setEmulatedMedia", media="print")
    same("points: on paper no lines", browser.value("getComputedStyle(document.querySelector('td.sheet')).display"),
         "none")
    browser.call("Emulation.setEmulatedMedia", media="")
    same("points: errors", browser.errors(), [])


def try_folder(browser, marks):
    """A page of nine files: the walk has lines of each source."""
    browser.open(os.path.join(marks, "pages/000006-with_handlers.html"))
    fits(browser, "folder")
    seen = []
    for step in (3, 102, 125):
        browser.value(f"document.getElementById('step').value = '{step}'; document.getElementById('step').onchange()")
        seen.append(browser.value("document.querySelector('#around .current').cells[4].textContent").split(".  ")[1])
    same("folder: lines of its sources", [line.strip() for line in seen], ["MOVLZ #0,R0", "ST R1,-SP", "LD R0,R1"])
    same("folder: errors", browser.errors(), [])


def try_without_scripts(browser, marks):
    browser.open(os.path.join(marks, "pages/000005-stops_early.s19.html"), scripts=False)
    text = browser.call("DOM.getOuterHTML", nodeId=browser.call("DOM.getDocument")["root"]["nodeId"])["outerHTML"]
    browser.call("Emulation.setScriptExecutionDisabled", value=False)
    same("without scripts: no walk", 'id="walk" hidden' in text, True)
    last = text[text.index("<h2>The last 32 steps before the closing ones</h2>"):]
    same("without scripts: the last 32 steps", last[:last.index("</table>")].count("<tr>"), 33)
    same("without scripts: the closing state", "<h2>Closing state</h2>" in text, True)
    same("without scripts: it says so", "Without scripts" in text, True)


def long_run(room, tick):
    """A million steps: the paper of the sitting with one tick more, and the page of sound.s19 under it."""
    paper, page = os.path.join(room, "long.paper"), os.path.join(room, "long.html")
    with open("sum.paper") as file:
        text = re.sub(r"(?m)^expect.*\n", "", file.read()).replace("steps    120", "steps 1000000")
    with open(paper, "w") as file:
        file.write(text + f"{tick} 1 0\n")
    run("report", "-o", page, paper, "programs/sound.s19")
    return paper, page


def try_long(browser, room):
    page = long_run(room, 999990)[1]
    same("long: at most 400 KB", os.path.getsize(page) <= 400_000, True)
    browser.open(page)
    browser.press("Home")
    same("long: 1,024 steps", browser.text("now"), "Before step 998976, the first of these.")
    browser.press("End")
    same("long: the close", browser.text("now").startswith("After step 999999"), True)
    same("long: errors", browser.errors(), [])


def try_closing(browser, room):
    """Of a closing loop the first step is the last of the walk."""
    browser.open(long_run(room, 5000)[1])
    same("closing: its title", browser.text("title"), "Walk through steps 3989 to 5012")
    same("closing: its end", browser.text("now"),
         "After step 5012, at $1016: BRA $1016. It left: nothing but PC. 994987 more steps follow.")
    same("closing: what is told", browser.value("[...document.querySelectorAll('p')].filter("
         "(p) => p.innerText.startsWith('From step 5012 on nothing changes')).length"), 1)
    same("closing: registers", registers(browser), last_state("long.paper", room, "-a", "5012", "-n", "1"))
    same("closing: errors", browser.errors(), [])


def last_state(paper, room, *words):
    last = run("back", *words, os.path.join(room, paper), "programs/sound.s19").splitlines()[-1]
    return re.findall(r" ([0-9A-F]{2,8})\b", last.split(":")[1])


def try_around(browser, room):
    """A page about any step opens on it, and its walk goes both ways from there, with labels of the source."""
    page = os.path.join(room, "around.html")
    run("report", "-a", "50000", "-o", page, "ticks.paper", "sources/sound.asm")
    browser.open(page)
    same("around: its title", browser.text("title"), "Walk through steps 49488 to 50511")
    same("around: its step", browser.text("now"), "After step 50000, at $2012 TICK+18: MOV LR,PC. It left: nothing but PC.")
    browser.value("document.getElementById('step').value = '49990'; document.getElementById('step').onchange()")
    for step in (49990, 49991, 49992):
        row = browser.value("[...document.querySelector('#around .current').cells].map((c) => c.textContent)")
        told = run("back", "-a", str(step), "-n", "1", "ticks.paper", "sources/sound.asm").splitlines()[1]
        told = re.split(r" *; ", told)
        same(f"around: step {step}", [re.sub(" +", " ", " ".join(row[:4])).strip(), row[5]],
             [re.sub(" +", " ", told[0]), told[1] if len(told) > 1 else ""])
        browser.press("ArrowRight")
    browser.press("End")
    same("around: its end", browser.text("now").endswith(" 49488 more steps follow."), True)
    browser.value("document.getElementById('byte').value = 'TICKS'")
    browser.click("#writer")
    step = re.match(r"Step (\d+) wrote \$0130: ST R1,R0.", browser.text("found"))
    told = run("back", "-a", "50511", "-w", "TICKS", "ticks.paper", "sources/sound.asm").splitlines()[-2]
    same("around: a byte by its name", step and step[1], told.split()[0])
    browser.press("Home")
    same("around: its start", browser.text("now"), "Before step 49488, the first of these.")
    fits(browser, "around")
    on_paper(browser, "around", room)
    same("around: errors", browser.errors(), [])


with tempfile.TemporaryDirectory() as room:
    marks = os.path.join(room, "marks")
    run("mark", "-o", marks, "sum.paper", *sorted("programs/" + name for name in os.listdir("programs")))
    browser = Browser()
    try:
        try_index(browser, marks, room)
        try_walk(browser, marks, room)
        try_steps(browser, "programs/stops_early.s19")
        try_writer(browser)
        fits(browser, "page")
        on_paper(browser, "page", room)
        try_screen(browser, marks)
        for name in ("000001-halting.s19", "000002-refused.s19"):
            browser.open(os.path.join(marks, "pages", name + ".html"))
            same(f"{name}: errors", browser.errors(), [])
            fits(browser, name)
        browser.open(os.path.join(marks, "pages/000001-halting.s19.html"))
        try_steps(browser, "programs/halting.s19")
        try_finding(browser, marks)
        try_picture(browser, marks)
        try_without_scripts(browser, marks)
        try_long(browser, room)
        points = os.path.join(room, "points")
        run("mark", "-o", points, "handlers.paper", *sorted("programs/" + name for name in os.listdir("programs")))
        try_points(browser, points, room)
        try_folder(browser, points)
        try_closing(browser, room)
        try_around(browser, room)
    finally:
        browser.close()
end()

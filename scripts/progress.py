#!/usr/bin/env python3
"""Runs rt and tells how far it is: progress.py rt WORD..

A line for each crate proved, each must-fail edit refused and each program run, that it is at work where that takes
long, all that rt says of what is wrong, and its own last line. Everything that rt prints is in build/log/rt_WORD.out.
The status is rt's; of rt ci it is 1 where an edit is bad, which rt itself lets pass: its last line counts it as failed
then. Stopped, it stops all that it has started.
"""
import glob
import os
import re
import shutil
import signal
import subprocess
import sys
import threading
import time

ROOT = os.path.dirname(os.path.dirname(os.path.abspath(__file__)))
# Seconds without a line after which what is at work is told.
SILENCE = 20


def crates():
    """Every crate of crates.txt, with those that it stands on."""
    with open("crates.txt", encoding="utf-8") as file:
        lines = [line.split("#")[0].strip() for line in file]
    pairs = (line.split(":") for line in lines if line)
    return {words.split()[0]: deps.split() for words, deps in pairs}


def archives():
    """The crates that are static libraries."""
    with open("crates.txt", encoding="utf-8") as file:
        heads = [line.split("#")[0].split(":")[0].split() for line in file]
    return {words[0] for words in heads if "staticlib" in words[1:]}


def edits():
    """Every must-fail edit, CRATE/EDIT, in the order in which rt tries those of a crate."""
    paths = sorted(glob.glob("crates/*/must-fail/*.edit"))
    return [f"{path.split('/')[1]}/{os.path.basename(path)[: -len('.edit')]}" for path in paths]


def clock(seconds):
    return f"{int(seconds) // 60} min {int(seconds) % 60} s" if seconds >= 60 else f"{int(seconds)} s"


class Progress:
    """What rt prints, told as progress; the log has it as it is."""

    def __init__(self, log, total):
        self.began = self.spoke = time.time()
        self.log, self.total, self.edits = log, total, len(edits())
        self.crates, self.tried, self.bad, self.proved = set(), set(), 0, 0
        self.block, self.telling, self.lock = [], False, threading.Lock()

    def say(self, text):
        with self.lock:
            self.spoke = time.time()
            print(text, flush=True)

    def elapsed(self):
        return f"; {clock(time.time() - self.began)} so far"

    def crate(self, name, is_new=True):
        """A crate is proved now, or was by an earlier run."""
        self.crates.add(name)
        self.proved += is_new
        self.say(f"proved {name} ({len(self.crates)} of {self.total}{'' if is_new else ', kept'}){self.elapsed()}")

    def edit(self, name):
        self.tried.add(name)
        self.say(f"refused {name} (edit {len(self.tried)} of {self.edits}){self.elapsed()}")

    def line(self, text):
        print(text, file=self.log, flush=True)
        if self.telling and not text.startswith("rt: "):
            self.say(text)
            return
        self.block.append(text)
        self.telling = False
        if found := re.match(r"rt: (\w+) (proved$|is kept: )", text):
            self.crate(found[1], found[2] == "proved")
        elif found := re.match(r"rt: must-fail (\w+/\w+)\.edit: refused, ", text):
            self.edit(found[1])
        elif found := re.match(r"rt: (\w+) ran(.*), and wrote what its file stdout has$", text):
            self.say(f"ran {found[1]}{found[2]} on crates/{found[1]}/stdin: it printed crates/{found[1]}/stdout")
        elif found := re.match(r"(\d+) passed, (\d+) failed", text):
            self.say(f"{found[1]} passed, {int(found[2]) + self.bad} failed")
        elif not text.startswith("rt: "):
            return
        elif found := re.match(r"rt: ok; .*?, (\d+) bad", text):
            self.bad = int(found[1])
            self.say(text)
        elif not re.match(r"rt: (ok; |chose |note: |\w+: (trying|begins|\d+ of its|another) )", text):
            # Something is wrong: all that rt said of it, of a bad edit what comes after too.
            self.say("\n".join(self.block))
            self.telling = "BAD EDIT" in text
        self.block = []

    def watch(self, ended):
        while not ended.wait(1):
            if time.time() - self.spoke >= SILENCE:
                self.say(f"at work: {len(self.crates)} of {self.total} crates are proved{self.elapsed()}")

    def rt(self, *words, where=".", given=subprocess.DEVNULL):
        """Runs rt in a folder, and all that it starts as one group. Gives its status."""
        self.block = []
        with subprocess.Popen(["rt", *words], stdin=given, stdout=subprocess.PIPE, stderr=subprocess.STDOUT, cwd=where,
                              encoding="utf-8", errors="replace", start_new_session=True) as rt:
            try:
                for text in rt.stdout:
                    self.line(text.rstrip("\n"))
            except BaseException:
                os.killpg(rt.pid, signal.SIGKILL)
                raise
        if rt.returncode and self.block:
            self.say("\n".join(self.block))
        return rt.returncode or int(self.bad > 0)


def watched(path, total, work):
    """The status of work(progress), told as it goes, with the log at that path."""
    for number in (signal.SIGTERM, signal.SIGHUP):
        signal.signal(number, lambda *_: sys.exit(130))
    os.makedirs(os.path.dirname(path), exist_ok=True)
    with open(path, "w", encoding="utf-8") as log:
        progress, ended = Progress(log, total), threading.Event()
        threading.Thread(target=progress.watch, args=[ended], daemon=True).start()
        status = work(progress)
        ended.set()
    return status, progress


def main():
    os.chdir(ROOT)
    if sys.argv[1:2] != ["rt"] or len(sys.argv) < 3:
        print(f"progress.py: {__doc__.split(': ', 1)[1].strip()}", file=sys.stderr)
        return 2
    if not shutil.which("rt"):
        print("progress.py: rt is not here: it is the command of the Rattle kit", file=sys.stderr)
        return 2
    words = sys.argv[2:]
    return watched(f"build/log/rt_{words[0]}.out", len(crates()), lambda progress: progress.rt(*words))[0]


if __name__ == "__main__":
    try:
        sys.exit(main())
    except KeyboardInterrupt:
        sys.exit("progress.py: stopped")

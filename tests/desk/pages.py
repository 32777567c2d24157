#!/usr/bin/env python3
"""Whether pages are well-formed, at most 400 KB long and reach outside for nothing: pages.py PAGE.."""
import html.parser
import os
import sys

VOID = {"meta", "br", "input"}


class Page(html.parser.HTMLParser):
    def __init__(self, text):
        super().__init__()
        self.open, self.wrong = [], []
        self.feed(text)
        self.close()

    def handle_starttag(self, tag, attrs):
        reaches = any(name in ("src", "href") and ":" in (value or "") for name, value in attrs)
        if reaches or tag in ("link", "img", "iframe", "b"):
            self.wrong.append(f"<{tag}>")
        if tag not in VOID:
            self.open.append(tag)

    def handle_endtag(self, tag):
        if not self.open or self.open.pop() != tag:
            self.wrong.append(f"</{tag}>")


wrong = 0
for name in sys.argv[1:]:
    with open(name, encoding="utf-8", errors="replace") as file:
        page = Page(file.read())
    if page.wrong or page.open or os.path.getsize(name) > 400_000:
        wrong += 1
        print(name, page.wrong, page.open)
print("all well-formed" if not wrong else f"{wrong} wrong")

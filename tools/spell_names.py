#!/usr/bin/env python3
"""Brings the names of definitions and lemmas to the spelling of today's library: words in snake case.

usage: spell_names.py          at the top of the repository, once, after the scripts of the toolchain

A name that a file of specs/ or proofs/ declares in lower camel case becomes snake case, in every .antt file, in the clauses and comments
of .rt files and in the pages. A dash stays in a lemma's name, where it joins two names as it does in the library's; in a name that
specs/ declares, such as a field, it becomes an underscore. A lemma that then has the name of a definition gets `_lem` after its name.
Functions of src/, types, modules, strings and what Rattle makes keep their names. Prints each name that changed.
"""
import glob
import re
import sys

DECLARED = re.compile(
    r"(?m)^ *(?:(?:pub|abbrev|unfoldable|private|opaque|constructor|field|data|record) +)*"
    r"([^\s(){}.;,@\"«»]+)(?: \{[^{}\n]*\})* :(?=\s)"
)
USED = re.compile(r"\buse ([^\s;{]+)\{([^}]*)\}")
TOKEN = re.compile(r"[^\s(){}.;,@\"«»\[\]|`]+")


def text_of(path):
    with open(path, encoding="utf-8") as f:
        return f.read()


def names_in(pattern):
    found = {}
    for path in sorted(glob.glob(pattern)):
        for m in DECLARED.finditer(re.sub(r"--.*", "", text_of(path))):
            found.setdefault(m[1], []).append(path)
    return found


def is_camel(name):
    return name[:1].islower() and re.search(r"[a-z0-9][A-Z]", name)


def snake(name):
    return re.sub(r"(?<=[a-z0-9])[A-Z](?=[A-Z]*)", lambda m: "_" + m[0].lower(), name)


def main():
    specs = names_in("crates/*/specs/*.antt")
    laws = names_in("crates/*/proofs/*.antt")
    own = names_in("crates/*/proofs/**/*.antt") | names_in("crates/*/proofs/*/*.antt")
    names = {**own, **laws, **specs}
    table = {}
    for name in names:
        new = snake(name) if is_camel(name) else name
        if name in specs and name[:1].islower():
            new = new.replace("-", "_")
        if new != name:
            table[name] = new
    # A lemma beside a definition of the same name.
    news = {}
    for old, new in table.items():
        news.setdefault(new, []).append(old)
    for new, olds in sorted(news.items()):
        rivals = sorted(set(olds) | ({new} if new in names and new not in table else set()))
        if len(rivals) < 2:
            continue
        defined = [it for it in rivals if it in specs]
        keeps = set(defined) or {it for it in rivals if is_camel(it)}
        for it in rivals:
            if it not in keeps:
                table[it] = new + "_lem"
        if len(defined) > 1:
            print(f"look: {new}: defined as {defined}", file=sys.stderr)
    # A lemma whose own spelling was fine gives way only where it is declared or brought in.
    lemmas = {it: new for it, new in table.items() if new.endswith("_lem")}
    files = glob.glob("crates/*/specs/**/*.antt", recursive=True)
    files += glob.glob("crates/*/proofs/**/*.antt", recursive=True)
    files += glob.glob("crates/*/src/**/*.rt", recursive=True)
    files += glob.glob("docs/**/*.md", recursive=True) + ["README.md"]
    # A lemma of one file that a definition which it brings in is called now.
    risen = "crates/event_rules/proofs/Risen.antt"
    for path in sorted(set(files)):
        text = text_of(path)
        seen = set()
        here = set(DECLARED.findall(text)) if path.endswith(".antt") else set()
        for module, items in USED.findall(text) if "/proofs/" in path else ():
            if ".proofs." in module:
                here.update(TOKEN.findall(items))

        def turned(m):
            it = m[0]
            new = table.get(it)
            if new is None:
                return it
            if it in lemmas:
                around = text[m.start() - 1 : m.start()] + text[m.end() : m.end() + 1]
                if it not in here or "." in around:
                    return it
            if path.endswith((".md", ".rt")) and "-" in it and not is_camel(it):
                # A word of prose may be spelled so; in code of .rt a dash is a minus.
                if not path.endswith(".rt"):
                    return it
            seen.add((it, new))
            return new

        code = re.sub(r"--.*", "", text)
        before = set(TOKEN.findall(code))
        if path == risen:
            text = re.sub(r"\bin_order\b(?!\.)", "in_order-next", text)
        out = TOKEN.sub(turned, text)
        for old, new in sorted(seen):
            if new in before and not path.endswith(".md") and new not in table:
                print(f"look: {path}: {old} is {new} now, which stands there already", file=sys.stderr)
        if out != text:
            with open(path, "w", encoding="utf-8") as f:
                f.write(out)
    for old, new in sorted(table.items()):
        print(f"{old} {new}")


main()

#!/usr/bin/env python3
"""Lists the places in crates/*/src where a form of today's Rattle may serve better, by the points of docs/DESIGN-PASS.md.

    tools/forms.py [--list] [TOP]      counts of each kind of place below TOP (this repository), with --list each place

A row is a place to look, not a verdict: what was done about each kind is in docs/DESIGN-PASS.md.
"""
import collections
import glob
import re
import sys


def sources(top):
    for path in sorted(glob.glob(f"{top}/crates/*/src/**/*.rt", recursive=True)):
        with open(path, encoding="utf-8") as it:
            yield path[len(top) + 8 :].replace("/src/", "/").replace("/lib.rt", ""), it.read()


def functions(text):
    """Returns (line, name, parameters, result, clauses, body) of each function."""
    lines, found, at = text.split("\n"), [], 0
    while at < len(lines):
        if not re.match(r" *(pub )?(extern \"C\" )?fn \w+", lines[at]):
            at += 1
            continue
        end = at
        indent = len(lines[at]) - len(lines[at].lstrip())
        while lines[end] != " " * indent + "{" and (not lines[end].endswith(" {") or re.match(r" *(requires|ensures)\b", lines[end])):
            end += 1
        last = end
        while lines[last] != " " * indent + "}":
            last += 1
        head, body = " ".join(it.strip() for it in lines[at : end + 1]), lines[end + 1 : last]
        name, params = re.match(r"(?:pub )?(?:extern \"C\" )?fn (\w+)(?:<.*?>)?\((.*?)\)(?= ->| \{| requires| ensures| where)", head).groups()
        result = re.search(r"\) -> (.+?)(?= requires| ensures| where| \{)", head)
        clauses = re.sub(r"^.*?(?= requires| ensures| \{$)", "", head, count=1)
        found.append((at + 1, name, params.strip(), result and result[1], clauses, [it for it in body if not it.strip().startswith("//")]))
        at = last + 1
    return found


def places(top):
    """Returns, by kind, the places found."""
    found = collections.defaultdict(list)
    facts, groups = collections.defaultdict(set), collections.defaultdict(set)
    for crate, text in sources(top):
        lines = text.split("\n")
        inside = None
        for number, line in enumerate(lines, 1):
            head = re.match(r"(?:pub )?(enum|struct) (\w+)", line)
            if head:
                inside = head[1] if line.endswith("{") else None
                if head[1] == "enum":
                    found["1 own enums"].append(f"{crate}:{number}: {head[2]}")
            elif line == "}":
                inside = None
            elif inside == "struct" and re.match(r" +(pub )?\w+: bool,", line):
                found["1 flags in a struct"].append(f"{crate}:{number}: {line.strip()}")
            if re.match(r" *(while\b|loop \{$)", line):
                found["3 loops by hand"].append(f"{crate}:{number}: {line.strip()}")
            if re.match(r" *for\b.* in\b", line):
                found["3 loops by for (today's)"].append(f"{crate}:{number}: {line.strip()}")
            for it in re.findall(r"\b(?:op|cond|kind|refusal|reason)\w*: u(?:8|16|32|64|size)\b", line):
                found["1 numbers for kinds"].append(f"{crate}:{number}: {it}")
        for number, name, params, result, clauses, body in functions(text):
            where = f"{crate}:{number}: {name}"
            text_of = "\n".join(body)
            if result and re.fullmatch(r"u(8|16|32|64|size)", result) and re.search(r"(?m)^ *(?:return )?(?:0x)?[0-9][0-9A-F]*;?$", text_of):
                found["1 answers by a literal number"].append(f"{where} -> {result}")
            if re.search(r"(?m)^ *return Option::None|^ *return None;|\bErr\(|\?[;)]|\bSome\(", text_of):
                found["1 Option and Result (today's)"].append(where)
            arms = re.findall(r"=> ([^{\n]+),$", text_of, re.M)
            if "match" in text_of and arms and all(it in ("true", "false") for it in arms):
                found["4 tests of a case by a match"].append(where)
            if re.fullmatch(r"(?s) *if [^\n]+ \{\n *return (?:1|true|\w+);\n *\}\n *(?:0|false|\w+)\n?", text_of + "\n"):
                found["4 choices of two values by if and return"].append(where)
            if re.search(r"/ 256(?: % 256)?\) as u8|% 256\) as u8", text_of):
                found["4 bytes of a number by hand"].append(where)
            given = [it.strip() for it in re.split(r",(?![^\[(]*[\])])", params) if it.strip()]
            names = [re.sub(r"&mut ", "&", it) for it in given]
            for k in range(len(names) - 2):
                groups[tuple(names[k : k + 3])].add(where)
            for clause in re.findall(r"requires(?: \w+)? \{ (.*?) \}(?= requires| ensures| \{|$)", clauses):
                for fact in re.split(r" × ", clause):
                    fact = re.sub(r"\.(old|now)\b", "", fact.strip().strip("()")).replace("memory", "mem")
                    if len(fact) > 6:
                        facts[fact].add(where)
            bools = [it for it in given if it.endswith(": bool")]
            if bools and re.search(r"^ *if !?(%s) \{$" % "|".join(it.split(":")[0] for it in bools), text_of, re.M):
                found["7 a parameter that switches the step"].append(f"{where} ({', '.join(bools)})")
    for fact, by in facts.items():
        if len(by) > 2:
            found["5 facts required by three functions or more"].append(f"{len(by)} times: {fact}")
    for group, by in groups.items():
        if len(by) > 2:
            found["5 three parameters together in three functions or more"].append(f"{len(by)} times: {', '.join(group)}")
    return found


def main():
    words = [it for it in sys.argv[1:] if it != "--list"]
    found = places(words[0] if words else ".")
    for kind in sorted(found):
        print(f"{len(found[kind]):4} {kind}")
        if "--list" in sys.argv:
            for it in sorted(found[kind]) if not kind.startswith("5") else sorted(found[kind], key=lambda it: -int(it.split()[0])):
                print(f"         {it}")


if __name__ == "__main__":
    main()

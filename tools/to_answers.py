#!/usr/bin/env python3
"""Turns proofs/F/Proof.antt of a crate, where it answers the needs of tie.spec, into Invariants.antt and Answers.antt.

usage: to_answers.py NAMES.json CRATE [F..]
"""
import json, os, re, sys

ID = r"[^\s(){}.;,@\"«»\[\]|`]+"
norm = lambda s: s.replace("-", "_")


def split_top(text):
    """Splits at white space outside brackets."""
    out, depth, cur = [], 0, ""
    for ch in text:
        if ch in "([{": depth += 1
        if ch in ")]}": depth -= 1
        if ch.isspace() and depth == 0:
            if cur: out.append(cur)
            cur = ""
        else:
            cur += ch
    if cur: out.append(cur)
    return out


def closing(text, i):
    depth = 0
    for j in range(i, len(text)):
        if text[j] in "([{": depth += 1
        if text[j] in ")]}":
            depth -= 1
            if depth == 0: return j
    return -1


def commas(text):
    out, depth, cur = [], 0, ""
    for ch in text:
        if ch in "([{": depth += 1
        if ch in ")]}": depth -= 1
        if ch == "," and depth == 0:
            out.append(cur); cur = ""
        else: cur += ch
    if cur.strip(): out.append(cur)
    return [it.strip() for it in out]


def flat(parts, n):
    """Flattens a right-nested tuple to n parts."""
    while len(parts) < n and parts and parts[-1].startswith("(") and closing(parts[-1], 0) == len(parts[-1]) - 1:
        more = commas(parts[-1][1:-1])
        if len(more) < 2: break
        parts = parts[:-1] + more
    return parts


class Fn:
    def __init__(self, crate, path, of, text):
        self.crate, self.path, self.of, self.text = crate, path, of, text
        self.said = []
        self.fields = {}
        self.clauses = {}
        self.renames = {}
        self.brought = set()
        for i, (old, parent, (fo, fn), callee, ren) in enumerate(of["places"]):
            if fo:
                self.fields[norm(fo)] = fn
                cl = of["clauses"][i]
                if cl and cl.get("fields") and old.startswith("After"):
                    self.clauses[fn] = cl["fields"]
                for a, b in ren:
                    self.renames[(fn, a)] = b
        self.arms = {}
        for it in of["arms"]:
            if not it: continue
            arm, _, entries = it
            for new, old, path in entries:
                self.arms.setdefault(norm(old), {}).setdefault(tuple(path), (arm, new))
        self.places = {norm(p[0]): n for p, n in zip(of["places"], of["places_by_name"])}
        self.needs = {norm(a): b for a, b in of["needs"]}
        self.asked = {norm(a): b for a, b in of["asked"].items()}
        self.loops = {norm(a[0]): (a[1], vs, ch) for (a, vs), ch in zip(of["loops"], of["changed"])}
        self.req = None

    def imports(self, cname):
        names = ", ".join(sorted(self.brought))
        return [f"use Rattle.{cname}.proofs.{self.path}.Goals.{{{names}}}"] if names else []

    def field(self, name):
        """The new name of a step, also where the scripts took its old one for a word of the library."""
        for it in (name, re.sub(r"^Is-?", "", name), re.sub(r"_lem$", "", name)):
            for way in (it, it[:1].lower() + it[1:]):
                if norm(way) in self.fields: return self.fields[norm(way)], norm(way)
        return None, norm(name)

    def armed(self, step, path):
        """The new steps of a fact of an arm, and what is left of its path."""
        at = self.arms.get(step)
        if not at: return None
        for k in range(len(path), 0, -1):
            if tuple(path[:k]) in at:
                return [*at[tuple(path[:k])], *path[k:]]
        if () in at and path: return [*at[()], *path]
        return None

    def chain(self, ctx, steps, m):
        """Turns one chain of names behind a context."""
        parts = m.split(".")
        root, rest = parts[0], parts[1:]
        if root in self.alias and rest:
            home, step, path = self.alias[root]
            got = self.armed(step, path + rest)
            if got: return ".".join([home] + got)
        if root in ctx:
            while rest and rest[0] == "before": rest = rest[1:]
            if not rest: return root
            if rest[0] == "pre": rest[0] = "requires"
            f, old = self.field(rest[0])
            got = self.armed(old, rest[1:])
            if got: return ".".join([root] + got)
            if f:
                rest[0] = f
                rest[1:] = self.fact(f, rest[1:])
            elif rest[0] == "requires" and self.req and len(rest) > 1:
                rest[1:] = self.numbered(self.req, rest[1:])
            return ".".join([root] + rest)
        if root in steps:
            return ".".join([root] + self.fact(steps[root], rest))
        return m

    def numbered(self, names, rest):
        """The parts of a right-nested tuple by number, or by 1s."""
        if not rest or not rest[0].isdigit(): return rest
        k = int(rest[0])
        if k < len(names): return [names[k]] + rest[1:]
        return rest

    def fact(self, step, rest):
        if not rest: return rest
        r = rest[0]
        new = self.renames.get((step, r))
        if new: rest = [new] + rest[1:]
        elif r == "taken": rest = ["true"] + rest[1:]
        elif r == "left" and (step.startswith("if-") or step.endswith("-test")): rest = ["false"] + rest[1:]
        elif r == "inv": rest = ["invariant"] + rest[1:]
        if rest[0] in ("ensures",) and step in self.clauses:
            rest = [rest[0]] + self.numbered(self.clauses[step], rest[1:])
        return rest

    def body(self, text, first=("c",)):
        """Turns the names of a block's body."""
        ctx, steps = set(first), {}
        self.alias, self.unread = {}, {}
        # lets of places
        def place(m):
            name = self.places.get(norm(m[2]))
            ctx.add(m[1])
            uses = re.findall(rf"(?<![\w.'₀-]){re.escape(m[1])}(?![\w'₀-])(\.?)", text[m.end():])
            if name and any(u != "." for u in uses):
                self.brought.add(name)
                return f"let {m[1]} : {name} = search in"
            return f"let {m[1]} = c in"
        text2 = re.sub(rf"let ({ID}) : tie\.({ID})(?: (?:invariant|decreases)-{ID})* = search in", place, text)
        out, pos = "", 0
        tok = re.compile(rf"(--[^\n]*)|(let ({ID}) = )?(?<![\w.'₀-])((?:{ID})(?:\.{ID})+|{ID})")
        for m in tok.finditer(text2):
            out += text2[pos:m.start()]
            pos = m.end()
            if m[1]:
                out += m[1]; continue
            t = self.chain(ctx, steps, m[4])
            if m[2] and text2[m.end():m.end() + 4].lstrip().startswith("in"):
                old = m[4].split(".")
                if old[0] in ctx and len(old) > 1:
                    path = [x for x in old[1:] if x != "before"]
                    if path and self.field(path[0])[1] in self.arms and not self.armed(self.field(path[0])[1], path[1:]):
                        self.unread[m[3]], t = t, "@@"
                    if path and self.field(path[0])[1] in self.arms:
                        self.alias[m[3]] = (old[0], self.field(path[0])[1], path[1:])
            if m[2]:
                parts = t.split(".")
                after = text2[m.end():m.end() + 4]
                if after.lstrip().startswith("in"):
                    if parts[0] in ctx and len(parts) == 1: ctx.add(m[3])
                    elif parts[0] in ctx and len(parts) == 2 and parts[1] in self.fields.values(): steps[m[3]] = parts[1]
            out += (m[2] or "") + t
        out += text2[pos:]
        out = re.sub(rf"tie\.({ID})(?: (?:invariant|decreases)-{ID})*", self.place_type, out)
        for name in self.unread:
            if not re.search(rf"(?<![\w.'₀-]){re.escape(name)}(?![\w'₀-])", out.replace(f"let {name} = @@ in", "")):
                out = re.sub(rf"let {re.escape(name)} = @@ in\n?\s*", "", out)
            else:
                out = out.replace(f"let {name} = @@ in", f"let {name} = {self.unread[name]} in")
        return out

    def place_type(self, m):
        name = self.places.get(norm(m[1]), m[1])
        self.brought.add(name)
        return name

    def record(self, name, text):
        """Writes the tuple at the end of an answer to several clauses as a record."""
        names = self.asked.get(norm(name))
        if not names or len(names) < 2: return text
        t = text.rstrip()
        if t.endswith("}") and "record" in t: return text
        if t.endswith(")"):
            depth, i = 0, len(t) - 1
            while i >= 0:
                if t[i] in ")]}": depth += 1
                if t[i] in "([{":
                    depth -= 1
                    if depth == 0: break
                i -= 1
            parts = flat(commas(t[i + 1:-1]), len(names))
            if len(parts) == len(names):
                rec = "record { " + "; ".join(f"{n} = {p}" for n, p in zip(names, parts)) + "; }"
                head = t[:i]
                if head.rstrip().endswith(("=", " in")): return head + rec + "\n"
                return head + "(" + rec + ")\n"
        m = list(re.finditer(r"(?:^|\s)in\s|=\s", t))
        if m:
            k = m[-1].end()
            tail = t[k:].strip()
            self.said.append(f"{name}: tail to record by let")
            if re.match(r"(simp|rw|search|omega|grind|cc)\b", tail):
                rec = "record { " + "; ".join(f"{n} = {tail}" for n in names) + "; }"
                return t[:k] + rec + "\n"
            rec = "record { " + "; ".join(f"{n} = whole.{i}" for i, n in enumerate(names)) + "; }"
            return t[:k] + f"let whole = {tail} in {rec}\n"
        self.said.append(f"{name}: no tuple")
        return text

    def run(self):
        lines = self.text.split("\n")
        head, uses, blocks = [], [], []
        i = 0
        while i < len(lines) and (lines[i].startswith("--") or lines[i].startswith("use ") or not lines[i].strip() or lines[i].startswith("  ") and uses and "}" not in uses[-1]):
            if lines[i].startswith("--") and not uses: head.append(lines[i])
            elif lines[i].startswith("use "): uses.append(lines[i])
            elif uses and "{" in uses[-1] and "}" not in uses[-1]: uses[-1] += " " + lines[i].strip()
            elif lines[i].startswith("--"): break
            i += 1
        cur = []
        for l in lines[i:]:
            if l.strip() == "" :
                if cur and not all(x.startswith("--") for x in cur): blocks.append(cur); cur = []
                continue
            cur.append(l)
        if cur: blocks.append(cur)
        # join parts of one declaration that a blank line parted
        joined = []
        for b in blocks:
            first = next((x for x in b if not x.startswith("--")), "")
            if joined and first.startswith(" "): joined[-1] += b
            else: joined.append(b)
        blocks = joined
        spec = None
        rest = []
        for b in blocks:
            t = "\n".join(b)
            if "tie.spec" in t: spec = t
            else: rest.append(b)
        j = spec.index("tie.spec")
        start = spec.rindex("(", 0, j)
        inner = spec[j + len("tie.spec"):closing(spec, start)]
        args = split_top(inner)
        nl = 0
        while nl < len(args) and re.match(r"(invariant|decreases)|^μ", args[nl]): nl += 1
        linvs, args = args[:nl], args[nl:]
        order = [a for a, _ in self.of["needs"]]
        if len(args) != len(order):
            self.said.append(f"{len(args)} args for {len(order)} needs: {order}")
        # declared types: by the need's own name in the block
        answers, kept, invs = [], [], []
        by_name = {}
        for b in rest:
            t = "\n".join(b)
            m = re.search(rf"(?m)^(?:abbrev |unfoldable |pub )*({ID})[^\n]* : ", t)
            name = m[1] if m else None
            n = re.search(rf"(?m)^({ID}) : tie\.Need-({ID})(?: (?:invariant|decreases)-{ID})*$", t)
            v = re.search(rf"(?m)^(?:abbrev |pub )*({ID}) : tie\.((?:invariant|decreases)-{ID})", t)
            if n:
                self.one_answer(n[1], n[2], t, answers)
                by_name[n[1]] = True
            elif v:
                self.one_inv(v[1], v[2], t, invs)
            else:
                answers.append((None, self.body(t)))
        for a, old in zip(args, order):
            if a.startswith("(λ"):
                m = re.match(r"\(λ ([^.]*)\.\s*(.*)\)$", a, re.S)
                vars_, b = m[1].split(), m[2].strip()
                if b == "search rules": continue
                vars_ = [x for x in vars_ if x != "κs"]
                new = self.needs[norm(old)]
                u = re.match(r"unfold (.*?) in\s+(.*)", b, re.S)
                line = ""
                if u: line, b = f"unfolding {u[1]}\n", u[2]
                t = f"{new} {' '.join(vars_)} = {self.body(b)}"
                t = self.record(old, t)
                answers.append((new, f"pub {new} : goal.{new}\n{line}{t}"))
            elif a not in by_name and a != "search" :
                self.said.append(f"argument {a} of {old}?")
        return head, uses, answers, invs

    def one_answer(self, name, need, t, answers):
        new = self.needs.get(norm(need))
        if not new:
            # The scripts put these words before a need's old name.
            need = re.sub(r"^(overflow|nonzero)[-_]|^(offset_|slice_)?bounds[-_]", "", need)
            new = self.needs.get(norm(need))
        if not new:
            self.said.append(f"no need {need}")
            new = need
        t = re.sub(rf"(?m)^{re.escape(name)} : tie\.Need-[^\n]*$", f"pub {new} : goal.{new}", t)
        m = re.search(rf"(?m)^{re.escape(name)} ([^=\n]*)=", t)
        if m:
            vs = [v for v in m[1].split() if v != "κs"]
            t = t[:m.start()] + f"{new} {' '.join(vs)} =" + t[m.end():]
        k = t.index(f"goal.{new}") + len(f"goal.{new}")
        t = t[:k] + self.body(t[k:])
        t = self.record(need, t)
        answers.append((new, t))

    def one_inv(self, name, old, t, invs):
        kind, loop = old.split("-", 1)
        new, vs, ch = self.loops.get(norm(loop), (loop, [], []))
        full = f"{kind}-{new}"
        m = re.search(rf"(?m)^{re.escape(name)} ([^=\n]*(?:\n  [^=\n]*)*?)=", t)
        params = m[1].split()
        body = t[m.end():]
        first, second = params[:len(vs)], params[len(vs):]
        changed = [v for v, c in zip(vs, ch) if c]
        table = {}
        for p, v, c in zip(first, vs, ch):
            table[p] = f"l.initial.{v}" if c else f"l.{v}"
        for p, v in zip(second, changed):
            table[p] = f"l.{v}"
        table.pop("_", None)
        for p in table:
            if re.search(rf"[(λ ]{re.escape(p)} :(?!=)", body) and not re.search(rf"(?m)^\s*{re.escape(p)} :", body):
                self.said.append(f"{name}: {p} may be bound")
        def sub(m):
            p = m[0]
            if p in table and not re.match(r"\s*(:|=)\s", body[m.end():m.end() + 3]): return table[p]
            return p
        body = re.sub(rf"(?<![.\w'₀-]){ID}", sub, body)
        invs.append(f"abbrev pub {full} : goal.{full}\n{full} l ={body}")


def main():
    names = json.load(open(sys.argv[1]))
    crate = sys.argv[2].rstrip("/")
    cname = os.path.basename(os.path.realpath(crate))
    only = sys.argv[3:]
    for key, of in names.items():
        if ".Lts" not in key: continue
        path = key.split(".", 1)[1].rsplit(".Lts", 1)[0]
        folder = os.path.join(crate, "proofs", path.replace(".", "/"))
        p = os.path.join(folder, "Proof.antt")
        if not os.path.isfile(p): continue
        if only and path not in only: continue
        text = open(p, encoding="utf-8").read()
        if "tie.spec" not in text:
            print(f"by hand: {p}"); continue
        f = Fn(cname, path, of, text)
        fn = path.split(".")[-1]
        try:
            head, uses, answers, invs = f.run()
        except Exception as e:
            print(f"failed: {p}: {e!r}"); continue
        uses = [u for u in uses if not re.search(r"\.(Statement\.\{statement\}|Tie as tie)$", u)]
        if invs:
            it = "\n".join([*([] if answers else head), *uses, f"use Rattle.{cname}.proofs.{path}.Given as goal", "", "\n\n".join(x.rstrip() for x in invs), ""])
            open(os.path.join(folder, "Invariants.antt"), "w", encoding="utf-8").write(it)
        if any(n for n, _ in answers):
            it = "\n".join([*head, *uses, f"use Rattle.{cname}.proofs.{path}.Goals as goal", *f.imports(cname), "", "\n\n".join(x.rstrip() for _, x in answers), ""])
            open(os.path.join(folder, "Answers.antt"), "w", encoding="utf-8").write(it)
        os.remove(p)
        if not os.listdir(folder): os.rmdir(folder)
        for s in f.said: print(f"look: {path}: {s}")


main()

#!/usr/bin/env python3
"""Turns proofs of the older form (a Proof.antt that ends in `tie.close`) to Invariants.antt and Answers.antt:

    python3 tools/turn_proofs.py CRATE [FUNCTION..]      at the top of the repository; FUNCTION as a path below proofs/, a/f

It asks `rt check --generated .. --old-names` for the old and the new name of each goal and step. Answers that only say `search rules` are
left out, since the check finds them. What it can't turn it says in a line `look:`. The check decides.
"""
import glob
import json
import os
import re
import subprocess
import sys
import tempfile

NAME = r"[^\s(){}\[\];,.:]+"
TOP = re.compile(r"^((?:abbrev |unfoldable |pub )*)(" + NAME + r")((?:\s+(?:\([^()]*(?:\([^()]*\)[^()]*)*\)|\{[^{}]*\}))*)\s*:\s")
PATH = re.compile(r"(?<![\w'.◌-])([A-Za-z_₀-₉Α-ωℕ][\w'₀₁₂₃-]*)((?:\.[A-Za-z0-9_'-]+(?![A-Za-z0-9_'-]))+)")


def norm(s):
    return s.replace("-", "_")


def labels_of(root):
    """For each function crate::mod::f: (labels of requires, labels of ensures), None for a lone clause with no label."""
    out = {}
    for f in glob.glob(os.path.join(root, "crates/*/src/**/*.rt"), recursive=True):
        crate = f.split("/crates/")[1].split("/")[0]
        rel = f.split("/src/")[1][:-3]
        mods = [] if rel in ("lib", "main") else rel.split("/")
        text = open(f, encoding="utf-8").read()
        for m in re.finditer(r"^( *)(?:pub )?(?:unsafe )?(?:extern \"C\" )?fn (\w+)(.*?)^\1\{", text, re.M | re.S):
            body = m[3]
            kinds = []
            for k in ("requires", "ensures"):
                kinds.append([x or None for x in re.findall(r"^\s+" + k + r"\*? *(\w*) *\{", body, re.M)])
            impl = None
            if m[1]:
                before = text[: m.start()]
                i = re.findall(r"^impl(?:<[^>]*>)? (?:\w+ for )?(\w+)", before, re.M)
                impl = i[-1] if i else None
            name = "::".join([crate] + mods + ([impl] if impl else []) + [m[2]])
            out[name] = kinds
    return out


class Function:
    def __init__(self, data, labels, own):
        self.d = data
        self.labels = labels
        self.own = own  # labels of this function
        self.arms = {}   # (old step, old path...) -> new text
        self.steps = {}  # old step -> set of new
        self.callee = {}
        self.place = {}
        for i, (old, parent, (so, sn), callee, typed) in enumerate(data["places"]):
            self.place[norm(old)] = data["places_by_name"][i]
            if so:
                self.steps.setdefault(norm(so), set()).add(sn)
                if callee:
                    self.callee[norm(so)] = callee
            arm = data["arms"][i]
            if arm:
                for new, ostep, opath in arm[2]:
                    if new.endswith("-own"):
                        continue
                    self.arms[(norm(ostep), *opath)] = (arm[0], new)
        self.loops = {norm(o): n for (o, n), vs in data["loops"]}
        self.parent, self.at_place, self.arm_of = {}, {}, {}
        for i, (old, parent, (so, sn), callee, typed) in enumerate(data["places"]):
            self.parent[norm(old)] = norm(parent) if parent else None
            self.at_place[norm(old)] = (norm(so), sn)
            if data["arms"][i]:
                self.arm_of[norm(old)] = data["arms"][i]
        self.here = None
        self.alias = {}
        self.told_by, self.left_by, self.asked_by = {}, {}, set()
        self.head = "c"
        self.goal = None
        self.params = {norm(o.split(".")[-1]): n.split(".")[-1] for o, n in data["args"] if o.startswith(".args ")}
        self.told = {norm(o[1:]): n[1:] for o, n in data["args"] if not o.startswith(".args ") and not o.startswith(".ranges ")}
        self.callees = {c.split("::")[-1]: c for o, p, st, c, t in data["places"] if c}
        self.vars = [(norm(o), n, vs, data["changed"][i]) for i, ((o, n), vs) in enumerate(data["loops"])]

    def path(self, head, segs):
        """The new form of head.segs, given as a list of segments."""
        # port.py took some steps for types
        segs = [x.lower() if x not in self.steps and norm(x.lower()) in self.steps and "-" in x else x for x in segs]
        place = self.here if head == self.head else None
        while segs and segs[0] == "before" and any(s != "before" for s in segs):
            segs = segs[1:]
            place = self.parent.get(place) if place else None
        if place and segs and segs[0] != "before":
            # exactly this place's step
            so, sn = self.at_place.get(place, (None, None))
            arm = self.arm_of.get(place)
            if arm:
                for new, ostep, opath in sorted(arm[2], key=lambda a: -len(a[2])):
                    k = len(opath)
                    if not new.endswith("-own") and norm(segs[0]) == norm(ostep) and segs[1 : 1 + k] == opath:
                        return ".".join([head, arm[0], new] + segs[1 + k :])
                for new, ostep, opath in arm[2]:
                    if new.endswith("-own") and norm(segs[0]) == norm(ostep) and not opath and len(segs) > 1:
                        return ".".join([head, arm[0], new] + segs[1:])
            if norm(segs[0]) == so:
                self.steps = {**self.steps, so: {sn}}
        out = []
        i = 0
        if head in self.alias and segs and segs[0] == "ensures":
            # a name that a let gave to a call
            out.append("ensures")
            i = self.label(out, segs, 1, self.labels.get(self.callee.get(self.alias[head]), ([], []))[1])
        if head in self.alias and len(segs) > 1 and segs[0] in ("auto", "new"):
            out.append(segs[0])
            i = self.after(out, segs, 1, self.alias[head])
        if head in self.told_by and segs and re.fullmatch(r"\d", segs[0]):
            # a name that a let gave to what a call ensures
            i = self.label(out, segs, 0, self.labels.get(self.callee.get(self.told_by[head]), ([], []))[1])
        if head in self.asked_by and segs and re.fullmatch(r"\d", segs[0]):
            i = self.label(out, segs, 0, self.own[0])
        if head in self.left_by and segs and re.fullmatch(r"\d", segs[0]):
            i = self.after(out, segs, 0, self.left_by[head])
        while i < len(segs):
            s = segs[i]
            if s == "before":
                # a chain in the middle
                i += 1
                if not all(x == "before" for x in segs[i:]):
                    continue
                out.append(s)
                continue
            n = norm(s)
            # an arm's field
            best = None
            for L in range(len(segs) - i, 0, -1):
                key = (n, *segs[i + 1 : i + L])
                if key in self.arms:
                    best = (L, self.arms[key])
                    break
            if best:
                out += list(best[1][1])[:0] + [best[1][0], best[1][1]]
                i += best[0]
                continue
            if n in self.steps:
                news = self.steps[n]
                new = sorted(news)[0]
                if len(news) > 1:
                    self.say(f"step {s} has several new names: {' '.join(sorted(news))}")
                out.append(new)
                i += 1
                # a clause of the callee
                if i < len(segs) and segs[i] == "ensures":
                    out.append("ensures")
                    i += 1
                    i = self.label(out, segs, i, self.labels.get(self.callee.get(n), ([], []))[1])
                elif i + 1 < len(segs) and segs[i] in ("new", "auto"):
                    out.append(segs[i])
                    i = self.after(out, segs, i + 1, n)
                elif i < len(segs):
                    out.append(norm(segs[i]) if segs[i] not in ("known-fits-r",) else segs[i])
                    i += 1
                continue
            if s == "pre":
                s = "requires"
            if s == "auto" and out and i + 1 < len(segs):
                out.append(s)
                i = self.after(out, segs, i + 1, norm(segs[i - 1]))
                continue
            if s == "requires":
                out.append(s)
                i += 1
                i = self.label(out, segs, i, self.own[0])
                continue
            if s == "args":
                out.append(s)
                i += 1
                if i < len(segs):
                    out.append(self.params.get(norm(segs[i]), norm(segs[i])))
                    i += 1
                continue
            if not out and norm(s) in self.told:
                out.append(self.told[norm(s)])
                i += 1
                continue
            if s == "well-formed":
                s = "well_formed"
            out.append(s)
            i += 1
        return ".".join([head] + out)

    def after(self, out, segs, i, step):
        """What a `&mut` of the callee holds afterwards went by its position."""
        ps = self.d["params"].get(self.callee.get(step), [])
        if re.fullmatch(r"\d", segs[i]):
            k = 0
            while i < len(segs) and segs[i] == "1" and i + 1 < len(segs) and re.fullmatch(r"\d", segs[i + 1]):
                k += 1
                i += 1
            k += int(segs[i])
            if k < len(ps):
                out.append(ps[k])
                return i + 1
        return i

    def label(self, out, segs, i, labels):
        """n labelled clauses were a product (a, (b, (c, ..)))  or a flat tuple: .0, .1, .1.0 .."""
        if len(labels) > 1 and all(labels) and i < len(segs) and re.fullmatch(r"\d", segs[i]):
            k = 0
            j = i
            if self.flat(segs, i, labels):
                k = int(segs[i])
                out.append(labels[k])
                return i + 1
            while j < len(segs) and segs[j] == "1" and k < len(labels) - 1:
                k += 1
                j += 1
                if k == len(labels) - 1:
                    break
            if k < len(labels) - 1:
                if j < len(segs) and segs[j] == "0":
                    j += 1
                else:
                    self.say(f"a clause of several: {'.'.join(segs)}")
                    return i
            out.append(labels[k])
            return j
        return i

    def flat(self, segs, i, labels):
        return int(segs[i]) >= 2 or (int(segs[i]) == 1 and len(labels) == 2)

    def say(self, text):
        print(f"look: {self.where}: {text}")


def blocks_of(text):
    head, rest, seen = [], [], False
    lines = text.split("\n")
    i = 0
    while i < len(lines) and not TOP.match(lines[i]) and not re.match(r"(module|data|record|ruleset|pub data|pub record|mutual)\s", lines[i]):
        head.append(lines[i])
        i += 1
    # a comment right above the first block belongs to it
    tail = []
    while head and head[-1].startswith("--") and len(head) > 1:
        tail.insert(0, head.pop())
    blocks, cur = [], tail
    started = False
    for line in lines[i:]:
        if TOP.match(line) or re.match(r"(module|data|record|ruleset|pub data|pub record)\s", line):
            pre = []
            while started and cur and (cur[-1].startswith("--") or not cur[-1].strip()):
                pre.insert(0, cur.pop())
            if started:
                blocks.append("\n".join(cur).rstrip())
                cur = [l for l in pre if l.strip()]
            started = True
        cur.append(line)
    blocks.append("\n".join(cur).rstrip())
    return "\n".join(head).rstrip(), [b for b in blocks if b.strip()]


def strip_comment(b):
    lines = b.split("\n")
    k = 0
    while k < len(lines) and lines[k].startswith("--"):
        k += 1
    return lines[:k], lines[k:]


def turn(folder, crate, path, f):
    p = os.path.join(folder, "Proof.antt")
    text = open(p, encoding="utf-8").read()
    if "tie.close" not in text:
        f.say("no tie.close")
        return False
    # a name for the way back to an earlier place: its fields are fields of any later one
    for m in list(re.finditer(r"^(?:abbrev )?(" + NAME + r") : tie\.[A-Za-z0-9_-]+(?: (?:invariant|decreases)-[\w-]+)* → tie\.[A-Za-z0-9_-]+(?: (?:invariant|decreases)-[\w-]+)*\n\1 (\w+) = \2(?:\.before)+\n", text, re.M)):
        text = text.replace(m[0], "")
        n = re.escape(m[1])
        text = re.sub(r"\(" + n + r" ([\w'₀₁-]+)(?:\.before)*\)\.", r"\1.", text)
        text = re.sub(r"\b(let " + NAME + r" = )" + n + r" ([\w'₀₁-]+)(?:\.before)* in", r"\1\2.before in", text)
        if re.search(r"(?<![\w'-])" + n + r"(?![\w'-])", text):
            f.say(f"{m[1]} is used in another way")
    head, blocks = blocks_of(text)
    final = [b for b in blocks if "tie.close" in b]
    m = re.search(r"tie\.close\s*\(?\s*(?:\(?tie\.spec)?(.*)", "\n".join(strip_comment(final[0])[1]), re.S)
    args = re.findall(NAME, re.sub(r"^.*tie\.spec", "", m[0], flags=re.S))
    inv, needs, helpers = [], {}, []
    order = []
    for b in blocks:
        if b in final:
            continue
        com, code = strip_comment(b)
        t = TOP.match(code[0])
        if t and re.search(r":\s*tie\.(invariant|decreases)-", code[0]):
            inv.append((com, code, t[2]))
        elif t and "tie.Need-" in code[0]:
            needs[t[2]] = (com, code, re.search(r"tie\.Need-(" + NAME + ")", code[0])[1])
            order.append(t[2])
        else:
            helpers.append((com, code, t[2] if t else None))
    invnames = {n for _, _, n in inv}
    given = [a for a in args if a not in invnames]
    jneeds = f.d["needs"]
    mapping = {}
    if len(given) == len(jneeds):
        for a, (old, new) in zip(given, jneeds):
            mapping[a] = new
    else:
        f.say(f"{len(given)} goals before, {len(jneeds)} now")
        by = {}
        for old, new in jneeds:
            by.setdefault(norm(old), new)
        for a in order:
            old = norm(needs[a][2])
            cands = [new for o, new in jneeds if norm(o) == old or norm(o) == re.sub(r"^overflow_", "", old)]
            if cands:
                mapping[a] = cands[0]
            elif norm(needs[a][2]) in {norm(n) for _, n in jneeds}:
                mapping[a] = next(n for _, n in jneeds if norm(n) == norm(needs[a][2]))
            else:
                f.say(f"no goal for {a} ({needs[a][2]})")
                mapping[a] = a
    for old, new in [(re.search(r"tie\.(?:invariant|decreases)-(" + NAME + ")", c[0])[1], n) for _, c, n in inv]:
        pass

    places = set()

    def placed(old):
        new = f.place.get(norm(old), old)
        places.add(new)
        return new

    lemma_at = {}
    for com, code, n in helpers:
        pm = re.search(r"^" + NAME + r" : \((" + NAME + r") : tie\.([A-Z][A-Za-z0-9_-]*)", code[0]) if n else None
        if pm:
            lemma_at[n] = norm(pm[2])

    def distance(a, b):
        k = 0
        while a and a != b:
            a = f.parent.get(a)
            k += 1
        return k if a else None

    def on_place(s):
        """A lemma over a place is given that place."""
        for n, q in lemma_at.items():
            def one(m):
                if f.goal:
                    places.add(f.place.get(q, q))
                    return f"{n} (goal.at.{f.goal} c).{f.place.get(q, q)}"
                k = distance(f.here, q) if f.here else None
                return f"{n} {f.head}{'.before' * k}" if k is not None else m[0]

            s = re.sub(r"(?<![\w'.◌-])(?<!let )" + re.escape(n) + r" ([a-zA-Z_][\w'₀₁₂₃-]*(?:\.before)*)(?![\w'.₀₁₂₃-])", one, s)
        return s

    def rest(code):
        """Replaces tie types and paths in code."""
        s = code
        # a name for a place before this one is c: each step is a field of c
        alias = {}
        C = re.escape(f.head)
        s = on_place(s)
        while True:
            m = re.search(r"let ([a-zA-Z_][\w'₀₁₂₃-]*) = ((?:" + C + "|" + "|".join(map(re.escape, alias)) + r")(?:\.before)+) in\s+" if alias else r"let ([a-zA-Z_][\w'₀₁₂₃-]*) = (" + C + r"(?:\.before)+) in\s+", s)
            if not m:
                break
            at = m[2].split(".")
            chain = alias.get(at[0], [at[0]]) + at[1:]
            alias[m[1]] = chain
            a = re.escape(m[1])
            s = s[: m.start()] + s[m.end():]
            s = re.sub(r"(?<![\w'.◌-])" + a + r"(?=\.(?!before)[a-zA-Z])", f.head, s)
            s = re.sub(r"(?<![\w'.◌-])(?<!let )" + a + r"(?![\w'₀₁₂₃-])", ".".join(chain), s)
        # a name for the arguments, too
        while True:
            m = re.search(r"let ([a-zA-Z_][\w'₀₁₂₃-]*) = (" + C + r"(?:\.before)*\.args) in\s+", s)
            if not m:
                break
            s = s[: m.start()] + s[m.end():]
            s = re.sub(r"(?<![\w'.◌-])" + re.escape(m[1]) + r"(?=\.[a-zA-Z])", m[2], s)
        f.alias = {m[1]: norm(m[2]) for m in re.finditer(r"let (" + NAME + r") = [\w'-]+(?:\.before)*\.([\w'-]+) in", s) if norm(m[2]) in f.callee}
        f.told_by = {m[1]: norm(m[2]) for m in re.finditer(r"let (" + NAME + r") = [\w'-]+(?:\.before)*\.([\w'-]+)\.ensures in", s) if norm(m[2]) in f.callee}
        f.asked_by = {m[1] for m in re.finditer(r"let (" + NAME + r") = [\w'-]+(?:\.before)*\.(?:requires|pre) in", s)}
        f.left_by = {m[1]: norm(m[2]) for m in re.finditer(r"let (" + NAME + r") = [\w'-]+(?:\.before)*\.([\w'-]+)\.new in", s) if norm(m[2]) in f.callee}
        # the lengths of arrays in a parameter are said plainly
        s = re.sub(r"simp length-map at (c\.(?:before\.)*well-formed)", r"\1", s)
        s = re.sub(r"tie\.([A-Z][A-Za-z0-9_-]*)((?:\s+(?:" + "|".join(map(re.escape, sorted(invnames, key=len, reverse=True))) + r"))*)" if invnames else r"tie\.([A-Z][A-Za-z0-9_-]*)()",
                   lambda m: placed(m[1]), s)
        s = PATH.sub(lambda m: m[0] if m[1] in ("tie", "goal", "Rattle", "lib", "mathlib", "native", "borrow", "denote", "contract") else f.path(m[1], m[2][1:].split(".")), s)
        s = re.sub(r"(?<=\)\.args\.)[a-z0-9]+(?:-[a-z0-9]+)+", lambda m: norm(m[0]), s)
        # a test of `!x` says of x itself what it was
        s = re.sub(r"not-(?:true|false) (?:\([^()]*\)|[^\s()]+) (c\.if-not-[^\s()]+\.(?:true|false))", r"\1", s)
        return s

    def labelled(new, body):
        """A tuple that answers several clauses becomes a record of them."""
        kind = None
        if re.match(r"returns\b", new):
            labels_ = f.own[1]
        elif "-requires" in new:
            base = new.split("-requires")[0].split("-")[0]
            callee = f.callees.get(base)
            if not callee:
                cs = [k for k in f.labels if k.split("::")[-1] == base]
                callee = cs[0] if len(cs) == 1 else next((k for k in cs if k.startswith(crate + "::")), None)
            labels_ = f.labels.get(callee, ([], []))[0]
        else:
            return body
        if len(labels_) < 2 or not all(labels_):
            return body
        t = body.rstrip()

        def both(t):
            """A product that a lemma gives becomes a record, too."""
            m = re.match(r"((?:let .*? in\s+)*)(.*)\Z", t, re.S)
            if not re.match(r"returns\b", new) or re.match(r"(?:rw|simp|omega|search|record|elim|subst|cc)\b|\(", m[2]):
                return t
            return f"{m[1]}let both = {m[2]} in\n    record {{ " + "; ".join(f"{l} = both.{k}" for k, l in enumerate(labels_)) + " }"

        if not t.endswith(")"):
            return both(t)
        deep, i = 0, len(t) - 1
        while i >= 0:
            deep += t[i] == ")"
            deep -= t[i] == "("
            if deep == 0:
                break
            i -= 1
        before = t[:i].rstrip()
        if before and not re.search(r"(\bin|\$)$", before):
            return body
        def split(inner):
            parts, deep, last = [], 0, 0
            for k, ch in enumerate(inner):
                deep += ch in "([{"
                deep -= ch in ")]}"
                if ch == "," and deep == 0:
                    parts.append(inner[last:k].strip())
                    last = k + 1
            if inner[last:].strip():
                parts.append(inner[last:].strip())
            return parts

        parts = split(t[i + 1 : -1])
        while len(parts) < len(labels_) and parts and re.fullmatch(r"\(.*\)", parts[-1], re.S) and len(split(parts[-1][1:-1])) > 1:
            parts = parts[:-1] + split(parts[-1][1:-1])
        if len(parts) != len(labels_):
            return both(t)
        return t[:i] + "record { " + "; ".join(f"{l} = {q}" for l, q in zip(labels_, parts)) + " }"

    # invariants
    iout, hused = [], []
    for com, code, name in inv:
        kind, old = re.search(r"tie\.(invariant|decreases)-(" + NAME + ")", code[0]).groups()
        new = f.loops.get(norm(old))
        if new is None:
            new = next((n for o, n in f.loops.items() if norm(n) == norm(old)), old)
        vs, ch = next(((v, c) for o, n, v, c in f.vars if n == new), ([], []))
        eq = "\n".join(code[1:])
        extra = ""
        um = re.match(r"unfolding [^\n]*\n", eq)
        if um:
            extra, eq = um[0], eq[um.end():]
        em = re.match(re.escape(name) + r"\s+([^=]*?)\s*=\s*", eq)
        if not em:
            f.say(f"the invariant {name} is not one equation")
            continue
        pats = em[1].split()
        body = eq[em.end():]
        want = []
        for v, c in zip(vs, ch):
            if c:
                want.append(("initial", v))
        # all values at the start of the loop or all parameters: (fixed ..) then (x0 ..) then (x ..), or each x0 x in place
        fixed = [v for v, c in zip(vs, ch) if not c]
        moved = [v for v, c in zip(vs, ch) if c]
        form = []
        for v, c in zip(vs, ch):
            form.append(f"l.initial.{v}" if c else f"l.{v}")
        form += [f"l.{v}" for v in moved]
        if len(pats) != len(form):
            f.say(f"{name}: {len(pats)} parameters, {len(form)} by today's names: {vs} {ch}")
        sub = {a: b for a, b in zip(pats, form) if a != "_"}
        bad = [a for a in sub if re.search(r"(λ|\()\s*([^.:()]*\s)?" + re.escape(a) + r"[\s.:]", body) and re.search(r"λ[^.]*\b" + re.escape(a) + r"\b[^.]*\.", body)]
        for a in bad:
            f.say(f"{name}: {a} is bound again")
        body = re.sub(r"(?<![\w'.◌-])(" + "|".join(map(re.escape, sorted(sub, key=len, reverse=True))) + r")(?![\w'₀₁-])" if sub else r"(?!)", lambda m: sub[m[1]], body)
        iout.append("\n".join(com) + ("\n" if com else "") + f"abbrev pub {kind}-{new} : goal.{kind}-{new}\n{extra}{kind}-{new} l =" + (" " if "\n" not in body[:1] else "") + body.rstrip())
        hused.append(body)
    # helpers that the invariants use
    inh, changed = [], True
    names_in = " ".join(hused)
    picked = set()
    while changed:
        changed = False
        for k, (com, code, n) in enumerate(helpers):
            if n and k not in picked and re.search(r"(?<![\w'-])" + re.escape(n) + r"(?![\w'-])", names_in):
                picked.add(k)
                names_in += "\n".join(code)
                changed = True
    # answers
    aout = []
    for k, (com, code, n) in enumerate(helpers):
        if k in picked:
            continue
        pm = re.search(r"\((" + NAME + r") : tie\.([A-Z][A-Za-z0-9_-]*)", code[0])
        f.here = norm(pm[2]) if pm else None
        f.head = pm[1] if pm else "c"
        f.goal = None
        body_ = rest("\n".join(code))
        if n in lemma_at:
            # its own signature and equation name the place itself
            body_ = re.sub(r"^(" + re.escape(n) + r") " + re.escape(f.head) + r"(?:\.before)+", r"\1 " + f.head, body_, flags=re.M)
        aout.append("\n".join(com + [body_]))
        f.head = "c"
    kept = 0
    for a in order:
        com, code, _ = needs[a]
        new = mapping[a]
        idx = next((k for k, (o, n) in enumerate(jneeds) if n == new), None)
        f.here = norm(f.d["asked_at"][idx][0]) if idx is not None else None
        f.goal = new
        eqs = "\n".join(code[1:])
        m2 = re.match(r"((?:unfolding [^\n]*\n)?)" + re.escape(a) + r"\s+(\w+)((?: κs)?)\s*=\s*(.*)\Z", eqs, re.S)
        if m2 and not m2[1] and re.sub(r"\s+", " ", m2[4]).strip() in ("search rules", "search needs", "λ κs. search rules"):
            continue
        kept += 1
        if m2:
            aout.append("\n".join(com + [f"pub {new} : goal.{new}", m2[1] + f"{new} {m2[2]} =" + (" " if "\n" not in eqs[m2.start(4) - 1 : m2.start(4)] else "\n    ") + labelled(new, rest(m2[4]).rstrip())]))
        else:
            f.say(f"{a}: not one equation")
            aout.append("\n".join(com + [f"pub {new} : goal.{new}", re.sub(r"^" + re.escape(a) + r"\b", new, rest(eqs), flags=re.M)]))
    uses = [l for l in head.split("\n") if l.startswith("use ")]
    uses = [l for l in uses if not re.search(r"\.(Statement|Tie)(\.| as)", l)]
    comment = [l for l in head.split("\n") if l.startswith("--")]
    base = f"Rattle.{crate}.proofs.{path.replace('/', '.')}"

    def pruned(us, body):
        out = []
        for l in us:
            m = re.match(r"use ([^\s{]+)\.\{([^}]*)\}$", l)
            if not m:
                out.append(l)
                continue
            keep = []
            for nm in [x.strip() for x in m[2].split(",")]:
                probe = nm.strip("◌")
                parts = [x for x in nm.split("◌") if x]
                if all(re.search(r"(?<![\w'-])" + re.escape(q) + r"(?![\w'-])" if re.match(r"\w", q) else re.escape(q), body) for q in parts):
                    keep.append(nm)
            if keep:
                out.append(f"use {m[1]}.{{{', '.join(keep)}}}")
        return out

    wrote = []
    hs = ["\n".join(c + [re.sub(r"^(abbrev |unfoldable )?(?!pub )", r"\1pub ", co[0], count=1) if not co[0].startswith(("pub ", "abbrev pub", "unfoldable pub")) else co[0]] + co[1:]) for k, (c, co, n) in enumerate(helpers) if k in picked]
    if iout:
        body = "\n\n".join(hs + iout)
        t = "\n".join(comment[:1] + pruned(uses, body) + [f"use {base}.Given as goal", "", body, ""])
        open(os.path.join(folder, "Invariants.antt"), "w", encoding="utf-8").write(t)
        wrote.append("Invariants")
    if kept:
        body = "\n\n".join(aout)
        us = list(uses)
        pk = [n for k, (c, co, n) in enumerate(helpers) if k in picked]
        pk = [n for n in pk if re.search(r"(?<![\w'-])" + re.escape(n) + r"(?![\w'-])", body)]
        if pk:
            us.append(f"use {base}.Invariants.{{{', '.join(pk)}}}")
        t = "\n".join((comment[:1] if not iout else []) + pruned(us, body) + [f"use {base}.Goals as goal"] + ([f"use {base}.Goals.{{{', '.join(sorted(places))}}}"] if places else []) + ["", body, ""])
        open(os.path.join(folder, "Answers.antt"), "w", encoding="utf-8").write(t)
        wrote.append("Answers")
    os.remove(p)
    if not os.listdir(folder):
        os.rmdir(folder)
    print(f"{crate}/{path}: {' '.join(wrote) or 'nothing is left to say'}")
    return True


def main(argv):
    root = os.getcwd()
    crate = argv[0]
    where = os.path.join(root, "crates", crate)
    with tempfile.TemporaryDirectory() as d:
        r = subprocess.run(["rt", "check", "--generated", os.path.join(d, "n"), "--old-names"], cwd=where, capture_output=True, text=True)
        try:
            data = json.load(open(os.path.join(d, "n", "names.json")))
        except OSError:
            print(r.stdout[-3000:], r.stderr[-2000:])
            return 1
    labels = labels_of(root)
    for p in sorted(glob.glob(os.path.join(where, "proofs", "**", "Proof.antt"), recursive=True)):
        path = os.path.relpath(os.path.dirname(p), os.path.join(where, "proofs"))
        if argv[1:] and path not in argv[1:]:
            continue
        key = f"Rattle-{crate}-proofs.{path.replace('/', '.')}.Lts"
        if key not in data:
            print(f"look: {crate}/{path}: no names ({key})")
            continue
        f = Function(data[key], labels, labels.get("::".join([crate] + path.split("/")), ([], [])))
        f.where = f"{crate}/{path}"
        turn(os.path.dirname(p), crate, path, f)
    return 0


if __name__ == "__main__":
    raise SystemExit(main(sys.argv[1:]))

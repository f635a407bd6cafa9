#!/usr/bin/env python3
"""Brings the repository's own definitions and lemmas to today's spelling, after port.py:

    python3 tools/respell.py [--list]        at the top of the repository

port.py respells the library's names and some of the repository's own. This script respells the others, in crates/ and in the pages:
words are in snake case, types and modules in camel case (camel case words of specs/ and proofs/ lose their capitals), and a dash in the
name of a lemma stays only between the names of two definitions. Functions of src/, exported C names, strings, inputs and outputs keep
their names. Names of goals, which the prover makes, are left alone. --list prints the pairs and changes nothing.

A new name that is in use already would fall together with another: such a name is listed in APART with the name that it gets instead.
"""
import glob
import os
import re
import sys

# names that would fall together with another name of the repository or of the library
APART = {"bit-or": "bit-bit_or", "of_length": "of_length_lem", "on_line": "on_line_lem"}
APART |= {n: n.replace("-", "_") + "_lem" for n in (
    "inside-textured", "inside-transformed", "is-switch", "light-ok", "model-painted", "pixel-of", "put-out", "root-down", "strokes-on",
    "textured-painted", "textured-verdict", "told-as", "wrong-length")}

WORD = r"[^\s(){}\[\];,.:\"`]+"
DEF = re.compile(r"^(\s*)((?:pub |abbrev |unfoldable |record |data |opaque )*)(" + WORD + r")(?:\s+(?:\([^()]*(?:\([^()]*\)[^()]*)*\)|\{[^{}]*\}))*\s*:\s")
KEEP = {"in", "let", "where", "use", "mod", "module", "open", "case", "of"}
# lemmas of the library, and words of it, that stand in names of lemmas
LIBRARY = {"length", "drop", "take", "append", "set", "get_or", "map", "reverse", "replicate", "cond", "bit_or", "bit_and", "sum"}


def files(root, *patterns):
    out = []
    for p in patterns:
        out += glob.glob(os.path.join(root, p), recursive=True)
    return sorted(f for f in set(out) if "/out/" not in f)


def snake(w):
    return re.sub(r"(?<=[a-z0-9_])([A-Z])", lambda m: ("" if m.group(0) == "_" else "_") + m[1].lower(), w) if not w[:1].isupper() else w


def code_of(line):
    """The line up to its comment."""
    i = 0
    while True:
        i = line.find("--", i)
        if i < 0:
            return line
        if i == 0 or line[i - 1].isspace():
            return line[:i]
        i += 2


def defined(root):
    """Names that the repository defines: (those of definitions, those of all)."""
    words, every = set(), set()
    for f in files(root, "crates/*/specs/**/*.antt", "crates/*/proofs/**/*.antt"):
        walk = re.search(r"/proofs/(?!Lib\.antt)[^/]+/", f) is not None
        for line in open(f, encoding="utf-8"):
            m = DEF.match(code_of(line))
            if not m:
                continue
            name, rest = m[3], code_of(line)[m.end():]
            if rest.lstrip().startswith("tie.") or rest.lstrip().startswith("goal."):
                continue
            if walk and name.endswith("-spec"):
                continue
            every.add(name)
            if "/specs/" in f:
                words.add(name)
    return words, every


def pairs(root):
    words, every = defined(root)
    fn = {snake(w) for w in words if "-" not in w} | LIBRARY
    out = {}
    for name in sorted(every):
        if name in APART:
            out[name] = APART[name]
            continue
        parts = [snake({"getD": "get_or", "bitOr": "bit_or"}.get(p, p)) for p in name.split("-")]
        new = parts[0]
        for a, b in zip(parts, parts[1:]):
            new += ("-" if a in fn and b in fn else "_") + b
        if new != name and re.match(r"[A-Za-z]", new):
            out[name] = new
    return out


TOKEN = re.compile(r"[^\s(){}\[\];,.:\"`]+")


def turn_code(text, names):
    return TOKEN.sub(lambda m: names.get(m[0], m[0]), text)


def turn_text(text, names, camel):
    """A comment or a page: names of definitions everywhere, other names in backticks alone."""
    text = re.sub(r"`[^`\n]*`", lambda m: turn_code(m[0], names), text)
    return TOKEN.sub(lambda m: names[m[0]] if m[0] in camel else m[0], text)


def turn_antt(text, names, camel):
    out = []
    for line in text.split("\n"):
        code = code_of(line)
        if re.match(r"\s*(use|pub mod|mod) ", code):
            # in a path only what stands in braces, or the last part, is a name
            head, brace, tail = code.partition("{")
            code = head + brace + turn_code(tail, names) if brace else code
        else:
            code = turn_code(code, names)
        out.append(code + turn_text(line[len(code_of(line)):], names, camel))
    return "\n".join(out)


RT = re.compile(r"ghost use [^;]*;|^(?:    )*(?:requires|ensures|ghost|invariant)\b[^{\n]*\{[^\n]*$", re.M)


def turn_rt(text, names, camel):
    def one(m):
        t = m[0]
        head, brace, tail = t.partition("{")
        return head + brace + turn_code(tail, names)

    # a clause may go on for lines; no name of src/ is in camel case
    return TOKEN.sub(lambda m: names[m[0]] if m[0] in camel else m[0], RT.sub(one, text))


def main(argv):
    root = os.getcwd()
    names = pairs(root)
    camel = {n for n in names if re.match(r"[a-z]+[a-z0-9]*[A-Z]", n) and "-" not in n}
    taken = {}
    for f in files(root, "crates/*/specs/**/*.antt", "crates/*/proofs/**/*.antt"):
        for line in open(f, encoding="utf-8"):
            code = code_of(line)
            if re.match(r"\s*(use|pub mod|mod) ", code):
                code = code.partition("{")[2]
            code = re.sub(r"[\w'·-]+\.(?=[^\s])", "", code)
            for t in TOKEN.findall(code):
                taken.setdefault(t, set()).add(os.path.relpath(f, root))
    back = {}
    for old, new in names.items():
        back.setdefault(new, []).append(old)
    bad = []
    for new, olds in sorted(back.items()):
        if len(olds) > 1:
            bad.append(f"{' '.join(olds)} -> {new}: fall together")
        elif new in taken:
            own = taken.get(olds[0], set())
            bad.append(f"{olds[0]} -> {new}: in use in {len(taken[new])} files, {len(taken[new] & own)} of them the same: {sorted(taken[new])[:3]}")
    if "--list" in argv:
        for old, new in sorted(names.items()):
            print(old, new)
    print(f"respell: {len(names)} names, {len(bad)} to look at", file=sys.stderr)
    for b in bad:
        print("look: " + b, file=sys.stderr)
    if "--list" in argv:
        return 0
    for f in files(root, "crates/*/specs/**/*.antt", "crates/*/proofs/**/*.antt"):
        t = open(f, encoding="utf-8").read()
        n = turn_antt(t, names, camel)
        if n != t:
            open(f, "w", encoding="utf-8").write(n)
    for f in files(root, "crates/*/src/**/*.rt"):
        t = open(f, encoding="utf-8").read()
        n = turn_rt(t, names, camel)
        if n != t:
            open(f, "w", encoding="utf-8").write(n)
    old, new = "crates/laws/specs/Contracts.antt", "crates/laws/specs/Determines.antt"
    if os.path.exists(os.path.join(root, old)):
        # Rattle makes a module specs.contracts
        os.rename(os.path.join(root, old), os.path.join(root, new))
        for f in files(root, "crates/*/specs/**/*.antt", "crates/*/proofs/**/*.antt"):
            t = open(f, encoding="utf-8").read()
            n = t.replace("Rattle.laws.specs.Contracts.", "Rattle.laws.specs.Determines.")
            if f.endswith("crates/laws/specs/Lib.antt"):
                n = n.replace("pub mod Contracts\n", "pub mod Determines\n")
            if n != t:
                open(f, "w", encoding="utf-8").write(n)
    for f in files(root, "docs/*.md", "README.md"):
        t = open(f, encoding="utf-8").read()
        n = re.sub(r"`[^`\n]*`", lambda m: turn_code(m[0], names), t)
        if n != t:
            open(f, "w", encoding="utf-8").write(n)
    return 0


if __name__ == "__main__":
    raise SystemExit(main(sys.argv[1:]))

#!/usr/bin/env python3
"""Puts back the library's names that tools/respell.py respelled, where a lemma of the repository had the same name:

    python3 tools/respell_library.py OLD       at the top of the repository; OLD is a tree right after port.py

In each file, a name that the file imports from a library (not from a crate of the repository) is spelled as the tree OLD spells it.
"""
import os
import re
import sys

sys.path.insert(0, os.path.dirname(os.path.abspath(__file__)))
import respell

USE = re.compile(r"^\s*(?:ghost )?use ([^\s{]+)\.\{([^}]*)\}", re.M)


def imported(text, own):
    out = set()
    for path, names in USE.findall(text):
        parts = path.split(".")
        if not (parts[0] == "Rattle" and len(parts) > 1 and parts[1] in own):
            out |= {n.strip() for n in names.split(",")}
    return out


def main(argv):
    root, old = os.getcwd(), argv[0]
    own = set(os.listdir(os.path.join(root, "crates")))
    names = respell.pairs(old)
    n = 0
    for f in respell.files(root, "crates/*/specs/**/*.antt", "crates/*/proofs/**/*.antt", "crates/*/src/**/*.rt"):
        before = os.path.join(old, os.path.relpath(f, root)).replace("laws/specs/Determines", "laws/specs/Contracts")
        if not os.path.exists(before):
            continue
        back = {names[w]: w for w in imported(open(before, encoding="utf-8").read(), own) if w in names}
        if not back:
            continue
        text = open(f, encoding="utf-8").read()
        camel = set()
        new = (respell.turn_antt if f.endswith(".antt") else respell.turn_rt)(text, back, camel)
        if new != text:
            open(f, "w", encoding="utf-8").write(new)
            n += 1
            print(os.path.relpath(f, root), " ".join(f"{a}={b}" for a, b in sorted(back.items())))
    print(f"{n} files", file=sys.stderr)


if __name__ == "__main__":
    main(sys.argv[1:])

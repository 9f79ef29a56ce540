#!/usr/bin/env python3
"""Respells this repository's own definitions and lemmas for today's Rattle: words in snake case, facts in upper camel case.

usage: python3 tools/port/respell.py      at the top, once, after the kit's port/port.py

It reads the names that specs/ and proofs/ define at the top of a file or of a module in it. A name that begins in lower case and
has capitals becomes snake case, part by part where a dash joins parts; all others stay. It turns each in every .antt and .rt
file (there in clauses, imports and comments), in must-fail edits and in the pages. Functions of src/, exported names, strings,
inputs and outputs keep their names. Where two names fall together it stops; names that are in use already it lists (functions of
src/ mostly, whose definitions have their name).
"""
import glob
import os
import re
import sys

# names that need more than the rule
CHOSEN = {"getD-from": "get_or-from", "getD-mapFrom": "get_or-map_from"}
# types in lower case that only some files have: a name that other files use for something else
HERE = [
    ("crates/undo_claims/proofs/Reached.antt", {"all": "AllOf"}),
    ("crates/causes/proofs/Hpmn.antt", {"order": "Order"}),
]

NAME = r"[^\s(){}\[\],;.:\"`|]+"
KEYWORDS = {"use", "pub", "module", "where", "let", "in", "elim", "unfolding", "record", "data", "mod", "abbrev"}


def files():
    out = []
    for pat in ("crates/*/specs/**/*.antt", "crates/*/proofs/**/*.antt"):
        out += glob.glob(pat, recursive=True)
    return sorted(out)


def defined():
    found = {}
    for p in files():
        generated = os.path.basename(p) == "Proof.antt"
        for line in open(p, encoding="utf-8"):
            m = re.match(r"^( {0,2})(?:(?:abbrev|unfoldable|pub) )*(" + NAME + r") :(?: |$)(.*)$", line)
            if not m or m.group(2) in KEYWORDS:
                continue
            name, typ = m.group(2), m.group(3)
            if generated and (re.match(r"tie\.", typ.strip()) or name.endswith("-spec") or name.endswith("_spec")):
                continue
            found.setdefault(name, []).append((p, typ.strip()))
    return found


def snake(part):
    s = re.sub(r"([a-z0-9])([A-Z])", lambda m: m.group(1) + "_" + m.group(2), part)
    return s[0].lower() + s[1:].lower() if s[:1].islower() else part


def respelled(name):
    if name in CHOSEN:
        return CHOSEN[name]
    if not re.fullmatch(r"[A-Za-z0-9_\-']+[₀-₉]*", name):
        return name
    return "-".join(snake(q) if re.search(r"[a-z0-9][A-Z]", q) and q[0].islower() else q for q in name.split("-"))


def table():
    found = defined()
    new = {}
    for n in sorted(found):
        if n in KEYWORDS or not n[0].islower():
            continue
        to = respelled(n)
        if to != n:
            new[n] = to
    return found, new


WORD = re.compile(r"(?<![\w'\-·])([A-Za-z][A-Za-z0-9_'\-]*[₀-₉]*)(?![\w'\-])")


def turned(text, new):
    return WORD.sub(lambda m: new.get(m.group(1), m.group(1)), text)


def main():
    found, new = table()
    back = {}
    for a, b in new.items():
        back.setdefault(b, []).append(a)
    clash = {b: xs for b, xs in back.items() if len(xs) > 1}
    words = {}
    for p in files():
        for m in WORD.finditer(open(p, encoding="utf-8").read()):
            words.setdefault(m.group(1), set()).add(p)
    used = {b: (back[b], sorted(words[b])[:3]) for b in back if b in words}
    for b, xs in sorted(clash.items()):
        print(f"fall together: {b} <- {xs}")
    for b, (xs, ps) in sorted(used.items()):
        print(f"in use: {b} <- {xs} in {ps}")
    if "--list" in sys.argv:
        for a, b in sorted(new.items()):
            print(a, b)
        return 0
    if clash and "--force" not in sys.argv:
        return 1
    n = 0
    every = files() + sorted(glob.glob("crates/*/must-fail/*.edit"))
    for p in every:
        t = open(p, encoding="utf-8").read()
        u = turned(t, new)
        if u != t:
            open(p, "w", encoding="utf-8").write(u)
            n += 1
    for pat, names in HERE:
        for p in sorted(glob.glob(pat, recursive=True)):
            t = open(p, encoding="utf-8").read()
            u = turned(t, names)
            if u != t:
                open(p, "w", encoding="utf-8").write(u)
    # sources and pages: names in camel case alone; those in snake case or with a dash read as code or as prose there
    camel = {a: b for a, b in new.items() if re.search(r"[a-z0-9][A-Z]", a)}
    for p in sorted(glob.glob("crates/*/src/**/*.rt", recursive=True)):
        t = open(p, encoding="utf-8").read()
        u = turned(t, camel)
        # laws and claims that a `ghost use` brings may have a dash
        u = re.sub(r"(?m)^ghost use .*$", lambda m: turned(m.group(0), new), u)
        if u != t:
            open(p, "w", encoding="utf-8").write(u)
            n += 1
    for p in sorted(glob.glob("docs/*.md") + ["README.md"] + glob.glob("crates/README.md")):
        t = open(p, encoding="utf-8").read()
        u = re.sub(r"`[^`\n]+`", lambda m: turned(m.group(0), camel), t)
        if u != t:
            open(p, "w", encoding="utf-8").write(u)
            n += 1
    print(f"respell: {len(new)} names, {n} files")
    return 0


if __name__ == "__main__":
    raise SystemExit(main())

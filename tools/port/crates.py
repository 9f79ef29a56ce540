#!/usr/bin/env python3
"""Gives the crates of the last landed commit the names that the unfinished work on top of it gave them (7bf8b11), so that a
folder with that commit, turned by the kit's port/port.py, can be laid beside this repository.

usage: python3 crates.py       at the top of that folder, after port.py and before respell.py
"""
import glob
import os
import re

NEW = {
    "external": "external_apply", "judge": "external_decide", "forms": "form_claims", "histories": "undo_claims",
    "journal": "undo_words", "listing": "undo_list", "traps": "order_counters", "icntr": "order_icntr", "sicr": "order_sicr",
    "measure": "bench_by_value", "measure_in_place": "bench_in_place", "measure_in_parts": "bench_in_parts",
    "measure_register": "bench_register",
}


def main():
    for old, new in NEW.items():
        if os.path.isdir(os.path.join("crates", old)):
            os.rename(os.path.join("crates", old), os.path.join("crates", new))
    path = re.compile(r"(?<=Rattle\.)(" + "|".join(NEW) + r")(?=\.)|(?<![\w.:])(" + "|".join(NEW) + r")(?=::)")
    for pat in ("crates/*/src/**/*.rt", "crates/*/specs/**/*.antt", "crates/*/proofs/**/*.antt", "crates/*/must-fail/*.edit"):
        for p in sorted(glob.glob(pat, recursive=True)):
            t = open(p, encoding="utf-8").read()
            u = path.sub(lambda m: NEW[m.group(0)], t)
            if u != t:
                open(p, "w", encoding="utf-8").write(u)
    word = re.compile(r"(?<!\w)(" + "|".join(NEW) + r")(?!\w)")
    t = open("crates.txt", encoding="utf-8").read()
    t = "".join(l if l.startswith("#") else word.sub(lambda m: NEW[m.group(0)], l) for l in t.splitlines(keepends=True))
    open("crates.txt", "w", encoding="utf-8").write(t)


if __name__ == "__main__":
    main()

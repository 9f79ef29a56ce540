#!/usr/bin/env python3
"""The places of docs/DESIGN-PASS.md: python3 tools/port/places.py [POINT], at the top of the repository. For each point that a
text can show, the places in crates/*/src (point 8: in crates/*/proofs), one a line, and how many there are. Which of them
change, and why the others stay, is for the page."""
import collections
import glob
import re
import sys


def sources(pattern):
    for path in sorted(glob.glob(pattern, recursive=True)):
        if "/out/" in path:
            continue
        yield path, open(path, encoding="utf-8").read()


def bare(text):
    return re.sub(r"//.*", "", text)


def functions(path, text):
    """(name, head with clauses, body) of each function."""
    text = bare(text)
    for m in re.finditer(r'^( *)(?:pub(?:\([^)]*\))? )?(?:extern "C" )?fn (\w+)', text, re.M):
        close = re.search(r"^%s\}" % m.group(1), text[m.start():], re.M)
        if close is None:
            continue
        whole = text[m.start():m.start() + close.end()]
        at = re.search(r"\{$\n(?!\s*(?:ensures|requires))", whole, re.M)
        at = at or re.search(r"\{", whole)
        opening = re.search(r"^%s\{" % m.group(1), whole, re.M)
        cut = opening.start() if opening else at.start()
        yield m.group(2), whole[:cut], whole[cut:]


SRC = "crates/*/src/**/*.rt"


def point1():
    for path, text in sources(SRC):
        for m in re.finditer(r"^(?:pub )?enum (\w+) \{\n(.*?)^\}", bare(text), re.M | re.S):
            variants = [v for v in re.split(r",\n(?=    \w)", m.group(2).strip("\n")) if v.strip()]
            held = [v for v in variants if "(" in v or "{" in v]
            if (held and len(variants) <= 3) or "(Refusal)" in m.group(2):
                yield f"{path}: enum {m.group(1)}: of the shape of Option or Result, or with a refusal among its cases"
        for name, head, body in functions(path, text):
            if re.search(r"_number$", name):
                yield f"{path}: fn {name}: a number for a case"
        for m in re.finditer(r"^pub const (\w+): u8 = (0x[EF]\w);", text, re.M):
            yield f"{path}: const {m.group(1)}: a number for a kind"
        nothing = r"^// .*\b(?:and|or) 0 (?:where|past).*(?:\n//.*)*\n(?:#.*\n)*(?:pub )?(?:extern \"C\" )?fn (\w+)"
        for m in re.finditer(nothing, text, re.M):
            yield f"{path}: fn {m.group(1)}: 0 for what is not there"


def shape(body):
    kept = r"\b(?:if|else|match|while|for|loop|return|let|mut|as|in|true|false)\b"
    out = []
    for word in re.findall(r"\w+|[^\w\s]", body):
        out.append(word if re.fullmatch(kept, word) or not re.match(r"\w", word) else "x")
    return "".join(out).replace(",}", "}").replace(",)", ")")


def point2():
    shapes = collections.defaultdict(list)
    for path, text in sources(SRC):
        for name, head, body in functions(path, text):
            s = shape(body)
            if s.count("x") >= 5:
                shapes[s].append(f"{path}: {name}")
    for s, places in sorted(shapes.items(), key=lambda e: e[1][0]):
        if len(places) > 1:
            yield "of one shape: " + "; ".join(places)
    for path, text in sources(SRC):
        names = [n for n, _, _ in functions(path, text)]
        for n in names:
            for ending in ("_by", "_decoded", "_listed"):
                if n + ending in names:
                    yield f"{path}: {n} and {n}{ending}"


def point3():
    for path, text in sources(SRC):
        for n, line in enumerate(text.split("\n"), 1):
            if re.match(r"\s*(?:while .*\{|loop \{)$", line):
                yield f"{path}:{n}: {line.strip()}"


def point4():
    for path, text in sources(SRC):
        for name, head, body in functions(path, text):
            if re.search(r"_number$|^reply_of$|^is_refused$|^fresh$|^is_last$|^refuse$|^decimal$|^hex$", name):
                yield f"{path}: fn {name}"
        for m in re.finditer(r"^pub const (FRESH_\w+)", text, re.M):
            yield f"{path}: const {m.group(1)}"


def point5():
    clauses, parameters = collections.defaultdict(list), collections.defaultdict(list)
    for path, text in sources(SRC):
        for name, head, body in functions(path, text):
            for clause in re.findall(r"requires \{(.*?)\}\n", head, re.S):
                for fact in re.split(r"\) × \(", " ".join(clause.split())):
                    clauses[fact.strip(" ()")].append(f"{path}: {name}")
            given = re.findall(r"(\w+): ([^,()]+)", head.split("->")[0].split("requires")[0].split("ensures")[0])
            for a, b in zip(given, given[1:]):
                parameters[(a, b)].append(f"{path}: {name}")
    for fact, places in sorted(clauses.items()):
        if len(places) >= 3:
            yield f"{len(places)} functions require {fact}: " + "; ".join(places)
    for (a, b), places in sorted(parameters.items()):
        if len(places) >= 3:
            yield f"{len(places)} functions take {a[0]}: {a[1].strip()}, {b[0]}: {b[1].strip()}: " + "; ".join(places)


def point6():
    for path, text in sources(SRC):
        for name, head, body in functions(path, text):
            if re.search(r"out: &mut \[u8\],\s*\w+: usize", head):
                yield f"{path}: fn {name}: a buffer and a place in it"
            elif re.search(r"list: &(?:mut )?\[u64", head):
                yield f"{path}: fn {name}: a list in words"
        for m in re.finditer(r"= \[0u\d+; \w+\]", text):
            yield f"{path}: a buffer {m.group(0)[2:]}"


def point7():
    for path, text in sources(SRC):
        for name, head, body in functions(path, text):
            if re.search(r"\b(?:d|e|q|c|r): (?:Decision|Effect|Request|Command|Register)\b", head) and "match" in body:
                yield f"{path}: fn {name}: a match on what to do"


def point8():
    cited = collections.Counter()
    for path, text in sources("crates/*/**/*.antt"):
        cited.update(set(re.findall(r"[\w'-]+", text)))
    for path, text in sources("crates/*/src/**/*.rt"):
        cited.update(set(re.findall(r"\w+", text)))
    files = answers = 0
    for path, text in sources("crates/*/proofs/**/*.antt"):
        if path.endswith("/Answers.antt"):
            files += 1
            answers += len(re.findall(r"^pub \S+ : goal\.", text, re.M))
        elif not re.search(r"/(?:Invariants|Given|Goals|Lib)\.antt$", path):
            for name in re.findall(r"^(?:abbrev )?pub (\S+) :", text, re.M):
                if cited[name] <= 1 and not re.search(r"/Proof\.antt$", path):
                    inside = len(re.findall(r"(?<![\w'-])%s(?![\w'-])" % re.escape(name), text))
                    if inside <= 2:
                        yield f"{path}: lemma {name}: cited nowhere else"
    yield f"files of answers: {files}; answers: {answers}"


POINTS = [point1, point2, point3, point4, point5, point6, point7, point8]

if __name__ == "__main__":
    wanted = [int(a) for a in sys.argv[1:]] or range(1, 9)
    for n in wanted:
        found = list(POINTS[n - 1]())
        print(f"point {n}: {len(found)}")
        for place in found:
            print(f"    {place}")

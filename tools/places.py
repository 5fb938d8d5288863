#!/usr/bin/env python3
"""Counts the places of crates/*/src that are written in an older way, by the points of docs/DESIGN-PASS.md.
usage: tools/places.py [TREE] [POINT]   (a POINT prints each place)"""
import collections
import glob
import os
import re
import sys

tree = sys.argv[1] if len(sys.argv) > 1 else "."
show = sys.argv[2] if len(sys.argv) > 2 else None


def plain(text):
    """The code without comments."""
    return re.sub(r"//[^\n]*", "", text)


files = {}
for path in sorted(glob.glob(os.path.join(tree, "crates/*/src/**/*.rt"), recursive=True)):
    files[os.path.relpath(path, tree)] = plain(open(path).read())


def closing(text, at):
    depth = 0
    for i in range(at, len(text)):
        if text[i] == "{":
            depth += 1
        elif text[i] == "}":
            depth -= 1
            if depth == 0:
                return i + 1
    return len(text)


Function = collections.namedtuple("Function", "path name params result clauses body")
functions = []
for path, text in files.items():
    for m in re.finditer(r"\bfn\s+(\w+)\s*(?:<[^>{(]*>)?\s*\(", text):
        depth, i = 1, m.end()
        while depth and i < len(text):
            depth += {"(": 1, ")": -1}.get(text[i], 0)
            i += 1
        params = " ".join(text[m.end() : i - 1].split())
        # the body begins at the first brace at the head's own depth that no clause opens
        j, clauses = i, []
        while True:
            b = text.find("{", j)
            if b < 0:
                break
            before = text[j:b]
            if re.search(r"\b(requires|ensures|ghost)\b[^{]*$", before):
                e = closing(text, b)
                clauses.append((re.search(r"\b(requires|ensures|ghost)\b", before)[1], " ".join(text[b + 1 : e - 1].split())))
                j = e
                continue
            break
        head = re.sub(r"\[[^\]]*\]", "", text[i:b].split("requires")[0].split("ensures")[0])
        if b < 0 or ";" in head:
            continue
        result = re.search(r"->\s*([^{]*?)(?:\brequires\b|\bensures\b|\{|$)", text[i:b], re.S)
        functions.append(
            Function(path, m[1], params, " ".join(result[1].split()) if result else "", clauses, text[b : closing(text, b)])
        )

found = collections.OrderedDict()


def place(point, text):
    found.setdefault(point, []).append(text)


# 1: own Option and Result, a flag with a value beside it, numbers for kinds and refusals
FAILING = r"Refused|FirstRefused|SecondRefused|Wrong|Failed|NoNumber|Absent|Unknown|Odd|NotRegular|Spent|Broken"
for path, text in files.items():
    for m in re.finditer(r"\benum\s+(\w+)[^{]*\{", text):
        body = text[m.end() : closing(text, m.end() - 1) - 1]
        variants = re.findall(r"^\s*(\w+)", body, re.M)
        if m[1].endswith("Error") or m[1] == "Fault":
            continue
        if re.search(rf"\b({FAILING})\b", body):
            place("1a own enum of the shape of Option or Result", f"{path} {m[1]}: {', '.join(variants)}")
    for m in re.finditer(r"\bstruct\s+(\w+)[^{;]*\{", text):
        body = text[m.end() : closing(text, m.end() - 1) - 1]
        fields = re.findall(r"(\w+)\s*:\s*([^,\n]+)", body)
        if len(fields) > 1 and any(t.strip() in ("bool", "Refusal") for _, t in fields):
            place("1b a flag or a refusal with a value beside it", f"{path} {m[1]}: {', '.join(n for n, _ in fields)}")
for f in functions:
    if f.result == "Refusal":
        place("1c a refusal of number 0 for none, as a result", f"{f.path} {f.name}")
    for _ in re.finditer(r"\.number\s*[!=]=\s*0", f.body):
        place("1d a test of number 0", f"{f.path} {f.name}")
    for m in re.finditer(r"\b(rule|fault|number|outcome|status|kind)\s*:\s*u8", f.params):
        place("1e a number for a kind, a rule or a refusal, as a parameter", f"{f.path} {f.name}: {m[1]}")

# 2: twins
groups = collections.defaultdict(list)
for f in functions:
    if len(f.body.split()) < 6:
        continue
    s = f"({f.params}) {f.result} {f.body}"
    s = re.sub(rf"\b{f.name}\b", "SELF", s)
    s = re.sub(r"\b(u8|u16|u32|u64|usize|i32|i64)\b", "INT", s)
    s = re.sub(r"\b([A-Z][A-Z0-9_]{2,}|\d[\d_]*)\b", "NUMBER", s)
    groups[" ".join(s.split())].append(f"{f.path} {f.name}")
for s, names in groups.items():
    if len(names) > 1 and "fn main" not in s:
        place("2a functions that differ in a type, a size or a constant only", " = ".join(names))
for f in functions:
    if re.fullmatch(r"\{\s*\w+ as \w+\s*\}", f.body):
        place("2b a widening of one's own", f"{f.path} {f.name}")
    if re.fullmatch(r"\{ if (\w+) < (\w+) \{ (\1 \} else \{ \2|\2 \} else \{ \1) \} \}", " ".join(f.body.split())):
        place("2c a maximum or minimum of one's own", f"{f.path} {f.name}")

# 3: loops
for f in functions:
    for m in re.finditer(r"\bwhile\b([^{]*)\{", f.body):
        inner = f.body[m.end() : closing(f.body, m.end() - 1)]
        names = re.findall(r"\b[a-z_]\w*\b", m[1])
        counted = [n for n in names if re.search(rf"\b{n} (\+|-)= 1;", inner)]
        key = "3a while that counts an index by hand" if counted else "3b other while"
        place(key, f"{f.path} {f.name}: while{m[1].rstrip()}")

# 4: equality, order, copying, conversion, printing
for path, text in files.items():
    for m in re.finditer(r"\bimpl\b[^{]*\b(PartialEq|Eq|PartialOrd|Ord|Clone|Hash|Default|Debug)\b[^{]*for\s+(\w+)", text):
        place("4a impl written out", f"{path} {m[1]} for {m[2]}")
for f in functions:
    if re.match(r"(same|equal|equals|eq|compare|copy_of|clone|to_text|as_text|show|convert|told)(_|$)", f.name):
        place("4b a function that compares, copies or converts", f"{f.path} {f.name}")

# 5: what travels together
sets = collections.defaultdict(set)
for f in functions:
    ps = [p.strip() for p in re.split(r",(?![^\[(<]*[\])>])", f.params) if ":" in p]
    ps = [re.sub(r"'\w+ ?", "", p) for p in ps]
    for i in range(len(ps)):
        for j in range(i + 3, len(ps) + 1):
            sets[(os.path.dirname(f.path).split("/")[1], tuple(ps[i:j]))].add(f.name)
best = {}
for (crate, ps), names in sets.items():
    if len(names) >= 3:
        key = (crate, frozenset(names))
        if key not in best or len(ps) > len(best[key]):
            best[key] = ps
kept = []
for (crate, names), ps in sorted(best.items(), key=lambda x: (-len(x[0][1]), -len(x[1]))):
    if any(c == crate and names <= n and set(ps) <= set(q) for c, n, q in kept):
        continue
    kept.append((crate, names, ps))
    place("5a three or more parameters together in three or more functions of a crate", f"{crate}: {', '.join(ps)} in {', '.join(sorted(names))}")
facts = collections.defaultdict(set)
for f in functions:
    for kind, c in f.clauses:
        if kind == "requires":
            facts[(f.path.split("/")[1], c)].add(f.name)
for (crate, c), names in facts.items():
    if len(names) >= 3 and ("×" in c or len(c) > 60):
        place("5b a compound requires of three or more functions of a crate", f"{crate}: {c} in {', '.join(sorted(names))}")

# 6: buffers, parallel arrays, arenas
for f in functions:
    arrays = re.findall(r"\[\w+; \w+\]", f.params)
    if len(arrays) >= 2:
        place("6a parallel arrays as parameters", f"{f.path} {f.name}: {len(arrays)}")
    elif arrays and re.search(r"\b(n|count|len|size): usize", f.params):
        place("6b an array with a length beside it", f"{f.path} {f.name}")
    if re.search(r"\bout: &mut \[u8\]", f.params) and re.search(r"\bat: usize", f.params):
        place("6c a buffer and the next place in it", f"{f.path} {f.name}")

# 7: a switch on a step, tables of functions
for f in functions:
    for m in re.finditer(r"\bmatch (step|which|mode|state|phase|rule|k)\b", f.body):
        place("7 a switch on which step to run", f"{f.path} {f.name}: match {m[1]}")

# 8: answers that are a tactic alone, with no definition to unfold
for path in sorted(glob.glob(os.path.join(tree, "crates/*/proofs/**/Answers.antt"), recursive=True)):
    for m in re.finditer(r"(?m)^pub ([\w◌-]+) : [^\n]*\n(unfolding [^\n]*\n)?\1 \w+ = (omega arith|search rules|refl)$", open(path).read()):
        if not m[2]:
            place("8 an answer that is a tactic alone", f"{os.path.relpath(path, tree)} {m[1]}")

for key, ps in found.items():
    print(f"{len(ps):5} {key}")
    if show and key.startswith(show):
        for p in ps:
            print("      ", p)

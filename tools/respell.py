#!/usr/bin/env python3
"""Brings the repository's own names of antt to one spelling: words in snake case, types and modules in camel case.

usage: tools/respell.py [--list]      at the top of a repository that port.py has just turned

A dash stays only in a lemma's name that joins the names of two definitions, as in `width_of-put`. Functions of src/, exported
names, texts, inputs and outputs keep their names. Run once; --list only prints what would be renamed. It stops where two names
would fall together, or where a new name is already one of the file's own.
"""
import collections
import os
import re
import subprocess
import sys

W = r"[^\s(){}.;,@\"«»\[\]\\`:]+"
TOKEN = re.compile(r"--[^\n]*|//[^\n]*|\"(?:[^\"\\\n]|\\.)*\"|«[^»\n]*»|" + W)
# Names that only their file and those that import them from it have: (crate, module) of the declaration, old, new.
SCOPED = [
    ("plan", "Plan", "W", "box_width"),
    ("plan", "Plan", "D", "box_depth"),
    ("least", "Vertical", "VP", "vertical_place"),
    ("compose_fields", "Steps", "ends", "Ends"),
]
# Names whose parts no rule tells.
BY_HAND = {
    "eqZ": "eq_z", "separationTo": "separation_to", "fileVal": "file_val", "tableVal": "table_val", "lentVal": "lent_val",
    "goL": "go_l", "goR": "go_r", "at-getD": "at_get_or", "getD-from": "get_or_from", "leZ-nat": "le_z_nat", "ltZ-nat": "lt_z_nat",
    "nat-leZ": "nat_le_z", "nat-ltZ": "nat_lt_z", "ofInt-under": "of_int_under", "says-eqZ": "says_eq_z", "says-leZ": "says_le_z",
    "says-ltZ": "says_lt_z", "sheet-F": "sheet_f",
}
ENGLISH = {"whole-number", "one-too-many"}
WORDS = set("let in use where mod elim λ → ↦ = ≡ × ⊎".split())
STD = set("length take drop get_or set map sum max min append reverse replicate filter fold zip cond pos neg bias".split())


def below(ends):
    for folder, dirs, files in os.walk("crates"):
        dirs[:] = sorted(d for d in dirs if d != "out")
        for f in sorted(files):
            if f.endswith(ends):
                yield os.path.join(folder, f)


def read(path):
    with open(path, encoding="utf-8", newline="") as f:
        return f.read()


def plain(text):
    return re.sub(r"--[^\n]*", "", text)


def declared():
    """Each name that a file of specs/ or a shared file of proofs/ declares, with its kinds."""
    out = collections.defaultdict(set)
    for p in below(".antt"):
        if p.endswith("/Proof.antt"):
            continue
        lines, inside = plain(read(p)).split("\n"), None
        for i, l in enumerate(lines):
            m = re.match(r"^( *)(?:abbrev |unfoldable |pub )*(data|record) (" + W + ")", l)
            if m:
                out[m.group(3)].add("type")
                inside = (m.group(2), len(m.group(1)))
                continue
            m = re.match(r"^( *)((?:abbrev |unfoldable |pub )*)(" + W + "(?: " + W + r")*) (?:\{[^}]*\} )?: (.*)", l)
            if m and not set(m.group(3).split()) & WORDS:
                deep, each = len(m.group(1)), m.group(3).split()
                if inside and deep > inside[1]:
                    for name in each:
                        out[name].add("field" if inside[0] == "record" else "constructor")
                    continue
                inside = None
                sig, j = m.group(4), i + 1
                while j < len(lines) and lines[j].strip() and len(lines[j]) - len(lines[j].lstrip()) > deep:
                    sig, j = sig + " " + lines[j].strip(), j + 1
                kind = "lemma"
                if sig.split("→")[-1].strip().startswith("Type"):
                    kind = "type"
                elif "abbrev" in m.group(2) or "unfoldable" in m.group(2):
                    kind = "definition"
                for name in each:
                    out[name].add(kind)
            elif l.strip() and not l.startswith(" "):
                inside = None
    return out


def snake(name):
    return name.replace("-", "_")


def new_names(names):
    known = {snake(n) for n, k in names.items() if k & {"definition", "constructor", "type"}} | STD
    out = {}
    for n, kinds in names.items():
        if n in BY_HAND:
            out[n] = BY_HAND[n]
        elif "-" not in n or "◌" in n:
            continue
        elif n[0].isupper():
            out[n] = n[0] + "".join(p if i == 0 else p[:1].upper() + p[1:] for i, p in enumerate(n[1:].split("-")))
        elif kinds == {"lemma"}:
            parts = n.split("-")

            def split(at):
                if at == len(parts):
                    return []
                for end in range(len(parts), at, -1):
                    word = "_".join(parts[at:end])
                    if word in known:
                        rest = split(end)
                        if rest is not None:
                            return [word, *rest]
                return None

            joined = split(0)
            out[n] = "-".join(joined) if joined and len(joined) > 1 else snake(n)
        else:
            out[n] = snake(n)
    return {a: b for a, b in out.items() if a != b}


def turned(text, table, comments=True):
    def one(m):
        it = m.group(0)
        if it.startswith(("--", "//")):
            if not comments:
                return it
            return it[:2] + re.sub(W, lambda w: w.group(0) if w.group(0) in ENGLISH or "-" not in w.group(0) else table.get(w.group(0), w.group(0)), it[2:])
        if it.startswith('"'):
            return it
        if it.startswith("«"):
            inner = it[1:-1]
            return table[inner] if inner in table else it
        return table.get(it, it)

    return TOKEN.sub(one, text)


LAWS = re.compile(r"(?<=specs\.)laws(?![\w-])")


def modules(text):
    text = LAWS.sub("Laws", text)
    return re.sub(r"(?m)^( *(?:pub )?mod )laws\b", r"\1Laws", text)


GHOST = re.compile(r"ghost use [^;]*;|\b(?:requires|ensures|ghost)\*?(?: \w+:?)? \{")


def clauses(text, turn):
    """Text of a .rt file, with turn over its ghost imports and the braces of its clauses alone; comments too."""
    out, at = [], 0
    for m in GHOST.finditer(text):
        if m.start() < at:
            continue
        end = m.end()
        if not m.group(0).endswith(";"):
            depth = 1
            while depth:
                depth += (text[end] == "{") - (text[end] == "}")
                end += 1
        out += [text[at:m.start()], turn(text[m.start():end])]
        at = end
    out.append(text[at:])
    return "".join(out)


def aliased(text, crate, module, old, new):
    """The text with `alias.old` as `alias.new`, where the alias is the file's name for the module."""
    for m in re.finditer(r"Rattle\." + crate + r"\.specs\." + module + r" as (" + W + ")", text):
        text = re.sub(r"(?<![\w.-])" + re.escape(m.group(1)) + r"\." + old + r"(?![\w'-])", lambda _: m.group(1) + "." + new, text)
    return text


def imports(text, crate, module):
    """Whether the text imports a name from the module of specs/: the names in its braces."""
    found = set()
    for m in re.finditer(r"Rattle\." + crate + r"\.specs\." + module + r"\.\{([^}]*)\}", text):
        found |= set(re.findall(W, m.group(1)))
    return found


def main():
    listing = "--list" in sys.argv[1:]
    names = declared()
    table = new_names(names)
    table = {a: b for a, b in table.items()}
    back = collections.defaultdict(list)
    for a, b in table.items():
        back[b].append(a)
    bad = [(b, a) for b, a in back.items() if len(a) > 1]
    tokens = collections.defaultdict(set)
    for p in below((".antt", ".rt")):
        text = read(p)
        body = plain(text) if p.endswith(".antt") else "\n".join(re.findall(r"(?:requires|ensures|ghost)[^{;]*\{[^\n]*|ghost use[^;]*;", text))
        for t in set(re.findall(W, body)):
            if t in back:
                tokens[t].add(p)
    if listing:
        for a, b in sorted(table.items()):
            print(a, b)
    for b, a in bad:
        print("fall together:", b, a)
    for t, ps in sorted(tokens.items()):
        print("taken:", t, "from", back[t], "in", len(ps), sorted(ps)[:6])
    if listing:
        return
    if bad:
        raise SystemExit(1)
    for p in below((".antt", ".rt", ".edit")):
        text = read(p)
        crate = p.split("/")[1]
        own = dict(table)
        for c, m, old, new in SCOPED:
            here = p == f"crates/{c}/specs/{m}.antt" or old in imports(text, c, m)
            if p.endswith(".edit"):
                here = c == crate and (f"specs/{m}.antt" in text) or any(
                    old in imports(read(f), c, m) for f in files_of(p, text)
                )
            if here:
                own[old] = new
        if not p.endswith(".edit"):
            for c, m, old, new in SCOPED:
                text = aliased(text, c, m, old, new)
        turn = lambda t: modules(turned(t, own))
        before = read(p)
        if p.endswith(".antt"):
            new = turn(text)
        elif p.endswith(".rt"):
            new = clauses(text, turn)
            new = re.sub(r"//[^\n]*", lambda m: turned(m.group(0), table), new)
        else:
            new = edit(p, text, turn)
        if new != before:
            with open(p, "w", encoding="utf-8", newline="") as f:
                f.write(new)
    for p in pages():
        text = read(p)
        new = re.sub(r"`[^`\n]*`", lambda m: LAWS_IN.sub("specs/Laws", "`" + turned(m.group(0)[1:-1], {a: b for a, b in table.items() if "-" in a}, False) + "`"), text)
        if new != text:
            with open(p, "w", encoding="utf-8", newline="") as f:
                f.write(new)
    for folder in sorted({os.path.dirname(p) for p in below(".antt") if "/specs/laws/" in p}):
        subprocess.run(["git", "mv", folder, folder[: -len("laws")] + "Laws"], check=True)
        subprocess.run(["git", "mv", folder + ".antt", folder[: -len("laws")] + "Laws.antt"], check=True)


LAWS_IN = re.compile(r"specs/laws(?![\w-])")


def pages():
    yield "README.md"
    for folder, dirs, files in os.walk("docs"):
        dirs.sort()
        for f in sorted(files):
            if f.endswith(".md"):
                yield os.path.join(folder, f)


def files_of(p, text):
    folder = os.path.dirname(os.path.dirname(p))
    return [os.path.join(folder, f) for f in re.findall(r"(?m)^file: (\S+)", text) if os.path.exists(os.path.join(folder, f))]


def edit(p, text, turn):
    out = []
    for l in text.split("\n"):
        head = l.split(" ", 1)[0]
        if head in ("old:", "new:"):
            out.append(head + turn(l[len(head):]))
        elif head in ("file:", "at:"):
            out.append(l.replace("specs/laws", "specs/Laws"))
            if head == "at:":
                where = out[-1].split(" ")
                out[-1] = " ".join(where[:2] + [turn(w) for w in where[2:]])
        else:
            out.append(l)
    return "\n".join(out)


if __name__ == "__main__":
    main()

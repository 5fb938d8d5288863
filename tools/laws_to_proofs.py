#!/usr/bin/env python3
"""Moves what is proved about definitions from specs/ to proofs/: specs/Laws, and each page of specs/ that cites it.

usage: tools/laws_to_proofs.py      at the top of the repository, once, after tools/respell.py

A wrong definition has to be refused because a law about it no longer holds. Today's checker reads an error in specs/ as a text that it cannot read, so the laws
stand in proofs/, under the same names: `Rattle.CRATE.specs.Laws.FILE` is `Rattle.CRATE.proofs.Laws.FILE`, and so for the pages.
"""
import os
import re
import subprocess


def read(path):
    with open(path, encoding="utf-8", newline="") as f:
        return f.read()


def write(path, text):
    os.makedirs(os.path.dirname(path), exist_ok=True)
    with open(path, "w", encoding="utf-8", newline="") as f:
        f.write(text)


def below(*ends):
    for folder, dirs, files in os.walk("crates"):
        dirs[:] = sorted(d for d in dirs if d != "out")
        for f in sorted(files):
            if f.endswith(ends):
                yield os.path.join(folder, f)


def main():
    moved = {}
    for c in sorted(os.listdir("crates")):
        specs = f"crates/{c}/specs"
        if not os.path.isdir(specs):
            continue
        pages = [f[:-5] for f in sorted(os.listdir(specs)) if f.endswith(".antt") and f not in ("Lib.antt", "Laws.antt")]
        go = ["Laws"] if os.path.exists(f"{specs}/Laws.antt") else []
        more = True
        while more:
            more = False
            for p in pages:
                if p not in go and any(re.search(rf"Rattle\.{c}\.specs\.{m}(?![\w'-])", read(f"{specs}/{p}.antt")) for m in go):
                    go.append(p)
                    more = True
        if go:
            moved[c] = go
    for c, go in moved.items():
        os.makedirs(f"crates/{c}/proofs", exist_ok=True)
        for m in go:
            subprocess.run(["git", "mv", f"crates/{c}/specs/{m}.antt", f"crates/{c}/proofs/{m}.antt"], check=True)
            if os.path.isdir(f"crates/{c}/specs/{m}"):
                subprocess.run(["git", "mv", f"crates/{c}/specs/{m}", f"crates/{c}/proofs/{m}"], check=True)
        lib = f"crates/{c}/specs/Lib.antt"
        lines = read(lib).split("\n")
        gone = [l for l in lines if (m := re.fullmatch(r"(?:pub )?mod (\S+)", l)) and m.group(1) in go]
        write(lib, "\n".join(l for l in lines if l not in gone))
        other = f"crates/{c}/proofs/Lib.antt"
        has = read(other).rstrip("\n").split("\n") if os.path.exists(other) else []
        write(other, "\n".join([*[f"pub mod {m}" for m in go], *has]).rstrip("\n") + "\n")
    paths = re.compile(r"Rattle\.(\w+)\.specs\.([A-Za-z0-9_]+)(?![\w'-])")
    turn = lambda t: paths.sub(lambda m: f"Rattle.{m.group(1)}.proofs.{m.group(2)}" if m.group(2) in moved.get(m.group(1), ()) else m.group(0), t)
    for p in below(".antt", ".rt", ".edit"):
        text = read(p)
        new = turn(text)
        if p.endswith(".edit"):
            go = moved.get(p.split("/")[1], ())
            new = re.sub(r"(?m)^((?:file|at): )specs/([A-Za-z0-9_]+)(?=[/.])", lambda m: m.group(1) + ("proofs/" if m.group(2) in go else "specs/") + m.group(2), new)
        if new != text:
            write(p, new)
    for folder in ["."] + [d for d, _, _ in os.walk("docs")]:
        for f in sorted(os.listdir(folder)):
            if f.endswith(".md") and f != "PORT.md":
                text = read(f"{folder}/{f}")
                new = turn(text).replace("specs/Laws", "proofs/Laws")
                if new != text:
                    write(f"{folder}/{f}", new)


if __name__ == "__main__":
    main()

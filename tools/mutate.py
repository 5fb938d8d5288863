#!/usr/bin/env python3
"""Definitions edited together with the laws of their own crate, so that the crate itself is still proved: `least` must refuse each.

    tools/mutate.py [WORD..]     all of them, or those whose title has one of the words

It works in a temporary copy of the tree and writes nothing else. Outside the gate: a run takes about a minute.
"""
import re
import shutil
import subprocess
import sys
import tempfile
from pathlib import Path

ROOT = Path(__file__).resolve().parent.parent
PLAN, PLAN_LAWS = "plan/specs/Plan.antt", "plan/proofs/Laws/Plan.antt"
PLACEMENT, RULES, EXTENTS = "rules/specs/Placement.antt", "rules/specs/Rules.antt", "rules/proofs/Laws/Extents.antt"
VERDICT, TESTS = "rules/specs/Verdict.antt", "rules/specs/Tests.antt"
VERDICT_LAWS, AGREEMENT = "rules/proofs/Laws/Verdict.antt", "rules/proofs/Laws/Agreement.antt"
CONTOUR, CONTOUR_LAWS = "contours/specs/Contour.antt", "contours/proofs/Laws/Contour.antt"
SHEET, SHEET_LAWS, SPAN_LAWS = "contours/specs/Sheet.antt", "contours/proofs/Laws/Sheet.antt", "contours/proofs/Laws/Spans.antt"

PARTS = "max (max s3_ends s3_starts) (max s4 s5)"

# a file, what stands there (text, or a pattern), what is put in its place; None: the file is removed

def appoint(choice, rest):
    """Another appointed child: kind `choice` hangs from its first, all others from number `rest`. The code of it goes, since `least` does not stand on it."""
    law = ("pub appointed-within : (kind k : ℕ) → (1 ≤ appointed kind k) × (appointed kind k ≤ max 1 k)\nunfolding appointed\n"
           f"appointed-within kind k = go (eqb kind {choice})\n  where\n    go : (b : Bool) → (1 ≤ cond b 1 ({rest})) × (cond b 1 ({rest}) ≤ max 1 k)\n"
           "    go true = (omega arith, omega arith)\n    go false = (omega arith, omega arith)\n\n")
    return [
        (PLAN, "◌/◌, ◌≤◌, ◌<◌", "◌-◌, ◌/◌, ◌≤◌, ◌<◌"),
        (PLAN, "cond (eqb kind 4) 1 ((k + 1 + 1) / 2)", f"cond (eqb kind {choice}) 1 ({rest})"),
        (PLAN_LAWS, "use Rattle.std.proofs.Math.Decide.{ℕ_discrete}\n", "use Rattle.std.specs.Prelude.{Bool, true, false, cond}\n"),
        (PLAN_LAWS, "pred, ◌+◌", "pred, ◌-◌, ◌/◌, ◌+◌"),
        (PLAN_LAWS, re.compile(r"pub appointed_choice : .*?(?=-- its place, from 0)", re.S), law),
        ("plan/src/kinds.rt", re.compile(r"\n// THE appointed child.*", re.S), ""),
        ("plan/proofs/kinds/appointed/Answers.antt", None, None),
    ]


MUTATIONS = {
    "S3's first half not strict": [
        (RULES, "T (within t u a) → right t p a <ℤ p.x v", "T (within t u a) → right t p a ≤ℤ p.x v"),
        (VERDICT, "T (within t u a) → right t p a <ℤ p.x b", "T (within t u a) → right t p a ≤ℤ p.x b"),
        (TESTS, "only (after_one t a b) (lt_z", "only (after_one t a b) (le_z"),
        (VERDICT_LAWS, "(says_some (λ u. next t u b) (path t a)) (says_lt_z", "(says_some (λ u. next t u b) (path t a)) (says_le_z"),
    ],
    "S3's second half not strict": [
        (RULES, "T (within t v b) → p.x u <ℤ p.x b", "T (within t v b) → p.x u ≤ℤ p.x b"),
        (VERDICT, "T (within t v b) → p.x a <ℤ p.x b", "T (within t v b) → p.x a ≤ℤ p.x b"),
        (TESTS, "only (before_one t a b) (lt_z", "only (before_one t a b) (le_z"),
        (VERDICT_LAWS, "(says_some (λ v. next t a v) (path t b)) (says_lt_z", "(says_some (λ v. next t a v) (path t b)) (says_le_z"),
    ],
    "S4 on boxes only: no row is a stem's": [
        (PLACEMENT, "pub low : ρ ≤ℤ bottom a", "pub low : ρ ≤ℤ base a"),
        (TESTS, "share s e (base t p b +ℤ pos 1) (bottom t p b)", "share s e (base t p b +ℤ pos 1) (base t p b)"),
        (TESTS, "meets (base t p a +ℤ pos 1) (bottom t p a) b", "meets (base t p a +ℤ pos 1) (base t p a) b"),
        (VERDICT_LAWS, "bottom t p", "base t p"),
        (AGREEMENT, "(bottom t p a) b j", "(base t p a) b j"),
    ],
    "S5 without the 1": [
        (RULES, "(right t p a -ℤ p.x b +ℤ pos 1) ≤ℤ pos al", "(right t p a -ℤ p.x b) ≤ℤ pos al"),
        (VERDICT, "(right t p a -ℤ p.x b +ℤ pos 1) ≤ℤ pos al", "(right t p a -ℤ p.x b) ≤ℤ pos al"),
        (TESTS, "le_z (right t p a -ℤ p.x b +ℤ pos 1) (pos al)", "le_z (right t p a -ℤ p.x b) (pos al)"),
    ],
    "the width without the least x": [
        (PLACEMENT, "width = most right (right 0) (cells t) -ℤ least p.x (p.x 0) (cells t)", "width = most right (right 0) (cells t)"),
        (EXTENTS, "(p.x b +ℤ pos k) ≤ℤ right t p a → pos k ≤ℤ width t p", "pos k ≤ℤ right t p a → pos k ≤ℤ width t p"),
        (EXTENTS, "right t p a ≤ℤ (p.x b +ℤ pos k)) → width t p", "right t p a ≤ℤ pos k) → width t p"),
        (EXTENTS, "(λ e. (e -ℤ least p.x (p.x 0) (cells t)) ≤ℤ pos k) (low 0 i) (λ a m. low a (cells-read t a m))", "(λ e. e ≤ℤ pos k) (h 0 0 i i) (λ a m. h a 0 (cells-read t a m) i)"),
        (EXTENTS, re.compile(r"    where\n      low : .*?\n\n", re.S), "\n"),
    ],
    "the separation without S3's first half": [
        (CONTOUR, PARTS, "max s3_starts (max s4 s5)"),
        (CONTOUR_LAWS, "  pub ends : greatest o.right + 1 ≤ d\n", ""),
        (CONTOUR_LAWS, "      ends = omega arith;\n", ""),
        (SPAN_LAWS, "        ends = omega arith;\n", ""),
    ],
    "the separation without S3's second half": [
        (CONTOUR, PARTS, "max s3_ends (max s4 s5)"),
        (CONTOUR_LAWS, "  pub starts : greatest p.left + 1 ≤ d\n", ""),
        (CONTOUR_LAWS, "      starts = omega arith;\n", ""),
        (CONTOUR_LAWS, re.compile(r"→ v ≡ 0\n  unfolding lefts stride separation\n.*?\n\n", re.S), "→ v ≡ v\n  lefts-next o os P X j v g h = refl\n\n"),
        (SPAN_LAWS, re.compile(r"module _ \(al : ℕ\) where\n.*?(?=  -- a box with its children)", re.S), "module _ (al : ℕ) where\n"),
        (SPAN_LAWS, "os).right + 1 ≤ W + 1 + spans os", "os).right + 1 ≤ greatest (contour al W D (offset al 0 os m) os).left + greatest (contour al W D (offset al 0 os m) os).right + 1"),
        (SPAN_LAWS, re.compile(r"  span W D m os =.*", re.S), "  span W D m os = omega arith\n"),
    ],
    "the separation without S4": [
        (CONTOUR, PARTS, "max (max s3_ends s3_starts) s5"),
        (CONTOUR_LAWS, "      rows = λ j r l a b. omega (arith, clash-at o.right p.left j r l a b);\n", ""),
        (CONTOUR_LAWS, "  pub rows : (j r l : ℕ) → At o.right j r → At p.left j l → r + l + 1 ≤ d\n", ""),
        (CONTOUR_LAWS, "omega (arith, clash_le o.right p.left d h.rows)", "omega arith"),
        (SPAN_LAWS, "        rows = λ j r l a b. omega (arith, greatest_le o.right j r a, greatest_le p.left j l b);\n", ""),
    ],
    "the separation without S5": [
        (CONTOUR, PARTS, "max (max s3_ends s3_starts) (max s4 0)"),
        (CONTOUR_LAWS, "  pub overlap : greatest o.right + greatest p.left + 1 ≤ d + al\n", ""),
        (CONTOUR_LAWS, "      overlap = omega arith;\n", ""),
        (SPAN_LAWS, "        overlap = omega arith;\n", ""),
    ],
    "the appointed child (k+1)/2 rounded down": appoint(4, "(k - 1) / 2 + 1"),
    "a choice hangs as the others do": appoint(6, "(k + 1 + 1) / 2"),
    "left children to the right": [
        (SHEET, "pos (offset al 0 os (index (suc m) (children t c))) -ℤ pos (middle c os)", "pos (middle c os) -ℤ pos (offset al 0 os (index (suc m) (children t c)))"),
        (SHEET_LAWS, "(pos (offset al 0 (contours t al f) i) -ℤ pos (middle t al f (contours t al f)))", "(pos (middle t al f (contours t al f)) -ℤ pos (offset al 0 (contours t al f) i))"),
    ],
}


def apply(copy, edits):
    for name, old, new in edits:
        path = copy / "crates" / name
        if old is None:
            path.unlink()
            continue
        pattern = old if isinstance(old, re.Pattern) else re.compile(re.escape(old))
        text, count = pattern.subn(lambda _: new, path.read_text())
        if not count:
            sys.exit(f"mutate.py: {name} has no {pattern.pattern}")
        path.write_text(text)


def refused(title, edits):
    with tempfile.TemporaryDirectory() as where:
        copy = Path(where)
        shutil.copytree(ROOT / "crates", copy / "crates", ignore=shutil.ignore_patterns("out"))
        subprocess.run(["git", "init", "-q"], cwd=copy, check=True)
        shutil.copy(ROOT / "crates.txt", copy)
        apply(copy, edits)
        below, lines = set(), []
        for n in ("whole", "plan", "rules", "contours", "least"):
            run = subprocess.run(["rt", "check"], cwd=copy / "crates" / n, capture_output=True, text=True)
            lines = [l.replace("./", n + "/", 1) if l.startswith("./") else l for l in (run.stdout + run.stderr).splitlines()]
            if n != "least" and run.returncode == 0:
                below.add(n)
    errors = [re.sub(r"^.*/crates/", "", l) for l in lines if ": error: " in l and not re.search("was not admitted|not in scope", l)]
    good = len(below) == 4 and any(e.startswith("least/") for e in errors)
    print(f"{'refused by least' if good else 'NOT AS IT MUST BE'}: {title}")
    for e in errors[:4]:
        print("   ", e[:150])
    sys.stdout.flush()
    return good


words = sys.argv[1:]
chosen = {t: e for t, e in MUTATIONS.items() if not words or any(w in t for w in words)}
count = sum(refused(t, e) for t, e in chosen.items())
print(f"{count} of {len(chosen)} refused by least")
sys.exit(count != len(chosen))

#!/usr/bin/env bash
# The program why_program from outside: every reason that it prints holds by docs/RULES.md (tests/reason.py) and is for the width that `sheet` lists, and altered ones do not hold; refusals, standard error,
# outputs that cannot be written. Needs the programs in target/bin.
set -u
cd "$(dirname "$0")/.."
why=target/bin/why_program
sheet=target/bin/sheet
work="$(mktemp -d)"
trap 'rm -rf "$work"' EXIT
checks=0

# same WHAT EXPECTED GOT
same() {
    checks=$((checks + 1))
    [ "$2" = "$3" ] && return
    printf 'tests/why.sh: %s\n  expected: %s\n  got:      %s\n' "$1" "$2" "$3"
    exit 1
}

for program in "$why" "$sheet"; do
    [ -x "$program" ] || { echo "tests/why.sh: $program is not built: tools/programs.sh ${program##*/}"; exit 1; }
done

# ---- the printed one
same "the reason of the printed example" $'why 3 0 9 1\n1 2 S3 4 4\n2 W 5 9' "$("$why" < plans/printed.plan)"
same "the reason of F at 3" $'why 13 3 25 4\n2 3 S3 3 3\n3 4 S3 10 13\n4 11 S4 1 14\n11 12 S3 9 23\n12 W 2 25' "$("$why" < plans/F-3.plan)"

# ---- every reason holds, and no altered one: the example plans and a hundred random ones
python3 tests/reasons.py "$why" "$sheet" plans/*.plan || exit 1
checks=$((checks + 1))

# ---- the pictures of docs/RULES.md and of README.md are what plot draws
for picture in docs/rules/*.svg; do
    name="$(basename "$picture" .svg)"
    target/bin/plot 4 5 < "plans/$name.plan" > "$work/out"
    cmp "$picture" "$work/out" || exit 1
    checks=$((checks + 1))
done

./kuzpalen plot plans/rinse.plan A4 > "$work/out"
cmp docs/rinse.svg "$work/out" || exit 1
checks=$((checks + 1))

# ---- refusals, and nothing on standard error
head -c 15 plans/printed.plan > "$work/short.plan"
printf 'x%s' "$(printf 'y%.0s' {1..16400})" > "$work/long.plan"
{ head -c 6 plans/printed.plan; printf '\377\377\6'; tail -c 29 plans/printed.plan; } > "$work/kind.plan"
for case in "short 2 0" "long 2 0" "kind 7 0"; do
    set -- $case
    same "the reason of the plan $1" "refused $2 $3" "$("$why" < "$work/$1.plan" 2> "$work/err")"
    same "standard error for the plan $1" "" "$(cat "$work/err")"
done

# ---- an output that cannot be written
"$why" < plans/pond.plan > /dev/full 2> "$work/err"
same "standard error for a full output" "why: the reason could not be written whole" "$(cat "$work/err")"
echo "tests/why.sh: $checks checks ok"

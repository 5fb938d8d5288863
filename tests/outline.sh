#!/usr/bin/env bash
# Outlines from outside: the outline of every plan of plans/, the plan composed of it again, what is printed of every fault of a text, random plans and texts against a program of its own (tests/outline.py).
# Needs the programs in target/bin. The gate runs it after `rt ci`.
set -u
cd "$(dirname "$0")/.."
outline=target/bin/outline_program
compose=target/bin/compose_program
clean=target/bin/clean
work="$(mktemp -d)"
trap 'rm -rf "$work"' EXIT
checks=0

# same WHAT EXPECTED GOT
same() {
    checks=$((checks + 1))
    [ "$2" = "$3" ] && return
    printf 'tests/outline.sh: %s\n  expected: %s\n  got:      %s\n' "$1" "$2" "$3"
    exit 1
}

# same_files WHAT EXPECTED GOT
same_files() {
    checks=$((checks + 1))
    cmp "$2" "$3" && return
    echo "tests/outline.sh: $1"
    exit 1
}

for program in "$outline" "$compose" "$clean"; do
    [ -x "$program" ] || { echo "tests/outline.sh: $program is not built: tools/programs.sh"; exit 1; }
done
: > "$work/empty"

# ---- plans/: a text beside every plan, and the clean copy of the plan from it
for plan in plans/*.plan; do
    text="${plan%.plan}.outline"
    "$outline" < "$plan" > "$work/out" 2> "$work/err"
    same "status of the outline of $plan" 0 $?
    same_files "the outline of $plan" "$text" "$work/out"
    same_files "standard error of the outline of $plan" "$work/empty" "$work/err"
    "$clean" < "$plan" > "$work/copy"
    "$compose" < "$text" > "$work/out" 2> "$work/err"
    same "status of the plan of $text" 0 $?
    same_files "the plan of $text" "$work/copy" "$work/out"
    same_files "standard error of the plan of $text" "$work/empty" "$work/err"
done
for text in plans/*.outline; do
    same "a plan beside $text" yes "$([ -f "${text%.outline}.plan" ] && echo yes)"
done

# ---- the bytes of docs/FORMAT.md
printf 'allowance 0\nrun "Up"\n  step rank 1 "A"\n  step width 300 "Run"\n' | "$compose" | od -An -v -tx1 | tr -d '\n' > "$work/wide"
same "the wide form of docs/FORMAT.md" "$(sed -n '/55 70 41 52 75 6e ff ff 02 01/,/53 55/s/^    .. //p' docs/FORMAT.md | tr -d '\n')" "$(cat "$work/wide")"
od -An -v -tx1 plans/printed.plan | tr -d '\n' > "$work/old"
same "the old form of docs/FORMAT.md" "$(sed -n '/55 70 41 52 75 6e ff ff 02 04/,/53 54/s/^    .. //p' docs/FORMAT.md | tr -d '\n')" "$(cat "$work/old")"

# ---- what is refused of a plan file
head -c 15 plans/printed.plan > "$work/short.plan"
"$outline" < "$work/short.plan" > "$work/out" 2> "$work/err"
same "what the outline of a short plan is refused by" "refused 2 0" "$(cat "$work/err")"
same_files "the outline of a short plan" "$work/empty" "$work/out"

# ---- what is read besides
printf 'allowance 00\nrun width 04 depth 1 rank 0 "Up"\n  step under 0 "A"\n  step width 5 "Run"' | "$compose" > "$work/out" 2> "$work/err"
same_files "the printed example in other words" plans/printed.plan "$work/out"
same_files "standard error of the printed example in other words" "$work/empty" "$work/err"

# ---- every fault, with its line. faulty TEXT LINE
faulty() {
    printf "$1" | "$compose" > "$work/out" 2> "$work/err"
    same "standard error for $1" "$2" "$(cat "$work/err")"
    same_files "the plan of $1" "$work/empty" "$work/out"
}
blanks="$(printf '%249s' '')"
faulty '' 'line 1: the text is empty: begin with a line such as allowance 0'
faulty 'allowance 0\nrun\n\tstep\n' 'line 3: a tab or another byte that is not printable: use blanks, and letters, digits and signs of ASCII'
faulty 'allowance 0\r\nstep\r\n' 'line 1: a tab or another byte that is not printable: use blanks, and letters, digits and signs of ASCII'
faulty "allowance 0\nstep \"$blanks\"\n" 'line 2: more than 255 bytes: shorten the line'
faulty "allowance 0\nrun\n$(printf '  step\\n%.0s' {1..256})" 'line 258: more than 256 cells: leave out this line and those below it'
faulty 'run\n' 'line 1: the first line is not the allowance: write the word allowance, a blank and a number'
faulty 'allowance 3 4\n' 'line 1: the first line is not the allowance: write the word allowance, a blank and a number'
faulty 'allowance 0\nrun\n step\n' 'line 3: an odd number of blanks before the word: use two for each level'
faulty 'allowance 0\nrun\n  stop\n' 'line 3: the line does not begin with step, run, repeat, choice or wait: use one of them, and leave no line empty'
faulty 'allowance 0\nrun\n\n  step\n' 'line 3: the line does not begin with step, run, repeat, choice or wait: use one of them, and leave no line empty'
faulty 'allowance 0\nstep Fill\n' 'line 2: what follows the word is not understood: write width, depth, rank, under, a number each, in this order, then the label in quotes'
faulty 'allowance 0\nstep depth 2 width 9\n' 'line 2: what follows the word is not understood: write width, depth, rank, under, a number each, in this order, then the label in quotes'
faulty 'allowance 0\nstep rank 256\n' 'line 2: a number is too large: allowance and width go up to 65535, depth, rank and under up to 255'
faulty 'allowance 65536\n' 'line 1: a number is too large: allowance and width go up to 65535, depth, rank and under up to 255'
faulty 'allowance 0\nstep "Fill\n' 'line 2: the label has no quote at its end: end the line with one'
faulty 'allowance 0\nrun\n    step\n' "line 3: the line stands in no cell's place: put it two blanks right of the cell it is under, and only the first at the margin"
faulty 'allowance 0\nrun\nstep\n' "line 3: the line stands in no cell's place: put it two blanks right of the cell it is under, and only the first at the margin"
# a text that is longer than any outline
head -c 100000 /dev/zero | tr '\0' 'x' | "$compose" > "$work/out" 2> "$work/err"
same "standard error for a line of 100,000 bytes" 'line 1: more than 255 bytes: shorten the line' "$(cat "$work/err")"

# ---- what is understood and refused
faulty 'allowance 9\n' 'refused 4 0'
faulty 'allowance 0\nstep width 0\n' 'refused 8 0'
faulty 'allowance 0\nstep depth 16\n' 'refused 8 0'
faulty "allowance 0\nrun\n  step \"$(printf '%41s' '')\"\n" 'refused 9 1'
faulty 'allowance 0\nrun\n  step width 3 "ab"\n' 'refused 10 1'
faulty 'allowance 0\nrun\n' 'refused 11 0'

# ---- an output that cannot be written
"$outline" < plans/pond.plan > /dev/full 2> "$work/err"
same "standard error, an outline to a full device" "outline: the outline could not be written whole" "$(cat "$work/err")"
"$compose" < plans/pond.outline > /dev/full 2> "$work/err"
same "standard error, a plan to a full device" "compose: the plan could not be written whole" "$(cat "$work/err")"

# ---- a file by its name, whole or not at all
"$compose" "$work/made.plan" < plans/pond.outline > "$work/out" 2> "$work/err"
same_files "standard output of a plan written into a file" "$work/empty" "$work/out"
same_files "standard error of a plan written into a file" "$work/empty" "$work/err"
"$clean" < plans/pond.plan > "$work/copy"
same_files "a plan written into a file" "$work/copy" "$work/made.plan"
printf 'allowance 0\nstop\n' | "$compose" "$work/made.plan" 2> "$work/err"
same "standard error of a faulty text for a file" "line 2" "$(cut -d : -f 1 "$work/err")"
same_files "the file, of a faulty text" "$work/copy" "$work/made.plan"
"$compose" "$work" < plans/pond.outline 2> "$work/err"
same "standard error of a plan for a folder" "compose: OUT is no regular file, and is not replaced" "$(cat "$work/err")"
"$compose" "$work/none/made.plan" < plans/pond.outline 2> "$work/err"
same "standard error of a plan for a folder that is not there" "compose: the file could not be written" "$(cat "$work/err")"
"$compose" a b < plans/pond.outline 2> "$work/err"
same "standard error of two arguments" "compose: one argument, the file to write, or none" "$(cat "$work/err")"
same "nothing left over" "" "$(find "$work" -name '*.unfinished-*')"

# ---- the one command
same "kuzpalen outline" "$(cat plans/printed.outline)" "$(./kuzpalen outline plans/printed.plan)"
./kuzpalen plan plans/printed.outline "$work/by.plan"
same "status of kuzpalen plan" 0 $?
same_files "kuzpalen plan" plans/printed.plan "$work/by.plan"
printf 'allowance 0\nrun\n step\n' > "$work/odd.outline"
./kuzpalen plan "$work/odd.outline" "$work/by.plan" 2> "$work/err"
same "status of kuzpalen plan, a faulty text" 1 $?
same "what kuzpalen plan says of a faulty text" "kuzpalen: $work/odd.outline: line 3: an odd number of blanks before the word: use two for each level" "$(cat "$work/err")"
same_files "the file after a faulty text" plans/printed.plan "$work/by.plan"
printf 'allowance 0\nrun\n' | ./kuzpalen plan - "$work/by.plan" 2> "$work/err"
same "status of kuzpalen plan, a plan that is refused" 1 $?
same "what kuzpalen plan says of a plan that is refused" "kuzpalen: standard input: refused 11 0" "$(cat "$work/err")"
./kuzpalen plan plans/printed.outline "$work" 2> "$work/err"
same "status of kuzpalen plan, into a folder" 2 $?
./kuzpalen plan plans/nothing.outline "$work/by.plan" 2> "$work/err"
same "what kuzpalen plan says of a text that is not there" "kuzpalen: plans/nothing.outline: there is no such file" "$(cat "$work/err")"

tests/outline.py "$outline" "$compose" 1 300 || exit 1
echo "tests/outline.sh: $checks passed"

#!/usr/bin/env bash
# The program mark_program from outside: every outcome, every fault, the plans' own listings, files that cannot be read, a large sitting. Needs the programs in target/bin. The gate runs it after `rt ci`.
set -u
cd "$(dirname "$0")/.."
mark="$PWD/target/bin/mark_program"
work="$(mktemp -d)"
trap 'rm -rf "$work"' EXIT
checks=0

# same WHAT EXPECTED GOT
same() {
    checks=$((checks + 1))
    [ "$2" = "$3" ] && return
    printf 'tests/mark.sh: %s\n  expected: %s\n  got:      %s\n' "$1" "$2" "$3"
    exit 1
}

[ -x "$mark" ] || { echo "tests/mark.sh: $mark is not built: tools/programs.sh mark_program"; exit 1; }

# ---- a plan's own listing has full marks, with its width and rows; so has it with another origin, in another order and without its first line
for plan in plans/*.plan; do
    listing="${plan%.plan}.txt"
    set -- $(head -1 "$listing")
    same "the listing of $plan" "$listing full $4 $5" "$("$mark" "$plan" "$listing")"
    tail -n +2 "$listing" | tac | awk '{ print $1, $2 + 1234, $3 - 56 }' > "$work/moved"
    same "the listing of $plan, moved" "$work/moved full $4 $5" "$("$mark" "$plan" "$work/moved")"
done

# ---- every fault, of plan B, which has three cells
# told WHAT TEXT EXPECTED
told() {
    printf "$2" > "$work/d"
    same "$1" "d $3" "$(cd "$work" && "$mark" "$OLDPWD/plans/B.plan" d)"
}
told "the example" '0 0 0\n1 -4 2\n2 0 2\n' 'full 9 4'
told "carriage returns, tabs, blanks, remarks" '# by hand\r\n\r\n \t\r\n0\t0 0\r\n 1  -4 2 # left\r\n2 0 2' 'full 9 4'
told "wide" '0 0 0\n1 -5 2\n2 0 2\n' 'wide 10 9 4'
told "broken" '0 0 0\n1 -3 2\n2 0 2\n' 'broken S3 1 2'
told "broken S1" '0 0 0\n1 -4 3\n2 0 2\n' 'broken S1 1 1'
told "broken S2" '0 0 0\n1 -4 2\n2 1 2\n' 'broken S2 0 2'
told "question 15" '0 -200000 0\n1 200000 2\n2 0 2\n' 'refused 15 1'
told "two numbers" '0 0 0\n1 -4\n' 'line 2: not three numbers'
told "no number" '0 0 0\n1 -4 2x\n' 'line 2: not three numbers'
told "a minus sign alone" '0 0 -\n' 'line 1: not three numbers'
told "a cell below 0" '# x\n-1 0 0\n' 'line 2: not three numbers'
told "sheet in a later line" '0 0 0\nsheet 3 0 9 4\n' 'line 2: not three numbers'
told "no such cell" '0 0 0\n3 0 0\n' 'line 2: no such cell'
told "no such cell, a long number" '99999999999999999999999 0 0\n' 'line 1: no such cell'
told "twice" '0 0 0\n1 -4 2\n2 0 2\n1 -4 2\n' 'line 4: cell 1 is given twice'
told "out of bounds" '0 0 0\n1 262144 2\n' 'line 2: a number out of bounds'
told "out of bounds, below" '0 -262144 0\n' 'line 1: a number out of bounds'
told "at the bounds" '0 262143 -262143\n1 262139 -262141\n2 262143 -262141\n' 'full 9 4'
told "missing" '2 0 2\n0 0 0\n' 'cell 1 is missing'
told "an empty text" '' 'cell 0 is missing'
head -c 65537 /dev/zero | tr '\0' '#' > "$work/long"
same "a long text" "long more than 65536 bytes" "$(cd "$work" && "$mark" "$OLDPWD/plans/B.plan" long)"
head -c 65517 /dev/zero | tr '\0' '#' > "$work/most"
printf '\n0 0 0\n1 -4 2\n2 0 2' >> "$work/most"
same "bytes of the longest text" 65536 "$(($(wc -c < "$work/most") + 0))"
same "the longest text" "most full 9 4" "$(cd "$work" && "$mark" "$OLDPWD/plans/B.plan" most)"

# ---- a sitting, a plan that is refused, files that cannot be read
printf '0 0 0\n1 -5 2\n2 0 2\n' > "$work/w"
printf 'x\n' > "$work/x"
same "a sitting" "$(printf '%s\n' 'plans/B.txt full 9 4' "$work/w wide 10 9 4" "$work/x line 1: not three numbers" 'drawings 3 full 1 wide 1 broken 0 refused 0 unread 1')" "$("$mark" plans/B.plan plans/B.txt "$work/w" "$work/x")"
head -c 15 plans/B.plan > "$work/short.plan"
same "a plan that is refused" "$work/short.plan refused 2 0" "$("$mark" "$work/short.plan" plans/B.txt)"
out="$("$mark" plans/B.plan plans/B.txt "$work/none" 2> "$work/err")"
same "a drawing that is not there: the other's line, and no counts" 'plans/B.txt full 9 4' "$out"
grep -q none "$work/err" || { echo "tests/mark.sh: standard error does not name the file"; exit 1; }
same "a folder as a drawing" '' "$("$mark" plans/B.plan "$work" 2> "$work/err")"
grep -q "$work" "$work/err" || { echo "tests/mark.sh: standard error does not name the folder"; exit 1; }
same "a plan that is not there" '' "$("$mark" "$work/none" plans/B.txt 2> "$work/err")"
[ -s "$work/err" ] || { echo "tests/mark.sh: a plan that is not there is not told"; exit 1; }
same "no drawing" '' "$("$mark" plans/B.plan 2> "$work/err")"
[ -s "$work/err" ] || { echo "tests/mark.sh: no drawing is not told"; exit 1; }
if [ -e /dev/full ]; then
    "$mark" plans/B.plan plans/B.txt > /dev/full 2> "$work/err"
    grep -q 'could not be written whole' "$work/err" || { echo "tests/mark.sh: an output that is full is not told"; exit 1; }
    checks=$((checks + 1))
fi

# ---- two hundred drawings of a plan of 256 cells
drawings=()
for i in $(seq 200); do
    awk -v d="$i" 'NR > 1 { print $1, $2 + d, $3 }' plans/full.txt > "$work/full-$i"
    drawings+=("$work/full-$i")
done
start=$(date +%s%N)
"$mark" plans/full.plan "${drawings[@]}" > "$work/out"
end=$(date +%s%N)
same "two hundred drawings" 'drawings 200 full 200 wide 0 broken 0 refused 0 unread 0' "$(tail -1 "$work/out")"
echo "tests/mark.sh: $checks checks passed; 200 drawings of 256 cells in $(((end - start) / 1000000)) ms"

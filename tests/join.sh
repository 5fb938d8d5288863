#!/usr/bin/env bash
# The programs `join_program` and `frame_program` from outside: joined files against those of an independent joiner (tests/join.py), refusals with their lines, what is written and what is left behind;
# the least allowance of a frame against the listings of `sheet` at every allowance that can matter. Needs them and sheet in target/bin. The gate runs it after `rt ci`.
set -u
cd "$(dirname "$0")/.."
join="$PWD/target/bin/join_program"
frame="$PWD/target/bin/frame_program"
sheet="$PWD/target/bin/sheet"
work="$(mktemp -d)"
trap 'rm -rf "$work"' EXIT
checks=0

# same WHAT EXPECTED GOT
same() {
    checks=$((checks + 1))
    [ "$2" = "$3" ] && return
    printf 'tests/join.sh: %s\n  expected: %s\n  got:      %s\n' "$1" "$2" "$3"
    exit 1
}
for program in "$join" "$frame" "$sheet"; do
    [ -x "$program" ] || { echo "tests/join.sh: $program is not built: tools/programs.sh"; exit 1; }
done
: > "$work/empty"
cp plans/*.plan "$work"
cd "$work" || exit 1
joiner() { python3 "$OLDPWD/tests/join.py" "$@"; }

# a run `Rinse` over a step `Out`, its labels the other way round, allowance 9
printf 'OutRinse\377\377\2\7\1\5\3\0\0\0\1\5\1\3\0\0\10\0\2\0\11\0\123\124' > rinse.plan
# the same with a rank, and a width of 300: the wide form; a lone run, which has no child; a step
printf 'OutRinse\377\377\2\1\54\1\5\2\3\0\0\0\1\1\5\0\3\0\0\0\10\0\2\0\11\0\123\125' > ranked_rinse.plan
printf '\377\377\2\4\1\0\0\0\0\0\1\0\0\0\123\124' > bare.plan
head -c 15 printed.plan > short.plan
{ head -c 6 printed.plan; printf '\377\377\6'; tail -c 29 printed.plan; } > kind.plan
{ head -c 16 printed.plan; printf '\11'; tail -c 21 printed.plan; } > child.plan

# joins FIRST CELL SECOND: the joined file is the other joiner's, nothing is printed, and nothing else stands in the folder
joins() {
    joiner "$1" "$2" "$3" expected
    mkdir there
    for before in absent there; do
        [ "$before" = absent ] || printf 'what stood here' > there/out
        "$join" "$1" "$2" "$3" there/out > out 2> err
        same "status, $3 under cell $2 of $1" 0 $?
        same "output, $3 under cell $2 of $1" "" "$(cat out err)"
        cmp -s expected there/out
        same "the file, $3 under cell $2 of $1, $before" 0 $?
        same "the folder, $3 under cell $2 of $1" "out" "$(ls -A there)"
    done
    "$sheet" < there/out > out
    same "the listing is a sheet, $3 under cell $2 of $1" sheet "$(head -c 5 out)"
    rm -r there
}
# refuses LINE FIRST CELL SECOND: the line, and the file absent, or as it was
refuses() {
    mkdir there
    for before in absent there; do
        [ "$before" = absent ] || printf 'what stood here' > there/out
        "$join" "$2" "$3" "$4" there/out > out 2> err
        same "output, $4 under cell $3 of $2" "$1" "$(cat out)"
        same "standard error, $4 under cell $3 of $2" "" "$(cat err)"
        [ "$before" = absent ] && same "the folder, $4 under cell $3 of $2" "" "$(ls -A there)"
        [ "$before" = there ] && same "the file, $4 under cell $3 of $2" "what stood here" "$(cat there/out)"
    done
    rm -r there
}
# troubled LINE ARGUMENTS: one line on standard error, nothing else, and no file
troubled() {
    local line="$1"
    shift
    "$join" "$@" > out 2> err
    same "standard error, join $*" "$line" "$(cat err)"
    same "standard output, join $*" "" "$(cat out)"
}

# ---- joined files
for second in rinse ranked_rinse A printed bilingual ranked; do
    joins printed.plan 0 $second.plan
done
joins pond.plan 0 rinse.plan
joins ranked.plan 0 ranked_rinse.plan
joins rinse.plan 0 printed.plan
# cell by cell: every cell of every small plan that may have one more child
for plan in B C D E-3 F-3 N O P bilingual ranked; do
    cells=$("$sheet" < $plan.plan | head -n 1 | cut -d ' ' -f 2)
    for cell in $(seq 0 $((cells - 1))); do
        "$join" $plan.plan $cell rinse.plan try > out 2> err
        if [ -s out ]; then
            same "the refusal under cell $cell of $plan" "refused 11 $cell" "$(cat out)"
            [ ! -e try ]
            same "no file under cell $cell of $plan" 0 $?
        else
            rm try
            joins $plan.plan $cell rinse.plan
        fi
    done
done
# labels: the listing of the joined plan has those of both, in order
joins printed.plan 0 rinse.plan
"$join" printed.plan 0 rinse.plan both.plan
same "labels of the printed example and the rinse" "Up A Run Rinse Out " "$("$sheet" < both.plan | tail -n +2 | cut -d ' ' -f 6 | tr '\n' ' ')"
same "the first plan's allowance" "0" "$("$sheet" < both.plan | head -n 1 | cut -d ' ' -f 3)"
# a plan joined to itself, over itself
cp printed.plan self.plan
joiner self.plan 0 self.plan expected
"$join" self.plan 0 self.plan self.plan > out 2> err
same "output, a plan over itself" "" "$(cat out err)"
cmp -s expected self.plan
same "a plan over itself" 0 $?

# ---- refusals, and whose they are
refuses "first refused 2 0" short.plan 0 rinse.plan
refuses "first refused 7 0" kind.plan 0 rinse.plan
refuses "first refused 7 1" child.plan 0 short.plan
refuses "first refused 2 0" empty 0 rinse.plan
refuses "second refused 2 0" printed.plan 0 short.plan
refuses "second refused 7 1" printed.plan 9 child.plan
refuses "refused 16 0" printed.plan 3 rinse.plan
refuses "refused 16 0" printed.plan 4294967295 rinse.plan
refuses "refused 11 1" printed.plan 1 rinse.plan
refuses "second refused 11 0" printed.plan 0 bare.plan
refuses "refused 4 0" full.plan 0 rinse.plan
# 31 runs in a chain and a step under the last; 15 of depth 15; a run and a step of depth 15: levels and rows of the joined plan, by its numbers
python3 - <<'END'
import struct
def chain(name, runs, depth):
    cells = [(65535 if c == 0 else c - 1, 2 if c < runs else 1) for c in range(runs + 1)]
    records = b''.join(struct.pack('<HBBBBH', parent, kind, 2, depth, 0, 0) for parent, kind in cells)
    open(name, 'wb').write(records + struct.pack('<4H', 0, runs + 1, 0, 0x5453))
chain('deep.plan', 31, 1)
chain('tall.plan', 15, 15)
chain('high.plan', 1, 15)
END
refuses "refused 12 33" deep.plan 30 rinse.plan
joins deep.plan 29 rinse.plan
refuses "refused 13 17" tall.plan 14 high.plan
joins tall.plan 13 high.plan

# ---- trouble
troubled "join: four arguments: the first plan's file, a cell of it, the second plan's file, the file to write"
troubled "join: four arguments: the first plan's file, a cell of it, the second plan's file, the file to write" printed.plan 0 rinse.plan
for cell in x -1 "" 1.5 4294967296; do
    troubled "join: the cell is a number" printed.plan "$cell" rinse.plan new
done
troubled "join: the first plan's file cannot be read" nowhere.plan 0 rinse.plan new
troubled "join: the first plan's file cannot be read" . 0 rinse.plan new
troubled "join: the second plan's file cannot be read" printed.plan 0 nowhere.plan new
troubled "join: the file could not be written" printed.plan 0 rinse.plan nowhere/new
troubled "join: no file can have that name" printed.plan 0 rinse.plan ""
[ ! -e new ]
same "no file after trouble" 0 $?

# ---- frames: the least allowance whose sheet is no wider than the frame, by trying them all
# widths PLAN: width and rows of the sheet at each allowance from 0 to 40, and at 65,535, a line each
widths() {
    python3 - "$1" > allowances <<'END'
import struct
import sys
data = open(sys.argv[1], 'rb').read()
for n in [*range(41), 65535]:
    open(f'at-{n}', 'wb').write(data[:-4] + struct.pack('<H', n) + data[-2:])
    print(n)
END
    while read -r n; do
        "$sheet" < "at-$n" | head -n 1 | { read -r _ _ a w h; echo "$a $w $h"; }
    done < allowances
}
for plan in A B C D E-0 F-3 N O P Q-200 pond printed bilingual ranked; do
    widths $plan.plan > table
    most=$(head -n 1 table | cut -d ' ' -f 2)
    least=$(tail -n 1 table | cut -d ' ' -f 2)
    [ "$(tail -n 2 table | head -n 1 | cut -d ' ' -f 2)" = "$least" ] || continue     # an allowance above 40 matters here
    for squares in 1 $((least - 1)) $least $((least + 1)) $(((least + most) / 2)) $((most - 1)) $most $((most + 1)) 4294967295; do
        [ "$squares" -ge 1 ] || continue
        expected=$(awk -v f="$squares" '$2 <= f { print "allowance " $1 " width " $2 " rows " $3; found = 1; exit } END { if (!found) print "none width " $2 " rows " $3 }' table)
        "$frame" "$squares" < $plan.plan > out 2> err
        same "$plan in $squares squares" "$expected" "$(cat out)"
        same "lines, $plan in $squares squares" 1 "$(wc -l < out)"
        same "standard error, $plan in $squares squares" "" "$(cat err)"
    done
done
same "F in 25 squares" "allowance 3 width 25 rows 10" "$("$frame" 25 < F-0.plan)"
same "a frame of 0" "refused 19 0" "$("$frame" 0 < printed.plan)"
same "a frame of 0 and a file that Read refuses" "refused 2 0" "$("$frame" 0 < short.plan)"
same "a kind that is unknown" "refused 7 1" "$("$frame" 20 < child.plan)"
same "an empty file" "refused 2 0" "$("$frame" 20 < empty)"
for squares in x -1 "" 1.5 4294967296 "3 "; do
    "$frame" "$squares" < printed.plan > out 2> err
    same "standard error, a frame of '$squares'" "frame: the frame is a number of squares" "$(cat err)"
    same "standard output, a frame of '$squares'" "" "$(cat out)"
done
"$frame" < printed.plan 2> err
same "standard error, no frame" "frame: the frame is a number of squares" "$(cat err)"
"$frame" 9 < . > out 2> err
same "standard error, a folder for the plan" "frame: the plan cannot be read" "$(cat err)"
"$frame" 9 < printed.plan > /dev/full 2> err
same "standard error, a full device" "frame: the line could not be written whole" "$(cat err)"
echo "tests/join.sh: $checks checks"

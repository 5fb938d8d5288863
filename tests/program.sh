#!/usr/bin/env bash
# The programs from outside: what they print, and where; and what they do when the output cannot be written. Needs the programs in target/bin. The gate runs it after `rt ci`.
set -u
cd "$(dirname "$0")/.."
sheet=target/bin/sheet
drill=target/bin/drill
line="sheet: the listing could not be written whole"
work="$(mktemp -d)"
trap 'rm -rf "$work"' EXIT
checks=0

# same WHAT EXPECTED GOT
same() {
    checks=$((checks + 1))
    [ "$2" = "$3" ] && return
    printf 'tests/program.sh: %s\n  expected: %s\n  got:      %s\n' "$1" "$2" "$3"
    exit 1
}

# same_files WHAT EXPECTED GOT
same_files() {
    checks=$((checks + 1))
    cmp "$2" "$3" && return
    echo "tests/program.sh: $1"
    exit 1
}

clean=target/bin/clean
for program in "$sheet" "$clean"; do
    [ -x "$program" ] || { echo "tests/program.sh: $program is not built: tools/programs.sh"; exit 1; }
done
[ -x "$drill" ] || { echo "tests/program.sh: $drill is not built: tools/programs.sh drill"; exit 1; }

# ---- the program
: > "$work/empty"
for plan in plans/*.plan; do
    "$sheet" < "$plan" > "$work/out" 2> "$work/err"
    same "status for $plan" 0 $?
    same_files "the listing of $plan" "${plan%.plan}.txt" "$work/out"
    same_files "standard error for $plan" "$work/empty" "$work/err"
done

head -c 15 plans/printed.plan > "$work/short.plan"     # question 2
printf 'x%s' "$(printf 'y%.0s' {1..16400})" > "$work/long.plan"
{ head -c 6 plans/printed.plan; printf '\377\377\6'; tail -c 29 plans/printed.plan; } > "$work/kind.plan"     # cell 0's kind
{ head -c 16 plans/printed.plan; printf '\11'; tail -c 21 plans/printed.plan; } > "$work/child.plan"     # cell 1's kind
for case in "short 2 0" "long 2 0" "kind 7 0" "child 7 1"; do
    set -- $case
    "$sheet" < "$work/$1.plan" > "$work/out" 2> "$work/err"
    same "status for the plan $1" 0 $?
    same "the listing of the plan $1" "refused $2 $3" "$(cat "$work/out")"
    same_files "standard error for the plan $1" "$work/empty" "$work/err"
done

# ---- the form for wider boxes: the printed example in it has the same listing, and its own refusals
# wide ROOT SECOND MARK: the file, with bytes 4 to 7 of the root's record (W, label length, rank), byte 7 of cell 1's, and the mark's last byte
wide() {
    printf 'UpARun\377\377\2\1%b\0\0\0\0\1\1\3\0\1%b\2\0\0\0\1\1\5\0\3\0\3\0\6\0\3\0\0\0\123%b' "$1" "$2" "$3"
}
wide '\4\0\2\0' '\0' '\125' > "$work/wide.plan"
"$sheet" < "$work/wide.plan" > "$work/out" 2> "$work/err"
same_files "the listing of the printed example in the wide form" plans/printed.txt "$work/out"
wide '\377\3\2\0' '\0' '\125' > "$work/widest.plan"
same "the listing with a root of 1,023" "sheet 3 0 1027 4
0 0 0 1023 1 Up
1 -4 2 3 1 A
2 0 2 5 1 Run" "$("$sheet" < "$work/widest.plan")"
wide '\4\0\2\3' '\377' '\125' > "$work/ranked.plan"     # cell 1 behind cell 2; the root's rank has no effect
same "the listing with cell 1 behind cell 2" "sheet 3 0 10 4
0 0 0 4 1 Up
1 0 2 3 1 A
2 -6 2 5 1 Run" "$("$sheet" < "$work/ranked.plan")"
wide '\0\4\2\0' '\0' '\125' > "$work/wider.plan"     # W 1,024
wide '\4\0\2\0' '\0' '\124' > "$work/old-mark.plan"
wide '\4\0\2\0' '\0' '\126' > "$work/no-mark.plan"
{ head -c 37 plans/printed.plan; printf '\125'; } > "$work/new-mark.plan"     # the old records under the new mark
for case in "wider 8 0" "old-mark 4 0" "no-mark 3 0" "new-mark 4 0"; do
    set -- $case
    same "the listing of the plan $1" "refused $2 $3" "$("$sheet" < "$work/$1.plan")"
done

# ---- the clean copy
# cleans PLAN COPY: the copy of PLAN is COPY, and so is the copy of COPY
cleans() {
    for file in "$1" "$2"; do
        "$clean" < "$file" > "$work/out" 2> "$work/err"
        same_files "the clean copy of $file" "$2" "$work/out"
        same_files "standard error of the clean copy of $file" "$work/empty" "$work/err"
    done
}
cleans plans/printed.plan plans/printed.plan     # the 38 bytes of document 01
for plan in plans/*.plan; do
    "$clean" < "$plan" > "$work/copy"
    cleans "$plan" "$work/copy"
    "$sheet" < "$work/copy" > "$work/out"
    same_files "the listing of the clean copy of $plan" "${plan%.plan}.txt" "$work/out"
done
# Up, A and Run with a byte that nobody uses, and A out of order: the same content, in either form
printf 'RunUpAx\377\377\2\4\1\2\3\0\0\0\1\3\1\1\5\0\0\0\1\5\1\3\0\0\7\0\3\0\0\0\123\124' > "$work/untidy.plan"
cleans "$work/untidy.plan" plans/printed.plan
cleans "$work/wide.plan" plans/printed.plan     # every width fits the old form
cleans "$work/widest.plan" "$work/widest.plan"
cleans "$work/ranked.plan" "$work/ranked.plan"
# a run over three steps whose labels are shared: b of cell 1 and 2; cell 3's, the last, is empty
printf 'ab\377\377\2\4\1\2\0\0\0\0\1\3\1\1\1\0\0\0\1\3\1\1\1\0\0\0\1\3\1\0\0\0\2\0\4\0\7\0\123\124' > "$work/shared.plan"
printf 'abbb\377\377\2\4\1\2\0\0\0\0\1\3\1\1\2\0\0\0\1\3\1\1\3\0\0\0\1\3\1\0\4\0\4\0\4\0\7\0\123\124' > "$work/unshared.plan"
cleans "$work/shared.plan" "$work/unshared.plan"
for case in "short 2 0" "long 2 0" "kind 7 0" "child 7 1" "wider 8 0" "old-mark 4 0" "no-mark 3 0"; do
    set -- $case
    "$clean" < "$work/$1.plan" > "$work/out" 2> "$work/err"
    same "what the clean copy of the plan $1 is refused by" "refused $2 $3" "$(cat "$work/err")"
    same_files "the clean copy of the plan $1" "$work/empty" "$work/out"
done
for plan in plans/full.plan plans/A.plan; do
    "$clean" < "$plan" > /dev/full 2> "$work/err"
    same "standard error, the clean copy of $plan to a full device" "clean: the copy could not be written whole" "$(cat "$work/err")"
    "$clean" < "$plan" >&- 2> "$work/err"
    same "standard error, the clean copy of $plan to a closed output" "clean: the copy could not be written whole" "$(cat "$work/err")"
done

# ---- an output that cannot be written: one line on standard error, and nothing else
one_line() {
    same "standard error, $1" "$line" "$(cat "$work/err")"
    same "lines on standard error, $1" 1 "$(wc -l < "$work/err")"
}
for plan in plans/full.plan plans/A.plan "$work/short.plan"; do
    "$sheet" < "$plan" > /dev/full 2> "$work/err"
    one_line "$plan to a full device"
    "$sheet" < "$plan" >&- 2> "$work/err"
    one_line "$plan to a closed output"
    # A pipe that nobody reads any more; the signal for it is ignored, so that the write fails.
    rm -f "$work/pipe"
    mkfifo "$work/pipe"
    (trap '' PIPE; exec 3<> "$work/pipe" 4> "$work/pipe" 3>&-; exec "$sheet" < "$plan" >&4 2> "$work/err")
    one_line "$plan to a pipe that is closed"
done

# ---- an input that cannot be read is trouble, never a refusal, and never taken for a shorter one: a folder, a closed one, one that fails behind a whole plan
for program in sheet clean plot strip turns; do
    target/bin/$program < "$work" > "$work/out" 2> "$work/err"
    same "standard error of $program, a folder" "$program: the plan cannot be read" "$(cat "$work/err")"
    same_files "output of $program, a folder" "$work/empty" "$work/out"
    target/bin/$program <&- > "$work/out" 2> "$work/err"
    same "standard error of $program, a closed input" "$program: the plan cannot be read" "$(cat "$work/err")"
    same_files "output of $program, a closed input" "$work/empty" "$work/out"
    tests/cut_input.py plans/printed.plan target/bin/$program > "$work/out" 2> "$work/err"
    same "standard error of $program, an input that fails" "$program: the plan cannot be read" "$(cat "$work/err")"
    same_files "output of $program, an input that fails" "$work/empty" "$work/out"
done
tests/cut_input.py plans/printed.plan target/bin/mend "$work/mended" > "$work/out" 2> "$work/err"
same "standard error of mend, an input that fails" "mend: the plan cannot be read" "$(cat "$work/err")"
same_files "output of mend, an input that fails" "$work/empty" "$work/out"
same "what mend writes of an input that fails" "absent" "$([ -e "$work/mended" ] && echo there || echo absent)"
printf '\0\1\1' > "$work/answers"
tests/cut_input.py "$work/answers" "$drill" plans/pond.plan > "$work/out" 2> "$work/err"
same "standard error of drill, answers that fail" "drill: the answers cannot be read" "$(cat "$work/err")"
same_files "output of drill, answers that fail" "$work/empty" "$work/out"
"$drill" plans/pond.plan <&- > "$work/out" 2> "$work/err"
same "standard error of drill, closed answers" "drill: the answers cannot be read" "$(cat "$work/err")"
same_files "output of drill, closed answers" "$work/empty" "$work/out"

# ---- one write for the whole listing
if strace -o "$work/trace" true 2> "$work/err"; then
    for plan in plans/full.plan plans/A.plan "$work/short.plan"; do
        strace -o "$work/trace" -e trace=write,writev,pwrite64,sendto "$sheet" < "$plan" > "$work/out"
        same "writes of the listing of $plan" 1 "$(grep -c '^[a-z0-9]*(' "$work/trace")"
        same "what is written of $plan" "$(wc -c < "$work/out")" "$(sed -n 's/^write(1,.* = //p' "$work/trace")"
    done
else
    echo "tests/program.sh: strace is not installed, or may not trace: how often the program writes is not looked at"
fi

# ---- the program plot: a drawing in SVG, or the line of a refusal
plot=target/bin/plot
[ -x "$plot" ] || { echo "tests/program.sh: $plot is not built: tools/programs.sh plot"; exit 1; }
"$plot" < plans/pond.plan > "$work/out" 2> "$work/err"
same "status of plot" 0 $?
same_files "the drawing of plans/pond.plan" docs/pond.svg "$work/out"
same_files "standard error of plot" "$work/empty" "$work/err"
"$plot" 2 10 0.5 < plans/B.plan > "$work/out"
same "the drawing of sheet B" '<svg xmlns="http://www.w3.org/2000/svg" width="38.000mm" height="9.000mm" viewBox="0 0 38.000 9.000">
<rect width="100%" height="100%" fill="white"/>
<g fill="none" stroke="black" stroke-width="0.35" stroke-linejoin="round">
<path d="M18.000 0.500L26.000 0.500L26.000 2.500L18.000 2.500L18.000 0.500"/>
<path d="M10.000 4.500L16.000 4.500L16.000 6.500L10.000 6.500L10.000 4.500"/>
<path d="M18.000 4.500L28.000 4.500L28.000 6.500L18.000 6.500L18.000 4.500"/>
<path d="M22.000 2.500L14.000 4.500"/>
<path d="M22.000 2.500L22.000 4.500"/>
</g>
<g font-family="monospace" font-size="2.000"><g font-size="70%">
</g></g>
</svg>' "$(cat "$work/out")"
# drawn WHAT ARGUMENTS NUMBERS: the drawing of sheet A, one box of W 5 and D 1 in two rows: its left and right edge and the page's width, then the same downwards
drawn() {
    set -- "$1" "$2" $3
    same "the drawing of sheet A, $1" "<svg xmlns=\"http://www.w3.org/2000/svg\" width=\"$5mm\" height=\"$8mm\" viewBox=\"0 0 $5 $8\">
<rect width=\"100%\" height=\"100%\" fill=\"white\"/>
<g fill=\"none\" stroke=\"black\" stroke-width=\"0.35\" stroke-linejoin=\"round\">
<path d=\"M$3 $6L$4 $6L$4 $7L$3 $7L$3 $6\"/>" "$("$plot" $2 < plans/A.plan | head -n 4)"
}
drawn "without arguments" "" "10.000 30.000 40.000 10.000 14.000 28.000"
drawn "one digit after the point" "1.5" "10.000 17.500 27.500 10.000 11.500 23.000"
drawn "two digits after the point" "1.25" "10.000 16.250 26.250 10.000 11.250 22.500"
drawn "three digits after the point" "1.125" "10.000 15.625 25.625 10.000 11.125 22.250"
drawn "two arguments" "4 100" "100.000 120.000 220.000 10.000 14.000 28.000"
drawn "three arguments" "4 0.25 99.125" "0.250 20.250 20.500 99.125 103.125 206.250"
for plan in plans/*.plan; do
    "$plot" 0.7 0.3 0.1 < "$plan" > "$work/out"
    n=$("$sheet" < "$plan" | tail -n +2 | wc -l)
    same "boxes and connectors of $plan" "$((2 * n - 1))" "$(grep -c '^<path d="M[0-9. L]*"/>$' "$work/out")"
    same "lines of boxes and connectors of $plan" "$((5 * n - 1))" "$(grep '^<path' "$work/out" | tr -cd L | wc -c)"
    same "labels of $plan" "$("$sheet" < "$plan" | tail -n +2 | cut -d ' ' -f 6- | grep -c .)" "$(grep -c '^<text ' "$work/out")"
done
{ printf 'a<b&c>'; head -c 38 plans/printed.plan | tail -c 32; } > "$work/marked.plan"
same "labels with marks" '>a&lt;</text> >b</text> >&amp;c&gt;</text>' "$("$plot" < "$work/marked.plan" | sed -n 's/^<text .*">/>/p' | tr '\n' ' ' | sed 's/ $//')"
for case in "short 2 0" "long 2 0" "kind 7 0" "child 7 1"; do
    set -- $case
    same "the drawing of the plan $1" "refused $2 $3" "$("$plot" < "$work/$1.plan")"
done
for page in 0.249 16.001 0 "4 100.001" "4 0 100.001" 12345678901234567 100000000.125 "4 4294967296" "4 0 18446744073709551616"; do
    same "the drawing on the page $page" "refused 17 0" "$("$plot" $page < plans/A.plan)"
done
for page in 0.25 16 16.000 "4 100" "4 0 100.000" .5 4. 0000000000000000000004.5; do
    same "the drawing on the page $page" "<svg" "$("$plot" $page < plans/A.plan | head -c 4)"
done
for page in x -1 . "4 ." "4 0 ." 1.2.3 0.2500 1e1 "" 12345678901234567x "4 a" "4 0 b" "4 0 0 0"; do
    if [ -n "$page" ]; then "$plot" $page < plans/A.plan > "$work/out" 2> "$work/err"; else "$plot" "" < plans/A.plan > "$work/out" 2> "$work/err"; fi
    same_files "output of plot with the arguments '$page'" "$work/empty" "$work/out"
    same "lines on standard error of plot with the arguments '$page'" 1 "$(wc -l < "$work/err")"
done
"$plot" < plans/full.plan > /dev/full 2> "$work/err"
same "standard error of plot to a full device" "plot: the drawing could not be written whole" "$(cat "$work/err")"
if strace -o "$work/trace" true 2> "$work/err"; then
    strace -o "$work/trace" -e trace=write,writev,pwrite64,sendto "$plot" < plans/full.plan > "$work/out"
    same "writes of a drawing" 1 "$(grep -c '^[a-z0-9]*(' "$work/trace")"
fi

# ---- the program turns: a line before each turn of the walk, as tests/turns.py works them out from the file
turns=target/bin/turns
[ -x "$turns" ] || { echo "tests/program.sh: $turns is not built: tools/programs.sh turns"; exit 1; }
# 32 cells, each the one child of the one before it: the last is 31 levels below the root
{
    printf '\377\377\2\4\1\0\0\0'
    for c in {0..30}; do
        [ "$c" -lt 30 ] && kind=2 || kind=1
        printf "\\$(printf '%o' "$c")\\0\\$kind\\4\\1\\0\\0\\0"
    done
    printf '\0\0\40\0\0\0\123\124'
} > "$work/chain.plan"
same "the listing of the chain of 32" "sheet 32 0 4 64" "$("$sheet" < "$work/chain.plan" | head -n 1)"
for plan in plans/*.plan "$work/chain.plan"; do
    "$turns" < "$plan" > "$work/out" 2> "$work/err"
    same "status of turns for $plan" 0 $?
    tests/turns.py "$plan" > "$work/turns"
    same_files "the turns of $plan" "$work/turns" "$work/out"
    same_files "standard error of turns for $plan" "$work/empty" "$work/err"
done
for case in "short 2 0" "long 2 0" "kind 7 0" "child 7 1" "wider 8 0" "no-mark 3 0"; do
    set -- $case
    same "what turns prints of the plan $1" "refused $2 $3" "$("$turns" < "$work/$1.plan")"
done
line="turns: the turns could not be written whole"
for plan in plans/full.plan plans/A.plan "$work/short.plan"; do
    "$turns" < "$plan" > /dev/full 2> "$work/err"
    one_line "the turns of $plan to a full device"
    "$turns" < "$plan" >&- 2> "$work/err"
    one_line "the turns of $plan to a closed output"
done

# ---- the program `strip`: its points are those of the boxes that `sheet` lists and that `plot` draws
strip=target/bin/strip
[ -x "$strip" ] || { echo "tests/program.sh: $strip is not built: tools/programs.sh strip"; exit 1; }
for plan in plans/*.plan; do
    "$strip" < "$plan" > "$work/out" 2> "$work/err"
    same "status of strip for $plan" 0 $?
    same_files "standard error of strip for $plan" "$work/empty" "$work/err"
    read -r _ _ _ width rows < "${plan%.plan}.txt"
    same "the first line of the bitmap of $plan" "P4 $((width + 1)) $rows" "$(head -n 1 "$work/out")"
    same "the length of the bitmap of $plan" $(($(head -n 1 "$work/out" | wc -c) + (width / 8 + 1) * rows)) "$(wc -c < "$work/out")"
    tests/points.py bitmap "$work/out" > "$work/points"
    tests/points.py listing "${plan%.plan}.txt" > "$work/listed"
    same_files "the points of the bitmap of $plan" "$work/listed" "$work/points"
    "$plot" 1 0 0 < "$plan" > "$work/drawing"
    tests/points.py drawing "$work/drawing" > "$work/drawn"
    same_files "the points of the bitmap of $plan, and the boxes that are drawn" "$work/drawn" "$work/points"
done
for case in "short 2 0" "long 2 0" "kind 7 0" "child 7 1" "wider 8 0" "no-mark 3 0"; do
    set -- $case
    same "what strip prints of the plan $1" "refused $2 $3" "$("$strip" < "$work/$1.plan")"
done
line="strip: the bitmap could not be written whole"
for plan in plans/full.plan plans/widest.plan "$work/short.plan"; do
    "$strip" < "$plan" > /dev/full 2> "$work/err"
    one_line "the bitmap of $plan to a full device"
    "$strip" < "$plan" >&- 2> "$work/err"
    one_line "the bitmap of $plan to a closed output"
done
# It stops at the first row that cannot be written.
(trap '' PIPE; "$strip" < plans/widest.plan 2> "$work/err" | head -c 40000 > "$work/out")
one_line "the bitmap of plans/widest.plan to a reader that stops"

# ---- the program drill: the steps with their labels, a line each, then the outcome, bytes used and records
# drilled WHAT PLAN ANSWERS EXPECTED: the answers as printf writes them
drilled() {
    printf "$3" | "$drill" "$2" > "$work/out" 2> "$work/err"
    same "$1" "$4" "$(cat "$work/out")"
    same_files "standard error, $1" "$work/empty" "$work/err"
}
drilled "a run of two steps" plans/printed.plan '' "1 A
2 Run
finished 0 2"
drilled "the pond until its brine" plans/pond.plan '\0\1\1' "4 Measure the level
10 Close both gates
spent 3 2"
drilled "a branch that is none" plans/pond.plan '\1\0\3\0' "3 Open sea gate 1
4 Measure the level
wrong 3 2"
drilled "a wait's byte above 1" plans/pond.plan '\2' "wrong 1 0"
# by rank the rain goes first, and of the crusts the grey one
drilled "the pond by rank" plans/ranked.plan '\0\0\0\0\0\1\0\0\0' "38 Cover the store
40 Full: open the overflow
4 Measure the level
13 Close valve V1
26 Open the pan's sluice
33 Drain the bitterns
34 Rinse with brine
finished 9 7"
drilled "a plan that Read refuses" "$work/kind.plan" '\0' "refused 7 0"
head -c 4096 /dev/zero > "$work/most"
head -c 4097 /dev/zero > "$work/more"
same "4,096 answers" "finished 0 2" "$("$drill" plans/printed.plan < "$work/most" | tail -n 1)"
same "4,097 answers" "refused 21 0" "$("$drill" plans/printed.plan < "$work/more")"
# trouble WHAT LINE PLAN...: one line on standard error, and nothing printed
trouble() {
    what=$1
    line=$2
    shift 2
    "$drill" "$@" < "$work/empty" > "$work/out" 2> "$work/err"
    same "standard error, $what" "$line" "$(cat "$work/err")"
    same_files "output, $what" "$work/empty" "$work/out"
}
trouble "no argument" "drill: it takes one argument, the plan's file; the answers are on standard input"
trouble "two arguments" "drill: it takes one argument, the plan's file; the answers are on standard input" plans/A.plan plans/B.plan
trouble "no such plan" "drill: the plan's file cannot be opened" "$work/none.plan"
trouble "a folder" "drill: the plan's file cannot be read" "$work"
same "an empty plan" "refused 2 0" "$("$drill" "$work/empty" < "$work/empty")"
"$drill" plans/printed.plan < "$work" > "$work/out" 2> "$work/err"
same "standard error, answers that cannot be read" "drill: the answers cannot be read" "$(cat "$work/err")"
same_files "standard output, answers that cannot be read" "$work/empty" "$work/out"
"$drill" plans/printed.plan < "$work/empty" > /dev/full 2> "$work/err"
same "standard error, a drill to a full device" "drill: the transcript could not be written whole" "$(cat "$work/err")"

# ---- folder: the report of the plans that its arguments name, worked out here from the first lines of their listings
folder=target/bin/folder
[ -x "$folder" ] || { echo "tests/program.sh: $folder is not built: tools/programs.sh folder"; exit 1; }
# summed LISTING...: the report of the sheets whose first lines these are
summed() {
    head -qn 1 "$@" | awk '{ n++; c += $2; w += $4; a += $4 * $5; if (n == 1 || $4 < l) l = $4; if ($4 > g) g = $4 }
        END { printf "plans %d\ncells %d\nwidths %d\nareas %d\nleast %d\ngreatest %d\nmean %d\nrest %d\n", n, c, w, a, l, g, n ? int(w / n) : 0, n ? w % n : 0 }'
}
# reported WANTED FILE...: what folder prints, and that it says nothing on standard error
reported() {
    wanted=$1
    shift
    "$folder" "$@" > "$work/out" 2> "$work/err"
    same "status of folder, $# files" 0 $?
    same_files "the report of $# files" "$wanted" "$work/out"
    same_files "standard error of folder, $# files" "$work/empty" "$work/err"
}
summed plans/*.txt > "$work/season"
reported "$work/season" plans/*.plan
reported "$work/season" $(printf '%s\n' plans/*.plan | sort -r)
summed /dev/null > "$work/nobody"
reported "$work/nobody"
{ echo "$work/short.plan refused 2 0"; echo "$work/child.plan refused 7 1"; summed plans/A.txt plans/B.txt; } > "$work/some"
reported "$work/some" plans/A.plan "$work/short.plan" plans/B.plan "$work/child.plan"
{ echo "$work/long.plan refused 2 0"; cat "$work/nobody"; } > "$work/none"
reported "$work/none" "$work/long.plan"
# 1,024 plans, and one more
many=$(for i in {1..1024}; do echo plans/B.plan; done)
summed $(for i in {1..1024}; do echo plans/B.txt; done) > "$work/season"
reported "$work/season" $many
# how far it is, only where that is a terminal
tests/on_terminal.py "$work/out" "$folder" $many > "$work/err"
same_files "the report of 1,024 files, beside a terminal" "$work/season" "$work/out"
same "lines on a terminal for 1,024 files" 10 "$(wc -l < "$work/err")"
same "the last of them" "folder: 1000 of 1024 files" "$(tail -n 1 "$work/err")"
"$folder" $many plans/A.plan "$work/short.plan" > "$work/out" 2> "$work/err"
same "what is printed of 1,025 plans" "$work/short.plan refused 2 0
refused 4 0" "$(cat "$work/out")"
# trouble: a file that is not there, a directory, a full device
for name in "$work/none.plan" "$work"; do
    "$folder" plans/A.plan "$name" "$work/short.plan" > "$work/out" 2> "$work/err"
    same "what is printed beside $name" "$work/short.plan refused 2 0" "$(cat "$work/out")"
    same "lines on standard error for $name" 1 "$(wc -l < "$work/err")"
done
"$folder" plans/A.plan > /dev/full 2> "$work/err"
same "what folder says of a full device" "folder: the report could not be written whole" "$(cat "$work/err")"

echo "the programs: $checks checks, no difference"

#!/usr/bin/env bash
# ./kuzpalen from outside: every command and every way to fail, with what is printed, what is said and the status. Needs the
# programs in target/bin. The gate runs it after `rt ci`.
set -u
cd "$(dirname "$0")/.."
work="$(mktemp -d)"
trap 'rm -rf "$work"' EXIT
checks=0

# same WHAT EXPECTED GOT
same() {
    checks=$((checks + 1))
    [ "$2" = "$3" ] && return
    printf 'tests/kuzpalen.sh: %s\n  expected: %s\n  got:      %s\n' "$1" "$2" "$3"
    exit 1
}

# same_files WHAT EXPECTED GOT
same_files() {
    checks=$((checks + 1))
    cmp "$2" "$3" && return
    echo "tests/kuzpalen.sh: $1"
    exit 1
}

# run STATUS OUTPUT SAID ARGUMENT...: the command prints the file OUTPUT and says the line SAID on standard error, nothing
# where that is empty; its standard input is $work/in
run() {
    local status=$1 wanted=$2 said=$3
    shift 3
    ./kuzpalen "$@" < "$work/in" > "$work/out" 2> "$work/err"
    same "status of kuzpalen $*" "$status" $?
    same_files "output of kuzpalen $*" "$wanted" "$work/out"
    same "standard error of kuzpalen $*" "$said" "$(cat "$work/err")"
}

: > "$work/empty"
cp "$work/empty" "$work/in"
head -c 15 plans/printed.plan > "$work/short.plan"
echo "refused 2 0" > "$work/refused"

# ---- sheet: 0 for a sheet, 1 for a refusal, 2 for trouble; of several plans the greatest
cat plans/A.txt plans/B.txt > "$work/two"
cat plans/A.txt "$work/refused" plans/B.txt > "$work/three"
for plan in plans/*.plan; do run 0 "${plan%.plan}.txt" "" sheet "$plan"; done
run 0 "$work/two" "" sheet plans/A.plan plans/B.plan
run 1 "$work/refused" "" sheet "$work/short.plan"
run 1 "$work/three" "" sheet plans/A.plan "$work/short.plan" plans/B.plan
run 2 "$work/three" "kuzpalen: $work/none.plan: there is no such file" sheet plans/A.plan "$work/short.plan" "$work/none.plan" plans/B.plan
run 1 "$work/refused" "" sheet "$work/empty"

# ---- the other commands print what their programs print
target/bin/clean < plans/pond.plan > "$work/wanted"
run 0 "$work/wanted" "" clean plans/pond.plan
run 0 docs/pond.svg "" plot plans/pond.plan
target/bin/plot 2.5 15 0.5 < plans/B.plan > "$work/wanted"
run 0 "$work/wanted" "" plot plans/B.plan 2.5 15 0.5
# paper: B is 9 wide and 4 high, so 16 is the greatest pitch; the pond is wider than it is high; the widest sheet fits neither paper
target/bin/plot 16 < plans/B.plan > "$work/wanted"
for paper in A3 A4; do run 0 "$work/wanted" "" plot plans/B.plan $paper; done
read -r _ _ _ width rows < plans/pond.txt
fits=$((277000 / width))
target/bin/plot "$((fits / 1000)).$(printf '%03d' $((fits % 1000)))" < plans/pond.plan > "$work/wanted"
run 0 "$work/wanted" "" plot plans/pond.plan A4
fits=$((400000 / width))
target/bin/plot "$((fits / 1000)).$(printf '%03d' $((fits % 1000)))" < plans/pond.plan > "$work/wanted"
run 0 "$work/wanted" "" plot plans/pond.plan A3
run 2 "$work/empty" "kuzpalen: plans/widest.plan: does not fit A4 paper with a pitch of 0.25 or more" plot plans/widest.plan A4
run 2 "$work/empty" "kuzpalen: plot: on A4 paper the margins are 10" plot plans/B.plan A4 20
run 1 "$work/empty" "kuzpalen: $work/short.plan: refused 2 0" plot "$work/short.plan" A4
cp plans/B.plan "$work/in"
target/bin/plot 16 < plans/B.plan > "$work/wanted"
run 0 "$work/wanted" "" plot - A4
cp "$work/empty" "$work/in"
target/bin/strip < plans/pond.plan > "$work/wanted"
run 0 "$work/wanted" "" strip plans/pond.plan
tests/turns.py plans/pond.plan > "$work/wanted"
run 0 "$work/wanted" "" turns plans/pond.plan
printf '4 Measure the level\n10 Close both gates\nspent 3 2\n' > "$work/wanted"
printf '\0\1\1' > "$work/answers"
run 0 "$work/wanted" "" drill plans/pond.plan "$work/answers"
cp "$work/answers" "$work/in"
run 0 "$work/wanted" "" drill plans/pond.plan
cp "$work/empty" "$work/in"
target/bin/folder plans/*.plan > "$work/wanted"
run 0 "$work/wanted" "" folder plans/*.plan
{ echo "$work/short.plan refused 2 0"; target/bin/folder plans/A.plan; } > "$work/wanted"
run 1 "$work/wanted" "" folder "$work/short.plan" plans/A.plan
# a box of width 0 and one of depth 0, mended
{ head -c 9 plans/printed.plan; printf '\0'; tail -c 28 plans/printed.plan; } > "$work/cramped.plan"
target/bin/mend "$work/wanted.plan" < "$work/cramped.plan" > "$work/wanted"
run 0 "$work/wanted" "" mend "$work/cramped.plan" "$work/mended.plan"
same_files "what mend writes" "$work/wanted.plan" "$work/mended.plan"

# the reason of a width, and the frame that a sheet fits
printf 'why 13 3 25 4\n2 3 S3 3 3\n3 4 S3 10 13\n4 11 S4 1 14\n11 12 S3 9 23\n12 W 2 25\n' > "$work/wanted"
run 0 "$work/wanted" "" why plans/F-3.plan
echo "allowance 3 width 25 rows 10" > "$work/wanted"
run 0 "$work/wanted" "" frame plans/F-3.plan 25
target/bin/frame_program 1 < plans/F-3.plan > "$work/wanted"
same "a frame that nothing fits" none "$(cut -d ' ' -f 1 "$work/wanted")"
run 0 "$work/wanted" "" frame plans/F-3.plan 1
echo "refused 19 0" > "$work/wanted"
run 1 "$work/wanted" "" frame plans/F-3.plan 0
# drawings marked: the plan's own listing, one that is wide, one that breaks each rule, one too far, one that cannot be read
printf '0 0 0\n1 -5 2\n2 0 2\n' > "$work/wide.txt"
printf '0 0 0\n1 -4 3\n2 0 2\n' > "$work/s1.txt"
printf '0 1 0\n1 -4 2\n2 0 2\n' > "$work/s2.txt"
printf '0 0 0\n1 -3 2\n2 0 2\n' > "$work/s3.txt"
printf '0 5 0\n1 -262143 2\n2 0 2\n' > "$work/far.txt"
printf '0 0 0\n0 0 0\n' > "$work/twice.txt"
awk 'NR > 1 { x = $2; if ($1 >= 1 && $1 <= 7) x = x + 1; print $1, x, $3 }' plans/F-3.txt > "$work/s4.txt"
for plan in A B F-3 pond full; do
    read -r _ _ _ width rows < plans/$plan.txt
    echo "plans/$plan.txt full $width $rows" > "$work/wanted"
    run 0 "$work/wanted" "" mark plans/$plan.plan plans/$plan.txt
done
cat > "$work/wanted" << END
plans/printed.txt full 9 4
$work/wide.txt wide 10 9 4
$work/s1.txt broken S1 1 1
$work/s2.txt broken S2 0 2
$work/s3.txt broken S3 1 2
$work/far.txt refused 15 1
$work/twice.txt line 2: cell 0 is given twice
drawings 7 full 1 wide 1 broken 3 refused 1 unread 1
END
run 1 "$work/wanted" "" mark plans/printed.plan plans/printed.txt "$work"/{wide,s1,s2,s3,far,twice}.txt
cat > "$work/wanted" << END
plans/printed.txt full 9 4
  keeps the five rules, and no drawing that keeps them is narrower
$work/wide.txt wide 10 9 4
  keeps the five rules, and is 1 wider than it need be: 9 is enough
$work/s1.txt broken S1 1 1
  S1: box 1 "A" does not stand in the row right below its parent's box
$work/s2.txt broken S2 0 2
  S2: box 0 "Up" does not have the left edge of box 2 "Run", the child that it must stand over
$work/s3.txt broken S3 1 2
  S3: box 1 "A" and box 2 "Run" belong to neighbouring siblings: the earlier one's branch must end left of the later sibling, and the later one's branch begin right of the earlier sibling's left edge
$work/far.txt refused 15 1
  box 1 "A" stands more than 262143 from the root
$work/twice.txt line 2: cell 0 is given twice
drawings 7 full 1 wide 1 broken 3 refused 1 unread 1
END
run 1 "$work/wanted" "" mark --explain plans/printed.plan plans/printed.txt "$work"/{wide,s1,s2,s3,far,twice}.txt
printf '%s broken S4 4 11\n  S4: in some row box 4, or the line down from its left edge, does not end left of box 11, or of the line down from its left edge\n' "$work/s4.txt" > "$work/wanted"
run 1 "$work/wanted" "" mark --explain plans/F-3.plan "$work/s4.txt"
printf 'plans/E-4.txt broken S5 1 3\n  S5: the right edge of box 1 passes the left edge of box 3 by more than the allowance of 0 lets it\n' > "$work/wanted"
run 1 "$work/wanted" "" mark --explain plans/E-0.plan plans/E-4.txt
printf -- '- full 9 4\n' > "$work/wanted"
cp plans/printed.txt "$work/in"
run 0 "$work/wanted" "" mark plans/printed.plan -
cp plans/printed.plan "$work/in"
printf 'plans/printed.txt full 9 4\n' > "$work/wanted"
run 0 "$work/wanted" "" mark - plans/printed.txt
run 2 "$work/empty" "kuzpalen: mark: only one file can be standard input" mark - -
cp "$work/empty" "$work/in"
echo "$work/short.plan refused 2 0" > "$work/wanted"
for option in "" --explain; do run 1 "$work/wanted" "" mark $option "$work/short.plan" plans/printed.txt plans/B.txt; done
run 2 "$work/empty" "kuzpalen: $work/none.txt: there is no such file" mark plans/printed.plan plans/printed.txt "$work/none.txt"
run 2 "$work/empty" "kuzpalen: $work: is a folder" mark plans/printed.plan "$work"
run 2 "$work/empty" "kuzpalen: mark takes [--explain] PLAN DRAWING..." mark --explain plans/printed.plan
# two plans joined
target/bin/join_program plans/printed.plan 0 plans/B.plan "$work/wanted.plan"
run 0 "$work/empty" "" join plans/printed.plan 0 plans/B.plan "$work/joined.plan"
same_files "what join writes" "$work/wanted.plan" "$work/joined.plan"
same "the joined plan's first line" "sheet 6 0" "$(./kuzpalen sheet "$work/joined.plan" | head -n 1 | cut -d ' ' -f 1-3)"
echo before > "$work/kept"
for case in "first|$work/short.plan 0 plans/B.plan|2 0" "second|plans/B.plan 0 $work/short.plan|2 0" "|plans/printed.plan 7 plans/B.plan|16 0" "|plans/printed.plan 1 plans/B.plan|11 1"; do
    IFS='|' read -r which arguments refusal <<< "$case"
    echo "${which:+$which }refused $refusal" > "$work/wanted"
    run 1 "$work/wanted" "" join $arguments "$work/kept"
    same "what join leaves of a file where a plan is refused" before "$(cat "$work/kept")"
done
run 2 "$work/empty" "kuzpalen: plans/printed.plan: the cell is a number" join plans/printed.plan x plans/B.plan "$work/kept"
run 2 "$work/empty" "kuzpalen: $work/none.plan: there is no such file" join "$work/none.plan" 0 plans/B.plan "$work/kept"
run 2 "$work/empty" "kuzpalen: $work: is a folder" join plans/B.plan 0 "$work" "$work/kept"
run 2 "$work/empty" "kuzpalen: join: the two plans cannot both be standard input" join - 0 - "$work/kept"
run 2 "$work/empty" "kuzpalen: plans/F-3.plan: the frame is a number of squares" frame plans/F-3.plan x

# ---- a plan on standard input
cp plans/B.plan "$work/in"
run 0 plans/B.txt "" sheet -
cat plans/A.txt plans/B.txt > "$work/two"
run 0 "$work/two" "" sheet plans/A.plan -
target/bin/clean < plans/B.plan > "$work/wanted"
run 0 "$work/wanted" "" clean -
target/bin/plot 2 < plans/B.plan > "$work/wanted"
run 0 "$work/wanted" "" plot - 2
target/bin/strip < plans/B.plan > "$work/wanted"
run 0 "$work/wanted" "" strip -
tests/turns.py plans/B.plan > "$work/wanted"
run 0 "$work/wanted" "" turns -
printf '1\n2\nfinished 0 2\n' > "$work/wanted"
run 0 "$work/wanted" "" drill - "$work/empty"
target/bin/folder plans/B.plan > "$work/wanted"
run 0 "$work/wanted" "" folder -
cp "$work/short.plan" "$work/in"
{ echo "- refused 2 0"; target/bin/folder; } > "$work/wanted"
run 1 "$work/wanted" "" folder -
cp "$work/empty" "$work/in"

# ---- refused: a line on standard output, or on standard error where the output is a file of another kind
echo before > "$work/kept"
for command in turns drill "mend"; do
    set -- $command "$work/short.plan"
    [ $command = turns ] || set -- "$@" "$work/kept"
    run 1 "$work/refused" "" "$@"
done
same "what mend leaves of a file where the plan is refused" before "$(cat "$work/kept")"
for command in clean outline plot strip; do run 1 "$work/empty" "kuzpalen: $work/short.plan: refused 2 0" $command "$work/short.plan"; done

# ---- trouble: one line that names the file and the reason, and nothing printed
tests/on_terminal.py "$work/out" ./kuzpalen sheet $(for i in {1..100}; do echo plans/A.plan; done) > "$work/err"
same "how far sheet is, on a terminal" "kuzpalen: 100 of 100 plans" "$(cat "$work/err")"
tests/on_terminal.py "$work/out" ./kuzpalen folder $(for i in {1..100}; do echo plans/A.plan; done) > "$work/err"
same "how far folder is, on a terminal" "folder: 100 of 100 files" "$(cat "$work/err")"
for command in sheet why clean outline plot strip turns folder drill; do
    run 2 "$work/empty" "kuzpalen: $work/none.plan: there is no such file" $command "$work/none.plan"
    run 2 "$work/empty" "kuzpalen: $work: is a folder" $command "$work"
    ./kuzpalen $command - <&- > "$work/out" 2> "$work/err"
    same "status of $command, standard input closed" 2 $?
    same_files "output of $command, standard input closed" "$work/empty" "$work/out"
    same "lines on standard error of $command, standard input closed" 1 "$(wc -l < "$work/err")"
    ./kuzpalen $command plans/A.plan - < "$work" > "$work/out" 2> "$work/err"
    same "status of $command, an input that fails" 2 $?
done
for command in sheet why clean outline plot strip turns; do
    tests/cut_input.py plans/printed.plan ./kuzpalen $command - > "$work/out" 2> "$work/err"
    same "status of $command, an input that fails behind a plan" 2 $?
    same_files "output of $command, an input that fails behind a plan" "$work/empty" "$work/out"
    same "what is said of $command, an input that fails behind a plan" "kuzpalen: standard input: the plan cannot be read" "$(cat "$work/err")"
done
for command in "drill plans/pond.plan" "folder -" "drill - $work/empty" "frame - 9" "mend - $work/new.plan" "join - 0 plans/A.plan $work/new.plan" "mark - plans/A.txt" "mark plans/A.plan -"; do
    tests/cut_input.py plans/printed.plan ./kuzpalen $command > "$work/out" 2> "$work/err"
    same "status of $command, an input that fails behind a plan" 2 $?
    same_files "output of $command, an input that fails behind a plan" "$work/empty" "$work/out"
    same "lines on standard error of $command, an input that fails behind a plan" 1 "$(wc -l < "$work/err")"
done
for command in clean outline strip turns why; do run 2 "$work/empty" "kuzpalen: $command takes PLAN" $command plans/A.plan plans/B.plan; done
for command in clean outline strip turns why; do run 2 "$work/empty" "kuzpalen: $command takes PLAN" $command; done
run 2 "$work/empty" "kuzpalen: mend takes PLAN OUT" mend plans/A.plan
run 2 "$work/empty" "kuzpalen: frame takes PLAN SQUARES" frame plans/A.plan
run 2 "$work/empty" "kuzpalen: frame takes PLAN SQUARES" frame plans/A.plan 1 2
run 2 "$work/empty" "kuzpalen: join takes FIRST CELL SECOND OUT" join plans/A.plan 0 plans/B.plan
run 2 "$work/empty" "kuzpalen: mark takes [--explain] PLAN DRAWING..." mark plans/A.plan
run 2 "$work/empty" "kuzpalen: drill takes PLAN [ANSWERS]" drill plans/A.plan "$work/empty" "$work/empty"
run 2 "$work/empty" "kuzpalen: plot takes PLAN [PITCH [MARGIN-X [MARGIN-Y]]]" plot plans/A.plan 1 2 3 4
run 2 "$work/empty" "kuzpalen: sheet takes PLAN..." sheet
run 2 "$work/empty" "kuzpalen: folder takes PLAN..." folder
run 2 "$work/empty" "kuzpalen: plans/A.plan: arguments are pitch, margin x and margin y in millimetres, each with at most three digits after the point" plot plans/A.plan x
run 2 "$work/empty" "kuzpalen: drill: the plan and the answers cannot both be standard input" drill -
run 2 "$work/empty" "kuzpalen: there is no command draw; ./kuzpalen help lists them" draw plans/A.plan
# the second file of mend: a folder, a device, a link, a folder that is not there
ln -s "$work/kept" "$work/link"
for out in "$work" /dev/null "$work/link"; do
    run 2 "$work/empty" "kuzpalen: $out: is no regular file, and is not replaced" mend plans/A.plan "$out"
    run 2 "$work/empty" "kuzpalen: $out: is no regular file, and is not replaced" join plans/printed.plan 0 plans/B.plan "$out"
done
same "the file behind a link" before "$(cat "$work/kept")"
# what a run that was cut off left is removed, and told; what a run that goes on has is left alone
gone="$(sh -c 'echo $$')"
printf 'half' > "$work/mended.plan.unfinished-$gone"
printf 'half' > "$work/mended.plan.unfinished-$$"
printf 'other' > "$work/mended.plan.unfinished-notes"
run 0 "$work/empty" "kuzpalen: $work/mended.plan.unfinished-$gone: left by a run that was cut off, removed" mend plans/A.plan "$work/mended.plan"
same "what is left beside the mended plan" "mended.plan mended.plan.unfinished-$$ mended.plan.unfinished-notes" "$(cd "$work" && echo mended.plan*)"
rm "$work/mended.plan.unfinished-$$" "$work/mended.plan.unfinished-notes"
run 2 "$work/empty" "kuzpalen: plans/A.plan: the file could not be written" mend plans/A.plan "$work/none/out.plan"
run 2 "$work/empty" "kuzpalen: plans/printed.plan: the file could not be written" join plans/printed.plan 0 plans/B.plan "$work/none/out.plan"
run 2 "$work/empty" "kuzpalen: plans/printed.plan: the file could not be written" join plans/printed.plan 0 plans/B.plan /proc/out.plan
run 2 "$work/empty" "kuzpalen: plans/A.plan: the file could not be written" mend plans/A.plan /proc/out.plan     # a folder where nothing can be written
# an output that cannot be written: a full device, a closed one, a pipe that nobody reads
for command in sheet why clean outline plot strip turns folder; do
    ./kuzpalen $command plans/full.plan > /dev/full 2> "$work/err"
    same "status of $command to a full device" 2 $?
    same "lines on standard error of $command to a full device" 1 "$(wc -l < "$work/err")"
    ./kuzpalen $command plans/full.plan >&- 2> "$work/err"
    same "status of $command to a closed output" 2 $?
    rm -f "$work/pipe"
    mkfifo "$work/pipe"
    (trap '' PIPE; exec 3<> "$work/pipe" 4> "$work/pipe" 3>&-; ./kuzpalen $command plans/full.plan >&4 2> "$work/err"; echo $? > "$work/status")
    same "lines on standard error of $command to a pipe that nobody reads" 1 "$(wc -l < "$work/err")"
    same "status of $command to a pipe that nobody reads" 2 "$(cat "$work/status")"
done
# a signal while a plan is awaited: the status says so, nothing is printed, and nothing is left behind
rm -f "$work/pipe"
mkfifo "$work/pipe"
mkdir "$work/temporary"
TMPDIR="$work/temporary" ./kuzpalen sheet - < "$work/pipe" > "$work/out" 2> "$work/err" &
exec 3> "$work/pipe"
sleep 2
kill -TERM $!
exec 3>&-
wait $!
same "status after a signal" 143 $?
same_files "output after a signal" "$work/empty" "$work/out"
same "what a signal leaves behind" "" "$(ls "$work/temporary")"

# ---- help: every command with an example, each of which runs
./kuzpalen help > "$work/out"
same "status of help" 0 $?
for command in sheet why mark frame clean outline plan mend join plot strip drill folder turns; do
    same "help names $command" 1 "$(grep -c "^kuzpalen $command " "$work/out")"
    ./kuzpalen help $command > "$work/one"
    same "lines of help $command" 3 "$(wc -l < "$work/one")"
    sed -n 3p "$work/one" | grep -q "kuzpalen $command " || same "the example of $command" "./kuzpalen $command" "$(sed -n 3p "$work/one")"
done
./kuzpalen > "$work/one"
same_files "without a command" "$work/out" "$work/one"
run 2 "$work/empty" "kuzpalen: there is no command draw; ./kuzpalen help lists them" help draw

# ---- beside an `rt` and a program of the test's own: fake RT PROGRAM, the lines of each, no program where there are none
fake() {
    rm -rf "$work/fake"
    mkdir -p "$work/fake/bin" "$work/fake/target/bin"
    cp kuzpalen "$work/fake"
    printf '#!/bin/sh\n%s\n' "$1" > "$work/fake/bin/rt"
    chmod +x "$work/fake/bin/rt"
    [ -z "$2" ] || printf '#!/bin/sh\n%s\n' "$2" > "$work/fake/target/bin/sheet"
    [ -z "$2" ] || chmod +x "$work/fake/target/bin/sheet"
    PATH="$work/fake/bin:$PATH" "$work/fake/kuzpalen" sheet plans/A.plan > "$work/out" 2> "$work/err"
    got=$?
}
fake 'echo "rt: plan is not proved"; exit 1' 'echo sheet 1'
same "status where the program is not proved" 2 $got
same_files "output where the program is not proved" "$work/empty" "$work/out"
same "what is said where the program is not proved" "rt: plan is not proved" "$(head -n 1 "$work/err")"
fake 'exit 0' 'echo sheet 1 0; echo "sheet: no room" >&2'
same "status where the program has trouble" 2 $got
same_files "output where the program has trouble" "$work/empty" "$work/out"
same "what is said where the program has trouble" "kuzpalen: plans/A.plan: no room" "$(cat "$work/err")"
fake 'exit 0' 'exit 0'
same "status where the program prints nothing" 2 $got
fake 'echo "rt: plan proved (7 s)"; echo "rt: io proved (unchanged since it was last proved)"; echo "echo sheet 1" > target/bin/sheet; chmod +x target/bin/sheet' ''
same "status of a first run" 0 $got
same "first line of what a first run says" "kuzpalen: proving the program sheet and the crates that it stands on, once; this takes some minutes" "$(head -n 1 "$work/err")"
same "the rest of what a first run says" "rt: plan proved (7 s)" "$(tail -n +2 "$work/err")"

echo "kuzpalen: $checks checks, no difference"

#!/usr/bin/env bash
# The program `mend` from outside: what it prints, where, which file it writes and what it leaves behind; which files it replaces, and with what
# mode; and that whenever it is killed, the second file is absent, as it was, or whole. No contract of crate `saving` can say what happens in a
# file system, so all of that is tried here. Needs target/bin/mend and target/bin/sheet. The gate runs it after `rt ci`.
set -u
umask 022
cd "$(dirname "$0")/.."
mend="$PWD/target/bin/mend"
sheet="$PWD/target/bin/sheet"
work="$(mktemp -d)"
trap 'rm -rf "$work"' EXIT
checks=0

same() {
    checks=$((checks + 1))
    [ "$2" = "$3" ] && return
    printf 'tests/mend.sh: %s\n  expected: %s\n  got:      %s\n' "$1" "$2" "$3"
    exit 1
}
for program in "$mend" "$sheet"; do
    [ -x "$program" ] || { echo "tests/mend.sh: $program is not built: tools/programs.sh"; exit 1; }
done
: > "$work/empty"

# old ROOT ONE TWO: document 01's printed example with kind, W, D and label length of each cell
old() {
    printf 'UpARun\377\377%b\0\0\0\0%b\2\0\0\0%b\3\0\6\0\3\0\0\0\123\124' "$1" "$2" "$3"
}
# wide ROOT ONE TWO: the same in the wide form: kind, D, W (two bytes), label length and rank of each
wide() {
    printf 'UpARun\377\377%b\0\0\0\0%b\2\0\0\0%b\3\0\6\0\3\0\0\0\123\125' "$1" "$2" "$3"
}
# mends WHAT PLAN EXPECTED LINES: the program makes of PLAN the file EXPECTED, and prints LINES
mends() {
    rm -rf "$work/there"
    mkdir "$work/there"
    for before in absent there; do
        [ "$before" = absent ] || printf 'what stood here' > "$work/there/second"
        "$mend" "$work/there/second" < "$2" > "$work/out" 2> "$work/err"
        same "lines, $1, second file $before" "$4" "$(cat "$work/out")"
        same "standard error, $1" "" "$(cat "$work/err")"
        cmp -s "$3" "$work/there/second"
        same "the second file, $1, $before" 0 $?
        same "the mode of the second file, $1, $before" 644 "$(stat -c %a "$work/there/second")"
        same "what is in the folder, $1" "second" "$(ls -A "$work/there")"
    done
}
# refuses WHAT PLAN NUMBER CELL: only the refusal, and the second file as it was, or absent
refuses() {
    rm -rf "$work/there"
    mkdir "$work/there"
    for before in absent there; do
        [ "$before" = absent ] || printf 'what stood here' > "$work/there/second"
        "$mend" "$work/there/second" < "$2" > "$work/out" 2> "$work/err"
        same "output, $1" "refused $3 $4" "$(cat "$work/out")"
        same "standard error, $1" "" "$(cat "$work/err")"
        [ "$before" = absent ] && same "the folder, $1" "" "$(ls -A "$work/there")"
        [ "$before" = there ] && same "the second file, $1" "what stood here" "$(cat "$work/there/second")"
    done
}

old '\2\4\1\2' '\1\3\1\1' '\1\5\1\3' > "$work/good"
cmp -s "$work/good" plans/printed.plan
same "the printed example" 0 $?
mends "accepted" "$work/good" "$work/good" ""
for plan in plans/*.plan; do
    mends "$plan" "$plan" "$plan" ""
done
old '\2\4\1\2' '\1\2\1\1' '\1\4\1\3' > "$work/narrow"
mends "narrow boxes" "$work/narrow" "$work/good" "1 2 1 3 1
2 4 1 5 1"
old '\2\4\0\2' '\1\3\0\1' '\1\5\1\3' > "$work/flat"
mends "depth 0" "$work/flat" "$work/good" "0 4 0 4 1
1 3 0 3 1"
old '\2\0\0\2' '\1\3\1\1' '\1\4\0\3' > "$work/both"
mends "both" "$work/both" "$work/good" "0 0 0 4 1
2 4 0 5 1"
wide '\2\1\4\0\2\0' '\1\1\3\0\1\0' '\1\1\5\0\3\11' > "$work/wide-good"
wide '\2\1\4\0\2\0' '\1\0\2\0\1\0' '\1\1\4\0\3\11' > "$work/wide-both"
mends "the wide form" "$work/wide-both" "$work/wide-good" "1 2 0 3 1
2 4 1 5 1"
wide '\2\1\377\3\2\0' '\1\1\3\0\1\0' '\1\0\377\3\3\11' > "$work/wide-flat"
wide '\2\1\377\3\2\0' '\1\1\3\0\1\0' '\1\1\377\3\3\11' > "$work/wide-1023"
mends "a wide box of depth 0" "$work/wide-flat" "$work/wide-1023" "2 1023 0 1023 1"

old '\2\4\1\2' '\1\2\20\1' '\1\5\1\3' > "$work/deep"
refuses "depth 16" "$work/deep" 8 1
old '\2\4\1\2' '\6\0\0\1' '\1\4\1\3' > "$work/kind"
refuses "an unknown kind" "$work/kind" 7 1
old '\2\4\1\2' '\1\377\1\51' '\1\4\1\3' > "$work/label"
refuses "a label of 41" "$work/label" 9 1
# seventeen cells in a chain, each of depth 15 but the last, of depth 0: 241 + 15 rows, and one more
{
    for i in $(seq 0 16); do
        parent='\377\377'
        [ "$i" -eq 0 ] || parent="$(printf '\\%o\\0' $((i - 1)))"
        rest='\2\2\17\0\0\0'
        [ "$i" -lt 16 ] || rest='\1\2\0\0\0\0'
        printf '%b' "$parent$rest"
    done
    printf '\0\0\21\0\0\0\123\124'
} > "$work/rows"
refuses "mended, but then too many rows" "$work/rows" 13 16
head -c 15 "$work/narrow" > "$work/two"
refuses "15 bytes" "$work/two" 2 0
{ cat "$work/narrow"; head -c 16347 /dev/zero; } > "$work/long"
same "bytes of the long file" 16385 "$(wc -c < "$work/long")"
refuses "16,385 bytes" "$work/long" 2 0
{ head -c 36 "$work/narrow"; printf '\0\0'; } > "$work/three"
refuses "no mark" "$work/three" 3 0
{ head -c 32 "$work/narrow"; printf '\4'; tail -c 5 "$work/narrow"; } > "$work/four"
refuses "four cells" "$work/four" 4 0

# ---- trouble: one line on standard error, nothing on standard output, nothing left behind
# troubles WHAT WORDS...
troubles() {
    what=$1
    shift
    rm -rf "$work/there"
    mkdir "$work/there"
    (cd "$work/there" && "$mend" "$@" < "$work/narrow" > "$work/out" 2> "$work/err")
    same "output, $what" "" "$(cat "$work/out")"
    same "lines on standard error, $what" 1 "$(wc -l < "$work/err")"
    same "the folder, $what" "" "$(ls -A "$work/there")"
}
troubles "no argument"
troubles "two arguments" second third
troubles "an empty argument" ""
troubles "a folder that does not exist" nowhere/second
troubles "a folder" "$work"
troubles "a name that is too long" "$(printf 'x%.0s' {1..5000})"
mkdir "$work/shut"
rm -rf "$work/there" && mkdir "$work/there"
(cd "$work/there" && "$mend" second < "$work/narrow" > /dev/full 2> "$work/err")
same "lines on standard error where the lines cannot be written" 1 "$(wc -l < "$work/err")"

# ---- what has the name. Nothing: the new file has the mode that the umask leaves. A regular file: it is replaced, and keeps its mode
fresh() {
    rm -rf "$work/there"
    mkdir "$work/there"
}
# run WHAT ERROR PROGRAM ARGUMENT...: nothing is printed but ERROR, on standard error
run() {
    what=$1 error=$2
    shift 2
    "$@" < "$work/narrow" > "$work/out" 2> "$work/err"
    same "standard error, $what" "$error" "$(cat "$work/err")"
    [ -z "$error" ] || same "output, $what" "" "$(cat "$work/out")"
}
# whole WHAT: the second file is a regular file and the mended one
whole() {
    same "what the second file is, $1" "regular file" "$(stat -c %F "$work/there/second")"
    cmp -s "$work/good" "$work/there/second"
    same "the second file, $1" 0 $?
}
for mask in 022:644 077:600 027:640 000:666; do
    fresh
    (umask "${mask%:*}"; run "umask $mask" "" "$mend" "$work/there/second") || exit 1
    whole "umask $mask"
    same "the mode of a new file, umask and mode $mask" "${mask#*:}" "$(stat -c %a "$work/there/second")"
done
for mode in 600 640 755 666 444 400 4711; do
    for mask in 022 077; do
        fresh
        printf 'what stood here' > "$work/there/second"
        chmod "$mode" "$work/there/second"
        (umask "$mask"; run "mode $mode" "" "$mend" "$work/there/second") || exit 1
        [ -r "$work/there/second" ] && whole "mode $mode, umask $mask"
        same "the mode $mode is kept, umask $mask" "$mode" "$(stat -c %a "$work/there/second")"
        same "what is in the folder, mode $mode" "second" "$(ls -A "$work/there")"
    done
done

# ---- anything else is left alone: links, which are not followed, a folder, a pipe, a device, a socket
not_regular="mend: the second file is no regular file, and is not replaced"
# left WHAT KIND: the second file, of this kind, is left as it is, and nothing beside it
left() {
    before="$(ls -Al "$work/there")"
    run "$1" "$not_regular" "$mend" "$work/there/second"
    same "$1 is left" "$2" "$(stat -c %F "$work/there/second")"
    same "the folder, $1" "$before" "$(ls -Al "$work/there")"
}
fresh
printf 'what stood here' > "$work/there/first"
ln -s first "$work/there/second"
left "a link to a file" "symbolic link"
same "the file behind a link" "what stood here" "$(cat "$work/there/first")"
fresh
ln -s first "$work/there/second"
left "a link to nothing" "symbolic link"
fresh
mkdir "$work/there/first"
ln -s first "$work/there/second"
left "a link to a folder" "symbolic link"
run "a folder by a link, with a slash" "$not_regular" "$mend" "$work/there/second/"
fresh
ln -s second "$work/there/second"
left "a link to itself" "symbolic link"
fresh
mkdir "$work/there/second"
left "a folder" "directory"
same "what is in the folder" "" "$(ls -A "$work/there/second")"
fresh
mkfifo "$work/there/second"
left "a pipe" "fifo"
fresh
if mknod "$work/there/second" c 1 3 2> /dev/null; then
    left "a device" "character special file"
elif [ "$(id -u)" -ne 0 ]; then # who may not make a device may not replace this one
    run "a device" "$not_regular" "$mend" /dev/null
fi
fresh
if command -v python3 > /dev/null; then
    python3 -c 'import socket, sys; socket.socket(socket.AF_UNIX).bind(sys.argv[1])' "$work/there/second"
    left "a socket" "socket"
fi

# ---- trouble: the file cannot be written, and nothing is left behind
unwritten="mend: the file could not be written"
fresh
run "a folder where nothing can be made" "$unwritten" "$mend" /proc/out.plan
run "a file that is no folder" "$unwritten" "$mend" "$work/empty/second"
run "a file's name with a slash" "$unwritten" "$mend" "$work/empty/"
for length in 244 256 4090; do # too long for the new file's name, for any name, for a path
    (cd "$work/there" && run "a name of $length bytes" "$unwritten" "$mend" "$(printf "%${length}s" "" | tr ' ' x)") || exit 1
done
dots="$(printf './%.0s' {1..2028})"
(cd "$work/there" && run "a path of 4,064 bytes" "$unwritten" "$mend" "$dots./second") || exit 1
same "what trouble leaves behind" "" "$(ls -A "$work/there")"
(cd "$work/there" && run "a path of 4,063 bytes" "" "$mend" "$dots/second") || exit 1
whole "a path of 4,063 bytes"
if [ "$(id -u)" -ne 0 ]; then # root may write anywhere
    printf 'what stood here' > "$work/there/second"
    chmod 555 "$work/there"
    run "a folder that may not be written" "$unwritten" "$mend" "$work/there/second"
    chmod 755 "$work/there"
    same "a file in a folder that may not be written" "what stood here" "$(cat "$work/there/second")"
fi

# ---- what a killed run left over. That of another process is not touched, that of one with the same number is removed
fresh
printf 'left over' > "$work/there/second.unfinished-1"
run "a leftover of another process" "" "$mend" "$work/there/second"
whole "beside a leftover of another process"
same "a leftover of another process" "left over" "$(cat "$work/there/second.unfinished-1")"
same "the folder with it" "second second.unfinished-1" "$(ls -A "$work/there" | tr '\n' ' ' | sed 's/ $//')"
# same_number COMMAND...: the command makes what is left over under its last argument; then the program runs with that very number
same_number() {
    ("$@" "$work/there/second.unfinished-$BASHPID" && exec "$mend" "$work/there/second" < "$work/narrow" > "$work/out" 2> "$work/err")
}
fresh
same_number cp "$work/long"
whole "over a leftover of the same number"
same "the folder after a leftover of the same number" "second" "$(ls -A "$work/there")"
fresh
printf 'what stood here' > "$work/there/first"
same_number ln -s first
whole "over a link of the same number"
same "the folder after a link of the same number" "first second" "$(ls -A "$work/there" | tr '\n' ' ' | sed 's/ $//')"
same "the file behind a link of the same number" "what stood here" "$(cat "$work/there/first")"
fresh
printf 'what stood here' > "$work/there/second"
same_number mkdir
same "standard error, a folder of the same number" "$unwritten" "$(cat "$work/err")"
same "the second file beside a folder of the same number" "what stood here" "$(cat "$work/there/second")"
# many at once: none touches another's new file
fresh
for i in $(seq 1 40); do "$mend" "$work/there/second" < "$work/narrow" > /dev/null 2>> "$work/there/said" & done
wait
same "standard error of many at once" "" "$(cat "$work/there/said")"
whole "written by many at once"
same "the folder after many at once" "said second" "$(ls -A "$work/there" | tr '\n' ' ' | sed 's/ $//')"

# ---- killed at any moment
if command -v python3 > /dev/null; then
    python3 tests/mend_killed.py "$mend" "$work/narrow" "$work/good" || exit 1
else
    echo "tests/mend.sh: python3 is not installed: nothing is killed"
fi
# at each system call in turn, where strace may do that
if strace -o "$work/trace" -e inject=getpid:signal=KILL true 2> /dev/null; then
    for before in absent there; do
        for call in $(seq 1 60); do
            rm -rf "$work/there"
            mkdir "$work/there"
            [ "$before" = absent ] || printf 'what stood here' > "$work/there/second"
            (strace -o "$work/trace" -e "inject=all:signal=KILL:when=$call" "$mend" "$work/there/second" < "$work/narrow"; :) > /dev/null 2>&1
            if [ -e "$work/there/second" ]; then
                cmp -s "$work/good" "$work/there/second" || same "the second file, killed at call $call" "what stood here" "$(cat "$work/there/second")"
                [ "$before" = there ] || { cmp -s "$work/good" "$work/there/second"; same "the second file is whole, killed at call $call" 0 $?; }
            else
                same "the second file is still there, killed at call $call" absent "$before"
            fi
            checks=$((checks + 1))
            same "what is left over, killed at call $call" "" "$(ls -A "$work/there" | grep -vx 'second\|second\.unfinished-[1-9][0-9]*')"
            grep -q 'exited with' "$work/trace" && break
        done
    done
else
    echo "tests/mend.sh: strace is not installed, or may not trace: the program is killed at random moments only"
fi
echo "mend: $checks checks, no difference"

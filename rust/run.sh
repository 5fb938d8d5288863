#!/bin/sh
# Builds the static library (proving what it is made of, unless that is done), then the comparison, and
# runs it: the reference's own tests, the plain Check's against it, every call on seeded inputs, the C
# header, the program's listings where the program is built, and a fuzz under valgrind where that is
# installed. Fails on the first difference or fault. About two minutes when the crates are proved.
#
#     rust/run.sh [INPUTS [SEED [FUZZ_SECONDS]]]      more inputs, other ones, a longer fuzz
set -eu
cd "$(dirname "$0")"
inputs=${1:-120000}
seed=${2:-20261115}
seconds=${3:-15}
sheet=../target/bin/sheet
export CARGO_BUILD_JOBS="${CARGO_BUILD_JOBS:-1}"
unset KUZPALEN_LIB_DIR
mkdir -p ../target/staticlib
(cd ../crates/capi && rt lib) > ../target/capi.log 2>&1 || { cat ../target/capi.log; exit 1; }
cp ../crates/capi/out/libcapi.a ../target/staticlib/
cargo build --offline --quiet --profile checked -p compare
cargo test --offline --quiet --profile checked -p reference
cargo test --offline --quiet --profile checked -p compare --test sweep
./target/checked/compare "$inputs" "$seed"
if command -v cc >/dev/null; then
    cc -Wall -Wextra -o target/smoke smoke.c ../target/staticlib/libcapi.a
    ./target/smoke
    cc -Wall -Wextra -ffp-contract=off -o target/strokes strokes.c ../target/staticlib/libcapi.a
    ./target/strokes
fi
# a sheet that is made step by step ends as the listing has it: the corners of each cell
./target/checked/watch ../plans/pond.plan | sed -n '/^done/,$p' | tail -n +2 > target/watched
sed 1d ../plans/pond.txt | cut -d ' ' -f 1-3 | cmp - target/watched
if [ -x "$sheet" ]; then
    ./target/checked/listing "$sheet" 1000 "$seed"
fi
if command -v valgrind >/dev/null; then
    watch="valgrind -q --error-exitcode=9"
else
    watch=""
    echo "valgrind is not installed: the fuzz runs without it"
fi
$watch ./target/checked/fuzz library "$seconds" "$seed"
if [ -x "$sheet" ]; then
    ./target/checked/fuzz program 5 "$seed" "$sheet"
    ./target/checked/fuzz program "$seconds" "$seed" $watch "$sheet"
fi

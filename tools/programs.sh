#!/usr/bin/env bash
# Builds programs and puts them into target/bin: those that are named, or all of them. Each is proved first, where that is not done.
#
#     tools/programs.sh [NAME..]
#
# `rt run` builds a program and runs it; here it is run on an empty input, without arguments, and what it says is dropped.
set -u
cd "$(dirname "$0")/.."
[ $# -gt 0 ] || set -- $(for main in crates/*/src/main.rt; do name="${main#crates/}"; echo "${name%%/*}"; done)
mkdir -p target/bin
lacking=0
for name in "$@"; do
    made="crates/$name/out/$name"
    rm -f "$made" "target/bin/$name"
    (cd "crates/$name" && rt run < /dev/null) > "target/$name.log" 2>&1
    if [ -f "$made" ]; then
        cp "$made" "target/bin/$name.new" && chmod 755 "target/bin/$name.new" && mv "target/bin/$name.new" "target/bin/$name"
        rm -f "target/$name.log"
    else
        cat "target/$name.log" >&2
        echo "tools/programs.sh: $name was not built" >&2
        lacking=1
    fi
done
exit $lacking

#!/usr/bin/env bash
# The examples of causes: that `explain` prints of each script of examples/causes what its lines `;>` say, in their order and nothing else, and at the end what the comments
# after `; The end:` say. (tests/cases.sh checks that each line `;>` is where it has to be, and tools/docs.py that each cause has its script.) The last line is
# `N passed, M failed`, a script each.
#
#   causes.sh [--program FILE]   FILE is the proved program of this repository unless it is named
set -eu
top=$(cd "$(dirname "$0")/.." && pwd)
folder=$top/examples/causes
work=$(mktemp -d)
trap 'rm -rf "$work"' EXIT

find "$folder" -name '*.h2' -printf '%f\n' | sed 's/\.h2$//' | sort >"$work/causes"
if [ "${1-}" = --program ]; then
    program=$2
else
    program=$(python3 -B "$top/tools/program.py" proved)
fi

# One script, explained and compared: the cause's name has to be in it, and the status is 4 where the connection ended.
run_one() {
    local name=$1 words=() status=0 wanted=0
    eval "words=($(sed -n 's/^;@ //p' "$folder/$name.h2"))"
    sed -n 's/^;> //p; 1,/^; The end:$/!{s/^; //; s/^        //; p}' "$folder/$name.h2" >"$work/expected"
    "$program" asm <"$folder/$name.h2" >"$work/hex" || return 1
    "$program" explain "$work/hex" "${words[@]}" >"$work/said" || status=$?
    sed 's/^        //' "$work/said" >"$work/text"
    diff "$work/expected" "$work/text" || return 1
    grep -q "^[a-z]* error [A-Z_]*: $name, RFC " "$work/text" || return 1
    if grep -q '^connection error ' "$work/text"; then
        wanted=4
    fi
    [ "$status" = "$wanted" ]
}

passed=0
failed=0
while read -r name; do
    if run_one "$name"; then
        passed=$((passed + 1))
    else
        failed=$((failed + 1))
        echo "causes.sh: $name differs"
    fi
done <"$work/causes"
echo "$passed passed, $failed failed"
[ "$failed" = 0 ]

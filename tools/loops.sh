#!/usr/bin/env bash
# Plays each example through asm, dis, play and play --each, and compares what has to agree. The last line is `N passed, M failed`, an example each.
#
#   tools/loops.sh [--program FILE]     FILE is the proved program of this repository unless it is named
set -eu
cd "$(dirname "$0")/.."
if [ "${1-}" = --program ]; then
    program=$2
else
    program=$(python3 -B tools/program.py proved)
fi
made=$(mktemp -d)
trap 'rm -rf "$made"' EXIT
for script in examples/*.h2; do
    "$program" asm < "$script" > "$made/$(basename "$script" .h2).hex"
done
cp examples/*.hex "$made"

# One example: what differs is printed.
agrees() {
    "$program" dis < "$1" | "$program" asm | diff <(tr -d ' \n' < "$1") <(tr -d '\n') || return 1
    "$program" play < "$1" > "$made/whole" || return 1
    "$program" play --cut 1 < "$1" | diff "$made/whole" - || return 1
    "$program" play --each < "$1" > "$made/each" || return 1
    # The last place has the same state, and the octets sent for all places are those of the whole run.
    diff <(tail -n +2 "$made/whole") <(awk '/^item / { text = ""; next } !/^sent / { text = text $0 "\n" } END { printf "%s", text }' "$made/each") || return 1
    diff <(sed -n 's/^sent //p' "$made/whole") <(sed -n 's/^sent //p' "$made/each" | tr -d '\n-' | sed 's/$/\n/') || return 1
}

passed=0
failed=0
for hex in "$made"/*.hex; do
    if agrees "$hex"; then
        passed=$((passed + 1))
    else
        failed=$((failed + 1))
        echo "loops.sh: $(basename "$hex") differs"
    fi
done
echo "$passed passed, $failed failed"
[ "$failed" = 0 ]

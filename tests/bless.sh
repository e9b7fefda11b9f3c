#!/usr/bin/env bash
# What `check --bless` writes, over the cases of cases/: a file that holds stays as it is, octet for octet; without its lines `;<` and `;!`, and with wrong ones in
# their places (but not where they stay: after a command of a debugger), what is written holds. The last line is `N passed, M failed`, where each file counts three times; the status is 1 where one failed.
#
#   bless.sh               through the proved program
#   bless.sh --unproved    through the program built without proof
#   bless.sh PROGRAM       through this program, as one of the two that the gate builds
set -eu -o pipefail
cd "$(dirname "$(readlink -f "${BASH_SOURCE[0]}")")/.."
case ${1-} in
    '') run=("$PWD/h2_bench") ;;
    --unproved) run=("$PWD/h2_bench" --unproved) ;;
    *) run=("$(realpath -- "$1")") ;;
esac
work=$(mktemp -d)
trap 'rm -rf "$work"' EXIT
passed=0 failed=0

# count WELL NAME WHAT: one more that passed, where WELL is 0, or failed
count() {
    if [ "$1" = 0 ]; then
        passed=$((passed + 1))
    else
        failed=$((failed + 1))
        echo "$2: $3"
    fi
}

# holds FILE: what lines `;<` and `;!` expect holds; what else is expected is left out
holds() {
    grep -v '^;[=?] ' "$1" >"$1.only" || true
    mv "$1.only" "$1"
    "${run[@]}" check "$1" >"$work/tap" && ! grep -q '^not ok' "$work/tap"
}

cp -r cases "$work/cases"
cd "$work"
mapfile -t files < <(find cases -name '*.h2' | LC_ALL=C sort)
for file in "${files[@]}"; do
    status=0
    "${run[@]}" check --bless "$file" | cmp -s - "$file" || status=$?
    count "$status" "$file" "blessing changes it"

    # Without them, in place; where a case has no such line and leads to nothing, it expects nothing.
    status=0
    grep -v '^;[<!] ' "$file" >"${file%.h2}-bare.h2"
    "${run[@]}" check --bless --in-place "${file%.h2}-bare.h2" >/dev/null || status=$?
    if [ "$status" = 0 ]; then holds "${file%.h2}-bare.h2" || status=$?; fi
    count "$status" "$file" "blessed from nothing, it does not hold"

    status=0
    sed '/^;& /,/^[^;]/! { s/^;< .*/;< PING 01 0 x00/; s/^;! .*/;! bad-preface/; }' "$file" >"${file%.h2}-wrong.h2"
    "${run[@]}" check --bless --in-place "${file%.h2}-wrong.h2" >/dev/null || status=$?
    if [ "$status" = 0 ]; then holds "${file%.h2}-wrong.h2" || status=$?; fi
    count "$status" "$file" "blessed over wrong lines, it does not hold"
done
echo "$passed passed, $failed failed"
[ "$failed" = 0 ]

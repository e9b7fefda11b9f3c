#!/usr/bin/env bash
# Tries the must-fail edits of edits/CRATE: the prover has to refuse each. They are no part of the gate, which tries those of crates/CRATE/must-fail.
#
#   tools/edits.sh [CRATE..]     these crates; with none named, each crate that edits/ has
#
# The edits are put into a copy of the crates in a temporary folder, with the libraries that checks have built, and `rt must-fail CRATE` is called there. It builds the
# libraries that a crate lacks or whose sources have changed, which can take as long as a first proof, and then proves the crate once. The copy is removed at the end, also after an interrupt.
#
# For each crate a line says how many edits were refused, not refused and bad (an edit that can't be applied or read, or was not tried); each that is not refused is
# shown. The last line is `N passed, M failed`, and the status is 1 where an edit is not refused.
set -eu
top=$(cd "$(dirname "$(readlink -f "${BASH_SOURCE[0]}")")/.." && pwd)

for crate in "$@"; do
    if [ ! -d "$top/edits/$crate" ]; then
        echo "edits.sh: there is no folder edits/$crate" >&2
        exit 2
    fi
done
if ! command -v rt >/dev/null; then
    echo "edits.sh: the Rattle kit is needed: rt is not on the PATH" >&2
    exit 2
fi
if [ $# = 0 ]; then
    cd "$top/edits"
    set -- *
fi

copy=$(mktemp -d -t h2_bench-edits-XXXXXX)
running=
clean() {
    if [ -n "$running" ]; then
        kill "$running" 2>/dev/null || true
        wait "$running" 2>/dev/null || true
    fi
    rm -rf "$copy"
}
trap clean EXIT
trap 'exit 130' INT
trap 'exit 143' TERM HUP

mkdir "$copy/crates" "$copy/.git"
cp "$top/crates.txt" "$top/HANDLES" "$copy"
for folder in "$top"/crates/*; do
    mkdir "$copy/crates/${folder##*/}"
    for part in "$folder"/*; do
        case ${part##*/} in
            out | must-fail) ;;
            *) cp -r "$part" "$copy/crates/${folder##*/}" ;;
        esac
    done
    # What is built anew there is not written into the files that are shared.
    if [ -d "$folder/out/rlib" ]; then
        mkdir "$copy/crates/${folder##*/}/out"
        cp -rl "$folder/out/rlib" "$copy/crates/${folder##*/}/out" 2>/dev/null || cp -r "$folder/out/rlib" "$copy/crates/${folder##*/}/out"
    fi
done
for crate in "$@"; do
    cp -r "$top/edits/$crate" "$copy/crates/$crate/must-fail"
done

# Runs a command of rt in the copy, and waits for it so that a signal ends both.
in_copy() {
    (cd "$copy" && exec "$@") &
    running=$!
    local status=0
    wait "$running" || status=$?
    running=
    return "$status"
}

passed=0
failed=0
for crate in "$@"; do
    status=0
    in_copy rt must-fail "$crate" >"$copy/log" 2>&1 || status=$?
    all=$(find "$top/edits/$crate" -name '*.edit' | wc -l)
    refused=$(grep -c '^rt: must-fail .*: refused, as it must be' "$copy/log" || true)
    missed=$(grep -c '^rt: must-fail .*: NOT REFUSED' "$copy/log" || true)
    bad=$((all - refused - missed))
    echo "$crate: $refused refused, $missed not refused, $bad bad"
    if [ "$refused" != "$all" ] || [ "$status" != 0 ]; then
        grep '^rt: must-fail ' "$copy/log" | grep -v ': refused, as it must be' || tail -n 5 "$copy/log"
    fi
    passed=$((passed + refused))
    failed=$((failed + all - refused))
done
echo "$passed passed, $failed failed"
[ "$failed" = 0 ]

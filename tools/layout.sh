#!/usr/bin/env bash
# Whether each source file is in the layout of `rt fmt`, by the call that `rt ci` makes. The last line is `N passed, M failed`, a file each.
set -u
cd "$(dirname "$0")/.."
kit=$(dirname "$(dirname "$(readlink -f "$(command -v rt)")")")
work=$(mktemp -d)
trap 'rm -rf "$work"' EXIT
find crates/*/src crates/*/specs crates/*/proofs -name '*.rt' -o -name '*.antt' >"$work/files"
status=0
xargs -P "$(nproc)" -n 100 "$kit/bin/rattle" fmt --check <"$work/files" >/dev/null 2>"$work/said" || status=1
all=$(wc -l <"$work/files")
wrong=$(grep -c 'is not in the layout$' "$work/said")
if [ "$status" != 0 ]; then
    cat "$work/said"
    echo "layout.sh: run rt fmt in the folder of the crate"
    if [ "$wrong" = 0 ]; then wrong=1; fi
fi
echo "$((all - wrong)) passed, $wrong failed"
[ "$wrong" = 0 ]

#!/usr/bin/env bash
# Builds the page: web/h2_bench.html, one file that a browser opens. docs/PAGE.md has what it is.
#
#   tools/web.sh [OUT] [--anew]
#
# It needs the Rattle kit, Python 3, and 3 GB of free disk. The crates below h2_page are proved by `rt ci`, where the kit has not kept them from an earlier proof, then
# h2_page for WebAssembly. After `./h2_bench --prove` or the gate that takes some minutes, from nothing half an hour on four processors, an hour on two; --anew takes nothing from earlier proofs.
set -eu
top=$(cd "$(dirname "$0")/.." && pwd)
out=$top/web/h2_bench.html anew=
for word in "$@"; do
    case $word in
        --anew) anew=$word ;;
        *) out=$word ;;
    esac
done
exec python3 -B "$top/tools/prove.py" --page "$out" $anew

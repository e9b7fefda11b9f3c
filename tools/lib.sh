#!/usr/bin/env bash
# Builds the library for other languages: out/lib/libh2_bench.so and libh2_bench.a. docs/EMBED.md says how it is called.
#
#   tools/lib.sh [FOLDER] [--anew]
#
# It needs the Rattle kit, Python 3, and 3 GB of free disk. The crates below h2_embed are proved by `rt ci`, where the kit has not kept them from an earlier proof, then
# h2_embed. After `./h2_bench --prove` or the gate that takes some minutes; --anew takes nothing from earlier proofs.
set -eu
top=$(cd "$(dirname "$0")/.." && pwd)
out=$top/out/lib anew=
for word in "$@"; do
    case $word in
        --anew) anew=$word ;;
        *) out=$word ;;
    esac
done
exec python3 -B "$top/tools/prove.py" --library "$out" $anew

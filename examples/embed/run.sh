#!/usr/bin/env bash
# Builds the examples of C and Rust, where their compilers are, and runs them and that of Python: run.sh [LIBRARY], which is libh2_bench.so. docs/EMBED.md has more.
set -eu
top=$(cd "$(dirname "$0")/../.." && pwd)
library=$(realpath -- "${1-$(ls "$top/out/lib/libh2_bench.so" "$top/release/libh2_bench.so" 2>/dev/null | head -n 1)}")
work=$(mktemp -d)
trap 'rm -rf "$work"' EXIT
cd "$top/examples/embed"
if command -v cc >/dev/null; then
    echo "== oracle.c"
    cc -Wall -I "$top/share" oracle.c "$library" -Wl,-rpath,"${library%/*}" -o "$work/oracle-c"
    "$work/oracle-c"
fi
if command -v rustc >/dev/null; then
    echo "== oracle.rs"
    rustc --edition 2021 -C opt-level=1 -L "${library%/*}" -l dylib=h2_bench -C link-arg=-Wl,-rpath,"${library%/*}" oracle.rs -o "$work/oracle-rs"
    "$work/oracle-rs"
fi
echo "== oracle.py"
H2_BENCH_LIBRARY=$library PYTHONDONTWRITEBYTECODE=1 PYTHONPATH=$top/share/python python3 oracle.py

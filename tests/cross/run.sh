#!/usr/bin/env bash
# Compares the library of these sources, or the program where that is not built or --program names it, with other implementations: the examples of RFC 7541, Appendix C, python3-hpack, python3-hyperframe and python3-h2 of Debian.
# It is no part of the gate, and takes some minutes.
#
#   apt-get install python3-hpack python3-h2
#   tests/cross/run.sh [--program FILE] [--seed N] [--count N] [--stories FOLDER]
#
# --count is the number of connections in each topic. --stories takes a checkout of http2jp/hpack-test-case, whose story_*.json are then decoded too.
set -eu
top=$(cd "$(dirname "$0")/../.." && pwd)
program=()
if H2_BENCH_LIBRARY=$(python3 -B "$top/tools/program.py" library); then
    export H2_BENCH_LIBRARY PYTHONPATH=$top/share/python
else
    program=(--program "$(python3 -B "$top/tools/program.py" proved)")
fi
exec /usr/bin/python3 -B "$top/tests/cross/cross.py" "${program[@]}" "$@"

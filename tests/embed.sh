#!/usr/bin/env bash
# The library for other languages against the program: tests/embed.py.
#
#   embed.sh [PROGRAM [LIBRARY]]     of these sources, built by tools/lib.sh or released, unless one is named; PROGRAM is the launcher unless it is named
#
# Without a library it says so and does nothing. The last line is `N passed, M failed`.
set -u
program=$(realpath -- "${1-$(dirname "$0")/../h2_bench}")
top=$(dirname "$(dirname "$(readlink -f "${BASH_SOURCE[0]}")")")
library=${2-$(python3 -B "$top/tools/program.py" library)}
if [ -z "$library" ]; then
    echo "embed.sh: the library was not tested: tools/lib.sh has not built it of these sources"
    echo "0 passed, 0 failed"
    exit 0
fi
exec python3 -B "$top/tests/embed.py" "$library" "$program"

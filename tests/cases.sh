#!/usr/bin/env bash
# Checks the cases of cases/ and examples/causes/, all in one run: the TAP of `check`, and behind it `N passed, M failed`. The status is 1 where a case failed.
# Where Perl's `prove` is installed, it runs those of cases/ as docs/CASES.md says; what it finds is one more that passed or failed.
#
#   cases.sh               through the proved program
#   cases.sh --unproved    through the program built without proof
#   cases.sh PROGRAM       through this program, as one of the two that the gate builds
set -eu -o pipefail
case ${1-} in
    '') run=(./h2_bench) ;;
    --unproved) run=(./h2_bench --unproved) ;;
    *) run=("$(realpath -- "$1")") ;;
esac
cd "$(dirname "$(readlink -f "${BASH_SOURCE[0]}")")/.."
mapfile -t files < <(find cases examples/causes -name '*.h2' | LC_ALL=C sort)
proved=
if command -v prove >/dev/null; then
    proved='not ok'
    # Its own output is of interest where it fails.
    if said=$(prove -r --ext .h2 -e "${run[*]} check" cases 2>&1); then proved=ok; else echo "$said" >&2; fi
fi
"${run[@]}" check "${files[@]}" | awk -v proved="$proved" '
    { print }
    /^ok / { passed++ }
    /^not ok / { failed++ }
    /^1\.\.[0-9]+$/ { planned = substr($0, 4) + 0 }
    # A run that was cut off has no plan, or another number of verdicts.
    END {
        if (planned != passed + failed || planned == 0) failed++
        if (proved == "ok") passed++
        if (proved == "not ok") { print "prove: not all hold"; failed++ }
        print passed + 0 " passed, " failed + 0 " failed"
        if (failed) exit 1
    }'

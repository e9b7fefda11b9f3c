#!/bin/sh
# Installs h2_bench for a user: the program, the launcher, the manual page, completions, the page of a browser, the library for other languages and documents. It needs no
# kit, no Python and no git.
#
#   tools/install.sh PREFIX     as ~/.local or /usr/local; an older one there is replaced
#
#   PREFIX/bin/h2_bench                                          the launcher
#   PREFIX/libexec/h2_bench/h2_bench                             the program
#   PREFIX/share/man/man1/h2_bench.1                             the manual page
#   PREFIX/share/bash-completion/completions/h2_bench, PREFIX/share/zsh/site-functions/_h2_bench, PREFIX/share/fish/vendor_completions.d/h2_bench.fish
#   PREFIX/lib/libh2_bench.so, PREFIX/include/h2_bench.h, PREFIX/share/h2_bench/python/h2_bench.py, PREFIX/share/h2_bench/js/h2_bench.mjs, where the library is built or released
#   PREFIX/share/doc/h2_bench                                    the page h2_bench.html; of docs TABLE, RULES, EXPLAIN, FORMATS, CASES, BOOKS, CLIENT-CI, CAPTURE, EMBED
#
# The program is the one that ./h2_bench runs: proved here or released. Nothing is installed where release/ is not that of its SHA256SUMS.
set -eu
self=$(readlink -f "$0")
top=${self%/*/*}

fail() {
    echo "install.sh: $*: nothing is installed" >&2
    exit 1
}

# Ends where a file of the release does not have the octets that SHA256SUMS names.
check_sums() {
    command -v sha256sum >/dev/null || fail "sha256sum is needed to check the release"
    for name in h2_bench h2_bench.html $(sed -n 's/.*  \(lib.*\)$/\1/p' "$top/release/SHA256SUMS"); do
        [ -f "$top/release/$name" ] || fail "release/$name is not there"
        found=$(sha256sum <"$top/release/$name")
        wanted=none
        while read -r sum of; do
            if [ "$of" = "$name" ]; then wanted=$sum; fi
        done <"$top/release/SHA256SUMS"
        [ "${found%% *}" = "$wanted" ] || fail "release/$name has the sum ${found%% *}, and SHA256SUMS wants $wanted"
    done
}

# put MODE FILE TO: a program that is being run can't be written, but its name can be taken.
put() {
    mkdir -p "${3%/*}"
    cp "$2" "$3.new"
    chmod "$1" "$3.new"
    mv -f "$3.new" "$3"
}

if [ $# != 1 ] || [ -z "$1" ]; then
    sed -n '2,/^set/{/^#/s/^# \{0,1\}//p}' "$self" >&2
    exit 2
fi
prefix=$1
if [ -d "$top/release" ]; then
    [ -f "$top/release/SHA256SUMS" ] || fail "release/SHA256SUMS is not there"
    check_sums
fi
fits=1
program=$("$top/h2_bench" --which) || fits=
[ -x "$program" ] || fail "there is no program: nothing is released, and nothing is proved here"
if [ -z "$fits" ]; then echo "install.sh: sources have changed since the program was proved, and this installs what was proved" >&2; fi
put 755 "$program" "$prefix/libexec/h2_bench/h2_bench"
put 755 "$top/h2_bench" "$prefix/bin/h2_bench"
put 644 "$top/share/h2_bench.1" "$prefix/share/man/man1/h2_bench.1"
put 644 "$top/share/h2_bench.bash" "$prefix/share/bash-completion/completions/h2_bench"
put 644 "$top/share/_h2_bench" "$prefix/share/zsh/site-functions/_h2_bench"
put 644 "$top/share/h2_bench.fish" "$prefix/share/fish/vendor_completions.d/h2_bench.fish"
for name in TABLE RULES EXPLAIN FORMATS CASES BOOKS CLIENT-CI CAPTURE EMBED; do put 644 "$top/docs/$name.md" "$prefix/share/doc/h2_bench/$name.md"; done
if [ -f "$top/release/h2_bench.html" ]; then put 644 "$top/release/h2_bench.html" "$prefix/share/doc/h2_bench/h2_bench.html"; fi
library=$top/out/lib/libh2_bench.so
[ -f "$library" ] || library=$top/release/libh2_bench.so
if [ -f "$library" ]; then
    put 644 "$library" "$prefix/lib/libh2_bench.so"
    put 644 "$top/share/h2_bench.h" "$prefix/include/h2_bench.h"
    put 644 "$top/share/python/h2_bench.py" "$prefix/share/h2_bench/python/h2_bench.py"
    put 644 "$top/share/js/h2_bench.mjs" "$prefix/share/h2_bench/js/h2_bench.mjs"
fi
echo "installed in $prefix; the command is $prefix/bin/h2_bench"

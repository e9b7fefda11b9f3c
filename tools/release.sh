#!/usr/bin/env bash
# The release: the proved program, the page and the library, as release/ has them. docs/RELEASE.md has what they are.
#
#   tools/release.sh [--anew] [--page FILE]             proves and builds the program where that is not done yet, builds the page and the library, and writes release/
#   tools/release.sh --check [--anew] [--page FILE]     does the same, writes nothing, and compares octet for octet what was made of the same sources
#   tools/release.sh --compare PROGRAM                  compares the released program with that one, which was built from the sources as they are; where these are newer
#                                                       than the release it says by how many commits, and compares nothing
#   tools/release.sh --has-page                         status 0 where the released page is made of the files as they are
#   tools/release.sh --sums                             only whether release/ has the octets of its SHA256SUMS; it needs sha256sum alone
#
# --anew takes nothing from earlier proofs: about an hour on four processors, two on two. --page takes a page that tools/web.sh has built. What is released has to be committed. The last line of a
# comparison is `N passed, M failed`.
set -eu -o pipefail
top=$(dirname "$(dirname "$(readlink -f "${BASH_SOURCE[0]}")")")
cd "$top"
# What each is made of.
of_program=(crates crates.txt)
of_page=(web share/js examples cases tools/page.py crates crates.txt)
files=(h2_bench h2_bench.html libh2_bench.so SHA256SUMS SOURCES)
passed=0 failed=0

fail() {
    echo "release.sh: $*" >&2
    exit 1
}

well() {
    echo "release.sh: $*"
    passed=$((passed + 1))
}

bad() {
    echo "release.sh: $*"
    failed=$((failed + 1))
}

end() {
    echo "$passed passed, $failed failed"
    [ "$failed" = 0 ]
    exit
}

sum_of() {
    sha256sum <"$1" | cut -d ' ' -f 1
}

# What does not have the octets of SHA256SUMS. Each file of a release has to be there, and be in SHA256SUMS; one of before 0.3.0 has no library.
sums() {
    local sum name found
    if [ ! -d release ]; then
        echo "release.sh: nothing is released yet"
        end
    fi
    for name in SOURCES SHA256SUMS; do
        if [ ! -f "release/$name" ]; then bad "release/$name is not there"; fi
    done
    for name in h2_bench h2_bench.html $(sed -n 's/.*  \(lib.*\)$/\1/p' release/SHA256SUMS); do
        if [ ! -f "release/$name" ]; then
            bad "release/$name is not there"
            continue
        fi
        found=$(sum_of "release/$name")
        sum=$(sed -n "s/  $name\$//p" release/SHA256SUMS 2>/dev/null || :)
        if [ "$found" = "$sum" ]; then well "release/$name is that of SHA256SUMS"; else bad "release/$name has the sum $found, and SHA256SUMS wants ${sum:-none}"; fi
    done
    end
}

# same BUILT RELEASED
same() {
    if cmp -s "$1" "$2"; then
        well "$2 is the same, octet for octet: $(sum_of "$1")"
    else
        bad "$2 differs: released $(sum_of "$2"), built $(sum_of "$1"); $(cmp "$1" "$2" 2>&1 | head -n 1), $(cmp -l "$1" "$2" 2>/dev/null | wc -l) octets"
    fi
}

released() {
    sed -n "s/^$1 //p" release/SOURCES 2>/dev/null
}

sum_of_page() {
    {
        python3 -B tools/program.py sum h2_page
        git rev-parse HEAD:web HEAD:share/js HEAD:examples HEAD:cases HEAD:tools/page.py
    } | sha256sum | cut -d ' ' -f 1
}

is_program_of_these_sources() {
    [ "$(released sources)" = "$(python3 -B tools/program.py sum)" ]
}

is_page_of_these_sources() {
    [ "$(released page)" = "$(sum_of_page)" ] && [ -z "$(git status --porcelain -- "${of_page[@]}")" ]
}

is_library_of_these_sources() {
    [ "$(released library)" = "$(python3 -B tools/program.py sum h2_embed)" ]
}

# Says by how many commits these paths are newer than the release.
newer() {
    local since
    since=$(git log -1 --format=%H -- release/SOURCES)
    echo "release.sh: $1 newer than the release, by $(git rev-list --count ${since:+"$since"..}HEAD -- "${@:2}") commits"
}

compare() {
    if [ ! -f release/SOURCES ]; then
        echo "release.sh: nothing is released yet"
    elif is_program_of_these_sources; then
        same "$1" release/h2_bench
    else
        newer "the sources are" "${of_program[@]}"
    fi
    end
}

# The oldest C library that has all that the program asks for: the greatest of its version names.
least_library() {
    grep -a -o 'GLIBC_[0-9][0-9.]*' "$1" | LC_ALL=C sort -u -V | tail -n 1 | tr _ ' ' | sed 's/GLIBC/glibc/'
}

sources_of() {
    local version
    version=$(sed -n 's/^## //p' CHANGELOG.md | head -n 1)
    [ "h2_bench $version" = "$("$1" --version | head -n 1)" ] || fail "CHANGELOG.md has the version $version, and the program $("$1" --version | head -n 1)"
    echo "version $version"
    echo "tree $(git rev-parse HEAD:crates)"
    echo "page $(sum_of_page)"
    echo "library $(python3 -B tools/program.py sum h2_embed)"
    echo "sources $(python3 -B tools/program.py sum)"
    echo "kit $(rt version)"
    echo "needs Linux, x86-64-v2, $(least_library "$1")"
}

# Makes the five files of a release in a folder.
make() {
    local size what=()
    if [ -n "$anew" ] || ! python3 -B tools/program.py is-proved; then what=(--program); fi
    if [ -z "$page" ]; then what+=(--page "$1/page"); fi
    python3 -B tools/prove.py "${what[@]}" --library "$1" $anew
    # As the compiler made it: the symbols are 71 KB of 1.85 MB, and strip of one machine may write other octets than that of the next.
    install -m 755 crates/h2_program/out/h2_program "$1/h2_bench"
    install -m 644 "${page:-$1/page}" "$1/h2_bench.html"
    (cd "$1" && sha256sum h2_bench h2_bench.html libh2_bench.so >SHA256SUMS)
    sources_of "$1/h2_bench" >"$1/SOURCES"
    size=$(cd "$1" && cat "${files[@]}" | wc -c)
    [ "$size" -le 5000000 ] || fail "the release has $size octets, and may have 5,000,000"
    echo "release.sh: made a release of $size octets"
}

check_release() {
    if is_program_of_these_sources; then same "$1/h2_bench" release/h2_bench; else newer "the sources are" "${of_program[@]}"; fi
    if is_page_of_these_sources; then same "$1/h2_bench.html" release/h2_bench.html; else newer "what the page is made of is" "${of_page[@]}"; fi
    if [ ! -f release/libh2_bench.so ]; then
        echo "release.sh: no library is released"
    elif is_library_of_these_sources; then
        same "$1/libh2_bench.so" release/libh2_bench.so
    else
        newer "the sources of the library are" "${of_program[@]}"
    fi
    end
}

write_release() {
    local name
    mkdir -p release
    for name in "${files[@]}"; do
        # A program that is being run can't be written, but its name can be taken.
        cp -p "$1/$name" "release/.$name.new"
        mv "release/.$name.new" "release/$name"
    done
    echo "release.sh: wrote release/: commit it"
}

check='' page='' anew=''
while [ $# != 0 ]; do
    case $1 in
        --check) check=1 ;;
        --anew) anew=$1 ;;
        --page)
            page=$(realpath -- "$2")
            shift
            ;;
        --compare) compare "$2" ;;
        --has-page)
            is_page_of_these_sources
            exit
            ;;
        --sums) sums ;;
        *)
            sed -n '2,/^set/{/^#/s/^# \{0,1\}//p}' "$0" >&2
            exit 2
            ;;
    esac
    shift
done
command -v rt >/dev/null || fail "the Rattle kit is needed: rt is not on the PATH"
[ -z "$(git status --porcelain -- "${of_page[@]}" CHANGELOG.md)" ] || fail "commit the sources first: git status names what is not"
[ -z "$check" ] || [ -f release/SOURCES ] || fail "nothing is released yet"
work=$(mktemp -d)
trap 'rm -rf "$work"' EXIT
make "$work"
if [ -n "$check" ]; then check_release "$work"; fi
write_release "$work"

#!/usr/bin/env bash
# The launcher, tools/install.sh, and what is said of a release. They are tried in a small repository whose programs are scripts: each prints its name and its words.
#
#   tests/launcher.sh PROGRAM     PROGRAM is h2_bench: the launcher prints its help and version where no program is there
#
# The last line is `N passed, M failed`; the status is 1 where one failed.
set -u -o pipefail
real=$(realpath -- "$1")
cd "$(dirname "$(readlink -f "${BASH_SOURCE[0]}")")/.." || exit 2
here=$PWD
work=$(mktemp -d)
trap 'rm -rf "$work"' EXIT
chmod 711 "$work"
top=$work/top
passed=0 failed=0

# Folders of commands: those of any system, those of one without sha256sum, those of one with the kit, those of one with Python.
tools=(basename cat chmod cp cut dirname find ln mkdir mktemp mv readlink realpath rm sed sha256sum sleep sort touch xargs)
for folder in plain bare kit python; do
    mkdir "$work/$folder"
    for name in "${tools[@]}"; do ln -s "$(command -v "$name")" "$work/$folder/$name"; done
done
rm "$work/bare/sha256sum"
ln -s /bin/true "$work/kit/rt"
ln -s "$(python3 -c 'import sys; print(sys.executable)')" "$work/python/python3"

# program NAME FILE: a script in place of a program. As `serve` it notes its process, and waits.
program() {
    mkdir -p "${2%/*}"
    cat >"$2.new" <<END
#!/bin/sh
if [ "\$1" = serve ]; then
    echo \$\$ >"$work/serving"
    exec sleep 60
fi
echo "$1 \$*"
END
    chmod 755 "$2.new"
    mv "$2.new" "$2"
}

# A new repository, with a release of its sources. $1: proved, where these are proved there too.
fresh() {
    rm -rf "$top"
    mkdir -p "$top"/{.git,tools,tests,release,crates/h2_low/{src,specs},crates/h2_program/src}
    cp h2_bench "$top"
    cp tools/{install.sh,release.sh,program.py} "$top/tools"
    cp tests/all "$top/tests"
    ln -s "$here/share" "$here/docs" "$top"
    printf '# layer\nh2_low:\nh2_program: h2_low\n' >"$top/crates.txt"
    echo 'pub fn low() {}' >"$top/crates/h2_low/src/lib.rt"
    echo 'pub low : ℕ' >"$top/crates/h2_low/specs/Lib.antt"
    echo 'fn main() {}' >"$top/crates/h2_program/src/main.rt"
    touch "$top/.git/index"
    if [ ! -f "$work/sum" ]; then python3 -B "$top/tools/program.py" sum >"$work/sum"; fi
    program released "$top/release/h2_bench"
    echo page >"$top/release/h2_bench.html"
    (cd "$top/release" && sha256sum h2_bench h2_bench.html >SHA256SUMS)
    echo "sources $(cat "$work/sum")" >"$top/release/SOURCES"
    if [ "${1-}" = proved ]; then
        program proved "$top/crates/h2_program/out/h2_program"
        cp "$work/sum" "$top/crates/h2_program/out/h2_program.sources"
    fi
}

edit() {
    echo '// more' >>"$top/crates/h2_low/src/lib.rt"
}

count() {
    if [ "$1" = 0 ]; then
        passed=$((passed + 1))
    else
        failed=$((failed + 1))
        echo "FAILED $2"
        tail -n 5 "$work/out" "$work/errors"
    fi
}

# runs TITLE STATUS OUTPUT ERRORS COMMAND..: the command ends with that status and writes that output; standard error has that text, or, where it is empty, nothing.
runs() {
    local title=$1 wanted="$2 $3" text=$4 status=0 well=1
    shift 4
    (cd "$top" && "$@") >"$work/out" 2>"$work/errors" </dev/null || status=$?
    if [ "$status $(cat "$work/out")" = "$wanted" ]; then
        if [ -z "$text" ] && [ ! -s "$work/errors" ]; then well=0; fi
        if [ -n "$text" ] && grep -qF -e "$text" "$work/errors"; then well=0; fi
    fi
    count "$well" "$title: status $status"
}

# as FOLDER COMMAND..: with the commands of that folder alone.
as() {
    env PATH="$work/$1" "${@:2}"
}

# The launcher in a shell: its name, and its words.
in_shell() {
    local name=$1 missed=0 changed="sources have changed since this program was proved"
    shift
    fresh
    runs "$name: the released program" 0 "released play x y" "" as plain "$@" ./h2_bench play 'x y'
    runs "$name: the same, as it was noted" 0 "released play" "" as plain "$@" ./h2_bench play
    runs "$name: --which" 0 ./release/h2_bench "" as plain "$@" ./h2_bench --which
    edit
    touch "$top/.git/index"
    runs "$name: an edit that git knows of" 0 "released play" "$changed and released" as plain "$@" ./h2_bench play
    fresh
    as kit "$@" "$top/h2_bench" >"$work/out"
    edit
    runs "$name: an edit, with the kit" 0 "released play" "$changed; --unproved runs" as kit "$@" ./h2_bench play
    fresh
    rm -r "$top/.git"
    runs "$name: no git" 0 "released play" "" as plain "$@" ./h2_bench play
    edit
    runs "$name: an edit, no git" 0 "released play" "$changed" as plain "$@" ./h2_bench play
    fresh
    for _ in {1..10}; do
        as plain "$@" "$top/h2_bench" >"$work/out"
        echo '// more' >>"$top/crates/h2_program/src/main.rt"
        if as plain "$@" "$top/h2_bench" --which >"$work/out"; then missed=$((missed + 1)); fi
        echo 'fn main() {}' >"$top/crates/h2_program/src/main.rt"
        if ! as plain "$@" "$top/h2_bench" --which >"$work/out"; then missed=$((missed + 1)); fi
    done
    count "$missed" "$name: $missed of 20 edits right after a run were missed"
    fresh proved
    runs "$name: proved here and released" 0 "proved play" "" as plain "$@" ./h2_bench play
    echo "0 h2_low" >"$top/crates/h2_program/out/h2_program.sources"
    runs "$name: other sources proved here, these released" 0 "released play" "" as plain "$@" ./h2_bench play
    edit
    touch -d '2 hours ago' "$top/release/h2_bench"
    runs "$name: other sources proved here, and before released" 0 "proved play" "$changed" as kit "$@" ./h2_bench play
    touch -d '3 hours ago' "$top/crates/h2_program/out/h2_program"
    rm "$top/out/launcher"
    runs "$name: other sources released, and before proved here" 0 "released play" "$changed" as kit "$@" ./h2_bench play
    rm -r "$top/release"
    runs "$name: other sources proved here, nothing released" 0 "proved play" "$changed" as kit "$@" ./h2_bench play
    fresh
    edit
    # The shell of busybox may have these commands in itself.
    if ! as none "$@" -c 'command -v sha256sum' >"$work/out"; then
        runs "$name: no sha256sum" 0 "released play" "" as bare "$@" ./h2_bench play
        runs "$name: no commands" 0 "released play" "" as none "$@" ./h2_bench play
    fi
    runs "$name: --prove without Python" 2 "" "--prove needs Python 3 and the Rattle kit" as plain "$@" ./h2_bench --prove
    runs "$name: --unproved without Python" 2 "" "--unproved needs Python 3 and the Rattle kit" as plain "$@" ./h2_bench --unproved play
    without_writing "$name" "$@"
    ended_by_kill "$name: serve" plain "$@" ./h2_bench serve 8080 1
    rm -r "$top/release"
    runs "$name: no program" 2 "" "there is no program: release/h2_bench is not there" as plain "$@" ./h2_bench play
}

# In a folder that can't be written: as root, by another user.
without_writing() {
    local name=$1 user=()
    shift
    fresh
    if [ "$(id -u)" = 0 ]; then
        user=("$(command -v setpriv)" --reuid=65534 --regid=65534 --clear-groups)
        if ! "${user[@]}" test -x "$top/h2_bench"; then
            echo "tests/launcher.sh: $name: a folder that can't be written was not tried, since nobody else than root can be"
            return
        fi
    fi
    chmod a-w "$top"
    runs "$name: a folder that can't be written" 0 "released play" "" as plain "${user[@]}" "$@" ./h2_bench play
    chmod u+w "$top"
    mkdir "$top/out"
    chmod a-w "$top/out"
    runs "$name: a folder out/ that can't be written" 0 "released play" "" as plain "${user[@]}" "$@" ./h2_bench play
    chmod u+w "$top/out"
}

# ended_by_kill TITLE FOLDER COMMAND..: the program that serves is the process that was started, so it ends with it.
ended_by_kill() {
    local title=$1 folder=$2 started status=0
    shift 2
    rm -f "$work/serving"
    (cd "$top" && exec env PATH="$work/$folder" "$@") >"$work/out" 2>"$work/errors" </dev/null &
    started=$!
    for _ in {1..100}; do
        if [ -s "$work/serving" ]; then break; fi
        sleep 0.05
    done
    kill "$started"
    { wait "$started" || status=$?; } 2>/dev/null
    [ "$status" = 143 ] && [ "$(cat "$work/serving" 2>&1)" = "$started" ]
    count "$?" "$title: status $status"
}

# What is built without proof is found by tools/program.py.
without_proof() {
    fresh
    program unproved "$work/unproved"
    echo "print('$work/unproved')" >"$top/tools/program.py"
    runs "--unproved" 0 "unproved play" "nothing is proved of this run" as python sh ./h2_bench --unproved play
    ended_by_kill "--unproved serve" python sh ./h2_bench --unproved serve 8080 1
}

# Help and version where no program is there.
help_of() {
    local words status wanted
    fresh
    rm -r "$top/release"
    for words in --help -h help "help play" "play --help" "serve -h" "check --help" --version -V; do
        status=0
        # shellcheck disable=SC2086
        wanted=$("$real" $words 2>/dev/null) || status=$?
        # shellcheck disable=SC2086
        runs "no program: $words" "$status" "$wanted" "" as plain sh ./h2_bench $words
    done
    for words in "help none" "help version" "version --help" "play --help --help"; do
        # shellcheck disable=SC2086
        runs "no program: $words" 2 "" "there is no program" as plain sh ./h2_bench $words
    done
}

installed() {
    local file
    fresh
    runs "install.sh" 0 "installed in $work/prefix; the command is $work/prefix/bin/h2_bench" "" as plain sh tools/install.sh "$work/prefix"
    ln -s "$work/prefix/bin/h2_bench" "$work/link"
    runs "the installed launcher by a link" 0 "released play" "" as plain sh "$work/link" play
    runs "the installed launcher: --which" 0 "$work/prefix/bin/../libexec/h2_bench/h2_bench" "" as plain sh "$work/prefix/bin/h2_bench" --which
    for file in man/man1/h2_bench.1 bash-completion/completions/h2_bench zsh/site-functions/_h2_bench fish/vendor_completions.d/h2_bench.fish \
        doc/h2_bench/{h2_bench.html,{TABLE,RULES,EXPLAIN,FORMATS,CASES,BOOKS,CLIENT-CI,CAPTURE,EMBED}.md}; do
        test -s "$work/prefix/share/$file"
        count "$?" "install.sh: $file"
    done
    runs "install.sh over an older one" 0 "installed in $work/prefix; the command is $work/prefix/bin/h2_bench" "" as plain sh tools/install.sh "$work/prefix"
    runs "install.sh without sha256sum" 1 "" "sha256sum is needed" as bare sh tools/install.sh "$work/refused"
}

# A release with other octets than its SHA256SUMS is refused, with both sums.
damaged() {
    local name wanted found command
    for name in h2_bench h2_bench.html; do
        fresh
        wanted=$(sha256sum <"$top/release/$name")
        echo '# more' >>"$top/release/$name"
        found=$(sha256sum <"$top/release/$name")
        runs "install.sh of a damaged $name" 1 "" "release/$name has the sum ${found%% *}, and SHA256SUMS wants ${wanted%% *}" as plain sh tools/install.sh "$work/refused"
        for command in "tools/release.sh --sums" tests/all; do
            # shellcheck disable=SC2086
            (cd "$top" && bash $command) >"$work/out" 2>"$work/errors"
            [ $? = 1 ] && grep -qF "release/$name has the sum ${found%% *}, and SHA256SUMS wants ${wanted%% *}" "$work/out" && [ "$(tail -n 1 "$work/out")" = "1 passed, 1 failed" ]
            count "$?" "$command, of a damaged $name"
        done
    done
    fresh
    rm "$top/release/SHA256SUMS"
    runs "install.sh without SHA256SUMS" 1 "" "release/SHA256SUMS is not there" as plain sh tools/install.sh "$work/refused"
    [ ! -e "$work/refused" ]
    count "$?" "nothing is installed where it is refused"
}

# What the gate says of the release beside the program that it has built.
compared() {
    local git=(git -C "$top" -c user.name=h2_bench -c user.email=h2_bench@localhost)
    fresh
    rm -r "$top/.git"
    git init -q "$top"
    "${git[@]}" add -A && "${git[@]}" commit -qm release
    runs "release.sh --compare with the same" 0 "release.sh: release/h2_bench is the same, octet for octet: $(sha256sum <"$top/release/h2_bench" | cut -d ' ' -f 1)
1 passed, 0 failed" "" bash tools/release.sh --compare release/h2_bench
    program other "$work/other"
    (cd "$top" && bash tools/release.sh --compare "$work/other") >"$work/out" 2>"$work/errors"
    [ $? = 1 ] && grep -q '^release.sh: release/h2_bench differs: ' "$work/out"
    count "$?" "release.sh --compare with another"
    edit
    "${git[@]}" commit -qam more
    runs "release.sh --compare of newer sources" 0 "release.sh: the sources are newer than the release, by 1 commits
0 passed, 0 failed" "" bash tools/release.sh --compare "$work/other"
    rm -r "$top/release"
    runs "release.sh --compare without a release" 0 "release.sh: nothing is released yet
0 passed, 0 failed" "" bash tools/release.sh --compare "$work/other"
}

mkdir "$work/none"
for shell in dash bash busybox; do
    if ! command -v "$shell" >/dev/null; then
        echo "tests/launcher.sh: $shell is not installed"
        continue
    fi
    words=("$(command -v "$shell")")
    if [ "$shell" = busybox ]; then words+=(sh); fi
    in_shell "$shell" "${words[@]}"
done
ln -s "$(command -v sh)" "$work/plain/sh"
ln -s "$(command -v sh)" "$work/bare/sh"
ln -s "$(command -v sh)" "$work/python/sh"
without_proof
help_of
installed
damaged
if command -v git >/dev/null; then compared; else echo "tests/launcher.sh: git is not installed"; fi
echo "$passed passed, $failed failed"
[ "$failed" = 0 ]

#!/usr/bin/env bash
# Runs the program with its first allocation refused, then with its second, and so on until a run asks for no more.
#
#   tests/refused-memory.sh [--stored] [PROGRAM]     PROGRAM is the proved one of this repository unless it is named
#
# --stored: only the run that crates/h2_program has, which takes a second and is part of the gate. All runs take about a minute, and are not.
#
# A malloc of some 25 lines is compiled with the kit's clang and loaded before the C library's; it refuses the N-th call of malloc, calloc, realloc and
# posix_memalign that the process makes once it has started. A program that is built without proof has a malloc of its own, and can't be tried. Each run must end in
# one of these ways:
#   - as with ample memory, the same output and status: the allocation was one that the run can do without;
#   - with status 1 and the one line `fault 0`;
#   - `play --each`: with status 1 and `fault 0` behind the first places, each of them whole;
#   - `table`: with status 1 and `fault 0` behind the first lines of its output, each of them whole;
#   - `debug`: with the one line `fault 0` as the answer to one command other than `show` and `clear`, and all other answers as if that command were not
#     there; with `--prompt`, or as the answer to each `explain` and `list`;
#   - `explain`: with status 1 and `fault 0` behind the first lines of its output, each of them whole;
#   - `serve`: with `fault 0` behind `listening PORT`, or with `connection 1 fault 0`; the client has received the first octets of what it
#     receives with ample memory. Where it explains, the first lines of that may be there, each of them whole. With `--strict` the status is 1, or the verdict
#     with ample memory: never 0 for a client that broke a rule.
# Standard error has sentences of the run with ample memory, those that say that memory is out, and, of a server, that a connection could not be accepted, and nothing
# else. The last line is `N passed, M failed`, a run each.
set -eu
top=$(cd "$(dirname "$0")/.." && pwd)
stored=
if [ "${1-}" = --stored ]; then
    stored=1
    shift
fi
program=${1-}
if [ -z "$program" ]; then
    program=$(python3 -B "$top/tools/program.py" proved)
fi
made=$(mktemp -d)
trap 'rm -rf "$made"' EXIT

# No header and no start files: the C library is the program's.
kit=$(dirname "$(dirname "$(readlink -f "$(command -v rt)")")")
"$kit/toolchain/bin/clang" --target=x86_64-unknown-linux-gnu -O1 -shared -fPIC -nostdlib -fuse-ld=lld -o "$made/refuse.so" "$top/tests/refuse.c"

# Runs the program on $made/input: its N-th allocation is refused, or none where N is 0. Leaves output, errors, status, and what was refused.
run() {
    local call=$1
    shift
    : > "$made/refused"
    status=0
    REFUSED_CALL=$call LD_PRELOAD=$made/refuse.so "$program" "$@" < "$made/input" > "$made/output" 2> "$made/errors" 9> "$made/refused" || status=$?
}

right=0
wrong=0
fail() {
    echo "  allocation $1 of '$name': $2" >&2
    wrong=$((wrong + 1))
}

# The last line, and the status.
end() {
    echo "$right passed, $wrong failed"
    [ "$wrong" = 0 ]
    exit
}

printf 'fault 0\n' > "$made/fault"
printf 'fault 0\n.\n' > "$made/fault-dot"

# Whether the output is some first places of the whole, and then the fault.
is_cut_between_places() {
    local length
    [ "$(tail -n 1 "$made/output")" = 'fault 0' ] || return 1
    length=$(($(wc -c < "$made/output") - 8))
    head -c "$length" "$made/output" | cmp -s - <(head -c "$length" "$made/whole") || return 1
    [ "$(tail -c "+$((length + 1))" "$made/whole" | head -c 5)" = 'item ' ] || [ "$length" = "$(wc -c < "$made/whole")" ]
}

# Whether the output is some first lines of the whole, and then the fault.
is_cut_between_lines() {
    local length
    [ "$(tail -n 1 "$made/output")" = 'fault 0' ] || return 1
    length=$(($(wc -c < "$made/output") - 8))
    head -c "$length" "$made/output" | cmp -s - <(head -c "$length" "$made/whole") || return 1
    [ -z "$(head -c "$length" "$made/output" | tail -c 1)" ]
}

# refused_sessions FIRST WORD..: what a session with these words prints where one of its commands is refused memory, a file for each command that takes some. The
# first command is on line FIRST.
refused_sessions() {
    local lines line length first=$1 fault=$made/fault
    shift
    case " $* " in *' --prompt dot '*) fault=$made/fault-dot ;; esac
    lines=$(wc -l < "$made/input")
    cp "$made/input" "$made/session"
    for line in $(seq "$first" "$lines"); do
        case $(sed -n "${line}p" "$made/session") in show | clear) continue ;; esac
        head -n $((line - 1)) "$made/session" > "$made/input"
        run 0 "$@"
        length=$(wc -c < "$made/output")
        cp "$made/output" "$made/session-$line"
        cat "$fault" >> "$made/session-$line"
        sed "${line}d" "$made/session" > "$made/input"
        run 0 "$@"
        tail -c "+$((length + 1))" "$made/output" >> "$made/session-$line"
    done
    cp "$made/session" "$made/input"
}

# A session for programs that was refused memory for what it keeps of its octets: each `explain` and `list` answers `fault 0`.
cut_session() {
    awk '
        FNR == NR { command[FNR - 1] = $0; next }
        FNR == 1 { place = 1 }
        { is_refused = command[place] == "explain" || command[place] == "list" }
        $0 == "." { if (is_refused) print "fault 0"; print; place++; next }
        !is_refused
    ' "$made/input" "$made/whole" > "$made/session-cut"
}

is_session_with_a_refusal() {
    local session
    for session in "$made"/session-*; do
        if cmp -s "$made/output" "$session"; then return 0; fi
    done
    return 1
}

# Whether the run ended as one whose memory was refused may end.
ends_well() {
    if cmp -s "$made/output" "$made/whole" && [ "$status" = "$whole_status" ]; then
        spared=$((spared + 1))
    elif [ "$status" = 1 ] && { cmp -s "$made/output" "$made/fault" || cmp -s "$made/output" "$made/fault-dot"; }; then
        alone=$((alone + 1))
    elif [ "$kind" = places ] && [ "$status" = 1 ] && is_cut_between_places; then
        behind=$((behind + 1))
    elif [ "$kind" = lines ] && [ "$status" = 1 ] && is_cut_between_lines; then
        behind=$((behind + 1))
    elif [ "$kind" = session ] && [ "$status" = 0 ] && is_session_with_a_refusal; then
        behind=$((behind + 1))
    else
        return 1
    fi
}

# refuse_each KIND NAME WORD..: all runs of the program with these words on $made/input.
refuse_each() {
    kind=$1
    name=$2
    shift 2
    run 0 "$@"
    cp "$made/output" "$made/whole"
    cp "$made/errors" "$made/whole-errors"
    whole_status=$status
    if [ "$whole_status" != 0 ]; then fail 0 "status $status with ample memory"; fi
    rm -f "$made"/session-*
    if [ "$kind" = session ]; then
        case " $* " in
        *' --in '*) refused_sessions 1 "$@" ;;
        *) refused_sessions 2 "$@" ;;
        esac
        case " $* " in *' --prompt dot '*) cut_session ;; esac
    fi
    alone=0 behind=0 spared=0
    local call
    for ((call = 1; ; call++)); do
        run "$call" "$@"
        [ -s "$made/refused" ] || break
        if ! ends_well; then
            fail "$call" "status $status, output: $(head -c 300 "$made/output")"
        elif grep -vxF -f "$made/whole-errors" "$made/errors" | grep -qv '^\([^:]*: \)\?out of memory'; then
            fail "$call" "standard error: $(head -c 300 "$made/errors")"
        else
            right=$((right + 1))
        fi
    done
    echo "$name: $((call - 1)) allocations; refused: $alone end in 'fault 0' alone, $behind behind whole answers, $spared are done without"
    if [ "$alone" = 0 ]; then fail 1 "no run ended in 'fault 0': is the malloc of this script loaded?"; fi
}

# Serves one connection, whose client sends the octets of $made/input; leaves as `run` does, and what the client received.
serve() {
    local call=$1 server
    shift
    : > "$made/refused"
    status=0
    port=$((20000 + RANDOM % 20000))
    REFUSED_CALL=$call LD_PRELOAD=$made/refuse.so "$program" serve "$port" 1 "$@" > "$made/output" 2> "$made/errors" 9> "$made/refused" &
    server=$!
    python3 "$top/tests/clients/refused.py" "$port" "$server" < "$made/input" > "$made/received"
    wait "$server" || status=$?
}

# Whether a server whose memory was refused ended as it may end.
serves_well() {
    local lines received
    lines=$(tr '\n' ' ' < "$made/output")
    received=$(wc -c < "$made/received")
    head -c "$received" "$made/whole" | cmp -s - "$made/received" || return 1
    case "$status $lines" in
    "0 listening $port connection 1 end input ") cmp -s "$made/received" "$made/whole" && spared=$((spared + 1)) ;;
    "1 fault 0 ") alone=$((alone + 1)) ;;
    "1 listening $port fault 0 " | "0 listening $port connection 1 fault 0 ") behind=$((behind + 1)) ;;
    *) return 1 ;;
    esac
}

# The lines of the output, without what differs from run to run: the port and the times.
lines_printed() {
    sed -E 's/^\+[0-9]+ //; s/^\{"time":[0-9]+,/{/; s/^listening .*/listening/' "$made/output"
}

# Whether a server that explains ended as it may end where memory was refused.
explains_well() {
    local received last
    received=$(wc -c < "$made/received")
    head -c "$received" "$made/whole" | cmp -s - "$made/received" || return 1
    lines_printed > "$made/lines"
    if cmp -s "$made/lines" "$made/whole-lines" && [ "$status" = "$whole_status" ]; then
        spared=$((spared + 1))
        return
    fi
    last=$(tail -n 1 "$made/lines")
    sed -i '$d' "$made/lines"
    if [ "$last" = 'fault 0' ]; then
        [ "$status" = 1 ] || return 1
        # The line of the connection is printed before it.
        sed -i '${/^connection 1 \(end\|fault\)/d}' "$made/lines"
    else
        [ "$last" = 'connection 1 fault 0' ] || return 1
        [ "$status" = "$whole_status" ] || { [ "$whole_status" != 0 ] && [ "$status" = 1 ]; } || return 1
    fi
    head -n "$(wc -l < "$made/lines")" "$made/whole-lines" | cmp -s - "$made/lines" || return 1
    if [ -s "$made/lines" ]; then behind=$((behind + 1)); else alone=$((alone + 1)); fi
}

# refuse_each_served HOW NAME WORD..: all runs of a server with these words; HOW says whether one ended as it may end.
refuse_each_served() {
    local how=$1
    name=$2
    shift 2
    serve 0 "$@"
    cp "$made/received" "$made/whole"
    cp "$made/errors" "$made/whole-errors"
    lines_printed > "$made/whole-lines"
    whole_status=$status
    alone=0 behind=0 spared=0
    "$how" || fail 0 "status $status with ample memory"
    alone=0 behind=0 spared=0
    local call
    for ((call = 1; ; call++)); do
        serve "$call" "$@"
        [ -s "$made/refused" ] || break
        if ! "$how"; then
            fail "$call" "status $status, output: $(head -c 300 "$made/output")"
        elif grep -vxF -f "$made/whole-errors" "$made/errors" | grep -qv '^\(connection 1: \)\?out of memory\|^port [0-9]* of 127.0.0.1 was listened on, and a connection could not be accepted'; then
            fail "$call" "standard error: $(head -c 300 "$made/errors")"
        else
            right=$((right + 1))
        fi
    done
    echo "$name: $((call - 1)) allocations; refused: $alone end in 'fault 0' alone, $behind behind 'listening', $spared are done without"
}

cd "$top"
cp crates/h2_program/stdin "$made/input"
mapfile -t words < crates/h2_program/args
refuse_each whole 'the stored run' "${words[@]}"
cmp -s "$made/whole" crates/h2_program/stdout || fail 0 'with ample memory the output is not crates/h2_program/stdout'
if [ -n "$stored" ]; then end; fi
cp examples/ping.hex "$made/input"
refuse_each whole 'play, three items' play
cp examples/get.hex "$made/input"
refuse_each whole 'play, an answer' play 'GET|/|200|6869|server=x'
refuse_each whole 'play in pieces' play --cut 7 'GET|/|200|6869'
refuse_each whole 'play with a book' play --book examples/site.toml
refuse_each places 'play --each' play --each 'GET|/|200|6869'
(cat examples/get.hex; echo 000000040100000000 0000080105000000033fe1ff03828684be) > "$made/input"
refuse_each places 'play --each, a larger header table' play --each --table 65536
cp examples/get.hex "$made/input"
refuse_each whole 'dis' dis
cp examples/upload.h2 "$made/input"
refuse_each whole 'asm' asm
printf 'add a b\nadd c d\nadd e f\nmax 40\nmax 101\n' > "$made/input"
refuse_each lines 'table' table 100
(cat examples/get.hex; printf 'step 2\nshow\nbreak type 1\nbreak at 1\nrun\nshow\nback 2\nshow\ngo 3\nclear\nshow\n') > "$made/input"
refuse_each session 'debug' debug 'GET|/|200|6869'
(tr -d '\n' < examples/get.hex; printf '\nlist\nstep 2\nexplain\nlist\nshow\nback 1\nexplain\nhelp\n') > "$made/input"
refuse_each session 'debug for programs' debug --prompt dot 'GET|/|200|6869'
cat > "$made/case.h2" <<'CASE'
;# a request and its answer
;@ --streams 7
;@ 'GET|/|200|6869'
PREFACE
SETTINGS 00 0 -
HEADERS 05 1 hi2,i6,i4
;< HEADERS 04 1 hi8
;< DATA 01 1 x6869
CASE
: > "$made/input"
refuse_each lines 'explain of a case' explain "$made/case.h2"
printf 'step 2\nshow\ngo 1\n' > "$made/input"
refuse_each session 'debug over a case' debug --in "$made/case.h2"
cp examples/get.hex "$made/input"
refuse_each_served serves_well 'serve' 'GET|/|200|6869'
refuse_each_served explains_well 'serve --times' --times 'GET|/|200|6869'
refuse_each_served explains_well 'serve --json' --json 'GET|/|200|6869'
# After the request: an increment of 0 on the connection, which no client may send (RFC 9113, 6.9).
echo 00000408000000000000000000 >> "$made/input"
refuse_each_served explains_well 'serve --strict' --strict 'GET|/|200|6869'

end

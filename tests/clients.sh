#!/usr/bin/env bash
# Real HTTP/2 clients against `h2_bench serve`, and nghttpd judged by `check --against`, over 127.0.0.1 alone. It uses
# the programs that are installed, says which it skips, prints a line PASS or FAIL for each check, and exits with 1 if one
# fails.
#
#   tests/clients.sh            all
#   tests/clients.sh curl go    these alone: curl, nghttp, h2load, python, go, node, rude, nghttpd, speed
#
# WATCH=1 has each connection explained and recorded: then the case that was recorded has to hold, and what `explain`
# says of it has to be what `serve --explain` printed.
#
# Debian's packages: curl nghttp2-client nghttp2-server python3-h2 golang-go golang-golang-x-net-dev nodejs.
# H2_BENCH is the program (default: the repository's h2_bench), PORT the first port that is used (default 18480).
set -u
PATH=$PATH:/usr/sbin
top=$(cd "$(dirname "$(readlink -f "${BASH_SOURCE[0]}")")/.." && pwd)
bench=${H2_BENCH:-$top/h2_bench}
port=$((${PORT:-18480} - 1))
python=/usr/bin/python3
work=$(mktemp -d)
server=
failed=0
passed=0

stop() {
    if [ -n "$server" ]; then
        kill "$server" 2>/dev/null
        wait "$server" 2>/dev/null
        server=
    fi
}
trap 'stop; rm -rf "$work"' EXIT

# check NAME WANTED FOUND
check() {
    if [ "$2" = "$3" ]; then
        echo "PASS $1"
        passed=$((passed + 1))
    else
        echo "FAIL $1: wanted '$2', found '$3'"
        failed=$((failed + 1))
    fi
}

# serve COUNT WORD..: starts the server for COUNT connections at the next port, and waits until it listens.
serve() {
    stop
    port=$((port + 1))
    local count=$1
    shift
    local watch=()
    if [ -n "${WATCH-}" ]; then
        mkdir "$work/$port"
        watch=(--explain --record "$work/$port")
    fi
    "$bench" serve "${watch[@]}" "$port" "$count" "$@" >"$work/server" 2>"$work/errors" &
    server=$!
    for _ in $(seq 600); do
        if grep -qs "^listening $port$" "$work/server"; then return 0; fi
        if ! kill -0 "$server" 2>/dev/null; then break; fi
        sleep 0.1
    done
    echo "FAIL the server does not listen on port $port"
    cat "$work/server" "$work/errors"
    exit 1
}

# served NAME LINE..: the server has ended with status 0, and has printed these lines behind `listening PORT`.
served() {
    local name=$1
    shift
    for _ in $(seq 100); do
        if ! kill -0 "$server" 2>/dev/null; then break; fi
        sleep 0.1
    done
    if kill -0 "$server" 2>/dev/null; then
        kill "$server"
        echo "FAIL $name: the server waits for another connection"
        failed=$((failed + 1))
    fi
    wait "$server"
    local status=$?
    server=
    check "$name: what the server prints" "$(printf '%s\n' "listening $port" "$@")" "$(lines_of_connections)"
    check "$name: the server's status" 0 "$status"
    if [ -n "${WATCH-}" ]; then recorded "$name"; fi
}

# The lines of the server that it prints without --explain too.
lines_of_connections() {
    sed '/^[0-9]*: /d; /^connection [0-9]* open$/d' "$work/server"
}

# recorded NAME: what was recorded of each connection holds, and is explained as it was while it was served.
recorded() {
    local name=$1 record number
    for record in "$work/$port"/connection-*.h2; do
        number=${record##*-}
        number=${number%.h2}
        "$bench" check "$record" >"$work/verdicts"
        check "$name: the record of connection $number holds" 0 $?
        check "$name: connection $number is explained alike" \
            "$("$bench" explain "$record" | cksum)" "$(sed -n "s/^$number: //p" "$work/server" | cksum)"
    done
}

# wants NAME COMMAND: whether a client is to be used.
wants() {
    if [ -n "$chosen" ] && ! grep -qw "$1" <<<"$chosen"; then return 1; fi
    if ! command -v "$2" >/dev/null; then
        echo "SKIP $1: $2 is not installed"
        return 1
    fi
}

hello='GET|/|200|68656c6c6f0a|content-type=text/plain'
upload='POST|/upload|200|746f6f6b20697421'
# 60,000 octets, close to the longest word that a command line can have.
large="GET|/large|200|$(printf '78%.0s' $(seq 60000))"
head -c 1000000 /dev/zero | tr '\0' 'u' >"$work/upload"

test_curl() {
    local curl="timeout 60 curl -sS --http2-prior-knowledge"
    serve 4 "$hello" "$upload" "$large"
    local url=http://127.0.0.1:$port
    check "curl: GET" "hello" "$($curl $url/)"
    check "curl: status and version" "404 2" "$($curl -o /dev/null -w '%{http_code} %{http_version}' $url/none)"
    check "curl: POST of 1,000,000 octets" "took it!200" \
        "$($curl -H 'Expect:' --data-binary "@$work/upload" -w '%{http_code}' $url/upload)"
    check "curl: 60,000 octets" "60000" "$($curl $url/large | wc -c)"
    served curl "connection "{1..4}" end input"
    local settings
    for settings in '--table 0' '--table 65536' '--window 1000 --credit 500' '--window 2147483647' '--frame 65536'; do
        # shellcheck disable=SC2086
        serve 2 $settings "$hello" "$upload"
        url=http://127.0.0.1:$port
        check "curl: GET, $settings" "hello" "$($curl $url/)"
        check "curl: POST of 1,000,000 octets, $settings" "took it!" \
            "$($curl -H 'Expect:' --data-binary "@$work/upload" $url/upload)"
        served "curl, $settings" "connection "{1..2}" end input"
    done
    case $(curl --version) in
    "curl 7.88."*)
        echo "SKIP curl: 100 requests on one connection: curl 7.88 fails at the second one, against nghttpd too"
        return
        ;;
    esac
    serve 1 "$hello"
    check "curl: 100 requests on one connection" "100" "$($curl "http://127.0.0.1:$port/#[1-100]" | grep -c '^hello$')"
    served "curl, 100 requests" "connection 1 end input"
}

test_nghttp() {
    local nghttp="timeout 60 nghttp"
    serve 7 "$hello" "$upload" "$large"
    local url=http://127.0.0.1:$port
    check "nghttp: GET" "hello" "$($nghttp $url/)"
    check "nghttp: 100 requests at once" "100" "$($nghttp -m100 $url/ | grep -c '^hello$')"
    check "nghttp: header table of 128, encoder's of 4,096" "100" \
        "$($nghttp -m100 -c128 --encoder-header-table-size=4096 $url/ | grep -c '^hello$')"
    check "nghttp: header table of 0, then of 65,536" "10" "$($nghttp -m10 -c0 -c65536 $url/ | grep -c '^hello$')"
    check "nghttp: padding" "took it!" "$($nghttp -b 200 -d "$work/upload" $url/upload)"
    check "nghttp: trailers" "took it!" "$($nghttp --trailer 'checksum: 00' -d "$work/upload" $url/upload)"
    local long
    long=$(printf 'a%.0s' $(seq 9000))
    check "nghttp: CONTINUATION" "hello" "$($nghttp --continuation -H "a: $long" -H "b: $long" $url/)"
    served nghttp "connection "{1..7}" end input"
    serve 2 --table 64 --window 1000 --credit 1000 --frame 65536 "$hello" "$upload"
    url=http://127.0.0.1:$port
    check "nghttp: 100 requests at once, settings of the server" "100" "$($nghttp -m100 $url/ | grep -c '^hello$')"
    check "nghttp: an upload, settings of the server" "took it!" "$($nghttp -d "$work/upload" $url/upload)"
    served "nghttp, settings of the server" "connection "{1..2}" end input"
    serve 1 "$hello" "$large"
    url=http://127.0.0.1:$port
    check "nghttp: small windows" "60000" "$($nghttp --window-bits=8 --connection-window-bits=8 $url/large | wc -c)"
    served "nghttp, small windows" "connection 1 end input"
}

# The number of requests that succeeded.
succeeded() {
    sed -n 's/^requests: .* \([0-9]*\) succeeded.*/\1/p'
}

# The requests a second.
rate() {
    sed -n 's/^finished in .*, \([0-9.]*\) req\/s.*/\1/p'
}

test_h2load() {
    serve 2 "$hello" "$large"
    local url=http://127.0.0.1:$port answers=1000
    # A case is read up to 16,777,216 octets, and its lines have two digits for each octet that was sent.
    if [ -n "${WATCH-}" ]; then answers=100; fi
    check "h2load: 10,000 requests, 10 at a time" "10000" "$(timeout 100 h2load -n 10000 -c 1 -m 10 $url/ | succeeded)"
    check "h2load: $answers answers of 60,000 octets" "$answers" \
        "$(timeout 100 h2load -n "$answers" -c 1 -m 10 $url/large | succeeded)"
    served h2load "connection "{1..2}" end input"
}

test_python() {
    if ! "$python" -c 'import h2' 2>/dev/null; then
        echo "SKIP python: the package h2 of $python is not installed"
        return
    fi
    serve 2 "$hello" "$upload" "$large"
    local line
    while read -r line; do
        check "python: ${line#* }" "ok" "${line%% *}"
    done < <(timeout 100 "$python" "$top/tests/clients/client.py" "$port" 2>&1)
    served python "connection 1 end input" "connection 2 end goaway 1"
}

test_go() {
    # golang.org/x/net/http2 from Debian's golang-golang-x-net-dev.
    if ! GO111MODULE=off GOPATH=/usr/share/gocode HOME=$work \
        go build -o "$work/client" "$top/tests/clients/client.go" 2>"$work/errors"; then
        echo "SKIP go: golang.org/x/net/http2 is not installed"
        return
    fi
    serve 1 "$hello" "$upload" "$large"
    local line
    while read -r line; do
        check "go: ${line#* }" "ok" "${line%% *}"
    done < <(timeout 100 "$work/client" "$port" 2>&1)
    served go "connection 1 end input"
}

test_node() {
    serve 1 "$hello" "$upload" "$large"
    local line
    while read -r line; do
        check "node: ${line#* }" "ok" "${line%% *}"
    done < <(timeout 100 node "$top/tests/clients/client.js" "$port" 2>&1)
    served node "connection 1 end input"
}

# Clients that reset, close, stop in mid-frame or send garbage, each followed by one that is served.
test_rude() {
    serve 12 "$hello" "$large"
    local line
    while read -r line; do
        check "rude: ${line#* }" "ok" "${line%% *}"
    done < <(timeout 100 "$python" "$top/tests/clients/rude.py" "$port" 2>&1)
    for _ in $(seq 100); do
        if ! kill -0 "$server" 2>/dev/null; then break; fi
        sleep 0.1
    done
    check "rude: a line for each connection" "12" "$(lines_of_connections | grep -c '^connection ')"
    check "rude: each second one ends well" "6" "$(grep -cE '^connection (2|4|6|8|10|12) end input$' "$work/server")"
    if [ -n "${WATCH-}" ]; then recorded rude; fi
    stop
}

# The rules that nghttpd broke, but for those that nghttp2 is known to break (docs/SERVERS.md).
broken() {
    "$bench" check --against "$1" "${@:2}" >"$work/verdicts"
    sed -n 's/^# broken: \([a-z-]*\),.*/\1/p' "$work/verdicts" | grep -vxE 'frame-too-large|initial-window-size-overflow|headers-on-skipped'
}

# nghttpd, judged by some cases. What a busy machine delays may look broken: then a second run counts.
test_nghttpd() {
    mkdir -p "$work/www"
    echo hello >"$work/www/index.html"
    local listens found
    listens=$("$python" -c 'import socket; s = socket.create_server(("127.0.0.1", 0)); print(s.getsockname()[1])')
    nghttpd --no-tls -a 127.0.0.1 -d "$work/www" "$listens" >/dev/null 2>&1 &
    server=$!
    sleep 0.5
    local cases=("$top"/cases/start.h2 "$top"/cases/frames/*.h2 "$top"/cases/settings/*.h2)
    found=$(broken "$listens" "${cases[@]}")
    if [ -n "$found" ]; then found=$(broken "$listens" "${cases[@]}"); fi
    check "nghttpd: it breaks no rule but those that are known" "" "$found"
    check "nghttpd: each case has a verdict" "$(cat "${cases[@]}" | grep -c '^;# ')" "$(grep -cE '^(not )?ok ' "$work/verdicts")"
    check "nghttpd: most are the same" "yes" "$(sed -n 's/^# same \([0-9]*\),.*/\1/p' "$work/verdicts" | awk '{ print ($1 > 70) ? "yes" : $1 }')"
    stop
}

test_speed() {
    mkdir -p "$work/www"
    echo hello >"$work/www/index.html"
    nghttpd --no-tls -a 127.0.0.1 -d "$work/www" $((port + 2)) >/dev/null 2>&1 &
    local other=$!
    serve 6 "$hello"
    sleep 0.5
    local load ours theirs
    for load in "h2load -n 10000 -c 1 -m 10" "h2load -n 100000 -c 1 -m 100"; do
        for _ in 1 2 3; do
            ours=$($load http://127.0.0.1:$port/ | rate)
            theirs=$($load http://127.0.0.1:$((port + 1))/ | rate)
            echo "SPEED $load, requests a second: h2_bench $ours, nghttpd $theirs"
        done
    done
    kill "$other"
    wait "$other" 2>/dev/null
    port=$((port + 1))
    stop
}

chosen="$*"
# Where the program is older than its sources, this builds it.
if ! "$bench" play </dev/null >/dev/null; then
    echo "FAIL $bench does not run"
    exit 1
fi
if wants curl curl; then test_curl; fi
if wants nghttp nghttp; then test_nghttp; fi
if wants h2load h2load; then test_h2load; fi
if wants python "$python"; then test_python; fi
if wants go go; then test_go; fi
if wants node node; then test_node; fi
if wants rude "$python"; then test_rude; fi
if wants nghttpd nghttpd; then test_nghttpd; fi
if wants speed h2load && wants speed nghttpd; then test_speed; fi
echo "$passed passed, $failed failed"
[ "$failed" -eq 0 ]

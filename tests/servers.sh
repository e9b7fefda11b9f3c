#!/usr/bin/env bash
# Judges the HTTP/2 servers of this machine by the cases, and writes docs/SERVERS.md: of each its version, how many cases have which verdict, and each rule that it
# broke, with the frames of a case. Outside the gate: what it says depends on the servers, and each broken rule is looked at by hand before it is called one
# (tests/servers/looked-at.tsv).
#
#   tests/servers.sh PROGRAM [NAME..]            judges these servers, or all that are installed; the results of the others are kept in out/servers
#   tests/servers.sh PROGRAM show NAME CASE..    plays cases to a server item by item, and shows the frames; 'start 2' is the second case of cases/start.h2
#
# NAME: nghttpd node go h2o nginx haproxy apache. The last four are proxies of a server that reads each request: alone, most answer before the request ends, which is lawful
# (RFC 9113, 8.1), and what comes then can't be judged; and h2o refuses POST.
#
# Debian's packages: nghttp2-server nodejs golang-go golang-golang-x-net-dev h2o nginx-light haproxy apache2. It needs no network but 127.0.0.1.
set -u -o pipefail
cd "$(dirname "$(readlink -f "${BASH_SOURCE[0]}")")/.."
top=$PWD
if ! program=$(command -v "${1-}"); then
    echo "tests/servers.sh: the first word is the program, such as release/h2_bench" >&2
    exit 2
fi
program=$(readlink -f "$program")
shift
names=(nghttpd node go h2o nginx haproxy apache)
kept=out/servers
work=$(mktemp -d)
PATH=$PATH:/usr/sbin
server=
backend=
trap 'stop; rm -rf "$work"' EXIT
mkdir -p "$work/www" "$kept"
printf hi >"$work/www/index.html"
chmod -R a+rX "$work"

stop() {
    [ -z "$server" ] || kill "$server" 2>/dev/null
    [ -z "$backend" ] || kill "$backend" 2>/dev/null
    wait $server $backend 2>/dev/null
    server=
    backend=
}

free_port() {
    python3 -c 'import socket; s = socket.create_server(("127.0.0.1", 0)); print(s.getsockname()[1])'
}

# listens PORT: waits until something listens there, five seconds at most.
listens() {
    for _ in $(seq 50); do
        if (exec 3<>"/dev/tcp/127.0.0.1/$1") 2>/dev/null; then return 0; fi
        sleep 0.1
    done
    return 1
}

# configure NAME PORT BACKEND: writes what the server needs.
configure() {
    case $1 in
        go) GO111MODULE=off GOFLAGS='' GOPATH=/usr/share/gocode GOCACHE=$work/cache go build -o "$work/server" "$top/tests/servers/server.go" ;;
        h2o)
            cat >"$work/h2o.conf" <<X
listen:
  host: 127.0.0.1
  port: $2
hosts:
  default:
    paths:
      /:
        proxy.reverse.url: http://127.0.0.1:$3
X
            ;;
        nginx)
            cat >"$work/nginx.conf" <<X
daemon off; master_process off; pid $work/nginx.pid; error_log $work/nginx.log;
events { worker_connections 64; }
http {
    access_log off;
    client_body_temp_path $work/b; proxy_temp_path $work/p; fastcgi_temp_path $work/f; uwsgi_temp_path $work/u; scgi_temp_path $work/s;
    server { listen 127.0.0.1:$2 http2; location / { proxy_pass http://127.0.0.1:$3; proxy_http_version 1.1; proxy_set_header Connection ''; } }
}
X
            ;;
        haproxy)
            cat >"$work/haproxy.cfg" <<X
defaults
  mode http
  timeout client 10s
  timeout connect 1s
  timeout server 5s
frontend f
  bind 127.0.0.1:$2 proto h2
  default_backend b
backend b
  server s 127.0.0.1:$3
X
            ;;
        apache)
            local modules
            modules=$(dpkg -L apache2-bin | grep -m1 '/mod_http2.so$' | xargs dirname)
            cat >"$work/apache.conf" <<X
ServerRoot $work
PidFile $work/apache.pid
ErrorLog $work/apache.log
Listen 127.0.0.1:$2
ServerName localhost
LoadModule mpm_event_module $modules/mod_mpm_event.so
LoadModule authz_core_module $modules/mod_authz_core.so
LoadModule http2_module $modules/mod_http2.so
LoadModule proxy_module $modules/mod_proxy.so
LoadModule proxy_http_module $modules/mod_proxy_http.so
Protocols h2c http/1.1
User nobody
Group nogroup
ProxyPass / http://127.0.0.1:$3/
X
            ;;
    esac
}

# run NAME PORT: becomes the server.
run() {
    cd "$work" || exit 1
    case $1 in
        nghttpd) exec nghttpd --no-tls --echo-upload -a 127.0.0.1 -d "$work/www" "$2" ;;
        node) exec node "$top/tests/servers/server.js" "$2" ;;
        go) exec "$work/server" "$2" ;;
        h2o) exec h2o -m worker -c h2o.conf ;;
        nginx) exec nginx -c "$work/nginx.conf" -e "$work/nginx.log" ;;
        haproxy) exec haproxy -db -f haproxy.cfg ;;
        apache) exec apache2 -d "$work" -f "$work/apache.conf" -DFOREGROUND ;;
    esac
}

# What a server is, with its version.
version() {
    case $1 in
        nghttpd) nghttpd --version | sed 's,^nghttpd nghttp2/,nghttpd ,' ;;
        node) node -p '"node " + process.versions.node + " (nghttp2 " + process.versions.nghttp2 + ")"' ;;
        go) echo "Go's x/net/http2 $(dpkg-query -Wf '${Version}' golang-golang-x-net-dev | sed 's/^1://; s/+.*//')" ;;
        h2o) h2o --version | sed -n '1s/ version//p' ;;
        nginx) nginx -v 2>&1 | sed 's,.*nginx/,nginx ,' ;;
        haproxy) haproxy -v | sed -n '1s/^HAProxy version \([0-9.]*\).*/haproxy \1/p' ;;
        apache) apache2 -v | sed -n '1s,.*Apache/\([0-9.]*\).*,Apache \1,p' ;;
    esac
}

is_installed() {
    case $1 in
        apache) command -v apache2 ;;
        go) command -v go && [ -d /usr/share/gocode/src/golang.org/x/net/http2 ] ;;
        *) command -v "$1" ;;
    esac >/dev/null
}

# begin NAME: the server listens at $port.
begin() {
    port=$(free_port)
    local reads
    reads=$(free_port)
    configure "$1" "$port" "$reads" || return 1
    if [[ $1 =~ ^(h2o|nginx|haproxy|apache)$ ]]; then
        python3 "$top/tests/servers/backend.py" "$reads" 2>/dev/null &
        backend=$!
        listens "$reads" || return 1
    fi
    (run "$1" "$port") >"$work/$1.out" 2>&1 &
    server=$!
    listens "$port"
}

if [ "${1-}" = show ]; then
    begin "$2" || exit 1
    python3 tests/servers/frames.py "$program" "$port" "${@:3}"
    exit
fi
[ $# = 0 ] || names=("$@")
mapfile -t cases < <(find cases -name '*.h2' | LC_ALL=C sort)
for name in "${names[@]}"; do
    if ! is_installed "$name"; then
        echo "$name: skipped, not installed" >&2
        continue
    fi
    if ! begin "$name"; then
        echo "$name: it does not listen: $(tail -1 "$work/$name.out")" >&2
        stop
        continue
    fi
    version "$name" >"$kept/$name.version"
    date -u +%F >"$kept/$name.date"
    "$program" check --against "$port" "${cases[@]}" >"$kept/$name.tap" 2>"$work/$name.err"
    python3 tests/servers/frames.py "$program" "$port" --broken "$kept/$name.tap" >"$kept/$name.frames"
    stop
    echo "$name: $(grep '^# same' "$kept/$name.tap" || tail -1 "$work/$name.err")" >&2
done
python3 tests/servers/page.py "$kept" >"$work/page" && cp "$work/page" docs/SERVERS.md

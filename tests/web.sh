#!/usr/bin/env bash
# The page against the program, octet for octet: all examples, scripts of causes and cases, random inputs, memory that does not suffice; and the page in a browser.
#
#   web.sh [PROGRAM]     the page that tools/web.sh has built, else the released one; PROGRAM is the launcher unless it is named
#
# It needs Node 20 or later, and looks at the page in Chromium where that is installed. Without Node it says so and does nothing. The last line is `N passed, M failed`.
set -u -o pipefail
program=$(realpath -- "${1-$(dirname "$0")/../h2_bench}")
cd "$(dirname "$(readlink -f "${BASH_SOURCE[0]}")")/.."
left_out() {
    echo "web.sh: the page was not compared: $1"
    echo "0 passed, 0 failed"
    exit 0
}
command -v node >/dev/null || left_out "there is no node on the PATH"
flags=()
case $(node --version) in
    v2[0-3].*) flags=(--experimental-wasm-memory64) ;;
    v1[0-9].* | v[0-9].*) left_out "node $(node --version) has no 64-bit memory" ;;
esac
page=web/h2_bench.html
[ -f "$page" ] || page=release/h2_bench.html
[ -f "$page" ] || left_out "tools/web.sh has not built it"
browser=()
for name in chromium chromium-browser google-chrome; do
    if command -v "$name" >/dev/null; then
        browser=(--chromium "$name")
        break
    fi
done
[ ${#browser[@]} != 0 ] || echo "web.sh: the page was not opened: no Chromium is installed"
timeout 900 node "${flags[@]}" tests/web.mjs "$page" "$program" "${browser[@]}" ${PICTURE:+--picture "$PICTURE"} ${INPUTS:+--inputs "$INPUTS"}

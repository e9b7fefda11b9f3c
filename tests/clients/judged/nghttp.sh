#!/bin/bash
# nghttp.sh KIND PORT UPLOAD: the requests of a file of dialogues by nghttp. Its status is 0 in most cases, so that of each response is read from its statistics.
url=http://127.0.0.1:$2
nghttp=(nghttp -s -n --no-dep --no-push -t 20)
case $1 in
    get) said=$("${nghttp[@]}" "$url/" 2>&1) ;;
    upload) said=$("${nghttp[@]}" -d "$3" -H ':method: POST' "$url/p" 2>&1) ;;
    small-window) said=$("${nghttp[@]}" -w10 -W10 "$url/" 2>&1) ;;
    two-requests) said=$("${nghttp[@]}" "$url/1" "$url/2" 2>&1) ;;
    *) exit 9 ;;
esac
echo "$said" | tail -n 4
# Lines `id responseEnd requestStart process code size path`, of streams that have a response.
answered() {
    awk -v id="$1" '$1 == id && $5 > 0 { found = 1 } END { exit !found }' <<<"$said"
}

status=0
if ! answered 1; then status=1; fi
if [ "$1" = two-requests ] && ! answered 3; then status=$((status + 2)); fi
exit $status

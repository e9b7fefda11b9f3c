#!/bin/bash
# h2load.sh KIND PORT UPLOAD: the requests of a file of dialogues by h2load. It says how many failed, not which: status 4 is one of two.
url=http://127.0.0.1:$2
h2load=(h2load -c1 -T20)
requests=1
case $1 in
    get) said=$("${h2load[@]}" -n1 -m1 "$url/" 2>&1) ;;
    upload) said=$("${h2load[@]}" -n1 -m1 -d "$3" "$url/p" 2>&1) ;;
    small-window) said=$("${h2load[@]}" -n1 -m1 -w10 -W10 "$url/" 2>&1) ;;
    two-requests) requests=2 said=$("${h2load[@]}" -n2 -m2 "$url/1" 2>&1) ;;
    next-request) requests=2 said=$("${h2load[@]}" -n2 -m1 "$url/1" 2>&1) ;;
    *) exit 9 ;;
esac
grep -E '^(requests|status codes):' <<<"$said"
case $requests-$(sed -n 's/^requests: .* \([0-9]*\) succeeded.*/\1/p' <<<"$said") in
    1-1 | 2-2) exit 0 ;;
    2-1) exit 4 ;;
    2-*) exit 3 ;;
    *) exit 1 ;;
esac

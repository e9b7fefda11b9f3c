#!/bin/bash
# curl.sh KIND PORT UPLOAD: the requests of a file of dialogues by curl. Status 9: it has no such mode. Debian's 7.88 can't use a connection twice.
url=http://127.0.0.1:$2
curl=(curl -sSf --max-time 20 --http2-prior-knowledge -o /dev/null)
case $1 in
    get) "${curl[@]}" "$url/" ;;
    upload) "${curl[@]}" -H Expect: --data-binary "@$3" "$url/p" ;;
    *) exit 9 ;;
esac

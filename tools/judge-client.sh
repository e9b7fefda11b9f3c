#!/bin/sh
# Judges an HTTP/2 client by dialogues: runs COMMAND once for each dialogue of FILE, which has to make the requests that FILE names at PORT, and prints TAP. The exit status of
# COMMAND is compared with what the dialogue expects. The status is 1 where a dialogue is `not ok`. dialogues/README.md has the files, and the options before FILE.
#
#   tools/judge-client.sh FILE PORT COMMAND..
exec python3 -B "$(dirname "$0")/../tests/dialogues.py" --inject "$@"

#!/bin/sh
# Prints dialogues with long payloads or many frames. The client: GET /.
#
#   dialogues/long.sh >long.h2
set -eu

# octets N HEX: the octets N times, in one line
octets() {
    yes "$2" | head -n "$1" | tr -d '\n'
}

# lines N LINE: the line N times
lines() {
    yes "$2" | head -n "$1"
}

cat <<END
;# A padded frame of 16,384 octets (RFC 9113, 4.2)
;- HEADERS 05 1
HEADERS 04 1 hi8
DATA 08 1 xff$(octets 16383 61)
;! MUST -
;+ pong
DATA 01 1 x6869
;$ 0

;# DATA of 16,385 octets (RFC 9113, 4.2)
; Rule: stream-frame-too-large
;- HEADERS 05 1
HEADERS 04 1 hi8
DATA 00 1 x$(octets 16385 61)
;! MUST stream 1 FRAME_SIZE_ERROR
;+ pong
DATA 01 1 x6869
;$ !0

;# HEADERS of 16,385 octets (RFC 9113, 4.2)
; Rule: frame-too-large
;- HEADERS 05 1
HEADERS 04 1 x88$(octets 4096 00017800)
;! MUST connection FRAME_SIZE_ERROR
;+ pong
DATA 01 1 x6869
;$ !0

;# A block of 300,000 octets in CONTINUATION frames (RFC 9113, 10.5.1)
; Rule: list-too-large
;- HEADERS 05 1
HEADERS 01 1 hi8
$(lines 18 "CONTINUATION 00 1 x$(octets 2340 0003782d610131)")
CONTINUATION 04 1 -
;! MAY connection ENHANCE_YOUR_CALM

;# 20,000 empty CONTINUATION frames (RFC 9113, 10.5)
;- HEADERS 05 1
HEADERS 00 1 hi8
$(lines 20000 'CONTINUATION 00 1 -')
CONTINUATION 04 1 -
;! MAY connection ENHANCE_YOUR_CALM
;+ pong
DATA 01 1 x6869

;# 5,000 SETTINGS frames: each acknowledged, or refused (RFC 9113, 6.5.3 and 10.5)
;- HEADERS 05 1
$(lines 5000 'SETTINGS 00 0 s3=100')
;! MAY connection ENHANCE_YOUR_CALM
;+ pong
HEADERS 05 1 hi8

;# 5,000 empty DATA frames (RFC 9113, 10.5)
;- HEADERS 05 1
HEADERS 04 1 hi8
$(lines 5000 'DATA 00 1 -')
;! MAY connection ENHANCE_YOUR_CALM
;+ pong
DATA 01 1 x6869
END

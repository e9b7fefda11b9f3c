#!/usr/bin/env bash
# Words to avoid, each with a better one, in documents, in the comments of *.rt and *.antt, and in the strings of *.rt that have a blank. What is between backticks,
# indented by four spaces in a page, or in the table of rules that is made from sources, is not looked at.
#
#   tools/words.sh              README.md, CONTRIBUTING.md, CHANGELOG.md and docs, but for the pages made from sources, and all comments and strings
#   tools/words.sh --since REV  the lines of these that were added since a revision
#   tools/words.sh --all        how many there are, by file, in all of these; the status is 0
#
# The first two show each place; the status is 1 where there is one. Their last line is `N passed, M failed`, a file each.
set -u
cd "$(dirname "$0")/.."
work=$(mktemp -d)
trap 'rm -rf "$work"' EXIT

# To avoid, as a pattern without case | what to write.
words() {
    cat <<'WORDS'
\bwants? of memory\b;\bmemory is wanted\b|out of memory; needs memory
\bin place of\b|instead of
\bfor good\b|permanently
\bnot at all\b|none; drop it
\bwhole,? or not at all\b;\bwhole,? or nothing\b;\bsame whole\b|all or nothing; say what is the same
\bcomes? to\b;\bcame to\b|results in; is
\btold\b|reported; given
\bstands\b;\bstand in\b;\bstand for\b;\bstand on\b|is; is in; represents; depends on
\bdear(er)?\b;\bdearest\b|expensive; slowest
\bthe house\b;\brooms?\b|the repository; its crates; the place
\bso many\b|that many; N octets
\bbehind\b|after
\bsaid of\b|about
\bwhat waits\b|the pending output
\bwhat is left\b|the rest
\bhas come\b;\bhave come\b|has arrived
!.*\brests on\b|drop it: the imports say it
WORDS
}

documents() {
    ls README.md CONTRIBUTING.md CHANGELOG.md
    ls docs/*.md | grep -vxE 'docs/(CALLS|RULES)\.md'
}

sources() {
    find crates/*/src crates/*/specs crates/*/proofs -name '*.rt' -o -name '*.antt'
}

# The places `FILE:NUMBER` of the lines of pages that are made from sources.
made() {
    documents | xargs awk '/^<!-- the table of rules/ { inside = 1 } inside { print FILENAME ":" FNR } /^<!-- end of the table of rules/ { inside = 0 }'
}

# Of lines `FILE:NUMBER:TEXT` those of text, without what is between backticks.
texts() {
    awk -F: 'FNR == NR { made[$0]; next } !(($1 ":" $2) in made)' "$work/made" - | grep -vE '^[^:]*\.md:[0-9]*:    ' | grep -E '^[^:]*\.md:|^[^:]*:[0-9]*: *(//|--)' | sed 's/`[^`]*`//g'
}

# Of lines `FILE:NUMBER:TEXT` of code the strings that have a blank.
strings() {
    grep -P '^crates/[^:]*/src/[^:]*\.rt:\d+: *(?!//)' | awk -F'"' '
        NF > 2 {
            split($1, at, ":")
            text = ""
            for (i = 2; i <= NF; i += 2) if ($i ~ / /) text = text " " $i
            if (text != "") print at[1] ":" at[2] ":" text
        }' | sed 's/`[^`]*`//g'
}

# The places of such lines that have a word to avoid, and what to write.
found() {
    local avoided better shown
    while IFS='|' read -r avoided better; do
        shown=${avoided//\\b/}
        shown=${shown//\?/}
        grep -iP "^[^:]*:\d*:.*(${avoided//;/|})" "$1" | cut -d: -f1,2 | sed "s/\$/: ${shown//;/, }: write: $better/"
    done < <(words)
}

# The lines added since a revision.
added() {
    git diff --unified=0 --no-color "$1" -- '*.md' '*.rt' '*.antt' | awk '
        /^\+\+\+ / { file = substr($0, 7); next }
        /^@@ / { split($3, at, ","); number = substr(at[1], 2); next }
        /^\+/ { print file ":" number++ ":" substr($0, 2) }
    ' | grep -vE '^docs/(CALLS|RULES)\.md:'
}

case ${1-} in
    --all) { documents; sources; } | xargs grep -nH '' >"$work/lines" ;;
    --since) added "${2:?a revision}" >"$work/lines" ;;
    '') { documents; sources; } | xargs grep -nH '' >"$work/lines" ;;
    *)
        echo "tools/words.sh takes --since REV or --all, not $1" >&2
        exit 2
        ;;
esac
made >"$work/made"
echo >>"$work/made"
{ texts <"$work/lines"; strings <"$work/lines"; } >"$work/texts"
found "$work/texts" | sort -t: -k1,1 -k2,2n >"$work/found"
if [ "${1-}" = --all ]; then
    cut -d: -f1 "$work/found" | sort | uniq -c | sort -rn
    exit 0
fi
cat "$work/found"
all=$(cut -d: -f1 "$work/lines" | sort -u | wc -l)
wrong=$(cut -d: -f1 "$work/found" | sort -u | wc -l)
echo "$((all - wrong)) passed, $wrong failed"
[ "$wrong" = 0 ]

#!/usr/bin/env bash
# What the completions of share/ offer, in bash, and in zsh and fish where they are installed. Each line below is a line that a user has typed, a tab, and words that
# are offered there; a word after ! is not offered. The last line of the output is `N passed, M failed`.
set -u -o pipefail
cd "$(dirname "$(readlink -f "${BASH_SOURCE[0]}")")/.."

lines() {
    printf '%s\t%s\n' \
        'h2_bench ' 'play asm dis table debug serve explain check help' \
        'h2_bench ex' 'explain !play' \
        'h2_bench --v' '--version' \
        'h2_bench play --' '--streams --credit --table --window --frame --cut --each --book --quiet --in --raw --help !--json' \
        'h2_bench explain --' '--json --color --strict --full --brief --errors --stream --book --raw --in !--cut' \
        'h2_bench explain examples/clo' 'examples/closed.h2 examples/closed.hex' \
        'h2_bench check examples/ba' 'examples/bad.h2' \
        'h2_bench play --in examples/g' 'examples/get.h2 examples/get.hex' \
        'h2_bench play --book examples/s' 'examples/site.toml examples/stops.h2' \
        'h2_bench debug --prompt ' 'dot line' \
        'h2_bench table examples/g' 'examples/get.h2' \
        'h2_bench asm ' 'README.md' \
        'h2_bench help ' 'play check'
}

in_bash() {
    # shellcheck disable=SC2016
    bash --norc -c '. share/h2_bench.bash; line=$1; read -ra COMP_WORDS <<<"$line"; case $line in *" ") COMP_WORDS+=("") ;; esac
        COMP_CWORD=$((${#COMP_WORDS[@]} - 1)); COMPREPLY=(); _h2_bench; printf "%s\n" "${COMPREPLY[@]}"' bash "$1"
}

in_fish() {
    # shellcheck disable=SC2016
    timeout 20 fish --no-config -c 'source share/h2_bench.fish; complete -C $argv[1]' "$1" | cut -f1
}

# A shell behind a terminal of its own lists what it has, and ends the line with the first of it.
in_zsh() {
    # shellcheck disable=SC2016
    timeout 20 zsh -f -c 'zmodload zsh/zpty; zpty z zsh -f -i
        zpty -w z "PS1=; PS2=; stty -echo columns 200 rows 200; TERM=dumb; fpath=($PWD/share \$fpath); autoload -U compinit; compinit -u -D; zstyle \":completion:*\" list-prompt \"\"
            bindkey \"^I\" complete-word; setopt nolistbeep; LISTMAX=0; print RE\"\"ADY"
        while zpty -r z line && [[ $line != *READY* ]]; do :; done
        zpty -w -n z "$1"$'"'\t\t\n'"'
        zpty -w z "print E\"\"ND"
        while zpty -r z line && [[ $line != *END* ]]; do print -r -- "$line"; done; zpty -d z' zsh "$1" |
        tr -d '\r\a' | sed 's/\x1b\[[0-9;?]*[a-zA-Z]//g; s/  *-- .*//' | tr -s ' ' '\n'
}

# Whether a word is among those that are offered; files are offered by their last part in zsh.
offers() {
    grep -qxF -e "$1" -e "${1##*/}" <<<"$2"
}

passed=0 failed=0
for shell in bash zsh fish; do
    if ! command -v "$shell" >/dev/null; then
        echo "tests/completions.sh: $shell is not installed"
        continue
    fi
    while IFS=$'\t' read -r line words; do
        offered=$("in_$shell" "$line" 2>/dev/null)
        for word in $words; do
            wanted=yes found=no
            case $word in !*) wanted=no word=${word#!} ;; esac
            if offers "$word" "$offered"; then found=yes; fi
            if [ "$found" = "$wanted" ]; then
                passed=$((passed + 1))
            else
                failed=$((failed + 1))
                echo "$shell: \"$line\": $word is offered: $found"
            fi
        done
    done < <(lines)
done
echo "$passed passed, $failed failed"
[ "$failed" = 0 ]

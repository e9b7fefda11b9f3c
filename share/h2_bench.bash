# Completes the commands and options of h2_bench in bash. Written by tools/manual.py.
_h2_bench() {
    local words="" current=${COMP_WORDS[COMP_CWORD]} before=${COMP_WORDS[COMP_CWORD - 1]}
    if [ "$COMP_CWORD" = 1 ]; then
        mapfile -t COMPREPLY < <(compgen -W "play asm dis table debug serve explain check help --help --version" -- "$current")
        return
    fi
    case ${COMP_WORDS[1]} in
        play) words="--streams --credit --table --window --frame --cut --each --book --why --quiet --in --raw --help" ;;
        asm) words="--in --quiet --help" ;;
        dis) words="--in --raw --quiet --help" ;;
        table) words="--in --quiet --help" ;;
        debug) words="--streams --credit --table --window --frame --book --why --quiet --in --raw --prompt --help" ;;
        serve) words="--streams --credit --table --window --frame --explain --times --record --inject --dialogue --json --color --strict --full --brief --errors --stream --book --why --quiet --help" ;;
        explain) words="--streams --credit --table --window --frame --json --color --strict --full --brief --errors --stream --book --why --quiet --in --raw --help" ;;
        check) words="--streams --credit --table --window --frame --book --bless --in-place --junit --against --wait --path --authority --judge --quiet --help" ;;
    esac
    if [[ $current == -* ]]; then
        mapfile -t COMPREPLY < <(compgen -W "$words" -- "$current")
    elif [ "$before" = --prompt ]; then
        mapfile -t COMPREPLY < <(compgen -W "dot line" -- "$current")
    else
        case ${COMP_WORDS[1]}:$before in
            play:* | asm:* | dis:* | table:* | debug:* | explain:* | check:* | *:--book | *:--in | *:--inject | *:--junit) mapfile -t COMPREPLY < <(compgen -f -- "$current") ;;
            help:help) mapfile -t COMPREPLY < <(compgen -W "play asm dis table debug serve explain check" -- "$current") ;;
        esac
    fi
}
complete -o filenames -F _h2_bench h2_bench

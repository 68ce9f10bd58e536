# shellcheck shell=bash
# Completions of tn for bash: written by tools/release/completions -w from the program's help.
_tn_hosts() {
    local folder=${XDG_CONFIG_HOME-}
    if [[ $folder != /* ]]; then folder=${HOME-}/.config; fi
    sed -n 's/^[[:space:]]*\["\{0,1\}\([^]"[:space:].]*\)"\{0,1\}\].*/\1/p' "$folder/tn/hosts" 2>/dev/null
}
_tn() {
    local word=${COMP_WORDS[COMP_CWORD]} before=${COMP_WORDS[COMP_CWORD - 1]} words
    COMPREPLY=()
    # A value may stand behind `=`, which is a word of its own.
    if [[ $word == '=' ]]; then
        word=
    elif [[ $before == '=' ]] && ((COMP_CWORD > 2)); then
        before=${COMP_WORDS[COMP_CWORD - 2]}
    fi
    case $before in
        --line-cut) mapfile -t COMPREPLY < <(compgen -W 'send end' -- "$word"); return ;;
        --signals) mapfile -t COMPREPLY < <(compgen -W 'act send' -- "$word"); return ;;
        --notes) mapfile -t COMPREPLY < <(compgen -W 'text logfmt' -- "$word"); return ;;
        --mode) mapfile -t COMPREPLY < <(compgen -W 'auto char' -- "$word"); return ;;
        --return) mapfile -t COMPREPLY < <(compgen -W 'crnul crlf lf' -- "$word"); return ;;
        --escape) mapfile -t COMPREPLY < <(compgen -W 'none' -- "$word"); return ;;
        --keys) mapfile -t COMPREPLY < <(compgen -W 'own standard' -- "$word"); return ;;
        --until|--banner|--metrics|--log|--trace) mapfile -t COMPREPLY < <(compgen -f -- "$word"); return ;;
        --host|--to) mapfile -t COMPREPLY < <(compgen -A hostname -- "$word"); return ;;
        -p|--port|--listen-fd|--count|--drain|--limit|--per-host|--idle|--longest|--line|--ticks|--dial|--bind|--timeout|--again|--width|--height|-q|-w) return ;;
    esac
    if ((COMP_CWORD == 1)); then
        words='local replay decode world serve connect help -h --help -V --version'
    else
        case ${COMP_WORDS[1]} in
            local)
                words='-h --help' ;;
            replay)
                words='-h --help' ;;
            decode)
                words='-h --help' ;;
            world)
                words='-h --help' ;;
            serve)
                words='--host -p --port --listen-fd --stdin --proxy --count --forever --until --drain --limit --per-host --idle --longest --line --local --line-clients --ticks --to --dial --banner --to-telnet --crlf --cr --line-cut --signals --verbose --notes --metrics -h --help' ;;
            connect)
                if [[ $word != -* ]]; then mapfile -t COMPREPLY < <(compgen -A hostname -A service -W "$(_tn_hosts)" -- "$word"); return; fi
                words='-p --port -4 --ipv4 -6 --ipv6 --bind --timeout --again --mode --return --escape --keys --no-history --line --width --height --plain --lf --cr --text -q -w --log --log-times --trace --quiet -h --help' ;;
            help)
                words='local replay decode world serve connect help' ;;
            *) return ;;
        esac
    fi
    mapfile -t COMPREPLY < <(compgen -W "$words" -- "$word")
}
complete -F _tn tn

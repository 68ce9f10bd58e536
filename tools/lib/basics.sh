# shellcheck shell=bash
# What the tools in bash share. Such a tool sources it, and ends by `give_up` where it cannot do its work.

# Ends the tool with status 2.
give_up() {
    echo "$(basename "$0"): $1" >&2
    exit 2
}

# Prints the comment at the head of the tool, and ends with status 0, where its first word asks for help.
answer_help() {
    if [[ ${1-} == -h || ${1-} == --help ]]; then
        sed -n '2,$ { /^#/!q; s/^# \{0,1\}//p }' "$0"
        exit 0
    fi
}

# Ends the tool where more words are left than it takes, or one of them begins with a dash.
refuse_words() {
    local most=$1 word
    shift
    for word; do [[ $word != -* ]] || give_up "it does not know $word; --help says what it takes"; done
    (($# <= most)) || give_up 'these are too many words; --help says what it takes'
}

# The ports that are listened to, in hexadecimal.
listened_ports() {
    awk '$4 == "0A" { sub(".*:", "", $2); print $2 }' /proc/net/tcp /proc/net/tcp6 2>/dev/null || true
}

is_listened_to() {
    listened_ports | grep -qix "$(printf '%04X' "$1")"
}

free_port() {
    local port
    while port=$((20000 + RANDOM % 10000)) && is_listened_to "$port"; do :; done
    echo "$port"
}

# Waits until somebody listens to a port; false where nobody does in 20 seconds.
wait_for_port() {
    local tries
    for ((tries = 0; tries < 200; tries++)); do
        if is_listened_to "$1"; then return 0; fi
        sleep 0.1
    done
    echo "nothing listens on port $1" >&2
    return 1
}

# Whether this program is a `tn` that runs here.
is_tn() {
    [[ $(printf 'a\r' | timeout 20 "$1" local 2>/dev/null) == 'text 610a' ]]
}

# Writes a script that runs a program: by itself, or with the kit's loader where there is one.
write_runner() {
    local program=$1 script=$2 loader
    loader=$(dirname "$(rt doc 2>/dev/null || true)")/toolchain/lib/ld-linux-x86-64.so.2
    {
        echo '#!/usr/bin/env bash'
        echo 'export ASAN_OPTIONS=detect_leaks=0'
        if [[ -x $loader ]]; then
            printf 'exec %q --inhibit-cache --library-path %q %q "$@"\n' "$loader" "$(dirname "$loader")" "$program"
        else
            printf 'exec %q "$@"\n' "$program"
        fi
    } >"$script"
    chmod +x "$script"
}

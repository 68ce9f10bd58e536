# shellcheck shell=bash
# The commands that pages print with their output, as tools/gate/check-docs and tools/release/try-package run them. Who sources it sets `here`: the folder
# in which they run, where `tn` is the program.

# The blocks of a page, each in a file of its own: its first line says where it stands.
cut_page() {
    awk -v dir="$2" -v name="$3" '
        /^```console$/ { file = sprintf("%s/1-%s-%04d", dir, substr(name, match(name, /[^\/]*$/)), NR); print name ":" NR > file; next }
        /^```/ { file = "" }
        file != "" { print > file }' "$1"
}

# The same of the manual page's examples.
cut_manual() {
    awk -v dir="$2" -v name=docs/tn.1 '
        /^\.SH / { on = ($2 == "EXAMPLES") }
        on && /^\.nf$/ { file = sprintf("%s/2-%04d", dir, NR); print name ":" NR > file; next }
        /^\.fi$/ { file = "" }
        file != "" { gsub(/\\\(aq/, "\047"); gsub(/\\-/, "-"); gsub(/\\&/, ""); gsub(/\\\(ha/, "^"); gsub(/\\e/, "\\"); print > file }' "$1"
}

# The script of a block: each command writes to a file of its own, `got.N`; beside it stands `want.N`.
write_script() {
    local block=$1 run=$2 port=$3 line number=0
    {
        echo "cd '${here:?}'; PATH='$here':\$PATH"
        declare -f listened_ports is_listened_to wait_for_port
        while IFS= read -r line; do
            if [[ $line == '$ '* ]]; then
                number=$((number + 1))
                : >"$run/want.$number"
                line=${line#'$ '}
                echo "{ ${line//2323/$port}"
                echo "} >'$run/got.$number' 2>&1"
                if [[ $line == *'&' ]]; then echo "wait_for_port $port"; fi
            else
                ((number)) || give_up "$(head -n 1 "$block"): a block begins with no command"
                printf '%s\n' "$line" >>"$run/want.$number"
            fi
        done < <(tail -n +2 "$block")
        echo 'wait; exit 0'
    } >"$run/script"
    echo "$number" >"$run/count"
}

# Runs a block, by a command where words for one follow, and tells what differs; true if nothing does.
run_block() {
    local block=$1 run=$2 port number same=0
    shift 2
    port=$(free_port)
    mkdir "$run"
    write_script "$block" "$run" "$port"
    if ! "$@" timeout 60 bash "$run/script" </dev/null >"$run/log" 2>&1; then
        same=1
        echo 'it did not end' >>"$run/diff"
    fi
    for ((number = 1; number <= $(<"$run/count"); number++)); do
        touch "$run/got.$number"
        sed -i "s/\\b$port\\b/2323/g" "$run/got.$number"
        diff -u --label printed --label ran "$run/want.$number" "$run/got.$number" >>"$run/diff" || same=1
    done
    return "$same"
}

# Runs all blocks of a folder, by a command where words for one follow; `commands` and `failed` tell how many there were, and how many
# blocks differ.
run_blocks() {
    local folder=$1 runs=$2 block run try
    shift 2
    commands=0
    failed=0
    for block in "$folder"/*; do
        [[ -e $block ]] || give_up 'no command is printed in the documents'
        for try in 1 2 3; do
            run=$runs/run-$(basename "$block")-$try
            if run_block "$block" "$run" "$@"; then break; fi
            # Only a session may be tried again: its port may be taken, and its pauses too short for this machine.
            if ((try == 3)) || ! grep -q 2323 "$block"; then
                failed=$((failed + 1))
                echo "$(basename "$0"): $(head -n 1 "$block") prints what does not come" >&2
                cat "$run/diff" >&2
                break
            fi
        done
        commands=$((commands + $(<"$run/count")))
    done
}

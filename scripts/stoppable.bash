# Runs the program that `program` names, as wide as the terminal, and so that it can be asked to stop. Sourced by the script racp of the
# repository and by the one that is installed.

# When a stop was asked for, in microseconds; nothing if it was not.
asked=''

# Prints the time in microseconds.
now() {
    local now=${EPOCHREALTIME:-$SECONDS.000000}
    echo "${now/[^0-9]/}"
}

# Notes that a stop is asked for. What comes before the program runs is told to it when it begins.
note() {
    asked=${asked:-$(now)}
}

# Has a stop noted from now on, if these words are a command that can be asked to stop.
hear() {
    ! is_stoppable "$@" || trap note INT TERM HUP
}

# Asks the program to stop, by a file whose path it knows; the second time ends it. What comes within half a second of the first time is the
# same request: who stops a group of processes sends it to each, and to this one twice.
ask() {
    if [ -z "$asked" ]; then
        note
        : >"$folder/stop"
    elif [ $(($(now) - asked)) -gt 500000 ]; then
        kill "$process" 2>/dev/null
    fi
}

# Runs the program so that Ctrl-C, or the signal TERM, asks it to stop: it then tells what it knows, as when a time limit is over. A second
# time ends it. It has a session of its own, so that a signal to the group of this script does not end it.
run_stoppable() {
    local folder process status apart=()
    trap note INT TERM HUP
    if ! folder=$(mktemp -d); then
        [ -z "$asked" ] || exit 130
        trap - INT TERM HUP
        exec "$program" "$@"
    fi
    ! command -v setsid >/dev/null || apart=(setsid)
    # In the background a command ignores Ctrl-C, which the terminal sends to it as well.
    RACP_STOP=$folder/stop "${apart[@]}" "$program" "$@" <&0 &
    process=$!
    trap ask INT TERM HUP
    [ -z "$asked" ] || : >"$folder/stop"
    wait "$process"
    status=$?
    while kill -0 "$process" 2>/dev/null; do
        wait "$process"
        status=$?
    done
    if [ -n "$asked" ]; then
        wait "$process" 2>/dev/null
        status=$?
    fi
    rm -rf "$folder"
    exit "$status"
}

# Whether a command is one that can be asked to stop.
is_stoppable() {
    case ${1-} in
        plan | curve | whatif | batch | prove | verify) return 0 ;;
        *) return 1 ;;
    esac
}

# Runs the program with these words, in the place of this shell.
run_program() {
    local size
    # A chart is as wide as the terminal that it is written to. In $( ) standard output is a pipe.
    if [ -t 1 ] && { size=$(stty size <&3 2>/dev/null); } 3>&1; then
        export COLUMNS=${COLUMNS:-${size#* }}
    fi
    if is_stoppable "$@"; then
        run_stoppable "$@"
    fi
    exec "$program" "$@"
}

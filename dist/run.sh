#!/bin/bash
# Runs the program, and lets a signal stop `serve` and `pull` with their last lines written. The program can't handle signals, but with
# `--until-eof` it stops when its standard input ends. So its standard input is a pipe whose only writer is this shell: it
# closes the pipe at INT, TERM or HUP, and if the shell itself is killed, the kernel does.
#
# As PREFIX/bin/vasklun it runs PREFIX/lib/vasklun/relay. The script `relay` sources it, and calls `run` with its own program.
set -eu

# run PROGRAM [ARGUMENT ..]: runs the program under the name of the script, and doesn't return. The allocator's settings are those
# of the unit, whose comments say why, if the environment has no others: without them memory that connections gave back stays.
run() {
    export MALLOC_MMAP_THRESHOLD_="${MALLOC_MMAP_THRESHOLD_:-1048576}" MALLOC_ARENA_MAX="${MALLOC_ARENA_MAX:-4}"
    if is_endless "${@:2}"; then
        if open_pipe; then serve "$@"; fi
        # A relay that serves is worth more than the last lines of its stop.
        echo "${0##*/}: no pipe can be made: a signal ends the relay at once, without its last lines" >&2
    fi
    exec -a "${0##*/}" "$1" "${@:2}"
}

# Returns true if these arguments start a server or a pull whose end is a signal. Everything else keeps its own standard input.
is_endless() {
    local word
    case ${1:-} in serve | pull) ;; *) return 1 ;; esac
    for word; do
        case $word in -h | --help | --until-eof) return 1 ;; esac
    done
}

# Opens a pipe: descriptor 4 reads, and 3 is the only writer. `<(:)` makes one, and Linux opens it anew by its descriptor. A
# FIFO would do, but its folder would stay if a signal came before it is removed, and there may be no room for it.
open_pipe() {
    exec 3<> <(:) 4< /dev/fd/3
}

# serve PROGRAM COMMAND [ARGUMENT ..]: runs the program on the pipe, and exits with its status.
serve() {
    local status=0
    # Ctrl-C, and TERM to a whole control group, come to the program too: it ignores what was ignored before exec.
    (
        trap '' INT TERM HUP
        exec -a "${0##*/}" "$1" "$2" --until-eof "${@:3}"
    ) <&4 3>&- 4<&- &
    child=$!
    # A signal before this line ends the shell, which closes the pipe too.
    trap stop INT TERM HUP
    # Standard error is the program's: the shell would write there that it was killed.
    exec 4<&- 2> /dev/null
    wait "$child" || status=$?
    exit "$status"
}

# Closes the pipe, kills the program if it's still there after five seconds, and exits with its status.
stop() {
    # In microseconds, by the clock: a busy machine needs longer than its 0.1 seconds for each `sleep`.
    local status=0 end=$((${EPOCHREALTIME/[.,]/} + 5000000))
    trap '' INT TERM HUP
    # First, so that no `sleep` holds the writer open.
    exec 3>&-
    while kill -0 "$child"; do
        [ "${EPOCHREALTIME/[.,]/}" -lt "$end" ] || kill -KILL "$child" || true
        sleep 0.1
    done
    wait "$child" || status=$?
    exit "$status"
}

if [ "${BASH_SOURCE[0]}" = "$0" ]; then
    self=$(readlink -f "$0")
    run "${self%/*/*}/lib/vasklun/relay" "$@"
fi

#!/usr/bin/env bash
# Runs the program with these arguments: the proved program if it is built, or else an unproved trial of the same
# sources. The trial is built at the first call and after each change of the sources. If JAC_PROVED is set, as the
# checks set it, no trial is built or run. docs/USING.md, "Trial and proof", says when which message is printed.
set -eu
top=$(cd "$(dirname "$(readlink -f "$0")")" && pwd)
proved=$top/crates/jac_main/out/jac_main
trial=$top/out/trial/jac_main

tell() {
    echo "jac: $1" >&2
}

# Whether the sources of a program are as they were when it was built: by their sizes and times, which are recorded in a
# file beside it, or else by their content.
is_current() {
    local was paths
    if { read -r was && read -r _ && mapfile -t paths; } 2>/dev/null <"$1.sources" \
        && [ "$(cd "$top" && find "${paths[@]}" -printf '%p %s %T@\n' 2>/dev/null | cksum)" = "$was" ]; then
        return 0
    fi
    python3 "$top/tools/program.py" "$1"
}

# Chooses the program to run.
choose() {
    if [ -x "$proved" ]; then
        program=$proved
        [ -n "${JAC_PROVED-}" ] || is_current "$proved" \
            || tell 'the sources have changed since this program was proved and built: ./prove proves them anew'
    elif [ -n "${JAC_PROVED-}" ]; then
        tell 'there is no proved program, and JAC_PROVED asks for it: ./prove makes it'
        exit 70
    else
        program=$trial
        is_current "$trial" || python3 "$top/tools/trial.py" || exit 70
        tell 'an unproved trial of these sources; ./prove makes the proved program, once'
    fi
}

# Chooses the command that runs the program. If an argument is a folder, as an application may be, the command is the
# script that joins the folder's parts.
choose_command() {
    command=("$program")
    local word
    for word in "$@"; do
        [ ! -d "$word" ] || command=(python3 "$top/tools/run_folder.py" "$program")
    done
}

# Makes an upgrade keep a copy of the store first.
keep_a_copy() {
    command=(python3 "$top/tools/store_copies.py" upgrade "${command[@]}")
}

# Refuses a store that is a pipe, because the program would wait until somebody writes to the pipe.
refuse_a_pipe() {
    local word store= before=
    for word in "$@"; do
        case $word in
            --) break ;;
            --db=*) store=${word#--db=} ;;
            *) [ "$before" != --db ] || store=$word ;;
        esac
        before=$word
    done
    if [ -p "$store" ]; then
        tell "$store: a pipe is no store"
        echo 'store fault'
        exit 6
    fi
}

# Runs a command that ends by itself. If it refuses an argument, a file or a store, standard error says which argument
# is wrong, shows the place in the file with a mark under it, or says how the store differs or what is wrong with it.
run_to_end() {
    [ -z "${JAC_PROVED-}" ] || exec "${command[@]}" "$@"
    local status=0
    "${command[@]}" "$@" || status=$?
    case $status in 1 | 2 | 3 | 6 | 9 | 11) show_place --status $status "$program" "$@" ;; esac
    exit $status
}

show_place() {
    python3 "$top/tools/fault_place.py" "$@" || true
}

[ "${1-} ${2-}" != 'walk --help' ] || exec python3 "$top/tools/walk.py" --help
[ "${1-} ${2-}" != 'dev --help' ] || exec python3 "$top/tools/dev.py" '' --help
[ "${1-}" != lint ] || exec python3 "$top/tools/lint.py" "${@:2}"
case ${1-} in dev | dump | replay | serve | upgrade | why) refuse_a_pipe "$@" ;; esac
choose
choose_command "$@"
case ${1-} in
    dev) exec python3 "$top/tools/dev.py" "${program-}" "${@:2}" ;;
    upgrade)
        keep_a_copy
        run_to_end "$@"
        ;;
    check | replay | dump | demo | why) run_to_end "$@" ;;
    serve)
        [ -n "${JAC_PROVED-}" ] || show_place "$program" "$@"
        exec "${command[@]}" "$@"
        ;;
    walk)
        shift
        exec python3 "$top/tools/walk.py" --program "$program" "$@"
        ;;
    *) run_to_end "$@" ;;
esac

# What the scripts of the repository share. Source it from sh or bash after setting 'here' to the folder of this file:
#   here=$(dirname "$(readlink -f "$0")")
#   . "$here/common.sh"
# From then on a command that fails ends the script, numbers and sort order are the same in every locale, and in bash a pipeline
# fails if any part of it does. In another shell a pipeline's status is that of its last part, so write what can fail to a file.
set -eu
# shellcheck disable=SC3040
if (set -o pipefail) 2> /dev/null; then set -o pipefail; fi
# (with standard error closed, where bash opens its script, messages are lost, and the status is still the right one)
# shellcheck disable=SC3013
if ! [ -e /dev/fd/2 ] || [ /dev/fd/2 -ef "$0" ]; then exec 2> /dev/null; fi
export LC_ALL=C
name=${0##*/}
AWK=${AWK:-awk}
export AWK here name

# tells TEXT: says it on standard error, if that can be written.
tells() { echo "$name: $1" >&2 || :; }

# dies STATUS TEXT: says why, and ends the script.
dies() {
    tells "$2"
    exit "$1"
}

# usage STATUS: prints the comment at the head of the script, and ends it.
usage() {
    [ "$1" = 0 ] || exec >&2
    sed -n '2,/^$/s/^#$\|^# //p' "$0" || [ "$1" != 0 ] || dies 3 "standard output can't be written"
    exit "$1"
}

# Makes the temporary folder $work, which is removed however the script ends.
make_work() {
    work=$(mktemp -d) || dies 3 'no temporary folder can be made: set TMPDIR to a folder that can be written'
    export work
    trap 'rm -rf "$work"' EXIT
    trap 'interrupted 129' HUP
    trap 'interrupted 130' INT
    trap 'interrupted 143' TERM
}

interrupted() {
    trap '' HUP INT TERM
    exit "$1"
}

# Finds the program: PROGRAM if it is set, the one beside this file, the repository's own, which is built if needed, or one named
# 'sketches' on the path.
find_program() {
    if [ -n "${PROGRAM:-}" ]; then
        program=$(command -v "$PROGRAM") || dies 3 "$PROGRAM is no program that can be run"
        case $program in /*) ;; *) program=$(readlink -f "$program") ;; esac
    elif [ -x "$here/quantile_sketches" ]; then
        program=$here/quantile_sketches
    elif [ -x "$here/../sketches" ] && [ -d "$here/../crates/quantile_sketches" ]; then
        "$here/../sketches" kll 0 < /dev/null || dies 3 'there is no program to run'
        program=$here/../crates/quantile_sketches/out/quantile_sketches
    else
        program=$(command -v sketches) || dies 3 "there is no program: put it beside $here/common.sh, or name it by PROGRAM"
    fi
    [ -x "$program" ] && ! [ -d "$program" ] || dies 3 "$program is no program that can be run"
    export program
}

# ask FAMILY SEED < COMMANDS: prints what the program answers to these lines, except 'ok'. If a line is refused, it prints nothing,
# reports the line, and fails. Call make_work and find_program first.
ask() {
    cat > "$work/ask.lines"
    { "$program" "$@" < "$work/ask.lines" || echo "error: status $?"; } | $AWK -f "$here/answers.awk" > "$work/ask.answers" || {
        set -- "$(tail -n 1 "$work/ask.answers")"
        set -- "$1" "$(printf '%s\n' "$1" | sed -n 's/^error: line \([0-9]*\).*/\1/p')"
        dies 3 "the program's answer is '$1': $(sed -n "${2:-1}p" "$work/ask.lines" | cut -c 1-200)"
    }
    cat "$work/ask.answers"
}

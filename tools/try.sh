#!/bin/sh
# Answers a session by the program before its proof: it is compiled with run-time checks, in one to two minutes.
#
# usage: tools/try.sh                                                       the worked session of demo/
#        tools/try.sh [--passwd FILE] [--group FILE] [--dump FILE] <SCRIPT  a script and texts of your own
#
# What the program prints comes on both streams when it has ended, and the exit status is the program's. A line before
# it says on standard error that nothing is proved of it, and what it is allowed. Where it gives no answer, the status
# is 3, and what rt printed is on standard error; it is 2 if the words are others.
set -eu
top=$(cd "$(dirname "$0")/.." && pwd)
# shellcheck source=tools/lib/program.sh
. "$top/tools/lib/program.sh"

# read_session WORD..: the script and the texts, in work
read_session() {
    if [ $# -eq 0 ]; then
        set -- --passwd "$top/demo/passwd" --group "$top/demo/group" --dump "$top/demo/dump"
        exec <"$top/demo/script"
    fi
    while [ $# -gt 0 ]; do
        case $1 in --passwd | --group | --dump) ;; *) show_head 2 >&2 ;; esac
        { [ -f "${2:-}" ] && [ -r "$2" ]; } || fail "$1: cannot read '${2:-}'"
        ln -s "$(realpath -- "$2")" "$work/${1#--}" 2>/dev/null || fail "$1 twice"
        shift 2
    done
    [ ! -t 0 ] || echo "$script_name: the script is read from standard input" >&2
    exec 3<&0
    cat <&3 >"$work/script" &
    wait_for_child
}

# run_rt: runs the program; its output goes to out, and its messages to err with what rt prints
run_rt() {
    set -- --
    for text in passwd group dump; do
        [ ! -e "$work/$text" ] || set -- --data "$text=$work/$text" "$@" "--$text" "$text"
    done
    echo "$script_name: unproved, at most 60 s and 1 MiB of output; some 100 s" >&2
    # In a session of its own: Ctrl-C at a terminal ends this script alone, which then ends rt with all that it started.
    (cd "$top/crates/facl_cli" && exec setsid rt try --seconds 60 "$@") <"$work/script" >"$work/out" 2>"$work/err" &
    wait_for_child || true
}

command -v rt >/dev/null || fail "rt is not installed: README names the kit"
make_work
read_session "$@"
run_rt

# rt's own lines come after the program's, which start with a line's number or the program's name.
status=$(sed -n 's/^run=ended status=\([0-9]*\) .*/\1/p' "$work/err")
if [ -z "$status" ]; then
    cat "$work/err" >&2
    echo "$script_name: no answer" >&2
    exit 3
fi
cat "$work/out"
grep -a '^line [0-9]*: \|^facl: ' "$work/err" >&2 || true
exit "$status"

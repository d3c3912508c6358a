# What the scripts of the program have in common, which read this file by `.` once `top` is the repository's folder.
#
# It sets script_name, the path of the script in the repository. A script that is interrupted ends what it waits for
# (child) first, and then with 128 and the signal's number; the folder work is removed at its end.
# shellcheck shell=sh disable=SC2034,SC2154  # those who read it set top, and use what it sets
script_name=$(realpath --relative-to="$top" -- "$0")
built=$top/crates/facl_cli/out/facl_cli
built_linux=$top/crates/facl_linux_cli/out/facl_linux_cli
work=
child=

# fail TEXT: ends the script
fail() {
    echo "$script_name: $1" >&2
    exit 2
}

# show_head STATUS: prints the head of the script, and ends it
show_head() {
    sed -n '2,/^set/{/^set/!s/^# \{0,1\}//p}' "$0"
    exit "$1"
}

# end_early SIGNAL
end_early() {
    if [ -n "$child" ]; then
        kill -TERM "$child" 2>/dev/null || true
        wait "$child" || true
    fi
    exit $((128 + $1))
}

trap '[ -z "$work" ] || rm -rf -- "$work"' EXIT
trap 'end_early 1' HUP
trap 'end_early 2' INT
trap 'end_early 15' TERM

# make_work: work is an empty folder
make_work() {
    work=$(mktemp -d -t facl.XXXXXXXXXX) || fail "${TMPDIR:-/tmp}: no folder can be made there"
}

# wait_for_child: until it has ended; returns its status
wait_for_child() {
    child=$!
    ended=0
    wait "$child" || ended=$?
    child=
    return $ended
}

# prove: proves and builds the programs of the repository
prove() {
    "$top/tools/prove.py" &
    wait_for_child || fail "facl is not built"
}

# check_program PROGRAM
check_program() {
    { [ -f "$1" ] && [ -x "$1" ]; } || fail "$1: no such program: give one that is built, as tools/prove.py builds it"
}

#!/bin/sh
# Tests of the commands: what needs only the program, over stored snapshots, in a folder of its own, in up to four
# processes. It takes some six minutes beside other work, and ends with the line `N passed, M failed`; the exit status is 0
# if none failed.
#
# usage: tools/check_commands.sh [--all | --no-lint] [PROGRAM]      PROGRAM: one that is built (crates/facl_cli/out/facl_cli)
#        tools/check_commands.sh --lint
#
# With --all it also tests facl-ask at a terminal, and over several snapshots, and runs the tests of commands by verbs, which
# takes some minutes more.
# Each of these counts as a failed test where it finds something: shellcheck, mypy and pyflakes3 where they are installed,
# tools/check.py documents, memory_faults, line_lengths, edits_apply. They come first; with --lint they are all that is done,
# which takes no program and half a minute, and with --no-lint they are left out.
# tools/check.py growth --quick is a test too, which needs the kit; so is tools/check.py wrong_commands, as root. Pages are
# tested in Chromium if it is installed. What needs a real file system and root is in tools/check.py live, snapshot and daily.
set -eu
top=$(cd "$(dirname "$0")/.." && pwd)
case ${1:-} in
--*)
    option=$1
    shift
    ;;
*) option= ;;
esac
case $option in
--all) export ALL_TESTS=yes ;;
'' | --lint | --no-lint) ;;
*)
    echo "usage: tools/check_commands.sh [--all | --lint | --no-lint] [PROGRAM]" >&2
    exit 2
    ;;
esac
FACL=$(realpath -m -- "${1:-$top/crates/facl_cli/out/facl_cli}")
FACL_LINUX=$(realpath -m -- "${FACL_LINUX:-$top/crates/facl_linux_cli/out/facl_linux_cli}")
export FACL FACL_LINUX
for program in "$FACL" "$FACL_LINUX"; do
    if [ "$option" != --lint ] && [ ! -x "$program" ]; then
        echo "tools/check_commands.sh: $program: no such program: give one that is built" >&2
        echo "0 passed, 1 failed"
        exit 2
    fi
done
cd "$top"

# lint TOOL WORD..: counts as a failed test where the tool is there and finds something
lint_faults=0
lint() {
    if command -v "$1" >/dev/null; then
        "$@" >&2 || lint_faults=$((lint_faults + 1))
    else
        echo "tools/check_commands.sh: without $1, which is not installed" >&2
    fi
}

# run_linters: all of them, each with what it found
run_linters() {
    lint shellcheck -x .ci/run commands/facl commands/completion/facl.bash debian/*.sh debian/*.postrm tools/*.sh tools/*/*.sh
    lint mypy
    lint pyflakes3 commands tools
    for check in documents memory_faults line_lengths edits_apply; do
        tools/check.py "$check" >&2 || lint_faults=$((lint_faults + 1))
    done
}

[ "$option" = --no-lint ] || run_linters
if [ "$option" = --lint ]; then
    [ "$lint_faults" -eq 0 ] || echo "tools/check_commands.sh: $lint_faults of the linters found something" >&2
    exit $((lint_faults > 0))
fi
tools/check.py growth --quick "$FACL" >&2 || lint_faults=$((lint_faults + 1))
[ "$(id -u)" -ne 0 ] || tools/check.py wrong_commands >&2 || lint_faults=$((lint_faults + 1))
exec python3 commands/tests/run.py "$lint_faults"

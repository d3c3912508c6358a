#!/bin/sh
# Proves and builds the program with the kit, then answers the worked session of demo/.
#
# usage: tools/demo.sh [PROGRAM]      PROGRAM: one that is built already
#
# The first build proves every crate below the program (tools/prove.py). The exit status is the program's, 1, since the
# session has refused lines; or 2 if it is not built.
set -eu
top=$(cd "$(dirname "$0")/.." && pwd)
# shellcheck source=tools/lib/program.sh
. "$top/tools/lib/program.sh"
[ $# -gt 0 ] || prove
program=$(realpath -- "${1:-$built}")
check_program "$program"
demo=$top/demo
exec "$program" --passwd "$demo/passwd" --group "$demo/group" --dump "$demo/dump" <"$demo/script"

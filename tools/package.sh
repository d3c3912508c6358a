#!/bin/sh
# Makes a Debian package of the program, the commands and the manual pages, so that a server needs neither the kit nor a
# proof of its own. It names the commit that it was made of.
#
# usage: tools/package.sh [--program FILE LINUX_FILE] [DIR]      the package comes into DIR, or the current folder
#
# Without --program the programs facl and facl_linux are proved and built by tools/prove.py, and the package says that they
# were proved at its commit; the files have to be as they were committed. FILE and LINUX_FILE are programs that are built:
# the package says so. dpkg-buildpackage makes it (debian/rules), and prints to standard error only where it fails. The exit
# status is 2 if the words are others, a tool is not installed, or the program is not built.
set -eu
top=$(cd "$(dirname "$0")/.." && pwd)
# shellcheck source=tools/lib/program.sh
. "$top/tools/lib/program.sh"

FACL_PROGRAM=
FACL_LINUX_PROGRAM=
case ${1:-} in
--program)
    [ $# -gt 2 ] || fail "--program: a FILE is missing"
    FACL_PROGRAM=$(realpath -- "$2")
    FACL_LINUX_PROGRAM=$(realpath -- "$3")
    shift 3
    ;;
--help) show_head 0 ;;
-*) show_head 2 >&2 ;;
esac
[ $# -le 1 ] || fail "one DIR at most"
target=$(realpath -- "${1:-.}")
[ -d "$target" ] || fail "$target: no such folder"
for tool in dpkg-buildpackage dh dh_python3; do
    command -v $tool >/dev/null || fail "$tool is not installed"
done
# shellcheck source=debian/prepare.sh
. "$top/debian/prepare.sh"
make_work
FACL_TO=$work
export FACL_PROGRAM FACL_LINUX_PROGRAM FACL_TO
dpkg-buildpackage -us -uc -b --rules-target=clean,binary,clean >"$work/log" 2>&1 || {
    cat "$work/log" >&2
    fail "dpkg-buildpackage fails"
}
cd "$work"
package=$(echo facl_*.deb)
mv -- "$package" "$target/$package"
echo "$target/$package"

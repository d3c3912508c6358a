#!/bin/sh
# Writes what a package says of itself: debian/rules runs this, and tools/package.sh reads it by `.`, for its messages.
#
# debian/facl.changelog has the version and the last changes by git, or those of debian/changelog where there is no .git.
# debian/commit says what the programs are. Without FACL_PROGRAM and FACL_LINUX_PROGRAM in the environment tools/prove.py
# proves and builds them, unless that is done and nothing has changed since. The exit status is 2 if files are not as
# they were committed, or a program is not there.
set -eu
top=$(cd "$(dirname "$0")/.." && pwd)
# shellcheck source=tools/lib/program.sh
. "$top/tools/lib/program.sh"
cd "$top"

# write_changelog: of git, with a version that rises with each commit of a day
write_changelog() {
    day=$(git show -s --format=%cd --date=format:%Y%m%d HEAD)
    number=$(git log --format=%cd --date=format:%Y%m%d HEAD | grep -c -x "$day")
    printf 'facl (0.%s.%s) unstable; urgency=low\n\n' "$day" "$number"
    git log -20 --format='%w(78,2,4)* %s' HEAD
    git show -s --format='%n -- %an <%ae>  %cD' HEAD
}

if [ -e .git ]; then
    command -v git >/dev/null || fail "git is not installed"
    [ -z "$(git status --porcelain)" ] || fail "files are not as in the commit: commit them first"
    write_changelog >debian/facl.changelog
    state="commit $(git rev-parse HEAD)"
else
    cp -- debian/changelog debian/facl.changelog
    state="version $(sed -n '1s/.*(\(.*\)).*/\1/p' debian/changelog)"
fi
if [ -n "${FACL_PROGRAM:-}" ]; then
    check_program "$FACL_PROGRAM"
    check_program "${FACL_LINUX_PROGRAM:-}"
    echo "The programs were given as they are, and are not known to be those that are proved at $state." >debian/commit
else
    prove
    echo "The programs were proved and built at $state." >debian/commit
fi

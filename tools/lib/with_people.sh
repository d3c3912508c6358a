#!/bin/sh
# Runs a command, as root, for which the files passwd and group of a folder are those of the system, and no other source is asked:
# they are mounted over these in a namespace of its own, so no account is made.
#
# usage: tools/lib/with_people.sh FOLDER COMMAND..
set -eu
printf 'passwd: files\ngroup: files\n' >"$1/nsswitch.conf"
# shellcheck disable=SC2016  # the words are those of the inner shell
exec unshare -m sh -euc 'for name in passwd group nsswitch.conf; do
        [ ! -e "/etc/$name" ] || mount --bind "$1/$name" "/etc/$name"
    done
    shift
    exec "$@"' sh "$@"

#!/bin/sh
# Installs `facl` with its verbs, the programs that it asks, and their manual pages. On the path are facl and facl_linux alone.
#
# usage: tools/install.sh [--program FILE [--linux-program FILE]] [--version VERSION] [--origin TEXT] [PREFIX]
#                                                                          into bin, libexec/facl and share of PREFIX
#        tools/install.sh --uninstall [PREFIX]                              removes what it installs
#
# PREFIX is /usr/local. FILE is a program that is built; without --program the programs are crates/facl_cli/out/facl_cli
# and crates/facl_linux_cli/out/facl_linux_cli, which tools/prove.py proves and builds. With --program alone there is no
# facl_linux, and the commands answer with --acl5 alone. TEXT is what `facl --version` says of the programs. With DESTDIR in
# the environment all goes below that folder. The exit status is 2 if the words are others, there is no program, or PREFIX
# cannot be written.
set -eu
umask 022 # Nobody else writes what root runs, and everybody reads it, whatever the caller's is.
top=$(cd "$(dirname "$0")/.." && pwd)
# shellcheck source=tools/lib/program.sh
. "$top/tools/lib/program.sh"

program=$built
linux_program=$built_linux
python=/usr/bin/python3 # by which the commands run
version=0
origin=
action=install
if [ "${1:-}" = --uninstall ]; then
    action=uninstall
    shift
fi
while [ $# -gt 0 ]; do
    case $1 in
    --program)
        program=${2:-}
        linux_program=
        ;;
    --linux-program) linux_program=${2:-} ;;
    --version) version=${2:-} ;;
    --origin) origin=${2:-} ;;
    --help) show_head 0 ;;
    -*) show_head 2 >&2 ;;
    *) break ;;
    esac
    [ $# -gt 1 ] || fail "$1: takes a word"
    shift 2
done
case $version in *[!0-9a-z.]*) fail "$version: is no version" ;; esac
[ $# -le 1 ] || fail "one PREFIX at most"
prefix=${1:-/usr/local}
case $prefix in /*) ;; *) fail "$prefix: PREFIX has to begin with a slash" ;; esac
to=${DESTDIR:-}${prefix%/}
# What verbs, the timer and other machines run, below libexec; facl_commands is beside them.
commands='facl-verbs facl-by-hand facl-snapshot facl-ask facl-plan facl-apply facl-report facl-who facl-diff facl-audit facl-check facl-daily'
completions=share/bash-completion/completions
case $prefix in # where zsh of the system, or of the administrator, looks
/usr) zsh=share/zsh/vendor-completions ;;
*) zsh=share/zsh/site-functions ;;
esac
fish=share/fish/vendor_completions.d

# pages: the manual pages that are made of docs/pages, as manN/NAME.N
pages() {
    for page in "$top"/docs/pages/*.md; do
        page=${page##*/}
        page=${page%.md}
        echo "man${page##*.}/$page"
    done
}

uninstall() {
    rm -f -- "$to/bin/facl" "$to/bin/facl_linux"
    for page in man1/facl_linux.1 man1/facl-commands.1 man5/facl-script.5 $(pages); do
        rm -f -- "$to/share/man/$page"
    done
    rm -f -- "$to/$completions/facl" "$to/$zsh/_facl" "$to/$fish/facl.fish"
    rm -rf -- "$to/libexec/facl" "$to/share/facl"
}

# check_parts: what has to be there before anything is written
check_parts() {
    check_program "$program"
    [ -z "$linux_program" ] || check_program "$linux_program"
    [ ! -e "$to/libexec/facl" ] || [ -d "$to/libexec/facl/facl_commands" ] || fail "$to/libexec/facl: is there, and is not ours"
    mkdir -p -- "$to/bin" "$to/libexec" "$to/share/man/man1" "$to/$completions" || true
    { [ -w "$to/bin" ] && [ -w "$to/libexec" ] && [ -w "$to/share/man/man1" ] && [ -w "$to/$completions" ]; } ||
        fail "$prefix: cannot be written: run it as root, or give a PREFIX"
}

# install_modules: the packages of the commands, each with its modules and what of a page is beside them
install_modules() {
    folders=$(cd "$top/commands" && find facl_commands -name __pycache__ -prune -o -type d -print)
    for folder in $folders; do
        install -d -m 755 -- "$to/libexec/facl/$folder"
        for file in "$top/commands/$folder"/*.py "$top/commands/$folder"/*.css "$top/commands/$folder"/*.js*; do
            [ ! -f "$file" ] || install -m 644 -- "$file" "$to/libexec/facl/$folder"
        done
    done
}

# write_origin: what `facl --version` says of the programs
write_origin() {
    [ -n "$origin" ] || origin='The programs were given as they are: nobody said whether they were proved.'
    printf '%s\n' "$origin" >"$to/libexec/facl/origin"
    chmod 644 "$to/libexec/facl/origin"
}

# install_completion: of each shell, as the parsers of the verbs have it
install_completion() {
    install -d -m 755 -- "$to/$zsh" "$to/$fish"
    completion_of() { $python -I "$top/commands/facl-verbs" complete "$1"; }
    { cat "$top/commands/completion/facl.bash" && completion_of bash; } >"$to/$completions/facl"
    completion_of zsh >"$to/$zsh/_facl"
    completion_of fish >"$to/$fish/facl.fish"
    chmod 644 -- "$to/$completions/facl" "$to/$zsh/_facl" "$to/$fish/facl.fish"
}

install_files() {
    rm -rf -- "$to/libexec/facl"
    install -d -m 755 -- "$to/libexec/facl"
    install -m 755 -- "$program" "$to/libexec/facl/facl-program"
    for name in facl $commands; do install -m 755 -- "$top/commands/$name" "$to/libexec/facl"; done
    ln -sf -- ../libexec/facl/facl "$to/bin/facl"
    [ -z "$linux_program" ] || {
        install -m 755 -- "$linux_program" "$to/libexec/facl/facl_linux"
        ln -sf -- ../libexec/facl/facl_linux "$to/bin/facl_linux"
    }
    install_modules
    write_origin
    sed -i "s/^VERSION = \"0\"/VERSION = \"$version\"/" "$to/libexec/facl/facl_commands/__init__.py"
    # A start reads what is compiled; a package compiles it where it is installed.
    [ -n "${DESTDIR:-}" ] || ! command -v $python >/dev/null || $python -m compileall -q "$to/libexec/facl/facl_commands"
    "$top/tools/pages.py" --version "$version" "$to/share/man"
    chmod 644 -- "$to"/share/man/man[157]/facl*
    [ -z "$linux_program" ] || {
        echo .so man5/facl-script.5 >"$to/share/man/man1/facl_linux.1"
        chmod 644 "$to/share/man/man1/facl_linux.1"
    }
    install_completion
    install -d -m 755 -- "$to/share/facl/schemas"
    install -m 644 -- "$top"/commands/schemas/*.json "$to/share/facl/schemas"
}

warn() {
    echo "$script_name: warning: $1" >&2
}

# say_what_is_missing: what the commands call, with the package of each
say_what_is_missing() {
    [ -n "$linux_program" ] || warn "without facl_linux (--linux-program) the commands answer with --acl5 alone"
    for needed in 'getent libc-bin' "$python python3"; do
        command -v "${needed% *}" >/dev/null || warn "without ${needed% *} (package ${needed#* }) the commands fail"
    done
    ! command -v $python >/dev/null || $python -c 'import sys; sys.exit(sys.version_info < (3, 9))' ||
        warn "python3 is older than 3.9, which the commands need"
    ! command -v $python >/dev/null || $python -c 'import prompt_toolkit' 2>/dev/null ||
        warn "without the package python3-prompt-toolkit the prompt of facl ask completes no words"
    case :$PATH: in *:"$prefix/bin":*) ;; *) warn "$prefix/bin is not on the path" ;; esac
}

if [ $action = uninstall ]; then
    uninstall
    echo "$script_name: removed from $prefix"
else
    check_parts
    install_files
    [ -n "${DESTDIR:-}" ] || say_what_is_missing
    echo "$script_name: installed facl${linux_program:+ and facl_linux} in $prefix/bin; man facl"
fi

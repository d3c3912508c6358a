# Completes the words of facl in bash: verbs, options, findings, users, groups, snapshots, and names of files.
# Names of users, groups and files are data of others: nothing here evaluates one, and each is quoted on the command line.
# shellcheck shell=bash disable=SC2154  # the tables of verbs, which `facl complete bash` prints, come below this file

# _facl_line: sets `verb`, the verb that is on the line before the word that is typed, and `place`, how many words are after it
# that are no options and no values of any
_facl_line() {
    local word next=''
    verb='' place=0
    for word in "${seen[@]:1}"; do
        if [[ -n $next ]]; then
            next=''
        elif [[ $word == -?* ]]; then
            next=${_facl_values[$word]-}
        elif [[ -z $verb ]]; then
            verb=$word
        elif [[ $place -eq 0 && " ${_facl_more[$verb]-} " == *" $word "* ]]; then
            verb+=" $word"
        else
            place=$((place + 1))
        fi
    done
}

# _facl_kind COMMAND KIND WORD: the words of a kind, of the snapshot that is meant; users and groups of the system where there is none.
# The command on the path says them, not a file that is being typed.
_facl_kind() {
    case $2 in
    file | word) ;;
    *) command "${1##*/}" complete "$2" -- "$3" 2>/dev/null </dev/null || case $2 in
        user) compgen -u ;;
        group) compgen -g ;;
        esac ;;
    esac
}

# _facl_words COMMAND WORD BEFORE: what the word after another one can be; nothing where it is a name of a file
_facl_words() {
    local verb place kinds=() kind='' words
    _facl_line
    read -ra kinds <<<"${verb:+${_facl_kinds[$verb]-}}"
    if [[ $3 == -?* && -n ${_facl_values[$3]-} ]]; then
        words=${_facl_values[$3]}
    elif [[ $2 == -* ]]; then
        words=${verb:+${_facl_options[$verb]-}}
        words=${words:---version --help}
    elif [[ -z $verb ]]; then
        words=${_facl_verbs[*]-}
    else
        kind=${kinds[place]-}
        [[ -n $kind || ${#kinds[@]} -eq 0 || ${kinds[-1]} != *\* ]] || kind=${kinds[-1]}
        [[ $place -gt 0 || -z ${_facl_more[$verb]-} ]] || printf '%s\n' "${_facl_more[$verb]}"
        words=:${kind%\*}
    fi
    case $words in
    :) ;;
    :*) _facl_kind "$1" "${words#:}" "$2" ;;
    *) tr ' ' '\n' <<<"$words" ;;
    esac
}

# _facl_read LINE: sets `word` and `before`, the last two words of a line without their quotes, `typed`, the last one with
# them, `quote`, the quote that it leaves open, and `seen`, the words before the last one
_facl_read() {
    local place letter next
    word='' before='' typed='' quote='' seen=()
    for ((place = 0; place < ${#1}; place++)); do
        letter=${1:place:1} next=${1:place+1:1}
        case $quote$letter in
        \\ | \"\\) [[ -n $quote && $next != [\"\\\$\`] ]] && word+=$letter
            word+=$next typed+=$letter$next place=$((place + 1)) ;;
        \' | \") quote=$letter typed+=$letter ;;
        "''" | '""') quote='' typed+=$letter ;;
        [[:blank:]]) [ -z "$typed" ] || { before=$word && seen+=("$word"); }
            word='' typed='' ;;
        *) word+=$letter typed+=$letter ;;
        esac
    done
}

# _facl_quoted NAME QUOTE: sets `quoted`, a word of the shell that is the name, after this quote but for its end
_facl_quoted() {
    local letter place LC_ALL=C
    case $2 in
    \') quoted=\'${1//\'/\'\\\'\'} ;;
    \") quoted=\"
        for ((place = 0; place < ${#1}; place++)); do
            letter=${1:place:1}
            case $letter in
            [\"\\\$\`]) quoted+=\\$letter ;;
            !) quoted+=\"\'!\'\" ;; # It would call an earlier line.
            *) quoted+=$letter ;;
            esac
        done ;;
    *) printf -v quoted %q "$1" ;;
    esac
}

# _facl COMMAND TEXT: the words that go on from what is typed, of which TEXT is replaced; names of files bash completes
_facl() {
    local word before typed quote quoted name kept names=() seen=()
    _facl_read "${COMP_LINE:0:COMP_POINT}"
    mapfile -t names < <(_facl_words "$1" "$word" "$before" | LC_ALL=C sort -u)
    COMPREPLY=()
    [ "${#names[@]}" -gt 0 ] || compopt -o default
    kept=${typed%"$2"}
    for name in "${names[@]}"; do
        [[ $name == "$word"* ]] || continue
        _facl_quoted "$name" "$quote"
        [[ $quoted != "$kept"* ]] || COMPREPLY+=("${quoted#"$kept"}")
    done
    [[ ${#COMPREPLY[@]} -ne 1 || ${COMPREPLY[0]} != */ ]] || compopt -o nospace
}

# Completion for bash of the words of bgpdump: its options, the values of -t, and names of files.

# Sets `owner` to the option whose value comes next, if any, `is_ended` where `--` came before, and
# `options` to the options that may still be given: each once, and -m or --play.
_rumpleja_words_before() {
    local place word
    for ((place = 1; place < COMP_CWORD; place++)); do
        word=${COMP_WORDS[place]}
        if [[ $owner ]]; then
            # Bash gives --play=FILE as three words.
            [[ $owner == --play && $word == = ]] || owner=
        elif [[ ! $is_ended ]]; then
            case $word in
                --) is_ended=yes ;;
                -m) options=${options/-m --play/} ;;
                --play) owner=$word options=${options/-m --play/} ;;
                -t | -O) owner=$word options=${options/$word/} ;;
                -t* | -O*) options=${options/${word:0:2}/} ;;
            esac
        fi
    done
}

# Puts the names of files that begin with the word into COMPREPLY, each behind the prefix.
_rumpleja_files() {
    local word=$1 prefix=$2
    mapfile -t COMPREPLY < <(compgen -f -P "$prefix" -- "$word")
    # It fails where nobody is typing, as in a test.
    compopt -o filenames 2>/dev/null
}

_rumpleja_bgpdump() {
    local word=${COMP_WORDS[COMP_CWORD]} owner= is_ended= options='-m --play -t -O --help'
    COMPREPLY=()
    _rumpleja_words_before
    case $owner:$is_ended$word in
        -t:*) mapfile -t COMPREPLY < <(compgen -W 'dump change' -- "$word") ;;
        --play:=) _rumpleja_files '' ;;
        -O:* | --play:*) _rumpleja_files "$word" ;;
        :-t?*) mapfile -t COMPREPLY < <(compgen -P -t -W 'dump change' -- "${word:2}") ;;
        :-O?*) _rumpleja_files "${word:2}" -O ;;
        :-*) mapfile -t COMPREPLY < <(compgen -W "$options" -- "$word") ;;
        *) _rumpleja_files "$word" ;;
    esac
    return 0
}

complete -o default -F _rumpleja_bgpdump bgpdump

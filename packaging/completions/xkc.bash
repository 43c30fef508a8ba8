# Completions of xkc for bash.

# Names of a kind that are listed: those that the last of the names before the cursor, which commas part, begins.
_xkc_listed() {
    local kind=$1 word=$2 before=
    case $word in *,*) before=${word%,*}, ;; esac
    COMPREPLY=($(compgen -P "$before" -W "$(xkc list "$kind" 2> /dev/null | cut -d ' ' -f 1)" -- "${word##*,}"))
    compopt +o filenames -o nospace
    # A colon parts words, so that what stands before the last one is written already.
    case $COMP_WORDBREAKS in *:*)
        case $word in *:*)
            local place written=${word%"${word##*:}"}
            for place in "${!COMPREPLY[@]}"; do COMPREPLY[place]=${COMPREPLY[place]#"$written"}; done
            ;;
        esac
        ;;
    esac
}

# Sets `word` to the word before the cursor, and `before` to the one before it, with the signs that part words put back; of
# an option with its value, as --layout=us, `word` is the value and `before` the option.
_xkc_words() {
    local line=${COMP_LINE:0:COMP_POINT}
    word=${line##*[[:space:]]}
    line=${line%"$word"}
    line=${line%"${line##*[![:space:]]}"}
    before=${line##*[[:space:]]}
    case $word in --*=*)
        before=${word%%=*}
        word=${word#*=}
        ;;
    esac
}

_xkc() {
    local word before options
    local commands='try compile replay print show find list rules names dump upgrade help'
    local named='--rules --model --layout --variant --options' include='-I --include' help='-h --help'
    _xkc_words
    if [ "$COMP_CWORD" -eq 1 ]; then
        COMPREPLY=($(compgen -W "$commands $help -V --version" -- "$word"))
        compopt +o filenames
        return
    fi
    case ${COMP_WORDS[1]} in
        help) options=$commands ;;
        try | compile) options="--names $include --quiet --warn $named $help" ;;
        print | find | replay) options="--names $include $named $help" ;;
        show) options="--names $include --group --svg $named $help" ;;
        rules) options="$include $named $help" ;;
        list) options="layouts variants options models --rules $include $help" ;;
        names | dump | upgrade) options=$help ;;
    esac
    case $before in
        --names) COMPREPLY=($(compgen -f -- "$word")) ;;
        --include | -I) COMPREPLY=($(compgen -d -- "$word")) ;;
        --group | --rules) COMPREPLY=() ;;
        --warn) COMPREPLY=($(compgen -W all -- "$word")) ;;
        --model) _xkc_listed models "$word" ;;
        --layout) _xkc_listed layouts "$word" ;;
        --variant) _xkc_listed variants "$word" ;;
        --options) _xkc_listed options "$word" ;;
        *)
            case ${COMP_WORDS[1]} in
                help | list | rules) COMPREPLY=($(compgen -W "$options" -- "$word")) ;;
                *) COMPREPLY=($(compgen -f -W "$options" -- "$word")) ;;
            esac
            ;;
    esac
}
complete -o filenames -F _xkc xkc

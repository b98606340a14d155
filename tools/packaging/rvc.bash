# Completion of `rvc` for bash.

# The names of a top's ports.
_rvc_ports() { # top
    local script
    script=$(readlink -f -- "$(type -P rvc)") && "${script%/*}/tools/port_names" "$1"
}

# Files that a verb takes as its top, and folders.
_rvc_tops() { # verb, word
    local file
    while IFS= read -r file; do
        if [[ -d $file ]]; then
            COMPREPLY+=("$file/")
        elif [[ $file == *.cal || $file == *.xdf && $1 != fmt ]]; then
            COMPREPLY+=("$file")
        fi
    done < <(compgen -f -- "$2")
    [[ ${#COMPREPLY[@]} -eq 1 && ${COMPREPLY[0]} == */ ]] && compopt -o nospace
}

_rvc() {
    local verbs='run check certify replay fmt gen help' word=$2 before=$3 verb=${COMP_WORDS[1]-} top=${COMP_WORDS[2]-}
    local options='--trace --workers --round --burst --budget --grow'
    COMPREPLY=()
    if [[ $COMP_CWORD -eq 1 ]]; then
        mapfile -t COMPREPLY < <(compgen -W "$verbs --help --version" -- "$word")
        return
    fi
    # Bash takes a `=` as a word of its own.
    if [[ $before == = ]]; then
        before=${COMP_WORDS[COMP_CWORD - 2]}
    elif [[ $word == = ]]; then
        word=
    fi
    case $before in
    help)
        mapfile -t COMPREPLY < <(compgen -W "$verbs" -- "$word")
        return
        ;;
    --round)
        mapfile -t COMPREPLY < <(compgen -W 'all turn seed:' -- "$word")
        return
        ;;
    --workers | --burst | --budget | --grow) return ;;
    --trace)
        compopt -o filenames
        mapfile -t COMPREPLY < <(compgen -f -- "$word")
        return
        ;;
    esac
    if [[ $3 == = || $2 == = ]]; then
        compopt -o filenames
        mapfile -t COMPREPLY < <(compgen -f -- "$word")
    elif [[ $word == -* ]]; then
        mapfile -t COMPREPLY < <(compgen -W "$options --help" -- "$word")
    elif [[ $COMP_CWORD -eq 2 && $verb != gen ]]; then
        _rvc_tops "$verb" "$word"
    elif [[ $verb == run || $verb == replay ]]; then
        mapfile -t COMPREPLY < <(compgen -S = -W "$(_rvc_ports "$top")" -- "$word")
        [[ ${#COMPREPLY[@]} -gt 0 ]] && compopt -o nospace
    elif [[ $verb == gen ]]; then
        mapfile -t COMPREPLY < <(compgen -W 'Out=' -- "$word")
        compopt -o nospace
    fi
}

complete -F _rvc rvc

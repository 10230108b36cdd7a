# The words of ntuple for bash. Take it up with `source completions/ntuple.bash`, or copy it to
# ~/.local/share/bash-completion/completions/ntuple.

# The options of a command.
_ntuple_options() {
    case $1 in
        write) echo --cluster --page --group --plain --max-range --max-file --staged --contexts ;;
        seq) echo --cluster --page --group --plain --max-range --max-file ;;
        skim) echo --cluster --page --group --plain --max-range --max-file --where --least --greatest ;;
        merge) echo --group --max-range --max-file ;;
        entries) echo --from --count ;;
    esac
}

# Those of the options that don't stand in the words yet.
_ntuple_left() {
    local option
    for option in $(_ntuple_options "${COMP_WORDS[1]}"); do
        [[ " ${COMP_WORDS[*]:2} " == *" $option "* ]] || echo "$option"
    done
}

_ntuple() {
    local word=${COMP_WORDS[COMP_CWORD]} before=${COMP_WORDS[COMP_CWORD - 1]}
    COMPREPLY=()
    if [ "$COMP_CWORD" -eq 1 ]; then
        COMPREPLY=($(compgen -W 'write seq skim merge gen entries schema scan' -- "$word"))
        return
    fi
    if [[ " ${COMP_WORDS[*]:2:COMP_CWORD-2} " != *' -- '* ]]; then
        case $before in
            --cluster | --page | --group | --max-range | --max-file | --contexts | --from | --count) return ;; # a number follows
            --where | --least | --greatest) return ;; # and the name of a field, or a number
        esac
        case $word in
            -*)
                COMPREPLY=($(compgen -W "$(_ntuple_left)" -- "$word"))
                return
                ;;
        esac
    fi
    [ "${COMP_WORDS[1]}" = gen ] && [ "$COMP_CWORD" -lt 5 ] && return # so do the three numbers of gen
    compopt -o default # names of files
}

complete -F _ntuple ntuple

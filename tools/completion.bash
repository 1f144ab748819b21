# Completion of svo for bash: commands, options and file names. Made by tools/make_pages of
# docs/commands.toml. Source it, or put it into a folder of the package bash-completion.

_svo_options() {
    case $1 in
@OPTIONS@
    esac
}

# What the value of a command's option is.
_svo_value() {
    case "$1 $2" in
@VALUES@
    esac
}

# The values that the words of a command's option may have, behind what stands there already.
_svo_values() {
    local kind
    kind=$(_svo_value "$1" "$2")
    case $kind in
    file) compopt -o filenames 2>/dev/null; COMPREPLY=($(compgen -f -- "$3")) ;;
    folder) compopt -o filenames 2>/dev/null; COMPREPLY=($(compgen -d -- "$3")) ;;
    words*) COMPREPLY=($(compgen -W "${kind#words }" -- "$3")) ;;
    esac
}

# The options of the command that do not stand among the words yet.
_svo_left() {
    local option word stands
    for option in $(_svo_options "$1"); do
        stands=
        for word in "${COMP_WORDS[@]:2}"; do
            [[ $word == "$option" || $word == "$option="* ]] && stands=yes
        done
        [[ $stands && $option != "$2" ]] || echo "$option"
    done
}

_svo() {
    local IFS=$' \n' here=${COMP_WORDS[COMP_CWORD]} before=${COMP_WORDS[COMP_CWORD - 1]} command=${COMP_WORDS[1]}
    COMPREPLY=()
    if [[ $COMP_CWORD == 1 ]]; then
        COMPREPLY=($(compgen -W '@COMMANDS@ help --help --version' -- "$here"))
    elif [[ $command == help ]]; then
        [[ $COMP_CWORD == 2 ]] && COMPREPLY=($(compgen -W '@COMMANDS@' -- "$here"))
    elif [[ $here == = ]]; then
        _svo_values "$command" "$before" ''
    elif [[ $before == = ]]; then
        _svo_values "$command" "${COMP_WORDS[COMP_CWORD - 2]}" "$here"
    elif [[ $before == -* && $(_svo_value "$command" "$before") != none ]]; then
        _svo_values "$command" "$before" "$here"
    else
        COMPREPLY=($(compgen -W "$(_svo_left "$command" "$here")" -- "$here"))
    fi
}

complete -F _svo svo ./svo

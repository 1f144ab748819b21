# Completion of svo for bash: commands, options and file names. Made by tools/make_pages of
# docs/commands.toml. Source it, or put it into a folder of the package bash-completion.

_svo_options() {
    case $1 in
    build) echo '--depth --fit --origin --cell --decimals --cut --memory --scratch -o' ;;
    check) echo '--nodes' ;;
    has) echo '--nodes --code' ;;
    cells) echo '--nodes --keep' ;;
    lift) echo '--nodes -o' ;;
    merge) echo '--kind --nodes --with -o' ;;
    coarse) echo '--nodes --levels -o' ;;
    cast) echo '--nodes --keep' ;;
    near) echo '--nodes --keep -o' ;;
    slice) echo '--nodes --axis --at --keep -o' ;;
    view) echo '--nodes --kind --eye --toward --right --up --width --height --far --keep -o' ;;
    why) echo '--triangle --cube' ;;
    make) echo '--number --side -o' ;;
    sum) echo '--number --side --depth --memory --scratch' ;;
    survey) echo '--depth' ;;
    info) echo '--decimals' ;;
    ascii) echo '--decimals' ;;
    esac
}

# What the value of a command's option is.
_svo_value() {
    case "$1 $2" in
    *' -o') echo 'file' ;;
    *' --at') echo 'number' ;;
    *' --axis') echo 'words x y z' ;;
    *' --cell') echo 'number' ;;
    *' --code') echo 'number' ;;
    *' --cube') echo 'number' ;;
    *' --cut') echo 'none' ;;
    *' --decimals') echo 'number' ;;
    *' --depth') echo 'number' ;;
    *' --eye') echo 'number' ;;
    *' --far') echo 'number' ;;
    *' --fit') echo 'none' ;;
    *' --height') echo 'number' ;;
    *' --keep') echo 'number' ;;
    'merge --kind') echo 'words union both minus' ;;
    'view --kind') echo 'words parallel pinhole' ;;
    *' --levels') echo 'number' ;;
    *' --memory') echo 'number' ;;
    *' --nodes') echo 'file' ;;
    *' --number') echo 'number' ;;
    *' --origin') echo 'number' ;;
    *' --right') echo 'number' ;;
    *' --scratch') echo 'folder' ;;
    *' --side') echo 'number' ;;
    *' --toward') echo 'number' ;;
    *' --triangle') echo 'number' ;;
    *' --up') echo 'number' ;;
    *' --width') echo 'number' ;;
    *' --with') echo 'file' ;;
    esac
}

# The values that the words of a command's option may have, behind what stands there already.
_svo_values() {
    local kind
    kind=$(_svo_value "$1" "$2")
    case $kind in
    file) compopt -o filenames 2>/dev/null; COMPREPLY=($(compgen -f -- "$3")) ;;
    folder) compopt -o filenames 2>/dev/null; COMPREPLY=($(compgen -d -- "$3")) ;;
    words*) COMPREPLY=($(compgen -W "${kind#words }" -- "$3")) ;;
    esac
}

# The options of the command that do not stand among the words yet.
_svo_left() {
    local option word stands
    for option in $(_svo_options "$1"); do
        stands=
        for word in "${COMP_WORDS[@]:2}"; do
            [[ $word == "$option" || $word == "$option="* ]] && stands=yes
        done
        [[ $stands && $option != "$2" ]] || echo "$option"
    done
}

_svo() {
    local IFS=$' \n' here=${COMP_WORDS[COMP_CWORD]} before=${COMP_WORDS[COMP_CWORD - 1]} command=${COMP_WORDS[1]}
    COMPREPLY=()
    if [[ $COMP_CWORD == 1 ]]; then
        COMPREPLY=($(compgen -W 'build check has cells lift merge coarse cast near slice view why make sum survey info ascii help --help --version' -- "$here"))
    elif [[ $command == help ]]; then
        [[ $COMP_CWORD == 2 ]] && COMPREPLY=($(compgen -W 'build check has cells lift merge coarse cast near slice view why make sum survey info ascii' -- "$here"))
    elif [[ $here == = ]]; then
        _svo_values "$command" "$before" ''
    elif [[ $before == = ]]; then
        _svo_values "$command" "${COMP_WORDS[COMP_CWORD - 2]}" "$here"
    elif [[ $before == -* && $(_svo_value "$command" "$before") != none ]]; then
        _svo_values "$command" "$before" "$here"
    else
        COMPREPLY=($(compgen -W "$(_svo_left "$command" "$here")" -- "$here"))
    fi
}

complete -F _svo svo ./svo

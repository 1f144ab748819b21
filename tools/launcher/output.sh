# Part of svo: -o FILE. The output goes to a file beside it, which gets its name once the run has ended well.

takes_output() {
    case $1 in
    build | solid | lift | merge | coarse | slice | view | make) return 0 ;;
    esac
    return 1
}

# No terminal is to show bytes of a node file or a picture.
refuse_terminal() {
    [ -t 1 ] && [ $# -gt 1 ] && [ -z "$output" ] || return 0
    case $1 in
    build | solid | lift | merge | coarse | slice | view) refuse "$1 writes bytes that are no text: name a file by -o FILE, or by > FILE" ;;
    esac
}

# Sets the file that the output goes to meanwhile. What is there and is no usual file, as /dev/null, is written as
# it is.
begin_output() {
    [ -n "$output" ] || return 0
    output=$(readlink -f -- "$output" || printf '%s' "$output")
    [ ! -d "$output" ] || refuse "$output is a folder"
    part=$output
    if [ ! -e "$output" ] || [ -f "$output" ]; then
        part=$output.$$.part
    fi
    (: >"$part") 2>/dev/null || refuse "nothing can be written beside $output: name another file"
}

end_output() {
    [ -n "$output" ] && [ "$part" != "$output" ] || return 0
    if [ "$1" != 0 ]; then
        rm -f -- "$part"
    elif ! mv -f -- "$part" "$output"; then
        refuse "the output is whole, but cannot be named $output; it is $part"
    fi
}

# Part of svo: the pages of help, the nearest command, and the tools beside the program.

has_page() {
    case $1 in
    '' | *[!a-z]*) return 1 ;;
    esac
    [ -f "$pages/$1.txt" ]
}

# The command whose name is the fewest changes of a letter from a word, if these are no more than a third of its
# letters and one.
nearest_command() {
    printf '%s\n' "$pages"/*.txt | awk -v word="$1" '
        function least(a, b) { return a < b ? a : b }
        function changes(a, b, row, before, i, j, kept) {
            for (j = 0; j <= length(b); j++) row[j] = j
            for (i = 1; i <= length(a); i++) {
                before = row[0]
                row[0] = i
                for (j = 1; j <= length(b); j++) {
                    kept = row[j]
                    row[j] = least(least(row[j], row[j - 1]) + 1, before + (substr(a, i, 1) != substr(b, j, 1)))
                    before = kept
                }
            }
            return row[length(b)]
        }
        {
            sub(/.*\//, "")
            sub(/\.txt$/, "")
            if ($0 == "svo" || $0 == "version" || length(word) > 40) next
            far = changes(word, $0)
            if (best == "" || far < best_far) { best = $0; best_far = far }
        }
        END { if (best_far <= 1 + length(best) / 3) print best }'
}

# One line of a word that is no command.
say_no_command() {
    near=$(nearest_command "$1")
    printf "svo: there is no command '%s'%s; 'svo help' lists them\n" "$1" "${near:+ (do you mean '$near'?)}" >&2
}

show_help() {
    if has_page "$1"; then
        cat "$pages/$1.txt"
        exit
    fi
    say_no_command "$1"
    exit 2
}

# Runs a tool in C beside the program; in a checkout it is compiled where that is needed.
run_tool() {
    tool=$1
    shift
    if [ -d "$home/crates" ]; then
        said=$("$home/tools/build_tools" "$tool" 2>&1) || refuse "$said"
        exec "$tools/out/$tool" "$@"
    fi
    [ -x "$tools/$tool" ] || refuse "there was no C compiler when this was installed, so there is no '$tool'; install it anew from a checkout on a machine that has cc"
    exec "$tools/$tool" "$@"
}

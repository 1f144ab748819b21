# Part of svo: on a terminal, one further line that says what a refusal means here and what helps. The input is read
# again for it where it is a file.

hint() {
    printf 'svo: %s\n' "$1" >&2
}

input_is_file() {
    [ -f /proc/self/fd/3 ]
}

# The value of an option among the words that follow.
value_of() {
    wanted=$1 awaits=
    shift
    for word; do
        case $awaits:$word in
        yes:*) printf '%s' "$word" && return ;;
        ":$wanted") awaits=yes ;;
        ":$wanted="*) printf '%s' "${word#"$wanted"=}" && return ;;
        esac
    done
}

# The line of the input at a place, with its number, as far as it is short and can be shown.
line_at() {
    input_is_file || return
    number=$(($(head -c "$1" /proc/self/fd/3 | wc -l) + 1))
    text=$(head -c $(($1 + 120)) /proc/self/fd/3 | tail -n "+$number" | head -n 1 | tr -d '\000-\037\177' | cut -c 1-70)
    printf "line %s is '%s'" "$number" "$text"
}

# What the input is, by its first bytes, and the line that brings it in.
other_kind() {
    input_is_file || { echo 'the input is no PLY text: svo help build names what is read, and docs/COOKBOOK.md brings other kinds in'; return; }
    case $(head -c 2 /proc/self/fd/3 | od -An -tx1 | tr -d ' \n') in
    1f8b) echo "the input is packed by gzip: gzip -dc FILE | svo $command .." && return ;;
    28b5) echo "the input is packed by zstd: zstd -dc FILE | svo $command .." && return ;;
    425a) echo "the input is packed by bzip2: bzip2 -dc FILE | svo $command .." && return ;;
    fd37) echo "the input is packed by xz: xz -dc FILE | svo $command .." && return ;;
    504b) echo "the input is a zip archive: unzip -p FILE | svo $command .." && return ;;
    676c) echo 'the input is glTF: assimp export FILE mesh.ply -fply makes a PLY text of it' && return ;;
    esac
    size=$(stat -L -c %s /proc/self/fd/3)
    count=$(tail -c +81 /proc/self/fd/3 | head -c 4 | od -An -tu4 | tr -d ' \n')
    first=$(head -c 4096 /proc/self/fd/3 | tr -d '\000' | grep -m 1 -ao '^[[:space:]]*[A-Za-z][A-Za-z]*' | tr -d '[:space:]')
    if [ "$size" = $((84 + 50 * ${count:-0})) ]; then
        echo "the input is binary STL: svo ascii --decimals n FILE | svo $command .."
    elif [ "$first" = solid ]; then
        echo 'the input is STL text: assimp export FILE mesh.ply -fply makes a PLY text of it'
    elif [ "$first" = OFF ]; then
        echo 'the input is OFF: assimp export FILE mesh.ply -fply makes a PLY text of it'
    elif head -c 65536 /proc/self/fd/3 | grep -aqE '^(v|vn|vt|f|o|g|mtllib|usemtl) '; then
        echo 'the input is OBJ: assimp export FILE mesh.ply -fply makes a PLY text of it'
    else
        echo 'the input is no PLY text, whose first line is ply: docs/COOKBOOK.md brings other kinds in'
    fi
}

# Whether the input is binary little-endian PLY, whose places behind the header are those of its ASCII text.
is_binary() {
    input_is_file && head -c 4096 /proc/self/fd/3 | grep -aqE '^[[:blank:]]*format[[:blank:]]+binary_little_endian[[:blank:]]'
}

hint_of_binary() {
    case $1 in
    BadNumber) hint "a coordinate of a binary file is a whole number here; floats come in by svo ascii --decimals n FILE | svo $command .." ;;
    Truncated) hint 'the file ends before the rows that its header counts: was it copied whole?' ;;
    *) hint 'docs/FORMATS.md tells what a binary file has; behind its header, places are those of its ASCII text' ;;
    esac
}

hint_of_input() {
    kind=${said#input: } place=${said##* at }
    kind=${kind%% at *}
    case $kind in
    NotPly) hint "$(other_kind)" && return ;;
    BadFormat) hint "this is neither ASCII PLY 1.0 nor binary_little_endian; of other binary PLY: svo ascii --decimals n FILE | svo $command .." && return ;;
    esac
    is_binary && hint_of_binary "$kind" && return
    where=$(line_at "$place")
    case $kind in
    NotWhole) hint "${where:+$where; }keep its decimals by --decimals n ('svo survey' tells how many there are), or cut what is finer by --cut" ;;
    OutOfRange) hint "${where:+$where; }times ten to the --decimals, a coordinate is at most 1073741824: keep fewer, with --cut if there are more" ;;
    Truncated) hint "the text ends before the rows that its header counts: was it copied whole?" ;;
    BadRay) hint "${where:+$where; }a ray is six whole numbers: its origin x y z and its direction x y z" ;;
    BadPoint) hint "${where:+$where; }a point is three whole numbers: x y z" ;;
    *) hint "${where:+$where; }'svo help $command' and docs/FORMATS.md tell what a text has there" ;;
    esac
}

hint_of_range() {
    case $said in
    'range: memory least '*) hint "the depth needs more: give --memory ${said##* } or more, up to 2147483648" ;;
    'range: grids') hint "'svo info' tells the grid of each file: build both with the same --depth, --origin and --cell" ;;
    'range: wide') hint 'the cell times 2^depth is at most 4294967296: give a smaller --cell or --depth, or --fit' ;;
    'range: ray at '*) where=$(line_at "${said##* }") && hint "$where; an origin is at most 2^40, a direction at most 2^30 and not 0 0 0" ;;
    'range: point at '*) where=$(line_at "${said##* }") && hint "$where; a coordinate of a point is at most 2^40" ;;
    *) hint "'svo help $command' tells the range" ;;
    esac
}

hint_of_device() {
    case $said in
    'device: scratch')
        above=$(dirname "$scratch")
        if [ ! -d "$above" ]; then
            hint "the scratch folder $scratch cannot be made, since there is no folder $above"
        elif [ -e "$scratch" ] && [ ! -d "$scratch" ]; then
            hint "$scratch is no folder: name another by --scratch"
        elif [ -d "$scratch" ] && [ ! -w "$scratch" ]; then
            hint "nothing can be written in $scratch: name another folder by --scratch"
        else
            hint "the scratch folder $scratch: $(df -Pk "$above" | awk 'NR == 2 { print $4 }') kB are free there, and a build needs 12 bytes a vertex, 40 a triangle, and more where parts are crossed ('svo survey'); name another by --scratch"
        fi
        ;;
    'device: read') hint 'the input could not be read: is it a folder, or a terminal that was closed?' ;;
    'device: write') hint "the output could not be written: is its disk full? ${output:+$(df -Pk "$(dirname "$output")" | awk 'NR == 2 { print $4 }') kB are free there}" ;;
    'device: nodes') hint 'the node file could not be read: is it a folder?' ;;
    esac
}

hint_of_nodes() {
    option=--${said%%:*}
    file=$(value_of "$option" "$@")
    case ${said#*: } in
    'no file') hint "there is no file ${file:-of this name}" ;;
    'not a node file')
        if [ -f "$file" ] && [ "$(head -c 3 "$file")" = ply ]; then
            hint "$file is a mesh: 'svo build .. < $file > octree.svo' makes a node file of it"
        else
            hint "$file is no node file, or was cut short: its build may have been stopped"
        fi
        ;;
    *) hint "$file has the form of a node file, and a word of it is not one of any cells: build it anew, or fetch it again" ;;
    esac
}

# The most filled cells along an axis of a file, if it is one.
widest() {
    [ -f "$1" ] || return
    "$program" cells --nodes "$1" 2>/dev/null | awk '
        { for (i = 2; i <= 4; i++) { if (NR == 1 || $i < low[i]) low[i] = $i; if (NR == 1 || $i > high[i]) high[i] = $i } }
        END { for (i = 2; i <= 4; i++) if (NR && high[i] - low[i] + 1 > most) most = high[i] - low[i] + 1; print most + 0 }'
}

# A mesh that was cut to a handful of cells was most likely cut by mistake.
warn_of_cut() {
    [ -n "$is_cut" ] || return 0
    cells=${said#built cells }
    cells=${cells%% *}
    # More than 7 * 7 * 7 cells are 8 along some axis.
    [ "$cells" -le 343 ] || return 0
    most=$(widest "${output:-/proc/$$/fd/1}")
    [ "${most:-$cells}" -lt 8 ] || return 0
    hint "fewer than 8 cells are filled along each axis: --cut cuts each coordinate toward zero, to whole numbers if there is no --decimals n; 'svo survey' tells the decimals of a mesh"
}

say_hint() {
    case $status in
    0) case $said in 'built cells '*) warn_of_cut ;; esac ;;
    2) if has_page "$command"; then hint "'svo help $command' tells the words of $command"; elif [ -n "$command" ]; then say_no_command "$command"; else hint "'svo help' lists the commands"; fi ;;
    3) hint_of_input ;;
    4) hint_of_range ;;
    5) [ -z "$said" ] || hint_of_device ;;
    6) hint_of_nodes "$@" ;;
    7) hint "there was not enough memory: give a build less by --memory" ;;
    esac
}

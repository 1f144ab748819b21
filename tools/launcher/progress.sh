# Part of svo: on a terminal, how far a long run is, once a second, on one line that is taken away at its end. It is
# read from /proc, and nothing is shown where that is not there.

# The place in an open file of the program, where it is a usual file.
place_in() {
    [ -f "/proc/$child/fd/$1" ] && sed -n 's/^pos:[[:space:]]*//p' "/proc/$child/fdinfo/$1" 2>/dev/null
}

megabytes() {
    echo "$(($1 / 1000000)).$(($1 / 100000 % 10)) MB"
}

# What was read and written so far. Of an input that is no file, all that the program has read is told.
how_far() {
    read_in=$(place_in 0)
    size=$(stat -L -c %s "/proc/$child/fd/0" 2>/dev/null)
    if [ -n "$read_in" ] && [ "${size:-0}" -gt 0 ]; then
        printf 'read %s of %s (%d%%)' "$(megabytes "$read_in")" "$(megabytes "$size")" $((read_in * 100 / size))
    else
        all=$(sed -n 's/^rchar: //p' "/proc/$child/io" 2>/dev/null)
        printf 'read %s' "$(megabytes "${all:-0}")"
    fi
    written=$(place_in 1)
    [ -z "$written" ] || printf ', written %s' "$(megabytes "$written")"
}

show_progress() {
    shown=
    begun=$(date +%s)
    trap 'kill "$sleeper" 2>/dev/null; [ -z "$shown" ] || printf "\r\033[K" >&2; exit' TERM
    while kill -0 "$child" 2>/dev/null; do
        sleep 1 >/dev/null 2>&1 &
        sleeper=$!
        wait "$sleeper"
        seconds=$(($(date +%s) - begun))
        [ "$seconds" -lt 2 ] && continue
        shown=yes
        printf '\rsvo: %s, %d min %02d s\033[K' "$(how_far)" $((seconds / 60)) $((seconds % 60)) >&2
    done
}

begin_progress() {
    shower=
    case $is_seen:$1 in
    yes:build | yes:solid | yes:merge) ;;
    *) return 0 ;;
    esac
    [ -r "/proc/$child/fdinfo" ] || return 0
    (exec 3<&- 4>&- 5<&- 6>&- 7<&- 9>&- >/dev/null </dev/null; trap '' INT HUP; show_progress) &
    shower=$!
}

end_progress() {
    [ -n "$shower" ] || return 0
    kill -TERM "$shower" 2>/dev/null
    wait "$shower" 2>/dev/null
}

# Part of svo: runs the program as a child, where something is to be done once it has ended: to name its output, to
# say what helps. It ends with the program's status. No way to end the launcher leaves the program running: signals
# are handed on, and where the launcher is killed, the end of a pipe that it alone holds open ends the program.

# Ends the program, and takes its half output away, once the launcher is gone without a word.
end_orphan() {
    read -r word <&7 && return
    kill -TERM "$child" 2>/dev/null
    [ -z "$output" ] || [ "$part" = "$output" ] || rm -f -- "$part"
}

hand_on() {
    caught=$1
    [ -z "$child" ] || kill -TERM "$child" 2>/dev/null
}

# Starts the program. A child in the background has no input unless it is named, and does not mind INT; so TERM is
# what it gets.
start_program() {
    exec 3<&0
    if [ -n "$output" ]; then
        "$program" "$@" <&3 >"$part" 2>&4 3<&- 4>&- 5<&- 6>&- 7<&- &
    else
        "$program" "$@" <&3 2>&4 3<&- 4>&- 5<&- 6>&- 7<&- &
    fi
    child=$!
}

# Waits until the program has ended, whatever signals come meanwhile.
await_program() {
    wait "$child"
    status=$?
    while kill -0 "$child" 2>/dev/null; do
        wait "$child"
        status=$?
    done
}

# What the program said; that the reader of a pipe went away is no news.
say_said() {
    said=$(cat <&5)
    [ -n "$said" ] || return 0
    if [ "$status" = 5 ] && [ "$said" = 'device: write' ] && [ -z "$output" ] && [ -p /dev/stdout ]; then
        said=
        return 0
    fi
    printf '%s\n' "$said" >&2
}

watch_program() {
    (: <&0) 2>/dev/null || exec </dev/null
    begin_output
    room=$(mktemp -d "${TMPDIR:-/tmp}/svo.XXXXXX") && mkfifo "$room/alive" && : >"$room/said" || {
        end_output 9
        rm -rf "$room"
        refuse "no file can be made in ${TMPDIR:-/tmp}: make space there, or name another folder by TMPDIR"
    }
    exec 4>"$room/said" 5<"$room/said" 6<>"$room/alive" 7<"$room/alive"
    rm -rf "$room"
    caught=
    child=
    for signal in INT TERM HUP QUIT; do
        trap "hand_on $signal" "$signal"
    done
    start_program "$@"
    [ -z "$caught" ] || hand_on "$caught"
    (exec 3<&- 4>&- 5<&- 6>&- 9>&- >/dev/null 2>&1 </dev/null; trap '' INT HUP; end_orphan) &
    begin_progress "$command"
    await_program
    end_progress
    echo ended >&6
    say_said
    end_output "$status"
    if [ -n "$caught" ]; then
        trap - "$caught"
        kill -"$caught" $$
    fi
    [ -z "$is_seen" ] || say_hint "$@"
    exit "$status"
}

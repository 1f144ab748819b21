# Part of svo: the folder of the scratch is taken for one run at a time, and only where it is one. The mark,
# .svo_scratch, is made with the folder, and is the file that is locked: the program inherits it, so that the lock
# stands as long as the program runs.

# A file of the folder that an earlier build did not leave. Streams are named by numbers from 0 on.
foreign_file() {
    [ -e "$scratch/.svo_scratch" ] && return
    ls -A "$scratch" | grep -vx '[0-9][0-9]*' | head -n 1
    [ -e "$scratch/0" ] || ls -A "$scratch" | head -n 1
}

hold_scratch() {
    case $scratch in
    -*) scratch=./$scratch ;;
    esac
    mkdir "$scratch" 2>/dev/null
    # Where there is no folder the program says so.
    [ -d "$scratch" ] || return 0
    foreign=$(foreign_file | head -n 1)
    [ -z "$foreign" ] || refuse "the folder $scratch has files that no build left there ('$foreign'), and a build empties its files: name another folder by --scratch"
    (: >>"$scratch/.svo_scratch") 2>/dev/null || return 0
    exec 9>>"$scratch/.svo_scratch"
    [ -s "$scratch/.svo_scratch" ] || echo 'A scratch folder of svo: each build empties the files here whose names are numbers.' >&9
    if ! command -v flock >/dev/null 2>&1; then
        printf 'svo: there is no flock here, so nothing keeps another run out of %s meanwhile\n' "$scratch" >&2
        return 0
    fi
    flock -n 9
    case $? in
    0) ;;
    1) refuse "another run is using the scratch folder $scratch: wait for it, or name another folder by --scratch" ;;
    *) printf 'svo: flock does not lock %s, so nothing keeps another run out of it meanwhile\n' "$scratch" >&2 ;;
    esac
}

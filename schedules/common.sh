# What sketch, show, picture and tour share; they source it, and it is no command.

# The first words of the optional headers, in their order: lines that may stand after the nine headers and before the first
# event. (shellcheck does not see that who sources this file reads it.)
# shellcheck disable=SC2034
optional_headers='weakly role types'

# complain TEXT: says on standard error what is wrong, in the name of the command, and ends with status 1.
complain() {
    echo "schedules/${0##*/}: $1" >&2
    exit 1
}

# find_program WORD: sets `program`: the file that WORD names, or without a word the one that
# `rt ci` has built, or else out/akka, which tools/build left.
find_program() {
    local top
    if [ -n "$1" ]; then
        program=$(realpath -e -- "$1" 2>/dev/null)
        { [ -f "$program" ] && [ -x "$program" ]; } || complain "$1 is no program"
        return
    fi
    top=$(CDPATH='' cd -- "$here/.." && pwd)
    program=$(find "$top/crates/akka/out" "$top/out" -type f -name akka -perm -u+x 2>/dev/null | head -n 1)
    [ -n "$program" ] || complain "the program is not built: run tools/build or rt ci first, or name a program"
}

# find_schedule FILE: sets `schedule`: FILE, or where that is a sketch (*.sketch) the schedule that is made of it.
find_schedule() {
    { [ -f "$1" ] && [ -r "$1" ]; } || complain "$1 is no file that can be read"
    schedule=$1
    case $1 in
    *.sketch)
        schedule=$work/schedule
        "$here/sketch" "$1" "$program" >"$schedule" || exit 1
        ;;
    esac
}

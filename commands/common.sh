# What the commands share. A command sets `name`, its own, and `crate`, that of its program, and then
# has:
#   fail WORDS     a line on standard error, and the end
#   work           a folder for files, which is gone at the end
#   take MOST FILE..  the input into "$work/input": of FILE, or of standard input; at most so many
#                  bytes
#   build          the program, proved and no older than its sources
#   run            the program
#   put FILE       a file to standard output
#   has_room       fails where no file can be written in the folder
# The program is asked for by `rt run` on its stored input, which proves and builds it anew where a
# source has changed. It ends with a status that is not 0 where it cannot read or write, and but for
# standard error it does both in the folder.

fail() {
    echo "$name: $*" >&2
    exit 1
}

# Where there is no standard error, nothing is said.
(: >&2) || exec 2> /dev/null

kit=rattle-kit-13f
here=$(CDPATH='' cd -- "$(dirname "$0")/.." && pwd -P)
folder=$here/crates/$crate
program=$folder/out/$crate
work=$(mktemp -d)
trap 'rm -rf "$work"' EXIT
trap 'exit 130' INT
trap 'exit 143' HUP TERM

has_room() {
    head -c 65536 /dev/zero 2> "$work/error" > "$work/room" || fail "there is no room for files in ${TMPDIR:-/tmp}"
    rm "$work/room"
}

take() {
    most=$1
    shift
    if [ $# -eq 1 ]; then
        [ -e "$1" ] || fail "$1 is not there"
        [ ! -d "$1" ] || fail "$1 is a directory"
        [ -r "$1" ] || fail "$1 cannot be read"
        exec < "$1"
    fi
    head -c "$most" > "$work/input" 2> "$work/error" || {
        has_room
        fail "${1-standard input} cannot be read"
    }
}

build() {
    command -v rt > /dev/null || fail "the kit's command rt is not on the path"
    version=$(rt version 2> /dev/null) || version=
    case $version in
    "$kit "*) ;;
    *) fail "rt is of another kit than $kit: ${version:-it does not say of which}" ;;
    esac
    can_write
    [ -x "$program" ] || echo "$name: the program is proved and built first" >&2
    (cd "$folder" && rt run < stdin > "$work/log" 2>&1) || {
        has_room
        cat "$work/log" >&2
        fail "the program could not be built"
    }
}

# What is made of each crate is kept in its folder out. Fails where one cannot be written.
can_write() {
    for each in "$here"/crates/*; do
        if [ -e "$each/out" ]; then
            [ -w "$each/out" ]
        else
            [ -w "$each" ]
        fi || fail "$each/out cannot be written, so it is not known whether the program is new"
    done
}

run() {
    "$program"
}

# A reader that has had enough, as `head`, is no fault.
put() {
    status=0
    cat "$1" 2> "$work/error" || status=$?
    [ "$status" -ne 141 ] || exit 0
    [ "$status" -le 128 ] || exit "$status"
    [ "$status" -eq 0 ] || fail "the output cannot be written"
}

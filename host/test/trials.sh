# Trials of a command, counted. Whoever includes this is in a folder for files,
# and `name` is the command's.

tried=0
failed=0
result() {
    tried=$((tried + 1))
    [ "$1" = 0 ] || {
        failed=$((failed + 1))
        echo "$name: not as it must: $2"
        cat error
    }
}

# gives WHAT COMMAND..: it ends with 0, prints what `expected` has, and has
# nothing to say.
gives() {
    what=$1
    shift
    good=1
    "$@" > output 2> error && cmp -s output expected && [ ! -s error ] && good=0
    result $good "$what"
}

# refuses WHAT LINE COMMAND..: it ends with another status than 0, prints
# nothing, and its last word on standard error is the line.
refuses() {
    what=$1
    line=$2
    shift 2
    good=1
    "$@" > output 2> error || [ -s output ] ||
        [ "$(tail -n 1 error)" != "$name: $line" ] || good=0
    result $good "$what"
}

# tells WORD..: each stands in `expected`.
tells() {
    for word; do
        good=0
        grep -q -- "$word" expected || good=1
        : > error
        result $good "there is no $word in it"
    done
}

# without_room COMMAND..: no file may have more than a few hundred bytes.
without_room() { (ulimit -f 1 && "$@"); }
no_room="there is no room for files in ${TMPDIR:-/tmp}"

# How many trials there were; fails where one did.
end() {
    echo "$1: $tried trials, $failed failed"
    [ "$failed" -eq 0 ]
}

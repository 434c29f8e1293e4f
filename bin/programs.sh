# What the commands of this folder share. Each sets `root`, the top of the repository, and its own
# name, `command`, before it reads this file.
# shellcheck shell=sh disable=SC2154

# asked WORD..: what tools/commands.py answers to these words.
asked() {
    python3 -B "$root/tools/commands.py" "$@"
}

# Whether a program was proved and built of the sources as they are.
is_built() {
    asked is_built "$1"
}

# take_words TEXT [WORD]..: a command's words: none, or -h or --help, which prints the text.
take_words() {
    text=$1
    shift
    case ${1-} in
    -h | --help)
        printf '%s\n' "$text"
        exit 0
        ;;
    esac
    [ $# -eq 0 ] || stop 2 "it takes no word, and not $1; see $command --help"
}

# run_unproved [WORD]..: runs this command's program, compiled of the sources with no proof.
run_unproved() {
    unproved=$("$root/bin/unproved" "$command") || exit $?
    echo "$command: this run is of unproved sources; bin/build $command proves and builds them" >&2
    # shellcheck disable=SC3045 # dash has it too
    ulimit -c 0
    exec "$unproved" "$@"
}

# stop STATUS TEXT..
stop() {
    status=$1
    shift
    echo "$command: $*" >&2
    exit "$status"
}

# measure NAME [WORD]..: runs a program that measures, if it was proved and built.
measure() {
    name=$1
    shift
    is_built "$name" || stop 1 "it measures only the proved program, which isn't built of these" \
        "sources: run bin/build $command"
    exec "$root/crates/$name/out/$name" "$@"
}

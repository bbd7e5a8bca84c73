# What the examples share. They run the program that ./build made, or the one that BLKRING names; where there is none yet, or the
# sources are newer, the program as it is written, without a proof, which tools/unproved compiles once.
#
# The report goes to standard output, so it may be piped to `blkring check` or draw/sequence; what was to be seen, to standard error.

top=$(cd "$(dirname "$0")/.." && pwd)
program=${BLKRING:-$top/crates/blkring/out/blkring}

# --help prints what the example says at its head
case ${1:-} in
-h | --help)
    sed -n '2,/^[^#]/{/^#/s/^# \{0,1\}//p}' "$0"
    exit 0
    ;;
esac

# usage: says how the example is called, by its head, at a word that it doesn't take
usage() {
    sed -n 's/^#   /usage: /p' "$0" >&2
    exit 2
}

# an example that names no words in its head takes none
if [ $# -gt 0 ] && ! sed -n 's/^#   //p' "$0" | grep -q '\['; then
    usage
fi

room=$(mktemp -d)
trap 'rm -rf "$room"' EXIT

is_current() {
    [ -z "${BLKRING:-}" ] || return 0
    [ -x "$program" ] || return 1
    [ -z "$(find "$top/crates" "$top/crates.txt" -path '*/out' -prune -o -type f -newer "$program" -print | head -n 1)" ]
}

is_current || program=$("$top/tools/unproved")

# run_on_zeros SCHEDULE [WORDS]: runs a schedule on an image of 8 zero sectors, or of as many as `sectors` says, and prints the report
run_on_zeros() {
    schedule=$1
    shift
    head -c $((512 * ${sectors:-8})) /dev/zero >"$room/image"
    "$program" run "$room/image" "$@" <"$schedule" || {
        status=$?
        [ "$status" -ne 2 ] || usage
        exit "$status"
    }
}

# check_report REPORT: holds a report against the rules, which it may break (status 1)
check_report() {
    "$program" check <"$1" || [ $? -eq 1 ]
}

# the lines at the end of an example, on standard error: what was to be seen
seen() {
    echo "# $*" >&2
}

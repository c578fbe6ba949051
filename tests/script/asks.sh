# Sourced by the tests of this folder, which stand in the repository's root: room, failed, asks and wrong.
# shellcheck shell=bash
room=$(mktemp -d)
trap 'rm -rf "$room"' EXIT
failed=0

wrong() {
    echo "tests/script: $*"
    failed=1
}

# Runs ./kaunorpi with the arguments after the first three; compares what it writes with $1, what it says on standard
# error with $2, and its status with $3.
asks() {
    local wanted=$1 said=$2 status=$3 got=0
    shift 3
    LC_ALL=C "${script:-./kaunorpi}" "$@" > "$room/out" 2> "$room/err" || got=$?
    [ "$(cat "$room/out")" = "$wanted" ] && [ "$(cat "$room/err")" = "$said" ] && [ $got -eq "$status" ] && return
    wrong "./kaunorpi $* ended with $got, wrote: $(cat "$room/out") and said: $(cat "$room/err")"
}

# shellcheck shell=sh
# For scripts in sh: counted checks, and the last line. Read it by `.`; it needs nothing of Python.
#
#   pass; fail WHAT; leave_out WHY; holds WHAT COMMAND..; add FILE; verdict
passed=0
failed=0
skipped=0

pass() { passed=$((passed + 1)); }
fail() { failed=$((failed + 1)); echo "FAIL $*"; }
leave_out() { skipped=$((skipped + 1)); echo "left out: $*"; }

# holds WHAT COMMAND..: passes where the command succeeds.
holds() {
    what=$1
    shift
    if "$@"; then pass; else fail "$what"; fi
}

# add FILE: prints what a check said, and adds the counts of its last line; without such a line it failed.
add() {
    grep -v '^[0-9]* passed, ' "$1"
    # shellcheck disable=SC2046 # the counts are words
    set -- $(tail -n 1 "$1" | sed -n 's/^\([0-9]*\) passed, \([0-9]*\) failed\(, \([0-9]*\) skipped\)*$/\1 \2 \4/p')
    passed=$((passed + ${1:-0}))
    failed=$((failed + ${2:-1}))
    skipped=$((skipped + ${3:-0}))
}

# verdict: the last line, and whether none failed, and some passed or were left out with a reason.
verdict() {
    if [ "$skipped" -gt 0 ]; then
        echo "$passed passed, $failed failed, $skipped skipped"
    else
        echo "$passed passed, $failed failed"
    fi
    [ "$failed" -eq 0 ] && [ $((passed + skipped)) -gt 0 ]
}

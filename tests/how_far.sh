#!/bin/sh
# how_far.sh LOG: tells on standard error, once a second and on one line, how many crates the log of `rt ci` says are proved, until it
# is killed.
cd "$(dirname "$0")/.." || exit 1
crates=$(grep -c '^[a-z][^#]*:' crates.txt)
began=$(date +%s)
while sleep 1; do
    proved=$(grep -c -e '^rt: [a-z0-9_]* proved' -e '^rt: [a-z0-9_]* is kept' "$1")
    printf '\r\033[K%s of %s crates proved, %s s' "$proved" "$crates" $(($(date +%s) - began)) >&2
done

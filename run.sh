#!/bin/sh
# Leaves the program at bin/zkc, by its old name bin/cc, and shows the first program built and run.
#
#   sh run.sh [--prove | CC]
#
# The program is that of release/, where this tree is what it was proved and built from, which takes seconds and no kit; else,
# or with --prove, it is proved and built. Where bin/ cannot be made, release/cc is shown where it lies. With CC it is shown on
# that program, and bin/cc is left alone.
set -eu
cc=bin/cc
usage='usage: sh run.sh [--prove | CC], where CC is a program as release/cc'
case ${1:-} in
    '' | --prove) ;;
    -h | --help)
        echo "$usage"
        exit 0
        ;;
    -*)
        echo "$usage" >&2
        exit 2
        ;;
    /*) cc=$1 ;;
    *) cc=$(pwd)/$1 ;;
esac
if [ "$cc" != bin/cc ] && { [ ! -f "$cc" ] || [ ! -x "$cc" ]; }; then
    echo "there is no program $cc; $usage" >&2
    exit 2
fi
cd "$(dirname "$0")"

# What stands at bin/cc is kept where nothing that it was built from is newer.
is_new() { [ -x bin/cc ] && [ -z "$(find crates crates.txt -name out -prune -o -newer bin/cc -type f -print | head -n 1)" ]; }

if [ "$cc" != bin/cc ]; then
    :
elif [ "${1:-}" != --prove ] && is_new; then
    :
elif [ "${1:-}" != --prove ] && [ -x release/cc ] && [ "$(sh release/digest.sh)" = "$(cat release/SOURCES)" ]; then
    if { mkdir -p bin && cp release/cc bin/cc; } 2>/dev/null; then :; else cc=release/cc; fi
else
    log=$(mktemp)
    echo 'release/cc is of other sources, or was not to be taken: proving and building cc (the first time takes half an hour and more) ..'
    if ! (cd crates/cc_program && rt run -- --help) >"$log" 2>&1; then
        tail -n 40 "$log"
        rm -f "$log"
        exit 1
    fi
    rm -f "$log"
    mkdir -p bin
    cp crates/cc_program/out/cc_program bin/cc
fi

# The same file by the name that people meet.
if [ "$cc" = bin/cc ]; then ln -sf cc bin/zkc 2>/dev/null || :; fi

work=$(mktemp -d)
trap 'rm -rf "$work"' EXIT
echo 'examples/hello.c:'
cat examples/hello.c
"$cc" build examples/hello.c -o "$work/hello"
status=0
"$cc" run "$work/hello" >"$work/written" || status=$?
written=$(od -An -tu1 "$work/written" | tr -s ' \n' ' ' | sed 's/^ //; s/ $//')
cat "$work/written"
echo "bytes written: $written"
echo "status: $status"
if [ "$written" = '104 101 108 108 111 10' ] && [ "$status" = 0 ]; then
    echo '1 passed, 0 failed'
else
    echo '0 passed, 1 failed'
    exit 1
fi

#!/bin/sh
# sh release/take.sh [program | library]: takes over what was proved and built from this tree, each with the digest of what it was built from;
# without a word both.
#   program   crates/cc_program/out/cc_program (rt ci, or rt run in crates/cc_program) as release/cc
#   library   bindings/out/libzikorape.a (sh bindings/build.sh --prove bindings/out) as release/libzikorape.a
set -eu
cd "$(dirname "$0")/.."
case ${1:-} in
    '' | program | library) ;;
    *)
        echo 'usage: sh release/take.sh [program | library]' >&2
        exit 2
        ;;
esac
if [ "${1:-}" != library ]; then
    built=crates/cc_program/out/cc_program
    [ -x "$built" ] || { echo "no program at $built: run rt run in crates/cc_program, or sh prove.sh" >&2; exit 1; }
    cp "$built" release/cc
    sh release/digest.sh >release/SOURCES
fi
if [ "${1:-}" != program ]; then
    built=bindings/out/libzikorape.a
    [ "$(cat bindings/out/SOURCES 2>/dev/null)" = "$(sh release/digest.sh zikorape)" ] ||
        { echo "no archive of this tree at $built: run sh bindings/build.sh --prove bindings/out" >&2; exit 1; }
    cp "$built" release/libzikorape.a
    # Where it is small, the shared library goes along, for those who have no C compiler.
    rm -f release/libzikorape.so
    if [ "$(wc -c <bindings/out/libzikorape.so)" -lt 3000000 ]; then cp bindings/out/libzikorape.so release/; fi
    sh release/digest.sh zikorape >release/LIBRARY
fi

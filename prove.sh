#!/bin/sh
# The gate: `rt ci` (by tests/rt_ci.py) proves every crate from nothing, tries the wrong bodies of crates/NAME/must-fail, and runs the programs;
# then the program that this built is compared with release/cc, what tests/edits/TRIED says was tried is compared with this
# tree, and sh test.sh checks the built program and the documents from outside. The last line counts all. It needs the kit.
usage='usage: [ALLOW_SKIPPED=1] sh prove.sh, which takes no words'
case ${1:-} in
    '') ;;
    -h | --help)
        echo "$usage"
        exit 0
        ;;
    *)
        echo "$usage" >&2
        exit 2
        ;;
esac
cd "$(dirname "$0")" || exit 1
logs=$(mktemp -d) || exit 1
trap 'rm -rf "$logs"' EXIT
trap 'exit 1' HUP INT TERM

# told NAME STATUS: a check that passed or failed.
told() {
    if [ "$2" = 0 ]; then echo '1 passed, 0 failed'; else echo "FAIL $1"; echo '0 passed, 1 failed'; fi
}

# verdict FILE STATUS: the last line where that counts, and a failure where it does not, or where no line but the status tells one.
verdict() {
    line=$(tail -n 1 "$1" | grep -E '^[0-9]+ passed, [0-9]+ failed')
    case ${line:-none}:$2 in
        none:* | '0 passed, 0 failed'*) line='0 passed, 1 failed' ;;
        *:0) ;;
        *' 0 failed'*) line=$(echo "$line" | sed 's/ 0 failed/ 1 failed/') ;;
    esac
    printf '%s\n' "$line"
}

# The checks from outside want tools of others, which are installed first; ALLOW_SKIPPED=1 lets them be missing.
sh tests/outside/tools.sh
tools=$?
[ "${ALLOW_SKIPPED:-}" = 1 ] && tools=0
told 'tools are missing, and what needs them would be skipped (ALLOW_SKIPPED=1 lets it be)' $tools | tee "$logs/tools"

# On a terminal a line tells once a second how many crates are proved; it is taken back before each line of output.
back=
if [ -t 2 ]; then
    back=$(printf '\r\033[K')
    : >"$logs/ci"
    sh tests/how_far.sh "$logs/ci" &
    teller=$!
fi
{ python3 tests/rt_ci.py 2>&1; echo $? >"$logs/ci.status"; } | tee "$logs/ci" | sed -u "s/^/$back/"
if [ -n "$back" ]; then
    kill $teller
    printf '%s' "$back" >&2
fi

# The program that is checked is the one that rt ci proved and built from this tree.
rm -f bin/cc
built=crates/cc_program/out/cc_program
if [ -x $built ]; then
    mkdir -p bin
    cp $built bin/cc
    ln -sf cc bin/zkc
fi
cmp $built release/cc && [ "$(sh release/digest.sh)" = "$(cat release/SOURCES)" ]
told 'release/cc is not what this tree builds: sh release/take.sh takes over what was built; then commit release/' $? |
    tee "$logs/release"
# So is the archive of the library.
{ sh bindings/build.sh --prove "$logs/library" && cmp "$logs/library/libzikorape.a" release/libzikorape.a &&
    [ "$(sh release/digest.sh zikorape)" = "$(cat release/LIBRARY)" ]; } >"$logs/archive.said" 2>&1
told 'release/libzikorape.a is not what this tree builds: sh bindings/build.sh --prove bindings/out, and sh release/take.sh library; then commit release/' $? |
    tee "$logs/archive"
{ sh tests/outlives.sh 2>&1; echo $? >"$logs/outlives.status"; } | tee "$logs/outlives"
{ python3 tests/edits/tried.py 2>&1; echo $? >"$logs/tried.status"; } | tee "$logs/tried"
{ sh test.sh bin/cc 2>&1; echo $? >"$logs/test.status"; } | tee "$logs/test"

for part in tools release archive; do verdict "$logs/$part" 0; done >"$logs/verdicts"
for part in ci outlives tried test; do verdict "$logs/$part" "$(cat "$logs/$part.status")"; done >>"$logs/verdicts"
# count WORD: the sum of the numbers before WORD in the verdicts.
count() { sed -n "s/.*\b\([0-9][0-9]*\) $1.*/\1/p" "$logs/verdicts" | awk '{ n += $1 } END { print n + 0 }'; }
passed=$(count passed)
failed=$(count failed)
skipped=$(count skipped)
if [ "$skipped" -gt 0 ]; then
    echo "$passed passed, $failed failed, $skipped skipped"
else
    echo "$passed passed, $failed failed"
fi
[ "$failed" -eq 0 ] && [ "$passed" -gt 0 ]

#!/bin/sh
# What can be checked without a prover: the program from outside, and the documents. It takes minutes, needs no kit, and
# tells each check that it leaves out, and why.
#
#   sh test.sh [-k WORD].. [--quick] [--junit FILE] [CC]
#   sh test.sh --list
#
# CC is the program; by default that of release/, where this tree is what it was proved and built from, else bin/cc as it
# was built. -k: only the checks whose name has the word, which may be given more than once; where none has it, the cases
# inside the checks that have it (`-k collatz`). --quick: only those that take seconds. --junit: writes the results to FILE
# too, as JUnit's XML, a case each. --list prints the names and needs of all checks; python3 tests/NAME/check.py CC --list the
# cases of one.
# The last line counts all checks; the exit status is 0 where none failed and some passed, 2 for words that are no use.
# JOBS=N: so many checks side by side (a processor each, by default). As root on Debian, sh tests/outside/tools.sh installs
# the tools of others.
cd "$(dirname "$0")" || exit 1
jobs=${JOBS:-$(getconf _NPROCESSORS_ONLN 2>/dev/null || echo 1)}
usage='usage: sh test.sh [-k WORD].. [--quick] [--junit FILE] [CC]
       sh test.sh --list'
# Those that take seconds.
quick=' conditions macros variadic stack tables version shown test_calls test_code const mistakes warnings wanted faults cli meaning sets commands harness names '
newline='
'
words=
junit=
listed=
chosen=
cc=
while [ $# -gt 0 ]; do
    case $1 in
        -k | --junit) [ $# -gt 1 ] || { echo "$usage" >&2; exit 2; } ;;
    esac
    case $1 in
        -k) words=$words$2$newline; shift ;;
        --junit) junit=$2; shift ;;
        --quick) chosen=$quick ;;
        --list) listed=1 ;;
        -h | --help) echo "$usage"; exit 0 ;;
        -*) echo "$usage" >&2; exit 2 ;;
        *) [ -z "$cc" ] || { echo "$usage" >&2; exit 2; }; cc=$1 ;;
    esac
    shift
done

# is_wanted NAME: whether the check is one of those asked for by its name.
is_wanted() {
    case $chosen in '') ;; *" $1 "*) ;; *) return 1 ;; esac
    [ -z "$words" ] || printf '%s' "$words" | {
        while IFS= read -r word; do
            case $1 in *"$word"*) exit 0 ;; esac
        done
        exit 1
    }
}

# inside: the words that are in the name of no check, and so are looked for in the names of cases.
inside() {
    printf '%s' "$words" | while IFS= read -r word; do
        checks | cut -d '|' -f 1 | grep -qF -- "$word" || printf '%s\n' "$word"
    done
}

# A check a line, the longest first: its name | what it needs (tools, files) | its command, whose last line is
# 'N passed, M failed' or 'N passed, M failed, K skipped'. A further check is a further line here. `cases` in place of python3:
# a script that stands on tests/harness, takes -k, --list and --cases, and so can run a case alone.
checks() {
    cat <<'END'
library      | python3                                  | python3 tests/outside/library/check.py "$cc"
machines     | python3                                  | python3 tests/outside/library/machines.py "$cc"
told         | python3                                  | python3 tests/outside/library/told.py "$cc"
packages     | python3                                  | python3 tests/outside/library/packages.py
page         | python3                                  | sh tests/outside/page/check.sh "$cc"
boards       | python3                                  | cases tests/outside/boards/check.py "$cc"
hostile      | python3                                  | cases tests/outside/hostile/check.py "$cc"
bombs        | python3                                  | cases tests/outside/hostile/bombs.py "$cc"
memory       | python3                                  | cases tests/outside/hostile/interp_memory.py "$cc"
widths       | python3                                  | cases tests/outside/widths/check.py "$cc"
limits       | python3                                  | cases tests/outside/limits/check.py "$cc"
mutated      | python3                                  | python3 tests/outside/hostile/mutate.py "$cc" 600 1500
includes     | python3                                  | cases tests/outside/pp/includes.py "$cc"
scalars      | python3                                  | cases tests/outside/scalars/check.py "$cc"
constraints  | python3                                  | cases tests/outside/constraints/check.py "$cc"
front        | python3                                  | cases tests/outside/front/check.py "$cc"
machine      | python3                                  | cases tests/outside/machine/check.py "$cc"
run          | python3                                  | cases tests/run/check.py "$cc"
faults       | python3                                  | cases tests/faults/check.py "$cc"
cli          | python3                                  | cases tests/cli/check.py "$cc"
conditions   | python3                                  | cases tests/outside/pp/check.py "$cc" conditions
macros       | python3                                  | cases tests/outside/pp/check.py "$cc" macros
units        | python3                                  | cases tests/outside/pp/units.py "$cc"
nested       | python3                                  | cases tests/outside/pp/nested.py "$cc"
interp       | python3                                  | cases tests/outside/interp/check.py "$cc"
const        | python3                                  | cases tests/outside/const/check.py "$cc"
meaning      | python3                                  | cases tests/outside/meaning/check.py "$cc"
sets         | python3                                  | cases tests/outside/pp/sets.py "$cc"
commands     | python3                                  | cases tests/outside/cc/check.py "$cc"
people       | python3                                  | cases tests/outside/cc/people.py "$cc"
flat         | python3 crates/test_code/out/test_code   | python3 tests/outside/flat/check.py crates/test_code/out/test_code
tac          | python3 crates/test_code/out/test_code   | python3 tests/outside/tac/check.py crates/test_code/out/test_code
streamed     | python3 crates/test_calls/out/test_calls | python3 tests/outside/pp/streamed.py crates/test_calls/out/test_calls
test_calls   | python3                                  | python3 tests/outside/rows.py test_calls --check
test_code    | python3                                  | python3 tests/outside/rows.py test_code --check
growths      | python3 gcc                              | python3 tests/outside/refused/growths.py "$cc"
bytes        | python3 gcc                              | cases tests/outside/refused/bytes.py "$cc"
signals      | python3                                  | cases tests/outside/refused/signals.py "$cc"
variadic     | python3 gcc                              | cases tests/outside/pp/variadic.py "$cc"
streams      | python3                                  | cases tests/outside/streams/check.py "$cc"
stack        | python3                                  | cases tests/outside/stack/check.py "$cc"
beyond       | python3                                  | python3 tests/outside/stack/beyond.py "$cc"
mistakes     | python3                                  | python3 tests/outside/mistakes/check.py "$cc"
warnings     | python3                                  | python3 tests/outside/warnings/check.py "$cc"
wanted       | python3                                  | python3 tests/outside/mistakes/wanted.py "$cc"
verify       | python3                                  | python3 tests/outside/verify/check.py "$cc"
mutants      | python3                                  | python3 tests/outside/verify/mutants.py "$cc"
lsp          | python3                                  | python3 tests/outside/lsp/check.py "$cc"
nvim         | nvim                                     | ZKC="$cc" nvim --clean --headless -c 'luafile tests/outside/lsp/nvim.lua'
inspecting   | python3                                  | cases tests/outside/inspecting/check.py "$cc"
forms        | python3                                  | cases tests/outside/forms/check.py "$cc"
tables       | python3                                  | python3 share/tables.py "$cc" --check
version      |                                          | sh share/version.sh --check "$cc"
documents    |                                          | sh tests/documents.sh "$cc"
harness      | python3                                  | cases tests/harness/check.py "$cc"
names        | python3                                  | python3 tests/names.py
shown        |                                          | sh run.sh "$cc"
END
}

if [ -n "$listed" ]; then
    checks | grep -v '^ *$' | while IFS='|' read -r name needs command; do echo $name: $needs; done
    exit
fi

# The program: the one given, that of release/, or the one that was built.
if [ -z "$cc" ]; then
    if [ -x release/cc ] && [ "$(sh release/digest.sh)" = "$(cat release/SOURCES)" ]; then
        cc=release/cc
    else
        cc=bin/cc
    fi
fi
case $cc in /*) ;; *) cc=$(pwd)/$cc ;; esac
if [ ! -x "$cc" ]; then
    echo "FAIL there is no program $cc: release/cc is of other sources than this tree's, and 'sh run.sh' has not built one"
    echo '0 passed, 1 failed'
    exit 1
fi
echo "checking $cc, $jobs checks side by side"

logs=$(mktemp -d) || exit 1
trap 'rm -rf "$logs"' EXIT
trap 'exit 1' HUP INT TERM
limit=
command -v timeout >/dev/null 2>&1 && limit='timeout 1500'
export cc logs limit

# missing NEED..: the first that is not there.
missing() {
    for need; do
        case $need in
            */*) [ -x "$need" ] || { echo "$need, which sh prove.sh builds"; return; } ;;
            *) command -v "$need" >/dev/null 2>&1 || { echo "$need"; return; } ;;
        esac
    done
}

# The checks that are wanted by their own name, and those with a case that has one of the other words.
checks | grep -v '^ *$' | while IFS='|' read -r name needs command; do
    name=${name%% *}
    if is_wanted "$name"; then
        printf '%s|%s|%s\n' "$name" "$needs" "$command"
    elif [ -n "$words" ]; then
        case $chosen in '' | *" $name "*) printf '%s|%s|%s\n' "$name" "$needs" "$command" >>"$logs/others" ;; esac
    fi
done >"$logs/checks"
inside >"$logs/inside"
if [ -s "$logs/inside" ] && [ -s "$logs/others" ]; then
    while IFS='|' read -r name needs command; do
        case $command in
            ' cases '*) ;;
            *) continue ;;
        esac
        # shellcheck disable=SC2086 # the needs are words
        [ -z "$(missing $needs)" ] && echo "$command" | sed 's/^ cases /python3 /' >"$logs/$name.names" && echo "$name"
    done <"$logs/others" | xargs -n 1 -P "$jobs" sh -c 'sh -c "$(cat "$logs/$1.names") --list" >"$logs/$1.listed" 2>/dev/null' names
    while IFS='|' read -r name needs command; do
        [ -s "$logs/$name.listed" ] && grep -qFf "$logs/inside" "$logs/$name.listed" || continue
        only=$(sed "s/'/'\\\\''/g; s/.*/ -k '&'/" "$logs/inside" | tr -d '\n')
        printf '%s|%s|%s\n' "$name" "$needs" "$command$only"
    done <"$logs/others" >>"$logs/checks"
fi
if [ ! -s "$logs/checks" ]; then
    echo "no check and no case has such a name; sh test.sh --list prints those of the checks" >&2
    exit 2
fi
# What cannot be tried is told now, and the others are written down, a file each.
while IFS='|' read -r name needs command; do
    lacking=$(missing $needs)
    if [ -n "$lacking" ]; then
        echo "SKIPPED $name, for want of $lacking"
        echo '0 passed, 0 failed, 1 skipped' >"$logs/$name.verdict"
    else
        case $command in
            ' cases '*) printf 'python3 %s --cases "$logs/%s.cases"\n' "${command# cases }" "$name" >"$logs/$name.command" ;;
            *) printf '%s\n' "$command" >"$logs/$name.command" ;;
        esac
        echo "$name"
    fi
done <"$logs/checks" >"$logs/told"
grep '^SKIPPED ' "$logs/told"
for tool in gcc qemu-riscv32 qemu-system-riscv32 riscv64-unknown-elf-as riscv64-unknown-elf-readelf; do
    command -v "$tool" >/dev/null 2>&1 || echo "note: $tool is missing; what needs it is skipped"
done

# Each check ends with one line of its own, in the order in which they end; what it says beside is told where it failed or skipped.
grep -v '^SKIPPED ' "$logs/told" | xargs -n 1 -P "$jobs" sh -c '
    start=$(date +%s)
    $limit sh "$logs/$1.command" >"$logs/$1.said" 2>&1
    status=$?
    line=$(tail -n 1 "$logs/$1.said" | grep -E "^[0-9]+ passed, [0-9]+ failed(, [0-9]+ skipped)?$")
    case $line in
        "" | "0 passed, 0 failed") line="0 passed, 1 failed" ;;
        *" 0 failed"*) [ $status = 0 ] || line=$(echo "$line" | sed "s/ 0 failed/ 1 failed/") ;;
    esac
    echo "$line" >"$logs/$1.verdict"
    {
        case $line in
            *" 0 failed") ;;
            *" 0 failed"*) grep -i "skip\|missing\|left out" "$logs/$1.said" | head -n 20 ;;
            *) head -n 200 "$logs/$1.said" ;;
        esac
        echo "$1: $line, in $(($(date +%s) - start)) s"
    } >"$logs/$1.told"
    cat "$logs/$1.told"
' check

# A test case a check, which fails with what was said (https://github.com/testmoapp/junitxml); of those that know cases, one each.
if [ -n "$junit" ]; then
    escaped() { sed -e 's/&/\&amp;/g; s/</\&lt;/g; s/>/\&gt;/g' -e 's/[^[:print:][:space:]]/?/g' "$1"; }
    {
        echo '<?xml version="1.0" encoding="UTF-8"?>'
        echo '<testsuite name="zikorape">'
        for file in "$logs"/*.verdict; do
            name=$(basename "$file" .verdict)
            if [ -s "$logs/$name.cases" ]; then
                sed "s/^<testcase /&classname=\"$name\" /" "$logs/$name.cases"
                continue
            fi
            echo "<testcase name=\"$name\">"
            case $(cat "$file") in
                '0 passed, 0 failed, 1 skipped') echo '<skipped/>' ;;
                *' 0 failed'*) ;;
                *) echo '<failure>'; escaped "$logs/$name.told"; echo '</failure>' ;;
            esac
            echo '</testcase>'
        done
        echo '</testsuite>'
    } >"$junit" || echo "cannot write $junit" >&2
fi

# count WORD: the sum of the numbers before WORD in the verdicts. A check without a verdict was not made.
count() { cat "$logs"/*.verdict | sed -n "s/.*\b\([0-9][0-9]*\) $1.*/\1/p" | awk '{ n += $1 } END { print n + 0 }'; }
passed=$(count passed)
failed=$(count failed)
skipped=$(count skipped)
made=$(cat "$logs"/*.verdict | grep -c .)
wanted=$(grep -c . "$logs/checks")
if [ "$made" -ne "$wanted" ]; then
    echo "FAIL $made of $wanted checks were made"
    failed=$((failed + 1))
fi
if [ "$skipped" -gt 0 ]; then
    echo "$passed passed, $failed failed, $skipped skipped"
else
    echo "$passed passed, $failed failed"
fi
[ "$failed" -eq 0 ] && [ "$passed" -gt 0 ]

#!/bin/sh
# Asks gcc and clang anew what they say of the sources of rows.txt and generated.txt, and compares; compiles and runs the
# programs of accepted.txt with both.
#
#   sh tests/outside/constraints/verdicts.sh
#
# The last line counts the checks. Needs gcc with -m32, clang, ld for i386, python3; programs run where Linux runs them.
# gcc 12.2.0 and clang 14.0.6 made the columns.
set -u
LC_ALL=C
export LC_ALL
here=$(cd "$(dirname "$0")" && pwd) || exit 1
work=$(mktemp -d) || exit 1
trap 'rm -rf "$work"' EXIT
language='-std=c11 -pedantic-errors -funsigned-char'
gcc="gcc -m32 $language"
clang="clang --target=i386-linux-gnu $language"

passed=0
failed=0
skipped=0
pass() { passed=$((passed + 1)); }
fail() { failed=$((failed + 1)); echo "FAIL $*"; }

# verdict FILE COMPILER..: ok, or the line of the first error.
verdict() {
    file=$1; shift
    if "$@" -fsyntax-only "$file" >"$work/said" 2>&1; then
        echo ok
    else
        sed -n 's/^[^:]*:\([0-9][0-9]*\):.*error: .*/\1/p' "$work/said" | head -n 1
    fi
}

# compare TABLE FOLDER: the columns of a table, and that it has just the sources of the folder.
compare() {
    cd "$2" || exit 1
    sed '/^#/d; s/ *#.*//; s/^\([^ ]*\) *ok /\1 ok 0 /' "$1" | while read -r name _ line gcc_said clang_said; do
        [ "$line" = 0 ] && line=ok
        # shellcheck disable=SC2086 # words of a command
        now="$(verdict "$name.c" $gcc) $(verdict "$name.c" $clang)"
        [ "$now" = "$gcc_said $clang_said" ] || echo "FAIL $name: gcc and clang say $now, not $gcc_said $clang_said"
        differs=no
        [ "$line $line" = "$gcc_said $clang_said" ] || differs=yes
        said=no
        grep -q "^$name .*#" "$1" && said=yes
        [ $differs = $said ] || echo "FAIL $name: a reason is missing, or one too many"
        echo row
    done >"$work/rows"
    grep -v '^row$' "$work/rows"
    failed=$((failed + $(grep -c '^FAIL' "$work/rows")))
    passed=$((passed + $(grep -c '^row$' "$work/rows") - $(grep -c '^FAIL' "$work/rows")))
    sed '/^#/d; s/ .*//' "$1" | sort >"$work/names"
    ls | sed -n 's/\.c$//p' | sort >"$work/there"
    if cmp -s "$work/names" "$work/there"; then pass; else fail "$1 has other names than its folder"; fi
}
compare "$here/rows.txt" "$here/rows"
python3 "$here/generate.py" "$work/generated" || fail 'generate.py'
compare "$here/generated.txt" "$work/generated"

# Accepted programs: both compile them, and they end as their row says, with a trap at an undefined act that a sanitizer sees.
cd "$work" || exit 1
linked='-ffreestanding -fno-pic -w'
gcc -m32 -std=c11 -O1 $linked -c "$here/run.c" -o run.o || fail 'run.c'
runs=no
echo 'int main(void) { return 42; }' >trial.c
if gcc -m32 $linked -c trial.c -o trial.o && ld -m elf_i386 trial.o run.o -o trial 2>/dev/null; then
    ./trial 2>/dev/null
    [ $? = 42 ] && runs=yes
fi

# ended NAME STATUS INPUT OUTPUT COMPILER..
ended() {
    name=$1; status=$2; input=$3; output=$4; shift 4
    if ! "$@" "$here/accepted/$name.c" -o program.o 2>said; then
        fail "$name: $1 refuses it: $(head -n 1 said)"
    elif [ $runs = no ]; then
        skipped=$((skipped + 1))
    elif ! ld -m elf_i386 program.o run.o -o program 2>said; then
        fail "$name: $1: $(head -n 1 said)"
    else
        printf '%s' "$input" | ./program >out 2>/dev/null
        now=$?
        if [ "$now $(cat out)" = "$status $output" ]; then pass; else fail "$name, $1: $now '$(cat out)', not $status '$output'"; fi
    fi
}
while IFS= read -r row; do
    case $row in ''|'#'*) continue ;; esac
    name=${row%% *}
    status=$(echo "$row" | sed 's/^[^ ]* *\([0-9]*\).*/\1/')
    input=$(echo "$row" | sed -n 's/.*<"\([^"]*\)".*/\1/p')
    output=$(echo "$row" | sed -n 's/.*>"\([^"]*\)".*/\1/p')
    # shellcheck disable=SC2086 # words of a command
    ended "$name" "$status" "$input" "$output" $gcc -c $linked -fsanitize=undefined -fsanitize-undefined-trap-on-error
    # shellcheck disable=SC2086
    ended "$name" "$status" "$input" "$output" $clang -c $linked -fsanitize=undefined -fsanitize-trap=all
done <"$here/accepted.txt"
sed '/^#/d; s/ .*//' "$here/accepted.txt" | sort >names
(cd "$here/accepted" && ls | sed -n 's/\.c$//p' | sort) >there
if cmp -s names there; then pass; else fail 'accepted.txt has other names than accepted/'; fi

if [ $skipped = 0 ]; then echo "$passed passed, $failed failed"; else echo "$passed passed, $failed failed, $skipped skipped"; fi
[ $failed = 0 ]

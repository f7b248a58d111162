#!/bin/sh
# Compares the documents with what they speak of: the tables of faults and of undefined acts with the compiler's codes, and their sources;
# the commands that are shown, the language, the crates, the promises, the decisions and the definitions that have to be believed.
#
#   sh tests/documents.sh [CC]
#
# The last line counts the checks; those of scripts in Python are skipped where python3 is missing.
set -u
LC_ALL=C.UTF-8
export LC_ALL
cc=${1:-bin/cc}
case $cc in /*) ;; *) cc=$(pwd)/$cc ;; esac
work=$(mktemp -d) || exit 1
trap 'rm -rf "$work"' EXIT

. tests/harness/verdict.sh
same() { if cmp -s "$2" "$3"; then pass; else fail "$1"; diff "$2" "$3" | head -n 6; fi; }

# script COMMAND..: a script that ends with `N passed, M failed`, whose counts are added.
script() {
    if ! command -v "$1" >/dev/null 2>&1; then
        leave_out "$*: $1 is missing"
        return
    fi
    "$@" >"$work/said" 2>&1
    add "$work/said" >"$work/shown"
    grep FAIL "$work/shown" || tail -n 1 "$work/said" | grep -q ' passed, ' || tail -n 6 "$work/said"
}

# ------------------------------------------------- the faults and their texts
# variant, number and text by the code's own tables
code=crates/srcset/src/code.rt
awk '/Code::[A-Za-z0-9]* => [0-9]+,/ { split($1, n, "::"); gsub(",", "", $3); number[n[2]] = $3 }
     /Code::[A-Za-z0-9]* =>[ {]*$/ { split($1, n, "::"); name = n[2]; getline; text = $0; sub(/^[^"]*"/, "", text); sub(/".*$/, "", text); print name " " number[name] " " text; next }
     /Code::[A-Za-z0-9]* => "/ { split($1, n, "::"); text = $0; sub(/^[^"]*"/, "", text); sub(/",?$/, "", text); print n[2] " " number[n[2]] " " text }' \
    $code >"$work/codes"
[ "$(wc -l <"$work/codes")" -eq "$(grep -c '^    [A-Z][A-Za-z0-9]*,$' $code)" ] && pass || fail "$code: not each code has its number and its text"
# the codes that are told: those that the code names outside of its tables
while read -r variant rest; do
    if grep -rqw --include='*.rt' --exclude=code.rt "Code::$variant" crates/*/src; then echo "$rest"; fi
done <"$work/codes" >"$work/told"
awk -F ' [|] ' '/^[|] [0-9]/ { sub(/^[|] /, "", $1); print $1 " " $2 }' docs/DIAGNOSTICS.md >"$work/table"
same 'docs/DIAGNOSTICS.md has other codes or texts than those that are told' "$work/told" "$work/table"

# each source that is written out, a line for each `..`, built: the table's code and text, at its last line
awk -F ' [|] ' '/^[|] [0-9]/ && $3 ~ /^`[^`]*`(, `[^`]*`)* [|]$/ {
    sub(/^[|] /, "", $1); src = $3; sub(/^`/, "", src); sub(/` [|]$/, "", src); print $1 "|" $2 "|" src }' docs/DIAGNOSTICS.md >"$work/sources"
while IFS='|' read -r code text source; do
    printf '%s\n' "$source" | awk '{ n = split($0, lines, "`, `"); for (i = 1; i <= n; i++) print lines[i] }' >"$work/main.c"
    said=$(cd "$work" && "$cc" build main.c -o program 2>&1 >/dev/null)
    if [ "$said" = "main.c:$(($(wc -l <"$work/main.c"))): $code $text" ]; then pass; else fail "$source: '$said', not $code"; fi
done <"$work/sources"
# the rows that are not built have their source in words
words=$(grep -c '^[|] [0-9].*[|] [^|]*\*[^|]* [|]$' docs/DIAGNOSTICS.md)
[ $(($(wc -l <"$work/sources") + words)) -ge "$(wc -l <"$work/table")" ] && pass || fail 'docs/DIAGNOSTICS.md has a row whose source is neither built nor told in words'

# each undefined act, interpreted: at the last line of its source, and explained with the table's text
awk -F ' [|] ' '/^[|] U[1-8] / && $3 ~ /^`[^`]*`$/ { sub(/^[|] /, "", $1); gsub("`", "", $3); print $1 "|" $2 "|" $3 }' docs/DIAGNOSTICS.md >"$work/acts"
while IFS='|' read -r act text source; do
    printf '%s\n' "$source" >"$work/main.c"
    said=$(cd "$work" && "$cc" interp main.c 2>&1 </dev/null)
    told=$(cd "$work" && "$cc" explain interp main.c 2>&1 </dev/null | sed -n '1s/^[^ ]* //p')
    case "$said|$told" in "main.c:1: undefined $act|$act undefined: $text '"*) pass ;; *) fail "$source: '$said', '$told', not $act" ;; esac
done <"$work/acts"
[ "$(wc -l <"$work/acts")" -eq 8 ] && pass || fail 'docs/DIAGNOSTICS.md has not each undefined act'

# --------------------------------------------------------------- the others
script python3 tests/transcripts.py "$cc" README.md docs/TOUR.md docs/DIAGNOSTICS.md docs/TOOLS.md docs/design/lowering.md docs/FIRMWARE.md docs/VERIFY.md
script python3 tests/language.py "$cc"
script python3 tests/architecture.py --check
script python3 tests/trust.py --check
script python3 tests/proved.py
script python3 tests/recipes.py --check
script python3 tests/decisions.py
script python3 tests/doc_comments.py
script python3 tests/laws.py
script python3 tests/memory_arms.py

# documents tell what is, not what was or will be; README may say what is there at its date
set -- bench/README.md crates/*/README.md
for page in docs/*.md docs/design/*.md docs/design/decisions/*.md; do [ "$page" = docs/TRUST.md ] || set -- "$@" "$page"; done
if grep -nwiE 'today|so far|to come|not yet|at the moment|699' "$@" | grep -v '^docs/GATE.md:[0-9]*:| `' | grep -v ',699 ' >"$work/diary"; then
    fail "a document speaks of its day: $(head -n 3 "$work/diary")"
else
    pass
fi

verdict

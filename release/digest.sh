#!/bin/sh
# digest.sh [CRATE]: prints one digest of all that cc, or the crate, is built from: the sources, definitions and proofs of the crates that
# cc_program, or the crate, stands on, and what says which these are. Called from anywhere; it needs no kit.
set -eu
cd "$(dirname "$0")/.."
LC_ALL=C
export LC_ALL

# The crates below it, and itself, by crates.txt.
crates=$(awk -F: -v top="${1:-cc_program}" '
    !/^#/ && NF > 1 { split($1, words, " "); needs[words[1]] = $2 }
    END {
        list = top; grew = 1
        while (grew) {
            grew = 0
            n = split(list, names, " ")
            for (k = 1; k <= n; k++) {
                m = split(needs[names[k]], below, " ")
                for (j = 1; j <= m; j++)
                    if ((below[j] in needs) && (" " list " ") !~ (" " below[j] " ")) { list = list " " below[j]; grew = 1 }
            }
        }
        print list
    }' crates.txt)
{
    for crate in $crates; do
        grep -E "^$crate( staticlib)?:" crates.txt
    done | sort
    for crate in $crates; do
        find "crates/$crate/src" "crates/$crate/specs" "crates/$crate/proofs" -type f 2>/dev/null || true
    done | sort | { sha256sum HANDLES; xargs -n 100 sha256sum; }
} | sha256sum | cut -d ' ' -f 1

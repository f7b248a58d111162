#!/bin/sh
# Tries the edits of this folder as rt ci tries those of crates/NAME/must-fail: the prover must refuse each.
#
#   sh tests/edits/run.sh [CRATE..]     every crate with a folder here, by default
#
# Crates are tried side by side, one a processor (JOBS=N: so many); the edits of one crate come one after another. The proved
# libraries that a crate stands on are taken from LIBRARIES, a folder with NAME.rlib for each, or, where that is not set, from
# crates/NAME/out/rlib, as rt ci leaves them, and are proved there where they are missing. A crate whose edits were all refused
# gets its line in tests/edits/TRIED. Each crate is first checked as it is; PROVED=1 leaves that out, where `rt ci` has just
# said it. The last line is 'N refused, M not'.
exec python3 "$(dirname "$0")/run.py" "$@"

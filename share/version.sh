#!/bin/sh
# What `zkc --version` prints, written into crates/explain_cmd/src/version.rt: the version, and the kit that README.md names. Of which sources a
# program is, release/SOURCES says beside it (sh release/digest.sh): a digest of sources in a source would have everything proved anew.
#
#   sh share/version.sh            writes the file, after a change of the version or of the kit
#   sh share/version.sh --check CC     compares the file, and what CC tells; the last line is 'N passed, M failed'
set -eu
cd "$(dirname "$0")/.."
file=crates/explain_cmd/src/version.rt
kit=$(sed -n 's/.*a kit of the logic `\([0-9a-f]*\)`.*/\1/p' README.md | head -n 1)
version="1.1, proved with the logic $kit"
text() {
    cat <<END
//! What the program is. Made by share/version.sh.

/// What \`zkc --version\` prints behind the name: the version, and the kit that it is proved with.
pub const VERSION: &str = "$version";
END
}
if [ "${1:-}" != --check ]; then
    text >"$file"
    exit
fi
failed=0
text | cmp -s - "$file" || { failed=$((failed + 1)); echo 'FAIL version.rt has another version: sh share/version.sh'; }
[ "$("$2" --version)" = "zkc $version" ] || { failed=$((failed + 1)); echo "FAIL $("$2" --version) is not zkc $version"; }
echo "$((2 - failed)) passed, $failed failed"
[ $failed = 0 ]

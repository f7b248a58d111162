#!/bin/sh
# sh tests/outside/page/check.sh CC [SHOTS]: the page's modules against the program CC on the kept sources, their heap, the page's pictures against the
# machine's memory, and the page in a browser, whose screenshots go to the folder SHOTS, by default bin/page. What needs a tool that is not
# installed is left out with a word, and counted as skipped. The last line counts. It takes three to four minutes.
set -u
root=$(cd "$(dirname "$0")/../../.." && pwd)
here=$root/tests/outside/page
cc=$(cd "$(dirname "$1")" && pwd)/$(basename "$1")
shots=${2:-$root/bin/page}
browser=${CHROMIUM:-chromium}
work=$(mktemp -d)
server=
trap 'rm -rf "$work"; [ -z "$server" ] || kill "$server" 2>/dev/null' EXIT
. "$root/tests/harness/verdict.sh"

has() { command -v "$1" >/dev/null 2>&1; }
is_young() { [ "$(sh "$root/page/digest.sh")" = "$(cat "$root/page/SOURCES")" ]; }
are_there() { [ -e "$root/page/zikorape.wasm" ] && [ -e "$root/page/diagnostics.wasm" ] && [ -e "$root/page/analysis.wasm" ]; }
is_small() { [ "$(wc -c <"$1")" -lt 1400000 ]; }
is_small_by_gzip() { [ "$(gzip -9 -c "$1" | wc -c)" -lt 400000 ]; }

heap() {
    # On the host addresses are larger than those of 32 bits.
    sed -e '/^extern unsigned char __heap_base;/d' -e 's/want > MOST/0/; s/n > MOST || //' "$root/page/heap.c" >"$work/heap_host.c"
    gcc -O1 -I "$work" "$here/heap_test.c" -o "$work/heap" && "$work/heap"
}

# The same module with a memory of at most 32 MiB.
small_module() {
    wasm-dis "$root/page/zikorape.wasm" 2>/dev/null | sed -E 's/^( \(memory \$[^ ]+ [0-9]+)( [0-9]+)?\)/\1 512)/' >"$work/small.wat"
    wasm-opt --all-features "$work/small.wat" -o "$work/small.wasm" 2>/dev/null
}

module() {
    holds 'the modules of page/ are of these sources (sh page/build.sh makes them anew)' is_young
    for name in zikorape diagnostics analysis; do
        holds "page/$name.wasm has less than 1.4 MB" is_small "$root/page/$name.wasm"
        holds "page/$name.wasm has less than 400 KB by gzip" is_small_by_gzip "$root/page/$name.wasm"
    done
    if has wasm-opt && has wasm-dis && small_module; then export SMALL="$work/small.wasm"; else leave_out 'want of memory: no wasm-opt'; fi
    python3 "$here/sources.py" "$cc" >"$work/rows" 2>"$work/said" || cat "$work/said"
    node "$here/thread.mjs" "$here/compare.mjs" "$root/page/zikorape.wasm" "$work/rows" >"$work/compared" 2>&1
    add "$work/compared"
    python3 "$here/told.py" "$cc" >"$work/told_rows" 2>"$work/said" || cat "$work/said"
    node "$here/thread.mjs" "$here/told.mjs" "$root/page" "$work/told_rows" >"$work/told" 2>&1
    add "$work/told"
    node "$here/pictures.mjs" "$root/page" >"$work/pictures" 2>&1
    add "$work/pictures"
}

in_browser() {
    mkdir -p "$shots"
    node "$here/serve.mjs" "$root/page" >"$work/port" &
    server=$!
    while [ ! -s "$work/port" ] && kill -0 $server 2>/dev/null; do sleep 1; done
    CHROMIUM=$browser node --experimental-websocket "$here/browser.mjs" "http://127.0.0.1:$(cat "$work/port")/index.html" "$cc" "$shots" >"$work/browser" 2>&1
    add "$work/browser"
}

holds 'page/examples.js and page/tour.js are of the documents (python3 page/examples.py makes them anew)' python3 "$root/page/examples.py" --check
if has gcc; then holds 'the heap' heap; else leave_out 'the heap: no gcc'; fi
if ! are_there; then
    leave_out 'the modules and the page: not all of zikorape.wasm, diagnostics.wasm and analysis.wasm are in page/ (sh page/build.sh)'
elif ! has node; then
    leave_out 'the modules and the page: no node'
else
    module
    if ! has "$browser"; then
        leave_out "the page in a browser: no $browser"
    elif ! node --experimental-websocket -e 'process.exit(typeof WebSocket === "function" ? 0 : 1)' >/dev/null 2>&1; then
        leave_out 'the page in a browser: this node has no WebSocket'
    else
        in_browser
    fi
fi
verdict

#!/bin/sh
# sh page/build.sh [MODULE]: makes zikorape.wasm, diagnostics.wasm and analysis.wasm in page/, writes what they were made of to page/SOURCES, and prints their sizes.
# MODULE is the library's module for LLVM; without it `sh bindings/build.sh --prove bindings/out` makes it first, over what the gate proved.
# That takes two to three minutes, and two more are for WebAssembly.
#   KIT       the kit's folder: by default where `rt` lies
#   RLIBS     as for bindings/build.sh
#   WASM_OPT  wasm-opt of binaryen 108 (Debian's package binaryen): by default that on the PATH
# The module is for x86-64; it is compiled for wasm64, linked with the page's own heap, and lowered to 32-bit addresses, which every
# browser has. Three files are made of it: zikorape.wasm compiles, shows, runs and interprets; diagnostics.wasm explains and warns, analysis.wasm
# verifies, traces and explains runs, and these are fetched when that is first wanted: one with all would be too large. Of the first wasm-opt lowers the
# addresses, keeps one of functions that are the same, and takes away blocks, jumps and writes of locals that do nothing: its -O2 makes code that is slower here and takes more of the engine's stack. The others are made for
# their size, for which each function has LLVM's attributes; the larger one three times, and with its jumps made anew, which takes another percent away.
# shellcheck disable=SC2086 # flags, features and names are words
set -eu
page=$(cd "$(dirname "$0")" && pwd)
KIT=${KIT:-$(cd "$(dirname "$(readlink -f "$(command -v rt)")")/.." && pwd)}
WASM_OPT=${WASM_OPT:-wasm-opt}
command -v "$WASM_OPT" >/dev/null || { echo "no $WASM_OPT: install the package binaryen" >&2; exit 1; }
if [ $# = 0 ]; then
    sh "$page/../bindings/build.sh" --prove "$page/../bindings/out"
    set -- "$page/../bindings/out/zikorape.bc"
fi
module=$(cd "$(dirname "$1")" && pwd)/$(basename "$1")
work=$(mktemp -d)
trap 'rm -rf "$work"' EXIT
cd "$work"
clang=$KIT/toolchain/bin/clang
flags='--target=wasm64-unknown-unknown -mbulk-memory -msign-ext'
features='--enable-memory64 --enable-bulk-memory --enable-sign-ext --enable-mutable-globals --enable-multivalue'
layout='e-m:e-p:64:64-p10:8:8-p20:8:8-i64:64-i128:128-n32:64-S128-ni:1:10:20'
compiler='build build_with functions image frames preprocess list form interpret run step trace machine_size machine_place machine_ask machine_clear message version malloc free'
explainer='explain warn message version malloc free'
analyser='verify trace explain_run message version malloc free'

# The same module for another target.
"$clang" --target=x86_64-unknown-linux-gnu -x ir "$module" -S -emit-llvm -O0 -o native.ll
sed -e "s/^target datalayout.*/target datalayout = \"$layout\"/" -e 's/^target triple.*/target triple = "wasm64-unknown-unknown"/' \
    -e 's/"probe-stack"="inline-asm"//; s/"stack-probe-size"="[0-9]*"//; s/"target-cpu"="x86-64-v2"//' native.ll >wasm.ll
# Of the first file, what a build does once for each declaration and what shows forms is made for its size.
once='cc\|const_expr\|decls[a-z_]*\|forms\|forms_text\|object_names\|symbol_table\|typing_declarations\|typing_units\|zikorape'
sed "/^define [^@]*@\"\($once\)::/s/ #\([0-9]*\) / minsize optsize #\1 /" wasm.ll >fast.ll
"$clang" $flags -O2 -c -x ir fast.ll -o fast.o
# What analyses statements calls itself at each level of them. With all kinds of statements inlined into one function a level takes 16 KB of the engine's stack:
# so neither LLVM inlines them nor wasm-opt, which otherwise inlines what has one caller.
levels='verify_statements::statements'
sed -e 's/^attributes #\([0-9]*\) = { /&minsize optsize /' -e "/^define [^@]*@\"$levels::/s/ #\([0-9]*\) / noinline #\1 /" wasm.ll >small.ll
"$clang" $flags -Oz -c -x ir small.ll -o small.o

# What it calls: the heap, and the product of 128 bits.
"$clang" $flags -O2 -c -x ir "$page/glue.ll" -o glue.o
for part in heap wide; do "$clang" $flags -O2 -fno-builtin -Wall -Werror -c "$page/$part.c" -o $part.o; done
ln -s "$clang" wasm-ld

# made NAME OBJECT EXPORTS [OPTIONS OF wasm-opt]: page/NAME.wasm. The kit's clang links under the name wasm-ld. The stack stands first in memory, so
# that too little of it is a trap.
made() {
    name=$1 object=$2 names=
    for export in $3; do names="$names --export=zk_$export"; done
    shift 3
    ./wasm-ld -mwasm64 --no-entry $names --export-memory --stack-first -z stack-size=4194304 "$object" heap.o wide.o glue.o -o wide.wasm
    "$WASM_OPT" $features --memory64-lowering "$@" wide.wasm -o "$name.wasm"
    cp "$name.wasm" "$page/$name.wasm"
    echo "$name.wasm: $(wc -c <"$name.wasm") bytes, $(gzip -9 -c "$name.wasm" | wc -c) by gzip"
}

made zikorape fast.o "$compiler" --duplicate-function-elimination --remove-unused-brs --merge-blocks --vacuum --optimize-instructions --rse --vacuum --reorder-locals --strip-debug --strip-producers
made diagnostics small.o "$explainer" -Oz --strip-debug --strip-producers
made analysis small.o "$analyser" -Oz --flatten --rereloop -Oz -Oz --one-caller-inline-max-function-size=60 --strip-debug --strip-producers
sh "$page/digest.sh" >"$page/SOURCES"

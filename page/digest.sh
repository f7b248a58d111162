#!/bin/sh
# Prints one digest of all that page/zikorape.wasm is made of: what the crate zikorape is built from, and the page's own parts. It needs
# no kit. Where it is not what page/SOURCES has, the module is old.
set -eu
cd "$(dirname "$0")/.."
{
    sh release/digest.sh zikorape
    sha256sum page/heap.c page/wide.c page/glue.ll page/build.sh bindings/build.sh
} | sha256sum | cut -d ' ' -f 1

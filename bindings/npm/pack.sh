#!/bin/sh
# sh bindings/npm/pack.sh FOLDER: makes the npm package in FOLDER, with the modules of the page.
set -eu
root=$(cd "$(dirname "$0")/../.." && pwd)
mkdir -p "$1"
to=$(cd "$1" && pwd)
work=$(mktemp -d)
trap 'rm -rf "$work"' EXIT
cp "$root"/bindings/npm/package.json "$root"/bindings/npm/index.js "$root"/bindings/npm/index.d.ts "$root"/bindings/npm/README.md "$work"
cp "$root"/page/zikorape.js "$root"/page/*.wasm "$work"
cd "$work"
npm pack --silent --pack-destination "$to"

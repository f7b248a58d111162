#!/bin/sh
# sh bindings/build.sh [--prove] OUT: leaves in OUT libzikorape.a, with the heap that it calls, and libzikorape.so. They are of
# release/, where that was built from this tree.
# --prove: proves the crate zikorape over the libraries that the gate proved, and builds the archive; its module for LLVM, zikorape.bc, is
# left in OUT too. That needs the kit, and takes one to three minutes.
#   JOBS   how many proofs go side by side: by default one a processor
#   KIT    the kit's folder: by default where `rt` lies
#   RLIBS  a folder with the library of each crate, CRATE.rlib: by default what `rt ci` left in crates/*/out/rlib
set -eu
root=$(cd "$(dirname "$0")/.." && pwd)
prove=
if [ "${1:-}" = --prove ]; then
    prove=1
    shift
fi
case ${1:-} in
    '' | -*)
        echo 'usage: sh bindings/build.sh [--prove] OUT' >&2
        exit 2
        ;;
esac
mkdir -p "$1"
out=$(cd "$1" && pwd)

# shared: the same as a library that is loaded.
shared() { ${CC:-gcc} -shared -o "$out/libzikorape.so" -Wl,--whole-archive "$out/libzikorape.a" -Wl,--no-whole-archive; }

if [ -z "$prove" ]; then
    kept=$root/release/libzikorape.a
    if ! [ -e "$kept" ] || [ "$(sh "$root/release/digest.sh" zikorape)" != "$(cat "$root/release/LIBRARY" 2>/dev/null)" ]; then
        echo 'release/libzikorape.a is not of this tree: run sh bindings/build.sh --prove OUT, which builds it (it needs the kit)' >&2
        exit 1
    fi
    cp "$kept" "$out/libzikorape.a"
    if [ -e "$root/release/libzikorape.so" ]; then cp "$root/release/libzikorape.so" "$out/"; else shared; fi
    exit 0
fi
KIT=${KIT:-$(cd "$(dirname "$(readlink -f "$(command -v rt)")")/.." && pwd)}
work=$(mktemp -d)
trap 'rm -rf "$work"' EXIT

# The libraries, a link each.
mkdir "$work/libs"
for library in "${RLIBS:-}"/*.rlib "$root"/crates/*/out/rlib/*.rlib; do
    [ -e "$library" ] && ln -sfn "$(readlink -f "$library")" "$work/libs/$(basename "$library")"
done

# The kit's tools by links, but for a clang that keeps the module which it is given: Rattle calls it with an empty environment, so the
# paths are written into it.
mkdir -p "$work/tools/bin" "$work/tools/lib"
ln -s "$KIT"/toolchain/bin/* "$work/tools/bin/"
ln -s "$KIT"/toolchain/lib/* "$work/tools/lib/"
rm "$work/tools/bin/clang"
cat >"$work/tools/bin/clang" <<END
#!/bin/sh
for word in "\$@"; do case "\$word" in *.bc | *.ll) cp -f "\$word" "$work/module.\${word##*.}" ;; esac; done
exec "$KIT/toolchain/bin/clang" "\$@"
END
chmod +x "$work/tools/bin/clang"

# What the crate uses directly, by crates.txt: of this repository, and of the kit.
externs=$(sed -n 's/^zikorape staticlib://p' "$root/crates.txt")
set -- --extern "std=$KIT/rlibs/std.rlib"
for crate in $externs; do
    if [ -e "$work/libs/$crate.rlib" ]; then
        set -- "$@" --extern "$crate=$work/libs/$crate.rlib"
    elif [ -e "$KIT/rlibs/$crate.rlib" ]; then
        set -- "$@" --extern "$crate=$KIT/rlibs/$crate.rlib"
    else
        echo "no library of $crate: run rt ci, or name the folder of the libraries by RLIBS" >&2
        exit 1
    fi
done
cd "$root/crates/zikorape"
"$KIT/bin/rattle" build --crate-name zikorape src/lib.rt "$@" -L "dependency=$work/libs" -L "dependency=$KIT/rlibs" \
    --antt-project "$KIT/rattle/logic/antt-project.json" --logic-built "$KIT/logic_built" --jobs "${JOBS:-$(getconf _NPROCESSORS_ONLN 2>/dev/null || echo 1)}" --links zikorape= \
    --crate-type staticlib --backend llvm --toolchain "$work/tools" -o "$work/libzikorape.a"

# The heap of the kit goes into the same archive.
cd "$work"
mkdir heap && cd heap
"$KIT/toolchain/bin/llvm-ar" x "$KIT/c/liblibc_c.a"
"$KIT/toolchain/bin/llvm-ar" rsD "$work/libzikorape.a" ./*.o
cp "$work/libzikorape.a" "$out/libzikorape.a"
sh "$root/release/digest.sh" zikorape >"$out/SOURCES"
for module in "$work"/module.*; do cp "$module" "$out/zikorape.bc"; done
shared

#!/bin/sh
# sh install.sh [PREFIX]: puts the program as PREFIX/bin/zkc (the name cc on a PATH would hide the system's), its man page and its completions
# for bash, zsh and fish, and the library of bindings/out or release, its headers, zikorape.pc and the Python module. PREFIX is /usr/local by
# default; DESTDIR stands before it. PROGRAM=FILE: that program, in place of bin/cc or release/cc.
set -eu
prefix=${1-/usr/local}
case $prefix in
    -h | --help)
        echo 'usage: sh install.sh [PREFIX]'
        exit 0
        ;;
    -*)
        echo 'usage: sh install.sh [PREFIX]' >&2
        exit 2
        ;;
    '' | /*) ;;
    *) prefix=$(pwd)/$prefix ;;
esac
cd "$(dirname "$0")"
to=${DESTDIR:-}$prefix
program=${PROGRAM:-bin/cc}
[ -x "$program" ] || program=release/cc
[ -x "$program" ] || { echo 'no program: run sh run.sh' >&2; exit 1; }
mkdir -p "$to/bin"
cp "$program" "$to/bin/zkc"
chmod 755 "$to/bin/zkc"
echo "$to/bin/zkc"
# put FILE FOLDER NAME: a file that only is read
put() {
    mkdir -p "$to/$2"
    cp "$1" "$to/$2/$3"
    chmod 644 "$to/$2/$3"
    echo "$to/$2/$3"
}
put share/zkc.1 share/man/man1 zkc.1
put share/zkc.bash share/bash-completion/completions zkc
put share/_zkc share/zsh/site-functions _zkc
put share/zkc.fish share/fish/vendor_completions.d zkc.fish
for out in bindings/out release; do
    if [ -e "$out/libzikorape.a" ]; then
        mkdir -p "$to/lib" "$to/include" "$to/share/zikorape"
        cp "$out/libzikorape.a" "$to/lib/"
        if [ -e "$out/libzikorape.so" ]; then
            cp "$out/libzikorape.so" "$to/lib/"
        else
            ${CC:-gcc} -shared -o "$to/lib/libzikorape.so" -Wl,--whole-archive "$out/libzikorape.a" -Wl,--no-whole-archive
        fi
        cp include/zikorape.h include/zikorape_machine.h include/zikorape_interp.h "$to/include/"
        mkdir -p "$to/share/zikorape/zikorape" "$to/lib/cmake/zikorape"
        cp bindings/python/zikorape/__init__.py bindings/python/zikorape/magic.py bindings/python/zikorape/py.typed "$to/share/zikorape/zikorape/"
        cp share/zikorape-config.cmake "$to/lib/cmake/zikorape/"
        mkdir -p "$to/lib/pkgconfig"
        printf '%s\n' "prefix=$prefix" 'Name: zikorape' 'Description: the compiler zkc as a library' "Version: $("$program" --version | sed 's/^[a-z]* //; s/,.*//')" \
            'Cflags: -I${prefix}/include' 'Libs: -L${prefix}/lib -lzikorape' >"$to/lib/pkgconfig/zikorape.pc"
        chmod 644 "$to/lib/libzikorape.a" "$to/include/zikorape.h" "$to/include/zikorape_machine.h" "$to/include/zikorape_interp.h" "$to/share/zikorape/zikorape/"* "$to/lib/cmake/zikorape/"* "$to/lib/pkgconfig/zikorape.pc"
        printf '%s\n' "$to/lib/libzikorape.a" "$to/lib/libzikorape.so" "$to/include/zikorape.h" "$to/include/zikorape_machine.h" "$to/include/zikorape_interp.h" "$to/share/zikorape/zikorape/__init__.py" "$to/lib/cmake/zikorape/zikorape-config.cmake" "$to/lib/pkgconfig/zikorape.pc"
        exit 0
    fi
done
echo 'there is no library, and none is put: sh bindings/build.sh --prove bindings/out' >&2

#!/bin/sh
# sh release/pack.sh [deb | tar] [FOLDER]: packages of the program, in FOLDER (release/packages by default).
#
#   tar   zkc-VERSION-linux-amd64.tar.gz: what sh install.sh puts, with the licence, README and this version's changes
#   deb   zkc_VERSION_amd64.deb: the same for dpkg, below /usr; it needs dpkg-deb
#
# Without a word it makes both, and leaves out the Debian package where there is no dpkg-deb. The times in the files are those of the last
# commit, so that packages of one commit are the same bytes.
set -eu
usage='usage: sh release/pack.sh [deb | tar] [FOLDER]'
kind=both
case ${1:-} in
    -h | --help)
        echo "$usage"
        exit 0
        ;;
    -*)
        echo "$usage" >&2
        exit 2
        ;;
    deb | tar)
        kind=$1
        shift
        ;;
esac
folder=${1:-}
case $folder in '' | /*) ;; *) folder=$(pwd)/$folder ;; esac
cd "$(dirname "$0")/.."
[ -n "$folder" ] || folder=$(pwd)/release/packages
[ -x release/cc ] || { echo 'no program: release/cc' >&2; exit 1; }
version=$(release/cc --version | sed -n 's/^[a-z]* \([0-9.]*\),.*/\1/p')
[ -n "$version" ] || { echo 'release/cc tells no version' >&2; exit 1; }
date=${SOURCE_DATE_EPOCH:-$(git log -1 --format=%ct 2>/dev/null || echo 0)}
work=$(mktemp -d)
trap 'rm -rf "$work"' EXIT
mkdir -p "$folder"

# placed ROOT PREFIX: what is installed, and the documents that go with it
placed() {
    PROGRAM=release/cc DESTDIR=$1 sh install.sh "$2" >"$work/said" 2>&1 || { cat "$work/said" >&2; exit 1; }
    mkdir -p "$1$2/share/doc/zkc"
    cp LICENSE LICENSE-MIT LICENSE-APACHE CHANGELOG.md README.md docs/TOOLS.md docs/LANGUAGE.md docs/DIAGNOSTICS.md "$1$2/share/doc/zkc/"
    chmod 644 "$1$2"/share/doc/zkc/*
}

# aged ROOT: all times are that of the last commit
aged() { find "$1" -exec touch -h -d "@$date" {} +; }

if [ $kind != deb ]; then
    name=zkc-$version-linux-amd64
    placed "$work/$name" ''
    cp LICENSE LICENSE-MIT LICENSE-APACHE README.md CHANGELOG.md "$work/$name/"
    aged "$work/$name"
    tar -C "$work" --sort=name --owner=0 --group=0 --numeric-owner -cf - "$name" | gzip -9n >"$folder/$name.tar.gz"
    echo "$folder/$name.tar.gz"
fi
if [ $kind != tar ]; then
    if ! command -v dpkg-deb >/dev/null 2>&1; then
        [ $kind = both ] && { echo 'no dpkg-deb: the Debian package is left out' >&2; exit 0; }
        echo 'no dpkg-deb' >&2
        exit 1
    fi
    root=$work/deb
    placed "$root" /usr
    mv "$root/usr/share/doc/zkc/LICENSE" "$root/usr/share/doc/zkc/copyright"
    gzip -9n "$root/usr/share/man/man1/zkc.1"
    mkdir -p "$root/DEBIAN"
    cat >"$root/DEBIAN/control" <<END
Package: zkc
Version: $version
Section: devel
Priority: optional
Architecture: amd64
Depends: libc6
Installed-Size: $(du -sk "$root/usr" | cut -f 1)
Maintainer: the Zikorape authors <zikorape@localhost>
Description: C compiler for RISC-V RV32IM with a machine-checked proof
 Compiles a part of C11, of integers and arrays, to executable files for
 RV32IM, runs and interprets programs, and explains faults. That what runs is
 what the source means is proved, and the proof is checked by a machine.
END
    aged "$root"
    SOURCE_DATE_EPOCH=$date dpkg-deb --root-owner-group --build "$root" "$folder/zkc_${version}_amd64.deb" >/dev/null
    echo "$folder/zkc_${version}_amd64.deb"
fi

#!/bin/sh
# Installs what the checks from outside want of others and is missing here, by Debian's packages, as root. It fails where
# something is missing then, and says what.
has() { command -v "$1" >/dev/null 2>&1; }

install() {
    has apt-get && [ "$(id -u)" = 0 ] || return 1
    DEBIAN_FRONTEND=noninteractive
    export DEBIAN_FRONTEND
    apt-get install -y -q "$1" >/dev/null 2>&1 && return 0
    apt-get update -q >/dev/null 2>&1
    apt-get install -y -q "$1" >/dev/null 2>&1
}

lacking=0
# a tool, and its package
while read -r tool package; do
    has "$tool" && continue
    echo "installing by Debian's packages: $package"
    install "$package"
    has "$tool" || { echo "missing: $tool ($package)"; lacking=1; }
done <<'END'
qemu-riscv32 qemu-user
qemu-system-riscv32 qemu-system-misc
riscv64-unknown-elf-readelf binutils-riscv64-unknown-elf
gdb-multiarch gdb-multiarch
zsh zsh
fish fish
nvim neovim
man man-db
chromium chromium
END
exit $lacking

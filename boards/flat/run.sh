#!/bin/sh
# sh boards/flat/run.sh FILE [INPUT]: runs FILE, as `cc build` writes it, on a machine of qemu that is a core without
# page tables and memory from 0 to 0x80000000, without an operating system, and ends with the program's status.
#
#   INPUT        the program reads this file, to its last byte, and without it standard input
#   STRICT=1     a misaligned access is a trap, which qemu would carry out; slow
#   MONITOR=..   a monitor that build.sh made
#
# It needs qemu-system-misc and binutils-riscv64-unknown-elf.
set -eu
if [ $# -lt 1 ] || [ $# -gt 2 ]; then sed -n '2,9s/^# \{0,1\}//p' "$0" >&2; exit 2; fi
here=$(cd "$(dirname "$0")" && pwd)
[ -f "$1" ] && [ -r "$1" ] || { echo "$1: cannot read" >&2; exit 2; }
work=$(mktemp -d)
machine=

# ended: leaves nothing behind, whatever ends this script. (A machine that waits for a byte heeds no other signal.)
ended() {
    status=$?
    [ -z "$machine" ] || kill -9 "$machine" 2>/dev/null || :
    wait 2>/dev/null || :
    rm -rf "$work"
    exit $status
}
trap ended EXIT
trap 'exit 130' INT
trap 'exit 143' TERM HUP

monitor=${MONITOR:-$work/monitor}
[ "${MONITOR:-}" ] || sh "$here/../build.sh" flat 0x1000 "$monitor"
if [ $# = 2 ]; then
    [ ! -d "$2" ] || { echo "$2 is a folder" >&2; exit 2; }
    exec 3<"$2"
else
    exec 3<&0
fi

# commas NAME: the name as qemu takes it in a list.
commas() { printf %s "$1" | sed 's/,/,,/g'; }

# c=off: else a jump may go to any even address.
status=0
qemu-system-riscv32 -machine none -cpu rv32,mmu=off,c=off -m 2048M -display none -serial none -monitor none \
    -semihosting-config enable=on,target=native -device loader,file="$(commas "$monitor")",addr=0x1000,force-raw=on \
    -device loader,file="$(commas "$1")",addr=0x40000000,force-raw=on -device loader,addr=0x1000,cpu-num=0 <&3 &
machine=$!
wait "$machine" || status=$?
machine=
exit $status

#!/bin/sh
# sh boards/virt/run.sh FILE [INPUT]: runs FILE, as `cc build` writes it, on qemu's board virt, without an operating
# system, and ends with the program's status.
#
#   INPUT        the program reads this file, to its last byte. Without INPUT it reads standard input: a terminal as it is
#                typed (Ctrl-D at a line's start is the end), and else all bytes to the end
#   STRICT=1     a misaligned access is a trap, which qemu would carry out; slow
#   MONITOR=..   a monitor that build.sh made
#   MEMORY=256   megabytes of memory (128)
#
# It needs qemu-system-misc and binutils-riscv64-unknown-elf.
set -eu
if [ $# -lt 1 ] || [ $# -gt 2 ]; then sed -n '2,11s/^# \{0,1\}//p' "$0" >&2; exit 2; fi
here=$(cd "$(dirname "$0")" && pwd)
memory=${MEMORY:-128}
[ -f "$1" ] && [ -r "$1" ] || { echo "$1: cannot read" >&2; exit 2; }
work=$(mktemp -d)
typing=
machine=

# ended: leaves nothing behind, whatever ends this script.
ended() {
    status=$?
    [ -z "$typing" ] || kill "$typing" 2>/dev/null || :
    [ -z "$machine" ] || kill -9 "$machine" 2>/dev/null || :
    wait 2>/dev/null || :
    rm -rf "$work"
    exit $status
}
trap ended EXIT
trap 'exit 130' INT
trap 'exit 143' TERM HUP

monitor=${MONITOR:-$work/monitor}
[ "${MONITOR:-}" ] || sh "$here/../build.sh" virt 0x80000000 "$monitor" --defsym MEMORY_END=$((0x80000000 + memory * 1048576))

# The board's input, as 3: a file and how many bytes it has, or what is typed, and a byte 4 behind. (A job behind has no
# standard input of its own, so that is named.)
counted=1
if [ $# = 2 ]; then
    [ ! -d "$2" ] || { echo "$2 is a folder" >&2; exit 2; }
    exec 3<"$2"
    bytes=$(wc -c <"$2")
elif [ -t 0 ]; then
    counted=0
    bytes=0
    mkfifo "$work/typed"
    exec 4<&0
    {
        cat <&4 &
        trap 'kill $!; wait $! 2>/dev/null' TERM
        wait
        printf '\004'
    } >"$work/typed" &
    typing=$!
    exec 3<"$work/typed" 4<&-
else
    cat >"$work/input"
    exec 3<"$work/input"
    bytes=$(wc -c <"$work/input")
fi

# commas NAME: the name as qemu takes it in a list.
commas() { printf %s "$1" | sed 's/,/,,/g'; }

# A terminal is opened anew, since qemu tells what it writes to not to wait. -monitor none: else qemu takes a byte 1 for
# its own. c=off: else a jump may go to any even address.
[ ! -t 1 ] || exec >/dev/stdout
status=0
qemu-system-riscv32 -machine virt -bios none -cpu rv32,c=off -m "$memory" -display none -serial stdio -monitor none \
    -device loader,file="$(commas "$monitor")",addr=0x80000000,force-raw=on \
    -device loader,file="$(commas "$1")",addr=0x80100000,force-raw=on \
    -device loader,addr=0x800ffff8,data=$((counted + bytes * 4294967296)),data-len=8 <&3 &
machine=$!
wait "$machine" || status=$?
machine=
exit $status

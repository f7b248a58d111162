#!/bin/sh
# sh boards/build.sh BOARD ADDRESS OUT [OPTIONS OF THE ASSEMBLER]: the monitor of boards/BOARD, linked to begin at ADDRESS,
# as the bytes that have to stand there (memory behind them is its variables, which it sets to zero). STRICT=1 in front:
# the monitor does each load and store, so that a misaligned one is a trap on every core.
set -eu
[ $# -ge 3 ] || { sed -n '2,4s/^# \{0,1\}//p' "$0" >&2; exit 2; }
here=$(cd "$(dirname "$0")" && pwd)
board=$1
address=$2
out=$3
shift 3
riscv64-unknown-elf-as -march=rv32im_zicsr -mabi=ilp32 -I "$here/monitor" -I "$here/$board" ${STRICT:+--defsym STRICT=1} \
    "$@" "$here/$board/board.s" -o "$out.o"
riscv64-unknown-elf-ld -m elf32lriscv -Ttext="$address" -e start "$out.o" -o "$out.elf"
riscv64-unknown-elf-objcopy -O binary "$out.elf" "$out"
rm -f "$out.o" "$out.elf"

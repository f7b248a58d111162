#!/bin/bash
# Measures `cc interp` on scalars, on an array, on a switch and on calls: millions of ticks a second, and the time of the whole program as a
# ratio to `cc run` of the same by riscv64-unknown-elf-gcc -O0. What the switch comes to is checked.
#
#   bash bench/interp.sh [CC [TICKS]]
#
# Called from the repository's root; CC is bin/cc by default, TICKS 4000000. Of five measurements the least time of the processor
# (user and system) is taken; that of a run of one tick is subtracted.
set -u
LC_ALL=C
export LC_ALL
root=$(pwd)
cc=$(realpath "${1:-bin/cc}")
ticks=${2:-4000000}
work=$(mktemp -d) || exit 1
trap 'rm -rf "$work"' EXIT
cd "$work" || exit 1

# least COMMAND..: the least time of five runs, in microseconds
least() {
    for _ in 1 2 3 4 5; do
        { TIMEFORMAT='%3U %3S'; time "$@" >/dev/null 2>&1; } 2>&1
    done | awk '{ t = int(($1 + $2) * 1000000 + 0.5); if (NR == 1 || t < best) best = t } END { print best }'
}

cat > start.c <<'C'
int main(void);
char stack[65536] __attribute__((aligned(16)));
__asm__(".text\n.globl _start\n_start: la sp, stack + 65536\n    call main\n    li a7, 93\n    ecall\n");
C

for kind in scalars arrays switch calls; do
    source=$root/bench/interp_$kind.c
    cp "$source" $kind.c
    if [ $kind = switch ]; then
        "$cc" interp $kind.c >/dev/null 2>&1
        ended=$?
        [ $ended -eq 22 ] || { echo "switch: ends with $ended, and 1133334 & 127 is 22"; exit 1; }
    fi
    one=$(least "$cc" interp $kind.c --max 1)
    some=$(least "$cc" interp $kind.c --max "$ticks")
    awk -v k=$kind -v n="$ticks" -v a="$one" -v b="$some" 'BEGIN { printf "%s: %.1f million ticks a second\n", k, n / (b > a ? b - a : 1) }'
    if command -v riscv64-unknown-elf-gcc >/dev/null 2>&1; then
        riscv64-unknown-elf-gcc -O0 -march=rv32im -mabi=ilp32 -ffreestanding -nostdlib -static -Wl,--no-relax $kind.c start.c -o $kind.elf || exit 1
        whole=$(least "$cc" interp $kind.c)
        run=$(least "$cc" run $kind.elf)
        awk -v k=$kind -v a="$whole" -v b="$run" 'BEGIN { printf "%s: %.2f s, %.2f times that of cc run of gcc -O0 code\n", k, a / 1000000, a / (b > 0 ? b : 1) }'
    fi
done

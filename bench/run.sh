#!/bin/sh
# Measures `cc run` and `cc build` beside other programs, in one run.
#
#   sh bench/run.sh [CC [ROUNDS]]
#
# Called from the repository's root; CC is bin/cc by default. Of each
# measurement the best is printed: of three runs of the long program, taken in
# turn, and of fifteen groups of ten builds, also in turn. What needs a
# missing tool is left out, and said so.
set -u
LC_ALL=C
export LC_ALL

root=$(pwd)
cc=${1:-bin/cc}
case $cc in /*) ;; *) cc=$root/$cc ;; esac
rounds=${2:-1000}

work=$(mktemp -d) || exit 1
trap 'rm -rf "$work"' EXIT
trap 'exit 1' HUP INT TERM
cd "$work" || exit 1

has() { command -v "$1" >/dev/null 2>&1; }
now() { date +%s%N; }

# least A B: the smaller, where A may be empty.
least() { if [ -z "$1" ] || [ "$2" -lt "$1" ]; then echo "$2"; else echo "$1"; fi; }

# timed COMMAND..: sets `took` to its nanoseconds and `status`.
timed() {
    begin=$(now)
    "$@" </dev/null >/dev/null 2>err
    status=$?
    took=$(($(now) - begin))
}

uname -srm
sed -n 's/^model name[^:]*: //p' /proc/cpuinfo 2>/dev/null | sort | uniq -c
echo "load: $(uptime | sed 's/.*load average: //')"
echo

# ------------------------------------------------------------ execution

# program NAME ROUNDS FILE
program() {
    riscv64-unknown-elf-gcc -O1 -march=rv32im -mabi=ilp32 -ffreestanding \
        -fno-builtin -fno-tree-loop-distribute-patterns -nostdlib -static \
        -Wl,--no-relax -DROUNDS="$2" -o "$3" "$root/bench/$1.c"
}

# count FILE: its instructions, the least budget that is enough, halving the
# interval between one that is not and one that is.
count() {
    low=0
    high=1
    while "$cc" run "$1" --max $high >/dev/null 2>&1; [ $? = 124 ]; do
        low=$high
        high=$((high * 2))
    done
    while [ $((high - low)) -gt 1 ]; do
        middle=$(((low + high) / 2))
        "$cc" run "$1" --max $middle >/dev/null 2>&1
        if [ $? = 124 ]; then low=$middle; else high=$middle; fi
    done
    echo $high
}

# The program before the simulator decoded each word once, where git has it.
git -C "$root" show 2d17cf9:release/cc >before 2>/dev/null && chmod +x before || rm -f before

# execution NAME
execution() {
    program "$1" 2 two && program "$1" 3 three && program "$1" "$rounds" all || return
    two=$(count two)
    each=$(($(count three) - two))
    instructions=$((two + (rounds - 2) * each))
    echo "$1.c: $instructions instructions ($rounds rounds of $each)"

    # Newer versions have another name for it.
    single=-singlestep
    qemu-riscv32 -help | grep -q one-insn-per-tb && single=-one-insn-per-tb

    best_cc=; best_before=; best_qemu=; best_single=
    for _ in 1 2 3; do
        [ ! -x before ] || { timed ./before run all; best_before=$(least "$best_before" $took); }
        timed "$cc" run all --max $instructions
        ended=$status
        [ "$ended" != 124 ] || { echo 'the count is too small'; return; }
        best_cc=$(least "$best_cc" $took)
        timed qemu-riscv32 ./all
        [ "$status" = "$ended" ] || { echo "qemu ends with $status, cc run with $ended"; return; }
        best_qemu=$(least "$best_qemu" $took)
        timed qemu-riscv32 $single ./all
        best_single=$(least "$best_single" $took)
    done
    timed "$cc" run all --max $((instructions - 1))
    [ "$status" = 124 ] || { echo 'the count is too large'; return; }

    awk -v n="$instructions" -v c="$best_cc" -v b="$best_before" -v q="$best_qemu" -v s="$best_single" 'BEGIN {
        form = "%-26s %8.3f s %8.1f million instructions a second\n"
        printf form, "cc run --max", c / 1e9, n * 1e3 / c
        printf form, "qemu-riscv32", q / 1e9, n * 1e3 / q
        printf form, "qemu-riscv32 -singlestep", s / 1e9, n * 1e3 / s
        if (b) {
            printf form, "cc run at 2d17cf9", b / 1e9, n * 1e3 / b
            printf "cc run : cc run at 2d17cf9         = %.3f\n", b / c
        }
        printf "cc run : qemu-riscv32              = %.3f\n", q / c
        printf "cc run : qemu-riscv32 -singlestep  = %.3f\n", s / c
    }'
}

# A file of 16 MiB of text, whose words are the kernel's over and over: its loading and the first instruction. The least
# of twenty, the two programs in turn.
loading() {
    riscv64-unknown-elf-objcopy -O binary --only-section=.text all text || return
    while [ "$(wc -c <text)" -lt 16777216 ]; do cat text text >more && mv more text; done
    head -c 16777216 text >more
    printf '    .globl _start\n_start:\n    .incbin "more"\n' >large.s
    riscv64-unknown-elf-gcc -march=rv32im -mabi=ilp32 -nostdlib -static -Wl,--no-relax -o large large.s || return
    best_cc=; best_before=
    for _ in 1 2 3 4 5 6 7 8 9 10 11 12 13 14 15 16 17 18 19 20; do
        [ ! -x before ] || { timed ./before run large --max 1; best_before=$(least "$best_before" $took); }
        timed "$cc" run large --max 1
        best_cc=$(least "$best_cc" $took)
    done
    awk -v c="$best_cc" -v b="$best_before" 'BEGIN {
        printf "16 MiB of text loaded: %.1f ms", c / 1e6
        if (b) printf ", at 2d17cf9 %.1f ms, %.2f times as long", b / 1e6, c / b
        printf "\n"
    }'
}

if has riscv64-unknown-elf-gcc && has qemu-riscv32; then
    execution kernel
    execution bytes
    loading
else
    echo 'execution: left out (needs riscv64-unknown-elf-gcc and qemu-riscv32)'
fi
echo

# -------------------------------------------------------------- building

# ten COMMAND..: nanoseconds for ten runs of the command.
ten() {
    begin=$(now)
    for _ in 1 2 3 4 5 6 7 8 9 10; do
        "$@" || return
    done
    echo $(($(now) - begin))
}

# show NAME TOOL NANOSECONDS
show() {
    has "$2" || { printf '  %-32s left out\n' "$1"; return; }
    awk -v name="$1" -v t="$3" \
        'BEGIN { printf "  %-32s %7.2f ms\n", name, t / 1e7 }'
}

# building SOURCE
building() {
    best_cc=; best_tcc=; best_gcc=
    for _ in 1 2 3 4 5 6 7 8 9 10 11 12 13 14 15; do
        best_cc=$(least "$best_cc" "$(ten "$cc" build "$1" -o built)")
        has tcc && best_tcc=$(least "$best_tcc" "$(ten tcc -c "$1" -o built.o)")
        has riscv64-unknown-elf-gcc && best_gcc=$(least "$best_gcc" "$(
            ten riscv64-unknown-elf-gcc -O0 -march=rv32im -mabi=ilp32 -c "$1" -o built.o)")
    done
    echo "$1, $(wc -c <"$1") bytes, one build:"
    show 'cc build' "$cc" "$best_cc"
    show 'tcc -c (for the host)' tcc "$best_tcc"
    show 'riscv64-unknown-elf-gcc -O0 -c' riscv64-unknown-elf-gcc "$best_gcc"
}

cp "$root/examples/tour.c" tour.c
# 5,000 lines: 2,498 statements over two lines each.
awk 'BEGIN {
    print "void rv_putbyte(int c);"
    print "int main(void) {"
    for (k = 0; k < 2498; k++) printf "    rv_putbyte(%d\n    );\n", k
    print "    return 0;"
    print "}"
}' </dev/null >lines.c
building tour.c
building lines.c

#!/bin/bash
# Measures kernels, which `cc build` compiles, beside the same by gcc -O0 and -Os and clang -O0: executed instructions and bytes of code.
#
#   bash bench/scalars.sh [CC [FILE..]]
#
# Called from the repository's root; CC is bin/cc by default, and the files are the six kernels of automatic scalars. The last line has the
# geometric means over all of them. The instructions of each program are the least budget that is enough for
# `cc run`; its bytes are those that its text has more than a program of the same compiler whose `main` is empty. All programs of a
# kernel have to end with one status, under qemu-riscv32 too. What needs a missing tool is left out, and said so.
set -u
LC_ALL=C
export LC_ALL
root=$(pwd)
cc=$(realpath "${1:-bin/cc}")
if [ $# -gt 1 ]; then
    shift
    files=("$@")
else
    files=(bench/scalars_{crc,gcd,collatz,roots,generator,fibonacci}.c)
fi
work=$(mktemp -d) || exit 1
trap 'rm -rf "$work"' EXIT
cd "$work" || exit 1
has() { command -v "$1" >/dev/null 2>&1; }

# count FILE: the least budget that is enough.
count() {
    local low=0 high=1 middle
    while "$cc" run "$1" --max $high >/dev/null 2>&1; [ $? = 124 ]; do
        low=$high
        high=$((high * 2))
    done
    while [ $((high - low)) -gt 1 ]; do
        middle=$(((low + high) / 2))
        "$cc" run "$1" --max $middle >/dev/null 2>&1
        if [ $? = 124 ]; then low=$middle; else high=$middle; fi
    done
    echo $high
}

# text FILE: the bytes of its first segment that may be executed.
text() { echo $(($(od -An -tu4 -j68 -N4 "$1"))); }

cat >start.c <<'C'
int main(void);
char stack[65536] __attribute__((aligned(16)));
__asm__(".text\n.globl _start\n.option push\n.option norelax\n_start: la sp, stack + 65536\n call main\n li a7, 93\n ecall\n.option pop\n");
C
echo 'int main(void) { return 0; }' >empty.c
machine='-march=rv32im -mabi=ilp32 -std=c11 -ffreestanding -fno-builtin -fno-asynchronous-unwind-tables -funsigned-char -w'
gnu=riscv64-unknown-elf-gcc

# made WAY KERNEL: KERNEL-WAY, by the compiler of that name.
made() {
    # shellcheck disable=SC2086 # words
    case $1 in
        ours) "$cc" build "$2.c" -o "$2-ours" && return ;;
        gcc-O0) $gnu $machine -O0 -c "$2.c" -o "$2.o" ;;
        gcc-Os) $gnu $machine -Os -c "$2.c" -o "$2.o" ;;
        clang-O0) clang --target=riscv32 $machine -O0 -c "$2.c" -o "$2.o" ;;
    esac || return 1
    # shellcheck disable=SC2086
    $gnu $machine -nostdlib -static -Wl,--no-relax,--build-id=none "$2.o" start.c -o "$2-$1"
}

# bytes FILE WAY: of its text, as readelf or the file's own header has it.
bytes() {
    if [ "$2" = ours ]; then text "$1"; else riscv64-unknown-elf-size -A "$1" | awk '$1 == ".text" { print $2 }'; fi
}

ways=ours
if has $gnu; then ways="$ways gcc-O0 gcc-Os"; else echo "no $gnu: our own programs alone"; fi
if has $gnu && has clang; then ways="$ways clang-O0"; else echo 'no clang'; fi
has qemu-riscv32 || echo 'no qemu-riscv32'
for way in $ways; do made "$way" empty || exit 1; done

printf '%-10s %40s %36s\n' '' 'instructions' 'bytes'
printf '%-10s' kernel
# shellcheck disable=SC2086
{ printf ' %9s' $ways; printf '  '; printf ' %8s' $ways; }
echo
for file in "${files[@]}"; do
    kernel=$(basename "$file" .c)
    kernel=${kernel#scalars_}
    cp "$(cd "$root" && realpath "$file")" "$kernel.c"
    counts=
    sizes=
    last=
    for way in $ways; do
        made "$way" $kernel || exit 1
        "$cc" run $kernel-"$way"
        status=$?
        [ -z "$last" ] || [ $status = "$last" ] || echo "$kernel by $way ends with $status, not $last"
        last=$status
        if has qemu-riscv32; then
            qemu-riscv32 ./$kernel-"$way"
            status=$?
            [ $status = "$last" ] || echo "$kernel by $way ends with $status under qemu-riscv32, not $last"
        fi
        counts="$counts $(count $kernel-"$way")"
        sizes="$sizes $(($(bytes $kernel-"$way" "$way") - $(bytes empty-"$way" "$way")))"
    done
    printf '%-10s' $kernel
    # shellcheck disable=SC2086
    { printf ' %9s' $counts; printf '  '; printf ' %8s' $sizes; }
    echo
    # shellcheck disable=SC2086
    set -- $counts
    [ $# = 4 ] && awk -v k=$kernel -v a="$1" -v b="$2" -v c="$3" -v d="$4" \
        'BEGIN { printf "%-10s ours to gcc -O0 %.2f, to gcc -Os %.2f, to clang -O0 %.2f\n", "", a / b, a / c, a / d }'
    # shellcheck disable=SC2086
    echo "$1 ${2:-0} ${3:-0} ${4:-0}" $sizes >>figures
done
awk 'NF == 8 { n++; for (k = 1; k < 4; k++) { i[k] += log($1 / $(k + 1)); b[k] += log($5 / $(k + 5)) } }
    END { if (n) printf "means: instructions %.2f %.2f %.2f, bytes %.2f %.2f %.2f of gcc -O0, gcc -Os, clang -O0\n",
        exp(i[1] / n), exp(i[2] / n), exp(i[3] / n), exp(b[1] / n), exp(b[2] / n), exp(b[3] / n) }' figures

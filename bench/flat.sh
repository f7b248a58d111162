#!/bin/bash
# Measures the kernels of flat.txt, which select and the assembler translate, beside the same in C by gcc -O0 and -Os: executed
# instructions and bytes of text, and how many flat instructions a second select and assemble take.
#
#   bash bench/flat.sh [CODE [CC]]
#
# Called from the repository's root; crates/test_code/out/test_code and release/cc by default. A gcc program's instructions are the least
# budget that is enough for `cc run`, its status is that under qemu-riscv32, and the flat program's has to be the same.
set -u
LC_ALL=C
export LC_ALL
root=$(pwd)
rows=$(realpath "${1:-crates/test_code/out/test_code}")
cc=$(realpath "${2:-release/cc}")
work=$(mktemp -d) || exit 1
trap 'rm -rf "$work"' EXIT
cd "$work" || exit 1

# count FILE: the least budget that is enough.
count() {
    low=0
    high=1
    while "$cc" run "$1" --max $high >/dev/null 2>&1; [ $? = 124 ]; do
        low=$high
        high=$((high * 2))
    done
    while [ $((high - low)) -gt 1 ]; do
        middle=$(((low + high) / 2))
        "$cc" run "$1" --max $middle >/dev/null 2>&1
        if [ $? = 124 ]; then low=$middle; else high=$middle; fi
    done
    echo $high
}

cp "$root/bench/flat.txt" flat.txt
for kernel in 1 2 3 4 5 6; do
    for level in 0 s; do
        riscv64-unknown-elf-gcc -O$level -march=rv32im -mabi=ilp32 -ffreestanding -fno-builtin -nostdlib -static -Wl,--no-relax \
            -DKERNEL=$kernel -o $kernel-$level "$root/bench/flat.c" || exit 1
        qemu-riscv32 ./$kernel-$level
        status=$?
        [ $level = 0 ] || [ "$status" = "$last" ] || echo "gcc differs from itself in $kernel"
        last=$status
    done
    sed -i "s/^ends @$kernel\$/ends $last/" flat.txt
done
for subject in flat flat_took; do
    python3 "$root/tests/outside/flat/rows.py" $subject <flat.txt | "$rows" >$subject || exit 1
done
awk '$1 == "program" { name = $2 } $1 == "ends" { print name ": ends " $2 }' flat.txt | diff - flat
printf '%-10s %28s %28s\n' '' 'instructions' 'bytes'
printf '%-10s %9s %9s %9s %9s %8s %8s\n' kernel flat -O0 -Os flat -O0 -Os
kernel=0
grep ' instructions of at most ' flat_took | tr -d ',:' | while read -r name instructions _ _ _ _ _ bytes _; do
    kernel=$((kernel + 1))
    printf '%-10s %9s %9s %9s %9s %8s %8s\n' "$name" "$instructions" "$(count $kernel-0)" "$(count $kernel-s)" "$bytes" \
        "$(riscv64-unknown-elf-size $kernel-0 | awk 'NR == 2 { print $1 }')" "$(riscv64-unknown-elf-size $kernel-s | awk 'NR == 2 { print $1 }')"
done

# mix COUNT FILE..: a program of the functions of these files' programs, each named as often as chance has it, until it has COUNT instructions.
mix() {
    count=$1
    shift
    awk -v count="$count" 'function chance(n) { seed = (seed * 1103515245 + 12345) % 2147483648; return int(seed / 65536) % n }
        BEGIN { seed = 7 }
        /^(#|input|statics|ends|costs|main|$)/ { next }
        $1 == "program" { programs++; next }
        $1 == "function" { functions[programs]++ }
        { sub(/^[0-9]+: /, ""); line[programs, ++lines[programs]] = $0 }
        END {
            print "program mix\nstatics 00*65536\nfunction 0 0 0 0\nmove t0 0\nreturn"
            first = 1
            while (made < count) {
                k = chance(programs) + 1
                for (l = 1; l <= lines[k]; l++) {
                    text = line[k, l]
                    if (text ~ /^call /) text = "call " (substr(text, 6) + first)
                    if (text !~ /^function/) made++
                    print text
                }
                first += functions[k]
            }
            print "ends 0"
        }' "$@"
}

# least TIMES: the least nanoseconds of processor time, of eight runs, to make the text of mix.txt so many times.
least() {
    python3 "$root/tests/outside/flat/rows.py" flat_times "$1" <mix.txt >mix-row
    python3 - "$rows" <<'PY'
import resource, subprocess, sys
def spent():
    usage = resource.getrusage(resource.RUSAGE_CHILDREN)
    return usage.ru_utime + usage.ru_stime
best = 1e9
for _ in range(8):
    before = spent()
    with open('mix-row') as row:
        subprocess.run([sys.argv[1]], stdin=row, stdout=subprocess.DEVNULL, check=True)
    best = min(best, spent() - before)
print(int(best * 1e9))
PY
}

echo
for files in "$root/bench/flat.txt" "$root/tests/outside/flat/random.txt"; do
    mix 200000 "$files" >mix.txt
    once=$(least 1)
    often=$(least 31)
    count=$("$rows" <mix-row | awk '{ print $1 }')
    echo "$(basename "$files") $count $once $often" | awk '{ printf "%-10s %6.2f million flat instructions a second, select and assemble (%d, thirty times, in %.3f s)\n", $1, $2 * 3e4 / ($4 - $3), $2, ($4 - $3) / 1e9 }'
done

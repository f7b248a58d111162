#!/bin/bash
# Measures `cc build` of 50,000 lines, and of 5,000 dense ones, beside `tcc -c`, `riscv64-unknown-elf-gcc -O0 -c` and `clang -O0 -c`.
#
#   bash bench/build_lines.sh [CC [TURNS]]
#
# Called from the repository's root; CC is bin/cc by default, TURNS 7. CC may be several programs, joined by commas: the first
# is compared. Three sources: small functions with loops and branches that call one another, long functions of assignments, and
# dense lines of long expressions. Of each measurement the least time of the processor (user and system) of so many whole processes,
# in turn, is taken, and what the last one held at most and how many page faults it took. What needs a missing tool is left out, and said so.
set -u
LC_ALL=C
export LC_ALL
first=${1:-bin/cc}
cc=$(realpath "${first%%,*}")
others=
for other in $(echo "$first" | tr , ' '); do others="$others $(realpath "$other")"; done
others=${others#" $cc"}
root=$(pwd)
turns=${2:-7}
work=$(mktemp -d) || exit 1
trap 'rm -rf "$work"' EXIT
cd "$work" || exit 1
has() { command -v "$1" >/dev/null 2>&1; }

. "$root/bench/lines.sh"

# least COMMAND..: for each command of the list (words by +) the least time, in milliseconds, memory and page faults.
least() {
    python3 - "$turns" "$@" <<'PY'
import os, subprocess, sys
turns, commands = int(sys.argv[1]), [text.split('+') for text in sys.argv[2:]]
best, held = [None] * len(commands), [(0, 0)] * len(commands)
for _ in range(turns):
    for k, command in enumerate(commands):
        child = subprocess.Popen(command, stdin=subprocess.DEVNULL, stdout=subprocess.DEVNULL, stderr=subprocess.DEVNULL)
        _, status, used = os.wait4(child.pid, 0)
        child.returncode = os.waitstatus_to_exitcode(status)
        if child.returncode:
            sys.exit(f'{" ".join(command)} ended with {child.returncode}')
        took = used.ru_utime + used.ru_stime
        best[k] = took if best[k] is None else min(best[k], took)
        held[k] = used.ru_maxrss / 1024, used.ru_minflt
for command, took, (memory, faults) in zip(commands, best, held):
    print('%-40s %8.1f ms   cc build to it %6.2f %8.1f MiB %7d faults' % (' '.join([command[0].split('/')[-1]] + command[1:3]), took * 1000, best[0] / took, memory, faults))
PY
}

echo "load: $(uptime | sed 's/.*load average: //')"
commands=("$cc+build+main.c+-o+program")
for other in $others; do commands+=("$other+build+main.c+-o+program"); done
if has tcc; then commands+=(tcc+-c+main.c+-o+main.o); else echo 'no tcc'; fi
if has riscv64-unknown-elf-gcc; then
    commands+=(riscv64-unknown-elf-gcc+-O0+-c+-march=rv32im+-mabi=ilp32+main.c+-o+main.o)
else
    echo 'no riscv64-unknown-elf-gcc'
fi
if has clang; then commands+=(clang+-O0+-c+--target=riscv32+-march=rv32im+main.c+-o+main.o); else echo 'no clang'; fi
for kind in functions statements dense; do
    lines=50000
    [ $kind = dense ] && lines=5000
    $kind $lines >main.c
    echo "$kind: $(wc -l <main.c | tr -d ' ') lines, $(wc -c <main.c | tr -d ' ') bytes"
    "$cc" build main.c -o program || exit 1
    least "${commands[@]}"
done

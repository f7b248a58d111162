#!/bin/bash
# Measures the front of the compiler beside others, in one run: `phases::scan` beside
# the preprocessors of gcc and tcc, then scan, tokens and parse together beside the
# syntax checks of clang and tcc.
#
#   bash bench/front.sh [TURNS [FILE..]]
#
# Called from the repository's root. Each FILE, of at most 1,048,576 bytes, is
# then scanned as it stands, and not given to the others.
# The measuring program (bench/front_bench.txt) is proved and built from a copy of
# the crates in a temporary folder. TURNS is 7 by default; of each measurement
# the best is printed. What needs a missing tool is left out, and said so.
set -u
LC_ALL=C
export LC_ALL

root=$(pwd)
turns=${1:-7}
rounds=40
files=()
for file in "${@:2}"; do files+=("$(realpath "$file")"); done

work=$(mktemp -d) || exit 1
trap 'rm -rf "$work"' EXIT
trap 'exit 1' HUP INT TERM

has() { command -v "$1" >/dev/null 2>&1; }

# ---------------------------------------------------- the measuring program

mkdir -p "$work/crates" || exit 1
cp "$root/HANDLES" "$work/" || exit 1
for crate in srcset phases ctypes lexer tree grammar expression_parser declaration_parser parser; do
    tar -C "$root/crates" -cf - $crate | tar -C "$work/crates" -xf - || exit 1
done
mkdir -p "$work/crates/front_bench/src" || exit 1
cp "$root/bench/front_bench.txt" "$work/crates/front_bench/src/main.rt" || exit 1
cat >"$work/crates.txt" <<'CRATES'
srcset: indexmap itoa thiserror
phases: srcset
ctypes:
lexer: srcset phases ctypes
tree: srcset ctypes
grammar: srcset ctypes lexer tree
expression_parser: srcset ctypes lexer tree grammar
declaration_parser: srcset ctypes lexer tree grammar expression_parser
parser: srcset ctypes lexer tree grammar expression_parser declaration_parser
front_bench: phases srcset lexer tree parser anyhow
CRATES
echo 'proving and building the measuring program (some minutes) ..'
if ! (cd "$work/crates/front_bench" && rt run -- scan 0 </dev/null) >"$work/log" 2>&1; then
    tail -n 20 "$work/log"
    exit 1
fi
scan=$work/crates/front_bench/out/front_bench
cd "$work" || exit 1

# --------------------------------------------------------------- the texts

# Declarations and comments of the system's headers, with no directives in
# them, so that each program reads the same tokens. The program takes at most
# 1,048,576 bytes.
for header in aio assert complex ctype dirent dlfcn elf errno fcntl fenv ftw glob grp iconv ifaddrs inttypes \
    langinfo limits locale math netdb poll pthread pwd regex resolv sched search semaphore setjmp signal spawn \
    stdatomic stdint stdio stdlib string termios threads time unistd wchar wctype; do
    echo "#include <$header.h>"
done >headers.c
gcc -D_GNU_SOURCE -E -P -C headers.c >with.i || exit 1
gcc -D_GNU_SOURCE -E -P headers.c >without.i || exit 1

# fit FILE: its lines, again and again, up to the last end of a comment or a
# declaration in its first 1,040,000 bytes.
fit() {
    cat "$1" "$1" "$1" | head -c 1040000 | awk '
        { lines[NR] = $0 }
        /\*\/$/ || /^[^*]*;$/ { last = NR }
        END { for (i = 1; i <= last; i++) print lines[i] }'
}
fit with.i >with.c
fit without.i >without.c

uname -srm
sed -n 's/^model name[^:]*: //p' /proc/cpuinfo 2>/dev/null | sort | uniq -c
echo "load: $(uptime | sed 's/.*load average: //')"
gcc --version | head -n 1
has tcc && tcc -v
echo

# ---------------------------------------------------------------- the times

TIMEFORMAT='%U %S %R'

# spent COMMAND..: the processor's time and the time that passed, in seconds,
# of the whole process.
spent() {
    { time "$@" >/dev/null 2>err; } 2>&1 | awk '{ print $1 + $2, $3 }'
}

# many ROUNDS FILE: twenty processes.
many() {
    for _ in {1..20}; do "$scan" scan "$1" <"$2"; done
}

least() { awk -v a="$1" -v b="$2" 'BEGIN { print (a == "" || b + 0 < a + 0) ? b : a }'; }

# keep TIME..: the least of each so far, in best.
keep() {
    local place=0 time
    for time in "$@"; do
        best[place]=$(least "${best[place]:-}" "$time")
        place=$((place + 1))
    done
}

# scan_times TEXT: the eight times that show_scans reads.
scan_times() {
    spent "$scan" scan 1 <"$1"
    spent "$scan" scan $((rounds + 1)) <"$1"
    spent many 0 "$1"
    spent many 1 "$1"
}

show_scans() {
    show 'scan' "${best[0]}" "${best[2]}" "${best[1]}" "${best[3]}" $rounds
    show 'first scan' "${best[4]}" "${best[6]}" "${best[5]}" "${best[7]}" 20
}

# measure TEXT
measure() {
    bytes=$(wc -c <"$1")
    echo "$1: $bytes bytes, $(wc -l <"$1") lines"
    # The other two read eight texts, and one.
    for _ in 1 2 3 4 5 6 7 8; do cat "$1"; done >eight.c
    best=()
    for ((turn = 0; turn < turns; turn++)); do
        times=($(scan_times "$1")
            $(spent gcc -E -fpreprocessed "$1") $(spent gcc -E -fpreprocessed eight.c))
        has tcc && times+=($(spent tcc -E "$1") $(spent tcc -E eight.c))
        keep "${times[@]}"
    done
    show_scans
    show 'gcc -E -fpreprocessed' "${best[8]}" "${best[10]}" "${best[9]}" "${best[11]}" 7
    if has tcc; then
        show 'tcc -E' "${best[12]}" "${best[14]}" "${best[13]}" "${best[15]}" 7
    else
        echo '  tcc -E: left out'
    fi
}

# show NAME LESS MORE LESS MORE TEXTS: the differences, first of the
# processor's times, then of those that passed, are for so many texts.
show() {
    awk -v name="$1" -v a="$2" -v b="$3" -v c="$4" -v d="$5" -v n="$6" -v bytes="$bytes" 'BEGIN {
        busy = (b - a) / n
        passed = (d - c) / n
        if (busy <= 0 || passed <= 0) { printf "  %-22s too short to tell\n", name; exit }
        printf "  %-22s %7.2f ms of processor, %6.1f MB/s; %7.2f ms passed, %6.1f MB/s\n",
            name, busy * 1e3, bytes / busy / 1e6, passed * 1e3, bytes / passed / 1e6
    }'
}

measure with.c
measure without.c

# alone FILE: scan alone.
alone() {
    bytes=$(wc -c <"$1")
    echo "$(basename "$1"): $bytes bytes, $(wc -l <"$1") lines"
    best=()
    for ((turn = 0; turn < turns; turn++)); do
        times=($(scan_times "$1"))
        keep "${times[@]}"
    done
    show_scans
}

for file in ${files[@]+"${files[@]}"}; do alone "$file"; done

# ------------------------------------------------------------- the tree

# 50,000 lines: functions of 1,000 statements of four or six tokens each.
awk 'BEGIN {
    for (line = 0; line < 50000; line += 1002) {
        printf "int f%d(int x) {\n", line
        for (k = 0; k < 999; k++) print (k % 3 ? "x += 1;" : "x = x - 1;")
        print "return x;"
        print "}"
    }
}' </dev/null >lines.c
tokens=$("$scan" parse 1 <lines.c | awk '{ print $1 }')
if [ -z "$tokens" ]; then
    echo 'lines.c has no tree'
    exit 1
fi
echo
echo "lines.c: $(wc -c <lines.c) bytes, $(wc -l <lines.c) lines, $tokens tokens"
best=()
for ((turn = 0; turn < turns; turn++)); do
    times=($(spent "$scan" parse 1 <lines.c) $(spent "$scan" parse $((rounds + 1)) <lines.c))
    has clang && times+=($(spent clang -fsyntax-only lines.c)) || times+=(- -)
    has tcc && times+=($(spent tcc -c lines.c -o lines.o)) || times+=(- -)
    for place in "${!times[@]}"; do
        best[place]=$(least "${best[place]:-}" "${times[place]}")
    done
done
awk -v a="${best[0]}" -v b="${best[2]}" -v n=$rounds -v t="$tokens" 'BEGIN {
    s = (b - a) / n
    printf "  %-22s %7.2f ms of processor, %6.2f million tokens a second\n", "scan, tokens, parse", s * 1e3, t / s / 1e6
}'
awk -v c="${best[4]}" -v d="${best[6]}" -v t="$tokens" 'BEGIN {
    form = "  %-22s %7.2f ms of processor (whole process), %6.2f million tokens a second\n"
    if (c > 0) printf form, "clang -fsyntax-only", c * 1e3, t / c / 1e6
    if (d > 0) printf form, "tcc -c", d * 1e3, t / d / 1e6
}'

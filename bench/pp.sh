#!/bin/bash
# Measures `cc pp` beside gcc -E -P and tcc -E -P, in one run: headers included many times, many calls of macros, a long chain of
# macros, deep calls.
#
#   bash bench/pp.sh [CC [TURNS]]
#
# Called from the repository's root; CC is bin/cc by default. Of each measurement the best of TURNS (9) is printed, the
# programs in turn. What needs a missing tool is left out, and said so.
set -u
LC_ALL=C
export LC_ALL

root=$(pwd)
cc=${1:-bin/cc}
case $cc in /*) ;; *) cc=$root/$cc ;; esac
turns=${2:-9}

work=$(mktemp -d) || exit 1
trap 'rm -rf "$work"' EXIT
trap 'exit 1' HUP INT TERM
cd "$work" || exit 1

# spent WORD..: of the whole process, three numbers in one line: milliseconds of the processor, milliseconds passed, and the
# most resident memory in kilobytes. Status 1 where it fails or takes more than two minutes.
cat >spent.py <<'PYTHON'
import os, signal, subprocess, sys, time
begin = time.monotonic()
child = subprocess.Popen(sys.argv[1:], stdin=subprocess.DEVNULL, stdout=subprocess.DEVNULL, stderr=subprocess.DEVNULL)
signal.signal(signal.SIGALRM, lambda *_: child.kill())
signal.alarm(120)
# That process alone: RUSAGE_CHILDREN would count what a script that starts Python, such as pyenv's, ran before.
_, status, used = os.wait4(child.pid, 0)
passed = time.monotonic() - begin
print('%.2f %.2f %d' % ((used.ru_utime + used.ru_stime) * 1e3, passed * 1e3, used.ru_maxrss))
sys.exit(status != 0)
PYTHON

# measure SOURCE [NAME]: a line for each program, or for that one alone, and the ratios of the processor's time.
measure() {
    rm -f times.*
    for ((turn = 0; turn < turns; turn++)); do
        for name in ${2:-cc gcc tcc}; do
            case $name in
                cc) words=("$cc" pp "$1" "${headers[@]}") ;;
                gcc) words=(gcc -E -P "$1" -o gcc.out) ;;
                tcc) words=(tcc -E -P "$1" -o tcc.out) ;;
            esac
            command -v "${words[0]}" >/dev/null 2>&1 || continue
            [ -f "times.$name.failed" ] && continue
            python3 spent.py "${words[@]}" >>"times.$name" || : >"times.$name.failed"
        done
    done
    echo "$1: $(wc -c <"$1") bytes"
    for name in ${2:-cc gcc tcc}; do
        if [ -f "times.$name.failed" ]; then
            echo "  $name: failed"
        elif [ -f "times.$name" ]; then
            awk -v name="$name" -v first="$(sort -n times.cc 2>/dev/null | head -n 1)" '
                NR == 1 || $1 < busy { busy = $1 }
                NR == 1 || $2 < passed { passed = $2 }
                NR == 1 || $3 < memory { memory = $3 }
                END { split(first, f, " ")
                      printf "  %-4s %9.1f ms of processor, %9.1f ms passed, %7.1f MB", name, busy, passed, memory / 1024
                      if (name != "cc" && busy > 0) printf "; cc takes %.2f of its time", f[1] / busy
                      print "" }' "times.$name"
        else
            echo "  $name: left out"
        fi
    done
}

# the files that a source includes, which the compiler is given beside it
headers=()

uname -srm
sed -n 's/^model name[^:]*: //p' /proc/cpuinfo 2>/dev/null | sort | uniq -c
echo "load: $(uptime | sed 's/.*load average: //')"
gcc --version 2>/dev/null | head -n 1
tcc -v 2>/dev/null
echo
: >empty.c
measure empty.c
python3 "$root/bench/pp_source.py" headers . >headers.c
headers=(h*.h)
echo "40 headers, each included four times: $(cat h*.h | wc -c) bytes"
measure headers.c
headers=()
python3 "$root/bench/pp_source.py" calls >calls.c
measure calls.c
for names in 13000 26000 52000; do
    python3 "$root/bench/pp_source.py" chain $names >chain$names.c
    measure chain$names.c
done
# the other two take memory with the square of the depth: gcc 0.9 GB for 4,000
for depth in 2000 4000; do
    python3 "$root/bench/pp_source.py" nested $depth >nested$depth.c
    measure nested$depth.c
done
for depth in 8000 16000 32000; do
    python3 "$root/bench/pp_source.py" nested $depth >nested$depth.c
    measure nested$depth.c cc
done

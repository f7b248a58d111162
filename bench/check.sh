#!/bin/bash
# Measures the front with all constraints beside others, in one run, and that it is linear by doubling.
#
#   bash bench/check.sh [CC [TURNS]]
#
# Called from the repository's root; CC is bin/cc by default, TURNS 9. Of each measurement the least time of the processor
# (user and system) is printed, of whole processes, in turn. What needs a missing tool is left out, and said so. `cc build` goes
# through preprocessing, tokens, tree and constraints, and ends with the one that the last line of each source breaks, before there is code.
set -u
LC_ALL=C
export LC_ALL

root=$(pwd)
cc=${1:-bin/cc}
case $cc in /*) ;; *) cc=$root/$cc ;; esac
turns=${2:-9}

work=$(mktemp -d) || exit 1
trap 'rm -rf "$work"' EXIT
trap 'exit 1' HUP INT TERM
cd "$work" || exit 1
has() { command -v "$1" >/dev/null 2>&1; }

# ------------------------------------------------------------- the sources

# the function that ends each of them
with_fault() { cat; echo 'int last(void) { return none; }'; }
# whether the last line's fault is all that is said
ends_there() { [ "$said" = "main.c:$(($(wc -l <main.c))): 528 undeclared name" ] || echo "$1: $said"; }

# names N: so many objects at file scope, each declared once and never used
names() { awk -v n="$1" 'BEGIN { for (k = 0; k < n; k++) printf "%s%s%s", k % 20 ? "," : "extern int ", sprintf("x%x", k), k % 20 == 19 || k == n - 1 ? ";\n" : ""
    print "int main(void) { return 0; }" }' </dev/null; }
# blocks N: so many blocks, 100 in one another, each with a name of its own and one that hides another
blocks() { awk -v n="$1" 'BEGIN { for (k = 0; k < n; k += 100) { if (k % 2000 == 0) printf "%sint f%d(void) {\n", k ? "return 0; }\n" : "", k
    for (d = 0; d < 100; d++) printf "{int a,b%d;", d; for (d = 0; d < 100; d++) printf "}"; print "" } print "return 0; }\nint main(void) { return 0; }" }' </dev/null; }
# lines N: so many lines of statements, 4 and 6 nodes by turns, in functions of 1,000 lines
lines() { awk -v n="$1" 'BEGIN { for (k = 0; k < n; k++) { if (k % 1000 == 0) printf "int f%d(int a, int b) {\n", k
    else if (k % 1000 == 999) print "return a; }"; else print k % 2 ? "a = b;" : "b = a - b;" } print "int main(void) { return f0(1, 2); }" }' </dev/null; }
# nodes N: as many nodes, or a few less, in statements of 12 (a call of another function in each eighth)
nodes() { awk -v n="$1" 'BEGIN { f = 0; used = 8; print "int g(int a, unsigned b) { return (int)(a + b); }"
    while (used + 12 < n) { if (c % 300 == 0) { printf "%sint f%d(int a, unsigned b) {\n", c ? "return a; }\n" : "", f++; used += 4 }
      print c % 8 ? "if (a < b) a = b * 2 - a;" : "a += g(a, b) ? a : (int)b;"; used += 12; c++ } print "return a; }\nint main(void) { return 0; }" }' </dev/null; }

# -------------------------------------------------------------- the measure

# least COMMAND..: the least time of the processor, in milliseconds, of so many turns
least() {
    python3 - "$turns" "$@" <<'PY'
import resource, subprocess, sys
turns, command = int(sys.argv[1]), sys.argv[2:]
def spent():
    usage = resource.getrusage(resource.RUSAGE_CHILDREN)
    return usage.ru_utime + usage.ru_stime
best = None
for _ in range(turns):
    before = spent()
    subprocess.run(command, stdin=subprocess.DEVNULL, stdout=subprocess.DEVNULL, stderr=subprocess.DEVNULL)
    took = spent() - before
    best = took if best is None else min(best, took)
print('%.1f' % (best * 1000))
PY
}

echo "load: $(uptime | sed 's/.*load average: //')"
for kind in names blocks nodes; do
    case $kind in names) sizes='32500 65000 130000' ;; blocks) sizes='7500 15000 30000' ;; *) sizes='65536 131072 260000' ;; esac
    for size in $sizes; do
        $kind "$size" | with_fault >main.c
        said=$("$cc" build main.c -o program 2>&1)
        ends_there "$kind $size"
        echo "$kind $size: $(least "$cc" build main.c -o program) ms, of which preprocessing and printing $(least "$cc" pp main.c) ms"
    done
done
lines 50000 >whole.c
with_fault <whole.c >main.c
said=$("$cc" build main.c -o program 2>&1)
ends_there lines
echo "50,000 lines: cc build $(least "$cc" build main.c -o program) ms"
if has gcc; then echo "50,000 lines: gcc -O0 -fsyntax-only $(least gcc -std=c11 -O0 -fsyntax-only whole.c) ms"; else echo 'no gcc'; fi
if has tcc; then echo "50,000 lines: tcc -c $(least tcc -c -o whole.o whole.c) ms"; else echo 'no tcc'; fi

#!/bin/bash
# Sources for build_lines.sh, which reads this file, and for table.py, for which `bash bench/lines.sh KIND N` writes one to standard output.

# functions N: N lines, in functions of 20 lines.
functions() {
    awk -v n="$1" 'BEGIN {
        for (k = 0; k < (n - 4) / 20; k++) {
            printf "/* Function %d. */\nint f%d(int a, unsigned b)\n{\n    int s = 0;\n    int i;\n\n", k, k
            printf "    for (i = 0; i < %d; i++) {\n        if (a < i)\n            s += b;\n", k % 90
            printf "        else\n            s -= a %% %d;\n    }\n\n", k % 7 + 1
            printf "    while (s > 100)\n        s /= 2;\n\n    b ^= s;\n"
            printf k ? "    return s + f%d(b, a);\n" : "    return s;\n", k - 1
            printf "}\n\n"
        }
        printf "int main(void)\n{\n    return f0(1, 2);\n}\n" }' </dev/null
}

# statements N: N lines of assignments, in functions of 1,000 lines.
statements() {
    awk -v n="$1" 'BEGIN {
        for (k = 0; k < n - 1; k++) {
            if (k % 1000 == 0) printf "int f%d(int a, int b) {\n", k
            else if (k % 1000 == 999 || k == n - 2) print "return a; }"
            else print k % 2 ? "a = b;" : "b = a - b;"
        }
        print "int main(void) { return f0(1, 2); }" }' </dev/null
}

# dense N: N lines, each an assignment of a long expression, in functions of 100 lines.
dense() {
    awk -v n="$1" 'BEGIN {
        for (k = 0; k < n; k++) {
            if (k % 100 == 0) printf "int f%d(int a, int b, int c, int d) {\n", k
            printf "a = (a + b * %d - (c ^ d)) * (b + c * %d) + ((d - a) & (c | %d)) - (a * b + c * d) %% %d + (b < c ? a - d : d + %d);\n", k % 13 + 1, k % 7 + 2, k, k % 9 + 1, k
            if (k % 100 == 99 || k == n - 1) print "return a; }"
        }
        print "int main(void) { return f0(1, 2, 3, 4); }" }' </dev/null
}

if [ "${BASH_SOURCE[0]}" = "$0" ]; then
    LC_ALL=C "$1" "$2"
fi

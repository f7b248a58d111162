"""Programs that are defined on every input, and that verify has to find so; each change of mutants.py is of one of them."""

# Defined on every input by C, and by means that an analysis of intervals has.
DEFINED = {
    'a static that is not 0': 'static int scale = 7;\nint main(void) { return 100 / scale; }',
    'a table without 0': 'int rv_getbyte(void);\nstatic const int table[4] = { 1, 2, 4, 8 };\nint main(void) { return 100 / table[rv_getbyte() & 3]; }',
    'rows without 0': 'int rv_getbyte(void);\nstatic int m[2][2] = { { 1, 2 }, { 3, 4 } };\nint main(void) { return 100 / m[rv_getbyte() & 1][1]; }',
    'constant': 'int main(void) { return 1 + 2 * 3; }',
    'loop': 'int main(void) { int i = 0; while (i < 10) i = i + 1; return 100 / i; }',
    'for': 'int main(void) { unsigned s = 0; for (int i = 0; i < 100; i++) s += i; return s & 127; }',
    'do': 'int rv_getbyte(void);\nint main(void) { int c; do c = rv_getbyte(); while (c >= 0); return 10 + c; }',
    'byte': 'int rv_getbyte(void);\nint main(void) { int c = rv_getbyte(); if (c < 0) return 1; return 1000 / (c + 1); }',
    'narrowed': 'int rv_getbyte(void);\nstatic int a[4] = { 1, 2, 3, 4 };\nint main(void) { int c = rv_getbyte(); if (c >= 0 && c < 4) return a[c]; return 0; }',
    'capitals': 'int rv_getbyte(void);\nvoid rv_putbyte(int c);\nint main(void) { int c; while ((c = rv_getbyte()) != -1) rv_putbyte(c >= 97 && c <= 122 ? c - 32 : c); return 0; }',
    'remainder': 'int rv_getbyte(void);\nstatic int a[8];\nint main(void) { unsigned n = rv_getbyte(); return a[n % 8]; }',
    'mask': 'int rv_getbyte(void);\nstatic int a[8];\nint main(void) { return a[rv_getbyte() & 7]; }',
    'shifts': 'int rv_getbyte(void);\nint main(void) { unsigned n = rv_getbyte(); return (int)((1u << (n & 31)) >> 3 & 1); }',
    'signs': 'int rv_getbyte(void);\nint main(void) { int c = rv_getbyte(); return c * c - c * 3 + c / 2 + c % 7; }',
    'literal': 'int rv_getbyte(void);\nint main(void) { int c = rv_getbyte(); if (c < 0 || c > 3) return 0; return 100 / ("abc"[c] + 1); }',
    'call': 'int f(int n) { return 10 / n; }\nint main(void) { return f(5) + f(2); }',
    'call of a call': 'int rv_getbyte(void);\nint g(int n) { return n + 2; }\nint f(int n) { return g(n) + 2; }\nint main(void) { return 100 / f(rv_getbyte()); }',
    'static of a call': 'static int g;\nvoid f(int n) { g = n; }\nint main(void) { f(3); return 10 / g; }',
    'call in a loop': 'static unsigned s;\nvoid f(unsigned n) { s += n; }\nint main(void) { for (int i = 0; i < 50; i++) f(i); return s & 1; }',
    'less than another': 'int rv_getbyte(void);\nstatic int a[4];\nint main(void) { int x = rv_getbyte() & 7, y = 4; if (x < y) return a[x]; return 0; }',
    'switch': 'int rv_getbyte(void);\nint main(void) { int z = 0; switch (rv_getbyte()) { case 65: z = 1; break; case 66: z = 2; break; default: z = 3; } return 10 / z; }',
    'switch without default': 'int rv_getbyte(void);\nint main(void) { int z = 1; switch (rv_getbyte()) { case 65: z = 2; case 66: z = z + 1; } return 10 / z; }',
    'switch in a loop': 'int rv_getbyte(void);\nint main(void) { unsigned n = 0; int c; while ((c = rv_getbyte()) >= 0) switch (c) { case 10: n++; continue; case 13: continue; default: break; } return n & 127; }',
    'list': 'int rv_getbyte(void);\nint main(void) { int a[8] = { 1, 2, 3 }; return 10 / (a[rv_getbyte() & 7] + 1); }',
    'rows': 'int rv_getbyte(void);\nint main(void) { int n = rv_getbyte() & 1, a[2][3] = { { 1, n }, { 4, -n, 6 } }; return 10 / (a[n][n + 1] + 2); }',
    'text': 'int rv_getbyte(void);\nint main(void) { char s[] = "abc"; return 100 / (s[rv_getbyte() & 3] + 1); }',
    'array passed': 'int rv_getbyte(void);\nint f(int a[], int n) { return 10 / a[n]; }\nint main(void) { int a[2] = { 1, 2 }; return f(a, rv_getbyte() & 1); }',
    'array that a call writes': 'static int a[4];\nvoid f(int b[], int n) { b[n & 3] = n; }\nint main(void) { f(a, 3); return 10 / (a[0] + 1); }',
    'row passed': 'int rv_getbyte(void);\nint f(int r[], int n) { return r[n]; }\nint main(void) { int n = rv_getbyte() & 1, a[2][3] = { { 1, 2, 3 }, { 4, 5, 6 } }; return 10 / f(a[n], n + 1); }',
    'rows passed': 'static int a[2][3];\nint f(int r[][3], int n) { return r[n][n + 1]; }\nint g(int r[][3], int n) { return f(r, n); }\nint main(void) { return 10 / (g(a, 1) + 1); }',
    'text passed': 'int rv_getbyte(void);\nint f(const char text[], int n) { return 100 / (text[n] + 1); }\nint main(void) { return f("abc", rv_getbyte() & 3); }',
    'two arrays passed': 'static int a[2] = { 1, 2 }, b[3];\nint f(int x[], int n, int y[]) { y[n] = 5; return y[2] - x[1]; }\nint main(void) { return f(a, 2, b); }',
    'negative divisor': 'int rv_getbyte(void);\nint main(void) { int c = rv_getbyte(), d = -(rv_getbyte() & 3) - 1; return (c / d + c % d + 100 / d) & 127; }',
    'remainder by a negative number': 'int rv_getbyte(void);\nstatic int a[4];\nint main(void) { int c = rv_getbyte(); if (c < 0) return 0; return a[c % -4]; }',
    'quotient by a negative number': 'int rv_getbyte(void);\nstatic int a[4];\nint main(void) { int c = -(rv_getbyte() & 7); return a[c / -2]; }',
    'a sum over ten turns': 'int main(void) { int s = 0; for (int i = 0; i < 10; i++) s += i; return 100 / (s - 44); }',
    'a sum up to an argument': 'int sum(int n) { int total = 0; for (int i = 1; i <= n; i++) total += i; return total; }\nint main(void) { return 45 / (sum(9) - 44); }',
    'turns that double': 'int main(void) { int p = 1, n = 0; while (p < 1000) { p += p; n++; } return 10 / (n - 9); }',
    'a count to zero': 'int main(void) { int n = 4, s = 0; do s += n + n; while (--n > 0); return 30 / (s - 19); }',
    'a count past zero': 'int main(void) { int n = 4, s = 0; while (n-- > 0) s = s + s + n; return 5 / (s - 33); }',
    'a break in a turn': 'int main(void) { int i; for (i = 0; i < 10; i++) if (i == 6) break; return 12 / (i - 5); }',
    'a continue in a turn': 'int main(void) { int s = 0; for (int i = 0; i < 10; i++) { if (i == 3) continue; s += i; } return 100 / (s - 41); }',
    'a return in a turn': 'int f(int n) { for (int i = 0; i < 10; i++) if (i + i > n) return i; return 1; }\nint main(void) { return 10 / (f(13) - 6); }',
    'turns within turns': 'int main(void) { int s = 0; for (int i = 0; i < 5; i++) for (int j = 0; j < i; j++) s += i - j; return 20 / (s - 19); }',
    'a call in each turn': 'int twice(int n) { return n + n; }\nint main(void) { int s = 0; for (int i = 0; i < 5; i++) s += twice(i); return 20 / (s - 19); }',
    'turns without a test': 'int main(void) { int n = 0; for (;;) { n = n + 1; if (n > 5) return 10 / (n - 5); } }',
    'a flag that ends the turns': 'int main(void) { int done = 0, n = 0; while (!done) { n++; if (n + n > 10) done = 1; } return 10 / (n - 5) + 10 / !(n - 6) + 10 / (!n - 1); }',
    'an array that a loop fills': 'int main(void) { int a[4]; for (int i = 0; i < 4; i++) a[i] = i + 1; return 12 / a[2] + 12 / (a[0] + a[3] - 4); }',
    'two elements of three': 'int main(void) { int a[3]; a[0] = 1; a[2] = 5; return 10 / (a[2] - a[0] - 3); }',
    'elements of a table with a 0': 'static const int table[4] = { 3, 0, 0, 7 };\nint main(void) { return 21 / table[0] + 21 / table[3]; }',
    'the zeros behind a static list': 'static int a[3] = { 2 };\nint main(void) { return 10 / (a[0] - a[2] - 1); }',
    'up to the end of a text': 'void rv_putbyte(int c);\nint main(void) { char s[] = "abc"; for (int i = 0; s[i] != 0; i++) rv_putbyte(s[i]); return 0; }',
    'up to the end of a literal': 'void rv_putbyte(int c);\nvoid say(const char s[]) { for (int i = 0; s[i] != 0; i++) rv_putbyte(s[i]); }\nint main(void) { say("hello"); say(""); return 0; }',
    'a bound among the lengths of many texts': 'int rv_getbyte(void);\nvoid rv_putbyte(int c);\nstatic char line[61];\nvoid say(const char s[], int n) { for (int k = 0; k < n; k++) rv_putbyte(s[k]); }\nint main(void) { int n = 0, c; say("a", 1); say("ab", 2); say("abc", 3); say("abcd", 4); say("abcde", 5); say("abcdef", 6); say("abcdefg", 7); say("abcdefgh", 8); say("abcdefghi", 9); say("abcdefghijklmn", 14); say("abcdefghijklmnopqrst", 20); while ((c = rv_getbyte()) >= 0) if (c == 8) n = n > 0 ? n - 1 : 0; else if (n < 60) line[n++] = c; line[n] = 0; return 0; }',
    'elements that calls write': 'void f(int a[], int n) { a[n] = n; }\nint main(void) { int a[2]; f(a, 0); f(a, 1); return 10 / (a[1] - a[0]); }',
    'an element that is left alone': 'int rv_getbyte(void);\nint main(void) { int a[3] = { 5, 6, 7 }, n = rv_getbyte() & 1; a[n] = 0; return 10 / a[2]; }',
    'a list that calls': 'int f(int n) { return n + 1; }\nint main(void) { int a[2] = { f(1), f(2) }; return 6 / (a[1] - a[0]); }',
    'a list that assigns': 'int main(void) { int x = 0, a[2] = { x = 3, x + 1 }; return 12 / (a[1] - a[0]) + 12 / x; }',
    'the rest of a list': 'int main(void) { int a[4] = { 1, 2 }; return 10 / (a[0] + a[3]); }',
    'an element on each of two ways': 'int rv_getbyte(void);\nint main(void) { int a[2] = { 1, 1 }; if (rv_getbyte() < 0) a[0] = 4; else a[1] = 5; return 20 / a[0] + 20 / a[1]; }',
    'elements that are changed in place': 'int main(void) { int a[2] = { 1, 2 }; a[0]++; a[1] += a[0]; return 12 / (a[1] - a[0] - 1); }',
    'an element that many turns leave alone': 'int main(void) { unsigned n = 0; int a[2] = { 1, 2 }; for (unsigned i = 0; i < 100000; i++) n += a[1]; return 10 / a[0] + (n & 1); }',
    'any element of an array that a loop fills': 'int rv_getbyte(void);\nint main(void) { int a[4]; for (int i = 0; i < 4; i++) a[i] = i + 1; return 12 / a[rv_getbyte() & 3]; }',
    'a comparison that is decided': 'int main(void) { int n = 3; return 10 / (n + n > 5) + 10 / (n + n <= 6) + 10 / (n - 1 == 2) + 10 / ((n + 4 != 6) + (n + n < 6)); }',
    'an array of one element for a result': 'void both(int a, int b, int sum[], int less[]) { sum[0] = a + b; less[0] = a - b; }\nint main(void) { int s[1], d[1]; both(17, 5, s, d); return 10 / (s[0] - 21) + 10 / (d[0] - 11); }',
    'rows of one element': 'int main(void) { int m[1][1]; m[0][0] = 3; m[0][0]++; return 10 / (m[0][0] - 3); }',
    'behind a return': 'int main(void) { int z = 0; return z; return 1 / z; }',
    'where no run comes': 'int main(void) { int x = 3; if (x > 5) return 1 / (x - 3); return x > 4 && 1 / (x - 3); }',
    'behind an exit': 'int rv_getbyte(void);\nvoid rv_exit(int status);\nint main(void) { int c = rv_getbyte(); if (c < 1) rv_exit(1); return 100 / c; }',
}

# The places of programs of the documents that have to be written otherwise before they are found defined: what stood there, and what stands there then.
BY_PLACES = ("""    if (n >= 10)
        write_number(n / 10);
    rv_putbyte('0' + (int)(n % 10));
""", """    for (unsigned place = 1000000000; place > 0; place /= 10)
        if (n >= place || place == 1)
            rv_putbyte('0' + (int)(n / place % 10));
""")
EDITS = {
    'LANGUAGE/sum.c': [('unsigned number[1], sum = 0;', 'unsigned number[1] = { 0 }, sum = 0;'), BY_PLACES],
    'LANGUAGE/words.c': [('int words = 0, c;', 'unsigned words = 0;\n    int c;'), ('return words;', 'return (int)words;')],
    'LANGUAGE/sort.c': [('unsigned char item[ROOM];', 'unsigned char item[ROOM] = { 0 };')],
    'LANGUAGE/records.c': [('text[i] != 0;', 'i < NAME_SIZE && text[i] != 0;')],
    'bench/search.c': [('text[i + j] == word[j]', 'text[(i + j) % 4000] == word[j]')],
    'bench/sieve.c': [('int count = 0;', 'unsigned count = 0;'), ('return count & 127;', 'return (int)(count & 127);')],
    'bench/sort.c': [("""    int i = low;
    int j = high;
    int middle = list[(low + high) / 2];
    while (i <= j) {
        while (list[i] < middle)
            i++;
        while (middle < list[j])
            j--;
        if (i <= j) {
            int t = list[i];
            list[i] = list[j];
            list[j] = t;
            i++;
            j--;
        }
    }
    if (low < j)
        sort(list, low, j);
    if (i < high)
        sort(list, i, high);
""", """    for (int i = low + 1; i <= high; i++) {
        int moved = list[i], at = i;
        for (; at > low && list[at - 1] > moved; at--)
            list[at] = list[at - 1];
        list[at] = moved;
    }
""")],
    'examples/collatz.c': [BY_PLACES],
}

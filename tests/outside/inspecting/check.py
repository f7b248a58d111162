#!/usr/bin/env python3
"""What `cc list` with labels, `frames`, `size`, `symbols`, `image` and `run` with a trace show, held against other tools and against the file itself.

    python3 tests/outside/inspecting/check.py CC

Frames are held against the listing (the first instruction of a function lowers sp by its frame); symbols are read by readelf, and by objdump
and gdb-multiarch where they are there; an image is held against the program headers, and where objcopy is there against its forms; a trace
against the listing and the run; completions are asked of the shells that are there. The last line is 'N passed, M failed'."""
import json, os, pty, re, select, shutil, struct, subprocess, sys, tempfile, time

sys.path.insert(0, os.path.dirname(os.path.dirname(os.path.dirname(os.path.abspath(__file__)))))
import harness

CC = os.path.abspath(sys.argv[1])
ROOT = os.path.dirname(os.path.dirname(os.path.dirname(os.path.dirname(os.path.abspath(__file__)))))
checks = harness.Current()

FACT = '''int fact(int n) { if (n < 2) return 1; return n * fact(n - 1); }
static int twice(int x) { return x + x; }
int main(void) { return twice(fact(5)) & 255; }
'''
CHAIN = '''#include <rvio.h>
int table[4] = { 1, 2, 3, 4 };
int deep(int x) { int a[8]; for (int i = 0; i < 8; i++) a[i] = x + i; return a[x & 7]; }
int middle(int x) { return deep(x) + deep(x + 1); }
int main(void) { rv_putbyte(97); return middle(table[2]) & 255; }
'''
EVEN = '''int odd(int n);
int even(int n) { return n == 0 ? 1 : odd(n - 1); }
int odd(int n) { return n == 0 ? 0 : even(n - 1); }
int main(void) { return even(10); }
'''
TRAP = '''#include <rvio.h>
int a[1];
int far(int i) { return a[i]; }
int main(void) { return far(268435456); }
'''

def check(name, holds, *more):
    checks.holds(' '.join(map(str, (name, *more)))[:3000], holds)

def cc(work, *words, text=b''):
    done = subprocess.run([CC, *words], cwd=work, input=text, stdout=subprocess.PIPE, stderr=subprocess.PIPE, timeout=120)
    return done.returncode, done.stdout, done.stderr.decode('utf-8', 'replace')

def put(work, name, text):
    with open(os.path.join(work, name), 'w') as file:
        file.write(text)

def listing(work, name):
    rows = cc(work, 'list', name)[1].decode().splitlines()
    return [(int(row[:8], 16), int(row[9:17], 16), row[19:]) for row in rows]

def functions(rows):
    """The stretches of code behind the first ecall, each through a return."""
    start = next(k for k, row in enumerate(rows) if row[2] == 'ecall') + 1
    found = []
    for k in range(start, len(rows)):
        if rows[k][2] == 'jalr x0,0(x1)':
            found.append((rows[start][0], rows[k][0] + 4, rows[start][2]))
            start = k + 1
    return found

def table(text):
    rows = {}
    for line in text.splitlines()[1:]:
        row = re.match(r'(\w+) +(\d+) +(\d+) +(\d+)(  .*)?$', line)
        if row:
            rows[row[1]] = (int(row[2]), int(row[3]), int(row[4]), (row[5] or '').split())
    return rows

def frames():
    for name, source, order, calls in (('fact', FACT, ['fact', 'twice', 'main'], {'fact': ['fact'], 'twice': [], 'main': ['fact', 'twice']}),
                                       ('chain', CHAIN, ['deep', 'middle', 'main'], {'deep': [], 'middle': ['deep'], 'main': ['middle']}),
                                       ('even', EVEN, ['even', 'odd', 'main'], {'even': ['odd'], 'odd': ['even'], 'main': ['even']})):
        with tempfile.TemporaryDirectory() as work:
            put(work, 'a.c', source)
            status, out, err = cc(work, 'frames', 'a.c')
            rows = table(out.decode())
            check(name + ': functions', status == 0 and err == '' and list(rows) == order, out)
            for (start, end, first), function in zip(functions(listing(work, 'a.c')), order):
                lowered = re.match(r'addi x2,x2,-(\d+)$', first)
                check('%s: %s' % (name, function), rows[function][0] == (int(lowered[1]) if lowered else 0) and rows[function][2] == end - start
                      and rows[function][0] <= rows[function][1] and rows[function][3] == calls[function], rows)
            said = out.decode()
            if name == 'chain':
                for what, column in (('frames', 0), ('weights', 1)):
                    total = sum(rows[f][column] for f in order)
                    check('deepest by ' + what, 'deepest by %s: %d bytes: main > middle > deep\n' % (what, total) in said, said)
            if name == 'fact':
                check('circle of one', 'deepest by frames: no bound, a circle: fact > fact\n' in said, said)
            if name == 'even':
                check('circle of two', 'deepest by frames: no bound, a circle: even > odd > even\n' in said, said)
    with tempfile.TemporaryDirectory() as work:
        put(work, 'bad.c', 'int main(void) { return x; }\n')
        check('frames of no program', cc(work, 'frames', 'bad.c') == (1, b'', 'bad.c:1: 528 undeclared name\n'))
        check('frames of nothing', cc(work, 'frames')[0] == 2)

# the integer registers by the RISC-V psABI
ABI = 'zero ra sp gp tp t0 t1 t2 s0 s1 a0 a1 a2 a3 a4 a5 a6 a7 s2 s3 s4 s5 s6 s7 s8 s9 s10 s11 t3 t4 t5 t6'.split()

# what the instructions begin with that call a function
CALLS = ('jalr x1,', 'jal x1,')

def is_near_call(word):
    return word & 0xFFF == 0x0EF

def distance(word):
    """How far a branch or a jump leads, by its word (RISC-V, immediates of formats B and J); None for other instructions."""
    bits = lambda low, count: word >> low & (1 << count) - 1
    if word & 127 == 0x63:
        far, width = bits(8, 4) << 1 | bits(25, 6) << 5 | bits(7, 1) << 11 | bits(31, 1) << 12, 13
    elif word & 127 == 0x6F:
        far, width = bits(21, 10) << 1 | bits(20, 1) << 11 | bits(12, 8) << 12 | bits(31, 1) << 20, 21
    else:
        return None
    return far - (1 << width) if far >> (width - 1) else far

def labels():
    """Labels and names of registers, held against the plain listing."""
    source = CHAIN.replace('return a[x & 7];', 'while (x > 3) { if (x == 9) break; x = (x - 2) ^ x; } return a[x & 7];')
    with tempfile.TemporaryDirectory() as work:
        put(work, 'a.c', source)
        rows = listing(work, 'a.c')
        starts = dict(zip((start for start, _, _ in functions(rows)), ('deep', 'middle', 'main')))
        targets = {a + distance(w) for a, w, _ in rows if distance(w) is not None and not is_near_call(w)}
        status, out, err = cc(work, 'list', 'a.c', '--labels')
        check('labels', status == 0 and err == '' and len(targets) > 3, out[-300:])
        said, names, calls, objects = [], [], [], []
        for line in out.decode().splitlines():
            if line.endswith(':'):
                names.append(line[:-1])
            elif line:
                row = (int(line[:8], 16), int(line[9:17], 16), line[19:])
                label = starts.get(row[0]) or ('.L%X' % row[0] if row[0] in targets else None)
                check('label at %X' % row[0], names == ([label] if label else []), names)
                said.append(row)
                names = []
        check('labels: addresses and words', [row[:2] for row in said] == [row[:2] for row in rows])
        for (address, word, plain), (_, _, text) in zip(rows, said):
            if distance(word) is not None and not is_near_call(word):
                check('labels: ' + plain, text == plain[:plain.rfind(',') + 1] + '.L%X' % (address + distance(word)), text)
            elif '  # ' in text:
                (calls if plain.startswith(CALLS) else objects).append(text.split('  # ')[1])
                check('labels: a call or an object', text.startswith(plain + '  # ') and (plain.startswith(CALLS + ('addi ',)) or '(x3)' in plain), text)
            else:
                check('labels: ' + plain, text == plain, text)
        check('labels: calls', calls == ['main', 'deep', 'deep', 'middle'], calls)
        check('labels: objects', [name.split('+')[0] for name in objects] == ['table'], objects)
        wanted = [(a, w, re.sub(r'\bx(\d+)\b', lambda r: ABI[int(r[1])], text)) for a, w, text in rows]
        status, out, err = cc(work, 'list', 'a.c', '--abi')
        check('abi', (status, err) == (0, '') and [(int(r[:8], 16), int(r[9:17], 16), r[19:]) for r in out.decode().splitlines()] == wanted, out[:200])
        check('abi and labels', b'main:\n' in cc(work, 'list', 'a.c', '--abi', '--labels')[1])

STATICS = '''int first = 5;
static char text[10] = "ab";
int grid[3][4];
extern int late;
int next(void) { static unsigned short calls = 7; calls++; return calls; }
int main(void) { char own[3] = "xy"; grid[1][2] = first + text[1]; late = grid[2][3]; first = next() + own[0]; return late; }
int late = 9;
'''

def reached(rows, number):
    """The address that a row reaches from gp, which the fourth row has set, or that it ends the load of."""
    found = re.search(r'(?:^addi x\d+,x3,(-?\d+)|,(-?\d+)\(x3\))$', rows[number][2])
    return loaded(rows, 3) + int(found[1] or found[2]) if found else loaded(rows, number)

def loaded(rows, number):
    """The address that a pair of LUI and ADDI loads, of which this row is the second."""
    high, low = rows[number - 1][1], rows[number][1]
    check('a pair', high & 127 == 0x37 and low & 0x707F == 0x13 and high >> 7 & 31 == low >> 7 & 31 == low >> 15 & 31, rows[number])
    low >>= 20
    return (high & 0xFFFFF000) + (low - 4096 if low >= 2048 else low) & 0xFFFFFFFF

def objects():
    """Objects with static storage, in a listing with labels and among the symbols."""
    with tempfile.TemporaryDirectory() as work:
        put(work, 's.c', STATICS)
        check('objects: symbols', cc(work, 'symbols', 's.c', '-o', 's.sym.elf')[0] == 0)
        found = read_symbols(open(os.path.join(work, 's.sym.elf'), 'rb').read(), 1)
        # sizes by the types; each begins at a word, in the order of the declarations, and is apart from the next
        sizes = {'first': 4, 'text': 10, 'grid': 48, 'late': 4, 'calls': 2}
        check('objects: sizes', {name: size for name, (_, size) in found.items()} == sizes, found)
        starts = [found[name][0] for name in sizes]
        check('objects: places', all(at % 4 == 0 for at in starts) and all(at + sizes[name] <= after for name, at, after in zip(sizes, starts, starts[1:])), found)
        rows = listing(work, 's.c')
        said = [line for line in cc(work, 'list', 's.c', '--labels')[1].decode().splitlines() if line and not line.endswith(':')]
        seen = set()
        for number, line in enumerate(said):
            row = re.search(r'  # (.*)$', line)
            if row and not line[19:].startswith(CALLS):
                named = re.fullmatch(r'(\w+)(?:\+(\d+))?', row[1])
                at = reached(rows, number)
                if row[1] == 'string literal':
                    check('objects: a literal lies before them', at < min(starts), line)
                    continue
                check('objects: ' + line, named and at == found[named[1]][0] + int(named[2] or 0) and int(named[2] or 0) < sizes[named[1]], found)
                seen.add(named and named[1])
        check('objects: named', seen == set(sizes), seen)
        file = open(os.path.join(work, 's.sym.elf'), 'rb').read()
        cc(work, 'build', 's.c', '-o', 's')
        image = open(os.path.join(work, 's'), 'rb').read()
        loads = [struct.unpack_from('<8I', image, 52 + 32 * k) for k in range(struct.unpack_from('<H', image, 44)[0])]
        data = next(h for h in loads if h[4] and not h[6] & 1)
        at = lambda name: image[data[1] + found[name][0] - data[2]:][:4]
        check('objects: first values', (at('first'), at('text')[:3], at('late'), at('calls')[:2]) == (b'\5\0\0\0', b'ab\0', b'\x09\0\0\0', b'\7\0'), found)
        check('objects: no text is a file of symbols', file[:4] == b'\x7fELF')

STEPS = '''int total;
int add(int n)
{
    total = total + n;
    return total;
}

int main(void)
{
    int i;
    for (i = 0; i < 2; i = i + 1)
        add(i);
    while (total < 3)
        total++;
    do
        total = total - 1;
    while (total > 1);
    switch (total) {
    case 1:
        total = 7;
        break;
    default:
        total = 8;
    }
    if (total == 7)
        return total;
    return 0;
}
'''
# the lines at which a statement with code begins, and those that a debugger comes to from the begin of main on, by C
STEP_LINES = {2, 4, 5, 8, 11, 12, 13, 14, 16, 17, 18, 20, 21, 23, 25, 26, 27}
STEP_ORDER = [11, 12, 4, 5, 11, 12, 4, 5, 11, 13, 14, 13, 14, 13, 16, 17, 16, 17, 18, 20, 21, 25, 26]

def lines():
    """Lines of statements, in a listing with the sources' lines and in the table for debuggers."""
    with tempfile.TemporaryDirectory() as work:
        put(work, 's.c', STEPS)
        cc(work, 'build', 's.c', '-o', 's')
        cc(work, 'symbols', 's.c', '-o', 's.sym.elf')
        if there('readelf'):
            check('lines: of statements', {line for _, line in read_lines(work, 's.sym.elf').values()} <= STEP_LINES, read_lines(work, 's.sym.elf'))
        status, out, err = cc(work, 'list', 's.c', '--source')
        said = out.decode().splitlines()
        check('source: the listing', (status, err) == (0, '') and [line for line in said if not line.startswith('#')] == cc(work, 'list', 's.c')[1].decode().splitlines(), said[:5])
        texts = STEPS.splitlines()
        for line in said:
            if line.startswith('#'):
                row = re.fullmatch(r'# s\.c:(\d+)  (.*)', line)
                check('source: ' + line, row and int(row[1]) in STEP_LINES and texts[int(row[1]) - 1] == row[2])
        # behind a line stands the code of its statement: the only call of `add` behind line 12, the return value 0 behind line 27
        def behind(number):
            start = next(k for k, line in enumerate(said) if line.startswith('# s.c:%d ' % number)) + 1
            return [line[19:] for line in said[start:next((k for k in range(start, len(said)) if said[k].startswith('#')), len(said))]]
        check('source: the call', any(code.startswith(CALLS) for code in behind(12)) and sum(line[19:].startswith(CALLS) for line in said) == 2, behind(12))
        check('source: a value', any(re.match(r'addi x10,x0,0$', code) for code in behind(27)), behind(27))
        check('source: with labels', b'main:\n# s.c:8  int main(void)\n' in cc(work, 'list', 's.c', '--source', '--labels')[1])
        put(work, 'far.h', '#line 7 "made.y"\nint far(int x) { return x + 1; }\n')
        put(work, 'b.c', '#include "far.h"\nint main(void) { return far(1); }\n')
        said = cc(work, 'list', 'b.c', 'far.h', '--source')[1].decode().splitlines()
        check('source: a file that is not in the set', [line for line in said if line.startswith('#')] == ['# made.y:7', '# b.c:2  int main(void) { return far(1); }'], said)
        if there('gdb-multiarch') and there('qemu-riscv32'):
            check('gdb: steps', stepped(work, len(STEP_ORDER) - 1) == STEP_ORDER, stepped(work, len(STEP_ORDER) - 1))
            said = told(work, 17347, ['break s.c:21', 'continue', 'print total', 'bt 1'])
            check('gdb: a line and an object', '$1 = 7' in said and 'main () at s.c:21' in said, said)

# Programs for `info locals`: for each its files, where it is stopped, what is asked there, and the answer, by hand from the program.
LOCALS = [
    ({'s.c': """static unsigned table[2][3] = { { 1, 2, 3 }, { 4, 5, 6 } };
static int sum(const int row[], unsigned char n, int m[][3]) {
    int total = 0;
    for (int i = 0; i < n; i++) {
        int square = row[i] * row[i];
        total += square;
    }
    return total + m[1][2];
}
int main(void) {
    int m[2][3] = { { 1, -2, 3 }, { 4, 5, 60 } };
    char c = 'x';
    signed char s = -3;
    short h = -300;
    _Bool b = 1;
    const unsigned big = 4000000000u;
    unsigned long wide = 7;
    int total = sum(m[1], 2, m);
    {
        int total = 7;
        c += total;
    }
    {
        char c = 'y';
        s = c - 'a';
    }
    table[1][2] = total + c + s + h + b;
    return (table[1][2] + big + wide) & 255;
}
"""}, [
        ('s.c:6', 'info locals', ['square = 16', 'i = 0', 'total = 0']),
        ('s.c:6', 'info args', ['row = 0x*', "n = 2 '\\002'", 'm = 0x*']),
        ('s.c:6', 'print *row@2', ['$1 = {4, 5}']),
        ('s.c:6', 'print m[1]', ['$1 = {4, 5, 60}']),
        ('s.c:6', 'ptype m', ['type = int (*)[3]']),
        ('s.c:6', 'ptype row', ['type = const int *']),
        ('s.c:6', 'ptype sum', ['type = int (const int *, unsigned char, int (*)[3])']),
        ('s.c:8', 'info locals', ['total = 41']),
        ('s.c:21', 'info locals', ['total = 7', 'm = {{1, -2, 3}, {4, 5, 60}}', "c = 120 'x'", "s = -3 '\\375'", 'h = -300', 'b = true', 'big = 4000000000', 'wide = 7', 'total = 101']),
        ('s.c:25', 'print c', ["$1 = 121 'y'"]),
        ('s.c:27', 'print c', ["$1 = 127 '\\177'"]),
        ('s.c:28', 'print table', ['$1 = {{1, 2, 3}, {4, 5, 4294967249}}']),
        ('s.c:28', 'ptype table', ['type = unsigned int [2][3]']),
        ('s.c:28', 'whatis big', ['type = const unsigned int']),
    ]),
    # more parameters than registers for them, and more variables than registers that calls keep
    ({'s.c': """int deep(int a, int b, int c, int d, int e, int f, int g, int h, int i, short j[2]) {
    int v0 = a + 1, v1 = b + 1, v2 = c + 1, v3 = d + 1, v4 = e + 1, v5 = f + 1, v6 = g + 1, v7 = h + 1, v8 = i + 1, v9 = j[1];
    for (int turn = 0; turn < 2; turn++)
        v0 += v1 + v2 + v3 + v4 + v5 + v6 + v7 + v8 + v9 + a + b + c + d + e + f + g + h + i;
    return v0;
}
int main(void) {
    short pair[2] = { 10, -20 };
    return deep(1, 2, 3, 4, 5, 6, 7, 8, 9, pair) & 255;
}
"""}, [
        ('s.c:3', 'info args', ['a = 1', 'b = 2', 'c = 3', 'd = 4', 'e = 5', 'f = 6', 'g = 7', 'h = 8', 'i = 9', 'j = 0x*']),
        ('s.c:5', 'info locals', ['v0 = 156', 'v1 = 3', 'v2 = 4', 'v3 = 5', 'v4 = 6', 'v5 = 7', 'v6 = 8', 'v7 = 9', 'v8 = 10', 'v9 = -20']),
        ('s.c:5', 'print j[0]', ['$1 = 10']),
        ('s.c:9', 'info locals', ['pair = {10, -20}']),
    ]),
    # a program of several files, with names by macros and an object of a block with static storage
    ({'s.c': """#include "count.h"
#define VALUE value
int main(void) {
    int VALUE = 5;
    while (VALUE > 3)
        VALUE -= counted(1);
    switch (VALUE) {
        int inside;
    case 3:
        inside = VALUE * 2;
        return inside;
    }
    return 0;
}
""", 'count.h': """static int counted(int by)
{
    static int calls = 40;
    calls += by;
    return calls - 40 > 0;
}
"""}, [
        ('count.h:4', 'print calls', ['$1 = 40']),
        ('count.h:5', 'print calls', ['$1 = 41']),
        ('count.h:5', 'info args', ['by = 1']),
        ('s.c:7', 'info locals', ['value = 3']),
        ('s.c:11', 'info locals', ['inside = 6', 'value = 3']),
    ]),
]

def variables():
    """The parameters and the variables of functions, by gdb at a statement, against what the program gives them."""
    if not (there('gdb-multiarch') and there('qemu-riscv32')):
        return
    for number, (files, asked) in enumerate(LOCALS):
        with tempfile.TemporaryDirectory() as work:
            for name, text in files.items():
                put(work, name, text)
            cc(work, 'build', *files, '-o', 's')
            cc(work, 'symbols', *files, '-o', 's.sym.elf')
            for step, (place, words, wanted) in enumerate(asked):
                said = told(work, 17348 + step, ['break ' + place, 'continue', 'echo >>>\\n', words, 'echo <<<\\n'])
                lines = said.partition('>>>\n')[2].partition('<<<')[0].splitlines()
                holds = len(lines) == len(wanted) and all(line.startswith(row[:-1]) if row.endswith('*') else line == row for line, row in zip(lines, wanted))
                check('gdb: variables %d, %s at %s' % (number, words, place), holds, said)

def told(work, port, words):
    """What gdb tells of the program under qemu."""
    server = subprocess.Popen(['qemu-riscv32', '-g', str(port), './s'], cwd=work, stdout=subprocess.DEVNULL, stderr=subprocess.DEVNULL)
    try:
        asked = ['set trust-readonly-sections on', 'file s.sym.elf', 'target remote :%d' % port, *words, 'kill']
        return subprocess.run(['gdb-multiarch', '-batch', *[word for line in asked for word in ('-ex', line)]],
                              cwd=work, stdin=subprocess.DEVNULL, stdout=subprocess.PIPE, stderr=subprocess.STDOUT, timeout=60).stdout.decode()
    finally:
        server.kill()
        server.wait()

def stepped(work, count):
    """The lines that a debugger comes to by `step` from the begin of main on."""
    said = told(work, 17346, ['break main', 'continue'] + ['step'] * count)
    return [int(row) for row in re.findall(r'^(\d+)\t', said, re.M)] or said

def sizes():
    """`size` and `frames --sizes`, held against the program headers and the listing."""
    with tempfile.TemporaryDirectory() as work:
        put(work, 'a.c', CHAIN + 'int many[1000];\n')
        cc(work, 'build', 'a.c', '-o', 'a', '--stack', '8192')
        file = open(os.path.join(work, 'a'), 'rb').read()
        loads = [struct.unpack_from('<8I', file, 52 + 32 * k) for k in range(struct.unpack_from('<H', file, 44)[0])]
        text = sum(h[5] for h in loads if h[6] & 1)
        data = sum(h[4] for h in loads if not h[6] & 1)
        stack = sum(h[5] for h in loads if not h[4])
        zeros = sum(h[5] - h[4] for h in loads if h[4] and not h[6] & 1)
        status, out, err = cc(work, 'size', 'a')
        lines = out.decode().splitlines()
        check('size', (status, err, [line.split() for line in lines]) == (0, '', ['text data bss stack filename'.split(), [str(text), str(data), str(zeros), str(stack), 'a']]) and stack == 8192, out)
        check('size of no executable file', cc(work, 'size', 'a.c') == (1, b'', 'a.c:0: 902 not ELF32 little endian\n'))
        status, out, err = cc(work, 'frames', 'a.c', '--sizes', '--stack', '8K')
        plain = cc(work, 'frames', 'a.c')[1].decode().splitlines()
        said = out.decode().splitlines()
        starts = ['%08X' % start for start, _, _ in functions(listing(work, 'a.c'))]
        check('frames --sizes: addresses', status == 0 and [line.split()[1] for line in said[1:4]] == starts, out)
        check('frames --sizes: the table', [re.sub(r'^(\w+) +[0-9A-F]{8}|^(function) +address', lambda r: (r[1] or r[2]).ljust(8), line) for line in said[:-1]] == plain, said)
        check('frames --sizes: in all', said[-1] == 'in all: %d bytes of code, %d of data, %d of zeros, %d of stack' % (text, data, zeros, stack), said[-1])

def symbols():
    with tempfile.TemporaryDirectory() as work:
        put(work, 'a.c', FACT)
        cc(work, 'build', 'a.c', '-o', 'a')
        status, out, err = cc(work, 'symbols', 'a.c', '-o', 'a.sym.elf')
        check('symbols', (status, out, err) == (0, b'', ''))
        wanted = {name: (start, end - start) for (start, end, _), name in zip(functions(listing(work, 'a.c')), ['fact', 'twice', 'main'])}
        wanted['_start'] = (0x11000, min(start for start, _ in wanted.values()) - 0x11000)
        check('symbols: by hand', read_symbols(open(os.path.join(work, 'a.sym.elf'), 'rb').read()) == wanted)
        for tool in ('riscv64-unknown-elf-readelf', 'readelf'):
            if shutil.which(tool):
                said = subprocess.run([tool, '-sW', 'a.sym.elf'], cwd=work, stdout=subprocess.PIPE, stderr=subprocess.STDOUT).stdout.decode()
                rows = {r[3]: (int(r[1], 16), int(r[2])) for r in re.finditer(r'^ *\d+: ([0-9a-f]{8}) +(\d+) FUNC +GLOBAL DEFAULT +\d+ (\w+)$', said, re.M) for r in [(None, r[1], r[2], r[3])]}
                check(tool, rows == wanted and 'arning' not in said and 'rror' not in said, said)
                break
        if there('riscv64-unknown-elf-objdump'):
            said = subprocess.run(['riscv64-unknown-elf-objdump', '-d', '--disassemble=twice', 'a.sym.elf'], cwd=work, stdout=subprocess.PIPE, stderr=subprocess.STDOUT).stdout.decode()
            check('objdump', '<twice>:' in said and 'ret' in said and '<main>:' not in said, said)
        # each function's first address has the line of its definition
        lines = {start: ('a.c', {'fact': 1, 'twice': 2, 'main': 3}[name]) for name, (start, _) in wanted.items() if name != '_start'}
        has_readelf = there('readelf')
        if has_readelf:
            found = read_lines(work, 'a.sym.elf')
            check('lines: by readelf', lines.items() <= found.items(), found)
            check('lines: within functions', all(line == ('a.c', {'fact': 1, 'twice': 2, 'main': 3}[name]) for name, (start, size) in wanted.items() for at, line in found.items() if name != '_start' and start <= at < start + size), found)
        if there('riscv64-unknown-elf-objdump'):
            said = subprocess.run(['riscv64-unknown-elf-objdump', '-dl', '--disassemble=twice', 'a.sym.elf'], cwd=work, stdout=subprocess.PIPE, stderr=subprocess.STDOUT).stdout.decode()
            check('lines: by objdump', 'a.c:2' in said and 'a.c:1' not in said and 'a.c:3' not in said, said)
        if there('gdb-multiarch') and there('qemu-riscv32'):
            check('gdb', debugged(work))
        if there('gdb-multiarch'):
            said = subprocess.run(['gdb-multiarch', '-batch', '-ex', 'info line twice', '-ex', 'list main', 'a.sym.elf'], cwd=work, stdin=subprocess.DEVNULL, stdout=subprocess.PIPE, stderr=subprocess.STDOUT, timeout=60).stdout.decode()
            check('lines: by gdb', 'Line 2 of "a.c" starts at address %#x <twice>' % wanted['twice'][0] in said and 'int main(void) { return twice(fact(5)) & 255; }' in said, said)
        put(work, 'far.h', 'int far(int x)\n{\n    return x + 1;\n}\n')
        put(work, 'b.c', '#include "far.h"\n\nint main(void)\n{\n    return far(1);\n}\n#line 1000000 "made.y"\nint last(void) { return 3; }\n')
        check('symbols of several files', cc(work, 'symbols', 'b.c', 'far.h', '-o', 'b.sym.elf')[0] == 0)
        if has_readelf:
            check('lines of several files', sorted(read_lines(work, 'b.sym.elf').values()) == [('b.c', 3), ('b.c', 5), ('far.h', 1), ('far.h', 3), ('made.y', 1000000), ('made.y', 1000000)], read_lines(work, 'b.sym.elf'))
        check('OUT is a source', cc(work, 'symbols', 'a.c', '-o', 'a.c')[0] == 2 and open(os.path.join(work, 'a.c')).read() == FACT)
        put(work, 'bad.c', 'int main(void) { return x; }\n')
        check('symbols of no program', cc(work, 'symbols', 'bad.c', '-o', 'none')[0] == 1 and not os.path.exists(os.path.join(work, 'none')))

def read_lines(work, name):
    """The file and the line of each address of a table of lines, by readelf."""
    said = subprocess.run(['readelf', '--debug-dump=decodedline', name], cwd=work, stdout=subprocess.PIPE, stderr=subprocess.STDOUT).stdout.decode()
    rows = re.findall(r'^(\S+) +(\d+) +(0x[0-9a-f]+) +\d* *x', said, re.M)
    return {int(address, 16): (file, int(line)) for file, line, address in rows}

def read_symbols(file, kind=2):
    """The symbols of a kind (2: functions, 1: objects) of an ELF32 file by its section headers."""
    at, size, count, names = struct.unpack_from('<I10xHHH', file, 32)
    headers = [struct.unpack_from('<10I', file, at + size * k) for k in range(count)]
    found = {}
    for header in headers:
        if header[1] == 2:
            texts = headers[header[6]]
            for place in range(header[4], header[4] + header[5], 16):
                name, value, bytes_, info, _, section = struct.unpack_from('<IIIBBH', file, place)
                if info & 15 == kind:
                    start = texts[4] + name
                    found[file[start:file.index(b'\0', start)].decode()] = (value, bytes_)
    return found

def debugged(work):
    """Stops in `twice` by its name, in the program under qemu."""
    server = subprocess.Popen(['qemu-riscv32', '-g', '17345', './a'], cwd=work, stdout=subprocess.DEVNULL, stderr=subprocess.DEVNULL)
    try:
        said = subprocess.run(['gdb-multiarch', '-batch', '-ex', 'set architecture riscv:rv32', '-ex', 'symbol-file a.sym.elf', '-ex', 'target remote :17345', '-ex', 'break twice', '-ex', 'continue', '-ex', 'bt 1', '-ex', 'kill'],
                              cwd=work, stdin=subprocess.DEVNULL, stdout=subprocess.PIPE, stderr=subprocess.STDOUT, timeout=60).stdout.decode()
        return re.search(r'Breakpoint 1, (0x[0-9a-f]+ in )?twice \(x=120\) at a\.c:2', said) is not None
    finally:
        server.kill()
        server.wait()

def image():
    with tempfile.TemporaryDirectory() as work:
        put(work, 'a.c', CHAIN)
        cc(work, 'build', 'a.c', '-o', 'a')
        file = open(os.path.join(work, 'a'), 'rb').read()
        loads = [struct.unpack_from('<8I', file, 52 + 32 * k) for k in range(struct.unpack_from('<H', file, 44)[0])]
        pieces = sorted((h[2], file[h[1]:h[1] + h[4]]) for h in loads if h[4])
        memory = {a + k: b for a, bytes_ in pieces for k, b in enumerate(bytes_)}
        low, high = min(memory), max(memory)
        whole = bytes(memory.get(a, 0) for a in range(low, high + 1))
        check('bin', cc(work, 'image', 'a', '--bin') == (0, whole, ''))
        status, out, err = cc(work, 'image', 'a', '--ihex')
        check('ihex', status == 0 and read_hex(out.decode()) == (memory, 0x11000))
        status, out, err = cc(work, 'image', 'a', '--memh')
        check('memh', status == 0 and read_memory(out.decode()) == memory)
        if there('riscv64-unknown-elf-objcopy'):
            with open(os.path.join(work, 'a.hex'), 'wb') as file:
                file.write(cc(work, 'image', 'a', '--ihex')[1])
            subprocess.run(['riscv64-unknown-elf-objcopy', '-I', 'ihex', '-O', 'binary', 'a.hex', 'a.bin'], cwd=work, check=True)
            check('ihex by objcopy', open(os.path.join(work, 'a.bin'), 'rb').read() == whole)
        for words in (['image', 'a'], ['image', 'a', '--bin', '--ihex'], ['image', '--bin']):
            check(' '.join(words), cc(work, *words)[0:2] == (2, b''))
        check('no executable file', cc(work, 'image', 'a.c', '--bin') == (1, b'', 'a.c:0: 902 not ELF32 little endian\n'))
        check('no file', cc(work, 'image', 'none', '--bin') == (1, b'', 'none:0: 802 cannot read\n'))

def read_hex(text):
    memory, upper, entry, ended = {}, 0, None, False
    for line in text.splitlines():
        record = bytes.fromhex(line[1:])
        assert line[0] == ':' and sum(record) % 256 == 0 and record[0] == len(record) - 5 and not ended
        place, kind, data = record[1] * 256 + record[2], record[3], record[4:-1]
        if kind == 0:
            for k, byte in enumerate(data):
                memory[upper * 65536 + place + k] = byte
        elif kind == 4:
            upper = int.from_bytes(data, 'big')
        elif kind == 5:
            entry = int.from_bytes(data, 'big')
        else:
            ended = kind == 1
    return (memory, entry) if ended else None

def read_memory(text):
    memory, at = {}, 0
    for word in text.split():
        if word[0] == '@':
            at = int(word[1:], 16)
        else:
            memory[at] = int(word, 16)
            at += 1
    return memory

def traces():
    with tempfile.TemporaryDirectory() as work:
        put(work, 'a.c', CHAIN)
        cc(work, 'build', 'a.c', '-o', 'a')
        rows = {address: text for address, _, text in listing(work, 'a.c')}
        plain = cc(work, 'run', 'a')
        status, out, err = cc(work, 'run', 'a', '--trace')
        lines = err.splitlines()
        check('trace', (status, out) == plain[:2] and all(rows[int(l[:8], 16)] == l[19:44].strip() for l in lines), err[:400])
        check('trace: registers', follows(lines), err[:400])
        status, out, _ = cc(work, 'run', 'a', '--trace-file', 'log')
        check('trace file', (status, out) == plain[:2] and open(os.path.join(work, 'log')).read() == err)
        status, out, err = cc(work, 'run', 'a', '--at', '0')
        check('at 0', status == 0 and out == b'' and err.startswith('pc 00011000\nx0  00000000  x1  00000000  '), err)
        status, out, err = cc(work, 'run', 'a', '--at', '2', '--map', 'a.c')
        check('at 2', status == 0 and err.startswith('pc 00011008 ?\n') and 'x2  80000000' in err, err)
        status, out, err = cc(work, 'run', 'a', '--trace', '--map', 'a.c')
        check('map', [l for l in err.splitlines() if l.endswith('+0:')] [:2] == ['main+0:', 'middle+0:'], err[:300])
        put(work, 'b.c', FACT)
        check('another file', cc(work, 'run', 'a', '--map', 'b.c') == (2, b'', 'error: FILE is not what the sources of --map build\n'))
        put(work, 'trap.c', TRAP)
        cc(work, 'build', 'trap.c', '-o', 'trap')
        status, out, err = cc(work, 'run', 'trap', '--map', 'trap.c')
        check('trap', status == 125 and re.fullmatch(r'cc: trap LoadFault at 0x[0-9A-F]{8}\ncc: in far\+\d+\n', err) is not None, err)
        check('trap as before', cc(work, 'run', 'trap')[2] == err.splitlines()[0] + '\n')
        check('max', cc(work, 'run', 'a', '--max', '5', '--trace')[0] == 124)
        check('at beyond max', cc(work, 'run', 'a', '--at', '5', '--max', '3') == cc(work, 'run', 'a', '--at', '5'))
        for words in (['--at', 'x'], ['--at', '1', '--trace'], ['--map'], ['--trace', '--trace-file', 'log']):
            check('run ' + ' '.join(words), cc(work, 'run', 'a', *words)[0:2] == (2, b''))

# A program, and its trace by hand.
TRACED = '''#include <rvio.h>
int a[3];
int twice(int n) {
    return n + n;
}
int main(void) {
    int s = 0;
    for (int i = 0; i < 2; i++) {
        a[i] = twice(i);
        s += a[i];
    }
    rv_putbyte(104);
    if (s == 2)
        s--;
    else
        s = 9;
    unsigned u = 3000000000u;
    switch (s) {
    case 1:
        u++;
        break;
    default:
        return 7;
    }
    while ((s = s + 1) < 3)
        ;
    return s;
}
'''
TOLD = '''enter main
a.c:7: int s = 0;
    s = 0
a.c:8: for (int i = 0; i < 2; i++) {
    i = 0
a.c:9: a[i] = twice(i);
enter twice
    n = 0
a.c:4: return n + n;
leave twice: 0
    a[0] = 0
a.c:10: s += a[i];
    s = 0
a.c:8: for (int i = 0; i < 2; i++) {
    i = 1
a.c:9: a[i] = twice(i);
enter twice
    n = 1
a.c:4: return n + n;
leave twice: 2
    a[1] = 2
a.c:10: s += a[i];
    s = 2
a.c:8: for (int i = 0; i < 2; i++) {
    i = 2
a.c:12: rv_putbyte(104);
a.c:13: if (s == 2)
a.c:14: s--;
    s = 1
a.c:17: unsigned u = 3000000000u;
    u = 3000000000
a.c:18: switch (s) {
a.c:20: u++;
    u = 3000000001
a.c:21: break;
a.c:25: while ((s = s + 1) < 3)
    s = 2
a.c:25: while ((s = s + 1) < 3)
    s = 3
a.c:27: return s;
leave main: 3
'''

def statements():
    """`cc interp` with a trace."""
    with tempfile.TemporaryDirectory() as work:
        put(work, 'a.c', TRACED)
        check('statements', cc(work, 'interp', 'a.c', '--trace') == (3, b'h', TOLD), cc(work, 'interp', 'a.c', '--trace'))
        status, out, err = cc(work, 'interp', 'a.c', '--trace-file', 'log')
        check('statements to a file', (status, out, err) == (3, b'h', '') and open(os.path.join(work, 'log')).read() == TOLD and not os.access(os.path.join(work, 'log'), os.X_OK))
        put(work, 'echo.c', '#include <rvio.h>\nint main(void) {\n    int c;\n    while ((c = rv_getbyte()) >= 0)\n        rv_putbyte(c);\n    return 1 / (c + 1);\n}\n')
        status, out, err = cc(work, 'interp', 'echo.c', '--trace', text=b'hi')
        check('statements to an undefined act', status == 123 and out == b'hi' and err.endswith('echo.c:6: return 1 / (c + 1);\necho.c:6: undefined U2\n') and err.count('    c = ') == 3, err)
        put(work, 'b.c', '#include "util.h"\nint main(void) { return twice(21); }\n')
        put(work, 'util.h', 'int twice(int x) {\n    return x + x;\n}\n')
        status, out, err = cc(work, 'interp', 'b.c', 'util.h', '--trace')
        check('statements of two files', status == 42 and 'util.h:2: return x + x;\nleave twice: 42\n' in err, err)
        check('statements: budget', cc(work, 'interp', 'a.c', '--trace', '--max', '20')[0] == 124)
        put(work, 'braces.c', '#define BEGIN {\n#define END }\nint main(void) BEGIN return 3; END\n')
        said = (3, b'', 'enter main\nbraces.c:3: int main(void) BEGIN return 3; END\nleave main: 3\n')
        check('statements: braces of macros', cc(work, 'interp', 'braces.c', '--trace') == said, cc(work, 'interp', 'braces.c', '--trace'))
        put(work, 'bad.c', 'int main(void) { return x; }\n')
        check('statements of no program', cc(work, 'interp', 'bad.c', '--trace') == (1, b'', 'bad.c:1: 528 undeclared name\n'))
        check('statements: OUT is a source', cc(work, 'interp', 'a.c', '--trace-file', 'a.c')[:2] == (2, b'') and open(os.path.join(work, 'a.c')).read() == TRACED)
        check('statements: OUT cannot be made', cc(work, 'interp', 'a.c', '--trace-file', 'no/log')[0] == 1)
        # every example ends as it does without a trace
        for name in sorted(os.listdir(os.path.join(ROOT, 'examples'))):
            if name.endswith('.c'):
                same(os.path.join(ROOT, 'examples'), name, b'12 7 hello\n', work, '200000')
        # ticks are those of the plain run, and memory does not grow with them
        put(work, 'long.c', 'int f(int n) { return n + 1; }\nint main(void) { unsigned n = 0; for (;;) n = f(n & 7); }\n')
        asked = subprocess.Popen([CC, 'interp', 'long.c', '--trace-file', '/dev/null', '--max', '10000000'], cwd=work, stderr=subprocess.PIPE)
        said = asked.stderr.read()
        asked.stderr.close()
        status, usage = os.wait4(asked.pid, 0)[1:]
        asked.returncode = os.waitstatus_to_exitcode(status)
        check('statements: 10^7 ticks', (asked.returncode, said) == (124, b'cc: budget used\n') and usage.ru_maxrss < 100000, asked.returncode, said, usage.ru_maxrss)

def same(folder, name, text, work, most):
    """A program ends with a trace as it does without; answers the exit status."""
    plain = cc(folder, 'interp', name, '--max', most, text=text)
    traced = cc(folder, 'interp', name, '--max', most, '--trace-file', os.path.join(work, 'log'), text=text)
    check('as without a trace: ' + name, traced == plain, plain, traced)
    return plain[0]

def by_hand():
    """The programs of trace/, whose traces are by hand."""
    folder = os.path.join(os.path.dirname(os.path.abspath(__file__)), 'trace')
    names = sorted(name[:-2] for name in os.listdir(folder) if name.endswith('.c'))
    check('by hand: programs', len(names) == 13, names)
    for name in names:
        lines = open(os.path.join(folder, name + '.c')).read().split('\n')
        told = open(os.path.join(folder, name + '.told')).read().splitlines()
        shown = ['%s.c:%s: %s' % (name, line, lines[int(line) - 1].strip()) if line.isdigit() else line for line in told[:-1]]
        wanted = (int(told[-1].split()[1]), b'', '\n'.join(shown) + '\n')
        check('by hand: ' + name, cc(folder, 'interp', name + '.c', '--trace') == wanted, cc(folder, 'interp', name + '.c', '--trace'))

def everywhere():
    """Each source of these tests, accepted or refused, does with a trace what it does without."""
    accepted = 0
    with tempfile.TemporaryDirectory() as work:
        for folder, _, names in sorted(os.walk(os.path.join(ROOT, 'tests', 'outside'))):
            for name in sorted(names):
                if name.endswith('.c'):
                    accepted += same(folder, name, b'12 7 hello\n', work, '20000') != 1
        for line in open(os.path.join(ROOT, 'tests', 'outside', 'constraints', 'accepted.txt')):
            if line.split():
                accepted += same(os.path.join(ROOT, 'tests', 'outside', 'constraints', 'accepted'), line.split()[0] + '.c', b'a b 12\n', work, '300000') != 1
    check('everywhere: programs that are traced', accepted > 500, accepted)

def objects_of_json():
    """A trace as JSON: each line is an object, and they tell what the text tells, and the bytes."""
    with tempfile.TemporaryDirectory() as work:
        put(work, 'a.c', TRACED)
        status, out, err = cc(work, 'interp', 'a.c', '--trace', '--json')
        events = [json.loads(line) for line in err.splitlines()]
        check('json: ends as without', (status, out) == (3, b'h'), status, out)
        check('json: bytes', [one for one in events if one['event'] in ('put', 'get')] == [dict(event='put', byte=104)], events)
        check('json: begins', events[:5] == [dict(event='enter', function='main'), dict(event='statement', file='a.c', line=7), dict(event='set', name='s', path=[], value=0),
                                             dict(event='statement', file='a.c', line=8), dict(event='set', name='i', path=[], value=0)], events[:5])
        check('json: an element', dict(event='set', name='a', path=[1], value=2) in events and events[-1] == dict(event='leave', function='main', value=3), events)
        lines = TRACED.splitlines()
        text = {'enter': lambda e: 'enter ' + e['function'], 'leave': lambda e: 'leave %s: %d' % (e['function'], e['value']),
                'statement': lambda e: '%s:%d: %s' % (e['file'], e['line'], lines[e['line'] - 1].strip()),
                'set': lambda e: '    %s%s = %d' % (e['name'], ''.join('[%d]' % k for k in e['path']), e['value'])}
        check('json: as the text', ''.join(text[e['event']](e) + '\n' for e in events if e['event'] in text) == TOLD, err)
        put(work, 'echo.c', '#include <rvio.h>\nvoid f(void) { rv_getbyte(); }\nint main(void) { f(); f(); return 0; }\n')
        events = [json.loads(line) for line in cc(work, 'interp', 'echo.c', '--trace', '--json', text=b'h')[2].splitlines()]
        check('json: got', [one['byte'] for one in events if one['event'] == 'get'] == [104, None] and dict(event='leave', function='f', value=None) in events, events)
        status, out, err = cc(work, 'interp', 'a.c', '--trace-file', 'log', '--json')
        check('json: to a file', (status, err) == (3, '') and all(json.loads(line) for line in open(os.path.join(work, 'log'))), err)
        check('json: of no trace', cc(work, 'interp', 'a.c', '--json')[:2] == (2, b''))

def follows(lines):
    """Whether the registers that a trace tells are those that its additions of constants give."""
    registers, sure = [0] * 32, 0
    for line in lines:
        text, told = line[19:44].strip(), dict(re.findall(r' x(\d+)=([0-9A-F]{8})', line[44:]))
        one = re.fullmatch(r'addi x(\d+),x(\d+),(-?\d+)', text)
        if one and one[1] != '0':
            sure += 1
            if int(told.get(one[1], '%X' % registers[int(one[1])]), 16) != (registers[int(one[2])] + int(one[3])) % 2 ** 32:
                return False
        for number, value in told.items():
            registers[int(number)] = int(value, 16)
    return sure > 10

def refused():
    """Bad words and files for each of these commands: a line, status 2 or 1, and nothing is written."""
    with tempfile.TemporaryDirectory() as work:
        put(work, 'a.c', FACT)
        cc(work, 'build', 'a.c', '-o', 'a')
        before = sorted(os.listdir(work))
        usage = (['frames', 'a.c', '--stack', '5000'], ['frames', 'a.c', '--stack', '0'], ['symbols', 'a.c'], ['symbols', '-o', 'x'], ['symbols', 'a.c', '-o', 'x', '--stack', '5000'],
                 ['image'], ['image', 'a', '--hex'], ['image', 'a', 'b', '--bin'], ['interp', 'a.c', '--trace-file'], ['interp', 'a.c', '--trace', '--stack', '5000'], ['interp', '--trace'],
                 ['run', 'a', '--map', 'a.c', '--stack', '5000'], ['run', 'a', '--trace-file'], ['run', 'a', '--at', '-1'], ['interp', 'a.c', '--json'], ['frames', 'a.c', '--json'], ['explained', 'a.c'])
        faults = (['frames', 'none.c'], ['frames', 'a'], ['symbols', 'none.c', '-o', 'x'], ['symbols', 'a.c', '-o', 'none/x'], ['image', 'none', '--bin'], ['image', 'a.c', '--memh'], ['interp', 'none.c', '--trace'],
                  ['interp', 'none.c', '--trace-file', 'x'], ['run', 'none', '--trace'], ['run', 'a', '--map', 'none.c'], ['run', 'a', '--trace-file', 'none/x'])
        for status, rows in ((2, usage), (1, faults)):
            for words in rows:
                done = cc(work, *words)
                lines = done[2].splitlines()
                check('refused: ' + ' '.join(words), done[:2] == (status, b'') and lines and (lines[0].startswith('error: ') if status == 2 else len(lines) == 1) and sorted(os.listdir(work)) == before, done)
        # explain says in a second line why
        done = cc(work, 'explain', 'build', 'none.c')
        check('refused: explain build none.c', done == (1, b'', 'none.c:0: 802 cannot read\n  help: there is no such file\n') and sorted(os.listdir(work)) == before, done)

def kept():
    """No file that is read is written over, by whatever path."""
    with tempfile.TemporaryDirectory() as work:
        put(work, 'a.c', FACT)
        put(work, 'b.h', '')
        cc(work, 'build', 'a.c', '-o', 'a')
        os.symlink('a.c', os.path.join(work, 'soft.c'))
        os.link(os.path.join(work, 'b.h'), os.path.join(work, 'hard.h'))
        os.symlink('a', os.path.join(work, 'soft'))
        whole = {name: open(os.path.join(work, name), 'rb').read() for name in sorted(os.listdir(work))}
        paths = ('a.c', './a.c', os.path.join(work, 'a.c'), 'soft.c', 'b.h', './b.h', 'hard.h')
        rows = [[*words, path] for path in paths for words in (['build', 'a.c', 'b.h', '-o'], ['symbols', 'a.c', 'b.h', '-o'], ['interp', 'a.c', 'b.h', '--trace-file'])]
        rows += [['run', 'a', '--trace-file', path] for path in ('a', './a', 'soft')] + [['run', 'a', '--map', 'a.c', '--trace-file', './a.c']]
        for words in rows:
            done = cc(work, *words)
            check('kept: ' + ' '.join(words), done == (2, b'', 'error: OUT is one of the files that are read\n'), done)
            check('kept', {name: open(os.path.join(work, name), 'rb').read() for name in sorted(os.listdir(work))} == whole)
        check('kept: another file', cc(work, 'build', 'a.c', 'b.h', '-o', 'c')[0] == 0 and cc(work, 'build', 'a.c', 'b.h', '-o', 'c')[0] == 0)
        for words in (['run', 'a', '--trace-file', 'no/log'], ['interp', 'a.c', '--trace-file', 'no/log']):
            check(' '.join(words), cc(work, *words)[2] == 'no/log:0: 803 cannot write\n', cc(work, *words))

def terminals():
    """What is told on a pseudo terminal while a run goes on, and nowhere else. `interp` tells nothing within a loop that calls nothing."""
    with tempfile.TemporaryDirectory() as work:
        put(work, 'a.c', 'int f(int n) { return n & 1; }\nint main(void) { while (1) f(1); }\n')
        cc(work, 'build', 'a.c', '-o', 'a')
        for words in (['run', 'a', '--max', '9000000000000'], ['interp', 'a.c', '--max', '9000000000000']):
            piped = subprocess.Popen([CC, *words], cwd=work, stdin=subprocess.DEVNULL, stdout=subprocess.DEVNULL, stderr=subprocess.PIPE)
            ours, theirs = pty.openpty()
            shown = subprocess.Popen([CC, *words], cwd=work, stdin=subprocess.DEVNULL, stdout=subprocess.DEVNULL, stderr=theirs)
            os.close(theirs)
            said, start = b'', time.time()
            while b's' not in said.split(b'cc: running, ')[-1] and time.time() - start < 60:
                if select.select([ours], [], [], 1)[0]:
                    said += os.read(ours, 4096)
            took = time.time() - start
            for one in (piped, shown):
                one.kill()
                one.wait()
            os.close(ours)
            check('a line on a terminal: ' + words[0], re.match(rb'\rcc: running, \d+ s', said) is not None and took > 1.5, said, took)
            check('none on a pipe: ' + words[0], piped.stderr.read() == b'')
            piped.stderr.close()

def there(tool):
    """Whether a tool is there; what is left out is reported."""
    return bool(checks.tool(tool))

def on_terminal(shell, setup, keys, wanted):
    """What a shell on a pseudo terminal shows once these keys are typed."""
    child, ours = pty.fork()
    if child == 0:
        os.chdir(ROOT)
        os.environ['TERM'] = 'dumb'
        os.execvp(shell[0], shell)
    said = b''

    def read(until):
        nonlocal said
        end = time.time() + 20
        while until not in said and time.time() < end:
            if select.select([ours], [], [], 0.2)[0]:
                try:
                    said += os.read(ours, 4096)
                except OSError:
                    return

    os.write(ours, setup.encode() + b"\necho rea''dy\n")
    read(b'ready\r\n')
    said = b''
    os.write(ours, keys.encode())
    read(wanted.encode())
    os.close(ours)
    os.kill(child, 9)
    os.waitpid(child, 0)
    return said

def surroundings():
    status, out, err = cc(ROOT, '--version')
    check('version', status == 0 and re.fullmatch(rb'zkc \d+\.\d+, proved with the logic [0-9a-f]{16}\n', out) is not None, out)
    wanted = (('exp', 'zkc explain '), ('explain int', 'zkc explain interp '), ('image a --me', 'zkc image a --memh '), ('explain build --color al', 'zkc explain build --color always '))
    shells = (('bash', ['bash', '--norc', '-i'], 'source share/zkc.bash'), ('zsh', ['zsh', '-f', '-i'], 'fpath=(share $fpath); autoload -Uz compinit; compinit -u -D'))
    for name, words, setup in shells:
        for typed, line in wanted if there(name) else ():
            said = on_terminal(words, "PS1='> '; " + setup, 'zkc %s\t' % typed, line)
            check('%s: %s' % (name, typed), line.encode() in said, said)
    if there('fish'):
        for typed, line in wanted:
            said = subprocess.run(['fish', '--no-config', '-c', "source share/zkc.fish; complete -C 'zkc %s'" % typed], cwd=ROOT, stdout=subprocess.PIPE).stdout.decode()
            check('fish: ' + typed, [row.split('\t')[0] for row in said.splitlines()] == [line.split()[-1]], said)
    if there('man'):
        done = subprocess.run(['man', '--warnings', '-l', 'share/zkc.1'], cwd=ROOT, stdout=subprocess.PIPE, stderr=subprocess.PIPE, env={**os.environ, 'MANWIDTH': '100'})
        said = re.sub('.\b', '', done.stdout.decode())
        check('man', done.returncode == 0 and done.stderr == b'' and all('zkc %s ' % name in said for name in ('build', 'explain', 'frames', 'symbols', 'image', 'size')), done.stderr, said[:300])
    with tempfile.TemporaryDirectory() as work:
        done = subprocess.run(['sh', os.path.join(ROOT, 'install.sh'), work], cwd=ROOT, stdout=subprocess.PIPE, stderr=subprocess.PIPE)
        check('install', done.returncode == 0 and all(os.path.exists(os.path.join(work, p)) for p in ('bin/zkc', 'share/man/man1/zkc.1', 'share/bash-completion/completions/zkc')), done.stdout, done.stderr)


def cases(_):
    return harness.parts(frames, labels, sizes, objects, lines, variables, symbols, image, traces, statements, by_hand, everywhere, objects_of_json, refused, kept, terminals, surroundings)


if __name__ == '__main__':
    sys.exit(harness.main(cases))

#!/usr/bin/env python3
"""What a built file does where its stack does not serve, and up to undefined behaviour: `beyond.py CC [COUNT]`. The last line counts what passed and failed.

Overflow: COUNT programs with recursion and arrays, by a seed, are built with stacks of 4096 to 16384 bytes. The interpreter, which has no stack to run out of, says what
the program does. The file either does just the same and ends with the same status, or it stops with StoreFault or LoadFault; what it has written is then a beginning of
what the interpreter has written, and the address of the fault lies below the stack and above the data.

Undefined behaviour: COUNT programs, by another seed, read and write bytes between operations of which some are undefined. What the interpreter has written before undefined
behaviour is a beginning of what the file writes within a bound of instructions.

Input: a program that reads no more bytes than it was given does the same whatever comes behind them.
"""
import os
import re
import sys

HERE = os.path.dirname(os.path.abspath(__file__))
sys.path.insert(0, os.path.dirname(os.path.dirname(HERE)))
import harness

HEADER = '#include <rvio.h>\n'
TICKS = 3000000


def recursive(rng):
    """A program that goes down some levels, with arrays in each, and writes on the way down and up. All of it is defined."""
    depth = rng.choice([3, 8, 20, 40, 60, 100, 160, 250, 400])
    size = rng.choice([1, 4, 16, 40, 100, 300])
    kind = rng.choice(['char', 'unsigned char', 'short', 'int', 'unsigned'])
    extra = rng.randrange(0, 12)
    names = ', '.join(f'int p{k}' for k in range(extra))
    passed = ', '.join(f'n + {k}' for k in range(extra))
    fold = ' + '.join(['(int)a[n % SIZE]'] + [f'p{k}' for k in range(extra)])
    second = rng.random() < 0.4
    lines = [HEADER, f'#define SIZE {size}\n', 'static unsigned char kept[64] = { 1, 2, 3 };\n']
    lines.append(f'int g(int n{", " + names if extra else ""});\n' if second else '')
    lines.append(f'int f(int n{", " + names if extra else ""})\n{{\n    {kind} a[SIZE] = {{ 0 }};\n')
    lines.append('    for (int i = 0; i < SIZE; i++)\n        a[i] = (i + n) % 100;\n')
    lines.append('    kept[n % 64] = (kept[n % 64] + n) % 251;\n')
    if rng.random() < 0.7:
        lines.append('    rv_putbyte(n % 256);\n')
    lines.append(f'    if (n == 0)\n        return ({fold}) % 1000;\n')
    called = 'g' if second else 'f'
    lines.append(f'    int r = {called}(n - 1{", " + passed if extra else ""});\n')
    if rng.random() < 0.7:
        lines.append('    rv_putbyte((r + kept[n % 64]) % 256);\n')
    lines.append(f'    return (r + ({fold})) % 1000;\n}}\n')
    if second:
        lines.append(f'int g(int n{", " + names if extra else ""})\n{{\n    char more[{rng.choice([1, 30, 200])}] = {{ 0 }};\n    more[0] = n % 50;\n')
        lines.append(f'    return (n == 0 ? 0 : f(n - 1{", " + passed if extra else ""})) + more[0];\n}}\n')
    first = ', '.join(str(rng.randrange(50)) for _ in range(extra))
    lines.append(f'int main(void)\n{{\n    int sum = f({depth}{", " + first if extra else ""});\n    for (int i = 0; i < 64; i++)\n        rv_putbyte(kept[i]);\n    return sum % 256;\n}}\n')
    return ''.join(lines)


def risky(rng):
    """A program of writes and reads between operations of which some are undefined for some inputs."""
    lines = [HEADER, 'static int t[8] = { 5, 0, 3, 1, 7, 2, 6, 4 };\nint none(int x) { rv_putbyte(x % 128); if (x > 40) return x; }\nint main(void)\n{\n    int x = rv_getbyte(), y = 0, z;\n']
    for _ in range(rng.randrange(4, 12)):
        lines.append('    ' + rng.choice([
            'rv_putbyte(x % 200 + 5);', 'y = y + rv_getbyte();', 'x = x * 65599 + y;', 'y = t[x & 7] - 3;', 'y = 100 / (y - 2) + x % 7;', 'x = x << (y & 15);',
            'z = y + 1;', 'rv_putbyte(t[y + 1] + 48);', 'x = none(y + 38) + 1;', 'x = -x; rv_putbyte(y % 100 + 1);', 'y = (rv_putbyte(66), x / 3) + t[(y * 2) & 15];',
            'x = x - 2147483647;', 'while (y > 3) { rv_putbyte(y % 256); y -= 3; }', 'y = z + y;', 't[x & 7] = y;', 'y = y >> (x & 63);']) + '\n')
    lines.append('    rv_putbyte(10);\n    return (x & 63) + (y & 1);\n}\n')
    return ''.join(lines)


class Beyond(harness.Verdict):
    def __init__(self, cc):
        super().__init__()
        self.cc = cc
        self.kinds = {}

    def told(self, kind):
        self.kinds[kind] = self.kinds.get(kind, 0) + 1

    def overflow(self, name, source, stack):
        self.cc.write('p.c', source)
        built = self.cc.run('build', 'p.c', '-o', 'p', '--stack', str(stack))
        if built[0] == 1 and b' 714 ' in built[2]:
            return self.told('714')
        self.expect(f'{name}: builds', built, (0, b'', b''))
        status, out, err = self.cc.run('interp', 'p.c', '--max', str(TICKS))
        if err:
            self.expect(f'{name}: the interpreter ends', err, b'')
            return None
        ran, wrote, said = self.cc.run('run', 'p', '--max', str(60 * TICKS + 66))
        if ran == 125 and said.startswith(b'cc: trap '):
            self.told('overflow')
            cause, address = re.fullmatch(rb'cc: trap (\w+) at 0x([0-9A-F]{8})\n', said).groups()
            self.expect(f'{name}: cause', cause in (b'StoreFault', b'LoadFault'), True)
            self.expect(f'{name}: the pc is in the text', 0x11000 <= int(address, 16) < 0x8000000, True)
            return self.expect(f'{name}: writes a beginning', out.startswith(wrote), True)
        self.told('the same')
        return self.expect(f'{name}: does the same', (ran, wrote, said), (status, out, b''))

    def undefined(self, name, source, given):
        self.cc.write('p.c', source)
        self.expect(f'{name}: builds', self.cc.run('build', 'p.c', '-o', 'p'), (0, b'', b''))
        status, out, err = self.cc.run('interp', 'p.c', '--max', str(TICKS), given=given)
        ran, wrote, said = self.cc.run('run', 'p', '--max', '1000000', given=given)
        if status == 123 and b'undefined U' in err:
            self.told('undefined')
            return self.expect(f'{name}: the file has written that much', wrote.startswith(out), True)
        self.told('defined')
        return self.expect(f'{name}: does the same', (ran, wrote, said), (status, out, b''))

    def input(self, name, source, rng):
        """A program that reads no more bytes than it was given does the same whatever comes later."""
        shared = bytes(rng.randrange(1, 120) for _ in range(source.count('rv_getbyte')))
        self.cc.write('p.c', source)
        if self.cc.run('build', 'p.c', '-o', 'p')[0] == 0:
            answers = {self.cc.run('run', 'p', '--max', '100000', given=shared + more) for more in (b'', b'a', b'zz9')}
            self.expect(f'{name}: reads no more than it needs', len(answers), 1)


def main():
    if len(sys.argv) not in (2, 3):
        sys.exit(__doc__)
    count = int(sys.argv[2]) if len(sys.argv) == 3 else 150
    beyond = Beyond(harness.Program(sys.argv[1]))
    rng = harness.seeded(20261127)
    for k in range(count):
        beyond.overflow(f'overflow {k}', recursive(rng), rng.choice([4096, 4096, 8192, 12288, 16384]))
    rng = harness.seeded(20261128)
    for k in range(count):
        source = risky(rng)
        beyond.undefined(f'undefined {k}', source, bytes(rng.randrange(256) for _ in range(rng.randrange(0, 8))))
        beyond.input(f'input {k}', source, rng)
    told = ', '.join(f'{n} {kind}' for kind, n in sorted(beyond.kinds.items()))
    print(f'{count} and {count} programs: {told}')
    for kind in ('overflow', 'the same', 'undefined', 'defined'):
        beyond.expect(f'some programs are of the kind "{kind}"', beyond.kinds.get(kind, 0) > 0, True)
    return beyond.end()


if __name__ == '__main__':
    sys.exit(main())

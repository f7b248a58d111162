#!/usr/bin/env python3
"""Machines that are kept: `machines.py CC [OUT]`. OUT is where `sh bindings/build.sh OUT` left the library, by default bindings/out. Programs run in
slices, with the input at once and byte by byte, go back to where they stood, and run many at once in 8 threads: status and output have to be
those of `CC run`, and registers those of `CC run --at`. The last line counts.
"""
import concurrent.futures
import json
import os
import re
import shutil
import subprocess
import sys
import tempfile
import threading

import check as library
import compiler
import sources
from check import Counted, raises

ROOT = os.path.abspath(sources.ROOT)
import zikorape  # noqa: E402

SLICES = (1, 7, 1000)
PROGRAMS = 200
LONGEST = 30_000        # instructions of a program that is run one by one

# Reads until the end of its input, and writes each byte twice: 0 as its status, or 3 where it was longer than 100 bytes.
ECHO = b"""#include <rvio.h>
int main(void) {
    int n = 0;
    for (int c = rv_getbyte(); c != -1; c = rv_getbyte()) { rv_putbyte(c); rv_putbyte(c); n = n + 1; }
    return n > 100 ? 3 : 0;
}
"""


def runs_of(cc):
    """(name, input, file, status, output) of each source whose program ends by itself."""
    given = list(sources.all_of_them())
    with concurrent.futures.ThreadPoolExecutor(os.cpu_count()) as pool:
        for (name, _, input), found in zip(given, pool.map(lambda one: cc.answers(one[1], one[2]), given)):
            run = found.get('run')
            if run and not run[2]:
                yield name, input, found['build'][1], run[0], run[1]


def ended(machine, slice, most=None):
    """What the machine answers at last where it runs in slices, and whether it goes on after each but the last."""
    for _ in range(most or 10 ** 9):
        answer = machine.run(slice)
        if answer != zikorape.GOES_ON:
            return answer
    return zikorape.GOES_ON


def seen(machine):
    return machine.steps, machine.pc, machine.registers, machine.detail


def in_slices(counted, zk, runs):
    tried = 0
    for name, input, file, status, output in runs:
        if tried == PROGRAMS:
            break
        with zk.machine(file) as whole:
            whole.input(input)
            whole.close_input()
            answer = whole.run(LONGEST)
            if answer == zikorape.GOES_ON:
                continue
            tried += 1
            wanted = (answer, *seen(whole), whole.output())
            counted.holds('%s in one' % name, (answer, whole.detail, wanted[-1]) == (zikorape.ENDED, status, output), wanted)
            counted.holds('%s has stopped' % name, (whole.run(5), *seen(whole), whole.output()) == (*wanted[:-1], b''))
        for slice in SLICES:
            with zk.machine(file) as machine:
                machine.input(input)
                machine.close_input()
                found = (ended(machine, slice), *seen(machine), machine.output())
                counted.holds('%s by %d' % (name, slice), found == wanted, (found, wanted))
    counted.holds('%d programs' % PROGRAMS, tried == PROGRAMS, tried)


def back_again(counted, zk, runs):
    """From a snapshot on a machine goes the same way twice, and another one with the same file goes it too."""
    for name, input, file, status, output in runs[:60]:
        with zk.machine(file) as machine, zk.machine(file) as other:
            half = len(input) // 2
            machine.input(input[:half])
            machine.run(37)
            first = machine.output()
            at, shown = machine.snapshot(), (seen(machine), machine.read(machine.registers[2], 64))
            found = []
            for which in (machine, machine, other):
                which.restore(at)
                counted.holds('%s stands there again' % name, (seen(which), which.read(which.registers[2], 64)) == shown, seen(which))
                which.input(input[half:])
                which.close_input()
                which.run()
                found.append((seen(which), which.output()))
            counted.holds('%s goes the same way' % name, found[0] == found[1] == found[2], found)
            counted.holds('%s ends as it does' % name, (found[0][0][3], first + found[0][1]) == (status, output), found[0])


def registers(counted, cc, zk, runs, work):
    """Pc and registers as `run --at N` shows them."""
    for number, (name, input, file, status, output) in enumerate(runs[:60]):
        with zk.machine(file) as machine:
            machine.input(input)
            machine.close_input()
            machine.run(LONGEST)
            at = 1 + 37 * number % max(machine.steps - 1, 1)
        path = os.path.join(work, 'at.out')
        with open(path, 'wb') as out:
            out.write(file)
        said = subprocess.run([cc.path, 'run', path, '--at', str(at)], input=input, capture_output=True, timeout=60).stderr.decode()
        words = re.findall(r'^pc ([0-9A-F]{8})$|x\d+ +([0-9A-F]{8})', said, re.M)
        with zk.machine(file) as machine:
            machine.input(input)
            machine.close_input()
            machine.run(at)
            counted.holds('%s at %d' % (name, at), [int(pc or register, 16) for pc, register in words] == [machine.pc, *machine.registers], said)


COUNTS = b'static unsigned s;\nvoid add(unsigned n)\n{\n    s += n;\n}\nint main(void)\n{\n    for (unsigned k = 0; k < 3; k++)\n        add(k);\n    return (int)s;\n}\n'


def to_address(counted, zk):
    """A run goes to where the instruction at an address is next, once it has done one: three times to the function that is called three times."""
    file = zk.build({'counts.c': COUNTS}, 'counts.c').check().output
    add = next(one['address'] for one in json.loads(zk.functions({'counts.c': COUNTS}, 'counts.c').check().output)['functions'] if one['name'] == 'add')
    with zk.machine(file) as machine:
        steps = []
        for turn in range(3):
            outcome = machine.run(10 ** 6, add)
            steps.append(machine.steps)
            counted.holds('call %d of add' % turn, (outcome, machine.pc, machine.registers[10]) == (zikorape.GOES_ON, add, turn), (outcome, machine.pc, machine.registers[10]))
            counted.holds('as zk_step has it, %d' % turn, zk.step(file, 10 ** 6, after=steps[-2] + 1 if turn else 0, halt=add).steps == steps[-1], steps)
        counted.holds('then it ends', (machine.run(10 ** 6, add), machine.detail) == (zikorape.ENDED, 3), machine.detail)
        counted.holds('each later than the one before', steps == sorted(set(steps)), steps)


def waits(counted, zk):
    built = zk.build({'echo.c': ECHO}, 'echo.c').check().output
    with zk.machine(built) as machine:
        out = b''
        for byte in b'interactive':
            counted.holds('it waits', machine.run() == zikorape.WANTS_INPUT)
            steps = machine.steps
            counted.holds('it still waits', (machine.run(), machine.steps) == (zikorape.WANTS_INPUT, steps))
            machine.input(bytes([byte]))
            machine.run(10_000)
            out += machine.output()
        counted.holds('what it put while it waited', out == b'iinntteerraaccttiivvee', out)
        machine.close_input()
        counted.holds('then it ends', (machine.run(), machine.detail) == (zikorape.ENDED, 0))
        counted.holds('no input behind its end', raises(ValueError, lambda: machine.input(b'x')))
    for text in (b'', b'\0\xff' * 60, bytes(range(256))):
        with zk.machine(built) as machine:
            machine.input(text)
            machine.close_input()
            counted.holds('an echo of %d bytes' % len(text), (machine.run(), machine.detail, machine.output())
                          == (zikorape.ENDED, 3 if len(text) > 100 else 0, bytes(b for byte in text for b in (byte, byte))))


def set_by_hand(counted, zk):
    """Registers and memory are what they were set to, and only where the program may write."""
    with zk.machine(zk.build({'echo.c': ECHO}, 'echo.c', stack=4096).check().output) as machine:
        machine.run(10)
        for number, value in ((5, 0), (5, 2 ** 32 - 1), (31, 0x80000001), (32, 0x11000)):
            machine.set_register(number, value)
            counted.holds('register %d' % number, (machine.pc if number == 32 else machine.registers[number]) == value)
        machine.set_register(0, 7)
        counted.holds('x0 is 0', machine.registers[0] == 0)
        counted.holds('no register 33', raises(ValueError, lambda: machine.set_register(33, 0)))
        stack = 0x80000000 - 4096
        counted.holds('the stack is written', machine.write(stack, b'\1\2\3') == 3 and machine.read(stack - 1, 5) == b'\0\1\2\3\0')
        counted.holds('the text is neither written nor read', machine.write(0x11000, b'\1\2\3\4') == 0 and machine.read(0x11000, 4) == bytes(4))
        counted.holds('nor what is not there', machine.write(0, b'\1') == 0 and machine.read(0x7fff_0000_0, 2) == b'\0\0')
        machine.set_register(32, 2)
        counted.holds('a pc that is no multiple of 4', (machine.run(), machine.detail) == (zikorape.TRAPPED, 3))
        machine.set_register(32, 0x11000)
        counted.holds('it goes on where the pc was set', machine.run(1) == zikorape.GOES_ON)


def not_loaded(counted, zk):
    built = zk.build({'echo.c': ECHO}, 'echo.c').check().output
    for what, file, code in [('nothing', b'', 901), ('zeros', bytes(100), 902), ('a cut file', built[:60], 905),
                             ('another machine', built[:18] + b'\x3e' + built[19:], 904)]:
        try:
            zk.machine(file)
            counted.holds('%s is not loaded' % what, False)
        except zikorape.Fault as fault:
            counted.holds('%s is not loaded' % what, fault.code == code, fault)
    machine = zk.machine(built)
    machine.close()
    counted.holds('a closed machine', raises(ValueError, lambda: machine.run()))
    counted.holds('no such question', zk._c.zk_machine_ask(zk.machine(built)._at, 12, 0, 0) == 256)


def in_threads(counted, zk, runs):
    many = (runs * (1 + 1000 // len(runs)))[:1000]

    def one(run):
        name, input, file, status, output = run
        with zk.machine(file) as machine:
            machine.input(input)
            machine.close_input()
            answer = ended(machine, 5003)
            return (answer, machine.detail, machine.output()) == (zikorape.ENDED, status, output)
    with concurrent.futures.ThreadPoolExecutor(8) as pool:
        right = list(pool.map(one, many))
    counted.holds('1,000 machines in 8 threads', len(right) == 1000 and all(right), [many[k][0] for k, holds in enumerate(right) if not holds][:5])


def calls(counted, cc, zk, work):
    """A stack of another size, functions, warnings and images: as the program has them."""
    path = os.path.join(work, 'echo.c')
    with open(path, 'wb') as file:
        file.write(ECHO)

    def said(*words):
        done = subprocess.run([cc.path, *words], cwd=work, capture_output=True, timeout=60)
        return done.returncode, done.stdout
    for stack in (4096, 65536, 1 << 20, 1 << 24):
        counted.holds('a stack of %d' % stack, said('build', 'echo.c', '-o', 'echo.out', '--stack', str(stack))[0] == 0
                      and open(os.path.join(work, 'echo.out'), 'rb').read() == zk.build({'echo.c': ECHO}, 'echo.c', stack=stack).check().output)
    for stack in (0, 1, 4095, 4097, (1 << 24) + 4096):
        answer = zk.build({'echo.c': ECHO}, 'echo.c', stack=stack)
        counted.holds('no stack of %d' % stack, (answer.status, answer.output, answer.message) == (256, b'', ''), answer)
    built = zk.build({'echo.c': ECHO}, 'echo.c').check().output
    with open(os.path.join(work, 'echo.out'), 'wb') as file:
        file.write(built)
    for form, word in zip(zikorape.IMAGES, ('--bin', '--ihex', '--memh')):
        status, image = said('image', 'echo.out', word)
        counted.holds('an image: ' + form, status == 0 and image == zk.image(built, form).check().output, image[:80])
    two = b'int f(int a) { return a + 1; }\nint g[3];\nint main(void) { g[0] = f(2); return g[0]; }\n'
    table = json.loads(zk.functions({'two.c': two}, 'two.c').check().output)
    with open(os.path.join(work, 'two.c'), 'wb') as file:
        file.write(two)
    lines = said('frames', 'two.c', '--sizes')[1].decode().split('\n')
    for function in table['functions']:
        words = next(line.split() for line in lines if line.startswith(function['name'] + ' '))
        counted.holds('function %s' % function['name'], words[1:] == ['%08X' % function['address'], str(function['frame']), str(function['weight']), str(function['size']), *function['calls']], (words, function))
    counted.holds('two functions and an object', [f['name'] for f in table['functions']][-2:] == ['f', 'main'] and [(o.get('name'), o['size']) for o in table['objects']] == [('g', 12)], table)
    worse = b'int main(void) { int a = 1; return 2; }\n'
    with open(os.path.join(work, 'worse.c'), 'wb') as file:
        file.write(worse)
    wanted = said('check', 'worse.c', '--json')[1]
    counted.holds('warnings', wanted != b'' and zk.warnings({'worse.c': worse}, 'worse.c').check().output == wanted, wanted)
    explained(counted, zk, said, work)
    verdicts(counted, zk, said, work)
    counted.holds('warnings of what is refused', zk.warnings({'w.c': b'int main(void) { return x; }\n'}, 'w.c').message == 'w.c:1: 528 undeclared name\n')


def verdicts(counted, zk, said, work):
    """What verifying tells, as the program tells it as JSON: of a program that is defined, of one that was not shown to be, and of one that is refused."""
    for name, text, wanted in (('defined', b'int main(void) { return 42; }\n', 0), ('not shown', b'int rv_getbyte(void);\nint main(void) { return 7 / rv_getbyte(); }\n', 3)):
        with open(os.path.join(work, 'main.c'), 'wb') as file:
            file.write(text)
        status, told = said('verify', 'main.c', '--json')
        answer = zk.verify({'main.c': text}, 'main.c')
        counted.holds('verified: ' + name, (status, answer.status, answer.output) == (wanted, wanted, told) and json.loads(told.splitlines()[-1])['defined'] == (wanted == 0), (status, told, answer))
    refused = zk.verify({'w.c': b'int main(void) { return x; }\n'}, 'w.c')
    counted.holds('verified: refused', (refused.status, refused.message) == (1, 'w.c:1: 528 undeclared name\n'), refused)


def explained(counted, zk, said, work):
    """Faults explained, as the program tells them as JSON, of each mistake of tests/outside/mistakes."""
    sys.path.insert(0, os.path.join(ROOT, 'tests/outside/mistakes'))
    from cases import CASES, FURTHER
    for name, source in [(case[0], case[2]) for case in CASES + FURTHER]:
        given = {'main.c': source} if isinstance(source, str) else source
        files = {file: text.replace('«', '').replace('»', '').encode() for file, text in given.items()}
        for file, text in files.items():
            with open(os.path.join(work, file), 'wb') as out:
                out.write(text)
        status, told = said('explain', 'build', *files, '--json')
        answer = zk.explain(files, 'main.c')
        counted.holds('explained: ' + name, status == 1 and told != b'' and (answer.status, answer.output) == (0, told), answer.output[:200])
        # what one case has beside it is not there for the next
        for file in files:
            os.remove(os.path.join(work, file))
    fine = zk.explain({'main.c': ECHO}, 'main.c')
    counted.holds('nothing to explain', (fine.status, fine.output) == (0, b''), fine)


def in_c(counted, cc, runs, out, work):
    """tests/outside/library/kept.c over the header alone: it runs a file in slices, and goes back half way."""
    if not shutil.which('gcc'):
        return counted.leave_out('machines from C: no gcc')
    program, said = library.c_program(out, work, os.path.join(ROOT, 'tests', 'outside', 'library', 'kept.c'), 'kept')
    counted.holds('kept.c is compiled', program, said)
    if not program:
        return
    for name, input, file, status, output in runs[:60]:
        path = os.path.join(work, 'kept.out')
        with open(path, 'wb') as target:
            target.write(file)
        for slice in SLICES:
            done = subprocess.run([program, path, str(slice)], input=input, capture_output=True, timeout=120)
            counted.holds('%s from C by %d' % (name, slice), (done.returncode, done.stdout) == (status, output), done)


def documented(counted, out):
    """The lines of docs/LIBRARY.md."""
    with open(os.path.join(ROOT, 'docs', 'LIBRARY.md'), encoding='utf-8') as file:
        page = file.read()
    found = re.findall(r'```python\n(.*?)```', page, re.S)
    counted.holds('docs/LIBRARY.md has lines of Python', len(found) == 2, len(found))
    env = {**os.environ, 'PYTHONPATH': os.path.join(ROOT, 'bindings', 'python'), 'LD_LIBRARY_PATH': out}
    for text, shown in zip(found, (b' 7 ', b"{'event': 'get', 'byte': 97}")):
        done = subprocess.run([sys.executable, '-c', text], env=env, capture_output=True, timeout=60)
        counted.holds('the lines of docs/LIBRARY.md', (done.returncode, done.stderr) == (0, b'') and shown in done.stdout, done)
    found = re.findall(r'```c\n(.*?)```', page, re.S)
    counted.holds('docs/LIBRARY.md has lines of C', len(found) == 1, len(found))
    if not shutil.which('gcc'):
        return counted.leave_out('the lines of C: no gcc')
    with tempfile.TemporaryDirectory() as work:
        with open(os.path.join(work, 'first.c'), 'w', encoding='utf-8') as target:
            target.write(''.join(found))
        program, said = library.c_program(out, work, os.path.join(work, 'first.c'), 'first')
        counted.holds('the lines of C are compiled', program, said)
        if program:
            done = subprocess.run([program], capture_output=True, timeout=60)
            counted.holds('the lines of C', (done.returncode, done.stderr) == (0, b'') and done.stdout.startswith(b'status 0, a file of '), done)


def main():
    counted = Counted()
    out = os.path.abspath(sys.argv[2] if len(sys.argv) > 2 else os.path.join(ROOT, 'bindings', 'out'))
    if not os.path.exists(os.path.join(out, 'libzikorape.so')):
        counted.leave_out('the library, which is not at %s: sh bindings/build.sh bindings/out' % out)
    else:
        threading.stack_size(8 << 20)
        zk, cc = zikorape.Library(os.path.join(out, 'libzikorape.so')), compiler.Compiler(sys.argv[1])
        runs = list(runs_of(cc))
        counted.holds('there are programs', len(runs) > 400, len(runs))
        short = [run for run in runs if len(run[2]) < 60_000]
        with tempfile.TemporaryDirectory() as work:
            in_slices(counted, zk, short)
            back_again(counted, zk, short)
            registers(counted, cc, zk, short, work)
            waits(counted, zk)
            to_address(counted, zk)
            set_by_hand(counted, zk)
            not_loaded(counted, zk)
            calls(counted, cc, zk, work)
            in_threads(counted, zk, short)
            in_c(counted, cc, short, out, work)
            documented(counted, out)
    print('%d passed, %d failed%s' % (counted.passed, counted.failed, ', %d skipped' % counted.skipped if counted.skipped else ''))
    return counted.failed


if __name__ == '__main__':
    sys.exit(main() != 0)

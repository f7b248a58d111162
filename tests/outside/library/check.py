#!/usr/bin/env python3
"""Holds the library against the program: `check.py CC [OUT]`. OUT is where `sh bindings/build.sh OUT` left libzikorape.a and .so, by default
bindings/out. Every source of sources.py is given to `CC` and to the library from Python, many to the C and the Rust example too: status,
output and message have to be the same, byte for byte. Then what buffers hold, what is no call, threads, stack, memory.
The last line counts; what needs a tool that is not there is left out with a word, and counted as skipped.
"""
import concurrent.futures
import ctypes
import os
import pathlib
import re
import shutil
import subprocess
import sys
import tempfile
import threading

import compiler
import sources

ROOT = os.path.abspath(sources.ROOT)
sys.path.insert(0, os.path.join(ROOT, 'bindings', 'python'))
import zikorape  # noqa: E402

COMMANDS = ['build', 'pp', 'list', 'run', 'interp']
OTHERS = ('cc/', 'examples/', 'sets/two', 'scalars/by')


class Counted:
    def __init__(self):
        self.passed = self.failed = self.skipped = 0

    def holds(self, name, is_so, seen=''):
        if is_so:
            self.passed += 1
        else:
            self.failed += 1
            print('FAIL %s %s' % (name, str(seen)[:300]))

    def leave_out(self, what):
        self.skipped += 1
        print('left out: ' + what)


# ---- the same as the program

def by_python(zk, files, input):
    """The answers of each command, as `compiler.Compiler` has them."""
    main = files[0][0]
    def plain(answer): return (answer.status, answer.output, answer.message.encode())
    built = zk.build(files, main)
    found = {'build': plain(built)}
    if built.status == 0:
        found['run'] = plain(zk.run(built.output, input, compiler.MAX))
    found['pp'] = plain(zk.preprocess(files, main))
    found['list'] = plain(zk.listing(files, main))
    found['interp'] = plain(zk.interpret(files, main, input, compiler.MAX))
    return found


def by_program(program, files, input):
    """The same by a program that has the commands."""
    with tempfile.TemporaryDirectory() as folder:
        for name, text in files:
            with open(os.path.join(folder, name), 'wb') as file:
                file.write(text)
        names = [name for name, _ in files]

        def call(*words, given=b''):
            done = subprocess.run([program, *words], cwd=folder, input=given, capture_output=True, timeout=120)
            return done.returncode, done.stdout, done.stderr
        found = {'build': call('build', *names)}
        if found['build'][0] == 0:
            with open(os.path.join(folder, 'a.out'), 'wb') as file:
                file.write(found['build'][1])
            found['run'] = call('run', 'a.out', given=input)
        found['pp'] = call('pp', *names)
        found['list'] = call('list', *names)
        found['interp'] = call('interp', *names, given=input)
        return found


def differences(wanted, found):
    return {command: (wanted.get(command), found.get(command)) for command in COMMANDS if wanted.get(command) != found.get(command)}


def same(counted, what, wanted, answer):
    """Each source by `answer`, against what the program says."""
    with concurrent.futures.ThreadPoolExecutor(os.cpu_count()) as pool:
        for (name, files, input, want), found in zip(wanted, pool.map(lambda one: answer(one[1], one[2]), wanted)):
            odd = differences(want, found)
            counted.holds('%s: %s' % (what, name), not odd, odd)


# ---- programs to call

def c_program(out, work, source, name):
    target = os.path.join(work, name)
    done = subprocess.run(['gcc', '-O1', '-Wall', '-Wextra', '-Werror', '-std=c11', '-D_POSIX_C_SOURCE=200809L', '-I', os.path.join(ROOT, 'include'),
                           source, os.path.join(out, 'libzikorape.a'), '-lpthread', '-o', target], capture_output=True, text=True)
    return (target, '') if done.returncode == 0 else (None, done.stderr)


def rust_program(out, work):
    rust = os.path.join(ROOT, 'bindings', 'rust')
    library, target = os.path.join(work, 'libzikorape.rlib'), os.path.join(work, 'commands')
    steps = [['rustc', '--edition', '2021', '--crate-name', 'zikorape', '--crate-type', 'rlib', os.path.join(rust, 'src', 'lib.rs'), '-o', library],
             ['rustc', '--edition', '2021', os.path.join(rust, 'examples', 'commands.rs'), '--extern', 'zikorape=' + library,
              '-L', 'native=' + out, '-l', 'static=zikorape', '-o', target]]
    for step in steps:
        done = subprocess.run(step, capture_output=True, text=True)
        if done.returncode:
            return None, done.stderr
    return target, ''


# ---- what a call tells, and what it leaves

HELLO = b'#include <rvio.h>\nint main(void) { rv_putbyte(72); rv_putbyte(105); return 42; }\n'


def raw(zk, texts, files, main, room, lines):
    """zk_build over buffers with a pattern, and what is behind them."""
    out, message = (ctypes.c_uint8 * (room + 16))(*[0xa5] * (room + 16)), (ctypes.c_uint8 * (lines + 16))(*[0xa5] * (lines + 16))
    lengths, sizes = (zikorape.File * max(len(files), 1))(*[zikorape.File(*f) for f in files]), zikorape.Sizes(7, 7)
    status = zk._c.zk_build(ctypes.c_char_p(texts), ctypes.c_size_t(len(texts)), lengths, ctypes.c_size_t(len(files)), ctypes.c_char_p(main),
                            ctypes.c_size_t(len(main)), out, ctypes.c_size_t(room), message, ctypes.c_size_t(lines), ctypes.byref(sizes))
    return status, bytes(out), bytes(message), sizes.output, sizes.message


def buffers(counted, zk):
    texts, files, pattern = b'main.c' + HELLO, [(6, len(HELLO))], b'\xa5'
    whole = zk.build([('main.c', HELLO)], 'main.c').output
    for room in (0, 1, len(whole) - 1, len(whole), len(whole) + 100):
        status, out, message, told, line = raw(zk, texts, files, b'main.c', room, 100)
        has = min(room, len(whole))
        counted.holds('room of %d' % room, (status, told, line) == (0, len(whole), 0) and out == whole[:has] + pattern * (room + 16 - has)
                      and message == pattern * 116, (status, told, line))
    wanted = b'main.c:1: 528 undeclared name\n'
    bad = b'int main(void) { return x; }\n'
    for lines in (0, 1, len(wanted) - 1, len(wanted), 100):
        status, out, message, told, line = raw(zk, b'main.c' + bad, [(6, len(bad))], b'main.c', 50, lines)
        has = min(lines, len(wanted))
        counted.holds('line of %d' % lines, (status, told, line) == (1, 0, len(wanted)) and out == pattern * 66
                      and message == wanted[:has] + pattern * (lines + 16 - has), (status, told, line, message))


def no_calls(counted, zk):
    texts, n = b'main.c' + HELLO, len(HELLO)
    for files in ([], [(6, n - 1)], [(6, n + 1)], [(7, n)], [(6, n), (0, 1)], [(2**64 - 1, n + 7)], [(2**63, 2**63 + 6 + n)], [(6, n), (2**64 - 1, 1)]):
        status, out, message, told, line = raw(zk, texts, files, b'main.c', 50, 50)
        counted.holds('lengths %s' % files, (status, told, line, out, message) == (256, 0, 0, b'\xa5' * 66, b'\xa5' * 66), (status, told, line))
    for what, files, main, wanted in [
            ('no file', [], 'main.c', 'cc: 103 main file not given\n'),
            ('a main that is not UTF-8', [('main.c', HELLO)], b'main\xff', 'cc: 103 main file not given\n'),
            ('a name that is not UTF-8', [('main.c', HELLO), (b'a\xff', b'')], 'main.c', 'cc: 102 bad file name\n'),
            ('a name twice', [('main.c', HELLO), ('main.c', b'')], 'main.c', 'main.c:0: 101 file name given twice\n'),
            ('257 files', [('main.c', HELLO)] + [('f%d' % k, b'') for k in range(256)], 'main.c', 'f255:0: 702 limit: files\n')]:
        answer = zk.build(files, main)
        counted.holds(what, (answer.status, answer.output) == (1, b'') and answer.message.endswith(wanted.split(':', 1)[1]), answer)


def kinds_of_texts(counted, zk):
    """bytes, str, bytearray and a path are one text; a number, or nothing, is none."""
    wanted = zk.build([('main.c', HELLO)], 'main.c')
    counted.holds('bytes are built', (wanted.status, wanted.message, bytes(wanted.output[:4])) == (0, '', b'\x7fELF'), wanted)
    with tempfile.TemporaryDirectory() as folder:
        path = pathlib.Path(folder, 'main.c')
        path.write_bytes(HELLO)
        for text in (HELLO.decode(), bytearray(HELLO), memoryview(HELLO), path):
            counted.holds('a text as %s' % type(text).__name__, zk.build({'main.c': text}, pathlib.PurePath('main.c')) == wanted)
        path.write_bytes(wanted.output)
        counted.holds('a file by its path', zk.run(path).status == 42 and zk.step(path, 1).outcome == 0)
        for missing in (lambda: zk.build({'main.c': path.with_name('none.c')}, 'main.c'), lambda: zk.run(path.with_name('none'))):
            counted.holds('a path at which nothing is', raises(FileNotFoundError, missing))
    for text in (5, None, [72, 105]):
        counted.holds('no text: %r' % (text,), raises(TypeError, lambda: zk.build({'main.c': text}, 'main.c')) and raises(TypeError, lambda: zk.run(text)))


def raises(wanted, call):
    try:
        call()
    except wanted:
        return True
    return False


def texts(counted, zk):
    """The text of each code as docs/DIAGNOSTICS.md has it."""
    with open(os.path.join(ROOT, 'docs', 'DIAGNOSTICS.md'), encoding='utf-8') as file:
        table = re.findall(r'^\| (\d{3}) \| `?([^|`]+?)`? \|', file.read(), re.M)
    counted.holds('docs/DIAGNOSTICS.md has codes', len(table) > 80, len(table))
    for code, text in table:
        counted.holds('text of ' + code, zk.message(int(code)) == text.replace('\\', ''), (zk.message(int(code)), text))
    counted.holds('no code', [zk.message(k) for k in (0, 100, 999, 2**16 - 1)] == [''] * 4)
    counted.holds('version', re.fullmatch(r'zikorape \d+\.\d+', zk.version()), zk.version())


# By hand: 64 bytes and 16 a node, and 4 for n; the return address and the caller's s0, in which n lives, rounded up to 16 bytes.
FRAMES = {
    'int main(void) {return 42;}\n': 'main 16 128\n',
    'int f(int n) { if (n == 0) return 0; return f(n - 1); }\nint main(void) {return f(3000);}\n': 'f 16 304\nmain 16 144\n',
}


def frames(counted, zk):
    for source, wanted in FRAMES.items():
        found = zk.frames([('main.c', source)], 'main.c')
        counted.holds('frames of ' + source[:40], (found.status, found.output, found.message) == (0, wanted.encode(), ''), found)


# ---- the machine at an instruction

# By hand, of docs/TOUR.md and the unprivileged ISA manual: the entry sets x2 (LUI, ADDI) and x3, 2048 bytes past the data, which begin at 0x12000 (LUI,
# ADDI), and calls main (AUIPC, JALR), which opens its frame at 0x11020, makes 70 and 72, and stores 72 at the stack's new end.
TOUR = b'void rv_putbyte(int c);\n\nint main(void) {\n    rv_putbyte(70 + 2);\n    return 44 - 2;\n}\n'
STANDS = [(0, 0x11000, {}), (1, 0x11004, {2: 0x80000000}), (2, 0x11008, {2: 0x80000000}), (3, 0x1100C, {2: 0x80000000, 3: 0x13000}),
          (4, 0x11010, {2: 0x80000000, 3: 0x12800}), (5, 0x11014, {1: 0x11010, 2: 0x80000000, 3: 0x12800}), (6, 0x11020, {1: 0x11018, 2: 0x80000000, 3: 0x12800}),
          (7, 0x11024, {1: 0x11018, 2: 0x7FFFFFF0, 3: 0x12800}), (8, 0x11028, {1: 0x11018, 2: 0x7FFFFFF0, 3: 0x12800, 5: 70}),
          (9, 0x1102C, {1: 0x11018, 2: 0x7FFFFFF0, 3: 0x12800, 5: 70, 10: 72}), (10, 0x11030, {1: 0x11018, 2: 0x7FFFFFF0, 3: 0x12800, 5: 70, 10: 72, 11: 0x7FFFFFF0}),
          (11, 0x11034, {1: 0x11018, 2: 0x7FFFFFF0, 3: 0x12800, 5: 70, 10: 72, 11: 0x7FFFFFF0})]


def forms(counted, zk, program, given):
    """Each form of some sources against what `show --json` prints."""
    def shown(files, form):
        with tempfile.TemporaryDirectory() as folder:
            for name, text in files:
                with open(os.path.join(folder, name), 'wb') as file:
                    file.write(text)
            done = subprocess.run([program, 'show', form, *[name for name, _ in files], '--json'], cwd=folder, capture_output=True, timeout=120)
            return done.returncode, done.stdout if done.returncode == 0 else b'', done.stderr
    some = [one for one in given if not one[0].startswith('nested')][::9]
    for name, files, _ in some:
        for form in zikorape.FORMS:
            answer, want = zk.form(files, files[0][0], form), shown(files, form)
            counted.holds('form %s of %s' % (form, name), (answer.status, answer.output, answer.message.encode()) == want, (answer.status, answer.message, want))
    counted.holds('no such form', zk._over(zk._c.zk_form, [('a.c', b'')], 'a.c', ctypes.c_uint32(len(zikorape.FORMS))).status == 256)


def machine(counted, zk):
    file = zk.build([('main.c', TOUR)], 'main.c').output
    for count, pc, registers in STANDS:
        seen, window = zk.step(file, count, start=0x7FFFFFEF, length=3), bytes([0, 72 if count > 10 else 0, 0])
        counted.holds('the machine at %d' % count, (seen.outcome, seen.detail, seen.steps, seen.pc, seen.output, seen.window) == (0, 0, count, pc, b'', window)
                      and seen.registers == [registers.get(k, 0) for k in range(32)], seen)
    seen = zk.step(file, 10 ** 6)
    before = zk.step(file, seen.steps - 1)
    counted.holds('the machine at its end', (seen.outcome, seen.detail, seen.pc, seen.output) == (1, 42, 0x1101C, b'H'), seen)
    counted.holds('and one instruction before it', (before.outcome, before.steps, before.pc) == (0, seen.steps - 1, 0x1101C), before)
    for after, halt, wanted in [(0, 0x11024, (0, 7, 0x11024)), (8, 0x11024, (1, seen.steps, 0x1101C)), (7, 0x11024, (0, 7, 0x11024)), (0, 0x11000, (0, 0, 0x11000))]:
        found = zk.step(file, 10 ** 6, after=after, halt=halt)
        counted.holds('halting at %x, after %d' % (halt, after), (found.outcome, found.steps, found.pc) == wanted, found)
    counted.holds('no more than the count', zk.step(file, 3, halt=0x11024).steps == 3)
    for start, length in [(0xFFFFFFFE, 4), (0, 8), (0x7FFFFFFC, 8), (0x11000, 8)]:      # the text may be executed, and not read
        counted.holds('nothing to read at %x' % start, zk.step(file, 1, start=start, length=length).window == bytes(length))
    not_loaded(counted, zk, file)


def stepped(counted, zk, program, work):
    """The same by the Rust example."""
    path, file = os.path.join(work, 'hello'), zk.build([('main.c', TOUR)], 'main.c').output
    with open(path, 'wb') as made:
        made.write(file)
    for count in (0, 3, 7, 1000):
        seen = zk.step(file, count)
        done = subprocess.run([program, 'step', path, str(count)], capture_output=True, timeout=60)
        wanted = '%d %08x %s\n' % (seen.steps, seen.pc, 'GoesOn' if seen.outcome == 0 else 'Ended(42)')
        counted.holds('Rust: the machine at %d' % count, done.stdout.decode() == wanted, done)


def not_loaded(counted, zk, file):
    """What the buffers hold where a file is not loaded."""
    for what, bad, code in [('empty', b'', 901), ('cut', file[:51], 901), ('of another kind', b'\x7fELX' + file[4:], 902), ('of text cut off', file[:0x1000], 905)]:
        window, out = (ctypes.c_uint8 * 8)(*[0xa5] * 8), (ctypes.c_uint8 * 8)(*[0xa5] * 8)
        seen = zikorape.Seen(1, 2, (ctypes.c_uint32 * 32)(*range(32)), 3, 4)
        outcome = zk._c.zk_step(ctypes.c_char_p(bad), ctypes.c_size_t(len(bad)), ctypes.c_char_p(b''), ctypes.c_size_t(0), ctypes.c_uint64(9), ctypes.c_uint64(0),
                                ctypes.c_uint32(1), ctypes.c_uint32(0), window, ctypes.c_size_t(8), out, ctypes.c_size_t(8), ctypes.byref(seen))
        counted.holds('a file that is ' + what, (outcome, seen.detail, seen.pc, list(seen.registers), seen.steps, seen.output, bytes(window), bytes(out))
                      == (4, code, 2, list(range(32)), 3, 0, b'\xa5' * 8, b'\xa5' * 8), (outcome, seen.detail, seen.output))


# ---- threads, stack, memory

def threads(counted, zk, wanted):
    chosen = [one for one in wanted if len(one[1][0][1]) < 20000][:1000]

    def work(one):
        return differences(one[3], by_python(zk, one[1], one[2]))
    threading.stack_size(8 << 20)
    with concurrent.futures.ThreadPoolExecutor(8) as pool:
        odd = [(one[0], found) for one, found in zip(chosen, pool.map(work, chosen)) if found]
    counted.holds('8 threads over %d programs' % len(chosen), not odd and len(chosen) == 1000, odd[:2] or len(chosen))


def stack(counted, out, work):
    program, said = c_program(out, work, os.path.join(sources.HERE, 'stack.c'), 'stack')
    counted.holds('stack.c is compiled', program, said)
    if not program:
        return
    names = []
    for k, (_, files, _) in enumerate(sources.nested()):
        names.append(os.path.join(work, 'nested%d.c' % k))
        with open(names[-1], 'wb') as file:
            file.write(files[0][1])
    done = subprocess.run([program, str(2304 << 10), *names], capture_output=True, timeout=300)
    counted.holds('a stack of 2.25 MiB is enough for %d deep sources' % len(names), done.returncode == 0, done)


def memory(counted, program, work):
    source = os.path.join(work, 'long.c')
    with open(source, 'w') as file:
        file.write('int main(void) { int a = 1;\n' + '    a = a * 3 % 1000 + 7;\n' * 40000 + 'return a; }\n')
    for kibibytes in (20000, 40000):
        done = subprocess.run(['sh', '-c', 'ulimit -v %d; exec "$0" build "$1"' % kibibytes, program, 'long.c'], cwd=work, capture_output=True, timeout=120)
        counted.holds('%d KiB of memory' % kibibytes, (done.returncode, done.stdout, done.stderr) == (1, b'', b'cc: 801 out of memory\n'), done.stderr[:200])


def main():
    counted = Counted()
    out = os.path.abspath(sys.argv[2] if len(sys.argv) > 2 else os.path.join(ROOT, 'bindings', 'out'))
    if not os.path.exists(os.path.join(out, 'libzikorape.so')):
        counted.leave_out('the library, which is not at %s: sh bindings/build.sh bindings/out' % out)
    else:
        check(counted, compiler.Compiler(sys.argv[1]), out)
    print('%d passed, %d failed%s' % (counted.passed, counted.failed, ', %d skipped' % counted.skipped if counted.skipped else ''))
    return counted.failed


def check(counted, cc, out):
    threading.stack_size(8 << 20)
    zk = zikorape.Library(os.path.join(out, 'libzikorape.so'))
    given = list(sources.all_of_them())
    counted.holds('there are sources', len(given) > 1100, len(given))
    with concurrent.futures.ThreadPoolExecutor(os.cpu_count()) as pool:
        wanted = [(*one, want) for one, want in zip(given, pool.map(lambda one: cc.answers(one[1], one[2]), given))]
    same(counted, 'Python', wanted, lambda files, input: by_python(zk, files, input))
    buffers(counted, zk)
    no_calls(counted, zk)
    kinds_of_texts(counted, zk)
    texts(counted, zk)
    frames(counted, zk)
    forms(counted, zk, cc.path, given)
    machine(counted, zk)
    threads(counted, zk, wanted)
    fewer = [one for one in wanted if one[0].startswith(OTHERS)]
    with tempfile.TemporaryDirectory() as work:
        program, said = c_program(out, work, os.path.join(ROOT, 'examples', 'library.c'), 'library') if shutil.which('gcc') else (None, '')
        if not shutil.which('gcc'):
            counted.leave_out('the C example, stack and memory: no gcc')
        else:
            counted.holds('examples/library.c is compiled', program, said)
        if program:
            same(counted, 'C', fewer, lambda files, input: by_program(program, files, input))
            stack(counted, out, work)
            memory(counted, program, work)
        if not shutil.which('rustc'):
            return counted.leave_out('the Rust bindings: no rustc')
        program, said = rust_program(out, work)
        counted.holds('bindings/rust is compiled', program, said)
        if program:
            same(counted, 'Rust', fewer, lambda files, input: by_program(program, files, input))
            stepped(counted, zk, program, work)


if __name__ == '__main__':
    sys.exit(main() != 0)

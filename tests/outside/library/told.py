#!/usr/bin/env python3
"""Runs of the interpreter that are told, and input and output by callback: `told.py CC [OUT]`. OUT is where `sh bindings/build.sh OUT` left the library, by
default bindings/out. What is told of a program at once, in slices, with its input byte by byte, from C, and of many in 8 threads has to be the lines that
`CC interp --trace-file --json` writes; bytes by callback those of `CC run`. The last line counts.
"""
import concurrent.futures
import io
import json
import os
import random
import re
import shutil
import subprocess
import sys
import tempfile
import threading

import check as library
import compiler
import machines
import sources
from check import Counted, raises

ROOT = os.path.abspath(sources.ROOT)
import zikorape  # noqa: E402

MAX = 20_000            # ticks
PROGRAMS = 300


def wanted_of(cc, files, input, max=MAX):
    """Status, lines and message of a traced run by the program."""
    with tempfile.TemporaryDirectory() as work:
        for name, text in files:
            with open(os.path.join(work, name), 'wb') as file:
                file.write(text)
        done = subprocess.run([cc.path, 'interp', *[name for name, _ in files], '--max', str(max), '--trace-file', 'told', '--json'],
                              cwd=work, input=input, capture_output=True, timeout=300)
        told = os.path.join(work, 'told')
        lines = open(told, 'rb').read() if os.path.exists(told) else b''
        return done.returncode, lines, done.stderr.decode(errors='replace'), done.stdout


def programs(cc):
    """(files, input, status, lines, message, output) of sources whose words suit a command line."""
    given = [(name, files, input) for name, files, input in sources.all_of_them() if all(re.fullmatch(r'[\w.]+', file) for file, _ in files) and len({file for file, _ in files}) == len(files)]
    random.Random(1).shuffle(given)
    with concurrent.futures.ThreadPoolExecutor(os.cpu_count()) as pool:
        return [(*one, *want) for one, want in zip(given, pool.map(lambda one: wanted_of(cc, one[1], one[2]), given))]


def ended_of(run):
    """Status and message as the program has them, of a kept run."""
    status = {zikorape.ENDED: run.detail, zikorape.GOES_ON: 124, zikorape.UNDEFINED: 123}[run.outcome]
    return status, {zikorape.ENDED: '', zikorape.GOES_ON: 'cc: budget used'}.get(run.outcome, run.message)


def whole(counted, zk, runs):
    for name, files, input, status, lines, message, _ in runs:
        answer = zk.trace(files, files[0][0], input, MAX)
        counted.holds('%s told' % name, (answer.status, answer.output, answer.message) == (status, lines, message), (answer.status, answer.message, status, message))


def slices(counted, zk, runs):
    """What slices tell, one behind another, is what the whole tells; and so for an input that comes byte by byte."""
    chance = random.Random(2)
    for name, files, input, status, lines, message, output in runs:
        at, told = 0, b''
        while True:
            to = min(at + chance.choice((0, 1, 5, 100, 3000)), MAX)
            answer = zk.trace(files, files[0][0], input, to, at)
            told += answer.output
            if to == MAX or (answer.status, answer.message) != (124, 'cc: budget used\n'):
                break
            at = to + 1
        counted.holds('%s in slices' % name, told == lines, (len(told), len(lines)))
        events, run = [], zk.interpreter(files, files[0][0])
        rest, first = list(input), run.events()
        events += first
        while True:
            outcome = run.run(MAX if chance.random() < 0.5 else chance.randrange(MAX))
            events += run.events()
            if outcome == zikorape.WANTS_INPUT:
                if rest:
                    run.input(bytes([rest.pop(0)]))
                else:
                    run.close_input()
            elif outcome != zikorape.GOES_ON or run._start > MAX:
                break
        counted.holds('%s byte by byte' % name, (events, run.output(), *ended_of(run)) == ([json.loads(line) for line in lines.splitlines()], output, status, message.strip()),
                      (len(events), run.outcome, run.message, status, message))


def places(counted, zk):
    """A run that goes back goes the same way again, and another run of the same program too."""
    files = {'echo.c': machines.ECHO}
    one, other = zk.interpreter(files, 'echo.c'), zk.interpreter(files, 'echo.c')
    one.input(b'ab')
    counted.holds('it wants input', one.run() == zikorape.WANTS_INPUT and one.output() == b'aabb')
    there, found = one.snapshot(), []
    for run in (one, one, other):
        run.restore(there)
        run.events(), run.output()
        run.input(b'c')
        run.close_input()
        found.append((run.run(), run.detail, run.output(), run.events()))
    counted.holds('it goes the same way', found[0] == found[1] == found[2] and found[0][:3] == (zikorape.ENDED, 0, b'cc'), found[0][:3])
    counted.holds('it has ended', (one.run(), one.events()) == (zikorape.ENDED, []))
    counted.holds('no input behind its end', raises(ValueError, lambda: one.input(b'x')))
    counted.holds('a refused program', raises(zikorape.Fault, lambda: zk.interpreter({'a.c': 'int main(void) { return x; }\n'}, 'a.c')))


# By hand: what each statement does, by ISO/IEC 9899:2011 6.8 and 5.1.2.3.
ASKS = b'#include <rvio.h>\nint main(void) {\n    int c = rv_getbyte();\n    if (c == -1)\n        return 3;\n    rv_putbyte(c);\n    return 7 / (c - 97);\n}\n'
TOLD = [{'event': 'enter', 'function': 'main'}, {'event': 'statement', 'file': 'a.c', 'line': 3}]
GOT_B = TOLD + [{'event': 'get', 'byte': 98}, {'event': 'set', 'name': 'c', 'path': [], 'value': 98}, {'event': 'statement', 'file': 'a.c', 'line': 4},
                {'event': 'statement', 'file': 'a.c', 'line': 6}, {'event': 'put', 'byte': 98}, {'event': 'statement', 'file': 'a.c', 'line': 7},
                {'event': 'leave', 'function': 'main', 'value': 7}]
GOT_NONE = TOLD + [{'event': 'get', 'byte': None}, {'event': 'set', 'name': 'c', 'path': [], 'value': -1}, {'event': 'statement', 'file': 'a.c', 'line': 4},
                   {'event': 'statement', 'file': 'a.c', 'line': 5}, {'event': 'leave', 'function': 'main', 'value': 3}]


def by_hand(counted, zk):
    files = {'a.c': ASKS}

    def told(input, is_open):
        answer = zk.trace(files, 'a.c', input, MAX, 0, is_open)
        return answer.status, [json.loads(line) for line in answer.output.splitlines()], answer.message
    counted.holds('told: b', told(b'b', False) == (7, GOT_B, ''), told(b'b', False))
    counted.holds('told: b, and more may come', told(b'b', True) == (7, GOT_B, ''))
    counted.holds('told: nothing', told(b'', False) == (3, GOT_NONE, ''), told(b'', False))
    counted.holds('told: nothing yet', told(b'', True) == (257, TOLD, ''), told(b'', True))
    counted.holds('told: undefined', told(b'a', False) == (123, GOT_B[:2] + [dict(e, **{k: 97 for k in ('byte', 'value') if e.get(k) == 98}) for e in GOT_B[2:8]], 'a.c:7: undefined U2\n'), told(b'a', False))
    answer = zk.trace({'a.c': b'int main(void) { return x; }\n'}, 'a.c')
    counted.holds('told: refused', (answer.status, answer.output, answer.message) == (1, b'', 'a.c:1: 528 undeclared name\n'), answer)
    answer = zk._over(zk._c.zk_trace, [], 'a.c', *zikorape._slice(b''), *[zikorape.ctypes.c_uint32(0), zikorape.ctypes.c_uint64(1), zikorape.ctypes.c_uint64(0)])
    counted.holds('told: no file', (answer.status, answer.message) == (1, 'a.c:0: 103 main file not given\n'), answer)


def callbacks(counted, zk, cc):
    """Input and output of a machine and of a run by callback, by files, and with neither."""
    built = zk.build({'echo.c': machines.ECHO}, 'echo.c').check().output
    text = bytes(range(256)) * 3
    wanted = bytes(b for byte in text for b in (byte, byte))
    for what, make in (('a machine', lambda: zk.machine(built)), ('a run', lambda: zk.interpreter({'echo.c': machines.ECHO}, 'echo.c'))):
        served, out = make(), io.BytesIO()
        counted.holds('%s over files' % what, (served.serve(io.BytesIO(text), out), served.detail, out.getvalue()) == (zikorape.ENDED, 3, wanted), out.getvalue()[:20])
        served, parts, given = make(), [], [b'a', b'bc', None, b'd', b'']
        counted.holds('%s waits' % what, served.serve(lambda: given.pop(0), parts.append) == zikorape.WANTS_INPUT and b''.join(parts) == b'aabbcc', parts)
        counted.holds('%s goes on' % what, (served.serve(lambda: given.pop(0), parts.append), served.detail, b''.join(parts)) == (zikorape.ENDED, 0, b'aabbccdd'), parts)
        served, order = make(), []
        given = list(b'xyz')
        served.serve(lambda: order.append('get') or (bytes([given.pop(0)]) if given else b''), lambda found: order.append(found))
        counted.holds('%s puts before it asks' % what, order == ['get', b'xx', 'get', b'yy', 'get', b'zz', 'get'], order)
        counted.holds('%s with neither' % what, make().serve() == zikorape.ENDED)

        def refuses(found):
            raise OSError('full')
        served = make()
        counted.holds('%s whose output is refused' % what, raises(OSError, lambda: served.serve(io.BytesIO(b'q'), refuses)))
        counted.holds('%s that goes on behind it' % what, served.serve(io.BytesIO(b''), None) == zikorape.ENDED)
    loops = {'loops.c': b'#include <rvio.h>\nint main(void) { for (;;) rv_putbyte(46); }\n'}
    with zk.machine(zk.build(loops, 'loops.c').check().output) as machine:
        put = io.BytesIO()
        counted.holds('a machine without an end is left', machine.serve(None, put, max=100_000) == zikorape.GOES_ON and machine.steps == 100_000 and set(put.getvalue()) == {46})
        counted.holds('and goes on', machine.serve(None, put, max=7) == zikorape.GOES_ON and machine.steps == 100_007)

    class Enough(Exception):
        pass
    seen = []

    def observe(event):
        seen.append(event)
        if len(seen) == 1000:
            raise Enough
    counted.holds('a run without an end is left', raises(Enough, lambda: zk.interpreter(loops, 'loops.c').serve(observe=observe)) and {'event': 'put', 'byte': 46} in seen)
    run, seen = zk.interpreter(loops, 'loops.c'), []
    counted.holds('a run to a tick', run.serve(observe=seen.append, until=10_000) == zikorape.GOES_ON
                  and seen == [json.loads(line) for line in zk.trace(loops, 'loops.c', max=10_000).output.splitlines()], len(seen))


def in_threads(counted, zk, runs):
    many = (runs * (1 + 1000 // len(runs)))[:1000]

    def one(run):
        name, files, input, status, lines, message, _ = run
        answer = zk.trace(files, files[0][0], input, MAX)
        return (answer.status, answer.output, answer.message) == (status, lines, message)
    with concurrent.futures.ThreadPoolExecutor(8) as pool:
        right = list(pool.map(one, many))
    counted.holds('1,000 runs told in 8 threads', len(right) == 1000 and all(right), [many[k][0] for k, holds in enumerate(right) if not holds][:5])


def in_c(counted, runs, out, work):
    """served.c and traced.c over the headers alone."""
    if not shutil.which('gcc'):
        return counted.leave_out('callbacks from C: no gcc')
    here = os.path.join(ROOT, 'tests', 'outside', 'library')
    served, said = library.c_program(out, work, os.path.join(here, 'served.c'), 'served')
    counted.holds('served.c is compiled', served, said)
    traced, said = library.c_program(out, work, os.path.join(here, 'traced.c'), 'traced')
    counted.holds('traced.c is compiled', traced, said)
    if not (served and traced):
        return
    zk = zikorape.Library(os.path.join(out, 'libzikorape.so'))
    for name, files, input, status, lines, message, output in [run for run in runs if len(run[1]) == 1][:60]:
        path = os.path.join(work, 'main.c')
        with open(path, 'wb') as file:
            file.write(files[0][1])
        as_main = lines.replace(b'"file":"%s"' % files[0][0].encode(), b'"file":"main.c"')
        for slice in (7, 5000):
            done = subprocess.run([traced, path, str(slice), str(MAX)], input=input, capture_output=True, timeout=300)
            counted.holds('%s told from C by %d' % (name, slice), (done.returncode, done.stdout, done.stderr.decode()) == (status, as_main, message.replace(files[0][0], 'main.c')), done.stderr)
        built = zk.build(files, files[0][0])
        ran = zk.run(built.output, input) if built.status == 0 else None
        if ran is None or ran.message:
            continue
        with open(os.path.join(work, 'a.out'), 'wb') as file:
            file.write(built.output)
        done = subprocess.run([served, os.path.join(work, 'a.out')], input=input, capture_output=True, timeout=120)
        counted.holds('%s served from C' % name, (done.returncode, done.stdout) == (ran.status, ran.output), done)


def acts(counted, cc, zk, runs):
    """What a run does undefined, explained, as the program tells it as JSON; of a program that is refused the fault alone; and by hand, of one whose values
    the input decides."""
    undefined = [run for run in runs if 'undefined U' in run[5]]
    counted.holds('there are undefined runs', len(undefined) > 20, len(undefined))
    for name, files, input, status, _, message, _ in undefined + [run for run in runs if run not in undefined][:100]:
        with tempfile.TemporaryDirectory() as work:
            for file, text in files:
                with open(os.path.join(work, file), 'wb') as out:
                    out.write(text)
            done = subprocess.run([cc.path, 'explain', 'interp', *[file for file, _ in files], '--json', '--max', str(MAX)], cwd=work, input=input, capture_output=True, timeout=300)
        answer = zk.explain_run(files, files[0][0], input, MAX)
        if status == 1 and message:
            counted.holds('%s: refused' % name, (answer.status, answer.output, answer.message) == (1, b'', message), answer)
            continue
        counted.holds('%s: what is undefined' % name, (answer.status, answer.output, answer.message) == (done.returncode, done.stdout, done.stderr.decode(errors='replace')), (answer, done))
        counted.holds('%s: told where there is something' % name, (answer.output != b'') == ('undefined U' in message), answer.output)
    text = b'int rv_getbyte(void);\nint at(int a[3], int i) { return a[i]; }\nint main(void) {\n    int a[3] = { 1, 2, 3 };\n    return at(a, rv_getbyte());\n}\n'
    told = zk.explain_run({'main.c': text}, 'main.c', b'b')
    act = json.loads(told.output)
    counted.holds('an index by the input', told.status == 123 and (act['code'], act['line'], act['column']) == ('U5', 2, 35), act)
    counted.holds('its value, and the calls', [note['text'] for note in act['notes'] if note['topic'] != 'hint'] == ['index 98 of 3 elements of `a`', 'in `at`', 'in `main`'], act)
    counted.holds('another input', (lambda one: (one.status, one.output, one.message))(zk.explain_run({'main.c': text}, 'main.c', b'\x01')) == (2, b'', ''))


PLACES = b'#include "far.h"\nint g;\n\nint f(int a)\n{\n    int b = a + 1;\n    return b;\n}\n\nint main(void)\n{\n    g = f(2);\n    return far(g);\n}\n'
FAR = b'#line 7 "made.y"\nint far(int x) { return x + 1; }\n'


def lines(counted, zk, cc, work):
    """Lines of functions: by hand those of their names, and by readelf those of the table for debuggers."""
    files = {'p.c': PLACES, 'far.h': FAR}
    for name, text in files.items():
        with open(os.path.join(work, name), 'wb') as file:
            file.write(text)
    table = json.loads(zk.functions(files, 'p.c').check().output)
    by_name = {function['name']: function for function in table['functions']}
    counted.holds('where functions are', {name: (by_name[name]['file'], by_name[name]['line']) for name in ('far', 'f', 'main')} == {'far': ('made.y', 7), 'f': ('p.c', 4), 'main': ('p.c', 10)}, by_name)
    counted.holds('their statements', [{line['line'] for line in by_name[name]['lines']} for name in ('far', 'f', 'main')] == [{7}, {4, 6, 7}, {10, 12, 13}], by_name)
    for function in table['functions']:
        addresses = [line['address'] for line in function['lines']]
        counted.holds('lines of %s rise' % function['name'], addresses[0] == function['address'] and addresses == sorted(addresses) and addresses[-1] <= function['address'] + function['size'], function)
    if not shutil.which('readelf'):
        return counted.leave_out('lines by readelf: no readelf')
    subprocess.run([cc.path, 'symbols', 'p.c', 'far.h', '-o', 'p.sym'], cwd=work, check=True)
    said = subprocess.run(['readelf', '--debug-dump=decodedline', 'p.sym'], cwd=work, capture_output=True, text=True).stdout
    rows = {int(address, 16): (file, int(line)) for file, line, address in re.findall(r'^(\S+) +(\d+) +0x([0-9a-f]+)', said, re.M)}
    found = {line['address']: (line['file'], line['line']) for function in table['functions'] for line in function['lines']}
    counted.holds('lines by readelf', found == rows and len(rows) > 6, (found, rows))


def main():
    counted = Counted()
    out = os.path.abspath(sys.argv[2] if len(sys.argv) > 2 else os.path.join(ROOT, 'bindings', 'out'))
    if not os.path.exists(os.path.join(out, 'libzikorape.so')):
        counted.leave_out('the library, which is not at %s: sh bindings/build.sh bindings/out' % out)
    else:
        threading.stack_size(8 << 20)
        zk, cc = zikorape.Library(os.path.join(out, 'libzikorape.so')), compiler.Compiler(sys.argv[1])
        runs = programs(cc)
        counted.holds('there are programs', len(runs) > 600 and sum(b'"put"' in run[4] for run in runs) > 50 and sum(run[3] == 123 for run in runs) > 20, len(runs))
        right = [run for run in runs if run[3] != 1 and len(run[4]) < 1 << 20]
        with tempfile.TemporaryDirectory() as work:
            by_hand(counted, zk)
            whole(counted, zk, runs)
            slices(counted, zk, right[:PROGRAMS])
            places(counted, zk)
            callbacks(counted, zk, cc)
            in_threads(counted, zk, right)
            in_c(counted, right, out, work)
            lines(counted, zk, cc, work)
            acts(counted, cc, zk, runs)
    print('%d passed, %d failed%s' % (counted.passed, counted.failed, ', %d skipped' % counted.skipped if counted.skipped else ''))
    return counted.failed


if __name__ == '__main__':
    sys.exit(main() != 0)

#!/usr/bin/env python3
"""check.py CC: the harness itself: what fails is counted and told, what is skipped says why, a case alone can be run, seeds are told."""
import contextlib
import io
import os
import subprocess
import sys
import tempfile

HERE = os.path.dirname(os.path.abspath(__file__))
sys.path.insert(0, os.path.dirname(HERE))
import harness
from harness import compare, elf, pace, verdict

SCRIPT = '''import sys
sys.path.insert(0, %r)
import harness

class Some(harness.Case):
    def test_right(self):
        self.expect('one', 1, 1)
        self.expect('two', 2, 2)
    def test_wrong(self):
        self.expect('three', 3, 4)
        self.expect('after it', 5, 5)
    def test_breaks(self):
        raise ValueError('broken')
    def test_empty(self):
        pass
    def test_without_a_tool(self):
        harness.needs('no-such-tool')

def row(case, number):
    harness.seeded(77)
    case.expect('', number, 7)

def cases(_):
    yield from harness.classes_of(sys.modules['__main__'])
    yield harness.Row('row seven', row, 7)
    yield harness.Row('row eight', row, 8)

sys.exit(harness.main(cases))
'''


def told(case, *words):
    """Exit status, output and last line of the script above."""
    case.program.write('script.py', SCRIPT % os.path.dirname(HERE))
    done = subprocess.run([sys.executable, 'script.py', case.path, *words], cwd=case.program.folder(), capture_output=True, text=True, check=False)
    return done.returncode, done.stdout, done.stdout.splitlines()[-1:]


def all_of_it(case):
    """2, 1 and 1 passed; wrong, broken, empty and eight failed; one was skipped."""
    status, out, last = told(case)
    case.expect('status', status, 1)
    case.expect('last line', last, ['4 passed, 4 failed, 1 skipped'])
    for line in ('FAIL Some.wrong: three: 3, not 4', 'FAIL Some.breaks: ValueError: broken', 'FAIL Some.empty: the case makes no check', 'FAIL row eight: 8, not 7'):
        case.holds(f'no line {line} in {out}', line in out)
    case.holds(f'no reason in {out}', 'skipped 1: no-such-tool is missing' in out)
    case.holds(f'no seed in {out}', 'FAIL row eight: 8, not 7 (seed 77)' in out)


def alone(case):
    case.expect('a row', told(case, '-k', 'seven')[::2], (0, ['1 passed, 0 failed']))
    case.expect('a method', told(case, '-k', 'right')[::2], (0, ['2 passed, 0 failed']))
    case.expect('two words', told(case, '-k', 'right', '-k', 'seven')[::2], (0, ['3 passed, 0 failed']))
    case.expect('none', told(case, '-k', 'nothing of this name')[::2], (1, ['0 passed, 0 failed']))
    names = told(case, '--list')[1].split('\n')
    case.holds(f'{names}', {'Some.right', 'Some.wrong', 'row seven', 'row eight'} < set(names))


def junit(case):
    told(case, '--cases', 'cases')
    written = case.program.read('cases').decode()
    case.expect('cases', (written.count('<testcase '), written.count('<failure>'), written.count('<skipped ')), (7, 4, 1))


def lines(case):
    case.expect('two counts', verdict.line(3, 0), '3 passed, 0 failed')
    case.expect('three counts', verdict.line(3, 1, 2), '3 passed, 1 failed, 2 skipped')
    counted = verdict.Verdict(quiet=True)
    case.expect('nothing is no success', counted.line(), '0 passed, 0 failed')
    case.expect('right', counted.expect('', 1, 1), True)
    case.expect('wrong', counted.expect('', 1, 2), False)
    case.expect('counts', (counted.passed, counted.failed), (1, 1))
    for what, skipped, wanted in (('nothing', 0, 1), ('what is left out with a reason', 3, 0)):
        counted = verdict.Verdict(quiet=True)
        if skipped:
            counted.skip(skipped, 'no tool')
        with contextlib.redirect_stdout(io.StringIO()):
            case.expect(what, counted.end(), wanted)


def differences(case):
    case.expect('short values', compare.short(1, 2), '1, not 2')
    long = b'a' * 1000
    said = compare.short(long + b'\nx', long + b'\ny')
    case.holds(said, 'byte 1001, line 2' in said and len(said) < 300)
    said = compare.short([*range(500), 1], [*range(500), 2])
    case.holds(said, said == 'element 500: 1, not 2')
    said = compare.short(list(range(500)), list(range(501)))
    case.holds(said, said.startswith('500 elements, not 501'))


def files(case):
    """By hand from the gABI: an executable of one segment, its entry at 0x10054."""
    file = elf.of_words([0x00100073])
    wanted = ('7f454c46 01010100 00000000 00000000 0200f300 01000000 54000100 34000000 00000000 00000000 34002000 01000000 00000000'
              '01000000 54000000 54000100 54000100 04000000 04000000 05000000 00100000 73001000')
    case.expect('bytes', file, bytes.fromhex(wanted.replace(' ', '')))
    case.expect('words', elf.words_of(file), (0x00100073,))
    case.expect('fields', [file[elf.at(name)] for name in ('class', 'order', 'type', 'machine', 'phnum')], [1, 1, 2, 243, 1])
    case.expect('a field of a segment', file[elf.at('filesz', 0)], 4)
    case.expect('changed', elf.changed(b'abcdef', 2, b'XY'), b'abXYef')
    segment = elf.segments_of(file)[0]
    case.expect('segment', (segment.vaddr, segment.filesz, segment.memsz, segment.flags), (0x10054, 4, 4, 5))


def runs(case):
    """The program by its status, its output and what it says; a process that goes on is ended by its own pace."""
    program = case.program
    program.write('main.c', 'int main(void) { for (;;) ; }\n')
    case.expect('a budget', program.run('interp', 'main.c', '--max', '10'), (124, b'', b'cc: budget used\n'))
    done = program.go('interp', 'main.c', times=2)
    case.holds(str(done.status), isinstance(done.status, str) and done.status.startswith('no end within 2 times'))
    case.expect('memory', program.run('interp', 'main.c', '--max', '10', memory=1 << 20)[0] != 124, True)
    case.expect('no program', isinstance(harness.Program('/no/such/program').go().status, str), True)
    case.expect('files', program.read('none'), b'')
    program.fresh()
    case.expect('an empty folder', os.listdir(program.folder()), [])


def slow_machine(case):
    """Where the short run takes longer now, a deadline moves."""
    with tempfile.TemporaryDirectory() as folder:
        path = os.path.join(folder, 'program')
        with open(path, 'w') as file:
            file.write('#!/bin/sh\nsleep 0.2\n')
        os.chmod(path, 0o755)
        measured = pace.Pace([path])
        case.holds(f'{measured.slowest}', measured.slowest >= 0.2)
        measured.slowest = 0.01
        end = pace.Deadline(measured, 10)
        end.begun -= 1
        case.expect('past by the old pace, and not by the new one', end.has_passed(), False)
        end.begun -= 600
        case.expect('past by both', end.has_passed(), True)


def cases(_):
    for part in (all_of_it, alone, junit, lines, differences, files, runs, slow_machine):
        yield harness.Row(part.__name__, part)


if __name__ == '__main__':
    sys.exit(harness.main(cases))

#!/usr/bin/env python3
"""Programs that `CC verify` calls defined, made undefined by one change each: `mutants.py CC`.

Of each program that check.py wants defined, of `examples/verify/*_shown.c`, and of those of tests/run and docs/LANGUAGE.md that are defined, each change by one token is
interpreted over some inputs. Where a run meets an undefined act, verify must not call the changed program defined, and must list the line of the act, or go no
further. The last line counts what passed and failed.
"""
import concurrent.futures
import os
import re
import subprocess
import sys
import tempfile

HERE = os.path.dirname(os.path.abspath(__file__))
ROOT = os.path.join(HERE, '..', '..', '..')
sys.path[:0] = [os.path.join(ROOT, 'tests')]
import harness  # noqa: E402
from defined import DEFINED  # noqa: E402

CC = os.path.abspath(sys.argv[1])
TICKS = '100000'
LEAST = 300           # so many changed programs have to be undefined

# What a token becomes.
OTHER = {'<': ['<=', '>', '!='], '<=': ['<', '>='], '>': ['>=', '<'], '>=': ['>', '<='], '==': ['!='], '!=': ['=='], '+': ['-', '*'], '-': ['+'], '*': ['+'],
         '/': ['%'], '%': ['/', '+'], '&': ['|', '+'], '|': ['&'], '&&': ['||'], '||': ['&&'], '<<': ['>>'], '>>': ['<<'], '++': ['--'], '--': ['++'],
         '+=': ['-=', '*='], '-=': ['+='], '=': ['+='], 'unsigned': ['int'], 'break': ['continue'], '0': ['1'], '1': ['0', '2']}
TOKEN = re.compile(r'/\*.*?\*/|//[^\n]*|#[^\n]*|"(?:\\.|[^"\\])*"|\'(?:\\.|[^\'\\])*\'|<<|>>|\+\+|--|&&|\|\||[-+*/%&|<>=!]=|\w+|[^\s\w]', re.S)
FIRST_VALUE = re.compile(r'(?<=[\w\]]) = (?:\{[^{};]*\}|[^,;{}()]+)(?=[;,])')
INPUTS = [b'', b'\0', b'\1', b'\2', b'A', b'B', b'\xff', b'a\n', b'3 4\n', b'\7\7\7\7\7\7\7\7\7', b'abc def\nghi\n' * 9, bytes(range(255, 0, -7))]


def changed(text):
    """Each text that differs by one token, or by a first value that is left out."""
    for found in TOKEN.finditer(text):
        word = found.group()
        others = OTHER.get(word, [])
        if word.isdigit() and not others:
            others = [str(int(word) + 1), str(int(word) - 1)]
        for other in others:
            yield text[:found.start()] + other + text[found.end():]
    for found in FIRST_VALUE.finditer(text):
        yield text[:found.start()] + text[found.end():]


def programs():
    """Each program that is to be changed, with the headers that it includes."""
    yield from ((name, {'main.c': text + '\n'}) for name, text in DEFINED.items())
    folder = os.path.join(ROOT, 'examples', 'verify')
    for name in sorted(os.listdir(folder)):
        if name.endswith('_shown.c'):
            with open(os.path.join(folder, name), encoding='utf-8') as file:
                yield 'examples/verify/' + name, {'main.c': file.read()}
    folder = os.path.join(ROOT, 'tests', 'run')
    for name in sorted(os.listdir(folder)):
        if name.endswith('.c'):
            with open(os.path.join(folder, name), encoding='latin-1') as file:
                yield 'tests/run/' + name, {'main.c': file.read()}
    with open(os.path.join(ROOT, 'docs', 'LANGUAGE.md'), encoding='utf-8') as file:
        page = file.read()
    files = dict(re.findall(r'\*\*([a-z]+\.[ch])\*\*\n\n```c\n(.*?)```', page[page.index('## Ten programs'):], re.S))
    for name, text in files.items():
        used = {other: files[other] for other in files if '"%s"' % other in text}
        if name.endswith('.c') and not used:
            yield 'LANGUAGE/' + name, {'main.c': text}


def cc(work, *words, given=b''):
    done = subprocess.run([CC, *words], cwd=work, input=given, capture_output=True, timeout=120)
    return done.returncode, done.stdout.decode(errors='replace'), done.stderr.decode(errors='replace')


def act_of(work):
    """The line of the undefined act that one of the inputs leads to, or None."""
    for given in INPUTS:
        status, _, said = cc(work, 'interp', 'main.c', '--max', TICKS, given=given)
        if status == 1 and said:
            return None
        found = re.fullmatch(r'main\.c:(\d+): undefined U\d\n', said)
        if status == 123 and found:
            return int(found.group(1))
    return None


def is_caught(text):
    """Whether what verify says of a changed program agrees with its runs; None where no run is undefined."""
    with tempfile.TemporaryDirectory() as work:
        with open(os.path.join(work, 'main.c'), 'w', encoding='utf-8') as file:
            file.write(text)
        line = act_of(work)
        if line is None:
            return None, ''
        status, out, err = cc(work, 'verify', 'main.c')
        listed = {int(at) for at in re.findall(r'^main\.c:(\d+):\d+: may be undefined', out, re.M)}
        return status == 3 and (line in listed or 'not followed' in out), (line, status, out[:300], err)


def main():
    verdict, tried, undefined = harness.Verdict(), 0, 0
    with concurrent.futures.ThreadPoolExecutor(os.cpu_count()) as pool:
        for name, files in programs():
            with tempfile.TemporaryDirectory() as work:
                for file, text in files.items():
                    with open(os.path.join(work, file), 'w', encoding='utf-8') as out:
                        out.write(text)
                status = cc(work, 'verify', 'main.c')[0]
            if not name.startswith(('LANGUAGE/', 'tests/run/')):
                verdict.holds(f'{name} is defined: {status}', status == 0)
            if status != 0:
                continue
            texts = list(changed(files['main.c']))
            for text, (caught, seen) in zip(texts, pool.map(is_caught, texts)):
                tried += 1
                if caught is not None:
                    undefined += 1
                    verdict.holds(f'{name}, changed to\n{text}{seen}', caught)
    verdict.holds(f'{undefined} of {tried} changes make something undefined', undefined >= LEAST)
    return verdict.end()


if __name__ == '__main__':
    sys.exit(main())

#!/usr/bin/env python3
"""The most memory that each command holds, on two sources of a megabyte, as a table in Markdown.

    python3 bench/memory.py [CC [TURNS]]

Called from the repository's root; CC is bin/cc by default, TURNS 3. The sources are those of lines.sh: small functions that call one another, and
assignments in functions of 1,000 lines, with longer names, since otherwise a megabyte has more nodes than a program may have. A figure is the
least of so many runs of the maximum resident set size that GNU time gives. What a command prints goes to /dev/null."""
import os
import re
import shutil
import subprocess
import sys
import tempfile

HERE = os.path.dirname(os.path.abspath(__file__))
SIZE = 1 << 20
NAMES = {'a': 'first', 'b': 'second'}
COMMANDS = [['build', 'main.c', '-o', 'out'], ['pp', 'main.c'], ['check', 'main.c'], ['list', 'main.c'], ['frames', 'main.c'],
            ['symbols', 'main.c', '-o', 'out']]
COMMANDS += [['show', form, 'main.c'] for form in ('tokens', 'tree', 'typed', 'tac', 'flat', 'passes', 'items')]
COMMANDS += [['interp', 'main.c'], ['verify', 'main.c'], ['explain', 'build', 'main.c'], ['explain', 'interp', 'main.c'], ['run', 'built']]


def of_lines(kind, count):
    return subprocess.run(['bash', os.path.join(HERE, 'lines.sh'), kind, str(count)], check=True, capture_output=True, text=True).stdout


def longer(text):
    """The same with longer names, each line of a body indented."""
    text = re.sub(r'\b[ab]\b', lambda name: NAMES[name.group()], text)
    return re.sub(r'^(?=first|second|return)', '    ', text, flags=re.M)


def largest(made):
    """Of the sources that `made` gives for a number of lines, the largest of whole thousands of lines that is a megabyte at most."""
    thousands = 1
    while len(made((thousands + 1) * 1000)) <= SIZE:
        thousands += 1
    return made(thousands * 1000)


def most(words, folder):
    """What GNU time says of a command: its status, and the most that was resident, in MiB."""
    said = os.path.join(folder, 'said')
    status = subprocess.run(['time', '-q', '-f', '%M', '-o', said, *words], cwd=folder, check=False, stdin=subprocess.DEVNULL, stdout=subprocess.DEVNULL,
                            stderr=subprocess.DEVNULL).returncode
    with open(said, encoding='utf-8') as file:
        return status, int(file.read()) / 1024


def main():
    cc = os.path.abspath(sys.argv[1] if len(sys.argv) > 1 else 'bin/cc')
    turns = int(sys.argv[2]) if len(sys.argv) > 2 else 3
    if not shutil.which('time'):
        sys.exit('left out: GNU time is missing')
    sources = {'small functions': largest(lambda count: of_lines('functions', count)),
               'assignments in long functions': largest(lambda count: longer(of_lines('statements', count)))}
    columns = []
    for text in sources.values():
        with tempfile.TemporaryDirectory() as folder:
            with open(os.path.join(folder, 'main.c'), 'w', encoding='utf-8') as file:
                file.write(text)
            subprocess.run([cc, 'build', 'main.c', '-o', 'built'], cwd=folder, check=True)
            columns.append([min(most([cc, *words], folder)[::-1] for _ in range(turns)) for words in COMMANDS])
    print('| Command | ' + ' | '.join(f'{name}, {len(text):,} bytes, {text.count(chr(10)):,} lines' for name, text in sources.items()) + ' |')
    print('|---|---|---|')
    for words, *found in zip(COMMANDS, *columns):
        shown = ' '.join(word for word in words if word not in ('main.c', '-o', 'out', 'built'))
        print(f'| `zkc {shown}` | ' + ' | '.join(f'{held:.1f}' + (f' (status {status})' if status else '') for held, status in found) + ' |')


if __name__ == '__main__':
    main()

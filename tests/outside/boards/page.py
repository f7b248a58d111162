"""boards/CONSOLE.md and boards/README.md: the commands that they show, run, and what they say of examples/console.c, counted anew."""
import os
import re
import shutil
import struct
import sys
import tempfile

import boards
import lines

sys.path.insert(0, os.path.join(os.path.dirname(boards.HERE), 'constraints'))
import model  # noqa: E402

SOURCE = os.path.join(boards.ROOT, 'examples', 'console.c')
BUILT_IN = 'int rv_getbyte(void); void rv_putbyte(int c); void rv_exit(int status);'
HOST = '#include <stdio.h>\n#include "rvio.h"\nint rv_getbyte(void) { return getchar(); }\nvoid rv_putbyte(int c) { putchar(c & 255); }\n'
GREETING = b'Zikorape console: try help\n> '


def text_of(*path):
    with open(os.path.join(boards.ROOT, *path), encoding='utf-8') as file:
        return file.read()


class Tree:
    """A folder that looks like the root of the repository, where the program is release/cc."""

    def __init__(self, compiler):
        self.made = tempfile.TemporaryDirectory()
        self.folder = self.made.name
        os.mkdir(os.path.join(self.folder, 'release'))
        os.symlink(compiler, os.path.join(self.folder, 'release', 'cc'))
        for name in ('boards', 'examples'):
            os.symlink(os.path.join(boards.ROOT, name), os.path.join(self.folder, name))

    def __enter__(self):
        return self.folder

    def __exit__(self, *_):
        self.made.cleanup()


def blocks(page):
    """The indented blocks of a page, as lists of lines."""
    found = [[]]
    for line in page.split('\n'):
        if line.startswith('    '):
            found[-1].append(line[4:])
        elif found[-1]:
            found.append([])
    return [block for block in found if block]


def shown():
    """Each command that boards/CONSOLE.md shows, and the lines below it."""
    for block in blocks(text_of('boards', 'CONSOLE.md')):
        for line in block:
            if line.startswith('$ '):
                command, below = line[2:], []
                yield command, below
            else:
                below.append(line)


def session():
    """What is typed in the page's session, a line each, the screen, and the status that is shown behind it."""
    commands = [(command, below[:]) for command, below in list(shown())]
    at = next(k for k, (command, _) in enumerate(commands) if command == 'sh boards/virt/run.sh console')
    screen = commands[at][1]
    return [line[2:] for line in screen if line.startswith('> ')], screen, int(commands[at + 1][1][0])


def commands(compiler):
    """Each command of the page, the session aside, in a shell."""
    counted = boards.Counted()
    with Tree(compiler) as folder:
        for command, below in list(shown()):
            if 'run.sh' not in command and 'echo $?' not in command:
                wanted = ''.join(line + '\n' for line in below).encode()
                counted.expect('CONSOLE.md, ' + command, boards.run(['sh', '-c', re.sub(r'\bzkc\b', 'release/cc', command)], folder=folder), (0, wanted, b''))
    return counted


def typed(compiler):
    """The page's session, typed on a terminal: its screen and its status."""
    counted = boards.Counted()
    words, screen, status = session()
    with Tree(compiler) as folder:
        boards.run(['release/cc', 'build', 'examples/console.c', '-o', 'console'], folder=folder)
        steps = [(b'> ', line.encode() + b'\n') for line in words]
        answer = lines.on_terminal(['sh', 'boards/virt/run.sh', 'console'], steps, folder)
        counted.expect('CONSOLE.md, the session', answer, (status, ''.join(line + '\n' for line in screen).encode()))
    return counted


def by_gcc(folder):
    """The console as the host's gcc makes it."""
    for name, content in (('rvio.h', BUILT_IN + '\n'), ('port.c', HOST)):
        with open(os.path.join(folder, name), 'w', encoding='latin-1') as file:
            file.write(content)
    answer = boards.run(['gcc', '-std=c11', '-funsigned-char', '-I', folder, SOURCE, 'port.c', '-o', 'host'], folder=folder)
    if answer[0] != 0:
        raise OSError('gcc: %s' % (answer,))
    return os.path.join(folder, 'host')


def every_way(compiler):
    """The same session, and others, from a file: by the interpreter, `cc run`, qemu-riscv32, both boards and gcc."""
    counted = boards.Counted()
    words, screen, status = session()
    wanted = '\n'.join('> ' if line.startswith('> ') else line + '\n' for line in screen).replace('> \n', '> ').replace('\n\n', '\n')
    with tempfile.TemporaryDirectory() as folder:
        console = os.path.join(folder, 'console')
        boards.run([compiler, 'build', SOURCE, '-o', console])
        ways = [('interp', [compiler, 'interp', SOURCE]), ('run', [compiler, 'run', console]), ('virt', boards.Board('virt').words(console)),
                ('flat', boards.Board('flat').words(console))]
        found = [('qemu-riscv32', shutil.which('qemu-riscv32') and ['qemu-riscv32', console]), ('gcc', shutil.which('gcc') and [by_gcc(folder)])]
        ways += [way for way in found if way[1]]
        counted.skip(sum(1 + len(ODD) for way in found if not way[1]), 'a tool of this way is missing')
        for name, way in ways:
            data = ''.join(line + '\n' for line in words).encode()
            counted.expect('the session, ' + name, boards.run(way, data), (status, wanted.encode(), b''))
            for odd, answer in ODD:
                counted.expect('%r, %s' % (odd[:30], name), boards.run(way, odd), answer)
    return counted


# Further inputs and what they come to, by hand.
ODD = [
    (b'', (0, GREETING, b'')),
    (b'quit', (0, GREETING, b'')),
    (b'quit 263\n', (7, GREETING, b'')),
    (b'set 3 40\r\nadd 3 2\rget 3\n\r\n count\x7f\x7f\bunt\r', (0, GREETING + b'> > 42\n> > 5\n> ', b'')),
    (b'add 9 4294967295\nadd 9 2\nget 9\nsum\n', (0, GREETING + b'> > 1\n> 1\n> ', b'')),
    (b'echo ' + b'x' * 100 + b'\n\b\bcount\n', (0, GREETING + b'x' * 55 + b'\n> 2\n> ', b'')),
    (b'set 10 1\nget\n', (0, GREETING + b'a cell, 0 to 9, and a number, please\n> a cell, 0 to 9, please\n> ', b'')),
]


def without_an_end(compiler):
    """The first 10,000 bytes of `forever` on the board."""
    counted = boards.Counted()
    wanted = (GREETING + b''.join(b'%d\n' % n for n in range(3000)))[:10000]
    with tempfile.TemporaryDirectory() as folder:
        console = os.path.join(folder, 'console')
        boards.run([compiler, 'build', SOURCE, '-o', console])
        counted.expect('forever, virt', boards.Board('virt').first(console, 10000, data=b'forever\n'), wanted)
    return counted


def counted_anew():
    """Of each function, its nodes and its weight by the second reading of the constraints."""
    found, weigh = {}, model.weight

    def weight(d, types, objects):
        nodes = 2 + model.specs_nodes(d[2]) + model.params_nodes(d[3][3]) + model.pieces_nodes(d[4])
        found[d[3][2]] = (nodes, weigh(d, types, objects))
        return found[d[3][2]][1]

    model.weight = weight
    try:
        model.unit(model.Parser(model.lex(text_of('examples', 'console.c').replace('#include <rvio.h>', BUILT_IN))).unit())
    finally:
        model.weight = weigh
    return found


def frames_of(file):
    """The bytes of each `addi x2,x2,-N` of a built file: of its functions, in their order."""
    offset, _, _, size = struct.unpack_from('<4I', file, 56)
    words = struct.unpack_from('<%dI' % (size // 4), file, offset)
    return [4096 - (word >> 20) for word in words if word & 0xFFFFF == 0x10113 and word >> 31]


def calls_of(name):
    """The functions that a function of the source calls, by its text."""
    source = text_of('examples', 'console.c')
    names = re.findall(r'^(?:static )?(?:int|void) (\w+)\(', source, re.M)
    body = re.search(r'^(?:static )?(?:int|void) %s\(.*?^}' % name, source, re.M | re.S).group(0).split('\n', 1)[1]
    return {called for called in names if re.search(r'\b%s\(' % called, body)}


def heaviest(table, column, name='main'):
    """The greatest sum of a column over the paths of calls from a function."""
    return table[name][column] + max([heaviest(table, column, called) for called in table[name][3]], default=0)


def stack(compiler):
    """The page's table of nodes, weights, frames and calls, and its sums."""
    counted = boards.Counted()
    page = text_of('boards', 'CONSOLE.md')
    rows = re.findall(r'^\| `(\w+)` \| (\d+) \| (\d+) \| (\d+) \| (.*)\|$', page, re.M)
    table = {name: (int(nodes), int(weight), int(frame), set(re.findall(r'`(\w+)`', calls))) for name, nodes, weight, frame, calls in rows}
    counted.expect('CONSOLE.md, nodes and weights', {name: row[:2] for name, row in table.items()}, counted_anew())
    with tempfile.TemporaryDirectory() as folder:
        console = os.path.join(folder, 'console')
        boards.run([compiler, 'build', SOURCE, '-o', console])
        with open(console, 'rb') as file:
            counted.expect('CONSOLE.md, frames', [row[2] for row in table.values()], frames_of(file.read()))
    counted.expect('CONSOLE.md, calls', {name: row[3] for name, row in table.items()}, {name: calls_of(name) for name in table})
    sums = tuple(re.search(r'deepest by %s: (\d+) bytes' % what, page).group(1) for what in ('weights', 'frames'))
    counted.expect('CONSOLE.md, the heaviest path', sums, (str(heaviest(table, 1)), '80'))
    path = ['main', 'answer', 'set_cell', 'is_number', 'skip_spaces']
    counted.expect('CONSOLE.md, its weights and frames', [sum(table[name][k] for name in path) for k in (1, 2)], [int(n) for n in sums])
    return counted


def newcomer(compiler):
    """The three commands of boards/README.md, of which the first has been done: then the prompt is there."""
    counted = boards.Counted()
    page = text_of('boards', 'README.md')
    three = next(block for block in blocks(page) if block[0].startswith('apt-get install'))
    prompt = next(block for block in blocks(page) if block[0].startswith('Zikorape'))
    counted.expect('README.md, the prompt', '\n'.join(prompt).encode() + b' ', GREETING)
    counted.expect('README.md, commands', len(three), 3)
    with Tree(compiler) as folder:
        counted.expect('README.md, ' + three[1], boards.run(['sh', '-c', three[1]], folder=folder), (0, b'', b''))
        answer = lines.on_terminal(['sh', '-c', three[2]], [(GREETING.replace(b'\n', b'\r\n'), b'quit\n')], folder)
        counted.expect('README.md, ' + three[2], answer, (0, GREETING + b'quit\n'))
    wrong = re.search(r'(\d+) wrong monitors', page).group(1)
    with open(os.path.join(boards.HERE, 'mutants.txt'), encoding='latin-1') as file:
        counted.expect('README.md, wrong monitors', int(wrong), sum(1 for line in file if ' | ' in line and not line.startswith('#')))
    return counted


def all_checks(compiler):
    for part in (every_way, typed, commands, newcomer, stack, without_an_end):
        yield part, (compiler,)

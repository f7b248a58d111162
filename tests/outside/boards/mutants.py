"""Wrong monitors: each is this tree's with one line of sed, and what mutants.txt names has to find it."""
import os
import subprocess
import tempfile

import boards
import lines
import traps

BODIES = {'echo': (lines.ECHO, b'a\x04b', (5, b'a\x04b', b'')), 'twice': (lines.TWICE, b'A', (7, b'', b''))}
SECONDS = 60


def found_by(compiler, name, folder):
    """A program, its input, and what it answers on a right monitor."""
    if name in BODIES:
        body, data, answer = BODIES[name]
        with open(lines.built(compiler, body, folder), 'rb') as file:
            return file.read(), data, answer
    row = next(row for row in traps.by_hand() if row.name == name)
    return row.file, b'a', row.answer


def check(compiler, name, where, finder, path, change):
    counted = boards.Counted()
    with tempfile.TemporaryDirectory() as folder:
        tree, changed = boards.mutated(folder, path, change)
        counted.expect('%s, %s: changed' % (name, where), changed, True)
        built = subprocess.run(['sh', os.path.join(tree, 'build.sh'), where, '0x1000', os.path.join(folder, 'monitor')], capture_output=True)
        counted.expect('%s, %s: assembled' % (name, where), (built.returncode, built.stderr), (0, b''))
        content, data, answer = found_by(compiler, finder, folder)
        with boards.Kept(content) as file:
            right, wrong = [board.run(file, data, seconds=SECONDS) for board in (boards.Board(where), boards.Board(where, tree))]
        counted.expect('%s, %s: %s on the right monitor' % (name, where, finder), right, answer)
        counted.expect('the wrong monitor: %s, %s: found by %s' % (name, where, finder), wrong != answer, True)
    return counted


def all_checks(compiler):
    for line in traps.rows_of(os.path.join(boards.HERE, 'mutants.txt')):
        name, where, finder, path, change = [part.strip() for part in line.split(' | ', 4)]
        yield check, (compiler, name, where, finder, path, change)

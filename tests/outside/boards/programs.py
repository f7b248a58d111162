"""150 programs of tests/outside/scalars and tests/outside/interp on the boards: the bytes and the status of their rows and of `cc run`."""
import os
import sys
import tempfile

import boards

OUTSIDE = os.path.dirname(boards.HERE)
sys.path.insert(0, os.path.join(OUTSIDE, 'interp'))
import rows  # noqa: E402

# A file, how many of its programs that end, and one of how many is taken.
TAKEN = [('scalars/random.txt', 48, 7), ('scalars/by_hand.txt', 26, 3), ('scalars/arrays.txt', 20, 2), ('interp/by_hand.txt', 32, 3),
         ('interp/random.txt', 24, 12)]


def chosen():
    """The rows, by name: every so many of a file."""
    found = []
    for path, count, step in TAKEN:
        ending = [row for row in rows.read(os.path.join(OUTSIDE, path)) if row.status.isdigit()]
        found += [(path.split('/')[0] + '/' + row.name, row) for row in ending[::step][:count]]
    return found


def build(compiler, row, folder):
    """The program's file, or what was answered instead."""
    names = ['main.c', *[name for name, _ in row.files]]
    for name, text in [('main.c', row.source), *row.files]:
        with open(os.path.join(folder, name), 'w', encoding='latin-1') as file:
            file.write(text)
    answer = boards.run([compiler, 'build', *names, '-o', 'program'], folder=folder)
    return os.path.join(folder, 'program'), answer


def check(compiler, on, name, row):
    """The row under `cc run` and on each of some boards."""
    counted = boards.Counted()
    with tempfile.TemporaryDirectory() as folder:
        file, built = build(compiler, row, folder)
        if built != (0, b'', b''):
            counted.expect(name + ', build', built, (0, b'', b''))
            return counted
        wanted = boards.answer_of_run(compiler, file, row.input)
        counted.expect(name + ', cc run', wanted, (int(row.status), row.output, b''))
        for board in on:
            counted.expect('%s, %s' % (name, board.name), board.run(file, row.input), wanted)
    return counted


def all_checks(compiler):
    """Tasks: each program on virt; every third on flat, every tenth under the strict monitors."""
    virt, flat = boards.Board('virt', many=True), boards.Board('flat', many=True)
    strict = [boards.Board('virt', strict=True, many=True), boards.Board('flat', strict=True, many=True)]
    for k, (name, row) in enumerate(chosen()):
        on = [virt] + ([flat] if k % 3 == 0 else []) + (strict if k % 10 == 0 else [])
        yield check, (compiler, on, name, row)

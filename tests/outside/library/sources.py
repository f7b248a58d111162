"""The sources that the library is tried with: each kept program of the tests as (name, [(file, bytes)], input)."""
import os
import re
import sys

HERE = os.path.dirname(os.path.abspath(__file__))
ROOT = os.path.join(HERE, '..', '..', '..')
sys.path.insert(0, os.path.join(HERE, '..', 'interp'))
import rows  # noqa: E402

# Subjects of tests/outside/cc whose first field is a source; another field is the input of those that are interpreted.
SUBJECTS = ['runs', 'refused', 'texts', 'cut', 'parts', 'narrow', 'printed', 'listed', 'interpreted']


def bytes_of(field):
    """A field in which a backslash begins `\\\\`, `\\n`, `\\t` or `\\x` and two digits."""
    def one(found):
        word = found.group(1)
        return {'n': '\n', 't': '\t'}.get(word[0], chr(int(word[1:], 16)) if word[0] == 'x' and len(word) == 3 else word)
    return re.sub(r'\\(x[0-9a-fA-F]{2}|.)', one, field).encode('latin-1')


def of_subjects():
    for subject in SUBJECTS:
        with open(os.path.join(HERE, '..', 'cc', subject), encoding='latin-1') as file:
            for number, line in enumerate(file.read().split('\n')[1:], 1):
                if line:
                    yield 'cc/%s %d' % (subject, number), [('main.c', bytes_of(line.split('\t')[0]))], b'27\n'


def of_rows(folder, name):
    for row in rows.read(os.path.join(HERE, '..', folder, name)):
        files = [('main.c', row.source)] + row.files
        yield '%s/%s' % (folder, row.name), [(file, text.encode('latin-1')) for file, text in files], row.input


def of_examples():
    folder = os.path.join(ROOT, 'examples')
    for name in sorted(os.listdir(folder)):
        if name.endswith('.c') and name != 'library.c':
            with open(os.path.join(folder, name), 'rb') as file:
                yield 'examples/' + name, [(name, file.read())], b'27\n'


def nested():
    """Constructs nested as deep as the limit of 256 lets them, and one deeper."""
    shapes = {
        'parentheses': lambda n: 'int main(void) { return %s0%s; }' % ('(' * n, ')' * n),
        'minus': lambda n: 'int main(void) { return %s1; }' % ('- ' * n),
        'blocks': lambda n: 'int main(void) { %s%s return 0; }' % ('{' * n, '}' * n),
        'ifs': lambda n: 'int main(void) { int a = 1; %s; return a; }' % ('if (a) ' * n),
        'fors': lambda n: 'int main(void) { int a = 1; %s a = 2; return a; }' % ('for (; a == 1; ) ' * n),
        'conditions': lambda n: 'int main(void) { int a = 1; return %s0%s; }' % ('a ? (' * n, ') : 1' * n),
        'sums': lambda n: 'int main(void) { int a = 1; return %s0%s; }' % ('(a + ' * n, ')' * n),
        'calls': lambda n: 'int f(int a) { return a; } int main(void) { return %s0%s; }' % ('f(' * n, ')' * n),
        'assignments': lambda n: 'int main(void) { int a; return %s1; }' % ('a = ' * n),
        'casts': lambda n: 'int main(void) { return %s1; }' % ('(int)' * n),
        'subscripts': lambda n: 'int a[1]; int main(void) { return %s0%s; }' % ('a[' * n, ']' * n),
    }
    for name, shape in shapes.items():
        for depth in (60, 120, 125, 126, 127, 250, 251, 252, 253):
            yield 'nested/%s %d' % (name, depth), [('main.c', (shape(depth) + '\n').encode())], b''


def faulty_sets():
    """Names and sizes that no set takes."""
    main = b'int main(void) { return 0; }\n'
    yield 'sets/name twice', [('main.c', main), ('main.c', main)], b''
    yield 'sets/bad name', [('main.c', main), ('a"b.h', b'\n')], b''
    yield 'sets/two files', [('main.c', b'#include "h.h"\nint main(void) { return H; }\n'), ('h.h', b'#define H 42\n')], b''
    yield 'sets/too large', [('main.c', main + b' ' * 1048576)], b''
    yield 'sets/empty', [('main.c', b'')], b''


def all_of_them():
    yield from of_subjects()
    for folder, name in [('interp', 'by_hand.txt'), ('interp', 'undefined.txt'), ('interp', 'random.txt'),
                         ('scalars', 'by_hand.txt'), ('scalars', 'arrays.txt'), ('scalars', 'random.txt')]:
        yield from of_rows(folder, name)
    yield from of_examples()
    yield from nested()
    yield from faulty_sets()

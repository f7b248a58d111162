#!/usr/bin/env python3
"""check.py CC: what the program says of every source here: those of `rows`, whose codes and lines were written by hand, the programs of
`accepted`, the sources of generate.py and, with their texts, those of many.py; and that model.py, by which many.py was made, says the
same of the first two and of the rows that are computed with the definitions. The last line counts."""
import os
import subprocess
import sys
import tempfile

HERE = os.path.dirname(os.path.abspath(__file__))
sys.path.insert(0, os.path.dirname(os.path.dirname(HERE)))
import harness

# so many there are of each
COUNTS = {'rows': 763, 'accepted': 263, 'generated': 18, 'many': 19231}
# and sources that model.py reads
READ = 1260


def listed(name):
    """The rows of a list: a name, and `ok` or the code and the line."""
    with open(os.path.join(HERE, name)) as lines:
        for line in lines:
            words = line.split()
            if words and not line.startswith('#'):
                yield words


def made(script, folder):
    subprocess.run([sys.executable, os.path.join(HERE, script), folder], check=True, stdout=subprocess.DEVNULL)


def source(*path):
    with open(os.path.join(*path), 'rb') as file:
        text = file.read()
    return text if text.endswith(b'\n') else text + b'\n'


def rows():
    for words in listed('rows.txt'):
        yield words[0], source(HERE, 'rows', words[0] + '.c'), 'ok' if words[1] == 'ok' else ' '.join(words[1:3])


def accepted():
    for words in listed('accepted.txt'):
        yield words[0], source(HERE, 'accepted', words[0] + '.c'), 'ok'


def generated():
    with tempfile.TemporaryDirectory() as folder:
        made('generate.py', folder)
        for words in listed('generated.txt'):
            yield words[0], source(folder, words[0] + '.c'), 'ok' if words[1] == 'ok' else ' '.join(words[1:3])


def many():
    with tempfile.TemporaryDirectory() as folder:
        made('many.py', folder)
        sources = source(folder, 'stdin').split(b'@\n')[:-1]
        wanted = source(folder, 'stdout').decode().split('@\n')[:-1]
        assert len(sources) == len(wanted)
        for text, line in zip(sources, wanted):
            yield text, text, line.strip()


def held(case, text, wanted):
    case.expect('', harness.code_and_line(case.program.checked(text)), wanted)


def held_of_many(case):
    """Each source of many.py has its whole line. They are made when the case runs, since that takes minutes."""
    asked = list(many())
    for (text, _, wanted), found in zip(asked, harness.side_by_side(lambda row: case.program.checked(row[1]), asked)):
        case.expect(text, found, wanted)
    case.expect('sources', len(asked), COUNTS['many'])


def model_reads(case):
    reading = subprocess.run([sys.executable, os.path.join(HERE, 'model.py')], capture_output=True, text=True, check=False)
    case.expect('', reading.stdout.split('\n')[-2:-1], [f'{READ} passed, 0 failed'])


def cases(_):
    yield harness.Row('many', held_of_many)
    for kind in (rows, accepted, generated):
        asked = list(kind())
        for name, text, wanted in asked:
            yield harness.Row(f'{kind.__name__} {name}', held, text, wanted)
        yield harness.number_of(kind.__name__, len(asked), COUNTS[kind.__name__])
    yield harness.Row('model.py', model_reads)


if __name__ == '__main__':
    sys.exit(harness.main(cases))

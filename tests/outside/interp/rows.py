"""The files of programs: a line `=== NAME | STATUS | TICKS | INPUT | OUTPUT`, then the source, and behind `--- FILE` further files.

STATUS is a number, or the undefined act with its place, as `U5 main.c:2`. TICKS is `*` where they are not counted: `ticks.py` knows
no preprocessor.
"""
import others


class Row:
    def __init__(self, head):
        self.name, self.status, self.ticks, self.word, self.wanted = [part.strip() for part in head.split(' | ')]
        self.input, self.output = others.bytes_of(self.word), others.bytes_of(self.wanted)
        self.source, self.files = '', []

    @property
    def preprocessed(self):
        """Whether there is a directive that `ticks.py` doesn't know."""
        directives = [line for line in self.source.split('\n') if line.lstrip().startswith('#')]
        return any(line != '#include <rvio.h>' and not line.startswith('#line') for line in directives)

    def add(self, line):
        if line.startswith('--- '):
            self.files.append((line[4:].strip(), ''))
        elif self.files:
            self.files[-1] = (self.files[-1][0], self.files[-1][1] + line)
        else:
            self.source += line


def status_of(ending):
    """How a run of `ticks.py` ends, as the files write it."""
    if ending[0] == 'undefined':
        return 'U%d %s:%d' % (ending[1], *ending[2])
    return str(ending[1]) if ending[0] == 'ended' else ending[0]


def read(path):
    found = []
    with open(path, encoding='latin-1') as file:
        for line in file:
            if line.startswith('=== '):
                found.append(Row(line[4:]))
            elif found:
                found[-1].add(line)
    return found


def write_ticks(path, counted):
    with open(path, encoding='latin-1') as file:
        lines = file.read().split('\n')
    for k, line in enumerate(lines):
        if line.startswith('=== '):
            parts = line[4:].split(' | ')
            parts[2] = counted[parts[0]]
            lines[k] = '=== ' + ' | '.join(parts)
    with open(path, 'w', encoding='latin-1') as file:
        file.write('\n'.join(lines))

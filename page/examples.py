#!/usr/bin/env python3
"""Makes what the page takes from the documents: examples.js of the programs of docs/LANGUAGE.md, each with the input that the page shows, and
of four more; tour.js of docs/TOUR.md.

    python3 page/examples.py            writes page/examples.js and page/tour.js
    python3 page/examples.py --check    tells whether they are of these documents"""
import json
import os
import re
import sys

HERE = os.path.dirname(os.path.abspath(__file__))
ROOT = os.path.join(HERE, '..')


def read(*path):
    with open(os.path.join(ROOT, *path), encoding='utf-8') as file:
        return file.read()


OWN = [
    ('An undefined act', '''/* The sum does not fit an int: the abstract machine stops there. What the file then does is promised to nobody. */
int main(void)
{
    int largest = 2147483647;
    return largest + 1;
}
'''),
    ('A program without an end', '''/* Writes a point every thousand rounds, for ever. */
#include <rvio.h>

int main(void)
{
    for (unsigned n = 0; ; n++)
        if (n % 1000 == 0)
            rv_putbyte('.');
}
'''),
]


def programs():
    """The main files of the page, each with its headers and its input."""
    page = read('docs', 'LANGUAGE.md')
    files = dict(re.findall(r'\*\*([a-z]+\.[ch])\*\*\n\n```c\n(.*?)```\n', page, re.S))
    for name, source in files.items():
        if not name.endswith('.c'):
            continue
        used = [name, *(header for header in re.findall(r'#include "([^"]+)"', source) if header in files)]
        stem = name[:-2]
        command = re.search(r'^    \$ (?:(printf|echo) (\'[^\']*\'|\S+) \| )?zkc run %s(?:;.*)?$' % stem, page, re.M)
        given = command.group(2).strip("'") if command.group(1) else ''
        yield {'name': stem, 'files': [[one, files[one]] for one in used], 'input': given + ('\\n' if command.group(1) == 'echo' else '')}


def examples():
    kept = [{'name': name, 'files': [[name + '.c', read('examples', name + '.c')]], 'input': ''} for name in ('hello', 'tour')]
    own = [{'name': name, 'files': [['main.c', source]], 'input': ''} for name, source in OWN]
    lines = [json.dumps(one, ensure_ascii=False) for one in [*kept, *programs(), *own]]
    return '// Made by examples.py: name, files, input as the page\'s field has it.\nexport const examples = [\n  ' + ',\n  '.join(lines) + ',\n];\n'


def tour():
    """Each step of docs/TOUR.md: its title, and its paragraphs, { text } or { code }."""
    steps = []
    for part in read('docs', 'TOUR.md').split('\n\n'):
        head = re.match(r'\*\*(?:\d+\. )?([^*]*?)\.?\*\* ?', part)
        if head:
            steps.append({'title': head.group(1), 'parts': []})
            part = part[head.end():] if re.match(r'\*\*\d', part) else part.replace('**', '')
        if steps:
            is_code = part.startswith('    ')
            steps[-1]['parts'].append({'code': re.sub('^    ', '', part.rstrip('\n'), flags=re.M)} if is_code else {'text': ' '.join(part.split())})
    lines = [json.dumps(one, ensure_ascii=False) for one in steps]
    return '// Made by examples.py of docs/TOUR.md.\nexport const steps = [\n  ' + ',\n  '.join(lines) + ',\n];\n'


def main():
    made = {'examples.js': examples(), 'tour.js': tour()}
    if sys.argv[1:] == ['--check']:
        return 0 if all(read('page', name) == text for name, text in made.items()) else 1
    for name, text in made.items():
        with open(os.path.join(HERE, name), 'w', encoding='utf-8') as file:
            file.write(text)
    return 0


if __name__ == '__main__':
    sys.exit(main())

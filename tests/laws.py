#!/usr/bin/env python3
"""What a crate cites of the proofs of another layer is a law of that layer: what answers a clause of a function without code that its
crate exports. The layers are the groups of crates.txt. Programs of rows, and rows in proofs, are left out.

    python3 tests/laws.py

Called from the repository's root. A check for each lemma that is cited; the last line counts them."""
import os
import re

import harness

# To become laws with the next change of their crates.
OPEN = {('rv32', 'Spaces', 'shows_read'), ('frames_code', 'Results', 'result_there'), ('verify_stack', 'Whole', 'sums_same'), ('verify_build', 'Joined', 'verified'), ('verify_build', 'Joined', 'some_means')}
IMPORT = re.compile(r'use Rattle\.(\w+)\.proofs\.([\w.+]+)\.\{(.*)\}')
USING = re.compile(r'(\w+)::proofs::([\w:]+)::([\w-]+)')


def layers():
    """The group of each crate."""
    found, group = {}, ''
    with open('crates.txt', encoding='utf-8') as file:
        for line in file:
            if line.startswith('#'):
                group = line
            elif ':' in line:
                found[line.split(':')[0].split()[0]] = group
    return found


def texts(folder, endings):
    for at, folders, names in os.walk(folder):
        folders[:] = sorted(it for it in folders if it != 'out')
        for name in sorted(names):
            if name.endswith(endings):
                with open(f'{at}/{name}', encoding='utf-8') as file:
                    yield f'{at}/{name}', file.read()


def cited(layer):
    """Each lemma that is cited of another layer, and by whom."""
    found = {}
    for crate in layer:
        if crate.startswith('test_'):
            continue
        for path, text in texts(f'crates/{crate}', ('.antt', '.rt')):
            names = [(of, module, name.strip()) for of, module, those in IMPORT.findall(text) for name in those.split(',')]
            names += [(of, module.replace('::', '.'), name) for of, module, name in USING.findall(text)]
            for of, module, name in names:
                if layer.get(of, layer[crate]) != layer[crate] and module.split('.')[-1] != 'Rows':
                    found.setdefault((of, module, name), path)
    return found


def laws(crate):
    """What answers the clauses of the crate's functions without code, and what is of the same type as such a clause."""
    heads = [it for _, text in texts(f'crates/{crate}/src', '.rt') for it in re.findall(r'^pub fn (\w+)\(\)\n((?:    ensures .*\n)+)\{\}', text, re.M)]
    bare, clauses = {name for name, _ in heads}, {it for _, said in heads for it in re.findall(r'\{ (\w+) \}', said)}
    found = set()
    for path, text in texts(f'crates/{crate}/proofs', '.antt'):
        if path.endswith('/Answers.antt') and path.split('/')[-2] in bare:
            answers = '\n'.join(line for line in text.split('\n') if not line.startswith(('use ', 'pub ')))
            found |= set(re.findall(r'[\w-]+', answers))
        found |= {name for name, of in re.findall(r'^pub ([\w-]+) : (\w+)$', text, re.M) if of in clauses}
    return found


def main():
    layer = layers()
    kept, verdict = {}, harness.Verdict()
    for (of, module, name), path in sorted(cited(layer).items()):
        kept.setdefault(of, laws(of))
        verdict.holds(f'{path} cites {of}.proofs.{module}.{name}, which is no law of {of}', name in kept[of] or (of, module, name) in OPEN)
    return verdict.end()


if __name__ == '__main__':
    raise SystemExit(main())

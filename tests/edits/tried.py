#!/usr/bin/env python3
"""tried.py [CRATE ..]: compares tests/edits/TRIED with this tree: for each crate with a folder here, that its edits were all
refused when it was as it is now. A crate that does not fit is told, with the command that tries it; one that TRIED does not
name is skipped, and told too. The last line counts.

TRIED has a line a crate, its name and a digest, which run.sh writes when all edits of the crate were refused. The digest is
that of the crate's libraries by crates.txt, its src/, specs/ and edits, the files of other crates that its edits change, and of the contracts of each crate below it: the files
of specs/ but for specs/inside, and of src/ types, constants, the signatures, with their clauses, of functions that others
can call, and the imports that these name; all without comments. So its comments, and proofs, bodies, private functions and tactics of the crates below, are free to
change.
"""
import hashlib
import os
import re
import sys

ROOT = os.path.abspath(os.path.join(os.path.dirname(os.path.abspath(__file__)), '..', '..'))
TRIED = os.path.join(ROOT, 'tests/edits/TRIED')


def libraries():
    """What each crate of crates.txt stands on directly, libraries of the kit among them."""
    found = {}
    with open(os.path.join(ROOT, 'crates.txt'), encoding='utf-8') as lines:
        for line in lines:
            name, colon, below = line.split('#')[0].partition(':')
            if colon:
                found[name.split()[0]] = below.split()
    return found


def below(crate, all_of_them):
    """The repository's crates below this one, each behind those that it stands on."""
    order = []

    def visit(name):
        for lower in all_of_them[name]:
            if lower in all_of_them and lower not in order:
                visit(lower)
                order.append(lower)
    visit(crate)
    return order


def files(folder, ending, without=None):
    found = []
    for at, folders, names in os.walk(folder):
        folders[:] = sorted(name for name in folders if name != without)
        found += [os.path.join(at, name) for name in sorted(names) if name.endswith(ending)]
    return found


def text_of(path):
    with open(path, encoding='utf-8') as file:
        return file.read()


FUNCTION = re.compile(r'(pub )?(const |unsafe |ghost )*fn ')
LEFT_OUT = ('//', '#', 'use ', 'mod ', 'pub(crate)', 'pub(super)')


def outside_bodies(text):
    """The lines of a source, laid out as `rt fmt` does, that others can name: no bodies, and of functions those that are public
    or a trait's."""
    kept, body, head, clauses, is_traits, is_seen = [], None, None, False, False, False
    for line in text.split('\n'):
        bare, indent = line.strip(), len(line) - len(line.lstrip())
        if body is not None:
            if indent == body and bare.startswith('}'):
                body = None
            continue
        if head is None and (not bare or bare.startswith(LEFT_OUT)) and not re.match(r'pub\(\w+\) (const |unsafe )*fn ', bare):
            continue
        if indent == 0 and bare.startswith(('impl', 'pub trait', 'trait')):
            is_traits = ' for ' in bare or 'trait' in bare
        function = FUNCTION.match(bare) or re.match(r'pub\(\w+\) (const |unsafe )*fn ', bare)
        if head is None and function:
            head, clauses = indent, False
            is_seen = bare.startswith('pub ') or indent > 0 and is_traits
        if head is None:
            if not re.match(r'ghost use .*\.(inside|proofs)\.', bare):
                kept.append(bare)
            continue
        clauses = clauses or re.match(r'(requires|ensures|decreases)\b', bare) is not None
        if bare == '{' and indent == head or not clauses and bare.endswith('{'):
            body, head, bare = head, None, bare[:-1].rstrip()
        elif not clauses and re.search(r'\{.*\}$', bare):
            head, bare = None, bare[:bare.index('{')].rstrip()
        elif bare.endswith(';'):
            head = None
        if is_seen and not bare.startswith('//'):
            kept.append(bare)
    return named_alone(kept)


IMPORT = re.compile(r'(ghost use .*?)(?:\.\{(?P<list>[^}]*)\}| as (?P<name>\S+));$')


def named_alone(lines):
    """The lines, of whose imports of definitions only what the other lines name is left."""
    said = '\n'.join(line for line in lines if not line.startswith('ghost use '))
    words = set(re.findall(r"[\w'-]+", said))

    def is_named(name):
        bare = name.split(' as ')[-1].strip()
        return bare in words or not re.fullmatch(r"[\w'-]+", bare) and all(part in said for part in bare.split('◌'))
    kept = []
    for line in lines:
        found = IMPORT.match(line)
        if not found:
            kept.append(line)
        elif found['name']:
            kept += [line] if is_named(found['name']) else []
        else:
            kept += [f'{found[1]} {name.strip()}' for name in found['list'].split(',') if is_named(name)]
    return kept


def contracts(crate):
    """What the crates above take of this one."""
    kept = []
    for path in files(os.path.join(ROOT, 'crates', crate, 'src'), '.rt'):
        kept += outside_bodies(text_of(path))
    for path in files(os.path.join(ROOT, 'crates', crate, 'specs'), '.antt', 'inside'):
        kept += [line.rstrip() for line in text_of(path).split('\n') if line.strip() and not line.lstrip().startswith('--')]
    return '\n'.join(kept)


def without_comments(text):
    """A source or a definition without the lines that are comments alone."""
    return '\n'.join(line for line in text.split('\n') if not line.lstrip().startswith(('//', '--')))


KEPT = {}


def sum_of_contracts(crate):
    if crate not in KEPT:
        KEPT[crate] = hashlib.sha256(contracts(crate).encode()).hexdigest()
    return KEPT[crate]


def digest(crate, all_of_them):
    taken = hashlib.sha256()
    taken.update(' '.join(sorted(all_of_them[crate])).encode())
    folder = os.path.join(ROOT, 'crates', crate)
    for path in files(folder + '/src', '.rt') + files(folder + '/specs', '.antt'):
        taken.update(repr((os.path.relpath(path, ROOT), without_comments(text_of(path)))).encode())
    for path in files(os.path.join(ROOT, 'tests/edits', crate), '.edit'):
        taken.update(repr((os.path.relpath(path, ROOT), text_of(path))).encode())
        for lower in sorted(set(re.findall(r'^file: \.\./(\S+)$', text_of(path), re.M))):
            taken.update(without_comments(text_of(os.path.join(ROOT, 'crates', lower))).encode())
    for lower in sorted(below(crate, all_of_them)):
        taken.update((lower + sum_of_contracts(lower)).encode())
    return taken.hexdigest()


def crates_with_edits():
    here = os.path.join(ROOT, 'tests/edits')
    return sorted(name for name in os.listdir(here) if files(os.path.join(here, name), '.edit'))


def read():
    lines = text_of(TRIED).split('\n') if os.path.isfile(TRIED) else []
    return dict(line.split() for line in lines if line and not line.startswith('#'))


def write(told):
    with open(TRIED, 'w', encoding='utf-8') as file:
        file.write('# Written by tests/edits/run.sh: each crate whose edits were all refused, with the digest of what they were tried on (tried.py).\n')
        file.writelines(f'{name} {told[name]}\n' for name in sorted(told))


def main():
    all_of_them, told = libraries(), read()
    passed, again, failed, skipped = 0, [], 0, 0
    for crate in sys.argv[1:] or crates_with_edits():
        if crate not in all_of_them:
            print(f'FAIL tests/edits/{crate}: crates.txt has no such crate')
            failed += 1
        elif crate not in told:
            print(f'SKIPPED the edits of {crate}: TRIED has no line for it')
            skipped += 1
            again.append(crate)
        elif told[crate] == digest(crate, all_of_them):
            passed += 1
        else:
            print(f'FAIL the edits of {crate} were not tried on this tree')
            failed += 1
            again.append(crate)
    for crate in sorted(set(told) - set(crates_with_edits())):
        print(f'FAIL tests/edits/TRIED has {crate}, which has no edits there')
        failed += 1
    if again:
        print('sh tests/edits/run.sh ' + ' '.join(again))
    print(f'{passed} passed, {failed} failed' + (f', {skipped} skipped' if skipped else ''))
    return failed != 0 or passed == 0


if __name__ == '__main__':
    sys.exit(main())

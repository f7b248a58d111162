#!/usr/bin/env python3
"""Writes the lists of files in the recipes of CONTRIBUTING.md: of each recipe the files that name one thing of the kind
which is there already, by its names in the code, in the definitions and in the tests.

    python3 tests/recipes.py            writes the page
    python3 tests/recipes.py --check    only says whether it is as it would be written

Called from the repository's root. With --check the last line counts the checks."""
import glob, os, re, sys

import harness

PAGE = 'CONTRIBUTING.md'
# of each recipe: the names of what is there already, and the crates that have another thing of that name
RECIPES = {
    'statement': (r'DoWhile|do_while|\bDo\b', ()),
    'operator': (r'\b(?:Rem|Percent)\b', ('rv32', 'asm', 'loader', 'sim')),
    'fault': (r'\bLabelTwice\b|\b540\b', ()),
    'built-in': (r'[gG]et_?[bB]yte|\bGotEnd\b|[gG]et_?[fF]ollows|\bPort for\b|(==|≡) 63\b|\beqb \w+ 63\b|\b63 if\b|li +t1, 63\b|\btrait Port\b', ('phases', 'lexer')),
    'instruction': (r'MulHighSignedUnsigned|mulhsu', ()),
    'option': (r'is_plain|--plain\b|"plain"', ('phases', 'pp', 'lexer', 'lower_exprs', 'frames_layout')),
    'limit': (r'function_node_limit|MAX_FUNCTION_NODES|FunctionNodeLimit|\b710\b', ()),
}

# tests that name rv_getbyte in a sample program alone
MERE_PROGRAMS = ['tests/cli/test_interp.py'] + ['tests/outside/' + name for name in (
    'boards/lines.py', 'inspecting/check.py', 'mistakes/cases.py', 'refused/bytes.py', 'scalars/generate.py', 'scalars/worked.py', 'streams/check.py')]

def read(path):
    with open(path, encoding='utf-8') as file:
        return file.read()

def files(*roots):
    for root in roots:
        for at, folders, names in os.walk(root):
            folders[:] = sorted(it for it in folders if it not in ('out', 'data', 'must-fail', 'edits'))
            yield from (os.path.join(at, name) for name in sorted(names) if name.endswith(('.rt', '.antt', '.py', '.sh', '.s')))

def flow():
    return [line.split(':')[0].split()[0] for line in read('crates.txt').split('\n') if line.strip() and not line.startswith('#')]

def lists(name, pattern, without):
    """Of each crate the files in which the names stand, and those of the tests from outside."""
    found = {}
    for path in list(files('crates', 'tests/harness', 'tests/cli', 'tests/outside', 'boards')) + sorted(glob.glob('docs/design/decisions/*.md')) + ['docs/DIAGNOSTICS.md', 'docs/LANGUAGE.md', 'docs/TOOLS.md', 'docs/design/semantics.md', 'boards/README.md', 'tests/language.py']:
        if name == 'built-in' and path in MERE_PROGRAMS:
            continue
        crate = path.split('/')[1] if path.startswith('crates/') else ''
        if crate not in without and re.search(pattern, read(path)):
            found.setdefault(crate, []).append(path)
    for crate in flow():
        if crate in found:
            inside = [re.sub(r'\.(rt|antt)$', '', path.split('/', 2)[2]) for path in found[crate]]
            inside.sort(key=lambda it: (('src', 'specs', 'proofs').index(it.split('/')[0]), it))
            yield '- `%s`: %s' % (crate, ', '.join('`%s`' % it for it in inside))
    if '' in found:
        yield '- beside the crates: ' + ', '.join('`%s`' % path for path in found[''])

def written(page):
    for name, (pattern, without) in RECIPES.items():
        begin, end = '<!-- files: %s -->\n' % name, '<!-- end -->'
        head, mark, rest = page.partition(begin)
        if not mark:
            sys.exit('%s has no place for the files of %s' % (PAGE, name))
        page = head + begin + '\n'.join(lists(name, pattern, without)) + '\n' + rest[rest.index(end):]
    return page

def main():
    if sys.argv[1:] not in ([], ['--check']):
        sys.exit(__doc__)
    page = read(PAGE)
    made = written(page)
    if sys.argv[1:] == ['--check']:
        verdict = harness.Verdict()
        verdict.holds('%s is not what tests/recipes.py writes' % PAGE, made == page)
        sys.exit(verdict.end())
    with open(PAGE, 'w', encoding='utf-8') as file:
        file.write(made)

main()

#!/usr/bin/env python3
"""Compares docs/PROVED.md with the tree: each clause that it names stands in its function, each definition file and each
test is there, and each wrong body is planted where it says, in must-fail or in tests/edits.

    python3 tests/proved.py [NAME]

NAME prints where that edit stands. Called from the repository's root. The last line counts the checks."""
import glob, os, re, sys

import harness

PAGE = open('docs/PROVED.md', encoding='utf-8').read()
verdict = harness.Verdict()

def holds(what, right):
    verdict.holds('docs/PROVED.md: %s' % what, right)

def clauses_of(crate, function):
    """The names of the clauses of a public function, or None where the crate has none of this name."""
    for path in glob.glob('crates/%s/src/**/*.rt' % crate, recursive=True):
        text = open(path, encoding='utf-8').read()
        found = re.search(r'\bpub fn %s\b.*?(?=^ *\{|\{\}|[^}] \{\n)' % function, text, re.M | re.S)
        if found:
            return re.findall(r'\bensures ([a-z_]*)', found.group(0))
    return None

def check_clauses():
    """`crate::function`, and the names that stand behind it and a colon."""
    named = re.findall(r'`([a-z_0-9]+)::([a-z_]+)`(?:: ((?:`[a-z_]+`(?:, )?)+))?', PAGE)
    holds('no clause is named', len(named) > 20)
    for crate, function, listed in named:
        there = clauses_of(crate, function)
        holds('no function %s::%s' % (crate, function), there is not None)
        for clause in re.findall(r'`([a-z_]+)`', listed):
            holds('%s::%s has no clause %s' % (crate, function, clause), there is not None and clause in there)

def rows(head):
    lines = PAGE.split(head)[1].split('\n\n')[0].split('\n')[2:]
    return [line.strip('|').split(' | ') for line in lines if line.startswith('|')]

def check_promises():
    promised = PAGE.split('## The promises')[1].split('\n\nFor each')[0]
    numbers = re.findall(r'^(\d+)\. ', promised, re.M)
    told = [row[0].split('.')[0].strip() for row in rows('| Promise |') if row[0].strip()[0].isdigit()]
    holds('the page promises %s, its table tells %s' % (' '.join(numbers), ' '.join(told)), numbers and numbers == told)
    for row in rows('| Promise |'):
        for path in re.findall(r'`([a-z_0-9]+/specs/\w+)`', row[2]):
            holds('no file %s' % path, os.path.exists('crates/%s.antt' % path))
        for name in re.findall(r'`(test_\w+)`', row[3]):
            holds('no crate %s' % name, os.path.isdir('crates/' + name))
        for path in re.findall(r'`(tests/[\w/.]+)`', row[3]):
            holds('no test %s' % path, os.path.exists(path))
        holds('%s names no %s of its own' % (row[0], row[2]), bool(row[2].strip()))

def planted(edit):
    crate, name = edit.split('/')
    return glob.glob('crates/%s/must-fail/%s.edit' % (crate, name)) + glob.glob('tests/edits/%s/%s.edit' % (crate, name))

def check_edits():
    table = rows('| Wrong body |')
    holds('no wrong body is told', len(table) > 20)
    for wrong, edits, _ in table:
        named = re.findall(r'`([a-z_0-9]+/\w+)`', edits)
        holds('%s names no edit' % wrong, named or edits.strip() == 'not planted')
        for edit in named:
            holds('no edit %s' % edit, bool(planted(edit)))

def main():
    if len(sys.argv) > 1:
        print('\n'.join(glob.glob('crates/*/must-fail/%s.edit' % sys.argv[1]) + glob.glob('tests/edits/*/%s.edit' % sys.argv[1])))
        return
    check_clauses()
    check_promises()
    check_edits()
    sys.exit(verdict.end())

main()

#!/usr/bin/env python3
"""Holds the pages of docs/design/decisions and their index, docs/design/decisions.md, together: each page has a title with its own
number and the three sections, numbers have no gap, each page is in the index exactly once, in at most a dozen words, and
each link and each path of the repository in backticks is there.

    python3 tests/decisions.py

Called from the repository's root. The last line counts the checks."""
import glob, os, re, sys

import harness

INDEX, PAGES = 'docs/design/decisions.md', 'docs/design/decisions'
SECTIONS = ['Context', 'Choice', 'Consequence']
verdict = harness.Verdict()

def check(holds, text):
    verdict.holds(text, holds)

def read(path):
    with open(path, encoding='utf-8') as file:
        return file.read()

def is_there(path):
    """A file or a folder; a file of definitions or of code may be named without its ending."""
    return os.path.exists(path) or any(os.path.exists(path + ending) for ending in ('.rt', '.antt', '.md', '.py', '.sh'))

def paths(page, text):
    """Paths from the root in backticks, crates that are called so, and links to other pages."""
    for path in re.findall(r'`((?:crates|docs|tests|bench|boards|release)/[^`\s]*)`', text):
        check(glob.glob(path) if '*' in path else is_there(path), '%s: `%s` is not there' % (page, path))
    for listed in re.findall(r'\bcrates? ((?:`\w+`(?:, and |, | and )?)+)', text):
        for crate in re.findall(r'`(\w+)`', listed):
            check(os.path.isdir('crates/' + crate), '%s: there is no crate `%s`' % (page, crate))
    for link in re.findall(r'\]\(([^)#\s]+)[^)]*\)', text):
        if '://' not in link:
            check(os.path.exists(os.path.join(os.path.dirname(page), link)), '%s: the link %s leads to nothing' % (page, link))

def main():
    index = read(INDEX)
    names = sorted(os.listdir(PAGES))
    check([name[:4] for name in names] == ['%04d' % n for n in range(1, len(names) + 1)], '%s: the numbers have a gap or one twice' % PAGES)
    for name in names:
        page = '%s/%s' % (PAGES, name)
        check(re.fullmatch(r'\d{4}-[a-z0-9]+(-[a-z0-9]+)*\.md', name), page + ': no number and title')
        text = read(page)
        check(re.match(r'# %s\. \S.*\n\n' % name[:4], text), page + ': the title has not the number of the page')
        parts = re.split(r'^## (.*)\n', text, flags=re.M)
        check(parts[1::2] == SECTIONS and all(part.strip() for part in parts[2::2]), page + ': the sections are not ' + ', '.join(SECTIONS))
        check(index.count('](decisions/%s)' % name) == 1, page + ': not exactly once in ' + INDEX)
        paths(page, text)
    lines = [line for line in index.split('\n') if line.startswith('- ')]
    for line in lines:
        entry = re.fullmatch(r'- \[(\d{4})\]\(decisions/(\d{4})-[^)]*\): (.*)', line)
        check(entry and entry[1] == entry[2] and len(entry[3].split()) <= 12, '%s: no line of at most a dozen words: %s' % (INDEX, line))
    for part in index.split('\n## ')[1:]:
        numbers = re.findall(r'^- \[(\d{4})\]', part, re.M)
        check(numbers and numbers == sorted(numbers), '%s: %s: the lines are not in the order of their numbers' % (INDEX, part.split('\n')[0]))
    paths(INDEX, index)
    sys.exit(verdict.end())

main()

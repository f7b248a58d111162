#!/usr/bin/env python3
"""Writes the list of crates in docs/design/overview.md: each heading of crates.txt, with links to the READMEs of its crates.

    python3 tests/architecture.py            writes the page
    python3 tests/architecture.py --check    only compares; also each README's title, and the paths that documents name

Called from the repository's root. With --check the last line counts the checks."""
import glob, os, re, sys

import harness

PAGE, BEGIN, END = 'docs/design/overview.md', '<!-- made by tests/architecture.py -->\n', '<!-- end -->\n'
verdict = harness.Verdict()
holds = verdict.holds

def read(path):
    with open(path, encoding='utf-8') as file:
        return file.read()

def groups():
    """The headings of crates.txt, each with its text and the crates under it."""
    found, comment = [], []
    for line in read('crates.txt').split('\n'):
        if line.startswith('#'):
            comment.append(line[1:].strip())
        elif line.strip():
            if comment:
                told = ' '.join(comment).split('  ')[-1].strip()
                name, _, text = told.partition(': ')
                found.append((name, text, []))
                comment = []
            found[-1][2].append(line.split(':')[0].split()[0])
    return found

def crates():
    return [crate for _, _, names in groups() for crate in names]

def made():
    lines = ['']
    for name, text, names in groups():
        links = ['[%s](../../crates/%s/README.md)' % (crate, crate) for crate in names]
        lines.append('- **%s**: %s. %s' % (name, text, ', '.join(links)))
    return '\n'.join(lines) + '\n\n'

# ------------------------------------------------------------------ --check

def sentences(text):
    return len(re.findall(r'[.:!?](?: (?=[A-Z`])|$)', text)) - len(re.findall(r': (?=[A-Z`])', text))

CONTRACT = r'Takes |A program for tests: takes '

def check_readmes():
    """A README says what the crate is in a sentence, and then, in one to three, what it takes, gives and promises; the first may be left out."""
    for crate in crates():
        parts = [' '.join(part.split()) for part in read('crates/%s/README.md' % crate).split('\n\n')]
        holds('crates/%s/README.md has the title %r' % (crate, parts[0]), parts[0] == '# ' + crate)
        if len(parts) > 2 and not re.match(CONTRACT, parts[1]):
            holds('crates/%s/README.md begins with %d characters: %s' % (crate, len(parts[1]), parts[1][:60]), len(parts[1]) <= 250)
            del parts[1]
        text = parts[1] if len(parts) > 1 else ''
        holds('crates/%s/README.md tells its contract in %d sentences, %d characters: %s' % (crate, sentences(text), len(text), text[:60]),
            1 <= sentences(text) <= 3 and len(text) <= 500 and re.match(CONTRACT, text) is not None)

def stands(path, crate):
    """Whether what a document names is there: a path from the root, of a crate, or of the crate whose document it is."""
    path = path.rstrip('/')
    tried = [path, 'crates/' + path, 'crates/%s/%s' % (crate or '*', path)]
    return any(glob.glob(it + end) for it in tried for end in ('', '.antt', '.rt', '.py', '.sh'))

def leads(link, document):
    """Whether the heading of a page is there to which a link leads; headings have the anchors that GitHub gives them."""
    path, anchor = link.split('#')
    page = os.path.join(os.path.dirname(document), path) if path else document
    if not os.path.isfile(page):
        return False
    heads = re.findall(r'^#+ +(.*)$', read(page), re.M)
    return anchor in [re.sub(r'[^\w\- ]', '', head.lower()).replace(' ', '-') for head in heads]

def check_paths():
    """The paths in code of each document. Words in capitals stand for any name."""
    for document in ['README.md', 'CONTRIBUTING.md'] + sorted(
            glob.glob('docs/*.md') + glob.glob('docs/design/**/*.md', recursive=True) + glob.glob('bench/*.md') + glob.glob('boards/*.md') + glob.glob('crates/*/README.md')):
        crate = document.split('/')[1] if document.startswith('crates/') else None
        wrong = []
        for path in re.findall(r'`((?:[a-z_]+/)?(?:crates|specs|proofs|src|tests|bench|docs|must-fail|release|examples)/[^` ]+)`', read(document)):
            if not re.search(r'\b[A-Z]{3,}\b(?!\.)', path) and '..' not in path and not stands(path, crate):
                wrong.append(path)
        holds('%s names what is not there: %s' % (document, ' '.join(wrong)), not wrong)
        links = [it for it in re.findall(r'\]\(([^)#:]+)(?:#[^)]*)?\)', read(document)) if not os.path.exists(os.path.join(os.path.dirname(document), it))]
        links += [it for it in re.findall(r'\]\(([^):]*#[^)]*)\)', read(document)) if not leads(it, document)]
        holds('%s links to what is not there: %s' % (document, ' '.join(links)), not links)

def main():
    if sys.argv[1:] not in ([], ['--check']):
        sys.exit(__doc__)
    page = read(PAGE)
    head, begin, rest = page.partition(BEGIN)
    part, end, tail = rest.partition(END)
    if not begin or not end:
        sys.exit('%s has no place for the crates' % PAGE)
    if sys.argv[1:] == ['--check']:
        holds('%s is not what tests/architecture.py writes' % PAGE, part == made())
        check_readmes()
        check_paths()
        sys.exit(verdict.end())
    with open(PAGE, 'w', encoding='utf-8') as file:
        file.write(head + begin + made() + end + tail)

main()

#!/usr/bin/env python3
"""Lists the statements of lemmas that stand in more than one .antt file word for word.

    python3 tests/twins.py [--std FOLDER] [WORDS..]

Called from the repository's root. With --std the lemmas of that library (such as /opt/rattle/rattle/std) count too, for
statements that stand in the tree once. WORDS restrict the list to paths that hold one of them. `means` says whether the
names in the statement are the same things in each file: `the same`, or `by its words alone` where some name is another
file's, often a definition that is a twin itself. `once in` names the crate of them on which the others stand, if there is
one: there the lemma could stand once. The last line counts the statements."""
import os, re, sys

WORD = r"[^\s(){}\[\].,:=;λ→×⊎≡≤<≢∷+*/%^&|¬]+"
HEAD = re.compile(r'^(?:pub )?(%s) : (.*)$' % WORD)
NO_LEMMA = ('use ', 'pub use ', 'mod ', 'pub mod ', 'abbrev ', 'pub abbrev ', 'record ', 'pub record ', 'data ', 'pub data ', '--', 'unfolding')

def blocks(text):
    """The file's top-level pieces, each on one line."""
    here = ''
    for line in text.split('\n') + ['']:
        if line[:1].isspace() and line.strip() and not line.strip().startswith('--'):
            here += ' ' + line.strip()
        elif not line.strip().startswith('--') or not line.strip():
            if here:
                yield here
            here = line.rstrip()

def imported(text):
    """What each name of the file's `use` lines is."""
    names = {}
    for path, listed, last in re.findall(r'^(?:pub )?use ([\w.]+?)(?:\.\{([^}]*)\}|( as \w+|))$', text, re.M):
        for item in listed.split(',') if listed else [path.rsplit('.', 1)[-1] + last]:
            words = item.split()
            if words:
                names[words[-1]] = path + '.' + words[0] if listed else path
    return names

def is_statement(words):
    """Whether a type says something: it has a relation, or an argument that it speaks of."""
    if re.search(r'[≡≤≢]| < ', words):
        return True
    for names, of in re.findall(r'[({]([^(){}:]+) : ([^(){}]*)[)}]', words):
        for name in names.split():
            if not of.startswith('Type') and len(re.findall(r'(?<![\w])%s(?![\w])' % re.escape(name), words)) > 1:
                return True
    return False

def lemmas(path):
    """Each lemma of a file: its name, its statement, and the statement with its names as they are meant there."""
    text = open(path, encoding='utf-8').read()
    names, here = imported(text), path
    own = {m.group(1) for m in re.finditer(r'^(?:pub )?(?:abbrev |record |data |unfoldable )?(%s) ' % WORD, text, re.M)}
    for block in blocks(text):
        found = None if block.startswith(NO_LEMMA) else HEAD.match(block)
        if found and is_statement(found.group(2)):
            words = ' '.join(found.group(2).split())
            meant = re.sub(WORD, lambda m: names.get(m.group(0), (here + '.' if m.group(0) in own else '') + m.group(0)), words)
            yield found.group(1), words, meant

def files(root):
    for at, folders, names in os.walk(root):
        folders[:] = sorted(it for it in folders if it != 'out' and not it.startswith('.'))
        yield from (os.path.join(at, name) for name in sorted(names) if name.endswith('.antt'))

def gather(paths):
    found = {}
    for path in paths:
        for name, words, meant in lemmas(path):
            found.setdefault(words, []).append((path, name, meant))
    return found

def home(paths):
    """The crate of these files on which the crates of the others stand, or None."""
    needs = {}
    for line in open('crates.txt'):
        if line.strip() and not line.startswith('#'):
            name, _, more = line.partition(':')
            needs[name.split()[0]] = set(more.split())
    here = {path.split('/')[1] for path in paths}
    return next((crate for crate in sorted(here) if all(crate == it or crate in needs.get(it, ()) for it in here)), None)

def main():
    words = sys.argv[1:]
    library = {}
    if words[:1] == ['--std']:
        library, words = gather(files(words[1])), words[2:]
    own = gather(files('crates'))
    shown = 0
    for statement in sorted(own, key=lambda it: (-len({p for p, _, _ in own[it]}), it)):
        at = own[statement]
        places = {path for path, _, _ in at}
        asked = not words or any(word in path for word in words for path in places)
        if asked and (len(places) > 1 or statement in library):
            shown += 1
            same = len({meant for _, _, meant in at}) == 1
            crate = home(places)
            print('%d files, means %s%s: %s' % (len(places), 'the same' if same else 'by its words alone', ', once in ' + crate if crate else '', statement))
            for path, name, _ in at + library.get(statement, []):
                print('    %s  %s' % (path, name))
    print('%d statements stand in more than one file' % shown)

main()

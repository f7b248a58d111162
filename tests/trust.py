#!/usr/bin/env python3
"""Writes the list of docs/TRUST.md anew: the definition files that have to be believed, in two tiers. The first has what
the headline needs, the clauses of cc::compile that say what is answered and what is refused: the files from which they
have their names, and all that these import in turn; of each it says how many lines are definitions that are needed by
name. The second has what the other public clauses need besides. Both are found by following `ghost use` and `use`.

    python3 tests/trust.py            writes the page
    python3 tests/trust.py --check    only says whether it is as it would be written

Called from the repository's root. It prints the lines of both tiers; with --check the last line counts the checks."""
import os, re, sys

import harness

PAGE, MARK = 'docs/TRUST.md', '<!-- made by tests/trust.py -->'
# the crate, the function and the clauses that are the headline: `made` says how the file came about
HEADLINE = ('cc', 'compile', ('built', 'refused'))
WORD = re.compile(r'[A-Za-z_]\w*')

def read(path):
    with open(path, encoding='utf-8') as file:
        return file.read()

def crates():
    return [line.split(':')[0].split()[0] for line in open('crates.txt') if line.strip() and not line.startswith('#')]

# ------------------------------------------------------- what a file imports

def used_names(text, keyword):
    """The names that `use` lines bring in, each with the paths that it may stand for."""
    found = {}
    for path, listed, last in re.findall(r'^ *%s ([\w.]+?)(?:\.\{([^}]*)\})?(?: as (\w+))?;?$' % keyword, text, re.M):
        for item in (listed.split(',') if listed else [path.rsplit('.', 1)[-1] + (' as ' + last if last else '')]):
            words = item.split()
            if words:
                found.setdefault(words[-1], set()).add(path)
    return found

def target(path):
    """The definition file of a path, or the crate, file and name of a Rust type; None for what is the kit's."""
    words = path.split('.')
    if words[:1] != ['Rattle'] or len(words) < 3 or not os.path.isdir('crates/%s/specs' % words[1]) or words[2] != 'specs':
        return None
    if words[3:4] == ['declared']:
        return (words[1], ) + rust_type(words[1], words[4:])
    for end in range(len(words), 3, -1):
        file = 'crates/%s/specs/%s.antt' % (words[1], '/'.join(words[3:end]))
        if os.path.exists(file):
            return file
    return target(handed_on(words))

def handed_on(words):
    """The path of what another crate's list of modules hands on."""
    for path, last in re.findall(r'^pub use ([\w.]+)(?: as (\w+))?$', read('crates/%s/specs/Lib.antt' % words[1]), re.M):
        if (last or path.rsplit('.', 1)[-1]) == words[3]:
            return '.'.join([path] + words[4:])
    sys.exit('no file of ' + '.'.join(words))

def rust_type(crate, words):
    """The Rust file and the name of a declared type."""
    for end in range(len(words), 0, -1):
        file = 'crates/%s/src/%s.rt' % (crate, '/'.join(words[:end]))
        if os.path.exists(file):
            return file, (words[end:] or ['functions'])[0]
    return 'crates/%s/src/lib.rt' % crate, words[0]

def imports(file):
    return {target(path) for paths in used_names(read(file), '(?:pub )?use').values() for path in paths} - {None}

def closure(roots):
    """All definition files that these need, with what each imports."""
    found, left = {}, [it for it in roots if isinstance(it, str)]
    while left:
        file = left.pop()
        if file not in found:
            found[file] = imports(file)
            left += [it for it in found[file] if isinstance(it, str)]
    return found

# --------------------------------------------------------- what clauses cite

def block(text, at):
    """The text in the braces that open at or behind a place, and the place behind them."""
    begin = end = text.index('{', at) + 1
    depth = 1
    while depth:
        depth += {'{': 1, '}': -1}.get(text[end], 0)
        end += 1
    return text[begin:end - 1], end

def clauses(text, at, wanted=None):
    """What a function asks for and ensures, from its `fn` on: all clauses, or those of the names that are wanted."""
    found = []
    while True:
        word = re.compile(r'\b(ensures|requires)\b|^ *\{|\{$|\{\}|;', re.M).search(text, at)
        if not word or word.group(1) is None:
            return found
        name = text[word.end():text.index('{', word.end())].strip()
        inner, at = block(text, word.end())
        if wanted is None or name in wanted:
            found.append(inner)

def exposed(crate):
    """The names that lib.rt gives to other crates, and the files of its public modules."""
    lib = 'crates/%s/src/lib.rt' % crate
    text = read(lib) if os.path.exists(lib) else ''
    names = {word for items in re.findall(r'^pub use ([^;]*);', text, re.M) for word in WORD.findall(items)}
    return names, ['crates/%s/src/%s.rt' % (crate, name) for name in re.findall(r'^pub mod (\w+);', text, re.M)] + [lib]

def owner(text, at):
    """The type or trait in whose block a line stands, or None."""
    heads = re.findall(r'^(?:pub )?(?:impl(?:<[^>]*>)?|trait) (?:[^{]*? for )?(\w+)[^\n]*\{$', text[:at], re.M)
    return heads[-1] if heads else None

def public_clauses(file, names, is_public):
    """The clauses of what a file gives to other crates: functions, methods, traits, and how types are seen."""
    text = read(file)
    for at in re.finditer(r'^( *)(pub )?fn (\w+)', text, re.M):
        of = owner(text, at.start()) if at.group(1) else at.group(3)
        if (at.group(2) or 'trait %s ' % of in text) and (is_public or of in names):
            yield from clauses(text, at.end())
    for at in re.finditer(r'^ +ghost (?!use\b)\w+.*[={]', text, re.M):
        if is_public or owner(text, at.start()) in names:
            yield block(text, at.start())[0]

def cited(file, clause_texts):
    """The names that clauses cite, each with its definition file."""
    stands = used_names(read(file), 'ghost use')
    words = {word for clause in clause_texts for word in WORD.findall(clause)}
    found = {(target(path), word) for word in words for path in stands.get(word, ())}
    return {(to, word) for to, word in found if isinstance(to, str)}

def rust_files(crate):
    for at, folders, names in os.walk('crates/%s/src' % crate):
        folders.sort()
        yield from (os.path.join(at, name) for name in sorted(names) if name.endswith('.rt'))

def public_roots(crate):
    names, modules = exposed(crate)
    found = set()
    for file in rust_files(crate):
        found |= cited(file, public_clauses(file, names, file in modules))
    return found

def headline_roots():
    """What the clauses of the headline cite, and how the types of its arguments are seen."""
    crate, function, wanted = HEADLINE
    for file in rust_files(crate):
        text = read(file)
        at = re.search(r'^pub fn %s\b([^{]*)' % function, text, re.M)
        if at:
            found = cited(file, clauses(text, at.start(), wanted))
            for path, items in re.findall(r'^use (\w+)::\{?([\w, ]+)', text, re.M):
                if os.path.isdir('crates/' + path):
                    seen = set(WORD.findall(items)) & set(WORD.findall(at.group(1)))
                    found |= {it for file in rust_files(path) for it in cited(file, seen_as(file, seen))}
            return found
    sys.exit('no %s::%s' % (crate, function))

def seen_as(file, names):
    text = read(file)
    for at in re.finditer(r'^ +ghost (?!use\b)\w+.*[={]', text, re.M):
        if owner(text, at.start()) in names:
            yield block(text, at.start())[0]

# --------------------------------------------- which definitions are reached

NAME = re.compile(r"[^\s(){}\[\].,:;λ]+")
SKIPPED = ('abbrev', 'pub', 'unfoldable', 'record', 'data')

def name_of(head):
    words = [word for word in head.split() if word not in SKIPPED]
    return words[0].strip(':').replace('◌', '') if words else ''

def pieces(file):
    """Each definition of a file: the names that it gives, its text, and its lines with the comment in front."""
    found, comment = [], 0
    for line in read(file).split('\n'):
        if line.startswith('--'):
            comment += 1
        elif not line.strip() or line.startswith(('use ', 'pub use ', 'infix')):
            comment = 0
        elif line[0].isspace() or found and not re.match(r'(abbrev |pub |unfoldable |record |data |mutual|%s : )' % NAME.pattern, line):
            piece = found[-1] if found else ([''], '', 0)
            given = re.match(r'\s+(?:pub )?(?:(?:data|record) )?([^\s(){}:]+) .*:|\s+(?:pub )?([^\s(){}:]+) : ', line)
            names = piece[0] + [it for it in (given.groups() if given and ('data ' in piece[1] or 'record ' in piece[1] or 'mutual' in piece[1]) else ()) if it]
            found[-1:] = [(names, piece[1] + '\n' + line, piece[2] + 1 + comment)]
            comment = 0
        else:
            found.append(([name_of(line)], line, 1 + comment))
            comment = 0
    return found

def meant(file, text, brought):
    """The names of a text, each with the definition file that it is sought in: the own one, or where `use` has it from."""
    for match in re.finditer(r"(?:(\w+)\.)?(%s)" % NAME.pattern, text):
        alias, name = match.groups()
        for path in brought.get(alias, ()) if alias else brought.get(name, brought.get('◌%s◌' % name, ())):
            to = target(path)
            if isinstance(to, str):
                yield to, name
        yield file, name

def reached(roots):
    """How many lines of each file are definitions that these names need."""
    given, brought, count, left = {}, {}, {}, list(roots)
    seen = set()
    while left:
        file, name = left.pop()
        if file not in given:
            given[file] = {}
            for piece in pieces(file):
                for one in piece[0]:
                    given[file].setdefault(one, []).append(piece)
            brought[file] = used_names(read(file), '(?:pub )?use')
        for piece in given[file].get(name, ()):
            if (file, piece[1]) not in seen:
                seen.add((file, piece[1]))
                count[file] = count.get(file, 0) + piece[2]
                left += meant(file, piece[1], brought[file])
    return count

# ------------------------------------------------------------------ the page

def is_list(path):
    return path.endswith(('/Lib.antt', '/inside.antt', '/layer.antt'))

def definition_files():
    """Those that stand outside of specs/inside and specs/layer."""
    for crate in crates():
        for at, folders, names in os.walk('crates/%s/specs' % crate):
            folders[:] = sorted(it for it in folders if it not in ('inside', 'layer', 'out'))
            yield from (p for p in (os.path.join(at, name) for name in sorted(names)) if p.endswith('.antt') and not is_list(p))

def lines_of(path):
    return read(path).count('\n')

def says(path):
    """The first sentence of the file's first comment."""
    words = []
    for line in open(path, encoding='utf-8'):
        if not line.startswith('--'):
            break
        words.append(line[2:].strip())
    text = ' '.join(words)
    end = text.find('. ')
    return (text if end < 0 else text[:end + 1]).replace('|', '\\|')

def crate_of(path):
    return path.split('/')[1]

def in_order(items, needs, order):
    """The items, each behind those that it needs, and else in the order given."""
    placed = []
    def place(item):
        if item not in placed and item in items:
            for need in sorted(needs(item), key=order):
                if need != item:
                    place(need)
            if item not in placed:
                placed.append(item)
    for item in sorted(items, key=order):
        place(item)
    return placed

def listed(path):
    """Where its crate's list of modules has a file."""
    lib = 'crates/%s/specs/Lib.antt' % crate_of(path)
    names = re.findall(r'^pub mod (\w+)', read(lib), re.M) if os.path.exists(lib) else []
    name = path.split('/')[3].removesuffix('.antt')
    return (names.index(name) if name in names else len(names), path)

def tables(found, whole, count=None):
    """A table for each crate, in an order in which each file stands behind those that it imports."""
    extra = lambda text: '' if count is None else ' %s |' % text
    flow = crates()
    used = {crate: set() for crate in flow}
    for path in found:
        used[crate_of(path)] |= {crate_of(it) for it in whole[path] if isinstance(it, str)}
    here = {crate_of(path) for path in found}
    for crate in in_order(here, lambda it: used[it] & here, flow.index):
        yield from ('', '**%s**' % crate, '', '| File | Lines |%s What it says |' % extra('Needed'), '|---|---|%s---|' % extra('---').strip(' '))
        own = [path for path in found if crate_of(path) == crate]
        for path in in_order(own, lambda it: [f for f in whole[it] if f in own], listed):
            yield '| `%s` | %d |%s %s |' % (path, lines_of(path), extra(str((count or {}).get(path, 0))), says(path))

def types_of(found, whole):
    """The Rust types of which these files speak, by the files in which they stand."""
    stand = {}
    for path in found:
        for it in whole[path]:
            if not isinstance(it, str):
                stand.setdefault(it[1], set()).add(it[2])
    for file in sorted(stand, key=lambda it: (crates().index(crate_of(it)), it)):
        yield '- `%s`: %s' % (file, ', '.join('`%s`' % name for name in sorted(stand[file])))

def tiers():
    """The definition files that the headline needs, those that other public clauses need, and the rest; and how many lines
    of each of the first are definitions that the headline reaches by name."""
    heads = headline_roots()
    first = closure({file for file, _ in heads})
    roots = {file for crate in crates() for file, _ in public_roots(crate)}
    second = {path: needs for path, needs in closure(roots).items() if path not in first}
    rest = {path: imports(path) for path in definition_files() if path not in first and path not in second}
    return [{path: needs for path, needs in tier.items() if not is_list(path)} for tier in (first, second, rest)] + [reached(heads)]

def summed(tier):
    return '%d files, %d lines with their comments' % (len(tier), sum(map(lines_of, tier)))

def made():
    first, second, rest, count = tiers()
    needed = '%s, of which %d are definitions that it needs by name' % (summed(first), sum(count.values()))
    page = ['', '## What the headline needs', '', needed + '; and these Rust types, as they are declared:', '']
    page += list(types_of(first, first)) + list(tables(first, first, count))
    page += ['', '## What the other public clauses need besides', '', summed(second) + '.'] + list(tables(second, second))
    page += ['', '## What no public clause needs', '',
        'Worked rows, and laws that proofs of other crates cite: ' + summed(rest) + '. They are checked, and need not be believed.']
    page += list(tables(rest, rest))
    return '\n'.join(page) + '\n', [needed, summed(second), summed(rest)]

def main():
    if sys.argv[1:] not in ([], ['--check']):
        sys.exit(__doc__)
    text, sums = made()
    page = read(PAGE)
    head, _, stands = page.partition(MARK + '\n')
    print('The headline needs %s.\nOther public clauses need %s besides; none needs %s.' % tuple(sums))
    if sys.argv[1:] == ['--check']:
        verdict = harness.Verdict()
        verdict.holds('docs/TRUST.md is not what tests/trust.py writes', stands == text)
        sys.exit(verdict.end())
    with open(PAGE, 'w', encoding='utf-8') as file:
        file.write(head + MARK + '\n' + text)

main()

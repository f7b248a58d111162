#!/usr/bin/env python3
"""Want of memory is answered only where a growth was refused. Each place in crates/*/src/*.rt where an error of want of memory is
made (`AllocError`, `Refusal::Memory` and its like) stands where

- a call has failed whose only error is want of memory: in an arm `Err(_)`, in `let Ok(..) = .. else`, in `if ...is_err()`, or
- an arm or a test names want of memory: `Err(AllocError) =>`, `Stop::Memory =>`, `fault.code == Code::OutOfMemory.number()`, or
- the function was given the refusal: `fn from(error: AllocError)`, `requires { IsMemoryFault fault }`.

No sum that does not fit and no shape of a program is answered by want of memory. The crates of tests are left out.

    python3 tests/memory_arms.py [FILE..]

Called from the repository's root. A check for each place; the last line counts them."""
import glob
import re
import sys

import harness

WORD = re.compile(r"'\w+(?!')|\w+!?|=>|->|::|[-+*/%&|^<>=!]=|&&|\|\||[^\s\w]")
HEADS = (';', '{', '}', 'let', 'if', 'while', 'match', 'fn', 'for', 'loop', 'impl', '=>')
CLOSERS = {')': '(', ']': '[', '}': '{'}
# Calls of std whose only error is that a growth was refused.
GROWS = {'push', 'push_str', 'reserve', 'try_reserve', 'resize', 'extend_from_slice', 'extend_from_within', 'with_capacity', 'from_elem', 'to_vec', 'insert', 'insert_full', 'format!', 'vec!',
         'Box::new', 'Rc::new', 'BufWriter::new', 'BufReader::new', 'String::from_str', 'Vec::from_slice'}
# Functions that are called where a growth was refused: the first one's calls are places, and the second prints.
GIVEN = {'out_of_memory', 'say_memory'}
NAMED = re.compile(r'\b(?:AllocError|AllocFailed|OutOfMemory|is_memory|is_for_memory|wants_memory|has_memory|had_memory)\b|:: Memory\b')
ONLY_MEMORY = re.compile(r'IfErr result \(λ \w+\. (\w+ ≡ ([\w.]+\.)?Memory|IsMemoryFault \w+)\)|IfErr result IsMemoryFault')
HEAD = re.compile(r'^( *)(?:pub(?:\([a-z]+\))? )?fn (\w+)', re.M)


def bare(text):
    """The text with comments, strings and what is proved of it made blank, each line in its place."""
    def blank(found):
        return re.sub(r'[^\n]', ' ', found.group())
    text = re.sub(r'//[^\n]*|b?"(?:[^"\\]|\\.)*"|b?\'(?:[^\'\\\n]|\\[^\n]{1,8}?)\'', lambda it: blank(it) if it.group()[0] == '/' else ' 0' + blank(it)[2:], text)
    text = re.sub(r'^\s*(?:pub )?(?:ghost )?use [^;]*;', blank, text, flags=re.M)
    text = re.sub(r'#!?\[[^\n]*\]', blank, text)
    out, at = [], 0
    for found in re.finditer(r'\b(?:requires|ensures|invariant|decreases|variant|assert|ghost)\b(?: \w+)*(?: =)? \{', text):
        if found.start() < at:
            continue
        end, depth = found.end(), 1
        while depth and end < len(text):
            depth += {'{': 1, '}': -1}.get(text[end], 0)
            end += 1
        out += [text[at:found.start()], re.sub(r'[^\n]', ' ', text[found.start():end])]
        at = end
    return ''.join(out) + text[at:]


class File:
    """The words of a file, each with its line, and the partner of each bracket."""

    def __init__(self, path):
        with open(path, encoding='utf-8') as file:
            self.text = file.read()
        self.path, self.words, self.lines, self.partner = path, [], [], {}
        for number, line in enumerate(bare(self.text).split('\n'), 1):
            for word in WORD.findall(line):
                self.words.append(word)
                self.lines.append(number)
        waiting = []
        for at, word in enumerate(self.words):
            if word in '([{':
                waiting.append(at)
            elif word in CLOSERS and waiting:
                self.partner[at] = waiting[-1]
                self.partner[waiting.pop()] = at

    def said(self, start, end):
        return ' '.join(self.words[start:end])

    def before(self, at, ends):
        """The last word before one at the same depth that is among these, or that opens a bracket."""
        at -= 1
        while at >= 0 and self.words[at] not in ends and not (self.words[at] in '([{' and at in self.partner):
            at = self.partner.get(at, at) - 1
        return at

    def places(self):
        """Where want of memory is made, and not asked for in a pattern or a comparison."""
        for at, word in enumerate(self.words):
            ahead, start, end = self.words[at - 1] if at else '', at, at + 1
            if word == 'AllocError':
                if ahead not in ('(', '{', '}', ';', '=>', '=', 'return', '|') or self.words[end] == '>':
                    continue
            elif word == 'Memory' and ahead == '::':
                while self.words[start - 1] == '::':
                    start -= 2
            elif not (word == 'memory' and self.said(at - 2, end) == 'Fault :: memory') and (word != 'out_of_memory' or ahead == 'fn'):
                continue
            while self.words[end] == ')' or self.words[end:end + 2] in ([',', ')'], ['}', '=>']):
                end += 1
            is_asked = self.words[end] in ('=>', '|', 'if') or self.words[start - 1] in ('==', '!=', '|') or 'matches!' in self.words[start - 12:start]
            if not is_asked and (self.words[end] != '=' or self.words[self.before(start, ('let',))] not in ('let', '(')):
                yield start


def functions(files):
    """For each name of a function, with and without its type, and each crate: whether want of memory is its only error. Under '' the
    libraries of each crate."""
    with open('crates.txt', encoding='utf-8') as file:
        found = {'': {line.split(':')[0].split()[0]: line.split(':')[1].split() for line in file if ':' in line and line[0] != '#'}}
    for file in files:
        crate = file.path.split('/')[1]
        for head in HEAD.finditer(file.text):
            end = re.search(r'^ *\{$|\{\}?$|;$', file.text[head.end():], re.M)
            text = file.text[head.end():head.end() + (end.end() if end else 0)]
            gives = re.search(r'-> *([^{;]*?)(?=\n *(?:requires|ensures|where|\{)| \{|;|$)', text, re.S)
            only = bool(re.search(r'(?:AllocError|AllocFailed<.*>),?\s*>$', gives.group(1).strip() if gives else '', re.S) or ONLY_MEMORY.search(text))
            inside = re.findall(r'^(?:impl|pub trait|trait)\b(?:<.*?>)?(?: .*? for)? (\w+)', file.text[:head.start()], re.M)
            for name in {head.group(2), f'{inside[-1]}::{head.group(2)}' if inside and head.group(1) else head.group(2)}:
                found.setdefault(name, {}).setdefault(crate, set()).add(only)
    return found


def called(file, start, end):
    """The last call of an expression: its path, with what it is called of."""
    at = end - 1
    while at > start:
        if file.words[at] == '?':
            at -= 1
        elif file.words[at] == ')' and at in file.partner:
            name = file.partner[at] - 1
            if file.words[name] == '>':
                while file.words[name] != '<':
                    name -= 1
                name -= 2
            if file.words[name] in ('is_err', 'as_ref', 'as_mut', 'map', 'is_ok', 'and_then'):
                at = name - 2
                continue
            of = file.words[name - 2] if file.words[name - 1] == '::' else ''
            return of, file.words[name]
        else:
            return '', ''
    return '', ''


def grows(file, known, start, end):
    """Whether an expression is a call whose only error is want of memory, or a parameter that is the result of one."""
    if end == start + 1:
        return bool(re.search(rf'\b{file.words[start]}: Result<[^\n]*\bAllocError>', file.text))
    of, name = called(file, start, end)
    if f'{of}::{name}' in GROWS:
        return True
    crate = file.path.split('/')[1]
    those = known.get(f'{of}::{name}', known.get(name, {}))
    those = {of: it for of, it in those.items() if of == crate or of in known[''][crate]}
    if crate in those or (those and name not in GROWS):
        return all(it == {True} for it in ([those[crate]] if crate in those else those.values()))
    return name in GROWS


def guards(file, known, at):
    """Whether what stands here is reached only after a growth was refused."""
    while at > 0:
        at = file.before(at, ('=>',))
        if at < 0:
            return False
        if file.words[at] == '{' and block_guards(file, known, at):
            return True
        if file.words[at] == '=>':
            opens = file.before(at, ())
            pattern = file.said(pattern_start(file, opens, at), at)
            if NAMED.search(pattern):
                return True
            head = opens
            while head > 0 and file.words[head] != 'match':
                head -= 1
            if re.fullmatch(r'Err \( \w+ \)', pattern) and grows(file, known, head + 1, opens):
                return True
            at = opens
    return False


def pattern_start(file, opens, at):
    """Where the pattern of an arm begins, in a match that opens here."""
    while at > opens + 1:
        earlier = at - 1
        if file.words[earlier] == ',' or (file.words[earlier] == '}' and earlier in file.partner and opens_arm(file, file.partner[earlier])):
            break
        at = file.partner.get(earlier, earlier) if file.words[earlier] in CLOSERS else earlier
    return at


def opens_arm(file, at):
    """Whether a block is the body of an arm, or ends one (`=> match .. { .. }`, `=> if .. { .. }`)."""
    at -= 1
    while at > 0 and file.words[at] not in (';', '{', '=>', ','):
        at = file.partner.get(at, at) - 1 if file.words[at] in CLOSERS else at - 1
    return file.words[at] == '=>'


def block_guards(file, known, at):
    """Whether a block is entered only after a growth was refused: by an `if`, or by the `else` of a `let Ok`."""
    is_else = file.words[at - 1] == 'else'
    start = at - 2 if is_else else at - 1
    while start > 0 and file.words[start] not in HEADS:
        start = file.partner.get(start, start) - 1 if file.words[start] in (')', ']') or (is_else and file.words[start] == '}') else start - 1
    text, head = file.said(start, at), file.words[start]
    if is_else:
        return head == 'let' and text.startswith('let Ok (') and grows(file, known, file.words.index('=', start) + 1, at - 1)
    if head == 'fn':
        return given(file, start, at)
    if head != 'if':
        return False
    if NAMED.search(text) and '!=' not in text:
        return True
    if file.words[start + 1] == 'let':
        return text.startswith('if let Err (') and grows(file, known, file.words.index('=', start) + 1, at)
    return text.endswith('. is_err ( )') and '||' not in text and grows(file, known, start + 1, at)


def given(file, start, at):
    """Whether a function is given the refusal."""
    if re.search(r': (?:AllocError|AllocFailed)\b', file.said(start, at)):
        return True
    lines = file.text.split('\n')[file.lines[start] - 1:file.lines[at]]
    return file.words[start + 1] in GIVEN or any(re.match(r'\s*requires .*IsMemoryFault', line) for line in lines)


def main(paths):
    files = [File(path) for path in sorted(glob.glob('crates/*/src/**/*.rt', recursive=True)) if not path.startswith('crates/test_')]
    known, verdict = functions(files), harness.Verdict()
    for file in files:
        if paths and file.path not in paths:
            continue
        for at in file.places():
            verdict.holds(f'{file.path}:{file.lines[at]} answers want of memory where no growth was refused', guards(file, known, at))
    return verdict.end()


if __name__ == '__main__':
    raise SystemExit(main(sys.argv[1:]))

#!/usr/bin/env python3
"""Plays sessions written by hand from the protocol to `zkc lsp`, and compares its answers with tables written by hand.

    python3 tests/outside/lsp/check.py [CC [CHECK..]]

CHECK: only the checks of these names, as `written`. The last line is `N passed, M failed`."""
import glob
import json
import os
import resource
import subprocess
import sys

sys.path.insert(0, os.path.dirname(os.path.dirname(os.path.dirname(os.path.abspath(__file__)))))
import harness

here = os.path.dirname(os.path.abspath(__file__))
sys.path.insert(0, here)
from client import Session, frame, notice, places, request, shown, unframed
from programs import BLOCKS, FAULTS, FOLDS, FRAMES, HINTS, HOVERS, INCLUDES, LIGHT, NAMES, OFFERS, OPTIONS, RING, SCOPED, SIGNATURES, SYMBOLS, TABLE, TOKENS, UNSURE, place, program
from replay import replay

top = os.path.dirname(os.path.dirname(os.path.dirname(here)))
cc = os.path.abspath(sys.argv[1] if len(sys.argv) > 1 else os.path.join(top, 'bin/cc'))
verdict = harness.Verdict()
MUTATED = 5000
PROGRAMS = (RING, LIGHT, TABLE)

# Scopes within scopes (6.2.1), macros, and enumerations without and with their tags.
SCOPES = {
    'main.c': 'int x;\nint f(int x) { { int x = 1; x; } for (int x = 0; x; ) x; return x; }\nint main(void) { return f(0); }\n',
}
MACROS = {
    'main.c': '#define SQ(a) ((a)*g)\nint g;\nint y = 2;\nenum e { A, B = A };\nenum e w;\nint main(void) { return SQ(2); }\n',
}

# Where a name is defined that stands at a place: file, line, first and last character.
DEFINITIONS = [
    (SCOPES, 'main.c', 0, 4, ('main.c', 0, 4, 5)),
    (SCOPES, 'main.c', 1, 10, ('main.c', 1, 10, 11)),
    (SCOPES, 'main.c', 1, 28, ('main.c', 1, 21, 22)),
    (SCOPES, 'main.c', 1, 49, ('main.c', 1, 42, 43)),
    (SCOPES, 'main.c', 1, 54, ('main.c', 1, 42, 43)),
    (SCOPES, 'main.c', 1, 64, ('main.c', 1, 10, 11)),
    (MACROS, 'main.c', 0, 16, ('main.c', 0, 11, 12)),
    (MACROS, 'main.c', 0, 19, ('main.c', 1, 4, 5)),
    (MACROS, 'main.c', 5, 24, ('main.c', 0, 8, 10)),
    (MACROS, 'main.c', 3, 16, ('main.c', 3, 9, 10)),
    (MACROS, 'main.c', 4, 5, ('main.c', 3, 5, 6)),
]


class Asked:
    """The answers to many requests about a program, all files of which are open, in one session."""

    def __init__(self, files, options=None, encodings=None):
        self.session = Session(program(files), options or OPTIONS.get(id(files), {'main': 'main.c'}), encodings)
        self.waiting = []
        for name, text in files.items():
            self.session.open(name, text)

    def ask(self, number, take):
        """Has the answer of this number looked at in the end."""
        self.waiting.append((number, take))

    def end(self):
        status, answers, notices = self.session.run(cc)
        verdict.expect('the status of a session', status, 0)
        for number, take in self.waiting:
            take(answers.get(number, {}))
        return notices


def expected(what, wanted, of):
    """Looks at an answer: what `of` makes of it is to be this."""
    return lambda answer: verdict.expect(what, of(answer), wanted)


def relative(session, answer):
    """The places of an answer, with files as the program has them."""
    found = []
    for it in answer.get('result') or []:
        start, end = it['range']['start'], it['range']['end']
        found.append((it['uri'].removeprefix(session.uri('')).lstrip('/'), start['line'], start['character'], end['character']))
    return sorted(found)


def edits(session, answer):
    """The places of a change."""
    found = []
    for uri, list_ in ((answer.get('result') or {}).get('changes') or {}).items():
        for it in list_:
            start, end = it['range']['start'], it['range']['end']
            found.append((uri.removeprefix(session.uri('')).lstrip('/'), start['line'], start['character'], end['character'], it['newText']))
    return sorted(found)


def text_of(answer):
    """What a hover says."""
    return ((answer.get('result') or {}).get('contents') or {}).get('value', '')


def check_names():
    for files, name, line, character, wanted in DEFINITIONS:
        asked = Asked(files)
        asked.ask(asked.session.at('definition', name, line, character), expected(f'definition {name}:{line}:{character}', [wanted], places))
        asked.end()
    for files in PROGRAMS:
        asked = Asked(files)
        for definition, uses in [(row[1], row[2]) for row in NAMES if row[0] is files]:
            check_name(asked, files, definition, uses)
        for where, wanted in [(row[1], row[2]) for row in INCLUDES if row[0] is files]:
            name, line, first, _ = place(files, where)
            asked.ask(asked.session.at('definition', name, line, first), expected(f'include {where}', [(wanted, 0, 0, 0)], lambda it: relative(asked.session, it)))
        asked.end()


def check_name(asked, files, definition, uses):
    """Every place of a name leads to the definition, and has all places; renaming changes these."""
    session = asked.session
    own = place(files, definition)
    every = sorted([own] + [place(files, use) for use in uses])
    for name, line, first, last in every:
        what = f'{name}:{line}:{first}'
        asked.ask(session.at('definition', name, line, first), expected(f'definition {what}', [own], lambda it: relative(session, it)))
        asked.ask(session.at('references', name, line, last, context={'includeDeclaration': True}), expected(f'references {what}', every, lambda it: relative(session, it)))
        asked.ask(session.at('documentHighlight', name, line, first), expected(f'highlights {what}', sorted((it[1], it[2]) for it in every if it[0] == name), in_file))
        asked.ask(session.at('prepareRename', name, line, first), expected(f'prepareRename {what}', definition[2].strip(), lambda it: (it.get('result') or {}).get('placeholder')))
    name, line, first, _ = every[-1]
    asked.ask(session.at('rename', name, line, first, newName='another_name'),
              expected(f'rename {own}', [(*it, 'another_name') for it in every], lambda it: edits(session, it)))


def in_file(answer):
    return sorted((it['range']['start']['line'], it['range']['start']['character']) for it in answer.get('result') or [])


def check_hovers():
    for files in (*PROGRAMS, BLOCKS):
        asked = Asked(files)
        for where, wanted in [(row[1], row[2]) for row in HOVERS if row[0] is files]:
            name, line, first, _ = place(files, where)
            asked.ask(asked.session.at('hover', name, line, first), has_lines(f'hover {where}', wanted))
        for where in [row[1] for row in FRAMES if row[0] is files]:
            name, line, first, _ = place(files, where)
            asked.ask(asked.session.at('hover', name, line, first), has_lines(f'frame {where}', [frame_line(asked.session, where[2])]))
        asked.end()


def has_lines(what, wanted):
    def take(answer):
        lines = text_of(answer).splitlines()
        verdict.holds(f'{what} has {[it for it in wanted if it not in lines]} in {lines}', all(it in lines for it in wanted))
    return take


def frame_line(session, function):
    """The line about a function's frame and weight, by `zkc frames`."""
    options = session.options
    words = [cc, 'frames', os.path.join(session.folder, options['main'])]
    words += [word for it in options.get('include', []) for word in ('-I', os.path.join(session.folder, it))] or ['-I', session.folder]
    words += [word for it in options.get('define', []) for word in ('-D', it)]
    done = subprocess.run(words, stdout=subprocess.PIPE, text=True, check=False)
    rows = [row.split() for row in done.stdout.splitlines()]
    return next((f'frame {row[1]} bytes, weight {row[2]} bytes' for row in rows if row[:1] == [function]), f'no frame of {function}')


def check_unsure():
    """What is not sure is not shown: a name of a block in a macro's expansion, a macro that is defined twice, a branch that is skipped, a program with a fault."""
    text = ('#define TWO (A + B)\n#define N 1\n#undef N\n#define N 2\nenum { A = 1, B };\nint x;\n#if 0\nint f(void) { long x = 1; return x; }\n#endif\n'
            'int main(void) { enum { A = 7 }; int z = TWO; return z + A + x; }\n')
    rows = [('main.c', 9, 41, 'value'), ('main.c', 1, 8, 'value'), ('main.c', 7, 20, 'type')]
    files = {'main.c': text}
    asked = Asked(files)
    for name, line, character, word in rows:
        asked.ask(asked.session.at('hover', name, line, character), no_line(f'hover {line}:{character}', word))
    asked.ask(asked.session.at('hover', 'main.c', 9, 57), has_lines('hover of the enumerator of the block', ['value `7`']))
    asked.end()
    asked = Asked({'main.c': 'enum { A = 1 };\nint main(void) { return A }\n'})
    asked.ask(asked.session.at('hover', 'main.c', 0, 7), no_line('hover in a program with a fault', 'value'))
    asked.end()
    for text, where, word in UNSURE:
        asked = Asked({'main.c': text})
        asked.ask(asked.session.at('hover', *place({'main.c': text}, where)[:3]), no_line(f'hover {where} of {text!r}', word))
        asked.end()


def no_line(what, word):
    def take(answer):
        lines = text_of(answer).splitlines()
        verdict.holds(f'{what} has no line {word}, and a text: {lines}', lines != [] and not any(it.startswith(word + ' `') for it in lines))
    return take


# A quotient by what is read: rv_getbyte gives -1 to 255.
QUOTIENT = '#include <rvio.h>\nint main(void)\n{\n    int a = rv_getbyte();\n    return 100 / (a - 7) & 1;\n}\n'


def verify(session, name):
    """Asks for a program to be verified as its texts stand."""
    return session.ask('workspace/executeCommand', {'command': 'zikorape.verify', 'arguments': [session.uri(name)]})


def told_at(notices, uri):
    """What was told of a file, one time after another: the severities and the lines."""
    told = [it['params']['diagnostics'] for it in notices if it.get('method') == 'textDocument/publishDiagnostics' and it['params']['uri'] == uri]
    return [[(each['severity'], each['range']['start']['line']) for each in list_] for list_ in told]


def check_interval():
    """What `zkc verify` knows of a place is shown there, once the file is saved, or verified by the command."""
    asked = Asked({'main.c': QUOTIENT})
    asked.session.tell('textDocument/didSave', {'textDocument': {'uri': asked.session.uri('main.c')}})
    asked.ask(asked.session.at('hover', 'main.c', 4, 15), has_lines('hover /', ['may be undefined: division by zero: `-8 to 248`']))
    asked.end()
    for options in ({'main': 'main.c'}, {'main': 'main.c', 'verify': False}):
        asked = Asked({'main.c': QUOTIENT}, options)
        session = asked.session
        asked.ask(session.of('foldingRange', 'main.c'), lambda _: None)
        # the text that is not saved counts
        session.change('main.c', (4, 22), (4, 23), '9')
        asked.ask(verify(session, 'main.c'), expected('the answer to the command', (True, None), lambda it: ('result' in it, it.get('result'))))
        asked.ask(session.at('hover', 'main.c', 4, 15), has_lines('hover / behind the command', ['may be undefined: division by zero: `-10 to 246`']))
        # a change withdraws the place, and a save tells it where the option has it so
        session.change('main.c', (0, 0), (0, 0), '\n')
        asked.ask(session.of('foldingRange', 'main.c'), lambda _: None)
        session.tell('textDocument/didSave', {'textDocument': {'uri': session.uri('main.c')}})
        asked.ask(session.of('foldingRange', 'main.c'), lambda _: None)
        wanted = [[], [(3, 4)], [], [(3, 5)] if 'verify' not in options else []]
        verdict.expect(f'{options}: what is told', told_at(asked.end(), session.uri('main.c')), wanted)
    # a change without changes withdraws nothing
    asked = Asked({'main.c': QUOTIENT})
    session = asked.session
    asked.ask(verify(session, 'main.c'), lambda _: None)
    session.tell('textDocument/didChange', {'textDocument': {'uri': session.uri('main.c'), 'version': 2}, 'contentChanges': []})
    asked.ask(session.of('foldingRange', 'main.c'), lambda _: None)
    verdict.expect('a change without changes', told_at(asked.end(), session.uri('main.c')), [[(3, 4)]])
    # an included file names its program, and a program with a fault is not verified: `int ;` declares nothing (6.7p2)
    asked = Asked({'main.c': '#include "a.h"\n' + QUOTIENT, 'a.h': 'int b;\n'})
    session = asked.session
    asked.ask(verify(session, 'a.h'), lambda _: None)
    session.change('a.h', (0, 4), (0, 5), '')
    asked.ask(verify(session, 'a.h'), lambda _: None)
    notices = asked.end()
    verdict.expect('a command for an included file', [told_at(notices, session.uri(name)) for name in ('main.c', 'a.h')], [[[(3, 5)], []], [[], [(1, 0)]]])


def check_others():
    for files in (*PROGRAMS, BLOCKS):
        asked = Asked(files)
        session = asked.session
        for name, wanted in [row[1:] for row in SYMBOLS if row[0] is files]:
            asked.ask(session.of('documentSymbol', name), expected(f'symbols of {name}', wanted, lambda it: [(each['name'], each['kind']) for each in it.get('result') or []]))
        for name, wanted in [row[1:] for row in FOLDS if row[0] is files]:
            asked.ask(session.of('foldingRange', name), expected(f'folding of {name}', wanted, lambda it: [(each['startLine'], each['endLine']) for each in it.get('result') or []]))
        for where, label, argument in [row[1:] for row in SIGNATURES if row[0] is files]:
            name, line, first, _ = place(files, where)
            asked.ask(session.at('signatureHelp', name, line, first), expected(f'signature {where}', ([label], argument), signature))
        for name, wanted in [row[1:] for row in HINTS if row[0] is files]:
            asked.ask(session.of('inlayHint', name, range={'start': {'line': 0, 'character': 0}, 'end': {'line': 99, 'character': 0}}), expected(f'hints of {name}', wanted, hints))
        for name, wanted in [row[1:] for row in TOKENS if row[0] is files]:
            asked.ask(session.of('semanticTokens/full', name), expected(f'tokens of {name}', wanted, lambda it, count=len(wanted): ((it.get('result') or {}).get('data') or [])[:count]))
        for name, line, character, there, absent in [row[1:] for row in OFFERS if row[0] is files]:
            asked.ask(session.at('completion', name, line, character), offers(f'completion {name}:{line}', there, absent))
        asked.end()


def signature(answer):
    help_ = answer.get('result') or {}
    return [it['label'] for it in help_.get('signatures', [])], help_.get('activeParameter')


def hints(answer):
    return [(it['position']['line'], it['position']['character'], it['label']) for it in answer.get('result') or []]


def labels(answer):
    return {it['label'] for it in (answer.get('result') or {}).get('items', [])}


def offers(what, there, absent):
    return lambda answer: verdict.holds(f'{what} has {sorted(there - labels(answer))} and not {sorted(absent & labels(answer))}', there <= labels(answer) and not absent & labels(answer))


# What a line of a main file begins with, and what is offered at its end: names that are there, and names that are not.
LINES = [
    ('#', {'include', 'define', 'ifdef', 'endif'}, {'main', 'while', 'pragmas'}),
    ('  #  inc', {'include'}, {'main'}),
    ('??=def', {'define'}, {'main'}),
    ('%:', {'undef', 'elif'}, {'int'}),
    ('#ifdef ', {'ROWS', 'CELL'}, {'main', 'flat', 'while'}),
    ('#include <', {'rvio.h', 'limits.h', 'stdbool.h', 'iso646.h'}, {'table.h', 'table.c', 'main'}),
    ('#include "', {'rvio.h', 'table.h', 'table.c', 'more/'}, {'main', 'notes.txt', '.hidden.h'}),
    ('#include "ta', {'table.h', 'table.c'}, {'main'}),
    ('#include "more/', {'deep.h'}, {'rvio.h', 'table.h', 'more/'}),
    # main is declared behind this line, so it is not in scope (6.2.1p7)
    ('#include "table.h" ', {'limit', 'while'}, {'main', 'rvio.h'}),
    ('flat[0] = ', {'flat', 'CELL', 'while'}, {'main', 'include', 'rvio.h'}),
]


def check_lines():
    """What is offered in directives and in names of headers."""
    for line, there, absent in LINES:
        files = dict(TABLE)
        files.update({'src/more/deep.h': '', 'src/notes.txt': '', 'src/.hidden.h': ''})
        text = files['src/main.c'].replace('int main(void)\n', line + '\nint main(void)\n')
        session = Session(program(files), OPTIONS[id(TABLE)])
        session.open('src/main.c', text)
        number = session.at('completion', 'src/main.c', 4, len(line))
        status, answers, _ = session.run(cc)
        verdict.expect(f'{line!r}: the status', status, 0)
        offers(f'completion behind {line!r}', there, absent)(answers.get(number, {}))
        # what is offered replaces what is written behind the last slash
        for it in (answers.get(number, {}).get('result') or {}).get('items', []):
            if 'textEdit' in it:
                first = len(line) - len(line.rsplit('"', 1)[-1].rsplit('<', 1)[-1].rsplit('/', 1)[-1])
                span = it['textEdit']['range']
                verdict.expect(f'{line!r}: {it["label"]} replaces', (span['start']['character'], span['end']['character']), (first, len(line)))
                break


def check_scopes():
    """Where a name is in scope."""
    for what, files, there, absent in SCOPED:
        name = next(name for name, text in files.items() if '@' in text)
        before = files[name].split('@')[0]
        asked = Asked({each: text.replace('@', '') for each, text in files.items()})
        asked.ask(asked.session.at('completion', name, before.count('\n'), len(before) - before.rfind('\n') - 1), offers(what, there, absent))
        asked.end()


def check_rename():
    for name, new in (('a keyword', 'while'), ('no name', '1x'), ('a name that is taken', 'count')):
        asked = Asked(RING)
        asked.ask(asked.session.at('rename', 'ring.c', 3, 6, newName=new), expected(f'rename to {name}', -32803, code_of))
        asked.end()


def check_options():
    """Macros of the options, as of `-D` and `-U`."""
    text = '#if SIZE != 3 || defined GONE\n#error no\n#endif\nint a[SIZE];\nint main(void) { return SUM(1, 2) - 3; }\n'
    options = {'main': 'main.c', 'define': ['SIZE=3', 'GONE', 'SUM(a,b)=((a)+(b))', '2x', 'A\nB'], 'undefine': ['GONE', '-']}
    asked = Asked({'main.c': text}, options)
    asked.ask(asked.session.at('hover', 'main.c', 4, 25), has_lines('hover SUM', ['#define SUM(a,b) ((a)+(b))', '( ( 1 ) + ( 2 ) )', 'value `3`']))
    notices = asked.end()
    verdict.expect('the program is not refused', shown(notices, asked.session.uri('main.c')), [])
    said = sorted(it['params']['message'] for it in notices if it.get('method') == 'window/showMessage')
    verdict.expect('what is no macro is told', said, [f'zkc: no macro, and left out: {it}' for it in ('-', '2x', 'A\nB')])
    # a fault of a definition names the option
    asked = Asked({'main.c': 'int main(void) { return 0; }\n'}, {'main': 'main.c', 'define': ['F(=1']})
    told = shown(asked.end(), asked.session.uri('main.c')) or []
    verdict.holds(f'a wrong definition is told: {told}', len(told) == 1 and told[0]['range']['start'] == {'line': 0, 'character': 0} and 'define F' in told[0]['message'])


# Programs whose preprocessing is more work than is done, each of a few lines or of many like ones.
BOMBS = [
    ('a macro that copies its argument', '#define D(x) x x\nint x = 0 ' + 'D(' * 30 + '+1' + ')' * 30 + ';\nint main(void) { return x; }\n'),
    ('macros that double', ''.join(f'#define A{k} A{k + 1} A{k + 1}\n' for k in range(40)) + '#define A40 +1\nint x = 0 A0;\nint main(void) { return x; }\n'),
    ('macros that copy, one behind the other', '#define B0(x) x x\n' + ''.join(f'#define B{k}(x) B{k - 1}(x) B{k - 1}(x)\n' for k in range(1, 30)) + 'int x = 0 B29(+1);\nint main(void) { return x; }\n'),
    ('calls within calls', '#define F(x) (x)\nint x = ' + 'F(' * 50000 + '1' + ')' * 50000 + ';\nint main(void) { return x; }\n'),
    ('a file that includes itself', '#include "main.c"\n#include "main.c"\nint main(void) { return 0; }\n'),
]


def check_bombs():
    """A program that is too much work is not looked at, which is said; the session goes on."""
    for name, text in BOMBS:
        asked = Asked({'main.c': text})
        asked.ask(asked.session.at('hover', 'main.c', 0, 9), lambda answer, name=name: verdict.holds(f'{name}: a hover is answered', 'result' in answer))
        asked.session.change('main.c', (0, 0), (99999, 0), 'int main(void) { return 0 }\n')
        notices = asked.end()
        told = [it['params']['diagnostics'] for it in notices if it.get('method') == 'textDocument/publishDiagnostics']
        verdict.expect(f'{name}: what is told', [[each['code'] for each in list_] for list_ in told], [['budget'], ['401']])


def check_size():
    """What a large program costs: a long line no more than short ones, and fewer faults of more tokens."""
    times = []
    for behind in '\n ':
        asked = Asked({'main.c': f'int a;{behind}' * 12000 + 'int main(void) { return a; }\n'})
        # int and a of each; int, main, void, return and a
        asked.ask(asked.session.of('semanticTokens/full', 'main.c'), expected('tokens of a large file', 5 * (2 * 12000 + 5), lambda it: len((it.get('result') or {}).get('data') or [])))
        before = resource.getrusage(resource.RUSAGE_CHILDREN).ru_utime
        asked.end()
        times.append(resource.getrusage(resource.RUSAGE_CHILDREN).ru_utime - before)
    verdict.holds(f'lines of one declaration take {times[0]:.2f} s, and one line of all takes {times[1]:.2f} s', times[1] < 8 * times[0])
    # 210,000 tokens and some: 1,000,000 by that is 4; with a tenth of them 10
    for count, wanted in ((70000, 4), (7000, 10)):
        asked = Asked({'main.c': 'int a;\n' * count + ''.join(f'int f{k}(void) {{ return q{k}; }}\n' for k in range(12)) + 'int main(void) { return a; }\n'})
        verdict.expect(f'faults of {count} lines', len(shown(asked.end(), asked.session.uri('main.c')) or []), wanted)


# A text with a fault: a missing semicolon. The line and the characters of the token behind it in UTF-16 and in UTF-8, by hand.
PLACES = [
    ('plain', 'int main(void)\n{\n    int a = 1\n    return a;\n}\n', (3, 4, 10), (3, 4, 10)),
    ('tabs', 'int main(void)\n{\n\tint a = 1\n\treturn a;\n}\n', (3, 1, 7), (3, 1, 7)),
    ('CR LF', 'int main(void)\r\n{\r\n    int a = 1\r\n    return a;\r\n}\r\n', (3, 4, 10), (3, 4, 10)),
    ('UTF-8', 'int main(void)\n{\n    int a = 1\n/* \u00e9\U0001f600 */ return a;\n}\n', (3, 10, 16), (3, 13, 19)),
]


# The same names in files that are written otherwise: lines end with CR LF, a name is spliced, `#` and `[` are trigraphs, a comment has UTF-8, tabs stand before.
# Each has a use of `total` and its definition: the line, and the first and last character in UTF-16 and in UTF-8.
WRITTEN = [
    ('CR LF', 'int total;\r\nint main(void)\r\n{\r\n    return total;\r\n}\r\n', (3, 11, 16), (3, 11, 16), (0, 4, 9), (0, 4, 9)),
    ('CR alone', 'int total; /* a\rb */ int main(void) { return total; }\n', (1, 29, 34), (1, 29, 34), (0, 4, 9), (0, 4, 9)),
    ('tabs', '\tint\ttotal;\nint main(void)\n{\n\treturn\ttotal;\n}\n', (3, 8, 13), (3, 8, 13), (0, 5, 10), (0, 5, 10)),
    ('comments', '/* \u00e9\U0001f600 */ int total;\nint main(void) { /* \u20ac */ return total; }\n', (1, 32, 37), (1, 34, 39), (0, 14, 19), (0, 17, 22)),
    ('trigraphs', '??=define total all??(0??)\nint all??(1??);\nint main(void) ??< return total; ??>\n', (2, 26, 31), (2, 26, 31), (0, 10, 15), (0, 10, 15)),
    ('digraphs', '%:define total all<:0:>\nint all<:1:>;\nint main(void) <% return total; %>\n', (2, 25, 30), (2, 25, 30), (0, 9, 14), (0, 9, 14)),
    ('a splice before', 'int \\\ntotal;\nint main(void) { return \\\n  total; }\n', (3, 2, 7), (3, 2, 7), (1, 0, 5), (1, 0, 5)),
]
# A name with a splice in it: where it is used and where it is defined, from a line and a character up to another.
SPLICED = [
    ('in the use', 'int total;\nint main(void) { return to\\\ntal; }\n', (1, 24), ((1, 24), (2, 3)), ((0, 4), (0, 9))),
    ('in the definition', 'int to\\\ntal;\nint main(void) { return total; }\n', (2, 24), ((2, 24), (2, 29)), ((0, 4), (1, 3))),
    ('by a trigraph, and CR LF', 'int to??/\r\ntal;\r\nint main(void) { return total; }\r\n', (2, 24), ((2, 24), (2, 29)), ((0, 4), (1, 3))),
]


def check_written():
    """Positions in files that are written otherwise."""
    for name, text, use16, use8, own16, own8 in WRITTEN:
        for encodings, use, own in ((None, use16, own16), (['utf-8'], use8, own8)):
            asked = Asked({'main.c': text}, {'main': 'main.c'}, encodings)
            line, first, last = use
            asked.ask(asked.session.at('definition', 'main.c', line, first), expected(f'{name} {encodings}: definition', [('main.c', *own)], places))
            asked.ask(asked.session.at('references', 'main.c', own[0], own[1]), expected(f'{name} {encodings}: references', sorted([('main.c', *own), ('main.c', line, first, last)]), places))
            notices = asked.end()
            verdict.expect(f'{name} {encodings}: no fault', shown(notices, asked.session.uri('main.c')), [])
    for name, text, at, use, own in SPLICED:
        asked = Asked({'main.c': text})
        asked.ask(asked.session.at('definition', 'main.c', *at), expected(f'splice {name}: definition', [own], spans))
        asked.ask(asked.session.at('rename', 'main.c', *at, newName='sum'), expected(f'splice {name}: rename', sorted([own, use]), renamed))
        notices = asked.end()
        verdict.expect(f'splice {name}: no fault', shown(notices, asked.session.uri('main.c')), [])


def ends(it):
    """The ends of a range."""
    return tuple((it['range'][end]['line'], it['range'][end]['character']) for end in ('start', 'end'))


def spans(answer):
    return [ends(it) for it in answer.get('result') or []]


def renamed(answer):
    return sorted(ends(it) for list_ in ((answer.get('result') or {}).get('changes') or {}).values() for it in list_)


# The protocol's own example of a position (3.17, Position): `a`, a code point of two units of UTF-16, `b`. Changes are made in a comment, by positions, and the
# offsets are seen by what the server then says: the fault stands behind the comment.
def check_edits():
    """Changes by positions, in units of UTF-16 and of UTF-8, past the end of a line and of the text, and whole texts."""
    for encodings, behind in ((None, 3), (['utf-8'], 5)):
        asked = Asked({'main.c': 'a\U00010400b\nint main(void) { return 0; }\n'}, {'main': 'main.c'}, encodings)
        session = asked.session
        session.change('main.c', (0, behind), (0, 99), ';')
        session.change('main.c', (0, 0), (0, behind), 'int c')
        session.change('main.c', (9, 0), (99, 0), 'int d;\n')
        session.change('main.c', (2, 4), (2, 5), 'caf')
        asked.ask(session.of('documentSymbol', 'main.c'), expected(f'edits {encodings}', ['c', 'main', 'caf'], lambda it: [each['name'] for each in it.get('result') or []]))
        verdict.expect(f'edits {encodings}: no fault', shown(asked.end(), session.uri('main.c')), [])
    # a position inside of a code point is its beginning; a range whose end stands before its beginning is empty
    for encodings, inside, name in ((None, 4, 'utf-16'), (['utf-8'], 5, 'utf-8')):
        asked = Asked({'main.c': '/* \U00010400 */ int a;\n\nint b;\nint main(void) { return 0; }\n'}, {'main': 'main.c'}, encodings)
        session = asked.session
        session.change('main.c', (2, 3), (0, 0), ' ')
        session.change('main.c', (0, inside), (0, inside), ' */ int d; /* ')
        asked.ask(session.of('documentSymbol', 'main.c'), expected(f'inside {name}', [('d', 11), ('a', 29 if encodings else 27), ('b', 5), ('main', 4)],
                                                                   lambda it: [(each['name'], each['selectionRange']['start']['character']) for each in it.get('result') or []]))
        asked.ask(1, expected(f'inside {name}: the encoding', name, lambda it: it['result']['capabilities']['positionEncoding']))
        asked.end()
    # the whole text, and several changes in one message, in their order
    asked = Asked({'main.c': 'int x\n'})
    session = asked.session
    document = {'uri': session.uri('main.c'), 'version': 2}
    first = {'text': 'int main(void) { return 1 }\n'}
    second = {'range': {'start': {'line': 0, 'character': 25}, 'end': {'line': 0, 'character': 25}}, 'text': ';'}
    session.tell('textDocument/didChange', {'textDocument': document, 'contentChanges': [first, second]})
    verdict.expect('several changes: no fault', shown(asked.end(), session.uri('main.c')), [])


def check_frames():
    """Frames in pieces of any size, with other headers, in any case of letters; wrong ones get an error, and the session goes on."""
    session = Session(program({}))
    body = json.dumps(request(7, 'textDocument/unknown', {})).encode()
    session.send(b'content-length:%d\r\nContent-Type: application/vscode-jsonrpc; charset=utf-8\r\n\r\n' % len(body) + body)
    session.send(b'X: 1\r\n\r\n')
    session.send(b'Content-Length: many\r\n\r\n')
    session.send(b'Content-Length: 99999999\r\n\r\n' + b' ' * 99999999)
    session.send(frame({'jsonrpc': '2.0', 'id': 'a"', 'method': 'textDocument/unknown', 'params': {}}))
    session.send(frame(request(-1, 'textDocument/unknown', {})))
    session.send(frame({'jsonrpc': '2.0', 'id': 8, 'method': 1}))
    session.send(frame({'jsonrpc': '2.0', 'id': 9, 'result': None}))
    status, answers, notices = session.run(cc)
    verdict.expect('frames: the status', status, 0)
    verdict.expect('frames: the header in small letters', code_of(answers.get(7)), -32601)
    verdict.expect('frames: an id of letters', code_of(answers.get('a"')), -32601)
    verdict.expect('frames: a negative id', code_of(answers.get(-1)), -32601)
    verdict.expect('frames: a method that is none', code_of(answers.get(8)), -32600)
    verdict.expect('frames: a reply is not answered', 9 in answers, False)
    verdict.expect('frames: the last error without an id', code_of(answers.get(None)), -32700)
    verdict.expect('frames: no other frames', [it for it in notices if isinstance(it, str)], [])
    # the same session byte by byte
    session = Session(program({}))
    session.open('main.c', PLACES[3][1])
    end = session.ask('shutdown', None)
    session.tell('exit', None)
    process = subprocess.Popen([cc, 'lsp'], stdin=subprocess.PIPE, stdout=subprocess.PIPE)
    for byte in b''.join(session.sent):
        process.stdin.write(bytes([byte]))
        process.stdin.flush()
    process.stdin.close()
    bodies = unframed(process.stdout.read())
    verdict.expect('byte by byte: the status', process.wait(), 0)
    verdict.holds(f'byte by byte: the last answer {bodies[-1]}', bodies[-1] == {'jsonrpc': '2.0', 'id': end, 'result': None})


def check_faults():
    for name, text, utf16, utf8 in PLACES:
        for encodings, wanted in ((None, utf16), (['utf-8', 'utf-16'], utf8)):
            session = Session(program({}), encodings=encodings)
            session.open('main.c', text)
            status, _, notices = session.run(cc)
            verdict.expect(f'{name}: the status', status, 0)
            told = shown(notices, session.uri('main.c')) or []
            found = [(it['range']['start']['line'], it['range']['start']['character'], it['range']['end']['character']) for it in told]
            verdict.expect(f'{name} {encodings}: the place', found, [wanted])
    for files, where, wanted in FAULTS:
        check_fix(files, where, wanted)
    # mended by a change, the program has no fault
    session = Session(program({}))
    session.open('main.c', PLACES[0][1])
    session.change('main.c', (2, 13), (2, 13), ';')
    _, _, notices = session.run(cc)
    verdict.expect('mended', shown(notices, session.uri('main.c')), [])
    # the editor's text of a header counts over that of the disk
    session = Session(program({'a.h': 'int a = ;\n', 'main.c': ''}))
    session.open('a.h', 'int a = 0;\n')
    session.open('main.c', '#include "a.h"\nint main(void) { return a; }\n')
    _, _, notices = session.run(cc)
    verdict.expect('unsaved header', shown(notices, session.uri('main.c')), [])


def check_fix(files, where, wanted):
    """A token is taken away by a change; the action puts it back, and then there is no fault."""
    asked = Asked(files)
    session = asked.session
    name, line, first, last = place(files, where)
    session.change(name, (line, first), (line, last), '')
    number = session.of('codeAction', name, range={'start': {'line': line, 'character': 0}, 'end': {'line': line, 'character': 99}}, context={'diagnostics': []})
    asked.ask(number, expected(f'action {where}', [[(*wanted, wanted[2], ';')]], lambda it: [edits(session, {'result': each['edit']}) for each in it.get('result') or []]))
    session.change(name, (line, first), (line, first), ';')
    verdict.expect(f'mended {where}', shown(asked.end(), session.uri(name)), [])


def code_of(answer):
    """The number of the error of an answer."""
    return ((answer or {}).get('error') or {}).get('code')


# What a client may send that is wrong, and what it gets (JSON-RPC 2.0, sections 4, 5 and 5.1; LSP 3.17, ErrorCodes): the id and the code of the error, or None for no answer.
WRONG = [
    ('no JSON', b'{"jsonrpc": "2.0", "method": "foobar, "params": "bar", "baz]', (None, -32700)),
    ('half of a message', b'{"jsonrpc": "2.0", "id": 1', (None, -32700)),
    ('nothing', b'', (None, -32700)),
    ('no UTF-8', b'{"jsonrpc": "2.0", "id": 1, "method": "\xff"}', (None, -32700)),
    ('half of a surrogate pair', b'{"jsonrpc": "2.0", "id": 1, "method": "\\ud800"}', (None, -32700)),
    ('two values', b'{} {}', (None, -32700)),
    ('an empty array', [], (None, -32600)),
    ('an array of numbers', [1, 2, 3], (None, -32600)),
    # the protocol has no batches
    ('an array of requests', [request(7, 'textDocument/hover', {})], (None, -32600)),
    ('a number', 1, (None, -32600)),
    ('null', b'null', (None, -32600)),
    ('an empty object', {}, (None, -32600)),
    ('no version', {'id': 7, 'method': 'textDocument/hover'}, (7, -32600)),
    ('another version', {'jsonrpc': '1.0', 'id': 7, 'method': 'textDocument/hover'}, (7, -32600)),
    ('a version that is a number', {'jsonrpc': 2.0, 'id': 7, 'method': 'textDocument/hover'}, (7, -32600)),
    ('no method', {'jsonrpc': '2.0', 'id': 7, 'params': {}}, (7, -32600)),
    ('a method that is a number', {'jsonrpc': '2.0', 'id': 7, 'method': 1, 'params': 'bar'}, (7, -32600)),
    ('parameters that are a text', request(7, 'textDocument/hover', 'bar'), (7, -32600)),
    ('parameters that are a number', request('a', 'textDocument/hover', 1), ('a', -32600)),
    ('an id that is an object', request({}, 'textDocument/hover', {}), (None, -32600)),
    ('an id that is a fraction', request(1.5, 'textDocument/hover', {}), (None, -32600)),
    ('an id that is null', request(None, 'textDocument/hover', {}), (None, -32600)),
    ('a notification without a method', {'jsonrpc': '2.0', 'params': {}}, (None, -32600)),
    ('an unknown method', request(7, 'foobar', {}), (7, -32601)),
    ('an unknown method of the protocol\'s own', request(7, '$/foobar', {}), (7, -32601)),
    ('a method without a name', request(7, '', {}), (7, -32601)),
    ('a request that is a notification', request(7, 'textDocument/didOpen', {}), (7, -32601)),
    ('a notification that is not known', notice('foobar', {}), None),
    ('a notification that is a request', notice('textDocument/hover', {}), None),
    ('a reply to nothing', {'jsonrpc': '2.0', 'id': 7, 'result': None}, None),
    ('an error to nothing', {'jsonrpc': '2.0', 'id': 7, 'error': {'code': 1, 'message': ''}}, None),
    ('initialize again', request(7, 'initialize', {}), (7, -32600)),
    ('no document', request(7, 'textDocument/hover', {}), (7, -32602)),
    ('no parameters', request(7, 'textDocument/documentSymbol', None), (7, -32602)),
    ('parameters in an array', request(7, 'textDocument/definition', [1]), (7, -32602)),
    ('no position', request(7, 'textDocument/hover', {'textDocument': {'uri': '$URI'}}), (7, -32602)),
    ('a position that is negative', request(7, 'textDocument/hover', {'textDocument': {'uri': '$URI'}, 'position': {'line': -1, 'character': 0}}), (7, -32602)),
    ('a position that is a text', request(7, 'textDocument/completion', {'textDocument': {'uri': '$URI'}, 'position': {'line': '0', 'character': 0}}), (7, -32602)),
    ('no range', request(7, 'textDocument/inlayHint', {'textDocument': {'uri': '$URI'}}), (7, -32602)),
    ('no new name', request(7, 'textDocument/rename', {'textDocument': {'uri': '$URI'}, 'position': {'line': 0, 'character': 4}}), (7, -32602)),
    ('a document that lies nowhere', request(7, 'textDocument/documentSymbol', {'textDocument': {'uri': 'file:///nowhere/at/all.c'}}), (7, -32602)),
    ('no command', request(7, 'workspace/executeCommand', {'arguments': []}), (7, -32602)),
    ('an unknown command', request(7, 'workspace/executeCommand', {'command': 'foobar', 'arguments': ['$URI']}), (7, -32602)),
    ('a command without its argument', request(7, 'workspace/executeCommand', {'command': 'zikorape.verify'}), (7, -32602)),
    ('a command with another argument', request(7, 'workspace/executeCommand', {'command': 'zikorape.verify', 'arguments': [1]}), (7, -32602)),
    ('a document without a text', notice('textDocument/didOpen', {'textDocument': {'uri': '$URI'}}), None),
    ('changes that are none', notice('textDocument/didChange', {'textDocument': {'uri': '$URI'}, 'contentChanges': 1}), None),
    ('a change of a document that is not open', notice('textDocument/didChange', {'textDocument': {'uri': 'file:///a.c'}, 'contentChanges': [{'text': ''}]}), None),
    ('a save of nothing', notice('textDocument/didSave', {}), None),
]
# What is said with a code, by hand: each names what the number means (JSON-RPC 2.0, 5.1; LSP 3.17).
SAID = {
    -32700: 'the message is not JSON',
    -32600: 'the message is no request',
    -32601: 'there is no such method',
    -32602: 'the parameters are not those of the method',
    -32002: 'the server is not initialized',
}
OTHERWISE_SAID = {
    'initialize again': 'the server is initialized already',
}


def error_of(answer):
    error = answer.get('error') or {}
    return answer.get('id'), error.get('code'), error.get('message')


def bare(messages):
    """Plays messages as they are; returns the status and the bodies that are no notifications."""
    done = subprocess.run([cc, 'lsp'], input=b''.join(frame(it) for it in messages), stdout=subprocess.PIPE, timeout=600, check=False)
    bodies = unframed(done.stdout)
    return done.returncode, bodies if isinstance(bodies, str) else [it for it in bodies if 'method' not in it]


def check_errors():
    """A message that is wrong gets the error of the protocol, and the session goes on."""
    for what, body, wanted in WRONG:
        session = Session(program({'main.c': 'int a;\n'}), {'main': 'main.c'})
        session.open('main.c', 'int a;\nint main(void) { return a; }\n')
        body = body if isinstance(body, bytes) else json.dumps(body).encode()
        session.send(frame(body.replace(b'$URI', session.uri('main.c').encode())))
        session.send(frame(request(100, 'textDocument/documentSymbol', {'textDocument': {'uri': session.uri('main.c')}})))
        done = subprocess.run([cc, 'lsp'], input=b''.join(session.sent) + frame(request(101, 'shutdown', None)) + frame(notice('exit', None)), stdout=subprocess.PIPE, timeout=600, check=False)
        bodies = [it for it in unframed(done.stdout) if 'method' not in it]
        text = OTHERWISE_SAID.get(what, SAID.get(wanted and wanted[1]))
        verdict.expect(f'{what}: the answers', [error_of(it) for it in bodies[1:-2]], [(*wanted, text)] if wanted else [])
        verdict.expect(f'{what}: the session goes on', ([it['id'] for it in bodies[-2:]], len(bodies[-2].get('result') or []), done.returncode), ([100, 101], 2, 0))
    ask, end = request(1, 'initialize', {'processId': None, 'rootUri': None, 'capabilities': {}}), notice('exit', None)
    hover, stop = request(2, 'textDocument/hover', {}), request(3, 'shutdown', None)
    status, bodies = bare([hover, stop, notice('textDocument/didOpen', {}), b'{', ask, stop, hover, ask, stop, end])
    verdict.expect('before initialize, and behind shutdown: the status', status, 0)
    verdict.expect('before initialize, and behind shutdown', [error_of(it)[:2] for it in bodies],
                   [(2, -32002), (3, -32002), (None, -32700), (1, None), (3, None), (2, -32600), (1, -32600), (3, -32600)])
    verdict.expect('before initialize: the text', error_of(bodies[0])[2], SAID[-32002])
    # exit without shutdown, and an input that ends (LSP 3.17, exit)
    verdict.expect('exit without shutdown', [bare(it)[0] for it in ([ask, end], [end], [ask], [])], [1, 1, 1, 1])


def mutated(random, body):
    """A message in which some bytes are others, gone or twice."""
    body = bytearray(body)
    for _ in range(random.randint(1, 6)):
        at = random.randrange(len(body) or 1)
        kind = random.randrange(4)
        if kind == 0 and body:
            body[at] = random.randrange(256)
        elif kind == 1:
            body[at:at + random.randint(1, 20)] = b''
        elif kind == 2:
            body[at:at] = body[at:at + random.randint(1, 20)]
        else:
            body[at:at] = random.choice([b'"', b'{', b'}', b'[', b'null', b'-1', b'1e99', b'99999999999999999999', b'\\ud800', b'\xff'])
    return bytes(body)


def check_mutated():
    """Whatever the bodies are, each session goes on to its end."""
    random = harness.seeded(73)
    text = RING['ring.c'].replace('#include "ring.h"\n', '')
    for _ in range(MUTATED // 50):
        session = Session(program(RING))
        session.open('ring.c', text)
        session.at('rename', 'ring.c', 2, 6, newName='ring_push')
        session.at('completion', 'ring.c', 4, 10)
        session.change('ring.c', (4, 10), (4, 13), '1')
        verify(session, 'ring.c')
        bodies = [sent.split(b'\r\n\r\n', 1)[1] for sent in session.sent[2:]]
        for _ in range(50):
            session.send(frame(mutated(random, random.choice(bodies))))
        status, _, notices = session.run(cc)
        verdict.expect('a session with 50 mutated messages', (status, [it for it in notices if isinstance(it, str)]), (0, []))


def check_sessions():
    """The recorded sessions."""
    for path in sorted(glob.glob(os.path.join(here, 'sessions', '*.jsonl'))):
        replay(path, cc, verdict)


CHECKS = (check_sessions, check_errors, check_frames, check_edits, check_faults, check_written, check_names, check_hovers, check_unsure, check_interval, check_others, check_lines, check_scopes, check_rename, check_options, check_bombs, check_size,
          check_mutated)
for check in CHECKS:
    if len(sys.argv) < 3 or check.__name__.removeprefix('check_') in sys.argv[2:]:
        check()
sys.exit(verdict.end())

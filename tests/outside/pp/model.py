"""A small model of translation phases 1 to 4 for one file (ISO/IEC 9899:2011, 5.1.1.2, 6.10).

    python3 model.py pp FILE      speaks like `cc pp FILE`

It is written for the data of this folder and not for speed: make.py asks it beside gcc and clang, so that a
source on which the standard leaves a choice does not come among the data unseen. check.py does not use it.
"""
import re
import sys

IDENT = r'[A-Za-z_][A-Za-z_0-9]*'
PUNCTUATORS = sorted(
    ('[ ] ( ) { } . -> ++ -- & * + - ~ ! / % << >> < > <= >= == != ^ | && || ? : ; ... = *= /= %= += -= <<= >>= '
     '&= ^= |= , # ## <: :> <% %> %: %:%:').split(), key=len, reverse=True)
TOKEN = re.compile(
    r'(?P<number>\.?[0-9](?:[eEpP][+-]|[A-Za-z_0-9.])*)'
    r'|(?P<string>(?:u8|u|U|L)?"(?:\\.|[^"\\\n])*")|(?P<char>(?:u|U|L)?\'(?:\\.|[^\'\\\n])+\')'
    r'|(?P<name>' + IDENT + r')|(?P<punct>' + '|'.join(re.escape(p) for p in PUNCTUATORS) + r')|(?P<other>.)', re.S)
TRIGRAPHS = {'=': '#', '(': '[', '/': '\\', ')': ']', "'": '^', '<': '{', '!': '|', '>': '}', '-': '~'}
PREDEFINED = ('__STDC__', '__STDC_VERSION__', '__STDC_HOSTED__', '__STDC_NO_ATOMICS__', '__STDC_NO_COMPLEX__',
              '__STDC_NO_THREADS__', '__STDC_NO_VLA__', '__DATE__', '__TIME__', '__FILE__', '__LINE__')
VALUES = {'__STDC__': '1', '__STDC_VERSION__': '201112L', '__STDC_HOSTED__': '0', '__STDC_NO_ATOMICS__': '1',
          '__STDC_NO_COMPLEX__': '1', '__STDC_NO_THREADS__': '1', '__STDC_NO_VLA__': '1',
          '__DATE__': '"Jan  1 1970"', '__TIME__': '"00:00:00"'}
DIGRAPHS = {'%:': '#', '%:%:': '##'}
LIMIT = 1048576
TEXTS = {111: 'file does not end in a newline', 112: 'file ends in a splice', 113: 'comment not closed',
         201: 'macro redefined differently', 202: 'bad macro definition', 203: '# not before a parameter',
         204: '## at an end of a replacement', 205: 'reserved macro name', 206: '## makes no token',
         207: '# makes no string literal', 211: 'macro arguments not closed',
         212: 'wrong number of macro arguments', 213: 'function-like macro name ends its run',
         221: 'not a constant expression in #if', 222: '#if arithmetic out of range', 223: 'defined made by a macro',
         231: 'unbalanced conditional', 233: 'bad directive', 699: 'not built yet', 703: 'limit: token length',
         704: 'limit: macros', 705: 'limit: macro parameters', 706: 'limit: macro replacements',
         708: 'limit: tokens'}


class Fault(Exception):
    def __init__(self, code, line):
        super().__init__(code, line)
        self.code = code
        self.line = line


class Token:
    __slots__ = ('text', 'kind', 'space', 'line', 'hide')

    def __init__(self, text, kind, space, line, hide=frozenset()):
        self.text, self.kind, self.space, self.line, self.hide = text, kind, space, line, hide

    def copy(self, **changes):
        new = Token(self.text, self.kind, self.space, self.line, self.hide)
        for name, value in changes.items():
            setattr(new, name, value)
        return new


def kind_of(text):
    """The kind of a text that is one whole token, else None; placemarkers have kind 'mark'."""
    match = TOKEN.match(text)
    if not match or match.end() != len(text) or match.lastgroup == 'other':
        return None
    return match.lastgroup


def spellings(text):
    """The spellings of the tokens of a text, with white space between; for the output of others."""
    found, at = [], 0
    while at < len(text):
        if text[at] in ' \t\v\f\r\n':
            at += 1
            continue
        match = TOKEN.match(text, at)
        found.append(match.group())
        at = match.end()
    return found


def lines_of(source):
    """Phases 1 to 3: the token lines, each a list of tokens."""
    source = re.sub(r'\?\?([=(/)\'<!>-])', lambda m: TRIGRAPHS[m.group(1)], source)
    if source and not source.endswith('\n'):
        raise Fault(111, source.count('\n') + 1)
    if re.search(r'\\\r?\n\Z', source):
        raise Fault(112, source.count('\n'))
    chars, where, line, at = [], [], 1, 0
    while at < len(source):
        splice = re.compile(r'\\\r?\n').match(source, at)
        if splice:
            line += 1
            at = splice.end()
            continue
        if source.startswith('\r\n', at):
            at += 1
        chars.append(source[at])
        where.append(line)
        line += source[at] == '\n'
        at += 1
    text, at, current, space, lines = ''.join(chars), 0, [], False, []
    while at < len(text):
        if text[at] == '\n':
            lines.append(current)
            current, space, at = [], False, at + 1
        elif text[at] in ' \t\v\f':
            space, at = True, at + 1
        elif text.startswith('//', at):
            space, at = True, text.index('\n', at)
        elif text.startswith('/*', at):
            end = text.find('*/', at + 2)
            if end < 0:
                raise Fault(113, where[at])
            space, at = True, end + 2
        else:
            match = TOKEN.match(text, at)
            if len(match.group()) > 4095:
                raise Fault(703, where[at])
            current.append(Token(match.group(), match.lastgroup, space, where[at]))
            space, at = False, match.end()
    return lines


class Macro:
    def __init__(self, params, body):
        self.params, self.body = params, body

    def operators(self, token):
        text = DIGRAPHS.get(token.text, token.text)
        return text == '##' or text == '#' and self.params is not None

    def same(self, other):
        return self.params == other.params and [(t.text, t.space and i > 0) for i, t in enumerate(self.body)] == \
            [(t.text, t.space and i > 0) for i, t in enumerate(other.body)]


def stringize(tokens, hash_token, line):
    text = ''
    for number, token in enumerate(tokens):
        if token.space and number:
            text += ' '
        spelling = token.text
        if token.kind in ('string', 'char'):
            spelling = re.sub(r'(["\\])', r'\\\1', spelling)
        text += spelling
    text = '"' + text + '"'
    if kind_of(text) != 'string':
        raise Fault(207, line)
    return Token(text, 'string', hash_token.space, line)


def paste(left, right, line):
    if right.kind == 'mark':
        return left
    if left.kind == 'mark':
        return right.copy(space=left.space)
    text = left.text + right.text
    kind = None if text.startswith(('//', '/*')) else kind_of(text)
    if kind is None:
        raise Fault(206, line)
    return Token(text, kind, left.space, line, left.hide & right.hide)


class Preprocessor:
    def __init__(self, name):
        self.name = name
        self.macros = {}
        self.left = LIMIT

    # ------------------------------------------------------------ directives

    def define(self, rest, line):
        if not rest or rest[0].kind != 'name':
            raise Fault(202, line)
        name, body, params, reserved = rest[0].text, rest[1:], None, [rest[0].text]
        if body and body[0].text == '(' and not body[0].space:
            params, body = self.parameters(body, line)
            reserved += params
        elif body and not body[0].space:
            raise Fault(202, line)
        if any(n in PREDEFINED or n in ('defined', '__VA_ARGS__') for n in reserved) or \
                any(t.text == '__VA_ARGS__' for t in body):
            raise Fault(205, line)
        macro = Macro(params, body)
        if params is not None:
            for i, token in enumerate(body):
                if DIGRAPHS.get(token.text, token.text) == '#' and \
                        (i + 1 == len(body) or body[i + 1].text not in params):
                    raise Fault(203, line)
        if body and any(DIGRAPHS.get(t.text, t.text) == '##' for t in (body[0], body[-1])):
            raise Fault(204, line)
        if params is not None and len(params) > 127:
            raise Fault(705, line)
        if name in self.macros and not self.macros[name].same(macro):
            raise Fault(201, line)
        if name not in self.macros and len(self.macros) == 65536:
            raise Fault(704, line)
        self.macros[name] = macro

    @staticmethod
    def parameters(body, line):
        params, at = [], 1
        if at < len(body) and body[at].text == ')':
            return params, body[2:]
        while True:
            if at + 1 >= len(body) or body[at].kind != 'name' or body[at].text in params:
                raise Fault(202, line)
            params.append(body[at].text)
            if body[at + 1].text == ')':
                return params, body[at + 2:]
            if body[at + 1].text != ',':
                raise Fault(202, line)
            at += 2

    # ------------------------------------------------------------- expansion

    def spend(self, line):
        if self.left == 0:
            raise Fault(706, line)
        self.left -= 1

    def expand(self, tokens, end):
        out, rest = [], list(reversed(tokens))
        while rest:
            token = rest.pop()
            if token.kind == 'name' and token.text in PREDEFINED and not token.hide & {token.text}:
                self.spend(token.line)
                text = VALUES.get(token.text) or ('"%s"' % self.name if token.text == '__FILE__' else str(token.line))
                out.append(Token(text, kind_of(text), token.space, token.line))
                continue
            macro = self.macros.get(token.text) if token.kind == 'name' else None
            if macro is None or token.text in token.hide:
                out.append(token)
                continue
            if macro.params is None:
                self.spend(token.line)
                result = self.substitute(macro, {}, token, token.hide | {token.text})
            elif not rest:
                if end == 'run':
                    raise Fault(213, token.line)
                out.append(token)
                continue
            elif rest[-1].text != '(':
                out.append(token)
                continue
            else:
                arguments, close = self.arguments(rest, token)
                if len(arguments) > 127:
                    raise Fault(705, token.line)
                if not macro.params and len(arguments) == 1 and not arguments[0]:
                    arguments = []
                if len(arguments) != len(macro.params):
                    raise Fault(212, token.line)
                self.spend(token.line)
                result = self.substitute(macro, dict(zip(macro.params, arguments)), token,
                                         token.hide & close.hide | {token.text})
            if result:
                result[0] = result[0].copy(space=token.space)
            rest.extend(reversed(result))
        return out

    @staticmethod
    def arguments(rest, name):
        rest.pop()
        depth, arguments, current = 0, [], []
        while rest:
            token = rest.pop()
            if token.text == ')' and depth == 0:
                return arguments + [current], token
            if token.text == ',' and depth == 0:
                arguments.append(current)
                current = []
                continue
            depth += (token.text == '(') - (token.text == ')')
            current.append(token)
        raise Fault(211, name.line)

    def substitute(self, macro, arguments, name, hide):
        body, operator = macro.body, lambda t, text: DIGRAPHS.get(t.text, t.text) == text and macro.operators(t)
        # each # first
        items, at = [], 0
        while at < len(body):
            token = body[at]
            if macro.params is not None and operator(token, '#'):
                items.append(('token', stringize(arguments[body[at + 1].text], token, name.line)))
                at += 2
            elif operator(token, '##'):
                items.append(('paste', None))
                at += 1
            else:
                item = 'parameter' if token.text in arguments and token.kind == 'name' else 'token'
                items.append((item, token.copy(line=name.line)))
                at += 1
        # then the parameters, each expanded once
        expanded, joined = {}, []
        for number, (item, token) in enumerate(items):
            if item != 'parameter':
                joined.append([item, [token]])
                continue
            beside = number > 0 and items[number - 1][0] == 'paste' or \
                number + 1 < len(items) and items[number + 1][0] == 'paste'
            tokens = arguments[token.text]
            if not beside:
                if token.text not in expanded:
                    expanded[token.text] = self.expand(tokens, 'argument')
                tokens = expanded[token.text]
            tokens = [t.copy() for t in tokens]
            if tokens:
                tokens[0].space = token.space
            elif beside:
                tokens = [Token('', 'mark', token.space, name.line)]
            joined.append(['token', tokens])
        # then each ## from left to right
        out, pending = [], False
        for item, tokens in joined:
            if item == 'paste':
                pending = True
                continue
            if pending:
                out[-1] = paste(out[-1], tokens[0], name.line)
                tokens = tokens[1:]
                pending = False
            out.extend(tokens)
        return [t.copy(hide=t.hide | hide) for t in out if t.kind != 'mark']

    # ----------------------------------------------------------- whole files

    def run(self, source):
        out, text = [], []

        def flush():
            for token in self.expand(text, 'run'):
                out.append(token)
                if len(out) > LIMIT:
                    raise Fault(708, token.line)
            text.clear()

        lines = lines_of(source)
        for tokens in lines:
            if tokens and DIGRAPHS.get(tokens[0].text, tokens[0].text) == '#' and len(tokens) > 1 and \
                    tokens[1].text not in ('define', 'undef', 'pragma'):
                raise Fault(699, 1)
        for tokens in lines:
            if not tokens:
                continue
            if DIGRAPHS.get(tokens[0].text, tokens[0].text) != '#':
                text.append(tokens[0].copy(space=True))
                text.extend(tokens[1:])
                continue
            flush()
            line, rest = tokens[0].line, tokens[2:]
            if len(tokens) > 1 and tokens[1].text == 'define':
                self.define(rest, line)
            elif len(tokens) > 1 and tokens[1].text == 'undef':
                if len(rest) != 1 or rest[0].kind != 'name':
                    raise Fault(233, line)
                if rest[0].text in PREDEFINED or rest[0].text in ('defined', '__VA_ARGS__'):
                    raise Fault(205, line)
                self.macros.pop(rest[0].text, None)
        flush()
        return out


def preprocess(source, name='main.c'):
    """The spellings that phase 4 gives, or a Fault."""
    return [t.text for t in Preprocessor(name).run(source)]


def main():
    if len(sys.argv) != 3 or sys.argv[1] != 'pp':
        sys.exit(2)
    with open(sys.argv[2], encoding='latin-1', newline='') as file:
        source = file.read()
    try:
        line = ' '.join(preprocess(source, sys.argv[2])) + '\n'
    except Fault as fault:
        sys.stderr.write('%s:%d: %d %s\n' % (sys.argv[2], fault.line, fault.code, TEXTS[fault.code]))
        sys.exit(1)
    sys.stdout.buffer.write(line.encode('latin-1'))


if __name__ == '__main__':
    main()

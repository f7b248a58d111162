"""Tokens and trees of the profile's C, for `ticks.py`. Of the preprocessor it knows `#include` of a built-in header and `#line`."""
import re

WORDS = {'void', 'char', 'short', 'int', 'long', 'signed', 'unsigned', '_Bool', 'enum', 'const'}
STORAGE = {'static', 'extern'}
TOKEN = re.compile(r'''\s+|/\*.*?\*/|//[^\n]*
    |(?P<name>[A-Za-z_]\w*)|(?P<number>[0-9]\w*)|(?P<character>'(?:\\.|[^'\\])+')|(?P<string>"(?:\\.|[^"\\])*")
    |(?P<mark><<=|>>=|\+\+|--|<<|>>|<=|>=|==|!=|&&|\|\||[-+*/%&^|]=|[-+*/%&^|~!<>=?:;,(){}\[\]])''', re.S | re.X)
ESCAPES = {'a': 7, 'b': 8, 't': 9, 'n': 10, 'v': 11, 'f': 12, 'r': 13}
ASSIGNMENTS = {'=', '*=', '/=', '%=', '+=', '-=', '<<=', '>>=', '&=', '^=', '|='}
LEVELS = [['||'], ['&&'], ['|'], ['^'], ['&'], ['==', '!='], ['<', '>', '<=', '>='], ['<<', '>>'], ['+', '-'], ['*', '/', '%']]
TYPES = {
    'void': 'void', 'char': 'char', 'char signed': 'signed char', 'char unsigned': 'unsigned char', '_Bool': '_Bool',
    'short': 'short', 'short signed': 'short', 'int short': 'short', 'int short signed': 'short',
    'short unsigned': 'unsigned short', 'int short unsigned': 'unsigned short',
    'int': 'int', 'signed': 'int', 'int signed': 'int', 'unsigned': 'unsigned', 'int unsigned': 'unsigned',
    'long': 'long', 'long signed': 'long', 'int long': 'long', 'int long signed': 'long',
    'long unsigned': 'unsigned long', 'int long unsigned': 'unsigned long',
}


def characters(text):
    """The bytes that the inside of a literal stands for."""
    found, k = bytearray(), 0
    while k < len(text):
        if text[k] != '\\':
            found.append(ord(text[k]))
            k += 1
            continue
        octal = re.compile(r'[0-7]{1,3}').match(text, k + 1)
        if octal:
            found.append(int(octal.group(), 8))
            k = octal.end()
        elif text[k + 1] == 'x':
            digits = re.compile(r'[0-9A-Fa-f]+').match(text, k + 2)
            found.append(int(digits.group(), 16))
            k = digits.end()
        else:
            found.append(ESCAPES.get(text[k + 1], ord(text[k + 1])))
            k += 2
    return bytes(found)


def number(text):
    """The type and value of an integer constant."""
    digits, suffix = re.fullmatch(r'(0[xX][0-9a-fA-F]+|[0-9]+)([uUlL]*)', text).groups()
    octal = len(digits) > 1 and digits[0] == '0' and digits[1] not in 'xX'
    value = int(digits, 8 if octal else 0)
    unsigned, long = 'u' in suffix.lower(), 'l' in suffix.lower()
    decimal = digits[0] != '0'
    if not unsigned and value < 2 ** 31:
        return 'long' if long else 'int', value
    assert value < 2 ** 32 and (unsigned or not decimal), text
    return 'unsigned long' if long else 'unsigned', value


def tokens(source, file):
    """Triples of kind, text and place."""
    found = []
    name, line = file, 1
    for text in source.split('\n') if '/*' not in source else [source]:
        directive = re.match(r'\s*#\s*(\w+)(.*)', text)
        if directive and directive.group(1) == 'line':
            words = directive.group(2).split(None, 1)
            line, name = int(words[0]), words[1].strip().strip('"') if len(words) > 1 else name
            continue
        if directive and directive.group(1) == 'include':
            assert directive.group(2).strip() == '<rvio.h>'
            for built in ('int rv_getbyte(void);', 'void rv_putbyte(int c);', 'void rv_exit(int status);'):
                found += spelt(built, '<rvio.h>', 1)
        else:
            found += spelt(text, name, line)
        line += 1
    return found + [('end', '', (name, line))]


def spelt(text, file, line):
    found, k = [], 0
    while k < len(text):
        match = TOKEN.match(text, k)
        assert match, text[k:]
        if match.lastgroup:
            found.append((match.lastgroup, match.group(), (file, line)))
        line += match.group().count('\n')
        k = match.end()
    return found


class Reader:
    """A descent over the grammar. Nodes are tuples of kind, place and parts."""

    def __init__(self, source, file):
        self.tokens, self.at = tokens(source, file), 0

    def kind(self):
        return self.tokens[self.at][0]

    def text(self, ahead=0):
        token = self.tokens[self.at + ahead]
        return token[1] if token[0] in ('name', 'mark') else ''

    def place(self):
        return self.tokens[self.at][2]

    def take(self):
        self.at += 1
        return self.tokens[self.at - 1][1]

    def accept(self, text):
        if self.text() == text:
            self.at += 1
            return True
        return False

    def expect(self, text):
        assert self.accept(text), '%s:%d: %s wanted, not %s' % (*self.place(), text, self.tokens[self.at][1])

    def separated(self, read, last):
        """What `read` reads, between commas, until `last`."""
        found = []
        while not self.accept(last):
            found.append(read())
            if not self.accept(','):
                self.expect(last)
                break
        return found

    # ---- declarations

    def unit(self):
        found = []
        while self.kind() != 'end':
            found.append(self.declaration(True))
        return found

    def starts_type(self, ahead=0):
        return self.text(ahead) in WORDS

    def specifiers(self):
        storage, const, words, enum = None, False, [], None
        while self.text() in WORDS | STORAGE:
            word = self.take()
            if word in STORAGE:
                storage = word
            elif word == 'const':
                const = True
            elif word == 'enum':
                enum = self.enumeration()
            else:
                words.append(word)
        return storage, const, 'int' if enum else TYPES[' '.join(sorted(words))], enum or []

    def enumeration(self):
        if self.kind() == 'name':
            self.take()
        return self.separated(self.enumerator, '}') if self.accept('{') else [None]

    def enumerator(self):
        return self.take(), self.conditional() if self.accept('=') else None

    def lengths(self):
        found = []
        while self.accept('['):
            found.append(None if self.text() == ']' else self.conditional())
            self.expect(']')
        return found

    def parameter(self):
        place = self.place()
        specifiers = self.specifiers()
        name = self.take() if self.kind() == 'name' else None
        return place, specifiers, name, self.lengths()

    def parameters(self):
        if self.text() == 'void' and self.text(1) == ')':
            self.at += 2
            return []
        return self.separated(self.parameter, ')')

    def declaration(self, at_file_scope=False):
        place = self.place()
        if self.accept('_Static_assert'):
            self.expect('(')
            condition = self.conditional()
            self.expect(',')
            self.take()
            self.expect(')')
            self.expect(';')
            return 'assertion', place, condition
        specifiers, items = self.specifiers(), []
        while not self.accept(';'):
            where, name = self.place(), self.take()
            if self.accept('('):
                parameters = self.parameters()
                items.append(('prototype', where, name, parameters))
                if at_file_scope and self.accept('{'):
                    return 'function', where, specifiers, name, parameters, self.block(where)
            else:
                lengths = self.lengths()
                items.append(('object', where, name, lengths, self.initialiser() if self.accept('=') else None))
            if not self.accept(','):
                self.expect(';')
                break
        return 'declaration', place, specifiers, items

    def initialiser(self):
        place = self.place()
        if self.accept('{'):
            return 'list', place, self.separated(self.initialiser, '}')
        return self.assignment()

    # ---- statements

    def block(self, place):
        items = []
        while not self.accept('}'):
            items.append(self.declaration() if self.text() in WORDS | STORAGE | {'_Static_assert'} else self.statement())
        return 'block', place, items

    def labelled(self, place):
        """The items of a switch's block; its labels are items themselves."""
        items = []
        while not self.accept('}'):
            where = self.place()
            if self.accept('case'):
                items.append(('case', where, self.conditional()))
                self.expect(':')
            elif self.accept('default'):
                items.append(('default', where))
                self.expect(':')
            elif self.text() in WORDS | STORAGE | {'_Static_assert'}:
                items.append(self.declaration())
            else:
                items.append(self.statement())
        return items

    def tested(self):
        self.expect('(')
        test = self.expression()
        self.expect(')')
        return test

    def optional(self, last):
        found = None if self.text() == last else self.expression()
        self.expect(last)
        return found

    def statement(self):
        place = self.place()
        word = self.text() if self.text() in ('{', ';', 'if', 'while', 'do', 'for', 'switch', 'break', 'continue', 'return') else ''
        if not word:
            return 'expression', place, self.optional(';')
        self.take()
        if word == '{':
            return self.block(place)
        if word == ';':
            return 'empty', place
        if word == 'if':
            test, then = self.tested(), self.statement()
            return 'if', place, test, then, self.statement() if self.accept('else') else None
        if word == 'while':
            return 'while', place, self.tested(), self.statement()
        if word == 'do':
            body = self.statement()
            self.expect('while')
            test = self.tested()
            self.expect(';')
            return 'do', place, body, test
        if word == 'for':
            return self.for_statement(place)
        if word == 'switch':
            test, where = self.tested(), self.place()
            self.expect('{')
            return 'switch', place, test, self.labelled(where)
        if word == 'return':
            return 'return', place, self.optional(';')
        self.expect(';')
        return word, place

    def for_statement(self, place):
        self.expect('(')
        declaration = start = None
        if self.text() in WORDS:
            declaration = self.declaration()
        else:
            start = self.optional(';')
        test = self.optional(';')
        step = self.optional(')')
        return 'for', place, declaration, start, test, step, self.statement()

    # ---- expressions

    def expression(self):
        left = self.assignment()
        while self.text() == ',':
            place = self.place()
            self.take()
            left = ('comma', place, left, self.assignment())
        return left

    def assignment(self):
        left = self.conditional()
        if self.text() not in ASSIGNMENTS:
            return left
        place, operator = self.place(), self.take()
        right = self.assignment()
        return ('assign', place, left, right) if operator == '=' else ('compound', place, operator[:-1], left, right)

    def conditional(self):
        test = self.binary(0)
        place = self.place()
        if not self.accept('?'):
            return test
        then = self.expression()
        self.expect(':')
        return 'conditional', place, test, then, self.conditional()

    def binary(self, level):
        if level == len(LEVELS):
            return self.cast()
        left = self.binary(level + 1)
        while self.text() in LEVELS[level]:
            place, operator = self.place(), self.take()
            left = ('binary', place, operator, left, self.binary(level + 1))
        return left

    def type_name(self):
        """After `(`: the type and its lengths, and the `)`."""
        specifiers, lengths = self.specifiers(), self.lengths()
        self.expect(')')
        return specifiers[2], lengths

    def cast(self):
        if self.text() == '(' and self.starts_type(1):
            place = self.place()
            self.take()
            return 'cast', place, self.type_name()[0], self.cast()
        return self.unary()

    def unary(self):
        place, text = self.place(), self.text()
        if text in ('++', '--'):
            self.take()
            return 'step', place, 'before', text[0], self.unary()
        if text and text in '+-~!':
            self.take()
            return 'unary', place, text, self.cast()
        if text == 'sizeof':
            self.take()
            if self.text() == '(' and self.starts_type(1):
                self.take()
                return 'sizeof type', place, self.type_name()
            return 'sizeof', place, self.unary()
        return self.postfix()

    def postfix(self):
        found = self.primary()
        while self.text() in ('[', '++', '--'):
            place, text = self.place(), self.take()
            if text == '[':
                found = ('subscript', place, found, self.expression())
                self.expect(']')
            else:
                found = ('step', place, 'after', text[0], found)
        return found

    def primary(self):
        place, kind = self.place(), self.kind()
        if self.accept('('):
            found = self.expression()
            self.expect(')')
            return found
        text = self.take()
        if kind == 'name':
            return ('call', place, text, self.separated(self.assignment, ')')) if self.accept('(') else ('name', place, text)
        if kind == 'number':
            return ('constant', place, *number(text))
        if kind == 'character':
            return 'constant', place, 'int', characters(text[1:-1])[0]
        assert kind == 'string', '%s:%d: %s' % (*place, text)
        found = characters(text[1:-1])
        while self.kind() == 'string':
            found += characters(self.take()[1:-1])
        return 'string', place, found


def read(source, file='main.c'):
    return Reader(source, file).unit()

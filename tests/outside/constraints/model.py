"""A second reading of the constraints, written from ISO/IEC 9899:2011 6.2 to 6.9 and the definitions of crates/typing_spec alone.

    python3 tests/outside/constraints/model.py

asks it for the sources of rows.txt and accepted.txt, and for those that stand above the rows that crates/typing_spec computes.
faults(SOURCE) gives the codes and lines that stand in a source, or none. It reads the profile's grammar; a source outside it is an
error. Of the preprocessor it knows object-like macros and two headers alone.
"""
import pathlib, re, sys
from dataclasses import dataclass, replace
from typing import Any

sys.path.insert(0, str(pathlib.Path(__file__).resolve().parents[2]))
from harness import verdict

sys.setrecursionlimit(20000)

class Broken(Exception):
    def __init__(self, faults): self.faults = faults
class Syntax(Exception): pass
def breaks(code, at): raise Broken([(code, at)])
def refuse_if(test, code, at):
    if test: breaks(code, at)
def both(*parts):
    got, faults = [], []
    for part in parts:
        try: got.append(part())
        except Broken as b: faults += b.faults
    if faults: raise Broken(faults)
    return got

# ------------------------------------------------------------------ tokens
KEY = set('''break case char const continue default do else enum extern for if int long return short signed sizeof static switch
    unsigned void while _Bool _Static_assert'''.split())
TOKEN = re.compile(r'''
    (?:\s|\\\n)+ | /\*.*?\*/ | //[^\n]*
    | (?P<str>"(?:\\.|[^"\\])*")
    | (?P<chr>'(?:\\.|[^'\\])+')
    | (?P<num>\.?[0-9](?:[eEpP][+-]|[\w.])*)
    | (?P<name>[A-Za-z_](?:\w|\\\n)*)
    | (?P<op><<=|>>=|\+\+|--|<<|>>|<=|>=|==|!=|&&|\|\||[-+*/%&|^]=|<:|:>|<%|%>|[-+*/%&|^~!<>=?:;,(){}\[\]])
    | (?P<bad>.)''', re.S | re.X)
DIGRAPH = {'<:': '[', ':>': ']', '<%': '{', '%>': '}'}
ESC = {'n': 10, 't': 9, 'r': 13, 'v': 11, 'f': 12, 'a': 7, 'b': 8, '\\': 92, "'": 39, '"': 34, '?': 63}
def unescape(body):
    out, i = [], 0
    while i < len(body):
        if body[i] != '\\': out.append(ord(body[i])); i += 1; continue
        m = re.compile(r'\\(?:x([0-9a-fA-F]+)|([0-7]{1,3})|(.))', re.S).match(body, i)
        out.append(int(m[1], 16) if m[1] else int(m[2], 8) if m[2] else ESC[m[3]])
        i = m.end()
    return out
RANGE = {'int': (31, True), 'uint': (32, False), 'long': (31, True), 'ulong': (32, False)}
def number(text):
    m = re.fullmatch(r'(0[xX][0-9a-fA-F]+|[0-9]+)([uUlL]*)', text)
    if not m: raise Syntax(text)
    v = int(m[1], 16) if m[1][:2] in ('0x', '0X') else int(m[1], 8) if m[1][0] == '0' else int(m[1])
    suffix = m[2].lower()
    kinds = ['int', 'uint', 'long', 'ulong']
    if m[1][0] != '0' and 'u' not in suffix: kinds = ['int', 'long']
    if 'u' in suffix: kinds = [k for k in kinds if k[0] == 'u']
    if 'l' in suffix: kinds = [k for k in kinds if 'long' in k]
    for k in kinds:
        if v < 2 ** RANGE[k][0]: return k, v
    raise Syntax('609')
HEADERS = {
    'stdbool': {'bool': '_Bool', 'true': '1', 'false': '0'},
    'iso646': {'and': '&&', 'and_eq': '&=', 'bitand': '&', 'bitor': '|', 'compl': '~', 'not': '!', 'not_eq': '!=', 'or': '||',
               'or_eq': '|=', 'xor': '^', 'xor_eq': '^='}}
def lex(source):
    macros, out = {}, []
    def scan(text, at, hide, dest, moving):
        for m in TOKEN.finditer(text):
            kind = m.lastgroup
            if kind == 'bad': raise Syntax(m[0])
            if kind == 'name' and m[0] in macros and m[0] not in hide: scan(macros[m[0]], at, hide | {m[0]}, dest, False)
            elif kind:
                t = m[0].replace('\\\n', '')
                dest.append((kind, DIGRAPH.get(t, t), at))
            if moving: at += m[0].count('\n')
    run, start = [], 1
    for k, l in enumerate(source.split('\n'), 1):
        h = re.match(r'\s*#\s*include\s*<(\w+)\.h>', l)
        d = re.match(r'\s*#\s*define\s+(\w+)\s*(.*)', l)
        if d:
            if run: scan('\n'.join(run) + '\n', start, frozenset(), out, True)
            run, start = [], k + 1
            macros[d[1]] = d[2]
        elif h:
            if run: scan('\n'.join(run) + '\n', start, frozenset(), out, True)
            run, start = [], k + 1
            macros.update(HEADERS[h[1]])
        else:
            if l.lstrip().startswith('#'): raise Syntax(l)
            run.append(l)
    if run: scan('\n'.join(run) + '\n', start, frozenset(), out, True)
    tokens = []
    for kind, t, at in out:
        if kind == 'str':
            chars = unescape(t[1:-1])
            if tokens and tokens[-1][0] == 'str': tokens[-1][1].extend(chars); continue
            tokens.append(('str', chars, at))
        elif kind == 'chr':
            chars = unescape(t[1:-1]); assert len(chars) == 1
            tokens.append(('num', ('int', chars[0]), at))
        elif kind == 'num': tokens.append(('num', number(t), at))
        elif kind == 'name': tokens.append(('key' if t in KEY else 'name', t, at))
        else: tokens.append(('op', t, at))
    return tokens

# ------------------------------------------------------------------ parser
WORDS = set('void char short int long signed unsigned _Bool'.split())
class Parser:
    def __init__(self, tokens): self.t, self.i = tokens, 0
    def peek(self, k=0): return self.t[self.i + k] if self.i + k < len(self.t) else ('end', None, 0)
    def at(self): return self.peek()[2]
    def sees(self, *texts): return self.peek()[0] in ('op', 'key') and self.peek()[1] in texts
    def take(self):
        t = self.peek(); self.i += 1; return t
    def eat(self, text):
        if not self.sees(text): raise Syntax(f'{self.peek()} for {text}')
        return self.take()
    def name(self):
        if self.peek()[0] != 'name': raise Syntax(str(self.peek()))
        return self.take()[1]
    def unit(self):
        out = []
        while self.peek()[0] != 'end': out.append(self.external())
        return out
    def starts_type(self, k=0):
        t = self.peek(k); return t[0] == 'key' and t[1] in WORDS | {'const', 'enum'}
    def starts_declaration(self):
        t = self.peek(); return t[0] == 'key' and t[1] in WORDS | {'const', 'enum', 'extern', 'static', '_Static_assert'}
    def specs(self, plain):
        out = []
        while True:
            if self.sees('const'): self.take(); out.append(('const',))
            elif self.peek()[0] == 'key' and self.peek()[1] in WORDS: out.append(('word', self.take()[1]))
            elif self.sees('enum'):
                self.take()
                tag = self.name() if self.peek()[0] == 'name' else None
                if self.sees('{') and not plain:
                    self.take(); es = []
                    while True:
                        at = self.at(); n = self.name(); v = None
                        if self.sees('='): self.take(); v = self.cond()
                        es.append((at, n, v))
                        if self.sees(','):
                            self.take()
                            if self.sees('}'): break
                        else: break
                    self.eat('}'); out.append(('list', tag, es))
                elif tag is None: raise Syntax('enum')
                else: out.append(('enum', tag))
            elif not plain and self.sees('extern', 'static'): out.append((self.take()[1],))
            else: break
        if not out: raise Syntax('no specifiers ' + str(self.peek()))
        return out
    def sizes(self, open_=True):
        out = []
        while self.sees('['):
            self.take()
            if self.sees(']') and open_: out.append(None)
            else: out.append(self.cond())
            self.eat(']')
        return out
    def params(self):
        self.eat('(')
        if self.sees('void') and self.peek(1)[1] == ')' and self.peek(1)[0] == 'op': self.take(); self.take(); return []
        out = []
        while True:
            start = self.at(); ss = self.specs(True)
            at, n = start, None
            if self.peek()[0] == 'name': at = self.at(); n = self.name()
            out.append((start, ss, at, n, self.sizes()))
            if self.sees(','): self.take()
            else: break
        self.eat(')'); return out
    def item(self, file):
        at = self.at(); n = self.name()
        if file and self.sees('('): return ('function', at, n, self.params())
        sizes = self.sizes(); init = None
        if self.sees('='): self.take(); init = self.init()
        return ('object', at, n, sizes, init)
    def init(self):
        if self.sees('{'):
            at = self.take()[2]; parts = []
            while True:
                parts.append(self.init())
                if self.sees(','): self.take()
                else: break
                if self.sees('}'): break
            self.eat('}'); return ('braces', at, parts)
        return ('one', self.assign())
    def declaration(self, file):
        if self.sees('_Static_assert'):
            at = self.take()[2]; self.eat('('); e = self.cond(); self.eat(',')
            if self.take()[0] != 'str': raise Syntax('assert')
            self.eat(')'); self.eat(';'); return ('assert', at, e)
        at = self.at(); ss = self.specs(False); items = []
        if not file and any(s[0] == 'extern' for s in ss): raise Syntax('extern')
        if not self.sees(';'):
            while True:
                items.append(self.item(file))
                if file and len(items) == 1 and items[0][0] == 'function' and self.sees('{'):
                    return ('def', at, ss, items[0], self.block())
                if self.sees(','): self.take()
                else: break
        self.eat(';'); return ('declared', at, ss, items)
    def external(self): return self.declaration(True)
    def block(self):
        self.eat('{'); out = []
        while not self.sees('}'):
            if self.starts_declaration(): out.append(('d', self.declaration(False)))
            else: out.append(('s', self.stmt()))
        self.eat('}'); return out
    def stmt(self):
        at = self.at()
        if self.sees('{'): return ('block', at, self.block())
        if self.sees(';'): self.take(); return ('empty', at)
        if self.sees('if'):
            self.take(); self.eat('('); e = self.expr(); self.eat(')'); a = self.stmt()
            if self.sees('else'): self.take(); return ('ifelse', at, e, a, self.stmt())
            return ('if', at, e, a)
        if self.sees('while', 'switch'):
            w = self.take()[1]; self.eat('('); e = self.expr(); self.eat(')'); return (w, at, e, self.stmt())
        if self.sees('do'):
            self.take(); a = self.stmt(); self.eat('while'); self.eat('('); e = self.expr(); self.eat(')'); self.eat(';')
            return ('do', at, a, e)
        if self.sees('for'):
            self.take(); self.eat('(')
            if self.starts_declaration(): start = ('d', self.declaration(False))
            else: start = ('e', None if self.sees(';') else self.expr()); self.eat(';')
            test = None if self.sees(';') else self.expr(); self.eat(';')
            step = None if self.sees(')') else self.expr(); self.eat(')')
            return ('for', at, start, test, step, self.stmt())
        if self.sees('case'): self.take(); e = self.cond(); self.eat(':'); return ('case', at, e, self.stmt())
        if self.sees('default'): self.take(); self.eat(':'); return ('default', at, self.stmt())
        if self.sees('break', 'continue'): w = self.take()[1]; self.eat(';'); return (w, at)
        if self.sees('return'):
            self.take(); e = None if self.sees(';') else self.expr(); self.eat(';'); return ('return', at, e)
        e = self.expr(); self.eat(';'); return ('expr', at, e)
    def expr(self):
        e = self.assign()
        while self.sees(','): at = self.take()[2]; e = ('bin', at, ',', e, self.assign())
        return e
    ASSIGN = ('=', '*=', '/=', '%=', '+=', '-=', '<<=', '>>=', '&=', '^=', '|=')
    def assign(self):
        e = self.cond()
        if self.sees(*self.ASSIGN):
            if e[0] in ('bin', 'cond', 'cast'): raise Syntax('assignment to ' + e[0])
            t = self.take(); return ('assign', t[2], t[1], e, self.assign())
        return e
    def cond(self):
        c = self.level(0)
        if self.sees('?'):
            at = self.take()[2]; a = self.expr(); self.eat(':'); return ('cond', at, c, a, self.cond())
        return c
    LEVELS = [('||',), ('&&',), ('|',), ('^',), ('&',), ('==', '!='), ('<', '>', '<=', '>='),
              ('<<', '>>'), ('+', '-'), ('*', '/', '%')]
    def level(self, k):
        if k == len(self.LEVELS): return self.cast()
        e = self.level(k + 1)
        while self.sees(*self.LEVELS[k]): t = self.take(); e = ('bin', t[2], t[1], e, self.level(k + 1))
        return e
    def typename(self):
        at = self.at(); ss = self.specs(True); return (at, ss, self.sizes(False))
    def cast(self):
        if self.sees('(') and self.starts_type(1):
            at = self.take()[2]; t = self.typename(); self.eat(')'); return ('cast', at, t, self.cast())
        return self.unary()
    def unary(self):
        if self.sees('++', '--'): t = self.take(); return ('before', t[2], t[1], self.unary())
        if self.sees('+', '-', '~', '!'): t = self.take(); return ('prefix', t[2], t[1], self.cast())
        if self.sees('sizeof'):
            at = self.take()[2]
            if self.sees('(') and self.starts_type(1): self.take(); t = self.typename(); self.eat(')'); return ('sizeoftype', at, t)
            return ('sizeof', at, self.unary())
        return self.postfix()
    def postfix(self):
        e = self.primary()
        while True:
            if self.sees('['): at = self.take()[2]; i = self.expr(); self.eat(']'); e = ('sub', at, e, i)
            elif self.sees('++', '--'): t = self.take(); e = ('after', t[2], t[1], e)
            else: return e
    def primary(self):
        kind, v, at = self.take()
        if kind == 'num': return ('const', at, v[0], v[1])
        if kind == 'str': return ('str', at, v)
        if kind == 'name':
            if self.sees('('):
                self.take(); args = []
                if not self.sees(')'):
                    while True:
                        args.append(self.assign())
                        if self.sees(','): self.take()
                        else: break
                self.eat(')'); return ('call', at, v, args)
            return ('id', at, v)
        if (kind, v) == ('op', '('): e = self.expr(); self.eat(')'); return ('paren', e)
        raise Syntax(f'{kind} {v} at {at}')

# ------------------------------------------------------------------ types
SIZE = {'bool': 1, 'char': 1, 'schar': 1, 'uchar': 1, 'short': 2, 'ushort': 2, 'int': 4, 'uint': 4, 'long': 4, 'ulong': 4}
SIGNED = {'schar', 'short', 'int', 'long'}
def converted(t, v):
    if t == 'bool': return int(v != 0)
    n = 8 * SIZE[t]; v %= 2 ** n
    return v - 2 ** n if t in SIGNED and v >= 2 ** (n - 1) else v
def promoted(t): return t if t in ('int', 'uint', 'long', 'ulong') else 'int'
def usual(a, b):
    a, b = promoted(a), promoted(b)
    if a == b: return a
    s = {a, b}
    if 'ulong' in s: return 'ulong'
    if s == {'uint', 'long'}: return 'ulong'
    if s == {'int', 'uint'}: return 'uint'
    return 'long'
def fits(t, v): return converted(t, v) == v
@dataclass(frozen=True)
class Obj:
    element: str; const: bool; lengths: tuple
def count(lengths):
    n = 1
    for k in lengths: n *= k
    return n
def size_of(o): return SIZE[o.element] * count(o.lengths)
def inner(o): return Obj(o.element, o.const, o.lengths[1:]) if o.lengths else None
def array_of(n, o): return Obj(o.element, o.const, (n,) + o.lengths)
# declared types: ('complete', Obj) or ('unknown', Obj)
def composite(a, b):
    if a[0] == b[0]: return a if a[1] == b[1] else None
    if a[0] == 'complete': return a if inner(a[1]) == b[1] else None
    return b if inner(b[1]) == a[1] else None
# parameters: ('number', type) or ('elements', Obj); functions: (result or None, const, params tuple)
LIMIT = 1048576
USUAL_STACK = 1048576
stack_bytes = USUAL_STACK # of the program that is asked for

# ------------------------------------------------------------------ scopes
@dataclass(frozen=True)
class Binding:
    name: str; level: int; meaning: tuple; linkage: Any; state: str
@dataclass(frozen=True)
class Scope:
    definitions: tuple = (); bindings: tuple = (); tags: tuple = (); level: int = 0
    literals: tuple = (); statics: tuple = (); objects: tuple = ()
    def lookup(self, n): return next((b for b in self.bindings if b.name == n), None)
    def tag(self, n): return next((t for t in self.tags if t[0] == n), None)
    def named(self, n, meaning, linkage, state):
        return replace(self, bindings=(Binding(n, self.level, meaning, linkage, state),) + self.bindings)
    def tagged(self, n, complete): return replace(self, tags=((n, self.level, complete),) + self.tags)
    def more(self, texts): return replace(self, literals=self.literals + tuple(texts)) if texts else self
    def inside(self): return replace(self, level=self.level + 1)
def outside(outer, s): return replace(s, bindings=outer.bindings, tags=outer.tags, level=outer.level)
BUILT = {'rv_getbyte': ('int', False, ()), 'rv_putbyte': (None, False, (('number', 'int'),)),
         'rv_exit': (None, False, (('number', 'int'),))}
def strings(e):
    k = e[0]
    if k == 'str': return [len(e[2])]
    if k in ('id', 'const'): return []
    if k == 'paren': return strings(e[1])
    if k == 'call': return sum((strings(a) for a in e[3]), [])
    if k == 'sub': return strings(e[2]) + strings(e[3])
    if k in ('after', 'before', 'prefix'): return strings(e[3])
    if k == 'sizeof': return strings(e[2])
    if k == 'sizeoftype': return type_strings(e[2])
    if k == 'cast': return type_strings(e[2]) + strings(e[3])
    if k == 'cond': return strings(e[2]) + strings(e[3]) + strings(e[4])
    return strings(e[3]) + strings(e[4])
def type_strings(t): return sum((strings(e) for e in t[2]), [])
def size_strings(sizes): return sum((strings(e) for e in sizes if e), [])
def past(s, e): return s.more(strings(e)) if e else s
def init_strings(i): return strings(i[1]) if i[0] == 'one' else sum((init_strings(p) for p in i[2]), [])

# ------------------------------------------------------------------ specifiers
def norm(words): return tuple(sorted(words))
SETS = {}
for t, texts in [
        (None, ['void']), ('char', ['char']), ('schar', ['signed char']), ('uchar', ['unsigned char']),
        ('short', ['short', 'signed short', 'short int', 'signed short int']), ('ushort', ['unsigned short', 'unsigned short int']),
        ('int', ['int', 'signed', 'signed int']), ('uint', ['unsigned', 'unsigned int']),
        ('long', ['long', 'signed long', 'long int', 'signed long int']), ('ulong', ['unsigned long', 'unsigned long int']),
        ('bool', ['_Bool'])]:
    for text in texts: SETS[norm(text.split())] = t
def base_in(s, at, lists, ss):
    tags = [x[1] for x in ss if x[0] == 'enum']
    words = [x[1] for x in ss if x[0] == 'word']
    const = any(x[0] == 'const' for x in ss)
    def known(t):
        tag = s.tag(t)
        refuse_if(tag is None or not tag[2], 525, at)
    def typed():
        n = lists + len(tags)
        if n == 0 and norm(words) in SETS: return SETS[norm(words)]
        if n == 1 and not words: return 'int'
        breaks(511, at)
    got = both(*[lambda t=t: known(t) for t in tags], typed)
    return got[-1], const

# ------------------------------------------------------------------ expressions
# checked: ('value', at, t, e) ('object', at, t, const, place) ('array', at, declared, place) ('reference', at, Obj, place)
#          ('nothing', at, e) ('designator', at)
# values: ('k', t, v) ('read', t, place) ('effect', at, [parts]) ('unary', at, op, t, e) ('bin', at, op, t, a, b) ('and', a, b) ('or', a, b)
#         ('cond', t, c, a, b) ('seq', a, b) ('cast', t, e) ('void', e) ('call', at, name, args)
# places: ('named', at, storage) ('element', at, place, value); storage ('lit',) ('static', n) ('auto',) ('param',)
def worth(code, at, x):
    if x[0] == 'value': return x[2], x[3]
    if x[0] == 'object': return x[2], ('read', x[2], x[4])
    if x[0] == 'nothing': breaks(code, at)
    breaks(620, x[1])
def effect(x):
    if x[0] == 'value': return x[3]
    if x[0] == 'object': return ('read', x[2], x[4])
    if x[0] == 'nothing': return x[2]
    breaks(620, x[1])
def designated(at, o, place): return ('array', at, ('complete', o), place) if o.lengths else ('object', at, o.element, o.const, place)
def meant(at, m):
    if m[0] == 'object':
        place = ('named', at, m[1])
        return designated(at, m[2][1], place) if m[2][0] == 'complete' else ('array', at, m[2], place)
    if m[0] == 'reference': return ('reference', at, m[1], ('named', at, ('param',)))
    if m[0] == 'function': return ('designator', at)
    return ('value', at, 'int', ('k', 'int', m[1]))
def too_large(at, o): refuse_if(size_of(o) > LIMIT, 712, at)
def index(at, x):
    if x[0] in ('value', 'object'): return worth(0, at, x)
    breaks(529, at)
def subscripted(at, a, i):
    if a[0] in ('array', 'reference'):
        w = index(at, i)
        o = a[2] if a[0] == 'reference' else a[2][1] if a[2][0] == 'unknown' else inner(a[2][1])
        return designated(at, o, ('element', at, a[3], w[1]))
    if a[0] in ('value', 'object') and i[0] in ('array', 'reference'): breaks(621, at)
    breaks(529, at)
def may_refer(want, given):
    return want == given or (want.element == given.element and want.lengths == given.lengths and want.const and not want.lengths)
def argument(at, p, x):
    if p[0] == 'number': return worth(532, at, x)[1]
    if x[0] == 'designator': breaks(620, x[1])
    if x[0] not in ('array', 'reference'): breaks(532, at)
    o = x[2] if x[0] == 'reference' else x[2][1] if x[2][0] == 'unknown' else inner(x[2][1])
    if not may_refer(p[1], o): breaks(532, at)
    return ('place', x[3])
def target(at, x):
    if x[0] == 'object':
        refuse_if(x[3], 533, at)
        return x[2], x[4]
    if x[0] in ('value', 'nothing'): breaks(533, at)
    breaks(620, x[1])
COMPARE = ('<', '>', '<=', '>=', '==', '!=')
def operands_type(op, a, b): return promoted(a) if op in ('<<', '>>') else usual(a, b)
def typing(s, e):
    k = e[0]
    if k == 'paren': return typing(s, e[1])
    at = e[1]
    if k == 'id':
        b = s.lookup(e[2])
        if b is None: breaks(528, at)
        return meant(at, b.meaning)
    if k == 'const': return ('value', at, e[2], ('k', e[2], e[3]))
    if k == 'str':
        o = Obj('char', False, (len(e[2]) + 1,)); too_large(at, o)
        return ('array', at, ('complete', o), ('named', at, ('lit',)))
    if k == 'call':
        b = s.lookup(e[2])
        if b is None: breaks(528, at)
        if b.meaning[0] != 'function': breaks(530, at)
        f = b.meaning[1]
        def args(s, ps, es):
            if not ps and not es: return []
            if not ps or not es: breaks(531, at)
            x, rest = both(lambda: typing(s, es[0]), lambda: args(past(s, es[0]), ps[1:], es[1:]))
            return [argument(at, ps[0], x)] + rest
        got = args(s, f[2], e[3])
        v = ('call', at, e[2], got)
        return ('nothing', at, v) if f[0] is None else ('value', at, f[0], v)
    if k == 'sub':
        a, i = both(lambda: typing(s, e[2]), lambda: typing(past(s, e[2]), e[3]))
        return subscripted(at, a, i)
    if k in ('after', 'before'):
        t, p = target(at, typing(s, e[3]))
        return ('value', at, t, ('effect', at, [('read', t, p)]))
    if k == 'prefix':
        t, v = worth(535, at, typing(s, e[3])); t = promoted(t)
        return ('value', at, 'int' if e[2] == '!' else t, ('unary', at, e[2], t, v))
    if k == 'sizeof':
        x = typing(s, e[2])
        if x[0] in ('value', 'object'): n = SIZE[x[2]]
        elif x[0] == 'reference': n = 4
        elif x[0] == 'array' and x[2][0] == 'complete': n = size_of(x[2][1])
        else: breaks(536, at)
        return ('value', at, 'uint', ('k', 'uint', n))
    if k == 'sizeoftype':
        o = named_in(s, e[2])
        if o is None: breaks(536, at)
        return ('value', at, 'uint', ('k', 'uint', size_of(o)))
    if k == 'cast':
        o, x = both(lambda: named_in(s, e[2]), lambda: typing(s.more(type_strings(e[2])), e[3]))
        if o is None: return ('nothing', at, ('void', effect(x)))
        if o.lengths: breaks(537, at)
        return ('value', at, o.element, ('cast', o.element, worth(535, at, x)[1]))
    if k == 'bin':
        op = e[2]
        a, b = both(lambda: typing(s, e[3]), lambda: typing(past(s, e[3]), e[4]))
        if op == ',':
            v = effect(a)
            if b[0] == 'value': return ('value', at, b[2], ('seq', v, b[3]))
            if b[0] == 'object': return ('value', at, b[2], ('seq', v, ('read', b[2], b[4])))
            if b[0] == 'nothing': return ('nothing', at, ('seq', v, b[2]))
            breaks(620, b[1])
        x, y = both(lambda: worth(535, at, a), lambda: worth(535, at, b))
        if op == '&&': return ('value', at, 'int', ('and', x[1], y[1]))
        if op == '||': return ('value', at, 'int', ('or', x[1], y[1]))
        t = operands_type(op, x[0], y[0])
        return ('value', at, 'int' if op in COMPARE else t, ('bin', at, op, t, x[1], y[1]))
    if k == 'cond':
        s2 = past(s, e[2])
        c, (a, b) = both(lambda: worth(535, at, typing(s, e[2])),
                         lambda: both(lambda: typing(s2, e[3]), lambda: typing(past(s2, e[3]), e[4])))
        if a[0] == b[0] == 'nothing': return ('nothing', at, ('cond', None, c[1], a[2], b[2]))
        x, y = both(lambda: worth(538, at, a), lambda: worth(538, at, b))
        t = usual(x[0], y[0])
        return ('value', at, t, ('cond', t, c[1], x[1], y[1]))
    if k == 'assign':
        a, b = both(lambda: typing(s, e[3]), lambda: typing(past(s, e[3]), e[4]))
        to, x = both(lambda: target(at, a), lambda: worth(534 if e[2] == '=' else 535, at, b))
        return ('value', at, to[0], ('effect', at, [('read', to[0], to[1]), x[1]]))
    raise AssertionError(k)
def named_in(s, t):
    at, ss, sizes = t
    def lengths(s, es):
        if not es: return ()
        def one():
            constant_form(s, es[0])
            v = constant_in(integer(typing(s, es[0])))[1]
            refuse_if(v <= 0, 518, at)
            return v
        n, rest = both(one, lambda: lengths(past(s, es[0]), es[1:]))
        return (n,) + rest
    (b, const), ns = both(lambda: base_in(s, at, 0, ss), lambda: lengths(s, sizes))
    if b is None:
        refuse_if(bool(ns), 518, at)
        return None
    o = Obj(b, const, ns); too_large(at, o)
    return o
# ------------------------------------------------------------------ constants
def measurable(e):
    k = e[0]
    if k == 'paren': return measurable(e[1])
    if k in ('call', 'after', 'before', 'assign'): breaks(501, e[1])
    if k == 'sub': both(lambda: measurable(e[2]), lambda: measurable(e[3]))
    elif k == 'prefix': measurable(e[3])
    elif k == 'sizeof': measurable(e[2])
    elif k == 'cast': measurable(e[3])
    elif k == 'bin': both(lambda: refuse_if(e[2] == ',', 501, e[1]), lambda: measurable(e[3]), lambda: measurable(e[4]))
    elif k == 'cond': both(lambda: measurable(e[2]), lambda: measurable(e[3]), lambda: measurable(e[4]))
def constant_form(s, e):
    k = e[0]
    if k == 'paren': return constant_form(s, e[1])
    if k == 'id':
        b = s.lookup(e[2])
        refuse_if(b is not None and b.meaning[0] != 'enumerator', 501, e[1])
    elif k in ('str', 'call', 'sub', 'after', 'before', 'assign'): breaks(501, e[1])
    elif k == 'prefix': constant_form(s, e[3])
    elif k == 'sizeof': measurable(e[2])
    elif k == 'cast': constant_form(s, e[3])
    elif k == 'bin': both(lambda: refuse_if(e[2] == ',', 501, e[1]), lambda: constant_form(s, e[3]), lambda: constant_form(s, e[4]))
    elif k == 'cond': both(lambda: constant_form(s, e[2]), lambda: constant_form(s, e[3]), lambda: constant_form(s, e[4]))
def place_at(p): return p[1]
def operate(at, op, t, a, b):
    a = converted(t, a)
    if op in ('<<', '>>'):
        n = 8 * SIZE[t]
        refuse_if(b < 0 or b >= n, 502, at)
        if op == '>>': return a >> b
        if t not in SIGNED: return converted(t, a << b)
        refuse_if(a < 0 or not fits(t, a << b), 502, at)
        return a << b
    b = converted(t, b)
    if op in COMPARE: return int({'<': a < b, '>': a > b, '<=': a <= b, '>=': a >= b, '==': a == b, '!=': a != b}[op])
    if op in '/%':
        refuse_if(b == 0, 503, at)
        q = abs(a) // abs(b) * (1 if (a < 0) == (b < 0) else -1)
        refuse_if(not fits(t, q), 502, at)
        return q if op == '/' else a - q * b
    v = {'+': a + b, '-': a - b, '*': a * b, '&': a & b, '|': a | b, '^': a ^ b}[op]
    if t not in SIGNED: return converted(t, v)
    refuse_if(not fits(t, v), 502, at)
    return v
def folded(v):
    k = v[0]
    if k == 'k': return v[2]
    if k == 'read': breaks(501, place_at(v[2]))
    if k in ('effect', 'call'): breaks(501, v[1])
    if k == 'unary':
        a = converted(v[3], folded(v[4]))
        if v[2] == '+': return a
        if v[2] == '-': return operate(v[1], '-', v[3], 0, a)
        if v[2] == '~': return converted(v[3], ~a)
        return int(a == 0)
    if k == 'bin': a = folded(v[4]); return operate(v[1], v[2], v[3], a, folded(v[5]))
    if k == 'and': return int(folded(v[1]) != 0 and folded(v[2]) != 0)
    if k == 'or': return int(folded(v[1]) != 0 or folded(v[2]) != 0)
    if k == 'cond':
        w = folded(v[3] if folded(v[2]) else v[4]); return w if v[1] is None else converted(v[1], w)
    if k == 'seq': folded(v[1]); return folded(v[2])
    if k == 'cast': return converted(v[1], folded(v[2]))
    return folded(v[1])
def integer(x): return worth(501, x[1], x)
def constant_in(w): return w[0], folded(w[1])
def constant_value(s, e):
    constant_form(s, e)
    return constant_in(integer(typing(s, e)))
# ------------------------------------------------------------------ declarators
def sizes_in(s, at, sizes):
    def size(s, e):
        v = constant_value(s, e)[1]; refuse_if(v <= 0, 518, at); return v
    def rest(s, es):
        if not es: return ()
        def one():
            if es[0] is None: breaks(518, at)
            return size(s, es[0])
        n, ns = both(one, lambda: rest(s.more(size_strings(es[:1])), es[1:]))
        return (n,) + ns
    if not sizes: return None
    n, ns = both(lambda: None if sizes[0] is None else size(s, sizes[0]), lambda: rest(s.more(size_strings(sizes[:1])), sizes[1:]))
    return n, ns
def declared_type(s, at, base, sizes):
    got = sizes_in(s, at, sizes)
    t, const = base
    if t is None: breaks(519 if got is None else 518, at)
    if got is None: return ('complete', Obj(t, const, ()))
    n, ns = got
    o = Obj(t, const, ns if n is None else (n,) + ns)
    too_large(at, o)
    return ('unknown' if n is None else 'complete', o)
def fresh(s, at, n):
    b = s.lookup(n); refuse_if(b is not None and b.level == s.level, 514, at)
def parameters_in(s, ps):
    s = replace(s, objects=()).inside(); types = []
    for start, ss, at, n, sizes in ps:
        def obj():
            (t, const), got = both(lambda: base_in(s, start, 0, ss), lambda: sizes_in(s, at, sizes))
            if t is None: breaks(526 if got is None else 518, at)
            if got is None: return ('number', Obj(t, const, ()))
            o = Obj(t, const, got[1]); too_large(at, o)
            return ('elements', o)
        _, p = both(lambda: fresh(s, at, n) if n else None, obj)
        s = s.more(size_strings(sizes))
        m = ('object', ('auto',), ('complete', p[1])) if p[0] == 'number' else ('reference', p[1])
        if n: s = s.named(n, m, None, 'defined')
        if p[0] == 'number': s = replace(s, objects=s.objects + (p[1],))
        types.append(('number', p[1].element) if p[0] == 'number' else p)
    return tuple(types), s
# ------------------------------------------------------------------ linkage
def as_built_in(at, meaning, linkage, state, n):
    if n not in BUILT: return
    both(lambda: refuse_if(meaning != ('function', BUILT[n]), 515, at),
         lambda: refuse_if(linkage == 'internal', 516, at), lambda: refuse_if(state == 'defined', 553, at))
def composite_meaning(a, b):
    if a[0] == b[0] == 'object':
        t = composite(a[2], b[2]); return None if t is None else ('object', a[1], t)
    if a[0] == b[0] == 'function': return a if a == b else None
    return None
RANK = {'mentioned': 0, 'tentative': 1, 'defined': 2}
def completed(t): return t[1] if t[0] == 'complete' else array_of(1, t[1])
def declared_at_file(s, at, n, meaning, linkage, state):
    def again():
        old = s.lookup(n)
        if old is None: return meaning, linkage, state
        if old.linkage is None: breaks(514, at)
        def same():
            m = composite_meaning(old.meaning, meaning)
            if m is None: breaks(515, at)
            return m
        m = both(lambda: refuse_if(old.linkage != linkage, 516, at),
                 lambda: refuse_if(old.state == state == 'defined', 517, at), same)[-1]
        return m, old.linkage, max(old.state, state, key=lambda x: RANK[x])
    m, l, st = both(lambda: as_built_in(at, meaning, linkage, state, n), again)[-1]
    s = s.named(n, m, l, st)
    if m[0] == 'object': s = put_static(s, m[1][1], (completed(m[2]), st != 'mentioned'))
    return s
def put_static(s, n, x):
    ss = list(s.statics)
    if n < len(ss): ss[n] = x
    else: ss.append(x)
    return replace(s, statics=tuple(ss))
def file_linkage(s, n, cls, is_function):
    if cls == 'static': return 'internal'
    if cls == 'extern' or is_function:
        b = s.lookup(n); return 'external' if b is None else b.linkage
    return 'external'
def file_function(s, at, n, cls, f, state): return declared_at_file(s, at, n, ('function', f), file_linkage(s, n, cls, True), state)
# ------------------------------------------------------------------ initialisers
def wanted(lengths): return None if not lengths else (lengths[0], lengths[1:])
def characters(t, lengths): return not lengths and t in ('char', 'schar', 'uchar')
def alone(parts): return len(parts) == 1 and parts[0][0] == 'one' and parts[0][1][0] == 'str'
def number_from(s, t, e):
    x = typing(s, e); return ('v', worth(534, x[1], x)[1])
def array_from(s, at, t, room, lengths, top, e):
    if e[0] == 'str' and characters(t, lengths):
        refuse_if(room is not None and len(e[2]) > room, 520, e[1])
        return ('text',)
    breaks(521 if top else 622, at)
def initialiser(s, at, t, w, top, i):
    if i[0] == 'one': return number_from(s, t, i[1]) if w is None else array_from(s, at, t, w[0], w[1], top, i[1])
    p, parts = i[1], i[2]
    if w is None:
        if len(parts) == 1 and parts[0][0] == 'one': return number_from(s, t, parts[0][1])
        if len(parts) > 1 and parts[0][0] == 'one': both(lambda: number_from(s, t, parts[0][1]), lambda: breaks(520, p))
        breaks(521, p)
    room, lengths = w
    if characters(t, lengths) and alone(parts): return array_from(s, at, t, room, lengths, False, parts[0][1])
    def all_(s, ps):
        if not ps: return []
        a, b = both(lambda: initialiser(s, p, t, wanted(lengths), False, ps[0]), lambda: all_(s.more(init_strings(ps[0])), ps[1:]))
        return [a] + b
    got = all_(s, parts)
    both(lambda: refuse_if(not parts, 521, p), lambda: refuse_if(room is not None and len(parts) > room, 520, p))
    return ('list', got)
def is_text(e): return e[0] == 'str' or e[0] == 'paren' and is_text(e[1])
# a string literal is no constant expression, but may stand for an array of characters (6.7.9p4, p14)
def constant_parts(s, t, w, i):
    text = w is not None and characters(t, w[1])
    if i[0] == 'one': return None if text and is_text(i[1]) else constant_form(s, i[1])
    if text and alone(i[2]): return None
    inner = None if w is None else wanted(w[1])
    both(*[lambda p=p: constant_parts(s, t, inner, p) for p in i[2]])
def values(x):
    if x[0] == 'v': folded(x[1])
    elif x[0] == 'list': both(*[lambda y=y: values(y) for y in x[1]])
def init_uses(x):
    if x[0] == 'v': return uses(x[1])
    if x[0] == 'text': return []
    return sum((init_uses(y) for y in x[1]), [])
# ------------------------------------------------------------------ declarations
def specified(s, at, ss):
    for x in ss:
        if x[0] == 'list': s = enumerated(s, at, x[1], x[2])
    def cls():
        cs = [x[0] for x in ss if x[0] in ('extern', 'static')]
        refuse_if(len(cs) > 1, 512, at)
        return cs[0] if cs else None
    c, b = both(cls, lambda: base_in(s, at, sum(x[0] == 'list' for x in ss), [x for x in ss if x[0] in ('const', 'word', 'enum')]))
    return c, b, s
def enumerated(s, at, tag, es):
    def go(s):
        nxt = 0
        for eat, n, e in es:
            def built_in(): return as_built_in(eat, ('enumerator', 0), None, 'mentioned', n) if s.level == 0 else None
            def new(): both(lambda: fresh(s, eat, n), built_in)
            def val():
                v = nxt if e is None else constant_value(s, e)[1]
                refuse_if(not fits('int', v), 524, eat); return v
            _, v = both(new, val)
            s = past(s, e).named(n, ('enumerator', v), None, 'defined'); nxt = v + 1
        return s
    if tag is None: return go(s)
    def new_tag():
        t = s.tag(tag); refuse_if(t is not None and t[1] == s.level, 525, at)
    return both(new_tag, lambda: go(s.tagged(tag, False)).tagged(tag, True))[1]
def begun(s, cls, base, at, n, sizes, init):
    t = declared_type(s, at, base, sizes)
    s = s.more(size_strings(sizes))
    if s.level == 0:
        old = s.lookup(n)
        st = old.meaning[1] if old and old.meaning[0] == 'object' else ('static', len(s.statics))
        state = 'defined' if init else 'mentioned' if cls == 'extern' else 'tentative'
        s = declared_at_file(s, at, n, ('object', st, t), file_linkage(s, n, cls, False), state)
    else:
        fresh(s, at, n)
        if cls == 'static':
            s = s.named(n, ('object', ('static', len(s.statics)), t), None, 'defined')
            s = replace(s, statics=s.statics + ((completed(t), True),))
        else:
            s = s.named(n, ('object', ('auto', len(s.objects)), t), None, 'defined')
            s = replace(s, objects=s.objects + (completed(t),))
    m = s.lookup(n).meaning
    return s, m[2] if m[0] == 'object' else t, m[1]
def length_from(s, at, o, i):
    def text(e, at):
        if characters(o.element, o.lengths) and e[0] == 'str': return len(e[2]) + 1
        breaks(521, at)
    if i[0] == 'one': return text(i[1], at)
    parts = i[2]
    if characters(o.element, o.lengths) and alone(parts): return text(parts[0][1], i[1])
    if not parts: breaks(521, i[1])
    return len(parts)
def finished(s, cls, at, n, t, init):
    if t[0] == 'complete': return s.more(init_strings(init)) if init else s
    if init is None:
        refuse_if(s.level > 0 or cls == 'static', 519, at); return s
    k = length_from(s, at, t[1], init)
    s = s.more(init_strings(init))
    o = array_of(k, t[1]); too_large(at, o)
    b = s.lookup(n); m = b.meaning
    if m[0] == 'object':
        u = composite(m[2], ('complete', o))
        if u is None: breaks(515, at)
        s = s.named(n, ('object', m[1], u), b.linkage, b.state)
        if m[1][0] == 'static': s = put_static(s, m[1][1], (completed(u), True))
        else:
            os = list(s.objects); os[m[1][1]] = completed(u); s = replace(s, objects=tuple(os))
    return s
def items_typed(s, cls, base, items):
    if not items: return s, []
    it = items[0]
    if it[0] == 'function':
        types, inner_s = parameters_in(s, it[3])
        s = file_function(replace(s, literals=inner_s.literals), it[1], it[2], cls, (base[0], base[1], types), 'mentioned')
        return items_typed(s, cls, base, items[1:])
    _, at, n, sizes, init = it
    b, t, storage = begun(s, cls, base, at, n, sizes, init)
    def initialised():
        if init is None: return []
        w = wanted(t[1].lengths) if t[0] == 'complete' else (None, t[1].lengths)
        if storage[0] == 'static':
            constant_parts(b, t[1].element, w, init); x = initialiser(b, at, t[1].element, w, True, init); values(x); return []
        return init_uses(initialiser(b, at, t[1].element, w, True, init))
    u, (s, more) = both(initialised, lambda: items_typed(finished(b, cls, at, n, t, init), cls, base, items[1:]))
    return s, u + more
def declaration_typed(s, d):
    if d[0] == 'assert':
        v = constant_value(s, d[2])[1]; refuse_if(v == 0, 523, d[1]); return past(s, d[2]), []
    _, at, ss, items = d
    cls, base, s2 = specified(s, at, ss)
    refuse_if(not items and not any(x[0] == 'list' for x in ss), 513, at)
    return items_typed(s2, cls, base, items)
# ------------------------------------------------------------------ uses
def place_uses(p):
    if p[0] == 'named': return [(p[1], ('static', p[2][1]))] if p[2][0] == 'static' else []
    return place_uses(p[2]) + uses(p[3])
def uses(v):
    k = v[0]
    if k == 'k': return []
    if k == 'read': return place_uses(v[2])
    if k == 'place': return place_uses(v[1])
    if k == 'effect': return sum((uses(x) for x in v[2]), [])
    if k == 'unary': return uses(v[4])
    if k == 'bin': return uses(v[4]) + uses(v[5])
    if k in ('and', 'or', 'seq'): return uses(v[1]) + uses(v[2])
    if k == 'cond': return uses(v[2]) + uses(v[3]) + uses(v[4])
    if k == 'cast': return uses(v[2])
    if k == 'void': return uses(v[1])
    return ([(v[1], ('function', v[2]))]) + sum((uses(a) for a in v[3]), [])
# ------------------------------------------------------------------ statements: (labels, uses, scope)
@dataclass(frozen=True)
class Around:
    result: Any; loop: bool = False; switch: bool = False
def valued(code, at, s, e): return worth(code, at, typing(s, e))
def misplaced(a, at): breaks(623 if a.switch else 541, at)
def statement(a, direct, s, x):
    k, at = x[0], x[1]
    if k == 'case':
        if direct is None: misplaced(a, at)
        v, (ls, u, s2) = both(lambda: converted(direct, constant_value(s, x[2])[1]),
                              lambda: statement(a, direct, past(s, x[2]), x[3]))
        return [(at, v)] + ls, u, s2
    if k == 'default':
        if direct is None: misplaced(a, at)
        ls, u, s2 = statement(a, direct, s, x[2]); return [(at, None)] + ls, u, s2
    if k == 'block':
        ls, u, s2 = pieces(a, None, s.inside(), x[2]); return [], u, outside(s, s2)
    if k == 'empty': return [], [], s
    if k == 'expr': return [], uses(effect(typing(s, x[2]))), past(s, x[2])
    if k == 'if':
        c, (ls, u, s2) = both(lambda: valued(539, at, s, x[2]), lambda: statement(a, None, past(s, x[2]), x[3]))
        return [], uses(c[1]) + u, s2
    if k == 'ifelse':
        c, (ls, u, s2) = both(lambda: valued(539, at, s, x[2]), lambda: statement(a, None, past(s, x[2]), x[3]))
        ls, w, s3 = statement(a, None, s2, x[4]); return [], uses(c[1]) + u + w, s3
    if k == 'switch':
        if x[3][0] != 'block': both(lambda: valued(539, at, s, x[2]), lambda: breaks(623, at))
        c = valued(539, at, s, x[2])
        ls, u, s2 = pieces(replace(a, switch=True), promoted(c[0]), past(s, x[2]).inside(), x[3][2])
        both(*[lambda i=i: refuse_if(any(m[1] == ls[i][1] for m in ls[:i]), 540, ls[i][0]) for i in range(len(ls))])
        return [], uses(c[1]) + u, outside(s, s2)
    if k == 'while':
        c, (ls, u, s2) = both(lambda: valued(539, at, s, x[2]),
                              lambda: statement(replace(a, loop=True), None, past(s, x[2]), x[3]))
        return [], uses(c[1]) + u, s2
    if k == 'do':
        ls, u, s2 = statement(replace(a, loop=True), None, s, x[2])
        c = valued(539, at, s2, x[3]); return [], u + uses(c[1]), past(s2, x[3])
    if k == 'for':
        start, test, step = x[2], x[3], x[4]
        def first():
            si = s.inside()
            if start[0] == 'e': return (past(si, start[1]), [] if start[1] is None else uses(effect(typing(si, start[1]))))
            d = start[1]
            def fit():
                if d[0] == 'declared': refuse_if(any(y[0] in ('extern', 'static', 'list') for y in d[2]), 544, d[1])
            return both(fit, lambda: declaration_typed(si, d))[1]
        d, du = first()
        def control():
            return both(lambda: [] if test is None else uses(valued(539, at, d, test)[1]),
                        lambda: [] if step is None else uses(effect(typing(past(d, test), step))))
        inner_scope = past(past(d, test), step).inside()
        (tu, su), (ls, u, s2) = both(control, lambda: statement(replace(a, loop=True), None, inner_scope, x[5]))
        return [], du + tu + su + u, outside(s, s2)
    if k == 'break': refuse_if(not (a.loop or a.switch), 542, at); return [], [], s
    if k == 'continue': refuse_if(not a.loop, 542, at); return [], [], s
    e = x[2]
    if e is None: refuse_if(a.result is not None, 543, at); return [], [], s
    if a.result is None: both(lambda: typing(s, e), lambda: breaks(543, at))
    return [], uses(valued(534, at, s, e)[1]), past(s, e)
def pieces(a, direct, s, ps):
    labels, us = [], []
    for kind, x in ps:
        if kind == 'd': s, u = declaration_typed(s, x)
        else:
            ls, u, s = statement(a, direct, s, x); labels += ls
        us += u
    return labels, us, s
# ------------------------------------------------------------------ nodes
def expr_nodes(e):
    k = e[0]
    if k == 'paren': return expr_nodes(e[1])
    n = 1
    for part in e[2:]:
        if k in ('str', 'const', 'id'): break
        if isinstance(part, tuple) and part and isinstance(part[0], str): n += expr_nodes(part)
        elif isinstance(part, list): n += sum(expr_nodes(p) for p in part)
        elif isinstance(part, tuple): n += sum(expr_nodes(p) for p in part[2])
    return n
def opt(e): return expr_nodes(e) if e else 0
def init_nodes(i): return expr_nodes(i[1]) if i[0] == 'one' else 1 + sum(map(init_nodes, i[2]))
def specs_nodes(ss): return sum(sum(1 + opt(e[2]) for e in x[2]) for x in ss if x[0] == 'list')
def params_nodes(ps): return sum(1 + sum(map(opt, p[4])) for p in ps)
def decl_nodes(d):
    if d[0] == 'assert': return 1 + expr_nodes(d[2])
    def item(i): return params_nodes(i[3]) if i[0] == 'function' else sum(map(opt, i[3])) + (init_nodes(i[4]) if i[4] else 0)
    return specs_nodes(d[2]) + sum(1 + item(i) for i in d[3])
def stmt_nodes(x):
    k = x[0]
    if k == 'block': return 1 + pieces_nodes(x[2])
    if k in ('empty', 'break', 'continue'): return 1
    if k in ('expr', 'return'): return 1 + opt(x[2])
    if k in ('if', 'while', 'switch', 'case'): return 1 + expr_nodes(x[2]) + stmt_nodes(x[3])
    if k == 'ifelse': return 1 + expr_nodes(x[2]) + stmt_nodes(x[3]) + stmt_nodes(x[4])
    if k == 'default': return 1 + stmt_nodes(x[2])
    if k == 'do': return 1 + stmt_nodes(x[2]) + expr_nodes(x[3])
    return 1 + (opt(x[2][1]) if x[2][0] == 'e' else decl_nodes(x[2][1])) + opt(x[3]) + opt(x[4]) + stmt_nodes(x[5])
def pieces_nodes(ps): return sum(decl_nodes(x) if k == 'd' else stmt_nodes(x) for k, x in ps)
# ------------------------------------------------------------------ units
def words(n): return (n + 3) // 4 * 4
def weight(d, types, objects):
    n = 1 + specs_nodes(d[2]) + params_nodes(d[3][3]) + 1 + pieces_nodes(d[4])
    a = sum(4 for t in types if t[0] == 'elements') + sum(words(size_of(o)) for o in objects)
    return (64 + a + 16 * n + 15) // 16 * 16
def function_typed(s, d):
    _, start, ss, f, body = d
    _, at, name, ps = f
    cls, base, s1 = specified(s, start, ss)
    def all_named(): return both(*[lambda p=p: refuse_if(p[3] is None, 527, p[2]) for p in ps])
    _, (types, inside) = both(all_named, lambda: parameters_in(s1, ps))
    ftype = (base[0], base[1], types)
    file = file_function(replace(s1, literals=inside.literals), at, name, cls, ftype, 'defined')
    newer = inside.bindings[:len(inside.bindings) - len(s1.bindings)]
    body_scope = replace(inside, bindings=newer + file.bindings, statics=file.statics)
    _, u, end = pieces(Around(base[0]), None, body_scope, body)
    refuse_if(weight(d, types, end.objects) > stack_bytes, 714, at)
    return replace(file, literals=end.literals, statics=end.statics, objects=()), u, (name, ftype)
def unit(es):
    s = Scope(definitions=tuple(d[3][2] for d in es if d[0] == 'def')); us, fs = [], []
    for d in es:
        if d[0] == 'def': s, u, f = function_typed(s, d); us += u; fs.append(f)
        else: s, _ = declaration_typed(s, d)
    def limits():
        total = sum(words(size_of(o)) for o, defined in s.statics if defined) + sum(words(n + 1) for n in s.literals)
        both(lambda: refuse_if(total > 16777216, 713, 1), lambda: refuse_if(len(fs) > 16384, 715, 1))
    def all_defined():
        seen, faults = set(), []
        for at, what in us:
            undefined = not s.statics[what[1]][1] if what[0] == 'static' else what[1] not in s.definitions and what[1] not in BUILT
            if undefined and what not in seen: faults.append((552, at))
            seen.add(what)
        if faults: raise Broken(faults)
    both(limits, all_defined)
    def is_main(f):
        b = s.lookup('main')
        return f == ('main', ('int', False, ())) and b is not None and b.linkage == 'external'
    refuse_if(not any(map(is_main, fs)), 551, 1)
def faults(source, stack=USUAL_STACK):
    global stack_bytes
    stack_bytes = stack
    tree = Parser(lex(source)).unit()
    try: unit(tree)
    except Broken as b: return sorted(set(b.faults))
    return []

def computed(path):
    """The sources above the computed rows of a file of crates/typing_spec/proofs, with the stack and the codes and lines of each."""
    for block in path.read_text().split('\n\n'):
        lines = block.split('\n')
        above = [line[3:] for line in lines if line.startswith('-- ')]
        row = ' '.join(line for line in lines if not line.startswith('-- '))
        if not above or 'told (unit_typed' not in row: continue
        told = re.findall(r'fault\s+(\d+)\s+(\d+)', row.rsplit('≡', 1)[1])
        source, _, stack = '\n'.join(above).partition(', by a stack of ')
        yield source + '\n', int(stack.split()[0]) if stack else USUAL_STACK, sorted({(int(code), int(line)) for code, line in told})

def main():
    here = pathlib.Path(__file__).parent
    passed = failed = 0
    for path in sorted((here / '../../../crates/typing_spec/proofs').glob('*Rows.antt')):
        for source, stack, want in computed(path):
            if '{}' in source: continue # a tree that no list of tokens has
            got = [(code, 0 if code in (551, 713, 715) else line) for code, line in faults(source, stack)]
            if got == want: passed += 1
            else:
                failed += 1
                print(f'FAIL {path.name}: {got}, not {want}: {source}')
    if passed + failed < 200:
        failed += 1
        print(f'FAIL of some 230 computed rows {passed + failed} were found')
    for table, folder in (('rows.txt', 'rows'), ('accepted.txt', 'accepted')):
        for row in (here / table).read_text().splitlines():
            if row.startswith('#'): continue
            name, code, line = row.split()[:2] + [row.split()[2] if len(row.split()) > 2 else '']
            want = [(int(code), int(line))] if folder == 'rows' and code != 'ok' else []
            got = faults((here / folder / f'{name}.c').read_text())
            if got == want: passed += 1
            else:
                failed += 1
                print(f'FAIL {name}: {got}, not {want}')
    print(verdict.line(passed, failed))
    return failed != 0

if __name__ == '__main__': sys.exit(main())

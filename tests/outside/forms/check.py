#!/usr/bin/env python3
"""Holds `CC show` against forms that were written by hand: `check.py CC`. Tokens by 6.4, trees by the grammar of 6.5 to 6.9, typed programs by the
conversions that 6.3 and 6.5 want; each form as JSON against the same as text; three-address code against the places of statements; items against the
listing, by what each pseudoinstruction comes to. The last line counts what passed and failed.
"""
import json
import os
import subprocess
import sys
import tempfile
import textwrap

sys.path.insert(0, os.path.dirname(os.path.dirname(os.path.dirname(os.path.abspath(__file__)))))
import harness

CC = os.path.abspath(sys.argv[1])
FORMS = ('tokens', 'tree', 'typed', 'tac', 'flat', 'passes', 'items')
checks = harness.Current()

SMALL = '''#define TWO 2
static char c;
int twice(int n) { return n * TWO; }
int main(void)
{
    int a[3] = { 1, c };
    while (a[0] < 3 && twice(1))
        a[0]++;
    return -a[0] + "x"[0];
}
'''

TOKENS = '''tokens
  identifier "static" [s.c:2]
  identifier "char" [s.c:2]
  identifier "c" [s.c:2]
  punctuator ";" [s.c:2]
  identifier "int" [s.c:3]
  identifier "twice" [s.c:3]
  punctuator "(" [s.c:3]
  identifier "int" [s.c:3]
  identifier "n" [s.c:3]
  punctuator ")" [s.c:3]
  punctuator "{" [s.c:3]
  identifier "return" [s.c:3]
  identifier "n" [s.c:3]
  punctuator "*" [s.c:3]
  number "2" [s.c:3]
  punctuator ";" [s.c:3]
  punctuator "}" [s.c:3]
'''

TREE = '''unit
  declaration [s.c:2]
    specifier static
    specifier char
    object c [s.c:2]
  definition twice [s.c:3]
    specifier int
    parameter n [s.c:3]
      specifier int
    block [s.c:3]
      return [s.c:3]
        binary * [s.c:3]
          name n [s.c:3]
          constant int 2 [s.c:3]
  definition main [s.c:4]
    specifier int
    block [s.c:5]
      declaration [s.c:6]
        specifier int
        object a [s.c:6]
          size
            constant int 3 [s.c:6]
          list [s.c:6]
            constant int 1 [s.c:6]
            name c [s.c:6]
      while [s.c:7]
        binary && [s.c:7]
          binary < [s.c:7]
            subscript [] [s.c:7]
              name a [s.c:7]
              constant int 0 [s.c:7]
            constant int 3 [s.c:7]
          call twice [s.c:7]
            constant int 1 [s.c:7]
        expression [s.c:8]
          postfix ++ [s.c:8]
            subscript [] [s.c:8]
              name a [s.c:8]
              constant int 0 [s.c:8]
      return [s.c:9]
        binary + [s.c:9]
          unary - [s.c:9]
            subscript [] [s.c:9]
              name a [s.c:9]
              constant int 0 [s.c:9]
          subscript [] [s.c:9]
            string number=N [s.c:9]
            constant int 0 [s.c:9]
'''.replace('number=N', 'N')

# The places of the typed program and its types. The element of a string literal is a char, which is converted to int by what adds it (6.3.1.1p2).
TYPED = '''program
  literal 0 "x\\u0000"
  static c type=char
  function twice int
    parameter int
    automatic 0 int
    block [s.c:3]
      return [s.c:3] int
        binary * int [s.c:3]
          read int
            object automatic=0 [s.c:3]
          constant int 2
  function main int
    automatic 0 int[3]
    block [s.c:4]
      define [s.c:6] automatic=0
        list
          converted int
            constant int 1
          converted int
            read char
              object c [s.c:6]
      while [s.c:7]
        and
          binary < int [s.c:7]
            read int
              element [s.c:7]
                object automatic=0 [s.c:7]
                constant int 0
            constant int 3
          call twice int [s.c:7]
            converted int
              constant int 1
        expression [s.c:8]
          postfix ++ int in=int [s.c:8]
            element [s.c:8]
              object automatic=0 [s.c:8]
              constant int 0
      return [s.c:9] int
        binary + int [s.c:9]
          unary - int [s.c:9]
            read int
              element [s.c:9]
                object automatic=0 [s.c:9]
                constant int 0
          read char
            element [s.c:9]
              object literal=0 [s.c:9]
              constant int 0
'''.replace('static c type=char', 'static c char')


def check(name, holds, *more):
    checks.holds(' '.join(map(str, (name, *more)))[:3000], holds)


def cc(work, *words):
    done = subprocess.run([CC, *words], cwd=work, stdin=subprocess.DEVNULL, capture_output=True, timeout=120)
    return done.returncode, done.stdout.decode(), done.stderr.decode()


def put(work, name, text):
    with open(os.path.join(work, name), 'w') as file:
        file.write(text)


def first_difference(found, wanted):
    for number, (a, b) in enumerate(zip(found.splitlines() + [''], wanted.splitlines() + [''])):
        if a != b:
            return 'line %d: %r, not %r' % (number + 1, a, b)
    return 'lengths'


PLAIN = {'type', 'op', 'name', 'specifier', 'function', 'value', 'number', 'at', 'code', 'text', 'static'}


def lines_of(node, depth=0):
    """The lines that a node of the JSON is as text."""
    quoted = lambda value: json.dumps(value)
    words = []
    for key, value in node.items():
        if key in ('node', 'parts', 'file', 'line'):
            if key == 'file':
                words.append('[%s:%d]' % (value, node['line']))
            continue
        shown = quoted(value) if key == 'text' else str(value)
        words.append(shown if key in PLAIN else '%s=%s' % (key, shown))
    yield '  ' * depth + ' '.join([node['node'], *words])
    for part in node.get('parts', ()):
        yield from lines_of(part, depth + 1)


def by_hand(work):
    put(work, 's.c', SMALL)
    status, out, err = cc(work, 'show', 'tokens', 's.c')
    check('tokens', (status, err) == (0, '') and out.startswith(TOKENS), first_difference(out, TOKENS))
    status, out, err = cc(work, 'show', 'tree', 's.c')
    # the number of a string literal is the compiler's own
    found = '\n'.join('            string N [s.c:9]' if line.strip().startswith('string ') else line for line in out.splitlines()) + '\n'
    check('tree', (status, err) == (0, '') and found == TREE, first_difference(found, TREE))
    status, out, err = cc(work, 'show', 'typed', 's.c')
    check('typed', (status, err) == (0, '') and out == TYPED, first_difference(out, TYPED))


def places(work):
    """Where a statement's code begins stands its place, in the order of the code."""
    put(work, 's.c', SMALL)
    status, out, err = cc(work, 'show', 'tac', 's.c')
    check('tac', (status, err) == (0, ''), err)
    functions = [part.splitlines() for part in out.split('\n  function ')[1:]]
    check('tac: functions', [lines[0].split()[0] for lines in functions] == ['twice', 'main'], out[:200])
    found = [[int(line.rsplit('[s.c:', 1)[1][:-1]) for line in lines if line.endswith(']') and '[s.c:' in line] for lines in functions]
    # the test of the loop stands behind its body
    check('tac: places', found == [[3, 3], [4, 6, 7, 8, 7, 9]], found)
    check('tac: numbers', all([int(line.split()[1]) for line in lines[1:]] == list(range(len(lines) - 1)) for lines in functions))
    status, out, err = cc(work, 'show', 'flat', 's.c')
    check('flat', status == 0 and 'GetByte' not in out and 'Return' in out, out[:200])
    after_each_pass(work, out)


def after_each_pass(work, flat):
    """Seven passes; the code after the last one is flat code, and each has the functions in order. A constant that the second pass propagates and a store
    that it drops are gone behind it, and the last one alone has words in registers. Each instruction stays at its place, but in jump threading: that leaves
    out what does nothing, and the jump over unreachable code, and a `continue` of a `while` gets the test of the loop in place of a jump to it."""
    put(work, 's.c', SMALL)
    status, out, err = cc(work, 'show', 'passes', 's.c')
    check('passes', (status, err) == (0, '') and out.startswith('passes\n'), err)
    parts = [part.split('\n', 1) for part in out.split('\n  after ')[1:]]
    check('passes: names', [name for name, _ in parts] == ['flattening', 'constant-propagation-and-dead-stores', 'unreachable-code-elimination', 'jump-threading', 'constant-hoisting', 'register-allocation-of-leaf-functions', 'register-allocation'], [name for name, _ in parts])
    codes = [textwrap.dedent(code).strip('\n') for _, code in parts]
    check('passes: the last is flat code', codes[-1] == flat.strip('\n'), first_difference(codes[-1], flat))
    put(work, 'c.c', 'int main(void) { int a[2]; a[1] = 4; return a[1] * 8; }\n')
    codes = [part.split('\n', 1)[1] for part in cc(work, 'show', 'passes', 'c.c')[1].split('\n  after ')[1:]]
    check('passes: a subscript is computed', 'Element' in codes[0] and 'Element' not in codes[1], codes[1])
    check('passes: a product is a shift', 'Mul' in codes[0] and 'Mul' not in codes[1] and 'ShiftLeft' in codes[1], codes[1])
    lengths = [len(code.splitlines()) for code in codes]
    check('passes: as many instructions', len(set(lengths[:3])) == 1 and len(set(lengths[3:])) == 1, lengths)
    check('passes: fewer instructions', lengths[3] < lengths[2], codes)
    check('passes: a jump to what follows', 'Jump' in codes[2] and 'Jump' not in codes[3], codes[3])
    put(work, 'd.c', 'int main(void) { int a[2], n = 9; a[0] = 0; while (n > 0) { n--; if (n == 5) continue; a[0] += n; } return a[0]; }\n')
    codes = [part.split('\n', 1)[1] for part in cc(work, 'show', 'passes', 'd.c')[1].split('\n  after ')[1:]]
    check('passes: the test of the loop at a continue', [code.count(' Branch ') for code in codes] == [2] * 3 + [3] * 4, codes[3])


OPPOSITE = {'beq': 'bne', 'bne': 'beq', 'blt': 'bge', 'bge': 'blt', 'bltu': 'bgeu', 'bgeu': 'bltu'}


def items_of(node):
    """Each item of a program as (address, text), and where its labels and functions are."""
    found, labels, functions = [], {}, {}
    for part in node['parts']:
        if part['node'] == 'function':
            functions[part['name']] = int(part['parts'][0]['at'], 16)
        for item in part['parts']:
            at, text = int(item['at'], 16), item['code']
            if text.endswith(':'):
                labels[text[:-1]] = at
            else:
                found.append((at, text))
    return found, labels, functions


def loaded(first, second):
    """What LUI and ADDI load into a register, and which."""
    register, upper = first.removeprefix('lui ').split(',')
    low = second.removeprefix('addi %s,%s,' % (register, register))
    return register, (int(upper, 16) * 4096 + int(low)) % 2 ** 32


def holds(at, text, words, labels, functions):
    """Whether the words at an address are those that an item comes to (RISC-V unprivileged ISA manual, its pseudoinstructions)."""
    name, _, rest = text.partition(' ')
    first, second = words.get(at, ''), words.get(at + 4, '')
    if name == 'j':
        return first.startswith('jal x0,') and at + int(first.split(',')[1]) == labels[rest]
    if name in OPPOSITE and rest.split(',')[-1] in labels:
        start, to = rest.rpartition(',')[0], labels[rest.rpartition(',')[2]]
        near = first == '%s %s,%d' % (name, start, to - at)
        return near or first == '%s %s,8' % (OPPOSITE[name], start) and second == 'jal x0,%d' % (to - at - 4)
    if name == 'call' and first.startswith('jal x1,'):
        return at + int(first.split(',')[1]) == functions[rest]
    if name == 'call':
        upper, low = int(first.removeprefix('auipc x1,'), 16), int(second.removeprefix('jalr x1,').removesuffix('(x1)'))
        return (at + upper * 4096 + low) % 2 ** 32 == functions[rest]
    if name in ('li', 'la'):
        register, value = rest.split(',')
        wanted = labels[value] if value in labels else int(value) % 2 ** 32 if name == 'li' else None
        data = -(-(max(words) + 4) // 4096) * 4096      # the first multiple of 4096 not below the code's end
        return loaded(first, second) == (register, wanted if wanted is not None else data + int(value.removeprefix('data+')))
    return first == text


def items(work, files):
    for name, text in files:
        put(work, name, text)
    names = [name for name, _ in files]
    status, out, err = cc(work, 'show', 'items', *names, '--json')
    check('items %s' % names[0], (status, err) == (0, ''), err)
    if status != 0:
        return
    words = {int(line[:8], 16): line[19:] for line in cc(work, 'list', *names)[1].splitlines()}
    found, labels, functions = items_of(json.loads(out))
    wrong = [one for one in found if not holds(*one, words, labels, functions)]
    check('items %s: each is what stands at its address' % names[0], not wrong, wrong[:3])
    ends = [at for at, _ in found[1:]] + [max(words) + 4]
    check('items %s: nothing is left out' % names[0], found[0][0] == min(words) and all(end - at in (4, 8) for (at, _), end in zip(found, ends)), found[:3])
    told = [line.split()[0] for line in cc(work, 'frames', *names)[1].splitlines()[1:] if not line.startswith('deepest')]
    check('items %s: functions' % names[0], list(functions) == told, functions, told)


# A branch that goes further than its 4,096 bytes.
FAR = 'int main(void) {\n    int a = 1;\n    while (a < 1000) {\n' + '        a = a * 3 + a / 7;\n' * 400 + '    }\n    return a & 127;\n}\n'


def both_styles(work, files):
    for name, text in files:
        put(work, name, text)
    main = files[0][0]
    names = [name for name, _ in files]
    for form in FORMS:
        plain = cc(work, 'show', form, *names)
        as_json = cc(work, 'show', form, *names, '--json')
        check('%s %s: statuses' % (form, main), plain[0] == as_json[0] and plain[2] == as_json[2], plain[2], as_json[2])
        if plain[0] == 0:
            lines = list(lines_of(json.loads(as_json[1])))
            check('%s %s: JSON is the text' % (form, main), lines == plain[1].splitlines(), first_difference('\n'.join(lines), plain[1]))


def refused(work):
    put(work, 'bad.c', 'int main(void) { return x; }\n')
    line = 'bad.c:1: 528 undeclared name: x\n' if cc(work, 'build', 'bad.c', '-o', 'none')[2].endswith('x\n') else cc(work, 'build', 'bad.c', '-o', 'none')[2]
    for form, wanted in (('tokens', 0), ('tree', 0), ('typed', 1), ('tac', 1), ('flat', 1), ('passes', 1), ('items', 1)):
        status, out, err = cc(work, 'show', form, 'bad.c')
        check('refused: ' + form, status == wanted and err == (line if wanted else '') and (out == '') == (wanted == 1), status, err)
    put(work, 'wrong.c', 'int main(void) { return 1 }\n')
    for form in FORMS:
        status, out, err = cc(work, 'show', form, 'wrong.c')
        check('wrong: ' + form, (status, err) == ((0, '') if form == 'tokens' else (1, 'wrong.c:1: 401 syntax error\n')), status, err)
    check('no such form', cc(work, 'show', 'asm', 'bad.c')[0] == 2)
    check('no form', cc(work, 'show', 'bad.c')[0] == 2)
    put(work, 's.c', SMALL)
    check('to a file', cc(work, 'show', 'tree', 's.c', '-o', 'tree.txt') == (0, '', '') and open(os.path.join(work, 'tree.txt')).read() == cc(work, 'show', 'tree', 's.c')[1])
    check('OUT is a source', cc(work, 'show', 'tree', 's.c', '-o', 's.c')[0] == 2 and open(os.path.join(work, 's.c')).read() == SMALL)


def examples(work):
    folder = os.path.join(os.path.dirname(os.path.abspath(__file__)), '..', '..', '..', 'examples')
    for name in sorted(os.listdir(folder)):
        if name.endswith('.c') and name != 'library.c':
            with open(os.path.join(folder, name)) as file:
                files = [(name, file.read())]
            both_styles(work, files)
            items(work, files)
    items(work, [('s.c', SMALL)])
    items(work, [('far.c', FAR)])


def two_files(work):
    both_styles(work, [('two.c', '#include "two.h"\nint main(void) { return one("\\a\\"\\\\\\x7f"[0]) + (sizeof(int[2]) ? 1, 2 : (char)3); }\n'),
                       ('two.h', 'enum e { A, B = 3 };\nstatic int one(int x) { switch (x) { case A: return 1; default: do x--; while (x > B); } for (int i = 0; i < 2; i++) continue; return x; }\n_Static_assert(A == 0, "a");\nextern int late[];\nint late[2] = { 1 };\n')])


def within(case, part):
    with tempfile.TemporaryDirectory() as work:
        part(work)


def cases(_):
    for part in (by_hand, places, refused, examples, two_files):
        yield harness.Row(part.__name__, within, part)


if __name__ == '__main__':
    sys.exit(harness.main(cases))

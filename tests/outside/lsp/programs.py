"""Three programs of several files, and what stands where in them, by hand. A place is a file, a line from 0, a token on it and which one of the like it is."""
import os
import tempfile

# A ring buffer in three files, as its author would write it.
RING = {
    'ring.h': '#ifndef RING_H\n#define RING_H\n#define RING_SIZE 8\nvoid ring_put(int value);\nint ring_take(void);\n#endif\n',
    'ring.c': '#include "ring.h"\nstatic int slots[RING_SIZE];\nstatic unsigned first, count;\n'
              'void ring_put(int value)\n{\n    slots[(first + count) % RING_SIZE] = value;\n    count++;\n}\n'
              'int ring_take(void)\n{\n    int value = slots[first];\n    first = (first + 1) % RING_SIZE;\n    count--;\n    return value;\n}\n',
    'main.c': '#include <rvio.h>\n#include "ring.c"\nint main(void)\n{\n    for (int value = 0; value < 3; value++)\n        ring_put(value + \'a\');\n'
              '    rv_putbyte(ring_take());\n    return 0;\n}\n',
}
# An enumeration with a tag and a header of its own.
LIGHT = {
    'light.h': 'enum light { RED, GREEN = RED + 2 };\nenum light next(enum light now);\n',
    'main.c': '#include "light.h"\n#define TWICE(x) ((x) + (x))\nenum light next(enum light now)\n{\n    return now == RED ? GREEN : RED;\n}\n'
              'int main(void)\n{\n    int now = TWICE(GREEN);\n    return next(GREEN) + now;\n}\n',
}
# Folders, a macro with parameters, one of the options, arrays and constants.
TABLE = {
    'include/table.h': '#ifndef TABLE_H\n#define TABLE_H\n#define ROWS 4\n#define CELL(row, column) ((row) * WIDTH + (column))\n'
                       'enum { WIDTH = ROWS * 2 };\nextern const int limit;\nint sum_of(const int cells[], int count);\n#endif\n',
    'src/table.c': '#include "table.h"\nconst int limit = 100;\nint sum_of(const int cells[], int count)\n{\n    int sum = 0;\n'
                   '    for (int i = 0; i < count; i++)\n        sum = sum + cells[i];\n    return sum;\n}\n',
    'src/main.c': '#include "table.h"\n#include "table.c"\nstatic int cells[ROWS][WIDTH];\nstatic int flat[ROWS * WIDTH];\nint main(void)\n{\n'
                  '    const int step = 3;\n    for (int i = 0; i < ROWS * WIDTH; i++)\n        flat[i] = (i + step) % limit;\n'
                  '    cells[1][2] = flat[CELL(1, 2)];\n    return sum_of(flat, CELL(0, START)) == 0;\n}\n',
}
# Objects with static storage and enumerators in blocks, some of which have a name that others have too.
BLOCKS = {
    'main.c': 'enum { A = 9 };\nstatic int count = 7;\nint next(void)\n{\n    static const int step = 2, most[] = { 1, 2, 3 };\n    static unsigned char count;\n'
              '    count += step;\n    return count + most[1];\n}\nint main(void)\n{\n    enum mode { A, B = A + 5, C };\n    static long table[C][A + 2];\n'
              '    {\n        enum { A = -B };\n        table[0][1] = A;\n    }\n    return table[0][1] + B + C + count + next();\n}\n',
}
OPTIONS = {
    id(RING): {'main': 'main.c'},
    id(LIGHT): {'main': 'main.c'},
    id(TABLE): {'main': 'src/main.c', 'include': ['include'], 'define': ['START=2']},
}


def program(files):
    """A folder with the files of a program."""
    folder = tempfile.mkdtemp()
    for name, text in files.items():
        path = os.path.join(folder, name)
        os.makedirs(os.path.dirname(path), exist_ok=True)
        with open(path, 'w', encoding='utf-8', newline='') as file:
            file.write(text)
    return folder


def place(files, where):
    """The file, the line, the first and the last character of a place, in UTF-16."""
    name, line, token, *nth = where
    row = files[name].split('\n')[line]
    start = -1
    for _ in range(nth[0] if nth else 1):
        start = row.index(token, start + 1)
    units = len(row[:start].encode('utf-16-le')) // 2
    return name, line, units, units + len(token.encode('utf-16-le')) // 2


# The definition of a name, and all other places of it.
NAMES = [
    (RING, ('ring.c', 3, 'ring_put'), [('ring.h', 3, 'ring_put'), ('main.c', 5, 'ring_put')]),
    (RING, ('ring.c', 8, 'ring_take'), [('ring.h', 4, 'ring_take'), ('main.c', 6, 'ring_take')]),
    (RING, ('ring.c', 1, 'slots'), [('ring.c', 5, 'slots'), ('ring.c', 10, 'slots')]),
    (RING, ('ring.c', 2, 'count'), [('ring.c', 5, 'count'), ('ring.c', 6, 'count'), ('ring.c', 12, 'count')]),
    (RING, ('ring.h', 2, 'RING_SIZE'), [('ring.c', 1, 'RING_SIZE'), ('ring.c', 5, 'RING_SIZE'), ('ring.c', 11, 'RING_SIZE')]),
    (RING, ('ring.c', 3, 'value'), [('ring.c', 5, 'value')]),
    (RING, ('ring.c', 10, 'value'), [('ring.c', 13, 'value')]),
    (RING, ('main.c', 4, 'value'), [('main.c', 4, 'value', 2), ('main.c', 4, 'value', 3), ('main.c', 5, 'value')]),
    (LIGHT, ('main.c', 2, 'next'), [('light.h', 1, 'next'), ('main.c', 9, 'next')]),
    (LIGHT, ('light.h', 0, 'light'), [('light.h', 1, 'light'), ('light.h', 1, 'light', 2), ('main.c', 2, 'light'), ('main.c', 2, 'light', 2)]),
    (LIGHT, ('light.h', 0, 'RED'), [('light.h', 0, 'RED', 2), ('main.c', 4, 'RED'), ('main.c', 4, 'RED', 2)]),
    (LIGHT, ('light.h', 0, 'GREEN'), [('main.c', 4, 'GREEN'), ('main.c', 8, 'GREEN'), ('main.c', 9, 'GREEN')]),
    (LIGHT, ('main.c', 2, 'now'), [('main.c', 4, 'now')]),
    (LIGHT, ('main.c', 8, 'now'), [('main.c', 9, 'now')]),
    (LIGHT, ('main.c', 1, 'TWICE'), [('main.c', 8, 'TWICE')]),
    (LIGHT, ('main.c', 1, 'x'), [('main.c', 1, 'x', 2), ('main.c', 1, 'x', 3)]),
    (TABLE, ('src/table.c', 2, 'sum_of'), [('include/table.h', 6, 'sum_of'), ('src/main.c', 10, 'sum_of')]),
    (TABLE, ('src/table.c', 1, 'limit'), [('include/table.h', 5, 'limit'), ('src/main.c', 8, 'limit')]),
    (TABLE, ('include/table.h', 2, 'ROWS'), [('include/table.h', 4, 'ROWS'), ('src/main.c', 2, 'ROWS'), ('src/main.c', 3, 'ROWS'), ('src/main.c', 7, 'ROWS')]),
    (TABLE, ('include/table.h', 4, 'WIDTH'), [('include/table.h', 3, 'WIDTH'), ('src/main.c', 2, 'WIDTH'), ('src/main.c', 3, 'WIDTH'), ('src/main.c', 7, 'WIDTH')]),
    (TABLE, ('include/table.h', 3, 'CELL'), [('src/main.c', 9, 'CELL'), ('src/main.c', 10, 'CELL')]),
    (TABLE, ('include/table.h', 3, 'row'), [('include/table.h', 3, 'row', 2)]),
    (TABLE, ('src/table.c', 2, 'cells'), [('src/table.c', 6, 'cells')]),
    (TABLE, ('src/main.c', 2, 'cells'), [('src/main.c', 9, 'cells')]),
    (TABLE, ('src/main.c', 3, 'flat'), [('src/main.c', 8, 'flat'), ('src/main.c', 9, 'flat'), ('src/main.c', 10, 'flat')]),
    (TABLE, ('src/main.c', 6, 'step'), [('src/main.c', 8, 'step')]),
    # for (int i = 0; i < count; i++): the letter stands in `int` too
    (TABLE, ('src/table.c', 5, 'i', 2), [('src/table.c', 5, 'i', 3), ('src/table.c', 5, 'i', 4), ('src/table.c', 6, 'i')]),
]
# The file of an `#include`.
INCLUDES = [
    (RING, ('main.c', 1, 'ring.c'), 'ring.c'),
    (RING, ('ring.c', 0, 'ring.h'), 'ring.h'),
    (LIGHT, ('main.c', 0, 'light.h'), 'light.h'),
    (TABLE, ('src/main.c', 0, 'table.h'), 'include/table.h'),
    (TABLE, ('src/main.c', 1, 'table.c'), 'src/table.c'),
]
# What is shown of a name: lines of the text, of which each must be there.
HOVERS = [
    (RING, ('main.c', 5, 'ring_put'), ['void ring_put(int value)', 'function', 'type `void (int)`']),
    (RING, ('main.c', 6, 'ring_take'), ['int ring_take(void)', 'type `int (void)`']),
    (RING, ('main.c', 5, 'value'), ['int value = 0;', 'object', 'type `int`']),
    (RING, ('ring.c', 5, 'value'), ['int value', 'parameter', 'type `int`']),
    (RING, ('ring.c', 5, 'slots'), ['static int slots[RING_SIZE];', 'type `int [8]`']),
    (RING, ('ring.c', 6, 'count'), ['type `unsigned int`']),
    (RING, ('ring.c', 5, 'RING_SIZE'), ['#define RING_SIZE 8', 'macro', 'expands to', '8', 'value `8`']),
    (RING, ('ring.h', 2, 'RING_SIZE'), ['#define RING_SIZE 8', 'value `8`']),
    (LIGHT, ('main.c', 4, 'RED'), ['RED', 'enumerator, an int', 'value `0`']),
    (LIGHT, ('main.c', 9, 'GREEN'), ['GREEN = RED + 2', 'value `2`']),
    (LIGHT, ('main.c', 9, 'next'), ['enum light next(enum light now)', 'type `int (int)`']),
    (LIGHT, ('main.c', 8, 'TWICE'), ['#define TWICE(x) ((x) + (x))', 'expands to', '( ( GREEN ) + ( GREEN ) )', 'value `4`']),
    (LIGHT, ('main.c', 8, 'now'), ['int now = TWICE(GREEN);', 'type `int`']),
    (TABLE, ('src/main.c', 10, 'sum_of'), ['int sum_of(const int cells[], int count)', 'type `int (const int [], int)`']),
    (TABLE, ('src/table.c', 6, 'cells'), ['const int cells[]', 'parameter', 'type `const int []`']),
    (TABLE, ('src/table.c', 5, 'count'), ['int count', 'type `int`']),
    (TABLE, ('src/main.c', 8, 'limit'), ['const int limit = 100;', 'type `const int`', 'value `100`']),
    (TABLE, ('src/main.c', 8, 'step'), ['const int step = 3;', 'type `const int`', 'value `3`']),
    (TABLE, ('src/main.c', 9, 'cells'), ['static int cells[ROWS][WIDTH];', 'type `int [4][8]`']),
    (TABLE, ('src/main.c', 9, 'flat'), ['type `int [32]`']),
    (TABLE, ('src/main.c', 7, 'WIDTH'), ['WIDTH = ROWS * 2', 'value `8`']),
    (TABLE, ('src/main.c', 9, 'CELL'), ['#define CELL(row, column) ((row) * WIDTH + (column))', '( ( 1 ) * WIDTH + ( 2 ) )', 'value `10`']),
    (TABLE, ('src/main.c', 10, 'CELL'), ['( ( 0 ) * WIDTH + ( 2 ) )', 'value `2`']),
    (TABLE, ('src/main.c', 10, 'START'), ['#define START 2', 'value `2`']),
    (BLOCKS, ('main.c', 4, 'step'), ['object', 'type `const int`', 'value `2`']),
    (BLOCKS, ('main.c', 6, 'step'), ['type `const int`', 'value `2`']),
    (BLOCKS, ('main.c', 7, 'most'), ['type `const int [3]`']),
    (BLOCKS, ('main.c', 7, 'count'), ['static unsigned char count;', 'type `unsigned char`']),
    (BLOCKS, ('main.c', 17, 'count'), ['static int count = 7;', 'type `int`']),
    (BLOCKS, ('main.c', 12, 'table'), ['type `long [6][2]`']),
    (BLOCKS, ('main.c', 0, 'A'), ['A = 9', 'enumerator, an int', 'value `9`']),
    (BLOCKS, ('main.c', 11, 'A'), ['A', 'enumerator, an int', 'value `0`']),
    (BLOCKS, ('main.c', 11, 'B'), ['B = A + 5', 'value `5`']),
    (BLOCKS, ('main.c', 17, 'C'), ['C', 'value `6`']),
    (BLOCKS, ('main.c', 14, 'A'), ['A = -B', 'value `-5`']),
    (BLOCKS, ('main.c', 15, 'A'), ['A = -B', 'value `-5`']),
]
# Of what nothing is known that the line of this word would say: what stands in a group that is skipped, an object in a file that depends on its lines, an array that nothing gives a size.
UNSURE = [
    ('enum { A = 1 };\nint main(void)\n{\n#if 0\n    enum { A = 2 };\n#endif\n    return A;\n}\n', ('main.c', 4, 'A'), 'value'),
    ('int main(void)\n{\n#if 0\n    static long kept;\n#endif\n    return 0;\n}\n', ('main.c', 3, 'kept'), 'type'),
    ('int main(void)\n{\n    static int kept = __LINE__;\n    return kept;\n}\n', ('main.c', 2, 'kept'), 'type'),
    ('extern int some[];\nint main(void) { return 0; }\n', ('main.c', 0, 'some'), 'type'),
]
# Where a name is in scope (6.2.1p7): names that are offered at `@`, and names that are not.
SCOPED = [
    ('a function in its body', {'main.c': 'int main(void) { @ }\n'}, {'main'}, set()),
    ('a function before its declarator', {'main.c': '@\nint main(void) { return 0; }\n'}, set(), {'main'}),
    ('a function in its declarator', {'main.c': 'int f(int n, @) { return n; }\n'}, {'n'}, {'f'}),
    ('a function behind its prototype', {'main.c': 'int f(int n);\nint main(void) { @ }\nint f(int n) { return n; }\n'}, {'f', 'main'}, {'n'}),
    ('an object in its declarator', {'main.c': 'int x[@];\n'}, set(), {'x'}),
    ('an object in its initialiser', {'main.c': 'int x = @;\n'}, {'x'}, set()),
    ('an object in the next declarator', {'main.c': 'int x, y[@], z;\n'}, {'x'}, {'y', 'z'}),
    ('an object of a block before it', {'main.c': 'int main(void) { @ int x = 1; return x; }\n'}, {'main'}, {'x'}),
    ('an object behind its block', {'main.c': 'int main(void) { { int x = 1; } @ }\n'}, {'main'}, {'x'}),
    ('an object of a for', {'main.c': 'int main(void) { for (int i = 0; @; ) i++; return 0; }\n'}, {'i'}, set()),
    ('an object behind its for', {'main.c': 'int main(void) { for (int i = 0; i < 2; i++) ; @ return 0; }\n'}, set(), {'i'}),
    ('a parameter in the body', {'main.c': 'int f(int n) { @ }\n'}, {'f', 'n'}, set()),
    ('a parameter behind the body', {'main.c': 'int f(int n) { return n; }\n@\n'}, {'f'}, {'n'}),
    ('an enumerator in its constant', {'main.c': 'enum { A = 1, B = @ };\n'}, {'A'}, {'B'}),
    ('an enumerator behind its enumeration', {'main.c': 'enum { A = 1, B = A } x = @;\n'}, {'A', 'B', 'x'}, set()),
    ('names of a block', {'main.c': 'int main(void) { static int kept; enum { K = 2 }; @ return 0; }\n'}, {'kept', 'K', 'main'}, set()),
    ('names behind a block', {'main.c': 'int main(void) { { static int kept; enum { K = 2 }; } @ return 0; }\n'}, {'main'}, {'kept', 'K'}),
    ('a macro before its line', {'main.c': '@\n#define N 1\n'}, set(), {'N'}),
    ('a macro behind its line', {'main.c': '#define N 1\n@\n'}, {'N'}, set()),
    ('an included file before its line', {'main.c': '@\n#include "a.h"\n', 'a.h': 'int a;\n'}, set(), {'a'}),
    ('an included file behind its line', {'main.c': '#include "a.h"\n@\n', 'a.h': 'int a;\n'}, {'a'}, set()),
    ('the including file in the included one', {'main.c': 'int x;\n#include "a.h"\nint y;\n', 'a.h': 'int a;\n@\nint b;\n'}, {'x', 'a'}, {'y', 'b'}),
]
# The functions of a program, whose frames and weights `zkc frames` tells.
FRAMES = [
    (RING, ('main.c', 5, 'ring_put')),
    (LIGHT, ('main.c', 9, 'next')),
    (TABLE, ('src/main.c', 10, 'sum_of')),
]
# The names of a file's symbols, with their kinds in the protocol.
SYMBOLS = [
    (RING, 'ring.c', [('slots', 13), ('first', 13), ('count', 13), ('ring_put', 12), ('ring_take', 12)]),
    (RING, 'ring.h', [('RING_H', 14), ('RING_SIZE', 14)]),
    (LIGHT, 'light.h', [('light', 10), ('RED', 22), ('GREEN', 22)]),
    (LIGHT, 'main.c', [('TWICE', 14), ('next', 12), ('main', 12)]),
    (TABLE, 'src/main.c', [('cells', 13), ('flat', 13), ('main', 12)]),
    (TABLE, 'include/table.h', [('TABLE_H', 14), ('ROWS', 14), ('CELL', 14), ('WIDTH', 22)]),
]
FOLDS = [
    (RING, 'ring.c', [(4, 7), (9, 14)]),
    (RING, 'ring.h', [(0, 5)]),
    (LIGHT, 'main.c', [(3, 5), (7, 10)]),
    (TABLE, 'src/table.c', [(3, 8)]),
    (TABLE, 'include/table.h', [(0, 7)]),
]
# The call around a place: its signature, and the number of the argument.
SIGNATURES = [
    (RING, ('main.c', 5, 'value'), 'ring_put(int value)', 0),
    (LIGHT, ('main.c', 8, 'GREEN'), 'TWICE(x)', 0),
    (LIGHT, ('main.c', 9, 'GREEN'), 'next(enum light now)', 0),
    (TABLE, ('src/main.c', 10, 'CELL'), 'sum_of(const int cells[], int count)', 1),
    (TABLE, ('src/main.c', 9, '2', 2), 'CELL(row, column)', 1),
]
# The names of parameters before arguments: line, character, label.
HINTS = [
    (RING, 'main.c', [(5, 17, 'value:'), (6, 15, 'c:')]),
    (LIGHT, 'main.c', [(9, 16, 'now:')]),
    (TABLE, 'src/main.c', [(10, 18, 'cells:'), (10, 24, 'count:')]),
]
# The first tokens of a file: lines and characters behind the one before, length, kind (0 keyword, 1 number, 2 string, 3 function, 4 variable, 5 parameter,
# 6 enumerator, 7 enumeration, 8 macro), no modifiers.
TOKENS = [
    # enum light { RED, GREEN = RED + 2
    (LIGHT, 'light.h', [0, 0, 4, 0, 0, 0, 5, 5, 7, 0, 0, 8, 3, 6, 0, 0, 5, 5, 6, 0, 0, 8, 3, 6, 0, 0, 6, 1, 1, 0]),
    # #ifndef RING_H, #define RING_H, #define RING_SIZE 8, void ring_put(int value)
    (RING, 'ring.h', [0, 8, 6, 8, 0, 1, 8, 6, 8, 0, 1, 8, 9, 8, 0, 0, 10, 1, 1, 0, 1, 0, 4, 0, 0, 0, 5, 8, 3, 0, 0, 9, 3, 0, 0, 0, 4, 5, 5, 0]),
    # #include "table.h", const int limit = 100, int sum_of(const int cells[], int count)
    (TABLE, 'src/table.c', [0, 9, 9, 2, 0, 1, 0, 5, 0, 0, 0, 6, 3, 0, 0, 0, 4, 5, 4, 0, 0, 8, 3, 1, 0, 1, 0, 3, 0, 0, 0, 4, 6, 3, 0, 0, 7, 5, 0, 0,
                             0, 6, 3, 0, 0, 0, 4, 5, 5, 0, 0, 9, 3, 0, 0, 0, 4, 5, 5, 0]),
]
# What is offered at a place: names that are there, and names that are not.
OFFERS = [
    # main.c includes ring.c before main
    (RING, 'ring.c', 5, 4, {'value', 'slots', 'RING_SIZE', 'ring_put', 'ring_take', 'while'}, {'a', 'main'}),
    (LIGHT, 'main.c', 9, 4, {'now', 'RED', 'TWICE', 'next', 'return'}, {'x'}),
    (TABLE, 'src/main.c', 8, 8, {'i', 'step', 'flat', 'CELL', 'WIDTH', 'START', 'limit', 'sum_of', 'main'}, {'sum', 'count', 'row'}),
    (BLOCKS, 'main.c', 15, 8, {'A', 'B', 'C', 'mode', 'table', 'count', 'next', 'main'}, {'step', 'most'}),
]
# A fault that is made by taking a token away, and the change that mends it: file, line, the token, and where the text `;` is to be inserted.
FAULTS = [
    (RING, ('ring.c', 6, ';'), ('ring.c', 6, 11)),
    (LIGHT, ('main.c', 9, ';'), ('main.c', 9, 28)),
    (TABLE, ('src/main.c', 6, ';'), ('src/main.c', 6, 22)),
]

"""Writes the sources of generated.txt to a folder: python3 generate.py FOLDER.

They stand at a limit of the program, and one past it, and are too large to be kept. Sizes by docs/DIAGNOSTICS.md: 16,777,216 bytes of
static objects and string literals, each rounded up to 4 (713); a function's weight of 1,048,576 = 64 + its objects and
parameters, each rounded up to 4, + 16 a node (714); 16,384 function definitions (715).
"""
import pathlib
import sys

OBJECT, STATICS, WEIGHT, FUNCTIONS, NODES = 1048576, 16777216, 1048576, 16384, 8000
MAIN = 'int main(void) { return 0; }\n'


def functions(count, words='void'):
    """So many definitions, main among them."""
    return ''.join(f'{words} f{k}(void) {{ }}\n' for k in range(count - 1)) + MAIN


def objects(count, size):
    """So many objects of this size, as a declaration."""
    return ''.join(f'char o{k}[{size}];\n' for k in range(count))


def small_objects(count):
    """15 of the greatest objects, 10,000 of one byte, which take 4, and one that fills up to the limit; `count` small ones."""
    rest = STATICS - 15 * OBJECT - 4 * 10000
    small = ''.join(f'char c{k};\n' for k in range(count))
    return objects(15, OBJECT) + f'char rest[{rest}];\n' + small + MAIN


def strings(count):
    """The same with 20,000 string literals of 4 bytes, 1,900 a function; `count` of them."""
    rest = STATICS - 15 * OBJECT - 4 * 20000
    text = objects(15, OBJECT) + f'char rest[{rest}];\n'
    for first in range(0, count, 1900):
        statements = ''.join('    "abc"[0];\n' for _ in range(min(1900, count - first)))
        text += f'void f{first}(void) {{\n{statements}}}\n'
    return text + MAIN


def nodes(more):
    """As many nodes as a function may have: the definition, its block, a declarator, its size, return, 0, and empty
    statements; and an array that fills the weight, `more` bytes longer."""
    size = WEIGHT - 64 - 16 * NODES + more
    return f'int main(void) {{\n    char a[{size}];\n' + '    ;\n' * (NODES - 6) + '    return 0;\n}\n'


def many_objects(more):
    """2,000 objects of one byte, each a node and 4 bytes, and the array."""
    size = WEIGHT - 64 - 16 * (6 + 2000) - 4 * 2000 + more
    return f'int main(void) {{\n    char a[{size}];\n' + ''.join(f'    char c{k};\n' for k in range(2000)) + '    return 0;\n}\n'


def parameters(more):
    """500 parameters, every other one an array, each a node and 4 bytes, and the array."""
    size = WEIGHT - 64 - 16 * (6 + 500) - 4 * 500 + more
    list_ = ',\n    '.join(f'char p{k}' + ('[]' if k % 2 else '') for k in range(500))
    return f'int\nf({list_}) {{\n    char a[{size}];\n    return 0;\n}}\n' + MAIN


def cases(last):
    """2,500 labels of one switch, the last of them this one, at line 2,504."""
    labels = ''.join(f'    case {k}: ;\n' for k in range(2500))
    return f'int main(void) {{\n    switch (7) {{\n{labels}    default: ;\n    case {last}: ;\n    }}\n    return 0;\n}}\n'


def enumerators(last):
    """10,000 enumerators, and one more of the same scope at line 10,003."""
    names = ''.join(f'    e{k},\n' for k in range(10000))
    return f'int f(int e1);\nenum {{\n{names}    {last}\n}};\n' + MAIN


SOURCES = {
    '540_among_many_cases': cases(1234),
    'ok_many_cases': cases(2500),
    '514_among_many_enumerators': enumerators('e5000'),
    'ok_many_enumerators': enumerators('e10000'),
    '713_small_objects': small_objects(10001),
    'ok_most_small_objects': small_objects(10000),
    '713_strings': strings(20001),
    'ok_most_strings': strings(20000),
    '714_nodes': nodes(1),
    'ok_heaviest_by_nodes': nodes(0),
    '714_objects': many_objects(1),
    'ok_heaviest_by_objects': many_objects(0),
    '714_parameters': parameters(1),
    'ok_heaviest_by_parameters': parameters(0),
    '715_functions': functions(FUNCTIONS + 1),
    'ok_most_functions': functions(FUNCTIONS),
    '715_static_functions': functions(FUNCTIONS + 1, 'static void'),
    'ok_declarations_are_no_definitions': 'void g(void), f0(void);\n' * 500 + functions(FUNCTIONS),
}

folder = pathlib.Path(sys.argv[1])
folder.mkdir(parents=True, exist_ok=True)
for name, source in SOURCES.items():
    (folder / f'{name}.c').write_text(source)

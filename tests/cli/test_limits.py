"""The largest sources that are built, and one past each."""
from commands import Commands
from harness import ways

PUT = 'void rv_putbyte(int c);\n'


def largest():
    """32 statements and a return, each of 64 constants, and white space up to 65,536 bytes. It writes the letters a to z and a to f, and
    returns 42."""
    def sum_to(value):
        return '2147483647' + ''.join((' - ' if k % 2 else ' + ') + '2147483647' for k in range(1, 62)) + f' + {value} - 0'
    text = PUT + 'int main(void) {\n' + ''.join(f'    rv_putbyte({sum_to(97 + s % 26)});\n' for s in range(32)) + f'    return {sum_to(42)};\n}}'
    while len(text) < 65535:
        text += ' ' if len(text) % 80 else '\n'
    return text + '\n'


def of_nodes(statements, result):
    """A main of 3 nodes for each statement, those of the result, and 3."""
    return PUT + 'int main(void) {\n' + 'rv_putbyte(65);\n' * statements + f'return {result}; }}\n'


def of_functions(last):
    """32 functions of 7,998 empty statements, and so of 8,000 nodes, and one of so many."""
    names = [f'int m{number}' for number in range(32)] + ['int main']
    return ''.join(f'{name}(void) {{{";" * (7998 if number < 32 else last)}}}\n' for number, name in enumerate(names))


def pairs(number):
    """A return of 0 in so many pairs of parentheses."""
    return f'int main(void) {{ return {"(" * number}0{")" * number}; }}\n'


class Limits(Commands):
    def fails(self, line, source):
        self.write('main.c', source)
        self.ends(('build', 'main.c', '-o', 'program'), 1, line=line)

    def built(self, source, status, out=b''):
        """The source is built, and does the same all ways."""
        sources = ways.Sources(self.program, source)
        if ways.four_ways(self, 'program', sources, b'', status, out):
            ways.listed(self, 'program', sources)
            ways.laid_out(self, 'program', sources)

    def accepts(self, source):
        self.write('main.c', source)
        self.builds('main.c')

    def test_the_largest_sums(self):
        self.built(largest(), 42, b'abcdefghijklmnopqrstuvwxyzabcdef')

    def test_8000_nodes_are_a_function_and_one_more_is_not(self):
        self.accepts(of_nodes(2664, '1 + 1 + 1'))
        self.fails('main.c:2668: 710 limit: nodes of a function', of_nodes(2665, '1 + 1'))

    def test_262144_nodes_are_a_program_and_one_more_is_not(self):
        """711 is told where the declaration ends that is too many; a function that is too large itself before it."""
        self.accepts(of_functions(6142))
        self.fails('main.c:36: 711 limit: nodes of the program', of_functions(6142) + 'int\na\n; int b;\n')
        self.fails('main.c:33: 710 limit: nodes of a function', of_functions(7999))

    def test_252_pairs_of_parentheses_and_one_more(self):
        self.built(pairs(252), 0)
        self.fails('main.c:1: 709 limit: depth', pairs(253))
        self.fails('main.c:1: 709 limit: depth', pairs(200000))

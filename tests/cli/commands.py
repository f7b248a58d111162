"""What the cases of this folder share: a command, and what it has to say, write and end with."""
import os

import harness

ROOT = os.path.dirname(os.path.dirname(os.path.dirname(os.path.abspath(__file__))))
TOUR = 'void rv_putbyte(int c);\n\nint main(void) {\n    rv_putbyte(70 + 2);\n    return 44 - 2;\n}\n'
USED = 'cc: budget used'


def example(name):
    """The bytes of an example."""
    with open(os.path.join(ROOT, 'examples', name), 'rb') as file:
        return file.read()


class Commands(harness.Case):
    """A case over the command line."""

    def write(self, name, text):
        self.program.write(name, text)

    def ends(self, words, status, out=b'', line='', what=None, **how):
        """The command ends with the status, having written the bytes and said the line, or nothing."""
        said = f'{line}\n'.encode('latin-1') if line else b''
        return self.expect(what or ' '.join(words)[:80], self.program.run(*words, **how), (status, out, said))

    def builds(self, *words, what=None):
        return self.ends(('build', *words, '-o', 'program'), 0, what=what)

    def refused(self, line, *words, what=None):
        """A build ends with 1 and the one line, and writes no file."""
        self.program.remove('program')
        self.ends(('build', *words, '-o', 'program'), 1, line=line, what=what)
        self.holds(f'{what or words}: a file was written', not os.path.lexists(self.program.at('program')))

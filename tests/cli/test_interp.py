"""interp: what it writes, undefined behaviour, ticks, refusals."""
from commands import Commands, TOUR, USED

ECHO = '#include <rvio.h>\nint main(void) { int c; while ((c = rv_getbyte()) != -1) rv_putbyte(c); return 7; }\n'


class Interp(Commands):
    def interprets(self, source, *row, **how):
        self.write('main.c', source)
        self.ends(('interp', 'main.c'), *row, **how)

    def test_the_tour(self):
        self.interprets(TOUR, 42, b'H')

    def test_an_echo(self):
        everything = bytes(range(256))
        self.interprets(ECHO, 7, everything, given=everything)
        self.interprets(ECHO, 7)

    def test_two_bytes_between_two_ticks(self):
        self.interprets('#include <rvio.h>\nint n;\nint main(void) { if (n == 0) { n = 1; rv_putbyte(main()); return 0; } rv_putbyte(65); }\n', 0, b'A\0')

    def test_two_files(self):
        self.write('twice.h', 'int twice(int a);\n')
        self.write('twice.c', '#include "twice.h"\nint twice(int a) { return a * 2; }\nint main(void) { return twice(21); }\n')
        self.ends(('interp', 'twice.c', 'twice.h'), 42)
        self.ends(('interp', 'twice.c'), 1, line='twice.c:1: 232 include file not found')

    def test_undefined_behaviour(self):
        self.interprets('int main(void) {\nunsigned short a = 65535;\nreturn a * a; }\n', 123, line='main.c:3: undefined U1')

    def test_ticks(self):
        self.write('ticks.c', 'int main(void) { return 42; }\n')
        self.ends(('interp', 'ticks.c', '--max', '4'), 42)
        self.ends(('interp', '--max', '3', 'ticks.c'), 124, line=USED)

    def test_sources_that_are_refused(self):
        self.interprets('int main(void) { return y; }\n', 1, line='main.c:1: 528 undeclared name')
        self.ends(('interp', 'none.c'), 1, line='none.c:0: 802 cannot read')

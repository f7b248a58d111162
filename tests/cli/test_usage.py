"""Words that are no use, and help."""
from commands import Commands, TOUR

WRONG = [
    ('no words',), ('an unknown command', 'compile', 'main.c'), ('pp without a main file', 'pp'), ('list without a file', 'list'),
    ('interp without a main file', 'interp'), ('interp --max 0', 'interp', 'main.c', '--max', '0'),
    ('interp --max 9223372036854775808', 'interp', 'main.c', '--max', '9223372036854775808'),
    ('build without words', 'build'), ('build without -o', 'build', 'main.c'), ('build without a main file', 'build', '-o', 'program'),
    ('run without a file', 'run'), ('run of two files', 'run', 'hello', 'hello'), ('--max 0', 'run', 'hello', '--max', '0'),
    ('--max 9223372036854775808', 'run', 'hello', '--max', '9223372036854775808'),
    ('--max 18446744073709551617', 'run', 'hello', '--max', '18446744073709551617'), ('--max -1', 'run', 'hello', '--max', '-1'),
    ('--max 1x', 'run', 'hello', '--max', '1x'), ('--max without a number', 'run', 'hello', '--max'),
    ('words that are no text', 'build', b'\xff.c', '-o', 'program'),
]


class Usage(Commands):
    def setUp(self):
        self.write('main.c', TOUR)
        self.program.run('build', 'main.c', '-o', 'hello')

    def test_wrong_words(self):
        """Status 2, nothing on standard output, something on standard error."""
        for name, *words in WRONG:
            status, out, err = self.program.run(*words)
            self.expect(name, (status, out, err != b''), (2, b'', True))

    def test_help(self):
        status, out, err = self.program.run('--help')
        self.expect('status', status, 0)
        self.holds('nothing on standard output', out)
        self.expect('standard error', err, b'')

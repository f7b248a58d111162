"""Output that is refused: a full device, a pipe whose reader is gone, nowhere."""
import os
import subprocess
import unittest

from commands import Commands, TOUR

REFUSED = b'cc: port fault 803\n'


class Refused(Commands):
    def setUp(self):
        self.write('main.c', TOUR)
        self.program.run('build', 'main.c', '-o', 'hello')

    def to(self, output, *words):
        """Status and standard error of a command whose output goes there."""
        done = self.program.go(*words, stdin=subprocess.DEVNULL, stdout=output)
        return done.status, done.err

    def test_output_to_nowhere(self):
        self.expect('', self.to(subprocess.DEVNULL, 'run', 'hello', '--max', '1000'), (42, b''))

    def test_output_to_a_full_device(self):
        if not os.path.exists('/dev/full'):
            raise unittest.SkipTest('there is no /dev/full')
        with open('/dev/full', 'wb') as full:
            self.expect('pp', self.to(full, 'pp', 'main.c'), (1, b'cc: 803 cannot write\n'))
            self.expect('interp', self.to(full, 'interp', 'main.c'), (126, REFUSED))
            self.expect('run', self.to(full, 'run', 'hello'), (126, REFUSED))
            self.expect('run, and the budget used', self.to(full, 'run', 'hello', '--max', '34'), (126, REFUSED))
            self.expect('help', self.to(full, '--help'), (1, b'cc: 803 cannot write\n'))
            usage = self.program.go(stdin=subprocess.DEVNULL, stderr=full)
            self.expect('usage', (usage.status, usage.out), (2, b''))

    def test_output_to_a_pipe_whose_reader_is_gone(self):
        reader, writer = os.pipe()
        os.close(reader)
        self.expect('', self.to(writer, 'run', 'hello'), (126, REFUSED))
        os.close(writer)

"""What the program `cc` answers for a source, command by command: (status, output, message)."""
import os
import subprocess
import tempfile

MAX = 10_000_000


class Compiler:
    def __init__(self, path):
        self.path = os.path.abspath(path)

    def answers(self, files, input):
        """The answers of each command, by its name; `run` only where there is something to run."""
        with tempfile.TemporaryDirectory() as folder:
            for name, text in files:
                with open(os.path.join(folder, name), 'wb') as file:
                    file.write(text)
            names = [name for name, _ in files]
            found = {'build': self._call(folder, 'build', *names, '-o', 'a.out')}
            if found['build'][0] == 0:
                with open(os.path.join(folder, 'a.out'), 'rb') as file:
                    built = file.read()
                found['build'] = (0, built, found['build'][2])
                found['run'] = self._call(folder, 'run', 'a.out', '--max', str(MAX), input=input)
            found['pp'] = self._text(folder, 'pp', names)
            found['list'] = self._text(folder, 'list', names)
            found['interp'] = self._call(folder, 'interp', *names, '--max', str(MAX), input=input)
            return found

    def _text(self, folder, command, names):
        status, output, message = self._call(folder, command, *names)
        return (status, output if status == 0 else b'', message)

    def _call(self, folder, *words, input=b''):
        done = subprocess.run([self.path, *words], cwd=folder, input=input, capture_output=True, timeout=120)
        return done.returncode, done.stdout, done.stderr

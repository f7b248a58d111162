"""The program under test. Each run has a folder with its files, an input, and limits of time and memory; its status, its output and what it
said are returned, and the time and the memory that it took."""
import contextlib
import os
import re
import resource
import shutil
import subprocess
import tempfile
import threading
import time
from dataclasses import dataclass

from . import pace as paces

# So many short runs (pace.py) a run may take: minutes on a machine that does nothing else.
TIMES = 20000


@dataclass(frozen=True)
class Done:
    """How a run ended. `status` is a text where it could not be made, or did not end in its time."""
    status: object
    out: bytes
    err: bytes
    seconds: float = 0.0
    megabytes: float = 0.0

    @property
    def said(self):
        """Status, output and what was said, to compare."""
        return self.status, self.out, self.err

    @property
    def line(self):
        """What was said, as text without its newline."""
        return self.err.decode('latin-1').rstrip('\n')


def bounded(memory=None, stack=None, cpu=None, more=None):
    """What the child does before it becomes the program: takes its limits."""
    def before():
        resource.setrlimit(resource.RLIMIT_CORE, (0, 0))
        if memory is not None:
            resource.setrlimit(resource.RLIMIT_AS, (memory, memory))
        if stack is not None:
            resource.setrlimit(resource.RLIMIT_STACK, (stack, stack))
        if cpu is not None:
            resource.setrlimit(resource.RLIMIT_CPU, (cpu, cpu))
        if more is not None:
            more()
    return before if (memory, stack, cpu, more) != (None, None, None, None) else None


@contextlib.contextmanager
def in_folder(files=None):
    """A folder of its own with files by their names, each bytes or text."""
    with tempfile.TemporaryDirectory() as folder:
        for name, text in (files or {}).items():
            write(os.path.join(folder, name), text)
        yield folder


def write(path, text):
    with open(path, 'wb') as file:
        file.write(text if isinstance(text, bytes) else text.encode('latin-1'))


class Program:
    """The program at a path. Each thread works in a folder of its own, unless it is told one."""

    def __init__(self, path, times=TIMES):
        self.path, self.times = os.path.abspath(path), times
        self.here = threading.local()
        self.root = tempfile.TemporaryDirectory()

    def folder(self):
        """This thread's folder."""
        if not hasattr(self.here, 'folder'):
            self.here.folder = tempfile.mkdtemp(dir=self.root.name)
        return self.here.folder

    def fresh(self):
        """Empties this thread's folder."""
        folder = self.folder()
        for name in os.listdir(folder):
            path = os.path.join(folder, name)
            if os.path.isdir(path) and not os.path.islink(path):
                shutil.rmtree(path)
            else:
                os.remove(path)

    def at(self, name):
        """The path of a file in this thread's folder."""
        return os.path.join(self.folder(), name)

    def write(self, name, text):
        write(self.at(name), text)

    def read(self, name):
        """A file's bytes; none where there is no such file."""
        if not os.path.exists(self.at(name)):
            return b''
        with open(self.at(name), 'rb') as file:
            return file.read()

    def remove(self, *names):
        """Removes files where they are."""
        for name in names:
            if os.path.lexists(self.at(name)):
                os.remove(self.at(name))

    def pace(self):
        return paces.of_program(self.path)

    def go(self, *words, given=b'', folder=None, memory=None, stack=None, cpu=None, before=None, times=None, by=(), **streams):
        """Runs the program with the words; with `by`, runs those words and these, and not the program. `given` is its input. Limits:
        `memory` and `stack` in bytes, `cpu` in seconds, `times` in short runs. Further streams are those of Popen."""
        plumbing = {'stdin': subprocess.PIPE, 'stdout': subprocess.PIPE, 'stderr': subprocess.PIPE, **streams}
        command = [*by, *words] if by else [self.path, *words]
        allowed, begun = times or self.times, time.monotonic()
        try:
            pace = self.pace()
            with subprocess.Popen(command, cwd=folder or self.folder(), preexec_fn=bounded(memory, stack, cpu, before), **plumbing) as process:
                out, err = paces.communicate(process, pace, allowed, None if 'stdin' in streams else given)
        except subprocess.TimeoutExpired:
            return Done(f'no end within {allowed} times the {pace.slowest:.3f} s of a short run', b'', b'')
        except OSError as error:
            return Done(str(error), b'', b'')
        return Done(process.returncode, out or b'', err or b'', time.monotonic() - begun)

    def measured(self, *words, folder=None, **limits):
        """A run without input whose processor seconds and most resident memory are measured. Limits: those of `bounded`."""
        bounds = [limits.get(name) for name in ('memory', 'stack', 'cpu', 'before')]
        with tempfile.TemporaryFile() as out, tempfile.TemporaryFile() as err:
            process = subprocess.Popen([self.path, *words], cwd=folder or self.folder(), stdin=subprocess.DEVNULL, stdout=out, stderr=err, preexec_fn=bounded(*bounds))
            # of this process alone: RUSAGE_CHILDREN has the most of all
            _, status, used = os.wait4(process.pid, 0)
            process.returncode = os.waitstatus_to_exitcode(status)
            out.seek(0)
            err.seek(0)
            return Done(process.returncode, out.read(), err.read(), used.ru_utime + used.ru_stime, used.ru_maxrss / 1024)

    def run(self, *words, **how):
        """Status, output and what was said of a run."""
        return self.go(*words, **how).said

    def checked(self, text, name='main.c'):
        """`ok`, or the line of the fault. An accepted program is stopped at its first tick."""
        self.write(name, text)
        status, output, line = self.run('interp', name, '--max', '1')
        if (status, output, line) == (124, b'', b'cc: budget used\n'):
            return 'ok'
        if (status, output) == (1, b'') and line.endswith(b'\n'):
            return line[:-1].decode('latin-1')
        return f'status {status}, {output[:80]!r}, {line[:200]!r}'

    def tokens(self, text):
        """What `pp` prints of a text, or the line of its fault."""
        self.write('main.c', text)
        status, output, line = self.run('pp', 'main.c')
        return output if (status, line) == (0, b'') else line.rstrip(b'\n')


def fault_of(told):
    """File, line, code and text of a fault's line, or None."""
    found = re.fullmatch(r'(.*?):(\d+): (\d+) (.*)', told)
    return found and (found.group(1), int(found.group(2)), int(found.group(3)), found.group(4))

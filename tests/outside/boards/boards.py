"""Programs on the boards: each run goes through a board's own run.sh, with a timeout, and leaves no process behind."""
import os
import select
import shutil
import signal
import struct
import subprocess
import sys
import tempfile
import time

HERE = os.path.dirname(os.path.abspath(__file__))
sys.path.insert(0, os.path.dirname(os.path.dirname(HERE)))
import harness

ROOT = os.path.abspath(os.path.join(HERE, '..', '..', '..'))
SECONDS = 240
BEGINS = {'virt': '0x80000000', 'flat': '0x1000'}
TEXT, DATA_FLAGS = 1, 6


class Counted(harness.Verdict):
    """Checks of one task, which are added to those of its case."""

    def __init__(self):
        super().__init__(quiet=True)


def run(words, data=b'', seconds=SECONDS, environment=None, folder=None):
    """Status, standard output and standard error. The output goes to files: who reads a pipe is woken for each byte."""
    with tempfile.TemporaryFile() as out, tempfile.TemporaryFile() as err:
        process = start(words, environment, folder, seconds, out, err)
        try:
            process.communicate(data, timeout=seconds)
            status = process.returncode
        except subprocess.TimeoutExpired:
            status = 'no end in %d s' % seconds
        finally:
            end(process)
            process.wait()
        return status, content(out), content(err)


def content(file):
    file.seek(0)
    return file.read()


def end(process):
    try:
        os.killpg(process.pid, signal.SIGKILL)
    except ProcessLookupError:
        pass


def start(words, environment=None, folder=None, seconds=SECONDS, out=subprocess.PIPE, err=subprocess.PIPE):
    """A process that leads a group. `timeout` ends it where this program no longer can."""
    words = ['timeout', '-k', '5', str(seconds + 10), *words]
    return subprocess.Popen(words, stdin=subprocess.PIPE, stdout=out, stderr=err, cwd=folder, env=dict(os.environ, **(environment or {})),
                            start_new_session=True)


class Board:
    """A folder of boards/, of this tree or of a copy of it. For many runs its monitor is built beforehand."""

    def __init__(self, name, tree=os.path.join(ROOT, 'boards'), strict=False, many=False):
        self.name = name + (', strict' if strict else '')
        self.script = os.path.join(tree, name, 'run.sh')
        self.environment = {'STRICT': '1' if strict else '', 'MONITOR': ''}
        if many:
            self.made = tempfile.TemporaryDirectory()
            monitor = os.path.join(self.made.name, 'monitor')
            subprocess.run(['sh', os.path.join(tree, 'build.sh'), name, BEGINS[name], monitor], check=True, env=dict(os.environ, **self.environment))
            self.environment['MONITOR'] = monitor

    def words(self, file, given=None):
        return ['sh', self.script, file] + ([] if given is None else [given])

    def run(self, file, data=b'', given=None, seconds=SECONDS):
        return run(self.words(file, given), data, seconds, self.environment)

    def first(self, file, many, seconds=SECONDS, data=b''):
        """The first bytes of an output that may have no end."""
        process = start(self.words(file), self.environment, seconds=seconds)
        try:
            process.stdin.write(data)
            process.stdin.close()
            return gathered(process.stdout.fileno(), many, seconds)
        finally:
            end(process)
            process.stdout.close()
            process.stderr.close()
            process.wait()


def gathered(handle, many, seconds):
    """Bytes of a pipe, until there are so many or the time is over."""
    found, end_of_time = b'', time.time() + seconds
    while len(found) < many and time.time() < end_of_time:
        if select.select([handle], [], [], 1)[0]:
            more = os.read(handle, many - len(found))
            if more == b'':
                return found
            found += more
    return found


def answer_of_run(compiler, file, data=b''):
    """What `cc run` answers, as a board tells it: a trap's line behind the output."""
    status, out, err = run([compiler, 'run', file], data)
    if status == 125 and err.startswith(b'cc: '):
        return status, out + err[4:], b''
    return status, out, err


def segment(offset, address, size, memory, flags):
    return struct.pack('<8I', 1, offset, address, address, size, memory, flags, 4096)


def executable(words, data=bytes(16), entry=0x11000, memory=None, stack=0x100000, tail=b''):
    """A file in the form of `cc build`: text of words, data, and a stack that ends at 0x80000000. `tail` follows the words."""
    text = b''.join(struct.pack('<I', word) for word in words) + tail
    place = 0x1000 + (len(text) + 4095) // 4096 * 4096
    head = b'\x7fELF\x01\x01\x01' + bytes(9) + struct.pack('<2H5I6H', 2, 243, 1, entry, 52, 0, 0, 52, 32, 3, 0, 0, 0)
    headers = [segment(0x1000, 0x11000, len(text), len(text), TEXT),
               segment(place, 0x10000 + place, len(data), len(data) if memory is None else memory, DATA_FLAGS),
               segment(0, 0x80000000 - stack, 0, stack, DATA_FLAGS)]
    front = (head + b''.join(headers)).ljust(0x1000, b'\0')
    return (front + text).ljust(place, b'\0') + data


class Kept:
    """A file with these bytes, as long as it is asked for."""

    def __init__(self, content):
        self.made = tempfile.TemporaryDirectory()
        self.path = os.path.join(self.made.name, 'program')
        with open(self.path, 'wb') as file:
            file.write(content)

    def __enter__(self):
        return self.path

    def __exit__(self, *_):
        self.made.cleanup()


def mutated(folder, path, change):
    """A copy of boards/ with a changed file; whether it was changed."""
    tree = os.path.join(folder, 'boards')
    shutil.copytree(os.path.join(ROOT, 'boards'), tree)
    name = os.path.join(tree, path)
    with open(name, 'rb') as file:
        before = file.read()
    subprocess.run(['sed', '-i', change, name], check=True)
    with open(name, 'rb') as file:
        return tree, file.read() != before

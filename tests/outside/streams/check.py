#!/usr/bin/env python3
"""Holds `CC run` and `CC interp` against what others see of their output: `check.py CC`. The last line counts what passed and failed.

Partners sit at a pseudo terminal, at two pipes, behind a file, a full device and a closed pipe. What they have to see is written here by
hand. No check is of speed; each has a time after which it fails, of so many short runs of the program on this machine.
"""
import os
import pty
import select
import signal
import subprocess
import sys
import termios
import time

HERE = os.path.dirname(os.path.abspath(__file__))
sys.path.insert(0, os.path.dirname(os.path.dirname(HERE)))
import harness
from harness import pace

# So many short runs a check waits for what has to come.
PATIENCE = 10000
# Steps or ticks that are not used up within that time.
ENDLESS = str(2 ** 63 - 1)
COMMANDS = ('run', 'interp')

NAMES = '''int rv_getbyte(void);
void rv_putbyte(int c);
static void text(const char s[]) { for (int i = 0; s[i]; i++) rv_putbyte(s[i]); }
'''
SOURCES = {
    # Asks for a name, and greets it.
    'ask': '''int main(void) {
    text("name? ");
    int c = rv_getbyte();
    text("hello ");
    for (; c >= 0 && c != 10; c = rv_getbyte()) rv_putbyte(c);
    rv_putbyte(10);
    return 7;
}''',
    # Answers each line by the same line in brackets, without a newline.
    'answer': '''int main(void) {
    for (;;) {
        int c = rv_getbyte();
        if (c < 0) return 0;
        rv_putbyte('[');
        for (; c >= 0 && c != 10; c = rv_getbyte()) rv_putbyte(c);
        rv_putbyte(']');
    }
}''',
    # Answers each byte by the same byte.
    'copy': '''int main(void) {
    for (int c = rv_getbyte(); c >= 0; c = rv_getbyte()) rv_putbyte(c);
    return 0;
}''',
    # Writes, and goes on for ever.
    'spin': 'int main(void) { text("before"); for (;;) ; }',
    # Writes, and calls for ever.
    'calls': 'static int same(int x) { return x; } int main(void) { text("before"); for (int i = 0; ; ) i = same(i); }',
    # Writes a byte now and then, for ever.
    'drip': 'int main(void) { for (;;) { rv_putbyte(46); for (int i = 0; i < 1000000; i++) ; } }',
    # Writes, reads, writes one byte more, and goes on for ever.
    'late': 'int main(void) { text("name? "); rv_getbyte(); rv_putbyte(33); for (;;) ; }',
    # Writes, goes on for some time, and ends.
    'slow': 'int main(void) { text("before"); for (int i = 0; i < 4000000; i++) ; return 9; }',
    # Writes more than a buffer holds, and goes on for ever.
    'long': 'int main(void) { for (int i = 0; i < 100000; i++) rv_putbyte(46); for (;;) ; }',
}


class Programs:
    """The words that run a program of SOURCES by one of the commands."""

    def __init__(self, program, folder):
        self.program, self.folder = program, folder
        for name, source in SOURCES.items():
            with open(self.place(name + '.c'), 'w') as file:
                file.write(NAMES + source + '\n')
            subprocess.run([program, 'build', name + '.c', '-o', name], cwd=folder, check=True)

    def place(self, name):
        return os.path.join(self.folder, name)

    def words(self, command, name, most=ENDLESS):
        return [self.program, command, self.place(name if command == 'run' else name + '.c'), '--max', most]


def deadline():
    """When what has to come is no longer waited for."""
    return pace.Deadline(pace.of_program(harness.Case.path), PATIENCE)


def read_until(descriptor, wanted):
    """What comes, until so many bytes came, or nothing more does."""
    found, end = b'', deadline()
    while len(found) < wanted:
        ready, _, _ = select.select([descriptor], [], [], end.left())
        if not ready:
            if end.has_passed():
                break
            continue
        try:
            some = os.read(descriptor, wanted - len(found))
        except OSError:
            break
        if not some:
            break
        found += some
    return found


def nothing_more(descriptor):
    """What comes of an output that has to have ended."""
    return read_until(descriptor, 1)


def ended(process):
    """The status of a process that has to end."""
    end = deadline()
    while not end.has_passed():
        try:
            return process.wait(timeout=end.left())
        except subprocess.TimeoutExpired:
            pass
    process.kill()
    process.wait()
    return 'no end'


def finished(words, given=None, **streams):
    """Status, output and errors of a process that has to end."""
    process = subprocess.Popen(words, **streams)
    try:
        output, errors = pace.communicate(process, pace.of_program(harness.Case.path), PATIENCE, given)
    except subprocess.TimeoutExpired:
        process.communicate()
        return 'no end', b'', b''
    return process.returncode, output, errors


def at_terminal(checks, programs, command):
    """A prompt is seen before its answer is typed."""
    ours, theirs = pty.openpty()
    settings = termios.tcgetattr(theirs)
    settings[1] &= ~termios.OPOST
    settings[3] &= ~termios.ECHO
    termios.tcsetattr(theirs, termios.TCSANOW, settings)
    process = subprocess.Popen(programs.words(command, 'ask'), stdin=theirs, stdout=theirs, stderr=subprocess.DEVNULL)
    os.close(theirs)
    checks.expect(command + ': the prompt on a terminal', read_until(ours, 6), b'name? ')
    os.write(ours, b'Ada\n')
    checks.expect(command + ': the greeting on a terminal', read_until(ours, 10), b'hello Ada\n')
    checks.expect(command + ': the status on a terminal', ended(process), 7)
    os.close(ours)


def talk(checks, programs, command, name, lines, answer):
    """Each line is sent after the answer to the one before came."""
    pipe = subprocess.PIPE
    process = subprocess.Popen(programs.words(command, name), stdin=pipe, stdout=pipe, stderr=subprocess.DEVNULL, bufsize=0)
    found = []
    for line in lines:
        process.stdin.write(line)
        found.append(read_until(process.stdout.fileno(), len(answer(line))))
        if found[-1] != answer(line):
            break
    checks.expect('%s %s: answers at two pipes' % (command, name), found, [answer(line) for line in lines])
    process.stdin.close()
    checks.expect('%s %s: nothing more at two pipes' % (command, name), nothing_more(process.stdout.fileno()), b'')
    checks.expect('%s %s: the status at two pipes' % (command, name), ended(process), 0)
    process.stdout.close()


def with_partners(checks, programs, command):
    lines = [b'line %d\n' % k for k in range(40)] + [b'\n', b'x' * 5000 + b'\n', b'y' * 9000 + b'\n', b'end\n']
    talk(checks, programs, command, 'answer', lines, lambda line: b'[' + line[:-1] + b']')
    parts = [b'a', b'\0', b'bc' * 100, b'\xff' * 8192, b'd' * 8193, b'\n']
    talk(checks, programs, command, 'copy', parts, lambda part: part)


def while_it_goes_on(checks, programs, command):
    """Output is seen while the run goes on without reading."""
    for name, wanted in (('spin', b'before'), ('calls', b'before'), ('drip', b'....')):
        process = subprocess.Popen(programs.words(command, name), stdin=subprocess.DEVNULL, stdout=subprocess.PIPE)
        checks.expect('%s %s: output of a run that goes on' % (command, name), read_until(process.stdout.fileno(), len(wanted)), wanted)
        process.kill()
        process.communicate()


def interrupted(checks, programs, command):
    """What was written before an interruption is in the file. The time until it is there is waited for, as the machine may be slow."""
    place = programs.place('written by ' + command)
    for number in (signal.SIGINT, signal.SIGTERM):
        with open(place, 'wb') as file:
            process = subprocess.Popen(programs.words(command, 'spin'), stdin=subprocess.DEVNULL, stdout=file)
        end = deadline()
        time.sleep(2)
        while os.path.getsize(place) < 6 and not end.has_passed():
            time.sleep(0.1)
        process.send_signal(number)
        checks.expect('%s: killed by %s' % (command, number.name), ended(process), -number)
        with open(place, 'rb') as file:
            checks.expect('%s: output before %s' % (command, number.name), file.read(), b'before')


def refused(checks, name, words, output, error, stdin=subprocess.DEVNULL):
    found = finished(words, stdin=stdin, stdout=output, stderr=subprocess.PIPE)
    checks.expect(name, found, (126, None, b'cc: port fault %d\n' % error))


def over_refusals(checks, programs, command):
    """Output that is refused is told by the status and one line: at the end, at the next byte, where a buffer is full."""
    reader, closed = os.pipe()
    os.close(reader)
    with open('/dev/full', 'wb') as full, open('/dev/null', 'rb') as null:
        for place, output in (('a full device', full), ('a closed pipe', closed)):
            for name in ('ask', 'late', 'slow', 'long'):
                refused(checks, '%s %s: %s' % (command, name, place), programs.words(command, name), output, 803, null)
            refused(checks, '%s spin: %s' % (command, place), programs.words(command, 'spin', '50000000'), output, 803, null)
    os.close(closed)


def over_a_folder(checks, programs, command):
    """Input that cannot be read is told, and what was written before it is seen."""
    folder = os.open(programs.folder, os.O_RDONLY)
    found = finished(programs.words(command, 'ask'), stdin=folder, stdout=subprocess.PIPE, stderr=subprocess.PIPE)
    checks.expect(command + ': a folder as input', found, (126, b'name? ', b'cc: port fault 802\n'))
    with open('/dev/full', 'wb') as full:
        refused(checks, command + ': a folder as input, a full device as output', programs.words(command, 'ask'), full, 802, folder)
    os.close(folder)


def under_an_emulator(checks, programs):
    """A built file where the system's own calls fail: a read is the input's end, a write ends the program with 126."""
    program = programs.place('failing')
    with open(program + '.c', 'w') as file:
        file.write(NAMES + 'int main(void) { int n = 0; while (rv_getbyte() >= 0) n++; if (n != 0) text("some"); return n == 0 ? 40 : 50; }\n')
    subprocess.run([programs.program, 'build', 'failing.c', '-o', 'failing'], cwd=programs.folder, check=True)
    run = ['qemu-riscv32', program]
    closed = ['sh', '-c', 'exec qemu-riscv32 "$0" <&-', program]
    checks.expect('emulator: no input', finished(run, stdin=subprocess.DEVNULL, stdout=subprocess.PIPE), (40, b'', None))
    checks.expect('emulator: a closed input', finished(closed, stdin=subprocess.DEVNULL, stdout=subprocess.PIPE), (40, b'', None))
    folder = os.open('/', os.O_RDONLY)
    checks.expect('emulator: a folder as input', finished(run, stdin=folder, stdout=subprocess.PIPE), (40, b'', None))
    os.close(folder)
    ours, theirs = os.pipe()
    os.set_blocking(ours, False)
    checks.expect('emulator: an input that has nothing yet', finished(run, stdin=ours, stdout=subprocess.PIPE), (40, b'', None))
    os.write(theirs, bytes(range(256)))
    checks.expect('emulator: an input with bytes, and nothing more yet', finished(run, stdin=ours, stdout=subprocess.PIPE), (50, b'some', None))
    os.write(theirs, b'x')
    full = os.open('/dev/full', os.O_WRONLY)
    checks.expect('emulator: a full device', finished(run, stdin=ours, stdout=full)[0], 126)
    os.close(full)
    os.write(theirs, b'x')
    broken = ['sh', '-c', 'exec qemu-riscv32 "$0" >&-', program]
    checks.expect('emulator: a closed output', finished(broken, stdin=ours, stdout=subprocess.PIPE)[0], 126)
    os.close(ours)
    os.close(theirs)


def copies(checks, programs, command, size):
    """Bytes of a file are copied as they are, from a file and from a pipe."""
    data = harness.seeded(20261126).randbytes(size)
    place = programs.place('data of ' + command)
    with open(place, 'wb') as file:
        file.write(data)
    with open(place, 'rb') as file:
        found = finished(programs.words(command, 'copy'), stdin=file, stdout=subprocess.PIPE, stderr=subprocess.PIPE)
    checks.expect('%s: a copy of a file' % command, found == (0, data, b''), True)
    status, output, _ = finished(programs.words(command, 'copy'), data, stdin=subprocess.PIPE, stdout=subprocess.PIPE)
    checks.expect('%s: a copy of what a pipe gave' % command, (status, output == data), (0, True))


def by_command(part):
    """The part as a case of each command."""
    for command in COMMANDS:
        yield harness.Row(f'{part.__name__} {command}', lambda case, command=command: part(case, built_programs(case), command))


def built_programs(case):
    """The programs in the case's folder."""
    return Programs(case.path, case.program.folder())


def emulated(case):
    harness.needs('qemu-riscv32')
    under_an_emulator(case, built_programs(case))


def copied(case, command):
    copies(case, built_programs(case), command, (16 if command == 'run' else 1) * 2 ** 20)


def cases(_):
    for part in (at_terminal, with_partners, while_it_goes_on, interrupted, over_refusals, over_a_folder):
        yield from by_command(part)
    for command in COMMANDS:
        yield harness.Row(f'copies {command}', copied, command)
    yield harness.Row('under_an_emulator', emulated)


if __name__ == '__main__':
    sys.exit(harness.main(cases))

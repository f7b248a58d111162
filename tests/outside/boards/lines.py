"""The boards' serial line: every byte value, the input's end, much output, output without an end, a terminal, and files that are refused."""
import os
import pty
import select
import struct
import tempfile
import time

import boards

ECHO = 'int c; while ((c = rv_getbyte()) != -1) rv_putbyte(c); return 5;'
TWICE = 'int a = rv_getbyte(), b = rv_getbyte(), c = rv_getbyte(); return (a == 65) + (b == -1) * 2 + (c == -1) * 4;'
SHORT = 'return rv_getbyte();'
MUCH = 'for (unsigned n = 0; n < 1048576; n++) rv_putbyte(n * 7 >> 3 & 255); return 9;'
ENDLESS = 'for (unsigned n = 0; ; n++) rv_putbyte(n * 11 >> 2 & 255);'
EVERY = bytes(range(256)) * 3 + bytes(range(255, -1, -1)) + b'\x04\x04\x01x\x01c\x1a\x00\xff\r\n'


def built(compiler, body, folder):
    """The file of a main with this body."""
    with open(os.path.join(folder, 'main.c'), 'w', encoding='latin-1') as file:
        file.write('#include <rvio.h>\nint main(void) { %s }\n' % body)
    answer = boards.run([compiler, 'build', 'main.c', '-o', 'program'], folder=folder)
    if answer != (0, b'', b''):
        raise OSError('not built: %s' % (answer,))
    return os.path.join(folder, 'program')


def given(compiler, board, name, body, data, answer, seconds=boards.SECONDS):
    """A program with an input: from standard input, and from a file that is named."""
    counted = boards.Counted()
    with tempfile.TemporaryDirectory() as folder:
        program, named = built(compiler, body, folder), os.path.join(folder, 'input, of a test')
        with open(named, 'wb') as file:
            file.write(data)
        counted.expect('%s, cc run' % name, boards.answer_of_run(compiler, program, data), answer)
        counted.expect('%s, %s, standard input' % (name, board.name), board.run(program, data, seconds=seconds), answer)
        counted.expect('%s, %s, INPUT' % (name, board.name), board.run(program, b'', named, seconds=seconds), answer)
    return counted


def much(compiler, board):
    counted = boards.Counted()
    with tempfile.TemporaryDirectory() as folder:
        wanted = bytes(n * 7 >> 3 & 255 for n in range(1048576))
        counted.expect('1 MiB of output, ' + board.name, board.run(built(compiler, MUCH, folder)), (9, wanted, b''))
    return counted


def endless(compiler, board):
    counted = boards.Counted()
    with tempfile.TemporaryDirectory() as folder:
        wanted = bytes(n * 11 >> 2 & 255 for n in range(10000))
        counted.expect('output without an end, ' + board.name, board.first(built(compiler, ENDLESS, folder), 10000), wanted)
    return counted


def waited(handle, found, what, seconds):
    """What a terminal shows, until it shows this."""
    end_of_time = time.time() + seconds
    while what not in found and time.time() < end_of_time:
        if select.select([handle], [], [], 1)[0]:
            try:
                found += os.read(handle, 1000)
            except OSError:
                break
    return found


def on_terminal(words, steps, folder, seconds=boards.SECONDS):
    """Types on a terminal: each step waits for a text and then types one. Answers the status and what was shown."""
    process, handle = pty.fork()
    if process == 0:
        os.chdir(folder)
        os.execvp('timeout', ['timeout', '--foreground', '-k', '5', str(seconds + 10), *words])
    found = shown = b''
    for text, typed in steps:
        found = waited(handle, found, text, seconds)
        shown, found = shown + found, b''
        os.write(handle, typed)
    found = waited(handle, found, b'\0', seconds)
    status = ended(process, seconds)
    os.close(handle)
    return status, (shown + found).replace(b'\r\n', b'\n')


def ended(process, seconds):
    """A child's status; one that has no end is ended with all its group."""
    end_of_time = time.time() + seconds
    while time.time() < end_of_time:
        done, status = os.waitpid(process, os.WNOHANG)
        if done:
            return os.waitstatus_to_exitcode(status)
        time.sleep(0.05)
    os.killpg(process, 9)
    os.waitpid(process, 0)
    return 'no end in %d s' % seconds


def terminated(words):
    """The status and the output of a board's script that is ended while the program runs: the output ends when its machine does."""
    process = boards.start(words)
    process.stdin.close()
    found = boards.gathered(process.stdout.fileno(), 1, boards.SECONDS)
    process.terminate()
    found += boards.gathered(process.stdout.fileno(), 100, 30)
    status = process.wait()
    boards.end(process)
    return status, found


def terminal(compiler, board):
    """What is typed is shown by the terminal, a line at a time; Ctrl-D is the end. Behind a program that ends before, who ran it has what comes
    next: on flat, where no byte is read ahead, the rest of the line."""
    counted = boards.Counted()
    line, twice = b'a line\n', b'a line\r\na line\r\n'
    with tempfile.TemporaryDirectory() as folder:
        words = board.words(built(compiler, ECHO, folder))
        status, shown = on_terminal(words, [(b'', line), (twice, b'\x04')], folder)
        counted.expect('a terminal, ' + board.name, (status, shown.replace(b'^D\b\b', b'')), (5, line + line))
        words = ['sh', '-c', '"$@"; echo "status $?"; read next; echo "then $next"; exit 3', 'sh', *board.words(built(compiler, SHORT, folder))]
        steps = [(b'', line)] + ([] if board.name == 'flat' else [(b'status 97', b'more\n')])
        wanted = b'a line\nstatus 97\n' + (b'then line\n' if board.name == 'flat' else b'more\nthen more\n')
        counted.expect('the next line, ' + board.name, on_terminal(words, steps, folder), (3, wanted))
        words = board.words(built(compiler, 'for (;;) rv_putbyte(65);', folder))
        counted.expect('Ctrl-C, ' + board.name, on_terminal(words, [(b'AAAA', b'\x03')], folder)[0], 130)
        words = board.words(built(compiler, 'rv_putbyte(65); return rv_getbyte();', folder))
        counted.expect('Ctrl-C at a read, ' + board.name, on_terminal(words, [(b'A', b'\x03')], folder)[0], 130)
        words = board.words(built(compiler, 'rv_putbyte(65); for (;;) ;', folder))
        counted.expect('TERM, ' + board.name, terminated(words), (143, b'A'))
    return counted


def header(file, number, **fields):
    """A file with other words in a program header."""
    changed = bytearray(file)
    for name, value in fields.items():
        struct.pack_into('<I', changed, 52 + 32 * number + 4 * ['type', 'offset', 'address', 'place', 'size', 'memory', 'flags'].index(name), value)
    return bytes(changed)


def refused_files():
    """What a board does not take, by name."""
    good = boards.executable([0x73])
    yield 'no ELF file', b'int main(void) { return 0; }\n'
    yield 'nothing', b''
    yield '64 bits', good[:4] + b'\x02' + good[5:]
    yield 'compressed code', good[:36] + b'\x01' + good[37:]
    yield 'headers of 40 bytes', good[:42] + b'\x28' + good[43:]
    yield 'text that may be read', header(good, 0, flags=5)
    yield 'data that may be executed', header(good, 1, flags=7)
    yield 'data within a page', header(good, 1, address=0x12010)
    yield 'data over the text', header(good, 1, address=0x11000)
    yield 'more bytes in the file than in memory', header(good, 1, memory=15)
    yield 'past the end of the addresses', header(good, 2, memory=0x80200000)
    yield 'more than there is memory', header(good, 2, address=0x11000000, memory=0x6F000000)
    yield 'past the end of the file\'s place', header(good, 1, offset=0xFFFFFF00, size=0x10)
    yield 'four segments', good[:44] + b'\x04' + good[45:148] + boards.segment(0, 0x20000, 0, 4096, 6) + good[180:]


def refused(board):
    counted = boards.Counted()
    for name, content in refused_files():
        with boards.Kept(content) as file:
            counted.expect('%s, %s' % (name, board.name), board.run(file), (126, b'bad file\n', b''))
    counted.expect('no such file, ' + board.name, board.run('/no/such/file')[0], 2)
    return counted


def too_little():
    """A board that has less memory than its monitor was told: the monitor's own trap is told."""
    counted = boards.Counted()
    with tempfile.TemporaryDirectory() as folder, boards.Kept(boards.executable([0x73])) as file:
        tree, changed = boards.mutated(folder, 'virt/run.sh', 's/-m "$memory"/-m 64/')
        counted.expect('64 MiB for 128, changed', changed, True)
        counted.expect('64 MiB for 128', boards.Board('virt', tree).run(file), (126, b'monitor trap\n', b''))
    return counted


def all_checks(compiler):
    yield too_little, ()
    for board in (boards.Board('virt'), boards.Board('flat')):
        yield much, (compiler, board)
        yield endless, (compiler, board)
        yield terminal, (compiler, board)
        yield given, (compiler, board, 'every byte value', ECHO, EVERY, (5, EVERY, b''))
        yield given, (compiler, board, 'no byte', ECHO, b'', (5, b'', b''))
        yield given, (compiler, board, 'the end stays the end', TWICE, b'A', (7, b'', b''))
        yield refused, (board,)

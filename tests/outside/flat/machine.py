"""Programs on the machine, by test_code, and their files under qemu-riscv32."""
import os
import shutil
import subprocess
import sys
import tempfile

sys.path.insert(0, os.path.dirname(os.path.dirname(os.path.dirname(os.path.abspath(__file__)))))
import harness

QEMU = shutil.which('qemu-riscv32')


def written(script, *words):
    """The lines that a script of random programs writes."""
    return subprocess.run([sys.executable, script, *words], capture_output=True, text=True, check=True).stdout.splitlines(True)


def answers(program, rows):
    """The lines that the program prints of rows."""
    done = subprocess.run([program], input=b''.join(row + b'\n' for row in rows), capture_output=True, check=False)
    return done.stdout.decode('ascii').splitlines()


def told(program, rows):
    """What the program prints of each row, by the name of the row's program."""
    lines = [line.partition(': ') for line in answers(program, rows)]
    return {name: said for name, _, said in lines}


def write_files(program, rows, names, folder):
    """Writes the file of each row to the folder, under its name."""
    for name, digits in zip(names, answers(program, rows)):
        try:
            data = bytes.fromhex(digits)
        except ValueError:
            continue
        with open(os.path.join(folder, name), 'wb') as file:
            file.write(data)


def under_qemu(program, folder, row):
    """The status, and the bytes put."""
    path = os.path.join(folder, row.name)
    if not os.path.exists(path):
        return 'no file'
    os.chmod(path, 0o755)
    return program.run(path, given=row.data, by=[QEMU])[:2]


def try_rows(counted, program, subject, rows, script):
    """Tries rows of a subject: the script gives what the program reads of one, and says what it prints."""
    emulated = harness.Program(program)
    with tempfile.TemporaryDirectory() as folder:
        said = told(program, [script.given(subject, row) for row in rows])
        for row in rows:
            counted.expect(row.name, said.get(row.name), script.said(row))
        write_files(program, [script.given(subject + '_file', row) for row in rows], [row.name for row in rows], folder)
        if not QEMU:
            counted.skip(len(rows), 'qemu-riscv32 is missing')
            return
        for row, answer in zip(rows, harness.side_by_side(lambda row: under_qemu(emulated, folder, row), rows)):
            output = b''.join(bytes.fromhex(word[4:]) for word in row.trace if word.startswith('put:'))
            counted.expect(f'{row.name} under qemu-riscv32', answer, (row.status, output))

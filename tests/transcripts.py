#!/usr/bin/env python3
"""Runs the commands that a document shows, lines of four spaces and `$`, and compares what they write, on standard output
and on standard error, with the lines shown under them; a line `..` stands for any lines.

    python3 tests/transcripts.py CC FILE..

Called from the repository's root; `bin/cc` in a command is CC, and so is `zkc`. A command whose program is missing (qemu-riscv32) is left
out and told. The last line counts the checks."""
import os, re, shutil, subprocess, sys, tempfile

import harness

def commands(text):
    """The commands of a page, each with what is shown under it."""
    for command, output in re.findall(r'^    \$ (.*)\n((?:    (?!\$ ).*\n)*)', text, re.M):
        yield command, re.sub(r'^    ', '', output, flags=re.M)

def fits(shown, said):
    pattern = ''.join('(?:.*\n)*' if line == '..\n' else re.escape(line) for line in shown.splitlines(keepends=True))
    return re.fullmatch(pattern, said) is not None

def main():
    cc = os.path.abspath(sys.argv[1])
    pages = [(name, open(name, encoding='utf-8').read()) for name in sys.argv[2:]]
    verdict = harness.Verdict()
    with tempfile.TemporaryDirectory() as work:
        shutil.copytree('examples', work + '/examples')
        os.mkdir(work + '/bin')
        os.symlink(cc, work + '/bin/cc')
        os.symlink(cc, work + '/bin/zkc')
        path = {**os.environ, 'PATH': work + '/bin:' + os.environ.get('PATH', '')}
        for name, text in pages:
            for command, shown in commands(text):
                if 'qemu-riscv32' in command and not shutil.which('qemu-riscv32'):
                    verdict.skip(1, f'qemu-riscv32 is missing: {command}')
                    continue
                done = subprocess.run(['sh', '-c', command], cwd=work, env=path, stdout=subprocess.PIPE, stderr=subprocess.STDOUT, stdin=subprocess.DEVNULL)
                said = done.stdout.decode('latin-1')
                verdict.holds(f'{name}: {command}\n{said}', fits(shown, said))
    sys.exit(verdict.end())

main()
